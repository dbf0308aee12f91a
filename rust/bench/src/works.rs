//! Works of one thread.
use crate::pools::{Managed, Unmanaged, each_managed, each_unmanaged};
use crate::rows::{Row, Waiter, alone};
use std::hint::black_box;

const LIMIT: usize = 16;

fn get<M: Managed>(row: &mut Row) {
    let (pool, waiter) = (M::new(LIMIT), Waiter::new());
    row.add(M::NAME, move || alone(|| *waiter.wait(pool.get()) += 1));
}

fn get_at_once<M: Managed>(row: &mut Row) {
    let (pool, waiter) = (M::new(LIMIT), Waiter::new());
    row.add(M::NAME, move || alone(|| *waiter.wait(pool.get_at_once()) += 1));
}

fn create_and_take<M: Managed>(row: &mut Row) {
    let (pool, waiter) = (M::new(LIMIT), Waiter::new());
    row.add(M::NAME, move || alone(|| _ = black_box(M::take(waiter.wait(pool.get())))));
}

fn clone_and_drop<M: Managed>(row: &mut Row) {
    let pool = M::new(LIMIT);
    row.add(M::NAME, move || alone(|| drop(black_box(pool.clone()))));
}

fn request<M: Managed>(row: &mut Row) {
    let (pool, waiter) = (M::new(LIMIT), Waiter::new());
    row.add(M::NAME, move || {
        alone(|| {
            let own = pool.clone();
            *waiter.wait(own.get()) += 1;
        })
    });
}

fn get_unmanaged<U: Unmanaged>(row: &mut Row) {
    let (pool, waiter) = (U::new(LIMIT), Waiter::new());
    row.add(U::NAME, move || alone(|| *waiter.wait(pool.get()) += 1));
}

fn try_get<U: Unmanaged>(row: &mut Row) {
    let pool = U::new(LIMIT);
    row.add(U::NAME, move || alone(|| *pool.try_get() += 1));
}

fn take_and_add<U: Unmanaged>(row: &mut Row) {
    let pool = U::new(LIMIT);
    row.add(U::NAME, move || alone(|| pool.try_add(black_box(U::take(pool.try_get())))));
}

pub fn time(rounds: usize) {
    macro_rules! rows {
        ($($each:ident: $name:literal => $work:ident,)*) => {
            $({
                let mut row = Row::default();
                $each!($work(&mut row));
                row.time($name, rounds);
            })*
        };
    }
    rows! {
        each_managed: "managed, get and return" => get,
        each_managed: "managed, get with a wait of zero, and return" => get_at_once,
        each_managed: "managed, create and take" => create_and_take,
        each_managed: "managed, clone and drop a handle" => clone_and_drop,
        each_managed: "managed, clone, get, return, drop the handle" => request,
        each_unmanaged: "unmanaged, get and return" => get_unmanaged,
        each_unmanaged: "unmanaged, try_get and return" => try_get,
        each_unmanaged: "unmanaged, try_get, take, try_add" => take_and_add,
    }
}
