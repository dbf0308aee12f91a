//! Works of one thread, each done so often, for who counts their instructions.
use crate::pools::here::{ManagedPool, UnmanagedPool};
use crate::pools::{Managed, Unmanaged};
use crate::rows::Waiter;
use std::future::Future;
use std::hint::black_box;
use std::pin::pin;
use std::task::{Context, Waker};

const LIMIT: usize = 16;

fn repeat(times: usize, mut work: impl FnMut()) {
    for _ in 0..times {
        work();
    }
}

/// Gets of a pool whose objects are all out, each of which joins the queue and is dropped there.
fn join_and_leave(pool: &ManagedPool, times: usize) {
    let _held: Vec<_> = (0..LIMIT).map(|_| Waiter::new().wait(Managed::get(pool))).collect();
    repeat(times, || assert!(pin!(Managed::get(pool)).poll(&mut Context::from_waker(Waker::noop())).is_pending()));
}

/// Does the work of this name so often. Says whether there is one.
pub fn run(name: &str, times: usize) -> bool {
    let (pool, waiter) = (<ManagedPool as Managed>::new(LIMIT), Waiter::new());
    let unmanaged = <UnmanagedPool as Unmanaged>::new(LIMIT);
    match name {
        "managed get and return" => repeat(times, || *waiter.wait(Managed::get(&pool)) += 1),
        "managed get at once and return" => repeat(times, || *waiter.wait(pool.get_at_once()) += 1),
        "managed create and take" => {
            repeat(times, || _ = black_box(<ManagedPool as Managed>::take(waiter.wait(Managed::get(&pool)))));
        }
        "managed get that joins the queue and is dropped" => join_and_leave(&pool, times),
        "unmanaged get and return" => repeat(times, || *waiter.wait(Unmanaged::get(&unmanaged)) += 1),
        "unmanaged try_get and return" => repeat(times, || *Unmanaged::try_get(&unmanaged) += 1),
        _ => return false,
    }
    true
}
