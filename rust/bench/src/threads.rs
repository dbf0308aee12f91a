//! Works between threads: a turn is a get, what is done while the object is held, and its return.
use crate::pools::{Managed, Unmanaged, each_managed, each_unmanaged};
use crate::rows::{Row, Waiter};
use std::sync::{Barrier, Mutex};
use std::thread;
use std::time::Instant;

const LIMIT: usize = 3;
const TURNS: usize = 12_000;

/// The nanoseconds of a turn, between so many threads, from the first that begins to the last that ends.
fn among(threads: usize, turn: impl Fn(&Waiter) + Sync) -> f64 {
    let (start, times) = (Barrier::new(threads), Mutex::new(Vec::new()));
    thread::scope(|scope| {
        for _ in 0..threads {
            scope.spawn(|| {
                let waiter = Waiter::new();
                start.wait();
                let begun = Instant::now();
                (0..TURNS / threads).for_each(|_| turn(&waiter));
                times.lock().expect("no panic").push((begun, Instant::now()));
            });
        }
    });
    let times = times.into_inner().expect("no panic");
    let begun = times.iter().map(|it| it.0).min().expect("a thread");
    let ended = times.iter().map(|it| it.1).max().expect("a thread");
    (ended - begun).as_nanos() as f64 / TURNS as f64
}

fn managed<M: Managed>(row: &mut Row, threads: usize, held: fn()) {
    let pool = M::new(LIMIT);
    row.add(M::NAME, move || {
        among(threads, |waiter| {
            let mut object = waiter.wait(pool.get());
            held();
            *object += 1;
        })
    });
}

fn unmanaged<U: Unmanaged>(row: &mut Row, threads: usize, held: fn()) {
    let pool = U::new(LIMIT);
    row.add(U::NAME, move || {
        among(threads, |waiter| {
            let mut object = waiter.wait(pool.get());
            held();
            *object += 1;
        })
    });
}

pub fn time(rounds: usize, over: &str, held: fn()) {
    for threads in [1, 2, 4, 8] {
        let mut row = Row::default();
        each_managed!(managed(&mut row, threads, held));
        row.time(&format!("managed, {threads} threads{over}"), rounds);
        let mut row = Row::default();
        each_unmanaged!(unmanaged(&mut row, threads, held));
        row.time(&format!("unmanaged, {threads} threads{over}"), rounds);
    }
}
