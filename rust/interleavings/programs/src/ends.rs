//! The end of a pool: drains, the last handle, keepers.
use crate::managed::{cancels, takes, use_one};
use crate::pools::{HAND, Line, Managed, ONE, Sees, Setup, Way, is_whole, line, pool, shared};
use crate::timers::rings;
use deadpool::managed::Limits;
use scheduler::{Job, Program, block_on, poll_with_dead_waker};
use std::future::poll_fn;
use std::pin::pin;
use std::time::Duration;

/// Waits for a drain, and says whether it was told of the end: it had to wait.
pub fn is_told<T>(drain: impl Future<Output = T>) -> bool {
    let (mut drain, mut was_pending) = (pin!(drain), false);
    block_on(poll_fn(|cx| {
        let polled = drain.as_mut().poll(cx);
        was_pending |= polled.is_pending();
        polled
    }));
    was_pending
}

pub fn drains(pool: &Managed) {
    let _ = is_told(pool.drain());
    assert!(pool.is_closed() && pool.status().size == 0, "it is not drained");
}

/// As `drains`, where nobody else closes the pool or has a value of its own.
fn is_told_of_the_last(pool: &Managed) {
    if is_told(pool.drain()) {
        pool.manager().log.all_are_dropped();
    }
    assert!(pool.is_closed() && pool.status().size == 0, "it is not drained");
}

/// Drops its object once its drain waits.
fn drains_with_an_object(pool: &Managed) {
    let (mut object, mut drain) = (block_on(pool.get()).ok(), Box::pin(pool.drain()));
    block_on(poll_fn(|cx| {
        let polled = drain.as_mut().poll(cx);
        drop(object.take());
        polled
    }));
    assert!(pool.is_closed() && pool.status().size == 0, "it is not drained");
}

pub fn gives_up_a_drain(pool: &Managed) {
    let mut drain = Box::pin(pool.drain());
    let _ = poll_with_dead_waker(drain.as_mut());
}

fn changes_waker_of_a_drain(pool: &Managed) {
    let mut drain = Box::pin(pool.drain());
    if poll_with_dead_waker(drain.as_mut()).is_pending() {
        block_on(drain);
    }
}

/// Threads that each have a handle, of which the last one ends the pool.
fn handles(setup: Setup, threads: &[fn(Managed)]) -> Program {
    let (pool, log) = pool(&setup);
    let threads = threads.iter().map(|it| {
        let (pool, it) = (pool.clone(), *it);
        Box::new(move || it(pool)) as Job
    });
    let threads = threads.collect();
    drop(pool);
    Program { threads, services: 0, finale: Box::new(move || log.all_are_dropped()) }
}

/// Threads that share a pool of one object, which another thread drops.
fn beside_an_object(threads: &[fn(&Managed)]) -> Program {
    let (pool, log) = pool(&ONE);
    let object = block_on(pool.get()).expect("an object");
    let mut jobs: Vec<Job> = vec![Box::new(move || drop(object))];
    jobs.extend(threads.iter().map(|it| {
        let (pool, it) = (pool.clone(), *it);
        Box::new(move || it(&pool)) as Job
    }));
    let finale = move || {
        is_whole(&pool, &log);
        log.all_are_dropped();
    };
    Program { threads: jobs, services: 0, finale: Box::new(finale) }
}

/// The same, and a keeper.
fn watched(setup: Setup, thread: fn(Managed)) -> Program {
    let (pool, log) = pool(&setup);
    let keeper = pool.keeper(Limits::none().uses(1), Duration::from_secs(1));
    let threads: Vec<Job> = vec![Box::new(move || block_on(keeper)), Box::new(move || thread(pool))];
    Program { threads, services: 0, finale: Box::new(move || log.all_are_dropped()) }
}

/// A thread with a handle, and one with a reference that is none.
fn weakly(setup: Setup) -> Program {
    let (pool, log) = pool(&setup);
    let weak = pool.weak();
    let upgrades = move || {
        if let Some(pool) = weak.upgrade() {
            assert!(block_on(pool.get()).is_ok(), "a handle is left, and the pool has ended");
        }
    };
    let threads: Vec<Job> = vec![Box::new(move || use_one(&pool)), Box::new(upgrades)];
    Program { threads, services: 0, finale: Box::new(move || log.all_are_dropped()) }
}

pub const PROGRAMS: &[Line] = &[
    line("a drain beside a get", Sees::Steps, || shared(ONE, &[use_one, is_told_of_the_last])),
    line("a drain beside two gets", Sees::Steps, || shared(ONE, &[use_one, use_one, is_told_of_the_last])),
    line("a drain beside a take", Sees::Steps, || shared(ONE, &[takes, drains])),
    line("a drain beside a creation that is dropped", Sees::Steps, || {
        shared(Setup { create: Way::Later, ..ONE }, &[cancels, is_told_of_the_last])
    }),
    line("a drain beside a recycling that is dropped", Sees::Steps, || {
        shared(Setup { recycle: Way::Later, idle: 1, ..ONE }, &[cancels, is_told_of_the_last])
    }),
    line("two drains of an empty pool", Sees::Steps, || shared(ONE, &[drains, drains])),
    line("two drains, one with an object", Sees::Steps, || shared(ONE, &[drains_with_an_object, drains])),
    line("two drains beside an object", Sees::Steps, || beside_an_object(&[drains, drains])),
    line("two drains beside an object, one given up", Sees::Steps, || beside_an_object(&[drains, gives_up_a_drain])),
    line("two drains beside a get, one given up", Sees::Steps, || shared(ONE, &[use_one, drains, gives_up_a_drain])),
    line("a drain whose waker is another", Sees::Steps, || shared(ONE, &[use_one, changes_waker_of_a_drain])),
    line("a drain, lock contended", Sees::Contention, || shared(ONE, &[use_one, drains])),
    line("the last handle beside an object", Sees::Counts, || handles(ONE, &[|pool| use_one(&pool), drop])),
    line("the last handle, its pool of one idle", Sees::Counts, || {
        handles(Setup { idle: 1, ..ONE }, &[|pool| use_one(&pool), |pool| use_one(&pool)])
    }),
    line("handles that are counted", Sees::Counts, || {
        handles(Setup { journal: 8, ..ONE }, &[|pool| use_one(&pool), |pool| drop(pool.clone())])
    }),
    line("a weak handle beside the last", Sees::Counts, || weakly(ONE)),
    line("a weak handle, handles counted", Sees::Counts, || weakly(Setup { journal: 8, ..ONE })),
    line("a keeper beside the last handle", Sees::Counts, || watched(Setup { runtime: HAND, ..ONE }, drop)),
    line("a keeper beside a get and the last handle", Sees::Counts, || {
        watched(Setup { runtime: HAND, ..ONE }, |pool| use_one(&pool))
    }),
    line("a keeper whose period ends", Sees::Counts, || {
        watched(Setup { runtime: HAND, idle: 1, ..ONE }, |pool| {
            rings();
            drop(pool);
        })
    }),
    line("a keeper beside a close", Sees::Steps, || {
        watched(Setup { runtime: HAND, ..ONE }, |pool| {
            pool.close();
            std::mem::forget(pool);
        })
    }),
];

/// Those that take longest.
pub const LONG_PROGRAMS: &[Line] =
    &[line("two drains beside a get", Sees::Steps, || shared(ONE, &[use_one, drains, drains]))];
