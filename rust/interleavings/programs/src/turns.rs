//! Gets behind so many that were answered at once that they end a poll first, and let others run.
use crate::managed::{goes_to_0_and_back, must, use_one};
use crate::pools::{Line, Managed, ONE, Sees, line, pool, shared};
use scheduler::{block_on, poll_with_dead_waker};

/// Asks another pool so often that the next get of this thread ends its first poll.
fn has_asked_often() {
    let (other, _) = pool(&ONE);
    (0..128).for_each(|_| drop(block_on(other.get())));
}

fn lets_others_run(pool: &Managed) {
    has_asked_often();
    let mut get = Box::pin(pool.get());
    assert!(poll_with_dead_waker(get.as_mut()).is_pending(), "it ends its first poll");
    drop(get);
    has_asked_often();
    use_one(pool);
}

fn must_though_it_lets_others_run(pool: &Managed) {
    has_asked_often();
    must(pool);
}

pub const PROGRAMS: &[Line] = &[
    line("a get that lets others run, and is dropped", Sees::Steps, || shared(ONE, &[lets_others_run, must])),
    line("two gets that let others run", Sees::Steps, || {
        shared(ONE, &[must_though_it_lets_others_run, must_though_it_lets_others_run])
    }),
    line("a get that lets others run, beside a limit", Sees::Steps, || {
        shared(ONE, &[must_though_it_lets_others_run, goes_to_0_and_back])
    }),
];
