//! Gets of a managed pool, beside whatever else changes who is served.
use crate::pools::{Line, Managed, ONE, Sees, Setup, Way, balances, line, shared};
use deadpool::managed::{Object, PoolError, Timeouts};
use scheduler::{block_on, park_on, poll_with_dead_waker, token_waker};
use std::future::poll_fn;
use std::sync::Arc;
use std::sync::atomic::{AtomicBool, Ordering::SeqCst};
use std::task::{Context, Poll, Wake, Waker};
use std::time::Duration;

pub fn use_one(pool: &Managed) {
    drop(block_on(pool.get()));
}

fn use_two(pool: &Managed) {
    use_one(pool);
    use_one(pool);
}

pub fn must(pool: &Managed) {
    assert!(block_on(pool.get()).is_ok(), "a get is refused");
}

pub fn cancels(pool: &Managed) {
    let mut get = Box::pin(pool.get());
    drop(poll_with_dead_waker(get.as_mut()));
}

pub fn cancels_late(pool: &Managed) {
    let mut get = Box::pin(pool.get());
    // (what is ready is not polled again)
    let _ = (0..2).any(|_| poll_with_dead_waker(get.as_mut()).is_ready());
}

pub fn changes_waker(pool: &Managed) {
    let mut get = Box::pin(pool.get());
    match poll_with_dead_waker(get.as_mut()) {
        Poll::Ready(it) => drop(it),
        Poll::Pending => drop(block_on(get)),
    }
}

pub fn takes(pool: &Managed) {
    if let Ok(object) = block_on(pool.get()) {
        drop(Object::take(object));
    }
}

pub fn tries(pool: &Managed) {
    drop(block_on(pool.try_get()));
}

pub fn goes_to_0_and_back(pool: &Managed) {
    pool.resize(0);
    pool.resize(1);
}

pub fn retains_none(pool: &Managed) {
    drop(pool.retain(|_, _| false));
}

pub fn waits_no_longer(pool: &Managed) {
    let timeouts = Timeouts { wait: Some(Duration::from_secs(1)), ..Timeouts::new() };
    match block_on(pool.timeout_get(&timeouts)) {
        Ok(_) | Err(PoolError::Timeout(_) | PoolError::Closed) => {}
        Err(other) => panic!("{other:?}"),
    }
}

fn balances_twice(pool: &Managed) {
    balances(pool);
    balances(pool);
}

fn holds(pool: &Managed) {
    let object = block_on(pool.get());
    park_on(50);
    drop(object);
}

fn lets_go(pool: &Managed) {
    let object = block_on(pool.get());
    token_waker(50).wake();
    drop(object);
}

/// Rings for one of a crowd, and wakes the task of all.
struct Bell(AtomicBool, Waker);

impl Wake for Bell {
    fn wake(self: Arc<Self>) {
        self.0.store(true, SeqCst);
        self.1.wake_by_ref();
    }
}

/// More gets than are woken at once, each of which is polled again only when its own waker was called.
fn crowd(pool: &Managed) {
    let mut gets: Vec<_> = (0..5).map(|_| (Box::pin(pool.get()), None::<Arc<Bell>>)).collect();
    block_on(poll_fn(|cx| {
        gets.retain_mut(|(get, bell)| {
            if bell.as_ref().is_some_and(|it| !it.0.swap(false, SeqCst)) {
                return true;
            }
            let bell = bell.get_or_insert_with(|| Arc::new(Bell(AtomicBool::new(false), cx.waker().clone())));
            get.as_mut().poll(&mut Context::from_waker(&Waker::from(bell.clone()))).is_pending()
        });
        if gets.is_empty() { Poll::Ready(()) } else { Poll::Pending }
    }));
}

pub const PROGRAMS: &[Line] = &[
    line("2 gets of one place", Sees::Steps, || shared(ONE, &[use_one, use_one])),
    line("2 gets of one place, lock contended", Sees::Contention, || shared(ONE, &[use_one, use_one])),
    line("2 times 2 gets of one place", Sees::Steps, || shared(ONE, &[use_two, use_two])),
    line("3 gets of one place", Sees::Steps, || shared(ONE, &[use_one, use_one, use_one])),
    line("3 gets of two places", Sees::Steps, || shared(Setup { max: 2, ..ONE }, &[use_one, use_one, use_one])),
    line("a creation that is pending", Sees::Steps, || {
        shared(Setup { create: Way::Later, ..ONE }, &[use_one, use_one])
    }),
    line("a recycling that is pending", Sees::Steps, || {
        shared(Setup { recycle: Way::Later, idle: 1, ..ONE }, &[use_one, use_one])
    }),
    line("a creation that is refused", Sees::Steps, || {
        shared(Setup { create: Way::Refuses, ..ONE }, &[use_one, use_one, use_one])
    }),
    line("a recycling that is refused", Sees::Steps, || {
        shared(Setup { recycle: Way::Refuses, idle: 1, ..ONE }, &[must, must])
    }),
    line("a get is dropped, another waits", Sees::Steps, || shared(ONE, &[use_one, cancels, must])),
    line("a get is dropped after two polls", Sees::Steps, || shared(ONE, &[use_one, cancels_late, must])),
    line("a creation is dropped", Sees::Steps, || shared(Setup { create: Way::Later, ..ONE }, &[cancels, must])),
    line("a creation is dropped after two polls", Sees::Steps, || {
        shared(Setup { create: Way::Later, ..ONE }, &[cancels_late, must])
    }),
    line("a recycling is dropped", Sees::Steps, || {
        shared(Setup { recycle: Way::Later, idle: 1, ..ONE }, &[cancels, must])
    }),
    line("the waker is another at the second poll", Sees::Steps, || shared(ONE, &[use_one, changes_waker])),
    line("the waker is another, lock contended", Sees::Contention, || shared(ONE, &[use_one, changes_waker])),
    line("a limit of 0 becomes 1", Sees::Steps, || shared(Setup { max: 0, ..ONE }, &[|pool| pool.resize(1), must])),
    line("a limit of 0 becomes 2", Sees::Steps, || {
        shared(Setup { max: 0, ..ONE }, &[|pool| pool.resize(2), must, must])
    }),
    line("a limit goes to 0 and back", Sees::Steps, || shared(ONE, &[goes_to_0_and_back, must, must])),
    line("a retain beside two gets", Sees::Steps, || shared(Setup { idle: 1, ..ONE }, &[retains_none, must, must])),
    line("a take beside a get", Sees::Steps, || shared(ONE, &[takes, must])),
    line("a tally beside a take", Sees::Steps, || shared(ONE, &[takes, balances_twice])),
    line("a get that does not wait", Sees::Steps, || shared(ONE, &[must, tries])),
    line("a bound of none beside two gets", Sees::Steps, || {
        shared(Setup { max_waiting: Some(0), ..ONE }, &[use_one, use_one])
    }),
    line("a place is free while another is held", Sees::Steps, || shared(Setup { max: 2, ..ONE }, &[holds, lets_go])),
    line("a close beside two gets", Sees::Steps, || shared(ONE, &[use_one, use_one, Managed::close])),
    line("a crowd beside a close", Sees::Steps, || shared(Setup { max: 0, ..ONE }, &[crowd, Managed::close])),
    line("a crowd beside a limit", Sees::Steps, || shared(Setup { max: 0, ..ONE }, &[crowd, |pool| pool.resize(5)])),
    line("a crowd beside a close and a get", Sees::Steps, || {
        shared(Setup { max: 0, ..ONE }, &[crowd, Managed::close, tries])
    }),
    line("a close, lock contended", Sees::Contention, || shared(ONE, &[use_one, Managed::close])),
    line("threads that wait by the crate's own call", Sees::Steps, || {
        shared(ONE, &[|pool| drop(deadpool::wait(pool.get())), |pool| drop(deadpool::wait(pool.get()))])
    }),
];
