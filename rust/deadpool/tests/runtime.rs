//! What a runtime has beside its timers for a pool, and what its type is.
mod common;

use common::{Count, Task, block_on, is_answered};
use deadpool::managed::{PoolConfig, Timeouts};
use deadpool::{Runtime, Sleep, SpawnBlockingError, Timers, unmanaged};
use std::future::{Future, pending, poll_fn, ready};
use std::panic::{RefUnwindSafe, UnwindSafe};
use std::pin::pin;
use std::sync::mpsc::channel;
use std::task::{Context, Poll, Waker};
use std::thread;
use std::time::Duration;

const HOUR: Duration = Duration::from_secs(3600);
const SOON: Duration = Duration::from_millis(50);

/// Timers whose sleeps are over at once, or never.
struct Over(bool);

impl Timers for Over {
    fn sleep(&self, _: Duration) -> Sleep {
        if self.0 { Box::pin(ready(())) } else { Box::pin(pending()) }
    }
}

static AT_ONCE: Over = Over(true);
static NEVER: Over = Over(false);

#[test]
fn a_future_is_given_up_when_its_time_is_over() {
    let at_once = Runtime::Timers(&AT_ONCE);
    assert_eq!(Task::new(at_once.timeout(SOON, pending::<u8>())).ready(), None);
    assert_eq!(Task::new(at_once.timeout(SOON, ready(1))).ready(), Some(1), "the future is polled first");
    assert!(Task::new(Runtime::Timers(&NEVER).timeout(SOON, pending::<u8>())).poll().is_pending());
    assert!(is_answered(|| assert_eq!(block_on(Runtime::Thread.timeout(SOON, pending::<u8>())), None)));
    assert_eq!(block_on(Runtime::Thread.timeout(HOUR, ready(1))), Some(1));
    let mut polls = 0;
    let counted = poll_fn(|_| {
        polls += 1;
        Poll::<u8>::Pending
    });
    assert_eq!(Task::new(at_once.timeout(SOON, counted)).ready(), None);
    assert_eq!(polls, 1, "a future whose time is over is polled no more");
}

#[test]
fn a_closure_that_blocks_runs_on_another_thread() {
    for runtime in [Runtime::Thread, Runtime::Timers(&NEVER), Runtime::Tokio1, Runtime::AsyncStd1] {
        let here = thread::current().id();
        let there = block_on(runtime.spawn_blocking(|| thread::current().id())).expect("it does not panic");
        assert_ne!(here, there);
    }
}

#[test]
fn a_closure_that_panics_gives_the_panic() {
    let ended = block_on(Runtime::Thread.spawn_blocking(|| panic!("planned")));
    let error: SpawnBlockingError = ended.map(|_: u8| ()).expect_err("it has panicked");
    assert_eq!(error.to_string(), "SpawnBlockingError: Panic");
    let SpawnBlockingError::Panic(panic) = error;
    assert_eq!(panic.downcast_ref(), Some(&"planned"));
}

#[test]
fn the_last_one_that_asked_is_woken_when_a_closure_ends() {
    let (sender, receiver) = channel::<()>();
    let mut waits = pin!(Runtime::Thread.spawn_blocking(move || receiver.recv().is_ok()));
    let [(first, count_of_first), (last, count_of_last)] = [Count::waker(), Count::waker()];
    for waker in [&first, &last] {
        assert!(waits.as_mut().poll(&mut Context::from_waker(waker)).is_pending());
    }
    assert_eq!(count_of_last.get(), 0);
    sender.send(()).expect("the closure waits");
    assert!(is_answered(move || {
        while count_of_last.get() == 0 {
            thread::sleep(Duration::from_millis(1));
        }
    }));
    assert_eq!(count_of_first.get(), 0);
    assert!(waits.as_mut().poll(&mut Context::from_waker(Waker::noop())).is_ready());
}

#[test]
fn a_closure_runs_if_nobody_waits_for_it() {
    let (sender, receiver) = channel();
    let again = sender.clone();
    Runtime::Thread.spawn_blocking_background(move || sender.send(1).expect("the test waits"));
    assert_eq!(receiver.recv_timeout(Duration::from_secs(20)), Ok(1));
    let mut waits = Task::new(Runtime::Thread.spawn_blocking(move || again.send(2).is_ok()));
    let _ = waits.poll();
    drop(waits);
    assert_eq!(receiver.recv_timeout(Duration::from_secs(20)), Ok(2));
}

#[test]
fn runtimes_are_equal_if_they_are_the_same() {
    assert_eq!(Runtime::Thread, Runtime::Thread);
    assert_eq!(Runtime::Timers(&NEVER), Runtime::Timers(&NEVER));
    assert_ne!(Runtime::Timers(&NEVER), Runtime::Timers(&AT_ONCE));
    assert_ne!(Runtime::Timers(&NEVER), Runtime::Thread);
}

#[test]
fn a_panic_may_pass_a_runtime_and_a_configuration() {
    fn is_safe<T: UnwindSafe + RefUnwindSafe + Send + Sync + 'static>() {}
    is_safe::<Runtime>();
    is_safe::<unmanaged::PoolConfig>();
    is_safe::<PoolConfig>();
    const NONE: Timeouts = Timeouts::new();
    const MILLIS: Timeouts = Timeouts::wait_millis(3);
    assert_eq!((NONE.wait, MILLIS.wait, MILLIS.create), (None, Some(Duration::from_millis(3)), None));
}
