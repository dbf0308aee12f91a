//! A task that gets and gives back in a loop lets the others of its executor run.
mod common;

use common::{Count, Numbers, counts};
use deadpool::managed::{Pool, Timeouts};
use deadpool::{Runtime, Sleep, Timers, unmanaged};
use std::cell::Cell;
use std::future::Future;
use std::pin::Pin;
use std::sync::Arc;
use std::sync::atomic::{AtomicUsize, Ordering};
use std::task::{Context, Poll, Waker};
use std::time::Duration;

/// How many in a row are answered at once.
const AT_ONCE: usize = 128;

type Job<'a> = Pin<Box<dyn Future<Output = ()> + 'a>>;

/// Runs tasks in turn on this thread, each once it was woken, until all have ended or none is woken any more. Says how many polls
/// that took.
fn run<const N: usize>(tasks: [Job<'_>; N]) -> usize {
    let mut tasks = tasks.map(|task| (Some(task), Count::waker(), None));
    let mut polls = 0;
    loop {
        let mut is_idle = true;
        for (task, (waker, woken), seen) in &mut tasks {
            let count = Some(woken.get());
            let Some(future) = task.as_mut().filter(|_| *seen != count) else { continue };
            (*seen, is_idle) = (count, false);
            polls += 1;
            if future.as_mut().poll(&mut Context::from_waker(waker)).is_ready() {
                *task = None;
            }
        }
        if is_idle {
            assert!(tasks.iter().all(|(task, ..)| task.is_none()), "a task sleeps for good");
            return polls;
        }
    }
}

/// How often a task asks, in a loop without an end of its own, before another one is run.
fn asks_before_another<F: Future<Output = ()>>(mut ask: impl FnMut() -> F) -> usize {
    let (asks, has_run) = (Cell::new(0), Cell::new(false));
    run([
        Box::pin(async {
            while !has_run.get() && asks.get() < 10 * AT_ONCE {
                ask().await;
                asks.set(asks.get() + 1);
            }
        }),
        Box::pin(async { has_run.set(true) }),
    ]);
    asks.get()
}

fn managed(max_size: usize) -> Pool<Numbers> {
    Pool::builder(Numbers::default()).max_size(max_size).build().expect("a pool")
}

#[test]
fn gets_of_a_managed_pool_let_others_run() {
    let pool = managed(1);
    let get = || async { drop(pool.get().await.expect("an object")) };
    for _ in 0..3 {
        let asks = asks_before_another(get);
        assert!((1..=AT_ONCE + 1).contains(&asks), "{asks}");
    }
    // (so does one that is answered that the pool has closed)
    pool.close();
    assert!(asks_before_another(|| async { assert!(pool.get().await.is_err()) }) <= AT_ONCE + 1);
}

#[test]
fn gets_and_adds_of_an_unmanaged_pool_let_others_run() {
    let pool = unmanaged::Pool::from([1]);
    assert!(asks_before_another(|| async { drop(pool.get().await.expect("an object")) }) <= AT_ONCE + 1);
    let moves = asks_before_another(|| async {
        let value = pool.try_remove().expect("an object");
        pool.add(value).await.expect("room");
    });
    assert!(moves <= AT_ONCE + 1);
    let removes = asks_before_another(|| async {
        let value = pool.remove().await.expect("an object");
        pool.try_add(value).expect("room");
    });
    assert!(removes <= AT_ONCE + 1);
}

/// All that ask on a thread are counted together, of whatever pool.
#[test]
fn gets_of_several_pools_let_others_run() {
    let (one, other) = (managed(1), unmanaged::Pool::from([1]));
    let asks = asks_before_another(|| async {
        drop(one.get().await.expect("an object"));
        drop(other.get().await.expect("an object"));
    });
    assert!(asks <= AT_ONCE / 2 + 1);
}

fn at_once<T>(future: impl Future<Output = T>) -> Option<T> {
    match Box::pin(future).as_mut().poll(&mut Context::from_waker(Waker::noop())) {
        Poll::Ready(output) => Some(output),
        Poll::Pending => None,
    }
}

#[test]
fn those_that_may_not_wait_are_answered_at_once() {
    let (pool, other) = (managed(1), unmanaged::Pool::from([1]));
    let zero = Timeouts { wait: Some(Duration::ZERO), ..Timeouts::new() };
    // (however many were answered before)
    for before in [0, AT_ONCE] {
        (0..before).for_each(|_| _ = at_once(pool.get()));
        for _ in 0..4 * AT_ONCE {
            assert!(at_once(pool.try_get()).is_some_and(|got| got.is_ok()));
            assert!(at_once(pool.timeout_get(&zero)).is_some_and(|got| got.is_ok()));
            assert!(at_once(other.timeout_get(Some(Duration::ZERO))).is_some_and(|got| got.is_ok()));
        }
    }
}

#[test]
fn many_gets_of_one_task_end() {
    let pool = managed(5 * AT_ONCE);
    let (waker, woken) = Count::waker();
    let mut gets: Vec<_> = (0..5 * AT_ONCE).map(|_| Some(Box::pin(pool.get()))).collect();
    let mut held = Vec::new();
    // (as one task of them all, which is polled when it is woken)
    for polls in 1.. {
        for get in &mut gets {
            let Some(future) = get else { continue };
            if let Poll::Ready(object) = future.as_mut().poll(&mut Context::from_waker(&waker)) {
                held.push(object.expect("an object"));
                *get = None;
            }
        }
        if held.len() == 5 * AT_ONCE {
            break;
        }
        assert!(woken.get() >= polls, "it is woken");
        assert!(polls < 3, "each ends one poll at most");
    }
}

#[test]
fn threads_that_wait_end() {
    let pool = managed(1);
    for _ in 0..5 * AT_ONCE {
        drop(deadpool::wait(pool.get()).expect("an object"));
    }
}

/// Timers that count their sleeps.
struct Counted(AtomicUsize);

impl Timers for Counted {
    fn sleep(&self, _: Duration) -> Sleep {
        self.0.fetch_add(1, Ordering::SeqCst);
        Box::pin(std::future::pending())
    }
}

/// One that ends its first poll waits for nothing: it asks no timer, is in no queue, and holds nothing if it is dropped.
#[test]
fn one_that_lets_others_run_is_not_queued() {
    static TIMERS: Counted = Counted(AtomicUsize::new(0));
    let builder = Pool::builder(Numbers::default()).max_size(1).wait_timeout(Some(Duration::from_secs(1)));
    let pool: Pool<Numbers> = builder.runtime(Runtime::Timers(&TIMERS)).build().expect("a pool");
    let mut pending = 0;
    for _ in 0..3 * (AT_ONCE + 1) {
        let (waker, woken) = Count::waker();
        let mut get = Box::pin(pool.get());
        if get.as_mut().poll(&mut Context::from_waker(&waker)).is_pending() {
            pending += 1;
            assert_eq!((woken.get(), counts(pool.status())), (1, [1, 1, 0]));
            if pending == 1 {
                assert!(get.as_mut().poll(&mut Context::from_waker(&waker)).is_ready(), "it ends one poll alone");
            }
            drop(get);
            assert_eq!((Arc::strong_count(&woken), counts(pool.status())), (2, [1, 1, 0]));
        }
    }
    assert_eq!((pending, TIMERS.0.load(Ordering::SeqCst)), (3, 0));
}
