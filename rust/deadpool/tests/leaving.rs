//! What becomes of an object that leaves its pool while a waker panics: the manager is told of it once, it is dropped once, its
//! place is free, and the waker's panic goes on.
mod common;

use common::{Task, block_on, counts, gone, pause};
use deadpool::managed::{Hook, HookError, Manager, Metrics, Object, Pool, PoolBuilder, RecycleError, RecycleResult};
use std::future::Future;
use std::panic::{AssertUnwindSafe, catch_unwind, panic_any};
use std::pin::Pin;
use std::sync::Arc;
use std::sync::atomic::{AtomicBool, AtomicUsize, Ordering};
use std::task::{Context, Waker};

/// Makes values that count their drops. Its recycling is pending once, then it refuses.
#[derive(Clone, Default)]
struct Counting {
    detached: Arc<AtomicUsize>,
    dropped: Arc<AtomicUsize>,
    panics: Arc<AtomicBool>,
}

struct Value(Arc<AtomicUsize>);

impl Drop for Value {
    fn drop(&mut self) {
        self.0.fetch_add(1, Ordering::SeqCst);
    }
}

impl Manager for Counting {
    type Type = Value;
    type Error = ();

    async fn create(&self) -> Result<Value, ()> {
        Ok(Value(self.dropped.clone()))
    }

    async fn recycle(&self, _: &mut Value, _: &Metrics) -> RecycleResult<()> {
        pause().await;
        Err(RecycleError::Backend(()))
    }

    fn detach(&self, _: &mut Value) {
        self.detached.fetch_add(1, Ordering::SeqCst);
        assert!(!self.panics.load(Ordering::SeqCst), "a detach");
    }
}

impl Counting {
    /// How often it was told of a value, and how many were dropped.
    fn told(&self) -> [usize; 2] {
        [&self.detached, &self.dropped].map(|count| count.load(Ordering::SeqCst))
    }
}

fn pool(
    max_size: usize,
    set: impl FnOnce(PoolBuilder<Counting>) -> PoolBuilder<Counting>,
) -> (Pool<Counting>, Counting) {
    let manager = Counting::default();
    (set(Pool::builder(manager.clone()).max_size(max_size)).build().expect("a pool"), manager)
}

fn one() -> (Pool<Counting>, Counting) {
    pool(1, |builder| builder)
}

/// A future that waits, whose waker panics.
fn waits<'a, T>(future: impl Future<Output = T> + 'a) -> Pin<Box<dyn Future<Output = T> + 'a>> {
    let mut future = Box::pin(future);
    assert!(future.as_mut().poll(&mut Context::from_waker(&gone())).is_pending());
    future
}

/// The call panics as the waker does.
fn panics<R>(call: impl FnOnce() -> R) {
    let panic = catch_unwind(AssertUnwindSafe(call)).err().expect("the waker's panic goes on");
    assert_eq!(panic.downcast_ref(), Some(&"the executor has gone"));
}

/// An object that is out of a pool with two, of which one may be out.
fn surplus() -> (Pool<Counting>, Counting, Object<Counting>) {
    let (pool, manager) = pool(2, |builder| builder.min_idle(1));
    let get = || block_on(pool.get()).expect("an object");
    let (idle, held) = (get(), get());
    drop(idle);
    pool.resize(1);
    assert_eq!(counts(pool.status()), [2, 1, 0]);
    (pool, manager, held)
}

#[test]
fn one_that_comes_back_and_is_not_kept() {
    let (pool, manager, held) = surplus();
    let waits = waits(pool.get());
    panics(|| drop(held));
    assert_eq!(manager.told(), [1, 1]);
    drop(waits);
    assert_eq!(counts(pool.status()), [1, 1, 0]);
}

#[test]
fn one_that_is_taken() {
    let (pool, manager) = one();
    let held = block_on(pool.get()).expect("an object");
    let waits = waits(pool.get());
    panics(|| Object::take(held));
    assert_eq!(manager.told(), [1, 1]);
    drop(waits);
    assert!(block_on(pool.get()).is_ok(), "its place is free");
}

#[test]
fn one_that_a_hook_refuses() {
    let refuses = Hook::async_fn(|_: &mut Value, _: &Metrics| {
        Box::pin(async {
            pause().await;
            Err(HookError::message("no"))
        })
    });
    let (pool, manager) = pool(1, |builder| builder.post_create(refuses));
    let mut get = Task::new(pool.get());
    assert!(get.poll().is_pending());
    let _waits = waits(pool.get());
    panics(|| get.poll().is_ready());
    assert_eq!(manager.told(), [1, 1]);
    assert_eq!(counts(pool.status()), [0, 0, 1]);
}

#[test]
fn one_whose_get_is_dropped() {
    let (pool, manager) = one();
    drop(block_on(pool.get()).expect("an object"));
    let mut get = Task::new(pool.get());
    assert!(get.poll().is_pending());
    let _waits = waits(pool.get());
    panics(|| drop(get));
    assert_eq!(manager.told(), [1, 1]);
    assert_eq!(counts(pool.status()), [0, 0, 1]);
}

/// A second panic aborts a program that unwinds from a first one, unless it goes no further than where it came.
#[test]
fn the_first_of_several_panics_goes_on() {
    let (pool, manager) = one();
    let held = block_on(pool.get()).expect("an object");
    let waiting = waits(pool.get());
    manager.panics.store(true, Ordering::SeqCst);
    panics(|| Object::take(held));
    assert_eq!(manager.told(), [1, 1]);
    drop(waiting);
    let held = block_on(pool.get()).expect("an object");
    let waits = waits(pool.get());
    let first = catch_unwind(AssertUnwindSafe(|| {
        let _held = held;
        panic_any("the first");
    }));
    assert_eq!(first.expect_err("it panics").downcast_ref(), Some(&"the first"));
    drop(waits);
    assert_eq!(counts(pool.status()), [1, 1, 0]);
}

/// The manager is told before a drain is, of each way in which the last object goes.
#[test]
fn a_drain_ends_behind_a_detach() {
    let ways: [fn(Object<Counting>); 2] = [drop, |held| drop(Object::take(held))];
    for leaves in ways {
        let (pool, manager) = one();
        let held = block_on(pool.get()).expect("an object");
        let mut drain = Box::pin(pool.drain());
        let seen = Arc::new(Seen { manager: manager.clone(), told: AtomicUsize::new(0) });
        assert!(drain.as_mut().poll(&mut Context::from_waker(&Waker::from(seen.clone()))).is_pending());
        leaves(held);
        assert_eq!((seen.told.load(Ordering::SeqCst), manager.told()), (1, [1, 1]));
    }
}

/// A call that panics while an object is given up keeps no later call from being made.
#[test]
fn a_drain_ends_behind_a_detach_that_panics() {
    let (pool, manager) = one();
    drop(block_on(pool.get()).expect("an object"));
    let mut get = Task::new(pool.get());
    assert!(get.poll().is_pending());
    let mut drain = Box::pin(pool.drain());
    let seen = Arc::new(Seen { manager: manager.clone(), told: AtomicUsize::new(0) });
    assert!(drain.as_mut().poll(&mut Context::from_waker(&Waker::from(seen.clone()))).is_pending());
    manager.panics.store(true, Ordering::SeqCst);
    assert!(catch_unwind(AssertUnwindSafe(|| drop(get))).is_err(), "the panic of the detach goes on");
    assert_eq!((seen.told.load(Ordering::SeqCst), manager.told()), (1, [1, 1]));
}

/// Notes, when it is woken, how many values the manager was told of.
struct Seen {
    manager: Counting,
    told: AtomicUsize,
}

impl std::task::Wake for Seen {
    fn wake(self: Arc<Self>) {
        self.told.store(self.manager.told()[0], Ordering::SeqCst);
    }
}
