//! A panic within a step closes the pool. No call of a user's can have a step panic, so it is planted here, under the lock.
use super::Pool;
use crate::cores::desk::{Desk as _, Step};
use crate::managed::{Limits, Manager, Metrics, Object, PoolError, RecycleResult, WeakPool};
use std::future::{Future, poll_fn};
use std::panic::{AssertUnwindSafe, catch_unwind};
use std::pin::{Pin, pin};
use std::sync::atomic::{AtomicBool, AtomicUsize, Ordering};
use std::sync::{Arc, OnceLock};
use std::task::{Context, Poll, Wake, Waker};
use std::time::Duration;

/// What was told of the values of a pool.
#[derive(Default)]
struct Told {
    detached: AtomicUsize,
    dropped: AtomicUsize,
    /// Whether a creation waits.
    is_slow: AtomicBool,
    pool: OnceLock<WeakPool<Telling>>,
}

struct Telling(Arc<Told>);

struct Value(Arc<Told>);

impl Drop for Value {
    /// It asks its pool, as no value is dropped under the lock.
    fn drop(&mut self) {
        self.0.dropped.fetch_add(1, Ordering::SeqCst);
        let pool = self.0.pool.get().and_then(WeakPool::upgrade);
        assert!(pool.is_none_or(|pool| pool.status().max_size < 9));
    }
}

impl Manager for Telling {
    type Type = Value;
    type Error = ();

    async fn create(&self) -> Result<Value, ()> {
        poll_fn(|_| if self.0.is_slow.load(Ordering::SeqCst) { Poll::Pending } else { Poll::Ready(()) }).await;
        Ok(Value(self.0.clone()))
    }

    async fn recycle(&self, _: &mut Value, _: &Metrics) -> RecycleResult<()> {
        Ok(())
    }

    fn detach(&self, _: &mut Value) {
        self.0.detached.fetch_add(1, Ordering::SeqCst);
    }
}

fn pool(max_size: usize, entries: usize) -> (Pool<Telling>, Arc<Told>) {
    let told = Arc::<Told>::default();
    let pool: Pool<Telling> =
        Pool::builder(Telling(told.clone())).max_size(max_size).journal(entries).build().expect("a pool");
    assert!(told.pool.set(pool.weak()).is_ok());
    (pool, told)
}

impl Told {
    /// How many the manager was told of, and how many were dropped.
    fn counts(&self) -> [usize; 2] {
        [&self.detached, &self.dropped].map(|count| count.load(Ordering::SeqCst))
    }
}

#[derive(Default)]
struct Count(AtomicUsize);

impl Wake for Count {
    fn wake(self: Arc<Self>) {
        self.0.fetch_add(1, Ordering::SeqCst);
    }
}

type Polled<'a, T> = Pin<Box<dyn Future<Output = T> + 'a>>;

/// A future that is pending, and what counts its wakes.
fn begun<'a, T>(future: impl Future<Output = T> + 'a) -> (Polled<'a, T>, Arc<Count>) {
    let (mut future, count) = (Box::pin(future), Arc::<Count>::default());
    assert!(future.as_mut().poll(&mut Context::from_waker(&Waker::from(count.clone()))).is_pending());
    (future, count)
}

fn now<F: Future>(future: F) -> F::Output {
    match pin!(future).poll(&mut Context::from_waker(Waker::noop())) {
        Poll::Ready(output) => output,
        Poll::Pending => panic!("the future is pending"),
    }
}

/// A step panics with its work half done: an object is out whose place is free.
fn break_step(pool: &Pool<Telling>) {
    let broken = catch_unwind(AssertUnwindSafe(|| {
        pool.shared.step(|state| {
            state.desk.make(&Step::Take, &mut None);
            panic!("within a step")
        });
    }));
    assert_eq!(broken.expect_err("it panics").downcast_ref(), Some(&"within a step"));
}

/// Every call answers as at a closed pool.
fn is_closed(pool: &Pool<Telling>) {
    let closed = crate::Status { max_size: 0, size: 0, available: 0, waiting: 0 };
    assert!(pool.is_closed());
    now(pool.keeper(Limits::none(), Duration::from_secs(3600)));
    assert!(matches!(now(pool.get()), Err(PoolError::Closed)) && matches!(now(pool.try_get()), Err(PoolError::Closed)));
    pool.resize(3);
    assert_eq!((pool.status(), pool.tally().status), (closed, closed));
    assert!(pool.retain(|_, _| true).retained == 0 && pool.journal().entries.is_empty());
    pool.close();
    now(pool.drain());
    assert_eq!(now(pool.drain_for(Duration::ZERO)), Ok(closed));
    assert!(format!("{pool:?}").contains("is_closed: true"));
}

#[test]
fn a_panic_within_a_step_closes_the_pool() {
    for entries in [0, 100] {
        let (pool, told) = pool(3, entries);
        let (held, taken, idle) = (now(pool.get()), now(pool.get()), now(pool.get()).expect("an object"));
        drop(idle);
        let clone = pool.clone();
        let (keeper, of_keeper) = begun(pool.keeper(Limits::none(), Duration::from_secs(3600)));
        break_step(&pool);
        assert_eq!((told.counts(), of_keeper.0.load(Ordering::SeqCst)), ([0, 1], 1), "what was idle is dropped");
        is_closed(&pool);
        now(keeper);
        // What is out comes back, or is taken, and the manager is told.
        drop(held.expect("an object"));
        assert_eq!(told.counts(), [1, 2]);
        let value = Object::take(taken.expect("an object"));
        assert_eq!(told.counts(), [2, 2]);
        drop(value);
        drop(pool);
        is_closed(&clone.clone());
        drop((clone.clone(), clone));
        assert_eq!(told.counts(), [2, 3]);
    }
}

#[test]
fn those_under_way_are_woken_and_refused() {
    let (pool, told) = pool(3, 0);
    let held = now(pool.get()).expect("an object");
    told.is_slow.store(true, Ordering::SeqCst);
    let ((mut creates, _), dropped) = (begun(pool.get()), begun(pool.get()));
    let (mut waits, woken) = begun(pool.get());
    break_step(&pool);
    assert_eq!(woken.0.load(Ordering::SeqCst), 1);
    assert!(matches!(now(waits.as_mut()), Err(PoolError::Closed)));
    drop(dropped);
    told.is_slow.store(false, Ordering::SeqCst);
    assert!(matches!(now(creates.as_mut()), Err(PoolError::Closed)));
    assert_eq!(told.counts(), [1, 1], "the value that comes too late");
    is_closed(&pool);
    drop(held);
    assert_eq!(told.counts(), [2, 2]);
}

#[test]
fn what_was_handed_over_is_dropped_and_its_get_is_refused() {
    for is_polled in [true, false] {
        let (pool, told) = pool(1, 0);
        let held = now(pool.get()).expect("an object");
        let (mut waits, woken) = begun(pool.get());
        drop(held);
        break_step(&pool);
        assert_eq!((told.counts(), woken.0.load(Ordering::SeqCst)), ([0, 1], 1));
        assert!(!is_polled || matches!(now(waits.as_mut()), Err(PoolError::Closed)));
        drop(waits);
        assert_eq!(told.counts(), [0, 1]);
        is_closed(&pool);
    }
}

#[test]
fn a_drain_of_a_broken_pool_ends() {
    let (pool, _) = pool(1, 0);
    let _held = now(pool.get()).expect("an object");
    let (drain, woken) = begun(pool.drain());
    // (one that breaks again is closed again)
    break_step(&pool);
    break_step(&pool);
    assert_eq!(woken.0.load(Ordering::SeqCst), 1);
    now(drain);
    is_closed(&pool);
}

/// Another thread that waits for the lock has the state of a closed pool.
#[test]
fn who_waits_for_the_lock_meets_no_broken_state() {
    let (pool, _) = pool(2, 0);
    let is_within = AtomicBool::new(false);
    std::thread::scope(|scope| {
        let breaks = scope.spawn(|| {
            pool.shared.step(|_| {
                is_within.store(true, Ordering::SeqCst);
                std::thread::sleep(Duration::from_millis(20));
                panic!("within a step")
            })
        });
        while !is_within.load(Ordering::SeqCst) {
            std::thread::yield_now();
        }
        assert!(pool.is_closed());
        assert!(breaks.join().is_err());
    });
    is_closed(&pool);
}
