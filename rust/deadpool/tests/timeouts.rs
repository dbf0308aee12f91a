//! Which timeouts a call goes by, and what is called before one.
mod common;

use common::Task;
use deadpool::managed::{Manager, Metrics, Pool, PoolError, RecycleResult, TimeoutType, Timeouts};
use deadpool::{Runtime, Sleep, Timers, unmanaged};
use std::cell::{Cell, RefCell};
use std::convert::Infallible;
use std::future::{Future, pending, poll_fn};
use std::sync::atomic::{AtomicBool, AtomicUsize, Ordering};
use std::task::Poll;
use std::time::Duration;

thread_local! {
    static ASKED: RefCell<Vec<u64>> = const { RefCell::new(Vec::new()) };
}

/// Timers whose sleeps are over at their first poll, and must not be polled again. They note how long they were to be.
struct Noting;

impl Timers for Noting {
    fn sleep(&self, duration: Duration) -> Sleep {
        ASKED.with_borrow_mut(|asked| asked.push(duration.as_secs()));
        Box::pin(async {})
    }
}

const NOTING: Runtime = Runtime::Timers(&Noting);

/// The sleeps that were asked for, in seconds, since the last call of this.
fn asked() -> Vec<u64> {
    ASKED.take()
}

/// What a future gives at its first poll.
fn now<T>(future: impl Future<Output = T>) -> T {
    Task::new(future).ready()
}

fn seconds(count: u64) -> Option<Duration> {
    Some(Duration::from_secs(count))
}

/// Waits for good in its creations and recyclings, while it is stuck.
#[derive(Default)]
struct Sticky(AtomicBool);

impl Sticky {
    async fn phase(&self) {
        if self.0.load(Ordering::SeqCst) {
            pending().await
        }
    }
}

impl Manager for Sticky {
    type Type = ();
    type Error = Infallible;

    async fn create(&self) -> Result<(), Infallible> {
        self.phase().await;
        Ok(())
    }

    async fn recycle(&self, (): &mut (), _: &Metrics) -> RecycleResult<Infallible> {
        self.phase().await;
        Ok(())
    }
}

fn all(wait: u64, create: u64, recycle: u64) -> Timeouts {
    Timeouts { wait: seconds(wait), create: seconds(create), recycle: seconds(recycle) }
}

#[test]
fn a_get_goes_by_its_own_timeouts_or_by_those_of_the_pool() {
    let builder = Pool::builder(Sticky::default()).max_size(1).runtime(NOTING);
    let pool: Pool<Sticky> = builder.timeouts(all(11, 12, 13)).build().expect("a pool");
    let is_stuck = |is_stuck| pool.manager().0.store(is_stuck, Ordering::SeqCst);
    let is_late = |own: Option<&Timeouts>, phase, slept: &[Option<Duration>]| {
        let own = *own.unwrap_or(&pool.timeouts());
        let ended = now(pool.timeout_get(&own)).map(|_| ()).expect_err("it is late");
        assert!(matches!(ended, PoolError::Timeout(of) if of == phase), "{ended}");
        assert_eq!(asked(), slept.iter().map(|it| it.map_or(0, |it| it.as_secs())).collect::<Vec<_>>());
    };
    let object = now(pool.get()).expect("an object");
    assert_eq!(asked(), [], "nothing has waited");
    assert!(matches!(now(pool.get()), Err(PoolError::Timeout(TimeoutType::Wait))));
    assert_eq!(asked(), [11]);
    for own in [all(21, 22, 23), all(1, 2, 3), all(11, 2, 23)] {
        is_late(Some(&own), TimeoutType::Wait, &[own.wait]);
    }
    // One without a timeout waits for good.
    let none = Timeouts::new();
    let mut waits = Task::new(pool.timeout_get(&none));
    assert!(waits.poll().is_pending());
    drop(object);
    drop(waits.ready().expect("an object"));
    drop(now(pool.get()).expect("an object"));
    drop(now(pool.timeout_get(&all(21, 22, 23))).expect("an object"));
    assert_eq!(asked(), [], "nothing with a timeout has waited");
    for own in [None, Some(all(21, 22, 23)), Some(all(11, 2, 3))] {
        let Timeouts { create, recycle, .. } = own.unwrap_or(pool.timeouts());
        // An object that is late in its recycling is given up, and so is the creation of another one.
        is_stuck(true);
        is_late(own.as_ref(), TimeoutType::Create, &[recycle, create]);
        is_late(own.as_ref(), TimeoutType::Create, &[create]);
        is_stuck(false);
        drop(now(pool.get()).expect("an object"));
    }
    assert_eq!(asked(), []);
}

/// Timers whose sleeps are over once it is late.
struct Begun;

thread_local! {
    static IS_LATE: Cell<bool> = const { Cell::new(false) };
}

impl Timers for Begun {
    fn sleep(&self, duration: Duration) -> Sleep {
        ASKED.with_borrow_mut(|asked| asked.push(duration.as_secs()));
        Box::pin(poll_fn(|_| if IS_LATE.get() { Poll::Ready(()) } else { Poll::Pending }))
    }
}

#[test]
fn a_timeout_begins_when_its_phase_first_waits_and_once() {
    IS_LATE.set(false);
    let builder = Pool::builder(Sticky::default()).max_size(1).runtime(Runtime::Timers(&Begun));
    let pool: Pool<Sticky> = builder.timeouts(all(11, 12, 13)).build().expect("a pool");
    let object = now(pool.get()).expect("an object");
    let mut waits = Task::new(pool.get());
    assert_eq!(asked(), []);
    for _ in 0..3 {
        assert!(waits.poll().is_pending());
    }
    assert_eq!(asked(), [11]);
    pool.manager().0.store(true, Ordering::SeqCst);
    drop(object);
    for _ in 0..3 {
        assert!(waits.poll().is_pending());
    }
    assert_eq!(asked(), [13]);
    IS_LATE.set(true);
    assert!(matches!(waits.ready(), Err(PoolError::Timeout(TimeoutType::Create))));
    assert_eq!((asked(), pool.status().size), (vec![12], 0));
}

#[test]
fn a_call_on_an_unmanaged_pool_goes_by_its_own_timeout_or_by_that_of_the_pool() {
    let config = unmanaged::PoolConfig { timeout: seconds(11), runtime: Some(NOTING), ..unmanaged::PoolConfig::new(1) };
    let pool = unmanaged::Pool::<u8>::from_config(&config);
    let is_late = |ended: Option<unmanaged::PoolError>, asked_for: u64| {
        assert_eq!((ended, asked()), (Some(unmanaged::PoolError::Timeout), vec![asked_for]));
    };
    is_late(now(pool.get()).err(), 11);
    is_late(now(pool.remove()).err(), 11);
    for own in [1, 11, 21] {
        is_late(now(pool.timeout_get(seconds(own))).err(), own);
        is_late(now(pool.timeout_remove(seconds(own))).err(), own);
    }
    // One without a timeout waits for good, and so does an add.
    let (mut get, mut remove) = (Task::new(pool.timeout_get(None)), Task::new(pool.timeout_remove(None)));
    assert!(get.poll().is_pending() && remove.poll().is_pending());
    assert_eq!(now(pool.add(1)), Ok(()));
    let mut add = Task::new(pool.add(2));
    assert!(add.poll().is_pending());
    drop(get.ready().expect("an object"));
    assert_eq!(remove.ready(), Ok(1));
    assert_eq!((add.ready(), asked()), (Ok(()), vec![]));
}

/// Counts the calls of its functions, not the polls of what they give.
#[derive(Default)]
struct Calls {
    creations: AtomicUsize,
    recyclings: AtomicUsize,
}

impl Calls {
    fn counts(&self) -> [usize; 2] {
        [&self.creations, &self.recyclings].map(|it| it.load(Ordering::SeqCst))
    }
}

impl Manager for Calls {
    type Type = ();
    type Error = Infallible;

    fn create(&self) -> impl Future<Output = Result<(), Infallible>> {
        self.creations.fetch_add(1, Ordering::SeqCst);
        async { Ok(()) }
    }

    fn recycle(&self, (): &mut (), _: &Metrics) -> impl Future<Output = RecycleResult<Infallible>> {
        self.recyclings.fetch_add(1, Ordering::SeqCst);
        async { Ok(()) }
    }
}

#[test]
fn a_manager_is_not_called_if_its_timeout_has_no_runtime() {
    let pool: Pool<Calls> = Pool::builder(Calls::default()).max_size(1).build().expect("a pool");
    let [create, recycle] =
        [Timeouts { create: seconds(1), ..Timeouts::new() }, Timeouts { recycle: seconds(1), ..Timeouts::new() }];
    assert!(matches!(now(pool.timeout_get(&create)), Err(PoolError::NoRuntimeSpecified)));
    assert_eq!((pool.manager().counts(), pool.status().size), ([0, 0], 0));
    drop(now(pool.timeout_get(&recycle)).expect("it is a new object"));
    assert_eq!(pool.manager().counts(), [1, 0]);
    drop(now(pool.timeout_get(&create)).expect("it is not a new object"));
    assert_eq!(pool.manager().counts(), [1, 1]);
    // An object that cannot be recycled is given up, and another one is made.
    drop(now(pool.timeout_get(&recycle)).expect("an object"));
    assert_eq!((pool.manager().counts(), pool.status().size), ([2, 1], 1));
}
