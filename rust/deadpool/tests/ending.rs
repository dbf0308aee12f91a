//! A closing that waits, of both pools.
mod common;

use common::{Count, Door, Numbers, Task, block_on, counts, is_answered};
use deadpool::managed::{DrainError, Hook, HookError, Manager, Metrics, Object, Pool, PoolError, RecycleResult};
use deadpool::{Runtime, Sleep, Status, Timers, unmanaged};
use std::convert::Infallible;
use std::future::Future;
use std::pin::{Pin, pin};
use std::sync::atomic::{AtomicBool, Ordering::SeqCst};
use std::sync::{Arc, Mutex, Weak};
use std::task::{Context, Poll, Waker};
use std::thread;
use std::time::Duration;

/// How a managed pool stands that is drained. An unmanaged one keeps its limit.
const EMPTY: Status = Status { max_size: 0, size: 0, available: 0, waiting: 0 };

fn pool_of(max_size: usize) -> Pool<Numbers> {
    Pool::builder(Numbers::default()).max_size(max_size).build().expect("a pool")
}

fn get(pool: &Pool<Numbers>) -> Object<Numbers> {
    block_on(pool.get()).expect("an object")
}

#[test]
fn a_drain_ends_with_the_last_object_that_comes_back() {
    let pool = pool_of(3);
    let (first, second) = (get(&pool), get(&pool));
    drop(get(&pool));
    let (mut waits, mut drain) = (Task::new(pool.get()), Task::new(pool.drain()));
    assert!(!pool.is_closed(), "nothing has happened before the first poll");
    assert!(drain.poll().is_pending());
    assert!(pool.is_closed());
    assert_eq!((counts(pool.status()), pool.manager().detached()), ([2, 0, 0], 0));
    drop(first);
    assert_eq!((drain.woken(), drain.poll()), (0, Poll::Pending));
    assert!(matches!(waits.poll(), Poll::Ready(Err(PoolError::Closed))));
    drop(second);
    assert_eq!((drain.woken(), drain.poll()), (1, Poll::Ready(EMPTY)));
    assert_eq!((counts(pool.status()), pool.manager().detached()), ([0, 0, 0], 2));
    // (each other one ends at once)
    block_on(pool.drain());
    assert_eq!(block_on(pool.drain_for(Duration::ZERO)), Ok(EMPTY));
}

#[test]
fn an_object_that_is_taken_is_not_waited_for() {
    let pool = pool_of(1);
    let object = get(&pool);
    let mut drain = Task::new(pool.drain());
    assert!(drain.poll().is_pending());
    let _value = Object::take(object);
    assert_eq!((drain.woken(), drain.poll()), (1, Poll::Ready(EMPTY)));
}

#[test]
fn gets_that_have_joined_the_queue_are_not_waited_for() {
    let pool = pool_of(1);
    let held = get(&pool);
    let mut waits: Vec<_> = (0..3).map(|_| Task::new(pool.get())).collect();
    waits.iter_mut().for_each(|get| assert!(get.poll().is_pending()));
    drop(held);
    // (the first was granted the place, and has not asked)
    let mut drain = Task::new(pool.drain());
    assert_eq!(drain.poll(), Poll::Ready(Status { waiting: 2, ..EMPTY }));
    for get in waits {
        assert!(matches!(get.ready(), Err(PoolError::Closed)));
    }
}

/// Makes numbers once a door is open, and recycles none while another is shut.
#[derive(Default)]
struct Doors {
    create: Door,
    recycle: Door,
    spoils: AtomicBool,
}

impl Manager for Doors {
    type Type = u8;
    type Error = Infallible;

    async fn create(&self) -> Result<u8, Infallible> {
        self.create.clone().await;
        Ok(0)
    }

    async fn recycle(&self, value: &mut u8, _: &Metrics) -> RecycleResult<Infallible> {
        self.recycle.clone().await;
        *value = self.spoils.load(SeqCst).into();
        Ok(())
    }
}

fn drain_woken_by(is_open: bool, end: impl FnOnce(Task<'_, Result<Object<Doors>, PoolError<Infallible>>>, &Doors)) {
    let refuse = Hook::sync_fn(
        |value: &mut u8, _: &Metrics| {
            if *value == 0 { Ok(()) } else { Err(HookError::message("planned")) }
        },
    );
    let pool: Pool<Doors> = Pool::builder(Doors::default()).max_size(1).post_recycle(refuse).build().expect("a pool");
    if is_open {
        pool.manager().create.open();
        drop(block_on(pool.get()).expect("a number"));
    }
    let mut get = Task::new(pool.get());
    assert!(get.poll().is_pending());
    let mut drain = Task::new(pool.drain());
    assert!(drain.poll().is_pending(), "{:?}", pool.status());
    end(get, pool.manager());
    assert_eq!((drain.woken(), drain.poll()), (1, Poll::Ready(EMPTY)));
}

#[test]
fn what_is_under_way_is_waited_for() {
    // A creation, and the preparation of an idle object, are dropped. They end, and their object comes back.
    drain_woken_by(false, |get, _| drop(get));
    drain_woken_by(true, |get, _| drop(get));
    drain_woken_by(false, |get, doors| {
        doors.create.open();
        drop(get.ready().expect("the creation was under way"));
    });
    drain_woken_by(true, |get, doors| {
        doors.recycle.open();
        drop(get.ready().expect("the object was the get's"));
    });
    // One that is refused is given up, and the get goes on with its place to a new one.
    drain_woken_by(true, |get, doors| {
        doors.spoils.store(true, SeqCst);
        doors.recycle.open();
        drop(get.ready().expect("the place was the get's"));
    });
}

#[test]
fn an_object_that_is_refused_after_the_close_is_waited_for() {
    let refuse = Hook::async_fn(|_: &mut usize, _: &Metrics| {
        Box::pin(async {
            common::pause().await;
            Err(HookError::message("planned"))
        })
    });
    let pool: Pool<Numbers> =
        Pool::builder(Numbers::default()).max_size(1).post_create(refuse).build().expect("a pool");
    let mut get = Task::new(pool.get());
    assert!(get.poll().is_pending());
    let mut drain = Task::new(pool.drain());
    assert!(drain.poll().is_pending());
    assert!(matches!(get.poll(), Poll::Ready(Err(PoolError::PostCreateHook(_)))));
    assert_eq!((drain.woken(), drain.poll()), (1, Poll::Ready(EMPTY)));
}

#[test]
fn a_drain_that_gives_up_tells_how_the_pool_stands() {
    let pool: Pool<Numbers> =
        Pool::builder(Numbers::default()).max_size(3).runtime(Runtime::Thread).build().expect("a pool");
    let held = get(&pool);
    let left = Status { max_size: 0, size: 1, available: 0, waiting: 0 };
    let late = DrainError::Timeout(left);
    assert_eq!(block_on(pool.drain_for(Duration::ZERO)), Err(late));
    assert_eq!(block_on(pool.drain_for(Duration::from_millis(2))), Err(late));
    let text = "Timeout occurred while draining the pool: max_size 0, size 1, available 0, waiting 0";
    assert_eq!((late.to_string().as_str(), late.status()), (text, left));
    drop(held);
    assert_eq!(block_on(pool.drain_for(Duration::ZERO)), Ok(EMPTY));
    // (without a runtime the time is that of the crate's thread)
    let items = unmanaged::Pool::from([1]);
    let held = items.try_get().expect("an object");
    assert_eq!(
        block_on(items.drain_for(Duration::from_millis(2))),
        Err(DrainError::Timeout(Status { max_size: 1, ..left }))
    );
    drop(held);
    assert_eq!(block_on(items.drain_for(Duration::from_secs(3600))), Ok(Status { max_size: 1, ..EMPTY }));
}

/// Sleeps that are over at once, and how long they were to be.
struct AtOnce(Mutex<Vec<Duration>>);

impl Timers for AtOnce {
    fn sleep(&self, duration: Duration) -> Sleep {
        self.0.lock().expect("nobody panics").push(duration);
        Box::pin(std::future::ready(()))
    }
}

#[test]
fn the_time_of_a_drain_is_that_of_the_pools_timers() {
    static AT_ONCE: AtOnce = AtOnce(Mutex::new(Vec::new()));
    let [hour, day] = [3600, 86400].map(Duration::from_secs);
    let runtime = Runtime::Timers(&AT_ONCE);
    let pool: Pool<Numbers> = Pool::builder(Numbers::default()).max_size(1).runtime(runtime).build().expect("a pool");
    let _held = get(&pool);
    assert!(Task::new(pool.drain_for(hour)).ready().is_err());
    let config = unmanaged::PoolConfig { runtime: Some(runtime), ..unmanaged::PoolConfig::new(1) };
    let items = unmanaged::Pool::from_config(&config);
    items.try_add(7).expect("there is room");
    let _held = items.try_get().expect("an object");
    assert!(Task::new(items.drain_for(day)).ready().is_err());
    assert_eq!(*AT_ONCE.0.lock().expect("nobody panics"), [hour, day]);
}

/// A sleep that is over at once, and gives an object back before.
struct Returns(Mutex<Option<unmanaged::Object<u8>>>);

impl Timers for Returns {
    fn sleep(&self, _: Duration) -> Sleep {
        let mut object = self.0.lock().expect("nobody panics").take();
        Box::pin(std::future::poll_fn(move |_| {
            drop(object.take());
            Poll::Ready(())
        }))
    }
}

#[test]
fn a_drain_that_is_late_when_the_last_object_comes_back_is_no_fault() {
    static RETURNS: Returns = Returns(Mutex::new(None));
    let config = unmanaged::PoolConfig { runtime: Some(Runtime::Timers(&RETURNS)), ..unmanaged::PoolConfig::new(1) };
    let pool = unmanaged::Pool::from_config(&config);
    pool.try_add(7).expect("there is room");
    *RETURNS.0.lock().expect("nobody panics") = pool.try_get().ok();
    assert_eq!(block_on(pool.drain_for(Duration::from_secs(1))), Ok(Status { max_size: 1, ..EMPTY }));
}

#[test]
fn an_unmanaged_pool_is_drained() {
    let pool = unmanaged::Pool::from([1, 2, 3]);
    let (first, second) = (pool.try_get().expect("an object"), pool.try_get().expect("an object"));
    let (mut add, mut drain) = (Task::new(pool.add(4)), Task::new(pool.drain()));
    assert!(add.poll().is_pending());
    assert!(drain.poll().is_pending());
    assert_eq!(counts(pool.status()), [2, 0, 0]);
    assert!(matches!(add.poll(), Poll::Ready(Err((4, unmanaged::PoolError::Closed)))));
    drop(first);
    assert_eq!((drain.woken(), drain.poll()), (0, Poll::Pending));
    assert_eq!(unmanaged::Object::take(second), 2);
    assert_eq!((drain.woken(), drain.poll()), (1, Poll::Ready(Status { max_size: 3, ..EMPTY })));
    assert_eq!(pool.try_add(5), Err((5, unmanaged::PoolError::Closed)));
}

#[test]
fn an_add_that_was_granted_room_is_not_waited_for() {
    let pool = unmanaged::Pool::from([1]);
    let mut add = Task::new(pool.add(2));
    assert!(add.poll().is_pending());
    assert_eq!(pool.try_remove(), Ok(1));
    assert_eq!(add.woken(), 1);
    assert_eq!(Task::new(pool.drain()).ready().size, 0);
    assert_eq!(add.ready(), Err((2, unmanaged::PoolError::Closed)));
    assert_eq!(pool.status().size, 0);
}

#[test]
fn each_drain_is_woken_once_and_none_that_was_dropped() {
    let pool = pool_of(1);
    let held = get(&pool);
    let mut drains: Vec<_> = (0..4).map(|_| Task::new(pool.drain())).collect();
    drains.iter_mut().for_each(|drain| assert!(drain.poll().is_pending()));
    let [(waker, woken), (other, of_other)] = [Count::waker(), Count::waker()];
    let poll = |drain: Pin<&mut _>, waker: &Waker| Future::poll(drain, &mut Context::from_waker(waker));
    let (mut drain, mut dropped) = (pin!(pool.drain()), Box::pin(pool.drain()));
    assert!(poll(dropped.as_mut(), &other).is_pending());
    drop(dropped);
    assert_eq!(Arc::strong_count(&of_other), 2, "the waker of one that is dropped is not kept");
    // The waker of the last poll counts.
    assert!(poll(drain.as_mut(), &other).is_pending() && poll(drain.as_mut(), &waker).is_pending());
    assert!(drains[0].poll().is_pending());
    drop(held);
    assert_eq!(drains.iter().map(Task::woken).collect::<Vec<_>>(), [1; 4]);
    assert_eq!((woken.get(), of_other.get()), (1, 0));
    for drain in drains {
        drain.ready();
    }
    drop(waker);
    assert!(poll(drain.as_mut(), Waker::noop()).is_ready());
    assert_eq!(Arc::strong_count(&woken), 1, "no waker is kept");
}

/// Notes how the pool stood when a value was dropped.
struct Told(Weak<Mutex<Vec<bool>>>, Weak<Count>);

impl Drop for Told {
    fn drop(&mut self) {
        if let (Some(told), Some(woken)) = (self.0.upgrade(), self.1.upgrade()) {
            told.lock().expect("nobody panics").push(woken.get() == 0);
        }
    }
}

#[test]
fn the_last_value_is_dropped_before_a_drain_is_woken() {
    let told = Arc::new(Mutex::new(Vec::new()));
    let (waker, woken) = Count::waker();
    let pool = unmanaged::Pool::from([Told(Arc::downgrade(&told), Arc::downgrade(&woken))]);
    let held = pool.try_get().expect("an object");
    let mut drain = pin!(pool.drain());
    assert!(drain.as_mut().poll(&mut Context::from_waker(&waker)).is_pending());
    drop(held);
    assert_eq!((told.lock().expect("nobody panics").as_slice(), woken.get()), (&[true][..], 1));
}

/// Makes values that are noted as they are detached and as they are dropped.
struct Tells(Arc<Mutex<Vec<bool>>>, Arc<Count>);

impl Manager for Tells {
    type Type = Told;
    type Error = Infallible;

    async fn create(&self) -> Result<Told, Infallible> {
        Ok(Told(Arc::downgrade(&self.0), Arc::downgrade(&self.1)))
    }

    async fn recycle(&self, _: &mut Told, _: &Metrics) -> RecycleResult<Infallible> {
        common::pause().await;
        Ok(())
    }

    fn detach(&self, _: &mut Told) {
        self.0.lock().expect("nobody panics").push(self.1.get() == 0);
    }
}

#[test]
fn the_last_object_is_detached_and_dropped_before_a_drain_is_woken() {
    // An object comes back, and a get is dropped that prepares it.
    for prepares in [false, true] {
        let (waker, woken) = Count::waker();
        let pool: Pool<Tells> = Pool::builder(Tells(Arc::default(), woken)).max_size(1).build().expect("a pool");
        let mut get = Task::new(pool.get());
        let Poll::Ready(Ok(object)) = get.poll() else { panic!("a place is free") };
        let (mut again, mut held) = (Task::new(pool.get()), Some(object));
        if prepares {
            held = None;
            assert!(again.poll().is_pending());
        }
        let mut drain = pin!(pool.drain());
        assert!(drain.as_mut().poll(&mut Context::from_waker(&waker)).is_pending());
        drop((held, again));
        let Tells(told, woken) = pool.manager();
        assert_eq!((told.lock().expect("nobody panics").as_slice(), woken.get()), (&[true, true][..], 1));
    }
}

#[test]
fn threads_that_return_late_are_waited_for() {
    for round in 0..50 {
        let pool = pool_of(4);
        let held: Vec<_> = (0..4).map(|_| get(&pool)).collect();
        let threads: Vec<_> = held.into_iter().map(|object| thread::spawn(move || drop(object))).collect();
        let clone = pool.clone();
        assert!(is_answered(move || _ = deadpool::wait(clone.drain())), "round {round}");
        assert_eq!(counts(pool.status()), [0, 0, 0]);
        threads.into_iter().for_each(|it| it.join().expect("a thread"));
    }
}
