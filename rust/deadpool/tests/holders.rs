//! What a pool has is dropped once nothing holds it any more: its manager, its hooks, its values and the wakers of its gets.
mod common;

use common::{Task, block_on};
use deadpool::managed::{Hook, Limits, Manager, Metrics, Object, Pool, RecycleError, RecycleResult, Timeouts};
use deadpool::{Runtime, Sleep, Timers, unmanaged};
use std::future::poll_fn;
use std::sync::Arc;
use std::sync::atomic::{AtomicBool, Ordering};
use std::task::{Context, Poll, Waker};
use std::time::Duration;

/// What is alive holds a part of this.
type Alive = Arc<()>;

/// A manager whose values are alive as it is. It refuses to recycle if it is told to.
struct Keeper {
    alive: Alive,
    refuses: AtomicBool,
}

impl Manager for Keeper {
    type Type = Alive;
    type Error = ();

    async fn create(&self) -> Result<Alive, ()> {
        Ok(self.alive.clone())
    }

    async fn recycle(&self, _: &mut Alive, _: &Metrics) -> RecycleResult<()> {
        if self.refuses.load(Ordering::SeqCst) { Err(RecycleError::Backend(())) } else { Ok(()) }
    }
}

/// A pool whose manager, hooks and values are alive.
fn pool_of(alive: &Alive, entries: usize) -> Pool<Keeper> {
    let hook = || {
        let held = alive.clone();
        Hook::sync_fn(move |_: &mut Alive, _: &Metrics| {
            assert!(Arc::strong_count(&held) > 1);
            Ok(())
        })
    };
    let builder = Pool::builder(Keeper { alive: alive.clone(), refuses: AtomicBool::new(false) });
    let builder = builder.max_size(2).journal(entries).post_create(hook()).pre_recycle(hook()).post_recycle(hook());
    builder.build().expect("a pool")
}

fn get(pool: &Pool<Keeper>) -> Object<Keeper> {
    block_on(pool.get()).expect("an object")
}

/// Uses a pool. What it gives outlives the pool.
type Way = fn(&Pool<Keeper>) -> Vec<Object<Keeper>>;

const WAYS: [(&str, Way); 11] = [
    ("nothing", |_| vec![]),
    ("a get", |pool| {
        drop(get(pool));
        drop(get(pool));
        vec![]
    }),
    ("objects that outlive the pool", |pool| vec![get(pool), get(pool)]),
    ("an idle object, and one that outlives the pool", |pool| {
        let outlives = get(pool);
        drop(get(pool));
        vec![outlives]
    }),
    ("a take", |pool| {
        drop(Object::take(get(pool)));
        vec![get(pool)]
    }),
    ("a refused object", |pool| {
        drop(get(pool));
        pool.manager().refuses.store(true, Ordering::SeqCst);
        vec![get(pool)]
    }),
    ("a resize and a retain", |pool| {
        drop([get(pool), get(pool)]);
        pool.resize(1);
        assert_eq!(pool.retain(|_, _| false).removed.len(), 1);
        vec![]
    }),
    ("a close", |pool| {
        let outlives = get(pool);
        drop(get(pool));
        pool.close();
        vec![outlives]
    }),
    ("other handles", |pool| {
        let (second, weak) = (pool.clone(), pool.weak());
        let third = weak.upgrade().expect("a handle is left");
        drop((second, third.clone()));
        vec![get(&third)]
    }),
    ("a get that waits and is dropped", |pool| {
        let mut out = vec![get(pool), get(pool)];
        let mut waits = Task::new(pool.get());
        assert!(waits.poll().is_pending());
        drop(waits);
        out.pop();
        out
    }),
    ("a get that is served and dropped", |pool| {
        let mut out = vec![get(pool), get(pool)];
        let mut waits = Task::new(pool.get());
        assert!(waits.poll().is_pending());
        out.pop();
        drop(waits);
        let zero = Timeouts { wait: Some(Duration::ZERO), ..Timeouts::new() };
        out.push(block_on(pool.timeout_get(&zero)).expect("its place is free"));
        out
    }),
];

#[test]
fn a_managed_pool_is_dropped_with_its_last_holder() {
    for entries in [0, 9] {
        for (name, way) in WAYS {
            let alive = Alive::default();
            let pool = pool_of(&alive, entries);
            let weak = pool.weak();
            let outlives = way(&pool);
            let objects = outlives.len();
            drop(pool);
            assert!(weak.upgrade().is_none(), "{name}");
            if objects > 0 {
                // (the manager, three hooks, and each object that is out)
                assert_eq!(Arc::strong_count(&alive), 1 + 4 + objects, "{name}");
            }
            drop(outlives);
            assert_eq!(Arc::strong_count(&alive), 1, "{name}");
        }
    }
}

#[test]
fn a_keeper_that_nobody_polls_keeps_no_pool() {
    for entries in [0, 9] {
        let alive = Alive::default();
        let pool = pool_of(&alive, entries);
        drop(get(&pool));
        let hour = Duration::from_secs(3600);
        let (mut begun, other) = (Task::new(pool.keeper(Limits::none(), hour)), pool.keeper(Limits::none(), hour));
        assert!(begun.poll().is_pending());
        drop(pool);
        assert_eq!((Arc::strong_count(&alive), begun.woken()), (1, 1), "the pool has gone, and the keeper is told");
        begun.ready();
        Task::new(other).ready();
    }
}

#[test]
fn a_pool_that_has_closed_has_no_handle_once_the_last_is_dropped() {
    for entries in [0, 9] {
        let alive = Alive::default();
        let pool = pool_of(&alive, entries);
        let (object, weak) = (get(&pool), pool.weak());
        pool.close();
        assert!(weak.upgrade().is_some_and(|pool| pool.is_closed()));
        assert!(Object::pool(&object).is_some());
        drop(pool);
        assert!(weak.upgrade().is_none() && Object::pool(&object).is_none());
    }
}

#[test]
fn an_unmanaged_pool_is_dropped_with_its_last_holder() {
    type Way = fn(&unmanaged::Pool<Alive>) -> Vec<unmanaged::Object<Alive>>;
    let take = |pool: &unmanaged::Pool<Alive>| pool.try_get().expect("an object");
    let ways: [(&str, Way); 6] = [
        ("nothing", |_| vec![]),
        ("a get", |pool| {
            drop(pool.try_get());
            vec![]
        }),
        ("an object that outlives the pool", |pool| vec![pool.try_get().expect("an object")]),
        ("a removal and an add", |pool| {
            let value = pool.try_remove().expect("an object");
            assert!(pool.try_add(value.clone()).is_ok() && pool.try_add(value).is_err());
            vec![]
        }),
        ("an add and a get that wait and are dropped", |pool| {
            let out = vec![pool.try_get().expect("an object"), pool.try_get().expect("an object")];
            let (mut waits, mut adds) = (Task::new(pool.get()), Task::new(pool.add((*out[0]).clone())));
            assert!(waits.poll().is_pending() && adds.poll().is_pending());
            out
        }),
        ("a close", |pool| {
            let outlives = pool.try_get().expect("an object");
            pool.close();
            vec![outlives]
        }),
    ];
    for (journal, (name, way)) in [0, 9].into_iter().flat_map(|journal| ways.map(|way| (journal, way))) {
        let alive = Alive::default();
        let settings = unmanaged::Settings { journal, ..unmanaged::PoolConfig::new(2).into() };
        let pool = unmanaged::Pool::from_settings(&settings);
        assert!(pool.try_add(alive.clone()).is_ok() && pool.try_add(alive.clone()).is_ok());
        drop((take(&pool), pool.clone()));
        let outlives = way(&pool);
        drop(pool);
        assert_eq!(Arc::strong_count(&alive), 1 + outlives.len(), "{name}");
        drop(outlives);
        assert_eq!(Arc::strong_count(&alive), 1, "{name}");
    }
}

#[test]
fn the_waker_of_a_get_that_is_over_is_dropped() {
    let alive = Alive::default();
    let pool = pool_of(&alive, 0);
    let (waker, count) = common::Count::waker();
    let out = [get(&pool), get(&pool)];
    for is_served in [false, true] {
        let mut waits = Box::pin(pool.get());
        assert!(waits.as_mut().poll(&mut Context::from_waker(&waker)).is_pending());
        assert_eq!(Arc::strong_count(&count), 3);
        if is_served {
            pool.resize(3);
            assert_eq!(count.get(), 1);
        }
        drop(waits);
        assert_eq!(Arc::strong_count(&count), 2, "is served: {is_served}");
    }
    drop(out);
}

static IS_LATE: AtomicBool = AtomicBool::new(false);

/// Timers whose time has passed once the test says so.
struct ByHand;

impl Timers for ByHand {
    fn sleep(&self, _: Duration) -> Sleep {
        Box::pin(poll_fn(|_| if IS_LATE.load(Ordering::SeqCst) { Poll::Ready(()) } else { Poll::Pending }))
    }
}

#[test]
fn the_waker_of_an_unmanaged_get_that_is_over_is_dropped() {
    let mut config = unmanaged::PoolConfig::new(1);
    (config.timeout, config.runtime) = (Some(Duration::from_secs(1)), Some(Runtime::Timers(&ByHand)));
    let pool = unmanaged::Pool::<u8>::from_config(&config);
    let (waker, count) = common::Count::waker();
    for is_late in [false, true] {
        let mut waits = Box::pin(pool.get());
        assert!(waits.as_mut().poll(&mut Context::from_waker(&waker)).is_pending());
        assert_eq!(Arc::strong_count(&count), 3);
        IS_LATE.store(is_late, Ordering::SeqCst);
        if is_late {
            assert!(waits.as_mut().poll(&mut Context::from_waker(Waker::noop())).is_ready());
        } else {
            drop(waits);
        }
        assert_eq!(Arc::strong_count(&count), 2, "is late: {is_late}");
    }
}
