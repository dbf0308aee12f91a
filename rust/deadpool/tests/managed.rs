//! The managed pool: gets and returns, a close, a take, a retain.
mod common;

use common::{Numbers, Task, block_on, counts};
use deadpool::managed::{Manager, Metrics, Object, Pool, PoolConfig, PoolError, QueueMode, RecycleResult, Timeouts};
use deadpool::{Runtime, Status};
use std::convert::Infallible;
use std::sync::atomic::{AtomicU64, Ordering};
use std::task::Poll;
use std::thread;
use std::time::{Duration, Instant};

fn pool(max_size: usize) -> Pool<Numbers> {
    Pool::builder(Numbers::default()).max_size(max_size).build().expect("a pool")
}

#[test]
fn objects_are_counted_as_they_go_out_and_come_back() {
    let pool = pool(16);
    assert_eq!(counts(pool.status()), [0, 0, 0]);
    let mut out = Vec::new();
    for size in 1..=3 {
        out.push(block_on(pool.get()).expect("an object"));
        assert_eq!(counts(pool.status()), [size, 0, 0]);
    }
    for available in 1..=3 {
        out.pop();
        assert_eq!(counts(pool.status()), [3, available, 0]);
    }
    assert_eq!(pool.status().max_size, 16);
}

#[test]
fn a_close_ends_those_that_wait_and_those_that_come() {
    let pool = pool(1);
    let held = block_on(pool.get()).expect("an object");
    let mut waiter = Task::new(pool.get());
    assert!(waiter.poll().is_pending());
    assert_eq!(counts(pool.status()), [1, 0, 1]);
    pool.close();
    assert!(pool.is_closed());
    assert_eq!(waiter.woken(), 1);
    assert!(matches!(waiter.poll(), Poll::Ready(Err(PoolError::Closed))));
    assert_eq!(pool.status().waiting, 0);
    assert!(matches!(block_on(pool.get()), Err(PoolError::Closed)));
    let at_once = Timeouts { wait: Some(Duration::ZERO), ..Timeouts::default() };
    assert!(matches!(block_on(pool.timeout_get(&at_once)), Err(PoolError::Closed)));
    drop(held);
    assert_eq!(counts(pool.status()), [0, 0, 0]);
}

#[test]
fn a_hundred_jobs_share_three_objects() {
    let pool = Pool::<Numbers>::builder(Numbers::default()).max_size(3).build().expect("a pool");
    thread::scope(|scope| {
        for _ in 0..10 {
            scope.spawn(|| {
                for _ in 0..10 {
                    let mut object = block_on(pool.get()).expect("an object");
                    *object += 100;
                }
            });
        }
    });
    let status = pool.status();
    assert!((1..=3).contains(&status.size));
    assert_eq!((status.available, status.waiting), (status.size, 0));
    let values = pool.retain(|_, _| false).removed;
    assert_eq!(values.iter().map(|value| value / 100).sum::<usize>(), 100);
}

#[test]
fn objects_that_are_taken_make_room() {
    let pool = pool(2);
    let (first, second) = (block_on(pool.get()).expect("an object"), block_on(pool.get()).expect("an object"));
    assert_eq!(pool.status().size, 2);
    assert_eq!(Object::take(first), 0);
    assert_eq!(pool.status().size, 1);
    assert_eq!(Object::take(second), 1);
    assert_eq!(pool.status().size, 0);
    assert_eq!(pool.manager().detached(), 2);
    let (first, second) = (block_on(pool.get()).expect("an object"), block_on(pool.get()).expect("an object"));
    assert_eq!((*first, *second), (2, 3));
    assert_eq!(counts(pool.status()), [2, 0, 0]);
    drop((first, second));
    assert_eq!(counts(pool.status()), [2, 2, 0]);
}

#[test]
fn a_retain_goes_by_age() {
    let pool = pool(4);
    let old = [block_on(pool.get()).expect("an object"), block_on(pool.get()).expect("an object")];
    thread::sleep(Duration::from_millis(5));
    let between = Instant::now();
    let young = block_on(pool.get()).expect("an object");
    drop((old, young));
    assert_eq!(pool.status().size, 3);
    let result = pool.retain(|_, metrics| metrics.created > between);
    assert_eq!((result.retained, result.removed), (1, vec![0, 1]));
    assert_eq!(pool.status().size, 1);
    thread::sleep(Duration::from_millis(5));
    let after = Instant::now();
    let result = pool.retain(|_, metrics| {
        assert!(metrics.age() >= Duration::from_millis(5) && metrics.last_used() >= Duration::from_millis(5));
        metrics.recycled.unwrap_or(metrics.created) > after
    });
    assert_eq!((result.retained, result.removed), (0, vec![2]));
    assert_eq!(pool.status().size, 0);
    assert_eq!(pool.manager().detached(), 3);
}

#[test]
fn a_retain_asks_a_closure_that_changes_about_each_object() {
    let pool = pool(4);
    drop((0..4).map(|_| block_on(pool.get()).expect("an object")).collect::<Vec<_>>());
    let mut calls = 0;
    let result = pool.retain(|_, _| {
        calls += 1;
        false
    });
    assert_eq!((result.retained, result.removed.len(), pool.status().size, calls), (0, 4, 0, 4));
}

#[test]
fn a_retain_asks_once_about_each_object_whatever_the_answer_is() {
    let pool = pool(20);
    drop((0..20).map(|_| block_on(pool.get()).expect("an object")).collect::<Vec<_>>());
    let mut seen = Vec::new();
    let result = pool.retain(|value, _| {
        seen.push(*value);
        *value % 2 == 0
    });
    assert_eq!((seen, result.retained), ((0..20).collect(), 10));
    assert_eq!(result.removed, (0..20).filter(|value| value % 2 == 1).collect::<Vec<_>>());
}

#[test]
fn a_configuration_is_what_a_pool_goes_by() {
    let timeouts = Timeouts {
        wait: Some(Duration::from_secs(1)),
        create: Some(Duration::from_secs(2)),
        recycle: Some(Duration::from_secs(3)),
    };
    let config = PoolConfig { max_size: 42, timeouts, queue_mode: QueueMode::Lifo };
    let builder = Pool::<Numbers>::builder(Numbers::default()).config(config);
    assert_eq!(
        builder.build().expect_err("no runtime").to_string(),
        "Error occurred while building the pool: Timeouts require a runtime"
    );
    let builder = Pool::<Numbers>::builder(Numbers::default()).config(config).runtime(Runtime::Thread);
    let pool = builder.build().expect("a pool");
    let set = pool.timeouts();
    assert_eq!((set.wait, set.create, set.recycle), (timeouts.wait, timeouts.create, timeouts.recycle));
    assert_eq!(pool.status().max_size, 42);
    drop([block_on(pool.get()).expect("an object"), block_on(pool.get()).expect("an object")]);
    // The last one that came back is the first to go out.
    assert_eq!(*block_on(pool.get()).expect("an object"), 1);
    assert_eq!(Timeouts::wait_millis(5).wait, Some(Duration::from_millis(5)));
    assert!(PoolConfig::default().max_size >= 2);
}

#[test]
fn handles_are_counted_and_the_last_one_takes_the_idle_objects() {
    // (with a journal each of them is counted by the desk)
    for entries in [0, 99] {
        let builder = Pool::builder(Numbers::default()).max_size(2).journal(entries);
        let pool: Pool<Numbers> = builder.build().expect("a pool");
        let weak = pool.weak();
        let (held, other) = (block_on(pool.get()).expect("an object"), block_on(pool.get()).expect("an object"));
        drop(other);
        let second = pool.clone();
        drop(pool);
        assert!(Object::pool(&held).is_some());
        assert_eq!((counts(second.status()), *block_on(second.get()).expect("it is idle")), ([2, 1, 0], 1));
        let third = weak.upgrade().expect("a handle is left");
        drop(second);
        assert_eq!((counts(third.status()), *block_on(third.get()).expect("it is idle")), ([2, 1, 0], 1));
        drop(third);
        assert!(weak.upgrade().is_none());
        assert!(Object::pool(&held).is_none());
        assert_eq!(*held, 0);
        drop(held);
    }
}

/// An object as a user of a pool wraps it.
struct Wrapped(Object<Numbers>);

impl From<Object<Numbers>> for Wrapped {
    fn from(object: Object<Numbers>) -> Self {
        Wrapped(object)
    }
}

#[test]
fn a_pool_hands_out_wrapped_objects() {
    let pool: Pool<Numbers, Wrapped> = Pool::builder(Numbers::from(7)).max_size(1).build().expect("a pool");
    let wrapped = block_on(pool.get()).expect("an object");
    assert_eq!(*wrapped.0, 7);
    assert_eq!(Object::id(&wrapped.0).to_string(), "0");
    assert_eq!(Object::metrics(&wrapped.0).recycle_count, 0);
}

/// Notes the order in which values are dropped.
struct Noisy<'a>(u64, &'a AtomicU64);

impl Drop for Noisy<'_> {
    fn drop(&mut self) {
        let dropped = self.1.load(Ordering::SeqCst);
        self.1.store(dropped * 10 + self.0, Ordering::SeqCst);
    }
}

struct NoisyMaker<'a>(&'a AtomicU64, AtomicU64);

impl<'a> Manager for NoisyMaker<'a> {
    type Type = Noisy<'a>;
    type Error = Infallible;

    async fn create(&self) -> Result<Noisy<'a>, Infallible> {
        Ok(Noisy(self.1.fetch_add(1, Ordering::SeqCst) + 1, self.0))
    }

    async fn recycle(&self, _: &mut Noisy<'a>, _: &Metrics) -> RecycleResult<Infallible> {
        Ok(())
    }
}

#[test]
fn a_resize_drops_the_object_that_came_back_first() {
    let dropped = AtomicU64::new(0);
    let maker = NoisyMaker(&dropped, AtomicU64::new(0));
    let pool: Pool<NoisyMaker> = Pool::builder(maker).max_size(4).build().expect("a pool");
    let mut out: Vec<_> = (0..4).map(|_| block_on(pool.get()).expect("an object")).collect();
    for at in [2, 0, 1, 0] {
        drop(out.remove(at));
    }
    assert_eq!(dropped.load(Ordering::SeqCst), 0);
    pool.resize(2);
    assert_eq!(dropped.load(Ordering::SeqCst), 31);
    let held = block_on(pool.get()).expect("an object");
    assert_eq!(held.0, 4);
    drop(pool);
    assert_eq!(dropped.load(Ordering::SeqCst), 312);
    drop(held);
    assert_eq!(dropped.load(Ordering::SeqCst), 3124);
}

#[test]
fn a_shrink_and_a_retain_keep_the_least_number_of_idle_objects() {
    let pool: Pool<Numbers> = Pool::builder(Numbers::default()).max_size(4).min_idle(2).build().expect("a pool");
    drop((0..4).map(|_| block_on(pool.get()).expect("an object")).collect::<Vec<_>>());
    let result = pool.retain(|_, _| false);
    assert_eq!((result.retained, result.removed), (2, vec![0, 1]));
    pool.resize(1);
    assert_eq!(pool.status(), Status { max_size: 1, size: 1, available: 1, waiting: 0 });
}
