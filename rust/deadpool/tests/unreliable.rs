//! Managers that refuse, and creations that do not end.
mod common;

use common::{Door, Task, block_on, counts};
use deadpool::Runtime;
use deadpool::managed::{Manager, Metrics, Object, Pool, PoolError, RecycleError, RecycleResult, TimeoutType};
use std::future::pending;
use std::sync::Mutex;
use std::sync::atomic::{AtomicUsize, Ordering};
use std::task::Poll;
use std::thread;
use std::time::Duration;

/// Refuses what it is told to refuse.
struct Unreliable {
    creates: bool,
    detached: AtomicUsize,
}

impl Manager for Unreliable {
    type Type = ();
    type Error = &'static str;

    async fn create(&self) -> Result<(), &'static str> {
        if self.creates { Ok(()) } else { Err("no object today") }
    }

    async fn recycle(&self, _: &mut (), _: &Metrics) -> RecycleResult<&'static str> {
        Err(RecycleError::Backend("not again"))
    }

    fn detach(&self, _: &mut ()) {
        self.detached.fetch_add(1, Ordering::SeqCst);
    }
}

#[test]
fn a_refused_creation_leaves_the_place_free() {
    let manager = Unreliable { creates: false, detached: AtomicUsize::new(0) };
    let pool: Pool<Unreliable> = Pool::builder(manager).max_size(1).build().expect("a pool");
    for _ in 0..2 {
        assert!(matches!(block_on(pool.get()), Err(PoolError::Backend("no object today"))));
    }
    assert_eq!(counts(pool.status()), [0, 0, 0]);
}

#[test]
fn objects_that_are_not_recycled_are_detached() {
    let manager = Unreliable { creates: true, detached: AtomicUsize::new(0) };
    let pool: Pool<Unreliable> = Pool::builder(manager).max_size(2).build().expect("a pool");
    let detached = || pool.manager().detached.load(Ordering::SeqCst);
    drop([block_on(pool.get()).expect("an object"), block_on(pool.get()).expect("an object")]);
    assert_eq!((counts(pool.status()), detached()), ([2, 2, 0], 0));
    let held = block_on(pool.get()).expect("an object");
    assert_eq!((counts(pool.status()), detached()), ([1, 0, 0], 2));
    drop(held);
    assert_eq!(counts(pool.status()), [1, 1, 0]);
}

/// Makes numbers, and recycles each twice.
#[derive(Default)]
struct Wearing(AtomicUsize);

impl Manager for Wearing {
    type Type = usize;
    type Error = &'static str;

    async fn create(&self) -> Result<usize, &'static str> {
        Ok(self.0.fetch_add(1, Ordering::SeqCst))
    }

    async fn recycle(&self, _: &mut usize, metrics: &Metrics) -> RecycleResult<&'static str> {
        assert_eq!(metrics.recycled.is_some(), metrics.recycle_count > 0);
        if metrics.recycle_count == 2 { Err(RecycleError::message("worn out")) } else { Ok(()) }
    }
}

#[test]
fn a_manager_sees_what_is_known_of_an_object() {
    let pool: Pool<Wearing> = Pool::builder(Wearing::default()).max_size(1).build().expect("a pool");
    let values: Vec<_> = (0..7).map(|_| *block_on(pool.get()).expect("an object")).collect();
    assert_eq!(values, [0, 0, 0, 1, 1, 1, 2]);
}

#[test]
fn an_object_knows_when_it_was_made_and_when_it_was_last_handed_out() {
    const PAUSE: Duration = Duration::from_millis(20);
    let pool: Pool<Wearing> = Pool::builder(Wearing::default()).max_size(1).build().expect("a pool");
    let get = || *Object::metrics(&block_on(pool.get()).expect("an object"));
    let first = get();
    assert!(first.recycled.is_none());
    thread::sleep(PAUSE);
    assert!(first.age() >= PAUSE && first.last_used() >= PAUSE);
    let second = get();
    assert_eq!((second.created, second.recycle_count), (first.created, 1));
    assert!(second.recycled.expect("it was handed out again") >= first.created + PAUSE);
    thread::sleep(PAUSE);
    assert!(second.age() >= second.last_used() + PAUSE && second.last_used() >= PAUSE);
    let third = get();
    assert_eq!((third.created, third.recycle_count), (first.created, 2));
    assert!(third.recycled >= second.recycled.map(|at| at + PAUSE));
}

/// Creates once its door is open: at first it refuses, and then it does not.
struct Late {
    door: Door,
    refusals: Mutex<u32>,
}

impl Manager for Late {
    type Type = ();
    type Error = &'static str;

    async fn create(&self) -> Result<(), &'static str> {
        self.door.clone().await;
        let mut left = self.refusals.lock().expect("no panic");
        if *left == 0 {
            return Ok(());
        }
        *left -= 1;
        Err("late")
    }

    async fn recycle(&self, _: &mut (), _: &Metrics) -> RecycleResult<&'static str> {
        Ok(())
    }
}

#[test]
fn a_drained_pool_serves_the_next_one_after_a_refusal() {
    let door = Door::default();
    let manager = Late { door: door.clone(), refusals: Mutex::new(1) };
    let pool: Pool<Late> = Pool::builder(manager).max_size(1).build().expect("a pool");
    let mut first = Task::new(pool.get());
    assert!(first.poll().is_pending());
    assert_eq!(counts(pool.status()), [0, 0, 1]);
    let mut second = Task::new(pool.get());
    assert!(second.poll().is_pending());
    assert_eq!(counts(pool.status()), [0, 0, 2]);
    door.open();
    assert!(matches!(first.poll(), Poll::Ready(Err(PoolError::Backend("late")))));
    assert_eq!(second.woken(), 1);
    assert_eq!(counts(pool.status()), [0, 0, 1]);
    let Poll::Ready(Ok(object)) = second.poll() else {
        panic!("the second get is served");
    };
    assert_eq!(counts(pool.status()), [1, 0, 0]);
    drop(object);
    assert_eq!(counts(pool.status()), [1, 1, 0]);
}

/// Never answers.
struct Silent;

impl Manager for Silent {
    type Type = ();
    type Error = ();

    async fn create(&self) -> Result<(), ()> {
        pending().await
    }

    async fn recycle(&self, _: &mut (), _: &Metrics) -> RecycleResult<()> {
        pending().await
    }
}

#[test]
fn a_creation_without_an_answer_runs_out_of_time() {
    for (wait, create) in [(Duration::ZERO, Duration::ZERO), (Duration::from_millis(5), Duration::from_millis(5))] {
        let pool: Pool<Silent> = Pool::builder(Silent)
            .max_size(16)
            .wait_timeout(Some(wait))
            .create_timeout(Some(create))
            .recycle_timeout(Some(wait))
            .runtime(Runtime::Thread)
            .build()
            .expect("a pool");
        assert!(matches!(block_on(pool.get()), Err(PoolError::Timeout(TimeoutType::Create))));
        assert_eq!(counts(pool.status()), [0, 0, 0]);
    }
}

#[test]
fn a_wait_runs_out_of_time() {
    let pool: Pool<Silent> = Pool::builder(Silent)
        .max_size(0)
        .wait_timeout(Some(Duration::from_millis(5)))
        .runtime(Runtime::Thread)
        .build()
        .expect("a pool");
    assert!(matches!(block_on(pool.get()), Err(PoolError::Timeout(TimeoutType::Wait))));
    assert_eq!(counts(pool.status()), [0, 0, 0]);
}

#[test]
fn a_timeout_needs_a_runtime() {
    let pool: Pool<Silent> = Pool::builder(Silent).max_size(1).build().expect("a pool");
    let wait = deadpool::managed::Timeouts::wait_millis(1);
    assert!(matches!(block_on(pool.timeout_get(&wait)), Err(PoolError::NoRuntimeSpecified)));
    let create = deadpool::managed::Timeouts { create: Some(Duration::ZERO), ..Default::default() };
    assert!(matches!(block_on(pool.timeout_get(&create)), Err(PoolError::NoRuntimeSpecified)));
    assert_eq!(counts(pool.status()), [0, 0, 0]);
}

#[test]
fn a_backend_gives_on_what_its_users_name() {
    use deadpool::managed::reexports::{PoolConfig, Runtime as Named, Timeouts};
    let config = PoolConfig { timeouts: Timeouts::wait_millis(5), ..PoolConfig::new(0) };
    for runtime in [Named::Tokio1, Named::AsyncStd1] {
        let pool: Pool<Silent> = Pool::builder(Silent).config(config).runtime(runtime).build().expect("a pool");
        assert!(matches!(block_on(pool.get()), Err(PoolError::Timeout(TimeoutType::Wait))));
    }
}
