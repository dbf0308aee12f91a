//! Limits, as a hook and by a keeper; names, and what a pool tells of itself.
mod common;

use common::{Numbers, Task, block_on, counts, is_answered};
use deadpool::managed::{
    Hook, Limits, Manager, Metrics, Object, Pool, PoolBuilder, PoolError, RecycleResult, TimeoutType,
};
use deadpool::{Runtime, Sleep, Timers, unmanaged};
use std::convert::Infallible;
use std::sync::Mutex;
use std::task::Poll;
use std::thread;
use std::time::{Duration, Instant};

const SECOND: Duration = Duration::from_secs(1);

fn two() -> PoolBuilder<Numbers> {
    Pool::builder(Numbers::default()).max_size(2)
}

fn number(pool: &Pool<Numbers>) -> usize {
    *block_on(pool.get()).expect("an object")
}

#[test]
fn an_object_may_serve_within_its_limits() {
    let created = Instant::now();
    let new = Metrics { created, recycled: None, recycle_count: 0 };
    let used = Metrics { created, recycled: Some(created + 3 * SECOND), recycle_count: 2 };
    let allow = |limits: Limits, metrics: &Metrics, at: Duration| limits.allow(metrics, created + at);
    assert_eq!(Limits::none(), Limits::default());
    assert!(allow(Limits::none(), &used, 1000 * SECOND));
    let lifetime = Limits::none().lifetime(5 * SECOND);
    assert!(allow(lifetime, &used, 5 * SECOND - Duration::from_nanos(1)) && !allow(lifetime, &used, 5 * SECOND));
    let idle = Limits::none().idle(SECOND);
    assert!(
        allow(idle, &new, SECOND / 2) && !allow(idle, &new, SECOND),
        "a new one was handed out when it was created"
    );
    assert!(allow(idle, &used, 4 * SECOND - Duration::from_nanos(1)) && !allow(idle, &used, 4 * SECOND));
    let uses = |most| Limits::none().uses(most);
    assert!(allow(uses(2), &new, SECOND) && !allow(uses(1), &new, SECOND) && !allow(uses(0), &new, SECOND));
    assert!(allow(uses(4), &used, SECOND) && !allow(uses(3), &used, SECOND));
    let most = Metrics { recycle_count: usize::MAX, ..used };
    assert!(!allow(uses(usize::MAX), &most, SECOND));
    // (a moment before the creation is no age)
    assert!(Limits::none().lifetime(SECOND).allow(&used, created));
    // What is within one limit may be past another.
    assert!(!allow(lifetime.uses(3), &used, 4 * SECOND) && allow(lifetime.uses(4), &used, 4 * SECOND));
}

#[test]
fn a_get_gives_up_what_is_past_its_limits() {
    let pool: Pool<Numbers> = two().pre_recycle(Limits::none().uses(3)).build().expect("a pool");
    let numbers: Vec<_> = (0..7).map(|_| number(&pool)).collect();
    assert_eq!((numbers.as_slice(), pool.manager().detached()), (&[0, 0, 0, 1, 1, 1, 2][..], 2));
    let pool: Pool<Numbers> = two().pre_recycle(Limits::none().lifetime(Duration::ZERO)).build().expect("a pool");
    assert_eq!([number(&pool), number(&pool)], [0, 1]);
}

/// Notes how long the sleeps are to be, each of which ends when it is polled the second time.
struct Sleeps(Mutex<Vec<Duration>>);

impl Sleeps {
    fn noted(&self) -> Vec<Duration> {
        self.0.lock().expect("nobody panics").clone()
    }
}

impl Timers for Sleeps {
    fn sleep(&self, duration: Duration) -> Sleep {
        self.0.lock().expect("nobody panics").push(duration);
        Box::pin(common::pause())
    }
}

#[test]
fn a_keeper_gives_up_what_is_past_its_limits_each_period() {
    static SLEEPS: Sleeps = Sleeps(Mutex::new(Vec::new()));
    let pool: Pool<Numbers> = two().runtime(Runtime::Timers(&SLEEPS)).build().expect("a pool");
    assert_eq!([number(&pool), number(&pool)], [0, 0]);
    let mut keeper = Task::new(pool.keeper(Limits::none().uses(2), SECOND));
    assert!(keeper.poll().is_pending());
    assert_eq!((counts(pool.status()), SLEEPS.noted()), ([1, 1, 0], vec![SECOND]), "a period has begun");
    // The period ends, and the object was handed out twice.
    assert!(keeper.poll().is_pending());
    assert_eq!((counts(pool.status()), pool.manager().detached()), ([0, 0, 0], 1));
    assert_eq!(number(&pool), 1);
    // (each period takes two polls, one that waits and one that asks)
    for _ in 0..5 {
        assert!(keeper.poll().is_pending());
    }
    assert_eq!((counts(pool.status()), SLEEPS.noted()), ([1, 1, 0], vec![SECOND; 4]), "it is within its limits");
    let woken = keeper.woken();
    pool.close();
    assert_eq!((keeper.woken(), keeper.poll()), (woken + 1, Poll::Ready(())));
}

#[test]
fn a_keeper_ends_with_the_last_handle() {
    let pool: Pool<Numbers> = two().journal(3).build().expect("a pool");
    let (object, clone) = (block_on(pool.get()).expect("an object"), pool.clone());
    let mut keeper = Task::new(pool.keeper(Limits::none(), 3600 * SECOND));
    assert!(keeper.poll().is_pending());
    drop(pool);
    assert_eq!((keeper.woken(), keeper.poll()), (0, Poll::Pending));
    drop(clone);
    assert_eq!((keeper.woken(), keeper.poll()), (1, Poll::Ready(())));
    drop(object);
}

#[test]
fn a_thread_is_a_keeper_too() {
    let pool: Pool<Numbers> = two().build().expect("a pool");
    drop(block_on(pool.get()).expect("an object"));
    let keeper = pool.keeper(Limits::none().idle(Duration::from_millis(1)), Duration::from_millis(2));
    let kept = thread::spawn(|| deadpool::wait(keeper));
    let watched = pool.clone();
    assert!(
        is_answered(move || while watched.status().size > 0 {
            thread::yield_now()
        }),
        "it gives the object up"
    );
    pool.close();
    assert!(is_answered(move || kept.join().expect("a thread")), "it ends with the pool");
}

/// Makes nothing, and never ends.
struct Stuck;

impl Manager for Stuck {
    type Type = ();
    type Error = Infallible;

    async fn create(&self) -> Result<(), Infallible> {
        std::future::pending().await
    }

    async fn recycle(&self, (): &mut (), _: &Metrics) -> RecycleResult<Infallible> {
        Ok(())
    }
}

#[test]
fn a_try_waits_for_no_place() {
    let pool: Pool<Numbers> = Pool::builder(Numbers::default()).max_size(1).build().expect("a pool");
    let held = block_on(pool.try_get()).expect("a place is free");
    assert!(matches!(block_on(pool.try_get()), Err(PoolError::Timeout(TimeoutType::Wait))));
    drop(held);
    assert_eq!(*block_on(pool.try_get()).expect("it is idle"), 0);
    pool.close();
    assert!(matches!(block_on(pool.try_get()), Err(PoolError::Closed)));
    // (the pool's other timeouts hold)
    let stuck = Pool::<Stuck>::builder(Stuck).create_timeout(Some(Duration::from_millis(1))).runtime(Runtime::Thread);
    let pool = stuck.build().expect("a pool");
    assert!(matches!(block_on(pool.try_get()), Err(PoolError::Timeout(TimeoutType::Create))));
}

#[test]
fn an_object_knows_how_long_its_get_has_waited() {
    let slow = || {
        Hook::sync_fn(|_: &mut usize, _: &Metrics| {
            thread::sleep(Duration::from_millis(3));
            Ok(())
        })
    };
    let builder = || Pool::builder(Numbers::default()).max_size(1).pre_recycle(slow());
    let pool: Pool<Numbers> = builder().times_waits(true).build().expect("a pool");
    let held = block_on(pool.get()).expect("an object");
    assert_eq!(Object::waited(&held), Duration::ZERO);
    let (begun, mut waits) = (Instant::now(), Task::new(pool.get()));
    assert!(waits.poll().is_pending());
    thread::sleep(Duration::from_millis(5));
    assert!(waits.poll().is_pending());
    drop(held);
    let held = waits.ready().expect("the place is free");
    assert!((Duration::from_millis(5)..=begun.elapsed() - Duration::from_millis(3)).contains(&Object::waited(&held)));
    drop(held);
    // (the next get has not waited, whatever its hook takes)
    assert_eq!(Object::waited(&block_on(pool.get()).expect("an object")), Duration::ZERO);
    // Where nobody asks, no wait is timed.
    let pool: Pool<Numbers> = builder().build().expect("a pool");
    let (held, mut waits) = (block_on(pool.get()).expect("an object"), Task::new(pool.get()));
    assert!(waits.poll().is_pending());
    thread::sleep(Duration::from_millis(2));
    drop(held);
    assert_eq!(Object::waited(&waits.ready().expect("the place is free")), Duration::ZERO);
}

#[test]
fn a_pool_tells_its_name_and_how_it_stands() {
    let pool: Pool<Numbers> = two().name("orders").build().expect("a pool");
    let object = block_on(pool.get()).expect("an object");
    assert_eq!(pool.name(), Some("orders"));
    let told = r#"Pool { name: "orders", max_size: 2, size: 1, available: 0, waiting: 0, is_closed: false }"#;
    assert_eq!(format!("{pool:?}"), told);
    // Under the lock, as in a predicate, it tells its name alone, and waits for nothing.
    drop(object);
    let clone = pool.clone();
    let mut inside = String::new();
    pool.retain(|_, _| {
        inside = format!("{clone:?}");
        true
    });
    assert_eq!(inside, r#"Pool { name: "orders", .. }"#);
    let named: Pool<Numbers> = two().name(String::from("stock")).build().expect("a pool");
    assert_eq!(named.name(), Some("stock"));
    let unnamed: Pool<Numbers> = two().build().expect("a pool");
    assert_eq!(unnamed.name(), None);
    let items = unmanaged::Pool::from(["a letter"]);
    items.close();
    assert_eq!(format!("{items:?}"), "Pool { max_size: 1, size: 0, available: 0, waiting: 0, is_closed: true }");
}
