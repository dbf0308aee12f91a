//! User code that panics. No place is lost by it.
mod common;

use common::{Numbers, Task, block_on, counts, pause};
use deadpool::managed::{Hook, Manager, Metrics, Object, Pool, PoolBuilder, RecycleError, RecycleResult, WeakPool};
use deadpool::unmanaged;
use std::convert::Infallible;
use std::panic::{AssertUnwindSafe, catch_unwind};
use std::sync::atomic::{AtomicBool, AtomicUsize, Ordering};
use std::sync::{Arc, OnceLock};
use std::task::{Context, RawWaker, RawWakerVTable, Waker};
use std::thread;
use std::time::Duration;

fn panics<R>(call: impl FnOnce() -> R) {
    assert!(catch_unwind(AssertUnwindSafe(call)).is_err(), "the call panics");
}

/// Panics where it is told to.
#[derive(Default)]
struct Nervous {
    create: AtomicBool,
    recycle: AtomicBool,
}

fn panic_if(flag: &AtomicBool) {
    assert!(!flag.swap(false, Ordering::SeqCst), "on purpose");
}

impl Manager for Nervous {
    type Type = u8;
    type Error = Infallible;

    async fn create(&self) -> Result<u8, Infallible> {
        panic_if(&self.create);
        Ok(0)
    }

    async fn recycle(&self, _: &mut u8, _: &Metrics) -> RecycleResult<Infallible> {
        panic_if(&self.recycle);
        Ok(())
    }
}

#[test]
fn a_manager_that_panics_holds_no_place() {
    let pool: Pool<Nervous> = Pool::builder(Nervous::default()).max_size(1).build().expect("a pool");
    pool.manager().create.store(true, Ordering::SeqCst);
    panics(|| block_on(pool.get()).map(drop));
    assert_eq!(counts(pool.status()), [0, 0, 0]);
    drop(block_on(pool.get()).expect("the place is free"));
    pool.manager().recycle.store(true, Ordering::SeqCst);
    panics(|| block_on(pool.get()).map(drop));
    assert_eq!(counts(pool.status()), [0, 0, 0]);
    assert!(block_on(pool.get()).is_ok());
}

fn panics_at(build: impl Fn(PoolBuilder<Numbers>, Hook<Numbers>) -> PoolBuilder<Numbers>, gets_before: usize) {
    let hook = Hook::sync_fn(|value: &mut usize, _: &Metrics| {
        assert!(*value != 0, "on purpose");
        Ok(())
    });
    let pool = build(Pool::builder(Numbers::default()).max_size(1), hook).build().expect("a pool");
    for _ in 0..gets_before {
        drop(block_on(pool.get()).expect("an object"));
    }
    panics(|| block_on(pool.get()).map(drop));
    assert_eq!(counts(pool.status()), [0, 0, 0]);
    assert_eq!(*block_on(pool.get()).expect("the place is free"), 1);
}

#[test]
fn hooks_that_panic_hold_no_place() {
    panics_at(|builder, hook| builder.post_create(hook), 0);
    panics_at(|builder, hook| builder.pre_recycle(hook), 1);
    panics_at(|builder, hook| builder.post_recycle(hook), 1);
}

#[test]
fn a_predicate_that_panics_removes_nothing() {
    let pool: Pool<Numbers> = Pool::builder(Numbers::default()).max_size(2).build().expect("a pool");
    drop([block_on(pool.get()).expect("an object"), block_on(pool.get()).expect("an object")]);
    panics(|| pool.retain(|value, _| *value == 1 || panic!("on purpose")));
    assert_eq!(counts(pool.status()), [2, 2, 0]);
    assert_eq!(pool.retain(|value, _| *value == 1).removed, [0]);
    assert_eq!(*block_on(pool.get()).expect("an object"), 1);
}

#[test]
fn a_lock_under_which_a_predicate_has_panicked_is_waited_for() {
    let pool: Pool<Numbers> = Pool::builder(Numbers::default()).max_size(2).build().expect("a pool");
    drop([block_on(pool.get()).expect("an object"), block_on(pool.get()).expect("an object")]);
    panics(|| pool.retain(|_, _| panic!("on purpose")));
    let is_asked = AtomicBool::new(false);
    thread::scope(|scope| {
        scope.spawn(|| {
            pool.retain(|_, _| {
                is_asked.store(true, Ordering::SeqCst);
                thread::sleep(Duration::from_millis(30));
                true
            })
        });
        while !is_asked.load(Ordering::SeqCst) {
            thread::yield_now();
        }
        assert_eq!(counts(pool.status()), [2, 2, 0]);
    });
}

/// Panics when it is dropped.
struct Bomb(bool);

impl Drop for Bomb {
    fn drop(&mut self) {
        assert!(!self.0, "on purpose");
    }
}

#[test]
fn an_object_whose_drop_panics_leaves_its_place() {
    let pool = unmanaged::Pool::from([Bomb(true)]);
    let held = pool.try_get().expect("an object");
    let mut add = Task::new(pool.add(Bomb(false)));
    assert!(add.poll().is_pending());
    panics(|| drop(unmanaged::Object::take(held)));
    assert!(add.ready().is_ok());
    assert_eq!(counts(pool.status()), [1, 1, 0]);
    *pool.try_get().expect("an object") = Bomb(true);
    panics(|| pool.close());
    assert_eq!(counts(pool.status()), [0, 0, 0]);
    assert!(pool.is_closed());
}

struct Bombs;

impl Manager for Bombs {
    type Type = Bomb;
    type Error = Infallible;

    async fn create(&self) -> Result<Bomb, Infallible> {
        Ok(Bomb(false))
    }

    async fn recycle(&self, _: &mut Bomb, _: &Metrics) -> RecycleResult<Infallible> {
        Ok(())
    }
}

#[test]
fn objects_that_a_resize_drops_may_panic() {
    let pool: Pool<Bombs> = Pool::builder(Bombs).max_size(2).build().expect("a pool");
    let mut held = block_on(pool.get()).expect("an object");
    *held = Bomb(true);
    drop(held);
    panics(|| pool.resize(0));
    assert_eq!(counts(pool.status()), [0, 0, 0]);
    pool.resize(1);
    assert!(block_on(pool.get()).is_ok());
}

/// Counts its drops, asks its pool how it stands in each, and panics in the one that it is told to.
struct Mine {
    pool: WeakPool<Miner>,
    drops: Arc<AtomicUsize>,
    panics_at: usize,
}

impl Drop for Mine {
    fn drop(&mut self) {
        let _ = self.pool.upgrade().map(|pool| pool.status());
        assert!(self.drops.fetch_add(1, Ordering::SeqCst) != self.panics_at, "on purpose");
    }
}

/// Makes mines, of which one panics when so many are gone.
struct Miner(OnceLock<WeakPool<Miner>>, Arc<AtomicUsize>, usize);

impl Manager for Miner {
    type Type = Mine;
    type Error = Infallible;

    async fn create(&self) -> Result<Mine, Infallible> {
        let pool = self.0.get().expect("a pool").clone();
        Ok(Mine { pool, drops: self.1.clone(), panics_at: self.2 })
    }

    async fn recycle(&self, _: &mut Mine, _: &Metrics) -> RecycleResult<Infallible> {
        Ok(())
    }
}

/// A step that gives idle objects up, on a pool with three. It may take the pool.
type GivesUp = fn(&mut Option<Pool<Miner>>);

#[test]
fn no_value_is_dropped_within_a_step() {
    let steps: [GivesUp; 4] = [
        |pool| pool.as_ref().expect("a pool").resize(0),
        |pool| pool.as_ref().expect("a pool").close(),
        |pool| drop(pool.as_ref().expect("a pool").retain(|_, _| false)),
        |pool| drop(pool.take()),
    ];
    for (number, step) in steps.into_iter().enumerate() {
        for panics_at in 0..3 {
            let drops = Arc::new(AtomicUsize::new(0));
            let miner = Miner(OnceLock::new(), drops.clone(), panics_at);
            let pool: Pool<Miner> = Pool::builder(miner).max_size(3).build().expect("a pool");
            let weak = pool.weak();
            assert!(pool.manager().0.set(weak.clone()).is_ok());
            drop((0..3).map(|_| block_on(pool.get()).expect("an object")).collect::<Vec<_>>());
            let mut pool = Some(pool);
            panics(|| step(&mut pool));
            // The step was made as a whole, and all values are gone.
            assert_eq!(drops.load(Ordering::SeqCst), 3, "step {number}, the value {panics_at} panics");
            assert_eq!(weak.upgrade().map(|pool| counts(pool.status())), pool.map(|_| [0, 0, 0]));
        }
    }
}

/// Is pending once, and then panics or refuses as it is told to. It panics at each detach that it is told to.
#[derive(Default)]
struct Late {
    create: AtomicBool,
    recycle: AtomicBool,
    refuse: AtomicBool,
    detach: AtomicBool,
}

impl Manager for Late {
    type Type = u8;
    type Error = ();

    async fn create(&self) -> Result<u8, ()> {
        pause().await;
        panic_if(&self.create);
        Ok(0)
    }

    async fn recycle(&self, _: &mut u8, _: &Metrics) -> RecycleResult<()> {
        pause().await;
        panic_if(&self.recycle);
        if self.refuse.swap(false, Ordering::SeqCst) { Err(RecycleError::Backend(())) } else { Ok(()) }
    }

    fn detach(&self, _: &mut u8) {
        panic_if(&self.detach);
    }
}

fn late(max_size: usize) -> Pool<Late> {
    Pool::builder(Late::default()).max_size(max_size).build().expect("a pool")
}

/// The one place of a pool is free: a get has it, and one that waited was woken.
fn is_served(pool: &Pool<Late>, waits: Task<'_, impl Sized>) {
    assert_eq!(waits.woken(), 1);
    drop(waits);
    drop(block_on(pool.get()).expect("the place is free"));
    assert_eq!(counts(pool.status()), [1, 1, 0]);
}

fn begun<'a>(pool: &'a Pool<Late>) -> Task<'a, impl Sized + use<'a>> {
    let mut get = Task::new(pool.get());
    assert!(get.poll().is_pending());
    get
}

#[test]
fn a_manager_that_panics_late_wakes_the_next() {
    let pool = late(1);
    let mut get = Task::new(pool.get());
    assert!(get.poll().is_pending());
    let waits = begun(&pool);
    pool.manager().create.store(true, Ordering::SeqCst);
    panics(|| get.poll());
    drop(get);
    is_served(&pool, waits);
    let mut get = Task::new(pool.get());
    assert!(get.poll().is_pending());
    let waits = begun(&pool);
    pool.manager().recycle.store(true, Ordering::SeqCst);
    panics(|| get.poll());
    drop(get);
    is_served(&pool, waits);
}

#[test]
fn a_detach_that_panics_holds_no_place() {
    let pool = late(1);
    let get = || block_on(pool.get()).expect("an object");
    let told = || pool.manager().detach.store(true, Ordering::SeqCst);
    // A get gives an object up that is not recycled, and its place then.
    drop(get());
    told();
    pool.manager().refuse.store(true, Ordering::SeqCst);
    panics(|| block_on(pool.get()).map(drop));
    assert_eq!(counts(pool.status()), [0, 0, 0]);
    // One is dropped while its object is recycled.
    drop(get());
    let under_way = begun(&pool);
    let waits = begun(&pool);
    told();
    panics(|| drop(under_way));
    is_served(&pool, waits);
    // An object is taken, and one comes back that is above the limit.
    let held = get();
    let waits = begun(&pool);
    told();
    panics(|| Object::take(held));
    is_served(&pool, waits);
    let held = get();
    pool.resize(0);
    told();
    panics(|| drop(held));
    assert_eq!(counts(pool.status()), [0, 0, 0]);
    // A retain gives two up.
    pool.resize(2);
    drop([get(), get()]);
    told();
    panics(|| pool.retain(|_, _| false));
    assert_eq!(counts(pool.status()), [0, 0, 0]);
    drop([get(), get()]);
    assert_eq!(counts(pool.status()), [2, 2, 0]);
}

#[test]
fn what_a_panic_drops_is_given_back() {
    let pool = late(3);
    let kept = block_on(pool.get()).expect("an object");
    let held = block_on(pool.get()).expect("an object");
    let other = pool.clone();
    let preparing = begun(&pool);
    let waits = begun(&pool);
    assert_eq!(counts(pool.status()), [2, 0, 2]);
    panics(|| {
        let _dropped = (held, preparing, waits, other);
        panic!("on purpose")
    });
    assert_eq!(counts(pool.status()), [2, 1, 0]);
    drop(pool);
    assert!(Object::pool(&kept).is_none());
    let pool = unmanaged::Pool::from([1]);
    let held = pool.try_get().expect("an object");
    let mut gets = [Task::new(pool.get()), Task::new(pool.get())];
    let mut adds = [Task::new(pool.add(2)), Task::new(pool.add(3))];
    assert!(gets.iter_mut().all(|get| get.poll().is_pending()) && adds.iter_mut().all(|add| add.poll().is_pending()));
    let ([get, other_get], [add, other_add]) = (gets, adds);
    panics(|| {
        let _dropped = (held, get, add);
        panic!("on purpose")
    });
    assert_eq!(counts(pool.status()), [1, 1, 1]);
    assert_eq!(pool.try_remove(), Err(unmanaged::PoolError::Timeout));
    drop(other_get);
    assert_eq!(pool.try_remove(), Ok(1));
    assert!(other_add.ready().is_ok());
}

/// A waker that cannot be cloned.
fn unclonable() -> Waker {
    const TABLE: RawWakerVTable = RawWakerVTable::new(|_| panic!("on purpose"), |_| (), |_| (), |_| ());
    // SAFETY: the table's calls look at nothing.
    unsafe { Waker::from_raw(RawWaker::new(std::ptr::null(), &TABLE)) }
}

#[test]
fn a_waker_that_panics_leaves_no_one_in_the_queue() {
    let pool: Pool<Numbers> = Pool::builder(Numbers::default()).max_size(1).build().expect("a pool");
    let held = block_on(pool.get()).expect("an object");
    let waker = unclonable();
    let mut get = Box::pin(pool.get());
    panics(|| get.as_mut().poll(&mut Context::from_waker(&waker)).is_pending());
    drop(get);
    assert_eq!(counts(pool.status()), [1, 0, 0]);
    drop(held);
    assert_eq!(*block_on(pool.get()).expect("the place is free"), 0);
}
