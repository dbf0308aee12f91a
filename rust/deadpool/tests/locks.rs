//! No waker is called or dropped, no value dropped and no other code of a user's run under the lock.
mod common;

use common::{Numbers, block_on, is_answered};
use deadpool::managed::{
    Hook, HookError, Limits, Manager, Metrics, Object, Pool, RecycleError, RecycleResult, Timeouts, WeakPool,
};
use deadpool::unmanaged;
use deadpool::{Runtime, Sleep, Timers};
use std::convert::Infallible;
use std::future::{Future, poll_fn};
use std::pin::pin;
use std::sync::atomic::{AtomicBool, AtomicUsize, Ordering};
use std::sync::{Arc, Mutex, OnceLock};
use std::task::{Context, Poll, Wake, Waker};
use std::time::Duration;

/// Asks the pool how it stands when it is woken, which takes the lock.
struct Curious(Mutex<Option<Box<dyn FnOnce() + Send>>>);

impl Curious {
    fn waker(ask: impl FnOnce() + Send + 'static) -> Waker {
        Waker::from(Arc::new(Curious(Mutex::new(Some(Box::new(ask))))))
    }
}

impl Wake for Curious {
    fn wake(self: Arc<Self>) {
        let ask = self.0.lock().expect("no panic").take();
        assert!(is_answered(ask.expect("a wake comes once")), "a waker is called under the lock");
    }
}

#[test]
fn a_waker_may_call_the_pool() {
    let pool: Pool<Numbers> = Pool::builder(Numbers::default()).max_size(1).build().expect("a pool");
    let held = block_on(pool.get()).expect("an object");
    let asked = pool.clone();
    let waker = Curious::waker(move || assert_eq!(asked.status().max_size, 1));
    let mut get = pin!(pool.get());
    assert!(get.as_mut().poll(&mut Context::from_waker(&waker)).is_pending());
    drop(held);
    assert!(get.as_mut().poll(&mut Context::from_waker(&waker)).is_ready());
}

#[test]
fn a_waker_may_call_an_unmanaged_pool() {
    let pool = unmanaged::Pool::from([1]);
    let held = pool.try_get().expect("an object");
    let asked = pool.clone();
    let waker = Curious::waker(move || assert_eq!(asked.status().size, 1));
    let mut get = pin!(pool.get());
    assert!(get.as_mut().poll(&mut Context::from_waker(&waker)).is_pending());
    drop(held);
    assert!(get.as_mut().poll(&mut Context::from_waker(&waker)).is_ready());
}

#[test]
fn wakers_of_a_drain_and_a_keeper_may_call_the_pool() {
    let pool: Pool<Numbers> = Pool::builder(Numbers::default()).max_size(1).build().expect("a pool");
    let held = block_on(pool.get()).expect("an object");
    let curious = |pool: &Pool<Numbers>| {
        let asked = pool.clone();
        Curious::waker(move || assert!(asked.is_closed()))
    };
    let (of_keeper, of_drain) = (curious(&pool), curious(&pool));
    let mut keeper = pin!(pool.keeper(Limits::none(), Duration::from_secs(3600)));
    assert!(keeper.as_mut().poll(&mut Context::from_waker(&of_keeper)).is_pending());
    let mut drain = pin!(pool.drain());
    assert!(drain.as_mut().poll(&mut Context::from_waker(&of_drain)).is_pending());
    drop(held);
    assert!(keeper.as_mut().poll(&mut Context::from_waker(Waker::noop())).is_ready());
    assert!(drain.as_mut().poll(&mut Context::from_waker(Waker::noop())).is_ready());
}

#[test]
fn a_waker_of_a_drain_that_is_not_needed_any_more_is_dropped_without_the_lock() {
    let pool: Pool<Numbers> = Pool::builder(Numbers::default()).max_size(1).build().expect("a pool");
    let held = block_on(pool.get()).expect("an object");
    let answered = Arc::new(AtomicUsize::new(0));
    let parting = || Waker::from(Arc::new(Parting { pool: pool.weak(), answered: answered.clone() }));
    {
        let mut drain = pin!(pool.drain());
        for replaced in 0..2 {
            assert!(drain.as_mut().poll(&mut Context::from_waker(&parting())).is_pending());
            assert_eq!(answered.load(Ordering::SeqCst), replaced);
        }
    }
    assert_eq!(answered.load(Ordering::SeqCst), 2);
    drop(held);
}

/// A waker that asks the pool how it stands when it is dropped, and notes how often it had an answer.
struct Parting {
    pool: WeakPool<Numbers>,
    answered: Arc<AtomicUsize>,
}

impl Wake for Parting {
    fn wake(self: Arc<Self>) {}
}

impl Drop for Parting {
    fn drop(&mut self) {
        let pool = self.pool.clone();
        let ask = move || _ = pool.upgrade().map(|pool| pool.status());
        assert!(is_answered(ask), "a waker is dropped under the lock");
        self.answered.fetch_add(1, Ordering::SeqCst);
    }
}

#[test]
fn a_waker_that_is_not_needed_any_more_is_dropped_without_the_lock() {
    let pool: Pool<Numbers> = Pool::builder(Numbers::default()).max_size(0).build().expect("a pool");
    let answered = Arc::new(AtomicUsize::new(0));
    let waker = || Waker::from(Arc::new(Parting { pool: pool.weak(), answered: answered.clone() }));
    let mut get = Box::pin(pool.get());
    for replaced in [0, 1] {
        assert!(get.as_mut().poll(&mut Context::from_waker(&waker())).is_pending());
        assert_eq!(answered.load(Ordering::SeqCst), replaced);
    }
    drop(get);
    assert_eq!(answered.load(Ordering::SeqCst), 2);
}

/// A value that asks its pool how it stands when it is dropped, and notes how often it had an answer.
struct Asks {
    ask: Arc<OnceLock<Box<dyn Fn() + Send + Sync>>>,
    answered: Arc<AtomicUsize>,
}

impl Drop for Asks {
    fn drop(&mut self) {
        let ask = self.ask.clone();
        assert!(is_answered(move || ask.get().expect("a pool")()), "a value is dropped under the lock");
        self.answered.fetch_add(1, Ordering::SeqCst);
    }
}

#[derive(Default)]
struct AskMaker {
    ask: Arc<OnceLock<Box<dyn Fn() + Send + Sync>>>,
    answered: Arc<AtomicUsize>,
}

impl AskMaker {
    fn make(&self) -> Asks {
        Asks { ask: self.ask.clone(), answered: self.answered.clone() }
    }

    fn answered(&self) -> usize {
        self.answered.load(Ordering::SeqCst)
    }
}

impl Manager for AskMaker {
    type Type = Asks;
    type Error = Infallible;

    async fn create(&self) -> Result<Asks, Infallible> {
        Ok(self.make())
    }

    async fn recycle(&self, _: &mut Asks, _: &Metrics) -> RecycleResult<Infallible> {
        Ok(())
    }
}

#[test]
fn values_of_a_managed_pool_are_dropped_without_the_lock() {
    let pool: Pool<AskMaker> = Pool::builder(AskMaker::default()).max_size(6).build().expect("a pool");
    let weak = pool.weak();
    let ask = move || _ = weak.upgrade().map(|pool| pool.status());
    assert!(pool.manager().ask.set(Box::new(ask)).is_ok());
    let mut out: Vec<_> = (0..6).map(|_| block_on(pool.get()).expect("an object")).collect();
    let kept = out.split_off(5);
    drop(out);
    pool.resize(4);
    assert_eq!(pool.manager().answered(), 2);
    let mut asked = 0;
    drop(pool.retain(|_, _| {
        asked += 1;
        asked > 1
    }));
    assert_eq!(pool.manager().answered(), 3);
    pool.close();
    assert_eq!(pool.manager().answered(), 5);
    drop(kept);
    assert_eq!(pool.manager().answered(), 6);
}

#[test]
fn values_of_an_unmanaged_pool_are_dropped_without_the_lock() {
    let maker = AskMaker::default();
    let pool = unmanaged::Pool::from([maker.make(), maker.make(), maker.make()]);
    let asked = pool.clone();
    let ask = move || _ = asked.status();
    assert!(maker.ask.set(Box::new(ask)).is_ok());
    let kept = pool.try_get().expect("an object");
    drop(unmanaged::Object::take(pool.try_get().expect("an object")));
    assert_eq!(maker.answered(), 1);
    pool.close();
    assert_eq!(maker.answered(), 2);
    drop(kept);
    assert_eq!(maker.answered(), 3);
}

#[test]
fn all_wakers_of_a_step_may_call_the_pool() {
    let pool: Pool<Numbers> = Pool::builder(Numbers::default()).max_size(0).build().expect("a pool");
    let mut gets: Vec<_> = (0..3).map(|_| Box::pin(pool.get())).collect();
    for get in &mut gets {
        // (a handle in a waker would be dropped with it)
        let asked = pool.weak();
        let waker = Curious::waker(move || assert!(asked.upgrade().is_some_and(|pool| pool.status().max_size == 3)));
        assert!(get.as_mut().poll(&mut Context::from_waker(&waker)).is_pending());
    }
    pool.resize(3);
    for get in &mut gets {
        assert!(get.as_mut().poll(&mut Context::from_waker(Waker::noop())).is_ready());
    }
}

static IS_LATE: AtomicBool = AtomicBool::new(false);

/// Timers whose time has passed once the test says so.
struct ByHand;

impl Timers for ByHand {
    fn sleep(&self, _: Duration) -> Sleep {
        Box::pin(poll_fn(|_| if IS_LATE.load(Ordering::SeqCst) { Poll::Ready(()) } else { Poll::Pending }))
    }
}

#[test]
fn the_waker_of_a_wait_that_is_late_is_dropped_without_the_lock() {
    let builder = Pool::builder(Numbers::default()).max_size(0).runtime(Runtime::Timers(&ByHand));
    let pool: Pool<Numbers> = builder.build().expect("a pool");
    let answered = Arc::new(AtomicUsize::new(0));
    let waker = Waker::from(Arc::new(Parting { pool: pool.weak(), answered: answered.clone() }));
    let timeouts = Timeouts::wait_millis(1);
    let mut get = Box::pin(pool.timeout_get(&timeouts));
    assert!(get.as_mut().poll(&mut Context::from_waker(&waker)).is_pending());
    drop(waker);
    assert_eq!(answered.load(Ordering::SeqCst), 0);
    IS_LATE.store(true, Ordering::SeqCst);
    assert!(get.as_mut().poll(&mut Context::from_waker(Waker::noop())).is_ready());
    assert_eq!(answered.load(Ordering::SeqCst), 1);
}

/// Asks its pool how it stands in each of its calls. It refuses to recycle what it is told to.
#[derive(Default)]
struct Asking {
    pool: OnceLock<WeakPool<Asking>>,
    refused: AtomicUsize,
    calls: AtomicUsize,
    detached: AtomicUsize,
}

impl Asking {
    fn ask(&self, what: &str) {
        let pool = self.pool.get().expect("a pool").clone();
        let ask = move || _ = pool.upgrade().map(|pool| pool.status());
        assert!(is_answered(ask), "{what} is called under the lock");
        self.calls.fetch_add(1, Ordering::SeqCst);
    }
}

impl Manager for Asking {
    type Type = usize;
    type Error = ();

    async fn create(&self) -> Result<usize, ()> {
        self.ask("create");
        Ok(self.calls.load(Ordering::SeqCst))
    }

    async fn recycle(&self, value: &mut usize, _: &Metrics) -> RecycleResult<()> {
        self.ask("recycle");
        if *value == self.refused.load(Ordering::SeqCst) { Err(RecycleError::Backend(())) } else { Ok(()) }
    }

    fn detach(&self, _: &mut usize) {
        self.ask("detach");
        self.detached.fetch_add(1, Ordering::SeqCst);
    }
}

#[test]
fn a_manager_may_call_its_pool() {
    let pool: Pool<Asking> = Pool::builder(Asking::default()).max_size(2).build().expect("a pool");
    assert!(pool.manager().pool.set(pool.weak()).is_ok());
    let get = || block_on(pool.get()).expect("an object");
    let detached = || pool.manager().detached.load(Ordering::SeqCst);
    drop(get());
    // A get gives it up.
    pool.manager().refused.store(*get(), Ordering::SeqCst);
    let (first, second) = (get(), get());
    assert_eq!(detached(), 1);
    let _ = Object::take(first);
    assert_eq!(detached(), 2);
    pool.resize(0);
    drop(second);
    assert_eq!(detached(), 3);
    pool.resize(2);
    drop(get());
    assert_eq!(pool.retain(|_, _| false).removed.len(), 1);
    assert_eq!(detached(), 4);
}

#[test]
fn hooks_may_call_their_pool() {
    let pool_of: Arc<OnceLock<WeakPool<Numbers>>> = Arc::default();
    let calls = Arc::new(AtomicUsize::new(0));
    let hook = || {
        let (pool_of, calls) = (pool_of.clone(), calls.clone());
        Hook::sync_fn(move |_: &mut usize, _: &Metrics| {
            let pool = pool_of.get().expect("a pool").clone();
            assert!(
                is_answered(move || _ = pool.upgrade().map(|pool| pool.status())),
                "a hook is called under the lock"
            );
            if calls.fetch_add(1, Ordering::SeqCst) == 3 { Err(HookError::message("the fourth")) } else { Ok(()) }
        })
    };
    let builder = Pool::builder(Numbers::default()).max_size(1);
    let builder = builder.post_create(hook()).pre_recycle(hook()).post_recycle(hook());
    let pool: Pool<Numbers> = builder.build().expect("a pool");
    assert!(pool_of.set(pool.weak()).is_ok());
    let values: Vec<_> = (0..3).map(|_| *block_on(pool.get()).expect("an object")).collect();
    assert_eq!((values, calls.load(Ordering::SeqCst)), (vec![0, 0, 1], 5));
}
