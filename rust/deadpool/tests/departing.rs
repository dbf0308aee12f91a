//! What leaves a pool is waited for until it is detached and dropped, also by a drain that begins meanwhile, and by one that another
//! close would tell.
mod common;

use common::{Count, block_on};
use deadpool::managed::{self, DrainError, Manager, Metrics, Object, RecycleResult};
use deadpool::{Status, unmanaged};
use std::convert::Infallible;
use std::future::Future;
use std::pin::pin;
use std::sync::atomic::{AtomicUsize, Ordering::SeqCst};
use std::sync::{Arc, Mutex, MutexGuard};
use std::task::{Context, Waker};
use std::time::Duration;

/// What is done while something leaves, by the detach or the drop of a value.
type Meanwhile = Arc<Mutex<Option<Box<dyn FnOnce() + Send>>>>;

fn locked<T>(mutex: &Mutex<T>) -> MutexGuard<'_, T> {
    mutex.lock().expect("nothing panics")
}

/// Has that done once.
fn run(meanwhile: &Meanwhile) {
    let done = locked(meanwhile).take();
    if let Some(done) = done {
        done();
    }
}

/// A value whose drop does what is set.
struct Leaves(Meanwhile);

impl Drop for Leaves {
    fn drop(&mut self) {
        run(&self.0);
    }
}

/// Its values do at their drop, and it does at their detach, what is set.
#[derive(Default)]
struct Leaving {
    at_detach: Meanwhile,
    at_drop: Meanwhile,
}

impl Manager for Leaving {
    type Type = Leaves;
    type Error = Infallible;

    async fn create(&self) -> Result<Leaves, Infallible> {
        Ok(Leaves(self.at_drop.clone()))
    }

    async fn recycle(&self, _: &mut Leaves, _: &Metrics) -> RecycleResult<Infallible> {
        Ok(())
    }

    fn detach(&self, _: &mut Leaves) {
        run(&self.at_detach);
    }
}

type Pool = managed::Pool<Leaving>;

fn pool() -> Pool {
    managed::Pool::builder(Leaving::default()).max_size(2).build().expect("a pool")
}

/// What looks, as something leaves: a drain that begins there does not end, a late one is told that something is left, and a close tells
/// none that waits. It counts its looks at which all of this is so.
fn look<T>(
    begins: impl FnOnce() -> bool + Send + 'static,
    is_late: impl FnOnce() -> bool + Send + 'static,
    close: impl FnOnce() -> T + Send + 'static,
    woken: &Arc<Count>,
) -> (Box<dyn FnOnce() + Send>, Arc<AtomicUsize>) {
    let (looked, woken) = (Arc::new(AtomicUsize::new(0)), woken.clone());
    let count = looked.clone();
    let look = move || {
        let is_left = begins() && is_late();
        close();
        count.fetch_add(usize::from(is_left && woken.get() == 0), SeqCst);
    };
    (Box::new(look), looked)
}

/// Whether a drain was late since something was still to be dropped, and nothing else was left.
fn departs(ended: Result<Status, DrainError>) -> bool {
    ended.is_err_and(|left| matches!(left, DrainError::Departing(_)) && left.status().size == 0)
}

/// Whether a future that is polled once is pending.
fn is_pending<F: Future>(future: F) -> bool {
    pin!(future).poll(&mut Context::from_waker(Waker::noop())).is_pending()
}

/// Has such a look made as something leaves a closed pool by what is done then.
fn looks_on(pool: &Pool, meanwhile: &Meanwhile, leave: impl FnOnce()) {
    let (waker, woken) = Count::waker();
    let mut waits = pin!(pool.drain());
    assert!(waits.as_mut().poll(&mut Context::from_waker(&waker)).is_pending());
    let [first, second, third] = [(); 3].map(|()| pool.clone());
    let begins = move || is_pending(first.drain());
    let is_late = move || departs(block_on(second.drain_for(Duration::ZERO)));
    let (look, looked) = look(begins, is_late, move || third.close(), &woken);
    *locked(meanwhile) = Some(look);
    leave();
    assert_eq!((looked.load(SeqCst), woken.get()), (1, 1));
    block_on(waits);
}

#[test]
fn what_comes_back_to_a_closed_pool_departs() {
    for at_detach in [true, false] {
        let pool = pool();
        let object = block_on(pool.get()).expect("an object");
        let Leaving { at_detach: first, at_drop: last } = pool.manager();
        looks_on(&pool, if at_detach { first } else { last }, || drop(object));
    }
}

#[test]
fn what_a_smaller_limit_gives_up_departs() {
    let (pool, was_pending) = (pool(), Arc::new(AtomicUsize::new(0)));
    drop(block_on(pool.get()).expect("an object"));
    let (drains, count) = (pool.clone(), was_pending.clone());
    let drain = move || _ = count.fetch_add(usize::from(is_pending(drains.drain())), SeqCst);
    *locked(&pool.manager().at_drop) = Some(Box::new(drain));
    pool.resize(0);
    assert_eq!(was_pending.load(SeqCst), 1);
    block_on(pool.drain());
}

#[test]
fn what_is_taken_departs_until_it_is_detached() {
    let pool = pool();
    let object = block_on(pool.get()).expect("an object");
    looks_on(&pool, &pool.manager().at_detach, || drop(Object::take(object)));
}

#[test]
fn what_is_idle_departs_with_the_close() {
    let pool = pool();
    drop(block_on(pool.get()));
    let (of_pool, looked) = (pool.clone(), Arc::new(AtomicUsize::new(0)));
    let count = looked.clone();
    *locked(&pool.manager().at_drop) = Some(Box::new(move || {
        count.fetch_add(usize::from(is_pending(of_pool.drain())), SeqCst);
    }));
    pool.close();
    assert_eq!(looked.load(SeqCst), 1);
    block_on(pool.drain());
}

#[test]
fn what_comes_back_to_a_closed_unmanaged_pool_departs() {
    let meanwhile = Meanwhile::default();
    let pool = unmanaged::Pool::from(vec![Leaves(meanwhile.clone())]);
    let object = pool.try_get().expect("an object");
    let (waker, woken) = Count::waker();
    let mut waits = pin!(pool.drain());
    assert!(waits.as_mut().poll(&mut Context::from_waker(&waker)).is_pending());
    let [first, second, third] = [(); 3].map(|()| pool.clone());
    let begins = move || is_pending(first.drain());
    let is_late = move || departs(block_on(second.drain_for(Duration::ZERO)));
    let (look, looked) = look(begins, is_late, move || third.close(), &woken);
    *locked(&meanwhile) = Some(look);
    drop(object);
    assert_eq!((looked.load(SeqCst), woken.get()), (1, 1));
    block_on(waits);
}
