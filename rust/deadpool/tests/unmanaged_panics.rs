//! Wakers and drops that panic, in an unmanaged pool. No object, room or place in a queue is lost by it.
mod common;

use common::{Task, block_on, counts};
use deadpool::unmanaged::{Object, Pool};
use std::future::Future;
use std::panic::{AssertUnwindSafe, catch_unwind};
use std::pin::Pin;
use std::sync::Arc;
use std::task::{Context, RawWaker, RawWakerVTable, Wake, Waker};

fn panics<R>(call: impl FnOnce() -> R) {
    assert!(catch_unwind(AssertUnwindSafe(call)).is_err(), "the call panics");
}

/// A waker that panics when it is called.
struct Refuses;

impl Wake for Refuses {
    fn wake(self: Arc<Self>) {
        panic!("on purpose");
    }
}

/// Polls something that has to wait, with such a waker.
fn waits<F: Future>(future: F) -> Pin<Box<F>> {
    let mut future = Box::pin(future);
    assert!(future.as_mut().poll(&mut Context::from_waker(&Waker::from(Arc::new(Refuses)))).is_pending());
    future
}

/// A waker that cannot be cloned.
fn unclonable() -> Waker {
    const TABLE: RawWakerVTable = RawWakerVTable::new(|_| panic!("on purpose"), |_| (), |_| (), |_| ());
    // SAFETY: the table's calls look at nothing.
    unsafe { Waker::from_raw(RawWaker::new(std::ptr::null(), &TABLE)) }
}

#[test]
fn a_waker_that_panics_loses_no_object_that_comes_back() {
    let pool = Pool::from([1]);
    let held = pool.try_get().expect("an object");
    let get = waits(pool.get());
    panics(|| drop(held));
    assert_eq!((counts(pool.status()), pool.is_closed()), ([1, 1, 1], false));
    assert_eq!(*block_on(get).expect("an object"), 1);
}

#[test]
fn a_waker_that_panics_loses_no_object_that_is_added() {
    let pool = Pool::new(1);
    let get = waits(pool.get());
    panics(|| pool.try_add(1));
    assert_eq!((counts(pool.status()), pool.is_closed()), ([1, 1, 1], false));
    assert_eq!(*block_on(get).expect("an object"), 1);
}

#[test]
fn a_waker_that_panics_lets_an_object_be_taken() {
    let value = Arc::new(());
    let pool = Pool::from([value.clone()]);
    let held = pool.try_get().expect("an object");
    let add = waits(pool.add(value.clone()));
    panics(|| Object::take(held));
    assert_eq!((counts(pool.status()), pool.is_closed()), ([0, 0, 0], false));
    assert_eq!(Arc::strong_count(&value), 2, "what was taken is dropped by the panic");
    assert_eq!(block_on(add), Ok(()));
    assert_eq!((counts(pool.status()), Arc::strong_count(&value)), ([1, 1, 0], 2));
}

#[test]
fn a_waker_that_panics_drops_the_object_of_an_add_that_is_dropped() {
    let value = Arc::new(());
    let pool = Pool::from([value.clone()]);
    let held = pool.try_get().expect("an object");
    let mut first = Task::new(pool.add(value.clone()));
    assert!(first.poll().is_pending());
    let second = waits(pool.add(value.clone()));
    drop(Object::take(held));
    assert_eq!((first.woken(), Arc::strong_count(&value)), (1, 3));
    panics(|| drop(first));
    assert_eq!(Arc::strong_count(&value), 2, "the object of the first is dropped");
    assert_eq!(block_on(second), Ok(()));
}

#[test]
fn a_waker_that_cannot_be_kept_leaves_no_one_in_a_queue() {
    let (value, waker) = (Arc::new(()), unclonable());
    let pool = Pool::new(1);
    let mut get = Box::pin(pool.get());
    panics(|| get.as_mut().poll(&mut Context::from_waker(&waker)).is_pending());
    drop(get);
    assert_eq!(counts(pool.status()), [0, 0, 0]);
    pool.try_add(value.clone()).expect("room");
    let mut add = Box::pin(pool.add(value.clone()));
    panics(|| add.as_mut().poll(&mut Context::from_waker(&waker)).is_pending());
    drop(add);
    assert_eq!(Arc::strong_count(&value), 2, "the object of the add is dropped");
    drop(pool.try_remove().expect("an object"));
    pool.try_add(value.clone()).expect("the room is free");
}

/// Panics when it is dropped.
#[derive(Debug)]
struct Bomb;

impl Drop for Bomb {
    fn drop(&mut self) {
        panic!("on purpose");
    }
}

#[test]
fn a_drop_that_panics_is_told_to_drains() {
    let pool = Pool::from([Bomb]);
    let held = pool.try_get().expect("an object");
    let mut drain = Task::new(pool.drain());
    assert!(drain.poll().is_pending());
    panics(|| drop(held));
    assert_eq!((drain.woken(), counts(drain.ready())), (1, [0, 0, 0]));
    let pool = Pool::from([Bomb]);
    let mut add = Task::new(pool.add(Bomb));
    assert!(add.poll().is_pending());
    panics(|| drop(add));
    assert_eq!(counts(pool.status()), [1, 1, 0]);
    std::mem::forget(pool.try_remove().expect("an object"));
}
