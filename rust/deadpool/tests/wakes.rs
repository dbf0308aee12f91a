//! Who is woken, and when.
mod common;

use common::{Count, Numbers, Task, block_on, counts, gone, pause};
use deadpool::managed::{Hook, HookError, HookFuture, Metrics, Object, Pool, PoolBuilder, PoolError};
use deadpool::unmanaged;
use std::cell::RefCell;
use std::convert::Infallible;
use std::future::Future;
use std::panic::{AssertUnwindSafe, catch_unwind};
use std::task::{Context, Poll};

#[test]
fn the_one_that_waits_longest_is_woken() {
    let pool: Pool<Numbers> = Pool::builder(Numbers::default()).max_size(1).build().expect("a pool");
    let held = block_on(pool.get()).expect("an object");
    let mut tasks: Vec<_> = (0..4).map(|_| Task::new(pool.get())).collect();
    for task in &mut tasks {
        assert!(task.poll().is_pending());
    }
    drop(tasks.remove(0));
    drop(held);
    let woken = |tasks: &[Task<'_, _>]| tasks.iter().map(|task| task.woken()).collect::<Vec<_>>();
    assert_eq!(woken(&tasks), [1, 0, 0]);
    // One that is dropped with its place passes it on.
    drop(tasks.remove(0));
    assert_eq!(woken(&tasks), [1, 0]);
    pool.close();
    assert_eq!(woken(&tasks), [1, 1]);
}

#[test]
fn a_larger_limit_wakes_as_many_as_it_serves() {
    let pool: Pool<Numbers> = Pool::builder(Numbers::default()).max_size(0).build().expect("a pool");
    let mut tasks: Vec<_> = (0..40).map(|_| Task::new(pool.get())).collect();
    for task in &mut tasks {
        assert!(task.poll().is_pending());
    }
    pool.resize(30);
    assert_eq!(tasks.iter().map(Task::woken).collect::<Vec<_>>(), [[1; 30].as_slice(), &[0; 10]].concat());
}

fn one(manager: Numbers) -> PoolBuilder<Numbers> {
    Pool::builder(manager).max_size(1)
}

/// A get that waits is woken once by what is done with the place that another one has.
fn wakes_by<T>(pool: &Pool<Numbers>, hold: impl FnOnce(&Pool<Numbers>) -> T, free: impl FnOnce(T)) {
    let held = hold(pool);
    let mut waits = Task::new(pool.get());
    assert!(waits.poll().is_pending());
    assert_eq!(waits.woken(), 0);
    free(held);
    assert_eq!(waits.woken(), 1);
    assert!(matches!(waits.poll(), Poll::Ready(Ok(_))));
}

#[test]
fn each_place_that_is_given_back_wakes_one() {
    let get = |pool: &Pool<Numbers>| block_on(pool.get()).expect("an object");
    let pool = one(Numbers::default()).build().expect("a pool");
    wakes_by(&pool, get, drop);
    wakes_by(&pool, get, |held| _ = Object::take(held));
    // It is above the limit, so that its return gives it up.
    let pool = one(Numbers::default()).max_size(2).build().expect("a pool");
    let (first, second) = (get(&pool), get(&pool));
    pool.resize(1);
    drop(second);
    wakes_by(&pool, |_| first, drop);
}

fn slow<'a>(value: &'a mut usize, _: &'a Metrics) -> HookFuture<'a, Infallible> {
    let refuses = *value == 0;
    Box::pin(async move {
        pause().await;
        if refuses { Err(HookError::message("the first")) } else { Ok(()) }
    })
}

#[test]
fn a_get_that_ends_without_an_object_wakes_the_next() {
    fn begun(pool: &Pool<Numbers>) -> Task<'_, Result<Object<Numbers>, PoolError<Infallible>>> {
        let mut get = Task::new(pool.get());
        assert!(get.poll().is_pending());
        get
    }
    let waits = |pool: &Pool<Numbers>, free: fn(&mut Task<'_, Result<Object<Numbers>, _>>)| {
        let mut get = begun(pool);
        let mut next = Task::new(pool.get());
        assert!(next.poll().is_pending());
        free(&mut get);
        drop(get);
        assert_eq!(next.woken(), 1);
    };
    // It is dropped while a hook sees its object, which is new.
    waits(&one(Numbers::default()).post_create(Hook::async_fn(slow)).build().expect("a pool"), |_| ());
    // The hook refuses its object.
    waits(&one(Numbers::default()).post_create(Hook::async_fn(slow)).build().expect("a pool"), |get| {
        assert!(matches!(get.poll(), Poll::Ready(Err(PoolError::PostCreateHook(_)))));
        assert!(get.woken() > 0);
    });
    // It is dropped while a hook sees its object, which was idle.
    let pool = one(Numbers::default()).pre_recycle(Hook::async_fn(slow)).build().expect("a pool");
    drop(block_on(pool.get()).expect("an object"));
    waits(&pool, |_| ());
}

#[test]
fn each_step_of_an_unmanaged_pool_wakes_the_one_that_it_serves() {
    let pool = unmanaged::Pool::new(1);
    let wakes_a_get = |free: &dyn Fn()| {
        let mut get = Task::new(pool.get());
        assert!(get.poll().is_pending());
        free();
        assert_eq!(get.woken(), 1);
        get.ready().expect("an object")
    };
    let held = wakes_a_get(&|| pool.try_add(1).expect("there is room"));
    let held = RefCell::new(Some(held));
    assert_eq!(*wakes_a_get(&|| drop(held.take())), 1);
    assert_eq!(pool.try_remove(), Ok(1));
    assert_eq!(*wakes_a_get(&|| Task::new(pool.add(2)).ready().expect("there is room")), 2);
    let wakes_an_add = |free: &dyn Fn()| {
        let mut add = Task::new(pool.add(3));
        assert!(add.poll().is_pending());
        free();
        assert_eq!(add.woken(), 1);
        add.ready().expect("there is room");
    };
    wakes_an_add(&|| _ = unmanaged::Object::take(pool.try_get().expect("an object")));
    wakes_an_add(&|| assert_eq!(pool.try_remove(), Ok(3)));
}

#[test]
fn a_close_wakes_gets_and_adds() {
    let pool = unmanaged::Pool::from([1]);
    let held = pool.try_get().expect("an object");
    let mut gets = [Task::new(pool.get()), Task::new(pool.get())];
    assert!(gets.iter_mut().all(|get| get.poll().is_pending()));
    let mut adds = [Task::new(pool.add(2)), Task::new(pool.add(3))];
    assert!(adds.iter_mut().all(|add| add.poll().is_pending()));
    pool.close();
    assert_eq!(gets.iter().map(Task::woken).collect::<Vec<_>>(), [1, 1]);
    assert_eq!(adds.iter().map(Task::woken).collect::<Vec<_>>(), [1, 1]);
    drop(held);
}

#[test]
fn one_that_is_polled_again_is_woken_by_its_last_waker() {
    let pool = one(Numbers::default()).build().expect("a pool");
    let held = block_on(pool.get()).expect("an object");
    let mut get = Box::pin(pool.get());
    let wakers = [Count::waker(), Count::waker()];
    for (waker, _) in &wakers {
        assert!(get.as_mut().poll(&mut Context::from_waker(waker)).is_pending());
    }
    drop(held);
    assert_eq!(wakers.map(|(_, woken)| woken.get()), [0, 1]);
}

/// All of a step's wakers are called, though the first one panics.
fn all_are_woken<T>(gets: [impl Future<Output = T>; 3], step: impl FnOnce()) {
    let mut gets = gets.map(Box::pin);
    let (waker, woken) = Count::waker();
    for (get, waker) in gets.iter_mut().zip([&gone(), &waker, &waker]) {
        assert!(get.as_mut().poll(&mut Context::from_waker(waker)).is_pending());
    }
    assert!(catch_unwind(AssertUnwindSafe(step)).is_err(), "the panic goes on");
    assert_eq!(woken.get(), 2);
}

#[test]
fn a_waker_that_panics_keeps_no_other_from_being_called() {
    let none = || Pool::<Numbers>::builder(Numbers::default()).max_size(0).build().expect("a pool");
    let pool = none();
    all_are_woken([pool.get(), pool.get(), pool.get()], || pool.resize(3));
    assert!(block_on(pool.get()).is_ok());
    let pool = none();
    all_are_woken([pool.get(), pool.get(), pool.get()], || pool.close());
    let pool = unmanaged::Pool::<u8>::new(1);
    all_are_woken([pool.get(), pool.get(), pool.get()], || pool.close());
}

#[test]
fn an_object_whose_return_wakes_one_that_panics_is_in_the_pool() {
    let pool = one(Numbers::default()).build().expect("a pool");
    let held = block_on(pool.get()).expect("an object");
    let mut waits = Box::pin(pool.get());
    assert!(waits.as_mut().poll(&mut Context::from_waker(&gone())).is_pending());
    assert!(catch_unwind(AssertUnwindSafe(|| drop(held))).is_err());
    drop(waits);
    assert_eq!(counts(pool.status()), [1, 1, 0]);
    assert_eq!(*block_on(pool.get()).expect("an object"), 0);
}
