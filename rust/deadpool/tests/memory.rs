//! Calls that find no memory.
mod common;
#[path = "common/refusing.rs"]
mod refusing;

use common::refusals::{NO_MEMORY, has_no_memory};
use common::{Count, Numbers, Task, counts};
use deadpool::managed::{Limits, Object, OutOfMemory, Pool};
use deadpool::{Runtime, Sleep, Timers, unmanaged};
use refusing::{at_each_allocation, left_in_use, refusing};
use std::panic::{AssertUnwindSafe, catch_unwind};
use std::pin::{Pin, pin};
use std::task::{Context, Poll, Waker};
use std::time::Duration;

fn poll_once<T>(future: Pin<&mut impl Future<Output = T>>) -> Poll<T> {
    future.poll(&mut Context::from_waker(Waker::noop()))
}

fn pool(max_size: usize) -> Pool<Numbers> {
    Pool::builder(Numbers::default()).max_size(max_size).build().expect("a pool")
}

#[test]
fn a_pool_that_is_too_large_is_refused() {
    let builder = Pool::<Numbers>::builder(Numbers::default()).max_size(usize::MAX);
    #[cfg(feature = "refusals")]
    assert!(matches!(builder.build(), Err(deadpool::managed::BuildError::OutOfMemory)));
    #[cfg(not(feature = "refusals"))]
    assert!(catch_unwind(AssertUnwindSafe(|| builder.build())).is_err());
    let settings = unmanaged::PoolConfig::new(usize::MAX).into();
    assert!(matches!(unmanaged::Pool::<u64>::try_from_settings(&settings), Err(OutOfMemory)));
}

#[test]
fn a_resize_that_finds_no_memory_changes_nothing() {
    let pool = pool(1);
    drop(common::block_on(pool.get()).expect("an object"));
    for limit in [usize::MAX, 100_000] {
        let (resized, _) = refusing(0, || pool.try_resize(limit));
        assert_eq!(resized, Err(OutOfMemory));
        assert_eq!((pool.status().max_size, counts(pool.status())), (1, [1, 1, 0]));
    }
    assert_eq!(pool.try_resize(100_000), Ok(()));
    assert_eq!((pool.status().max_size, counts(pool.status())), (100_000, [1, 1, 0]));
}

#[test]
fn a_get_that_finds_no_memory_for_its_object_leaves_its_place() {
    let refused = at_each_allocation(
        || pool(1),
        |pool, may_fail| match poll_once(pin!(pool.get())) {
            Poll::Ready(Ok(_)) => (),
            Poll::Ready(Err(refusal)) if may_fail && has_no_memory(&refusal) => {
                assert_eq!(counts(pool.status()), [0, 0, 0]);
            }
            _ => panic!("the get ends"),
        },
    );
    assert!(refused > 0);
}

#[test]
fn a_get_that_finds_no_memory_to_wait_is_not_in_the_queue() {
    let mut told = 0;
    let refused = at_each_allocation(
        || (pool(0), Count::waker()),
        |(pool, (waker, woken)), may_fail| {
            let (mut get, before) = (pin!(pool.get()), woken.get());
            match get.as_mut().poll(&mut Context::from_waker(waker)) {
                // (one for which there is no cell is woken all the same)
                Poll::Pending => {
                    assert_eq!(pool.status().waiting, 1);
                    pool.resize(1);
                    assert_eq!(woken.get(), before + 1);
                    pool.resize(0);
                }
                Poll::Ready(Err(refusal)) if may_fail && has_no_memory(&refusal) => {
                    assert_eq!(pool.status().waiting, 0);
                    told += 1;
                }
                Poll::Ready(_) => panic!("no place is free"),
            }
        },
    );
    // (the refusal of a cell is told to nobody)
    assert!(told > 0 && told + 1 == refused, "{told} of {refused} refusals are told");
}

#[test]
fn a_retain_that_finds_no_memory_removes_nothing() {
    let filled = || {
        let pool = pool(2);
        let held: Vec<_> = (0..2).map(|_| Task::new(pool.get()).ready().expect("an object")).collect();
        drop(held);
        pool
    };
    // (the lists of what has left are Rust's own, which ends the program without memory: two of the allocations are asked)
    for granted in 0..2 {
        let pool = filled();
        let (removed, was_refused) = refusing(granted, || pool.try_retain(|_, _| false));
        if was_refused {
            assert!(removed.is_err());
            assert_eq!(counts(pool.status()), [2, 2, 0]);
        }
        assert_eq!(pool.retain(|_, _| true).retained, pool.status().size);
    }
}

#[test]
fn an_add_that_finds_no_memory_gives_its_value_back() {
    let refused = at_each_allocation(
        || unmanaged::Pool::new(1),
        |pool, may_fail| match pool.try_add(7) {
            Ok(()) => assert_eq!(counts(pool.status()), [1, 1, 0]),
            Err((7, NO_MEMORY)) if may_fail => assert_eq!(counts(pool.status()), [0, 0, 0]),
            Err(_) => panic!("there is room"),
        },
    );
    assert!(refused > 0);
}

#[test]
fn an_add_that_finds_no_memory_to_wait_is_not_in_the_queue() {
    let mut told = 0;
    let refused = at_each_allocation(
        || (unmanaged::Pool::from([1]), Count::waker()),
        |(pool, (waker, woken)), may_fail| {
            let (mut add, before) = (pin!(pool.add(2)), woken.get());
            match add.as_mut().poll(&mut Context::from_waker(waker)) {
                Poll::Pending => {
                    assert_eq!(pool.try_remove().ok(), Some(1));
                    assert_eq!(woken.get(), before + 1);
                    assert!(add.as_mut().poll(&mut Context::from_waker(waker)).is_ready());
                }
                Poll::Ready(Err((2, NO_MEMORY))) if may_fail => {
                    assert_eq!(counts(pool.status()), [1, 1, 0]);
                    told += 1;
                }
                other => panic!("there is no room: {other:?}"),
            }
        },
    );
    assert!(told > 0 && told == refused, "{told} of {refused} refusals are told");
}

#[test]
fn a_get_of_an_unmanaged_pool_that_finds_no_memory_to_wait_is_not_in_the_queue() {
    let mut told = 0;
    let refused = at_each_allocation(
        || (unmanaged::Pool::from([1]), Count::waker()),
        |(pool, (waker, woken)), may_fail| {
            let held = pool.try_get().expect("no get in the queue takes it first");
            let (mut get, before) = (pin!(pool.get()), woken.get());
            match get.as_mut().poll(&mut Context::from_waker(waker)) {
                Poll::Pending => {
                    assert_eq!(pool.status().waiting, 1);
                    drop(held);
                    assert_eq!(woken.get(), before + 1);
                }
                Poll::Ready(Err(NO_MEMORY)) if may_fail => {
                    assert_eq!(pool.status().waiting, 0);
                    told += 1;
                }
                other => panic!("no object is free: {other:?}"),
            }
        },
    );
    assert!(told > 0 && told == refused, "{told} of {refused} refusals are told");
}

#[test]
fn calls_without_an_error_for_memory_panic_and_change_nothing() {
    let panics = |call: &dyn Fn()| catch_unwind(AssertUnwindSafe(call)).is_err();
    let pool = pool(1);
    drop(Task::new(pool.get()).ready().expect("an object"));
    assert!(panics(&|| pool.resize(usize::MAX)));
    assert!(panics(&|| _ = refusing(0, || pool.retain(|_, _| false))));
    assert_eq!((pool.status().max_size, counts(pool.status())), (1, [1, 1, 0]));
    assert!(panics(&|| _ = unmanaged::Pool::<u64>::new(usize::MAX)));
}

/// Uses a pool in all ways in which its objects come and go.
fn use_managed(entries: usize) {
    let builder = Pool::builder(Numbers::default()).max_size(2).journal(entries);
    let pool: Pool<Numbers> = builder.build().expect("a pool");
    let get = |pool: &Pool<Numbers>| common::block_on(pool.get()).expect("an object");
    let (first, second) = (get(&pool), get(&pool));
    let mut waits: Vec<_> = (0..5).map(|_| Task::new(pool.get())).collect();
    waits.iter_mut().for_each(|task| assert!(task.poll().is_pending()));
    drop(waits.remove(3));
    drop(first);
    drop(waits.remove(0).ready().expect("an object"));
    drop(waits);
    assert_eq!(Object::take(second), 1);
    drop((get(&pool), get(&pool)));
    pool.resize(1);
    drop(pool.retain(|_, _| false));
    let (handle, weak) = (pool.clone(), pool.weak());
    let outlives = get(&handle);
    drop((pool, handle));
    assert!(weak.upgrade().is_none());
    drop(outlives);
}

fn use_unmanaged(journal: usize) {
    let settings = unmanaged::Settings { journal, ..unmanaged::PoolConfig::new(2).into() };
    let pool = unmanaged::Pool::from_settings(&settings);
    assert!(pool.try_add(Box::new(1)).is_ok() && pool.try_add(Box::new(2)).is_ok());
    let [first, second] = [pool.try_get(), pool.try_get()].map(|object| object.expect("an object"));
    let mut waits: Vec<_> = (0..3).map(|_| Task::new(pool.get())).collect();
    waits.iter_mut().for_each(|task| assert!(task.poll().is_pending()));
    let mut add = Task::new(pool.add(Box::new(3)));
    assert!(add.poll().is_pending());
    drop(waits.remove(1));
    drop(first);
    drop(waits.remove(0).ready().expect("an object"));
    drop((waits, add));
    drop(unmanaged::Object::take(second));
    assert!(pool.try_add(Box::new(4)).is_ok() && pool.try_add(Box::new(5)).is_err() && pool.try_remove().is_ok());
    let outlives = pool.clone().try_get().expect("an object");
    drop(pool);
    drop(outlives);
}

#[test]
fn all_memory_is_given_back() {
    let uses: [fn(); 4] = [|| use_managed(0), || use_managed(9), || use_unmanaged(0), || use_unmanaged(9)];
    // (the first time a thread's own values are made, which stay)
    uses.iter().for_each(|use_pool| use_pool());
    assert_eq!(uses.map(left_in_use), [0; 4]);
}

/// Timers that are over at once, and take no memory.
struct AtOnce;

impl Timers for AtOnce {
    fn sleep(&self, _: Duration) -> Sleep {
        Box::pin(std::future::poll_fn(|_| Poll::Ready(())))
    }
}

#[test]
fn the_rounds_of_a_keeper_take_no_memory() {
    let builder = Pool::builder(Numbers::default()).max_size(1).runtime(Runtime::Timers(&AtOnce));
    let pool: Pool<Numbers> = builder.build().expect("a pool");
    let mut keeper = Task::new(pool.keeper(Limits::none(), Duration::from_secs(1)));
    let mut rounds = || (0..100).for_each(|_| assert!(keeper.poll().is_pending()));
    rounds();
    let ((), was_asked) = refusing(0, rounds);
    assert!(!was_asked, "the wakers of keepers take more and more places");
}

#[test]
fn a_pool_of_objects_panics_if_one_finds_no_memory() {
    let mut pool = None;
    let of_pool = left_in_use(|| pool = Some(unmanaged::Pool::<u64>::new(2)));
    drop(pool);
    for at in 0..2 {
        let (objects, granted) = (vec![1, 2], of_pool.unsigned_abs() + at);
        let made = catch_unwind(AssertUnwindSafe(|| refusing(granted, || unmanaged::Pool::from(objects))));
        assert!(made.is_err(), "an object is dropped, and nothing says so");
    }
    assert_eq!(unmanaged::Pool::from(vec![1, 2]).status().available, 2);
}

#[test]
fn drains_that_find_no_memory_for_their_wakers_ask_again_at_once() {
    let pool = pool(1);
    let held = common::block_on(pool.get()).expect("an object");
    let (mut first, mut second) = (Task::new(pool.drain()), Task::new(pool.drain()));
    // (a poll that closes the pool takes memory for nothing else)
    let (polled, was_refused) = refusing(0, || first.poll());
    assert!(polled.is_pending() && was_refused);
    assert_eq!(first.woken(), 1);
    assert!(second.poll().is_pending());
    assert!(first.poll().is_pending());
    assert_eq!((first.woken(), second.woken()), (1, 0));
    drop(held);
    assert_eq!((first.woken(), second.woken()), (2, 1));
    first.ready();
    second.ready();
}
