//! A bound on those that wait: one more is refused at once, and holds nothing.
mod common;

use common::refusals::{CROWDED, is_crowded};
use common::{Numbers, Task, block_on, counts};
use deadpool::managed::{Object, Pool, PoolConfig, PoolError, Settings, TimeoutType, Timeouts};
use deadpool::unmanaged;
use std::convert::Infallible;
use std::task::Poll;

fn one_with(max_waiting: Option<usize>) -> Pool<Numbers> {
    let builder = Pool::builder(Numbers::default()).max_size(1).max_waiting(max_waiting);
    builder.build().expect("a pool")
}

fn refusal<T>(polled: Poll<Result<T, PoolError<Infallible>>>) -> Option<PoolError<Infallible>> {
    match polled {
        Poll::Ready(Err(cause)) => Some(cause),
        _ => None,
    }
}

#[test]
fn one_more_than_may_wait_is_refused_at_once() {
    let pool = one_with(Some(2));
    let held = block_on(pool.get()).expect("an object");
    let mut waiting: Vec<_> = (0..2).map(|_| Task::new(pool.get())).collect();
    for get in &mut waiting {
        assert!(get.poll().is_pending());
    }
    let refused = refusal(Task::new(pool.get()).poll()).expect("as many wait as may");
    assert_eq!((is_crowded(&refused), counts(pool.status())), (true, [1, 0, 2]));
    // One that has left the queue makes room in it, and so does one that is served.
    drop(waiting.pop());
    waiting.push(Task::new(pool.get()));
    assert!(waiting[1].poll().is_pending());
    assert!(refusal(Task::new(pool.get()).poll()).is_some_and(|it| is_crowded(&it)));
    drop(held);
    let mut third = Task::new(pool.get());
    assert!(third.poll().is_pending(), "who was granted a place waits no more");
    assert!(matches!(waiting[0].poll(), Poll::Ready(Ok(_))));
}

#[test]
fn who_does_not_wait_is_answered_as_without_a_bound() {
    for max_waiting in [None, Some(0)] {
        let pool = one_with(max_waiting);
        let held = block_on(pool.get()).expect("a place is free");
        let late = block_on(pool.timeout_get(&Timeouts::wait_millis(0))).expect_err("it does not wait");
        assert!(matches!(late, PoolError::Timeout(TimeoutType::Wait)));
        let refused = Task::new(pool.get()).poll();
        assert_eq!(refusal(refused).is_some_and(|it| is_crowded(&it)), max_waiting.is_some());
        drop(held);
        drop(block_on(pool.get()).expect("the object is idle"));
        pool.close();
        assert!(matches!(refusal(Task::new(pool.get()).poll()), Some(PoolError::Closed)));
    }
}

#[test]
fn settings_have_the_bound_and_a_configuration_leaves_it() {
    assert_eq!(Settings::from(PoolConfig::new(1)).max_waiting, None);
    let settings = Settings { max_waiting: Some(0), ..PoolConfig::new(5).into() };
    let builder = Pool::<Numbers>::builder(Numbers::default()).settings(settings).config(PoolConfig::new(1));
    let pool = builder.build().expect("a pool");
    let held: Object<Numbers> = block_on(pool.get()).expect("an object");
    assert!(block_on(pool.get()).is_err_and(|it| is_crowded(&it)));
    drop(held);
}

#[test]
fn gets_and_adds_are_bounded_each_by_themselves() {
    let settings = unmanaged::Settings { max_waiting: Some(1), ..unmanaged::PoolConfig::new(1).into() };
    let pool = unmanaged::Pool::from_settings(&settings);
    let mut get = Task::new(pool.get());
    assert!(get.poll().is_pending());
    let refused = Task::new(pool.get()).ready().map(drop).expect_err("one waits already");
    assert_eq!(refused, CROWDED);
    assert_eq!(pool.try_get().map(drop), Err(unmanaged::PoolError::Timeout));
    drop(get);
    pool.try_add("first").expect("there is room");
    let mut add = Task::new(pool.add("second"));
    assert!(add.poll().is_pending());
    assert_eq!(Task::new(pool.add("third")).ready(), Err(("third", CROWDED)));
    assert_eq!(pool.try_add("third"), Err(("third", unmanaged::PoolError::Timeout)));
    assert_eq!(pool.try_remove(), Ok("first"));
    assert!(matches!(add.poll(), Poll::Ready(Ok(()))));
    pool.close();
    assert_eq!(Task::new(pool.add("fourth")).ready(), Err(("fourth", unmanaged::PoolError::Closed)));
}
