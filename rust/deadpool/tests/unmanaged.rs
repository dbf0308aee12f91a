//! The unmanaged pool.
mod common;

use common::{Task, block_on, counts};
use deadpool::Runtime;
use deadpool::unmanaged::{Object, Pool, PoolConfig, PoolError};
use std::task::Poll;
use std::thread;
use std::time::Duration;

#[test]
fn objects_go_out_one_by_one() {
    let pool = Pool::from([0, 0, 0]);
    let mut out = Vec::new();
    for available in [3, 2, 1] {
        assert_eq!(counts(pool.status()), [3, available, 0]);
        out.push(block_on(pool.get()).expect("an object"));
    }
    assert_eq!(counts(pool.status()), [3, 0, 0]);
}

#[test]
fn a_close_ends_those_that_wait_and_those_that_come() {
    let pool = Pool::new(1);
    block_on(pool.add(0)).expect("there is room");
    let held = block_on(pool.get()).expect("an object");
    let mut waiter = Task::new(pool.get());
    assert!(waiter.poll().is_pending());
    assert!(!pool.is_closed());
    assert_eq!(counts(pool.status()), [1, 0, 1]);
    pool.close();
    assert!(pool.is_closed());
    assert_eq!(waiter.woken(), 1);
    assert!(matches!(waiter.poll(), Poll::Ready(Err(PoolError::Closed))));
    assert!(matches!(block_on(pool.get()), Err(PoolError::Closed)));
    assert!(matches!(pool.try_get(), Err(PoolError::Closed)));
    assert!(matches!(pool.try_add(1), Err((1, PoolError::Closed))));
    assert_eq!(pool.status().available, 0);
    drop(held);
    assert!(pool.is_closed());
    assert!(matches!(pool.try_get(), Err(PoolError::Closed)));
    assert_eq!(pool.status().available, 0);
}

#[test]
fn a_hundred_jobs_share_three_objects() {
    let pool = Pool::from(vec![0usize, 0, 0]);
    thread::scope(|scope| {
        for _ in 0..10 {
            scope.spawn(|| {
                for _ in 0..10 {
                    *block_on(pool.get()).expect("an object") += 1;
                }
            });
        }
    });
    assert_eq!(counts(pool.status()), [3, 3, 0]);
    let values: Vec<_> = (0..3).map(|_| pool.try_get().expect("an object")).collect();
    assert_eq!(values.iter().map(|value| **value).sum::<usize>(), 100);
}

#[test]
fn adds_and_removes_are_counted() {
    let pool = Pool::new(2);
    for size in [1, 2] {
        block_on(pool.add(size)).expect("there is room");
        assert_eq!(pool.status().size, size);
    }
    let mut third = Task::new(pool.add(3));
    assert!(third.poll().is_pending());
    drop(third);
    assert_eq!(pool.status().size, 2);
    assert!(block_on(pool.remove()).is_ok());
    assert_eq!(pool.status().size, 1);
    assert!(Task::new(pool.add(3)).ready().is_ok());
    assert_eq!(pool.status().size, 2);
    for size in [1, 0] {
        assert!(block_on(pool.remove()).is_ok());
        assert_eq!(pool.status().size, size);
    }
}

#[test]
fn the_try_forms_do_not_wait() {
    let pool = Pool::new(2);
    assert_eq!((pool.try_add(1), pool.try_add(2)), (Ok(()), Ok(())));
    assert_eq!(pool.try_add(3), Err((3, PoolError::Timeout)));
    assert!(pool.try_remove().is_ok());
    assert_eq!(pool.status().size, 1);
    assert_eq!(pool.try_add(3), Ok(()));
    assert_eq!((pool.try_remove(), pool.try_remove()), (Ok(3), Ok(1)));
    assert_eq!(pool.try_remove(), Err(PoolError::Timeout));
    assert_eq!(pool.status().size, 0);
}

#[test]
fn an_add_waits_for_room() {
    let pool = Pool::from([1]);
    let mut add = Task::new(pool.add(2));
    assert!(add.poll().is_pending());
    assert_eq!(pool.try_remove(), Ok(1));
    assert_eq!(add.woken(), 1);
    assert!(matches!(add.poll(), Poll::Ready(Ok(()))));
    assert_eq!(pool.status().size, 1);
    assert_eq!(pool.try_remove(), Ok(2));
}

#[test]
fn a_wait_needs_a_runtime() {
    let pool = Pool::<()>::new(1);
    let get = |timeout| block_on(pool.timeout_get(timeout)).map(drop);
    assert_eq!(get(Some(Duration::from_millis(1))), Err(PoolError::NoRuntimeSpecified));
    assert_eq!(get(Some(Duration::ZERO)), Err(PoolError::Timeout));
    let config = PoolConfig { timeout: Some(Duration::from_millis(1)), ..PoolConfig::new(1) };
    let pool = Pool::<()>::from_config(&config);
    assert_eq!(block_on(pool.get()).map(drop), Err(PoolError::NoRuntimeSpecified));
}

#[test]
fn a_wait_runs_out_of_time() {
    let timeout = Some(Duration::from_millis(1));
    let config = PoolConfig { timeout, runtime: Some(Runtime::Thread), ..PoolConfig::new(1) };
    let pool = Pool::<()>::from_config(&config);
    assert_eq!(block_on(pool.timeout_get(timeout)).map(drop), Err(PoolError::Timeout));
    assert_eq!(block_on(pool.get()).map(drop), Err(PoolError::Timeout));
    assert_eq!(block_on(pool.timeout_remove(timeout)), Err(PoolError::Timeout));
    assert_eq!(counts(pool.status()), [0, 0, 0]);
}

#[test]
fn an_object_that_is_taken_makes_room() {
    let pool = Pool::from(["only".to_string()]);
    let object = pool.try_get().expect("an object");
    assert!(pool.try_add("second".into()).is_err());
    assert_eq!(Object::take(object), "only");
    assert!(pool.try_add("second".into()).is_ok());
    let clone = pool.clone();
    drop(pool);
    assert_eq!(*clone.try_get().expect("an object"), "second");
}

/// Numbers, twice as many as it says.
struct More(std::ops::Range<usize>);

impl Iterator for More {
    type Item = usize;

    fn next(&mut self) -> Option<usize> {
        self.0.next()
    }

    fn size_hint(&self) -> (usize, Option<usize>) {
        (self.0.len() / 2, Some(self.0.len() / 2))
    }
}

impl ExactSizeIterator for More {}

#[test]
fn a_pool_has_no_more_objects_than_were_said() {
    let pool = Pool::from(More(0..6));
    assert_eq!((counts(pool.status()), pool.status().max_size), ([3, 3, 0], 3));
    assert_eq!([2, 1, 0].map(|_| pool.try_remove().expect("an object")), [2, 1, 0]);
}

#[test]
fn who_is_handed_an_object_has_its_own_value() {
    let pool = Pool::from((0..8).map(|value| value * 11).collect::<Vec<_>>());
    let mut out: Vec<_> = (0..8).map(|_| pool.try_get().expect("an object")).collect();
    let values: Vec<_> = out.iter().map(|value| **value).collect();
    assert_eq!(values, [77, 66, 55, 44, 33, 22, 11, 0]);
    for at in [3, 0, 4] {
        drop(out.remove(at));
    }
    let again: Vec<_> = (0..3).map(|_| pool.try_get().expect("an object")).collect();
    assert_eq!(again.iter().map(|value| **value).collect::<Vec<_>>(), [11, 77, 44]);
}
