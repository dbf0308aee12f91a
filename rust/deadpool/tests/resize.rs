//! A limit that is set anew.
mod common;

use common::{Numbers, Task, block_on, counts};
use deadpool::managed::{Object, Pool};
use std::task::Poll;

fn pool(max_size: usize) -> Pool<Numbers> {
    Pool::builder(Numbers::default()).max_size(max_size).build().expect("a pool")
}

fn get(pool: &Pool<Numbers>) -> Object<Numbers> {
    block_on(pool.get()).expect("an object")
}

fn size_of(pool: &Pool<Numbers>) -> (usize, usize) {
    let status = pool.status();
    (status.size, status.max_size)
}

#[test]
fn a_pool_that_grows_again_uses_its_objects_again() {
    let pool = pool(2);
    let (first, second) = (get(&pool), get(&pool));
    pool.resize(0);
    assert_eq!(size_of(&pool), (2, 0));
    pool.resize(1);
    assert_eq!(size_of(&pool), (2, 1));
    drop(first);
    assert_eq!(size_of(&pool), (1, 1));
    drop(second);
    assert_eq!(size_of(&pool), (1, 1));
}

#[test]
fn a_pool_shrinks_as_objects_come_back() {
    let pool = pool(2);
    let (first, second) = (get(&pool), get(&pool));
    pool.resize(1);
    assert_eq!(size_of(&pool), (2, 1));
    drop(second);
    assert_eq!(size_of(&pool), (1, 1));
    drop(first);
    assert_eq!(size_of(&pool), (1, 1));
}

#[test]
fn a_pool_grows() {
    let pool = pool(1);
    let first = get(&pool);
    assert_eq!(pool.status().size, 1);
    pool.resize(2);
    assert_eq!(size_of(&pool), (1, 2));
    let second = get(&pool);
    assert_eq!(size_of(&pool), (2, 2));
    drop((first, second));
    assert_eq!(size_of(&pool), (2, 2));
}

#[test]
fn a_pool_shrinks_and_grows_while_an_object_is_out() {
    let pool = pool(1);
    let held = get(&pool);
    for limit in [2, 0, 5] {
        pool.resize(limit);
    }
    assert_eq!(size_of(&pool), (1, 5));
    drop(held);
    assert_eq!(size_of(&pool), (1, 5));
}

#[test]
fn a_larger_limit_serves_one_that_waits() {
    let pool = pool(0);
    let mut waiter = Task::new(pool.get());
    assert!(waiter.poll().is_pending());
    assert_eq!(counts(pool.status()), [0, 0, 1]);
    pool.resize(1);
    assert_eq!(waiter.woken(), 1);
    assert_eq!(counts(pool.status()), [0, 0, 1]);
    let Poll::Ready(Ok(object)) = waiter.poll() else {
        panic!("the waiter is served");
    };
    assert_eq!(counts(pool.status()), [1, 0, 0]);
    drop(object);
    assert_eq!(counts(pool.status()), [1, 1, 0]);
}

#[test]
fn a_closed_pool_keeps_its_limit() {
    let pool = pool(1);
    pool.close();
    pool.resize(16);
    assert_eq!(size_of(&pool), (0, 0));
}
