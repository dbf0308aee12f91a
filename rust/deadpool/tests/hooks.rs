//! Hooks of the three lists.
mod common;

use common::{Numbers, block_on, pause};
use deadpool::managed::{Hook, HookError, HookResult, Metrics, Pool, PoolBuilder, PoolError};
use std::convert::Infallible;
use std::sync::atomic::{AtomicUsize, Ordering};

type Answer = HookResult<Infallible>;

fn builder(first: usize) -> PoolBuilder<Numbers> {
    Pool::builder(Numbers::from(first)).max_size(1)
}

fn add_one(value: &mut usize, _: &Metrics) -> Answer {
    *value += 1;
    Ok(())
}

fn refuse_used(_: &mut usize, metrics: &Metrics) -> Answer {
    if metrics.recycle_count > 0 { Err(HookError::message("used")) } else { Ok(()) }
}

#[test]
fn post_create_changes_a_new_object() {
    let pool = builder(42).post_create(Hook::sync_fn(add_one)).build().expect("a pool");
    assert_eq!(*block_on(pool.get()).expect("an object"), 43);
}

#[test]
fn an_async_post_create_has_a_state() {
    let calls = AtomicUsize::new(0);
    let hook = Hook::async_fn(move |value: &mut usize, _: &Metrics| {
        calls.fetch_add(1, Ordering::SeqCst);
        Box::pin(async move {
            pause().await;
            *value += 1;
            Ok(())
        })
    });
    let pool = builder(42).post_create(hook).build().expect("a pool");
    assert_eq!(*block_on(pool.get()).expect("an object"), 43);
}

#[test]
fn post_create_refuses_a_new_object() {
    let refuse_odd = |value: &mut usize, _: &Metrics| -> Answer {
        if *value % 2 == 1 { Err(HookError::message("odd")) } else { Ok(()) }
    };
    let pool = builder(0).max_size(3).post_create(Hook::sync_fn(refuse_odd)).build().expect("a pool");
    let mut kept = Vec::new();
    for expected in [Some(0), None, Some(2), None, Some(4)] {
        match (block_on(pool.get()), expected) {
            (Ok(object), Some(value)) => {
                assert_eq!(*object, value);
                kept.push(object);
            }
            (Err(PoolError::PostCreateHook(HookError::Message(text))), None) => assert_eq!(text, "odd"),
            (other, _) => panic!("{other:?}"),
        }
    }
    assert_eq!((pool.status().size, pool.manager().detached()), (3, 2));
}

fn counts_up(builder: PoolBuilder<Numbers>) {
    let pool = builder.build().expect("a pool");
    for value in 42..46 {
        assert_eq!(*block_on(pool.get()).expect("an object"), value);
    }
}

#[test]
fn pre_recycle_sees_an_object_that_came_back() {
    counts_up(builder(42).pre_recycle(Hook::sync_fn(add_one)));
}

#[test]
fn post_recycle_sees_an_object_that_came_back() {
    counts_up(builder(42).post_recycle(Hook::sync_fn(add_one)));
}

fn each_is_used_twice(builder: PoolBuilder<Numbers>) {
    let pool = builder.build().expect("a pool");
    for value in [0, 0, 1, 1, 2, 2] {
        assert_eq!(*block_on(pool.get()).expect("an object"), value);
        let status = pool.status();
        assert_eq!((status.size, status.available), (1, 1));
    }
}

#[test]
fn pre_recycle_refuses_an_object() {
    each_is_used_twice(builder(0).pre_recycle(Hook::sync_fn(refuse_used)));
}

#[test]
fn post_recycle_refuses_an_object() {
    each_is_used_twice(builder(0).post_recycle(Hook::sync_fn(refuse_used)));
}

/// A hook that appends a digit to the number that it sees.
fn append(digit: usize) -> Hook<Numbers> {
    Hook::sync_fn(move |value: &mut usize, _: &Metrics| -> Answer {
        *value = *value * 10 + digit;
        Ok(())
    })
}

#[test]
fn hooks_of_a_list_see_an_object_in_turn() {
    let builder = builder(0).post_create(append(1)).post_create(append(2)).pre_recycle(append(3));
    let builder = builder.pre_recycle(append(4)).post_recycle(append(5)).post_recycle(append(6));
    let pool = builder.build().expect("a pool");
    assert_eq!(*block_on(pool.get()).expect("an object"), 12);
    assert_eq!(*block_on(pool.get()).expect("an object"), 123456);
}

#[test]
fn hooks_behind_one_that_refuses_are_not_asked() {
    let calls = std::sync::Arc::new(AtomicUsize::new(0));
    let count = || {
        let calls = calls.clone();
        Hook::sync_fn(move |_: &mut usize, _: &Metrics| -> Answer {
            calls.fetch_add(1, Ordering::SeqCst);
            Ok(())
        })
    };
    let refuse = || Hook::sync_fn(|_: &mut usize, _: &Metrics| -> Answer { Err(HookError::message("no")) });
    let pool = builder(0).post_create(refuse()).post_create(count()).build().expect("a pool");
    assert!(matches!(block_on(pool.get()), Err(PoolError::PostCreateHook(_))));
    let before = builder(0).pre_recycle(refuse()).pre_recycle(count()).post_recycle(count());
    let behind = builder(0).post_recycle(refuse()).post_recycle(count());
    for pool in [before, behind].map(|it| it.build().expect("a pool")) {
        for value in [0, 1] {
            assert_eq!(*block_on(pool.get()).expect("an object"), value);
        }
    }
    assert_eq!(calls.load(Ordering::SeqCst), 0);
}

#[test]
fn errors_have_their_texts_and_causes() {
    use std::error::Error;
    use std::io;
    let cause = || io::Error::other("broken");
    let backend: PoolError<io::Error> = PoolError::Backend(cause());
    assert_eq!(backend.to_string(), "Error occurred while creating a new object: broken");
    assert_eq!(backend.source().expect("a source").to_string(), "broken");
    let hook: PoolError<io::Error> = PoolError::PostCreateHook(HookError::Backend(cause()));
    assert_eq!(hook.to_string(), "`post_create` hook failed: broken\n");
    assert_eq!(hook.source().and_then(Error::source).expect("a source").to_string(), "broken");
    assert!(PoolError::<io::Error>::Closed.source().is_none());
    // Under a pool's name an error has the text and the cause that it has without.
    let named = builder(0).name("orders").build().expect("a pool").named(backend);
    assert_eq!(named.to_string(), "pool orders: Error occurred while creating a new object: broken");
    assert_eq!(named.source().expect("a source").to_string(), "broken");
}
