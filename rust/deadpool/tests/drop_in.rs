//! Programs as they are written over the crate deadpool, which this one is put in place of: values are written out and taken apart
//! with all their fields, and errors are matched by all their kinds. No name here is this crate's own.
#![cfg(not(feature = "refusals"))]
mod common;

use common::{Numbers, block_on};
use deadpool::managed::{
    BuildError, CreatePoolError, Hook, HookError, Metrics, Pool, PoolConfig, PoolError, QueueMode, RecycleError,
    RetainResult, TimeoutType, Timeouts,
};
use deadpool::{Status, unmanaged};
use std::convert::Infallible;
use std::time::{Duration, Instant};

const SECOND: Duration = Duration::from_secs(1);

#[test]
fn a_configuration_is_written_out_and_taken_apart() {
    let timeouts = Timeouts { wait: Some(SECOND), create: Some(2 * SECOND), recycle: Some(3 * SECOND) };
    let config = PoolConfig { max_size: 42, timeouts, queue_mode: QueueMode::Fifo };
    let PoolConfig { max_size, timeouts: Timeouts { wait, create, recycle }, queue_mode } = config;
    assert_eq!((max_size, wait, create, recycle), (42, Some(SECOND), Some(2 * SECOND), Some(3 * SECOND)));
    assert!(match queue_mode {
        QueueMode::Fifo => true,
        QueueMode::Lifo => false,
    });
    let built = Pool::<Numbers>::builder(Numbers::default()).config(config).build();
    let BuildError::NoRuntimeSpecified = built.map(drop).expect_err("timeouts need a runtime");
    let config = PoolConfig { max_size: 3, timeouts: Timeouts::new(), queue_mode: QueueMode::Lifo };
    let pool: Pool<Numbers> = Pool::builder(Numbers::default()).config(config).build().expect("a pool");
    let Status { max_size, size, available, waiting } = pool.status();
    assert_eq!([max_size, size, available, waiting], [3, 0, 0, 0]);
}

#[test]
fn an_unmanaged_configuration_is_written_out_and_taken_apart() {
    let soon = Some(Duration::from_millis(1));
    let config = unmanaged::PoolConfig { max_size: 0, timeout: soon, runtime: None };
    let unmanaged::PoolConfig { max_size, timeout, runtime } = config;
    assert_eq!((max_size, timeout, runtime), (0, soon, None));
    let pool = unmanaged::Pool::<()>::from_config(&config);
    assert!(matches!(block_on(pool.get()), Err(unmanaged::PoolError::NoRuntimeSpecified)));
    assert!(matches!(block_on(pool.timeout_get(Some(Duration::ZERO))), Err(unmanaged::PoolError::Timeout)));
}

#[test]
fn what_a_pool_tells_is_written_out_and_taken_apart() {
    let metrics = Metrics { created: Instant::now(), recycled: None, recycle_count: 1 };
    let Metrics { created, recycled: None, recycle_count: 1 } = metrics else { panic!("it was not recycled") };
    assert!(created <= Instant::now());
    let RetainResult { retained, removed } = RetainResult { retained: 0, removed: vec![7] };
    assert_eq!((retained, removed), (0, vec![7]));
    let hook: Hook<Numbers> = Hook::Fn(Box::new(|_, _| Ok(())));
    assert!(match hook {
        Hook::Fn(_) => true,
        Hook::AsyncFn(_) => false,
    });
}

/// What a service answers.
fn status_of(error: &PoolError<Infallible>) -> u16 {
    match error {
        PoolError::Timeout(TimeoutType::Wait) => 503,
        PoolError::Timeout(TimeoutType::Create | TimeoutType::Recycle) => 504,
        PoolError::Backend(never) => match *never {},
        PoolError::Closed => 410,
        PoolError::NoRuntimeSpecified => 500,
        PoolError::PostCreateHook(HookError::Message(_)) => 502,
        PoolError::PostCreateHook(HookError::Backend(never)) => match *never {},
    }
}

fn unmanaged_status_of(error: unmanaged::PoolError) -> u16 {
    match error {
        unmanaged::PoolError::Timeout => 503,
        unmanaged::PoolError::Closed => 410,
        unmanaged::PoolError::NoRuntimeSpecified => 500,
    }
}

#[test]
fn errors_are_matched_by_all_their_kinds() {
    let pool: Pool<Numbers> = Pool::builder(Numbers::default())
        .max_size(1)
        .post_create(Hook::sync_fn(|number, _| if *number == 0 { Err(HookError::message("none")) } else { Ok(()) }))
        .build()
        .expect("a pool");
    let refused =
        |timeouts: Timeouts| status_of(&block_on(pool.timeout_get(&timeouts)).map(drop).expect_err("refused"));
    assert_eq!(refused(Timeouts::new()), 502);
    let held = block_on(pool.get()).expect("an object");
    assert_eq!(refused(Timeouts::wait_millis(0)), 503);
    assert_eq!(refused(Timeouts::wait_millis(1)), 500);
    pool.close();
    assert_eq!(refused(Timeouts::new()), 410);
    drop(held);
    let items = unmanaged::Pool::<u8>::new(1);
    assert_eq!(items.try_get().map(drop).map_err(unmanaged_status_of), Err(503));
    items.close();
    assert_eq!(items.try_add(1).map_err(|(_, error)| unmanaged_status_of(error)), Err(410));
}

#[test]
fn errors_of_a_backend_are_matched_by_all_their_kinds() {
    fn text_of(error: CreatePoolError<&'static str>) -> &'static str {
        match error {
            CreatePoolError::Config(text) => text,
            CreatePoolError::Build(BuildError::NoRuntimeSpecified) => "no runtime",
        }
    }
    assert_eq!(text_of(CreatePoolError::Config("no url")), "no url");
    assert_eq!(text_of(CreatePoolError::Build(BuildError::NoRuntimeSpecified)), "no runtime");
    fn is_told(error: RecycleError<u8>) -> bool {
        match error {
            RecycleError::Message(text) => text == "used",
            RecycleError::Backend(cause) => cause == 7,
        }
    }
    assert!(is_told(RecycleError::message("used")) && is_told(7.into()));
}
