//! What the crate tracing is told of gets, and of objects that are given up: each once, with its cause, and without the lock.
mod told;

use deadpool::managed::{
    Hook, HookError, Limits, Metrics, Object, Pool, PoolBuilder, PoolError, TimeoutType, Timeouts,
};
use deadpool::{Runtime, unmanaged, wait};
use std::future::poll_fn;
use std::panic::{AssertUnwindSafe, catch_unwind};
use std::pin::pin;
use std::task::Poll;
use std::time::{Duration, Instant};
use told::{BADLY, GET, NEVER, Numbers, PANICS, Told, WELL, get, told_of};

/// Gives back an object that is to be recycled so.
fn leave(pool: &Pool<Numbers>, number: u8) {
    *get(pool) = number;
}

fn gives_up(cause: &str, object: usize) -> String {
    format!("message=an object is given up pool=orders object={object} cause={cause}")
}

#[test]
fn a_get_has_a_span() {
    let lines = told_of(
        1,
        |it| it,
        |pool, _| {
            let object = get(pool);
            assert!(matches!(wait(pool.try_get()), Err(PoolError::Timeout(TimeoutType::Wait))));
            drop(object);
            drop(get(pool));
        },
    );
    let late = "message=a get is late pool=orders status=max_size 1, size 1, available 0, waiting 0".into();
    assert_eq!(lines, [format!("{GET}> object=0"), late, format!("{GET}>"), format!("{GET}> object=0")]);
}

#[test]
fn a_span_has_what_its_get_has_waited() {
    let millis = Duration::from_millis(30);
    let lines = told_of(
        1,
        |it| it.times_waits(true).runtime(Runtime::Thread),
        |pool, _| {
            let object = get(pool);
            let mut waits = pin!(pool.get());
            let mut held = Some(object);
            drop(wait(poll_fn(|cx| {
                let polled = waits.as_mut().poll(cx);
                if polled.is_pending() {
                    // (from when it waits, or that time would not count)
                    let begun = Instant::now();
                    while begun.elapsed() < millis {}
                    drop(held.take());
                }
                polled
            })));
        },
    );
    assert_eq!(lines[0], format!("{GET}> object=0 waited=0ns"));
    let (begin, waited) = lines[1].rsplit_once('=').expect("the time");
    assert_eq!(begin, format!("{GET}> object=0 waited"));
    // (a machine that stalls has it wait for seconds)
    let (number, factor) = match waited.strip_suffix("ms") {
        Some(number) => (number, 1.0),
        None => (waited.strip_suffix('s').expect("a time"), 1000.0),
    };
    let waited = number.parse::<f64>().expect("a number") * factor;
    assert!(waited >= 30.0, "{waited}");
}

#[test]
fn a_pool_without_a_name_has_none_in_its_span() {
    let told = Told::default();
    tracing::subscriber::with_default(told.clone(), || {
        let pool: Pool<Numbers> = Pool::builder(Numbers).max_size(2).build().expect("a pool");
        let (out, idle) = (get(&pool), get(&pool));
        drop(idle);
        // (by its last handle)
        drop(pool);
        drop(out);
    });
    let given_up = |object| format!("message=an object is given up object={object} cause=closed");
    assert_eq!(told.lines(), ["get> object=0".into(), "get> object=1".into(), given_up(1), given_up(0)]);
}

/// A get gives up the idle object, and goes on with its place.
#[test]
fn what_a_get_gives_up_has_its_cause() {
    let short = |it: PoolBuilder<Numbers>| it.runtime(Runtime::Thread).recycle_timeout(Some(Duration::from_millis(20)));
    for (number, cause) in [(BADLY, "failed"), (NEVER, "late")] {
        let lines = told_of(1, short, |pool, told| {
            leave(pool, number);
            told.lines();
            drop(get(pool));
        });
        assert_eq!(lines, [gives_up(cause, 0), format!("{GET}> object=1")]);
    }
}

#[test]
fn what_no_runtime_can_time_has_its_cause() {
    let lines = told_of(
        1,
        |it| it,
        |pool, told| {
            leave(pool, WELL);
            told.lines();
            let timeouts = Timeouts { recycle: Some(Duration::from_secs(1)), ..Timeouts::new() };
            drop(wait(pool.timeout_get(&timeouts)).expect("a new object"));
        },
    );
    assert_eq!(lines, [gives_up("no runtime", 0), format!("{GET}> object=1")]);
}

#[test]
fn what_a_hook_refuses_has_its_cause() {
    let refuses = || {
        Hook::sync_fn(
            |number: &mut u8, _: &Metrics| {
                if *number == BADLY { Err(HookError::message("badly")) } else { Ok(()) }
            },
        )
    };
    for set in
        [(&|it: PoolBuilder<Numbers>| it.pre_recycle(refuses())) as &dyn Fn(_) -> _, &|it: PoolBuilder<Numbers>| {
            it.pre_recycle(Limits::none().uses(1))
        }]
    {
        let lines = told_of(1, set, |pool, told| {
            leave(pool, BADLY);
            told.lines();
            drop(get(pool));
        });
        assert_eq!(lines, [gives_up("refused", 0), format!("{GET}> object=1")]);
    }
    let lines = told_of(
        1,
        |it| it.post_recycle(Hook::sync_fn(|_, _| Err(HookError::message("no")))),
        |pool, told| {
            leave(pool, WELL);
            told.lines();
            drop(get(pool));
        },
    );
    assert_eq!(lines, [gives_up("refused", 0), format!("{GET}> object=1")]);
    let lines = told_of(
        1,
        |it| it.post_create(Hook::sync_fn(|_, _| Err(HookError::message("no")))),
        |pool, _| {
            assert!(matches!(wait(pool.get()), Err(PoolError::PostCreateHook(_))));
        },
    );
    assert_eq!(lines, [gives_up("refused", 0), format!("{GET}>")]);
}

#[test]
fn what_a_get_leaves_has_its_cause() {
    let lines = told_of(
        1,
        |it| it,
        |pool, told| {
            leave(pool, NEVER);
            told.lines();
            {
                let mut dropped = pin!(pool.get());
                wait(poll_fn(|cx| {
                    assert!(dropped.as_mut().poll(cx).is_pending());
                    Poll::Ready(())
                }));
            }
        },
    );
    assert_eq!(lines, [gives_up("dropped", 0), format!("{GET}>")]);
    let lines = told_of(
        1,
        |it| it,
        |pool, told| {
            leave(pool, PANICS);
            told.lines();
            assert!(catch_unwind(AssertUnwindSafe(|| drop(wait(pool.get())))).is_err());
        },
    );
    assert_eq!(lines, [gives_up("dropped", 0), format!("{GET}>")]);
}

#[test]
fn what_no_get_gives_up_has_its_cause() {
    let both = |call: fn(&Pool<Numbers>, &Told)| {
        told_of(
            2,
            |it| it,
            |pool, told| {
                drop([get(pool), get(pool)]);
                told.lines();
                call(pool, told);
            },
        )
    };
    let lines = both(|pool, _| {
        assert_eq!(pool.retain(|_, _| false).removed.len(), 2);
    });
    assert_eq!(lines, [gives_up("retain", 0), gives_up("retain", 1)]);
    let lines = both(|pool, _| {
        pool.resize(1);
    });
    assert_eq!(lines, [gives_up("surplus", 0)]);
    let lines = both(|pool, told| {
        let out = [get(pool), get(pool)];
        told.lines();
        pool.resize(1);
        drop(out);
    });
    assert_eq!(lines, [gives_up("surplus", 0)]);
    let lines = both(|pool, _| {
        pool.close();
    });
    assert_eq!(lines, [gives_up("closed", 0), gives_up("closed", 1)]);
    let lines = both(|pool, told| {
        let out = get(pool);
        told.lines();
        pool.close();
        drop(out);
    });
    assert_eq!(lines, [gives_up("closed", 1), gives_up("closed", 0)]);
}

/// What is taken is given to somebody, and not given up.
#[test]
fn what_is_taken_is_not_told() {
    let lines = told_of(
        1,
        |it| it,
        |pool, told| {
            let object = get(pool);
            told.lines();
            assert_eq!(Object::take(object), WELL);
        },
    );
    assert!(lines.is_empty(), "{lines:?}");
}

#[test]
fn an_unmanaged_pool_tells_what_its_end_gives_up() {
    let told = Told::default();
    tracing::subscriber::with_default(told.clone(), || {
        let pool = unmanaged::Pool::from([1, 2, 3]);
        let out = pool.try_get().expect("one is there");
        drop(pool.try_get());
        assert!(told.lines().is_empty());
        pool.close();
        assert_eq!(told.lines().len(), 2);
        drop(out);
    });
    assert_eq!(told.lines(), ["message=an object is given up cause=closed"]);
}
