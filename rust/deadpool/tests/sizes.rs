//! How many bytes those values have of which a program holds many: futures, objects and errors. A value lies in a box of its own, which
//! is all that a get allocates.
#![cfg(target_pointer_width = "64")]

#[path = "common/refusing.rs"]
mod refusing;

use deadpool::managed::{
    BuildError, Hook, HookError, Manager, Metrics, Object, Pool, PoolError, RecycleError, RecycleResult, Timeouts,
};
use deadpool::{Runtime, unmanaged, wait};
use refusing::{left_in_use, refusing};
use std::mem::{size_of, size_of_val};
use std::task::{Context, Poll, Waker};
use std::time::Duration;

/// Its values have 32 bytes.
struct Quads;

impl Manager for Quads {
    type Type = [u64; 4];
    type Error = ();

    async fn create(&self) -> Result<[u64; 4], ()> {
        Ok([0; 4])
    }

    async fn recycle(&self, _: &mut [u64; 4], _: &Metrics) -> RecycleResult<()> {
        Ok(())
    }
}

#[test]
fn futures_are_small() {
    let pool: Pool<Quads> = Pool::builder(Quads).pre_recycle(Hook::sync_fn(|_, _| Ok(()))).build().expect("a pool");
    let get = size_of_val(&pool.get());
    let timeout_get = size_of_val(&pool.timeout_get(&Timeouts::new()));
    let items = unmanaged::Pool::<[u64; 4]>::new(1);
    let of_unmanaged = [size_of_val(&items.get()), size_of_val(&items.add([0; 4]))];
    // (a span is held by the get and by what polls it)
    let spans = if cfg!(feature = "tracing") { 80 } else { 0 };
    assert!(get <= 336 + spans, "a get has {get} bytes");
    assert!(timeout_get <= 320 + spans, "one with timeouts has {timeout_get} bytes");
    assert!(of_unmanaged.iter().all(|it| *it <= 160), "those of an unmanaged pool have {of_unmanaged:?} bytes");
}

#[test]
fn objects_handles_and_errors_are_small() {
    assert_eq!([size_of::<Object<Quads>>(), size_of::<unmanaged::Object<[u64; 4]>>()], [16, 16]);
    assert_eq!([size_of::<Pool<Quads>>(), size_of::<unmanaged::Pool<[u64; 4]>>()], [8, 8]);
    let with_causes = [size_of::<PoolError<()>>(), size_of::<RecycleError<()>>(), size_of::<HookError<()>>()];
    assert_eq!(with_causes, [24; 3]);
    assert_eq!([size_of::<PoolError<u64>>(), size_of::<PoolError<[u64; 4]>>()], [24, 40]);
    assert!(size_of::<BuildError>() <= 1 && size_of::<unmanaged::PoolError>() == 1);
    assert_eq!(size_of::<Metrics>(), 40);
}

#[test]
fn a_get_and_its_return_allocate_nothing() {
    let builder = Pool::builder(Quads).max_size(4).runtime(Runtime::Thread);
    let (timed, second): (Pool<Quads>, _) = (builder.build().expect("a pool"), Some(Duration::from_secs(1)));
    let all = Timeouts { wait: second, create: second, recycle: second };
    let items = unmanaged::Pool::from([[0_u64; 4]]);
    let rounds = || {
        // (polled as a thread without a waker of its own would: `wait` makes one for each call)
        for _ in 0..100 {
            drop(now(timed.get()).expect("a value"));
            drop(now(timed.timeout_get(&all)).expect("a value"));
            drop(now(items.get()).expect("a value"));
        }
    };
    // (the first get creates, and the first timeout may start the thread of the timers)
    rounds();
    let ((), was_asked) = refusing(0, rounds);
    assert!(!was_asked, "a get or a return allocates");
}

#[test]
fn a_creation_allocates_one_box() {
    let pool: Pool<Quads> = Pool::builder(Quads).max_size(4).build().expect("a pool");
    drop(wait(pool.get()).expect("a value"));
    let first = now(pool.get()).expect("a value");
    let mut second = None;
    assert_eq!(left_in_use(|| second = Some(now(pool.get()).expect("a value"))), 1);
    drop((first, second));
}

/// What a future gives at its first poll, or at the next one: a get lets others run now and then.
fn now<F: Future>(future: F) -> F::Output {
    let (mut future, mut cx) = (std::pin::pin!(future), Context::from_waker(Waker::noop()));
    for _ in 0..2 {
        if let Poll::Ready(output) = future.as_mut().poll(&mut cx) {
            return output;
        }
    }
    panic!("it waits")
}
