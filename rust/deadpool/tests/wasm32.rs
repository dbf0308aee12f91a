//! What differs on wasm32: no moment is asked for. The gate compiles this for the machine at hand, as if that were wasm32 too.
#![cfg(target_arch = "wasm32")]
mod common;

use common::{Numbers, Task, block_on};
use deadpool::managed::{Limits, Metrics, Object, Pool, PoolBuilder, held_by};
use std::thread;
use std::time::Duration;

fn one() -> PoolBuilder<Numbers> {
    Pool::builder(Numbers::default()).max_size(1)
}

#[test]
fn metrics_have_a_count_alone() {
    let Metrics { recycle_count: 0 } = Metrics::default() else { panic!("it is new") };
    let pool: Pool<Numbers> = one().build().expect("a pool");
    let counts = [0; 3].map(|_| Object::metrics(&block_on(pool.get()).expect("an object")).recycle_count);
    assert_eq!(counts, [0, 1, 2]);
}

#[test]
fn a_wait_is_not_measured() {
    let pool: Pool<Numbers> = one().times_waits(true).build().expect("a pool");
    let held = block_on(pool.get()).expect("an object");
    let mut waits = Task::new(pool.get());
    assert!(waits.poll().is_pending());
    thread::sleep(Duration::from_millis(2));
    drop(held);
    assert_eq!(Object::waited(&waits.ready().expect("the object")), Duration::ZERO);
}

#[test]
fn a_hold_is_not_measured() {
    let pool: Pool<Numbers> = one().tracks_holders(true).build().expect("a pool");
    let object = block_on(held_by("somebody", pool.get())).expect("an object");
    thread::sleep(Duration::from_millis(2));
    let holder = pool.holders().pop().expect("a holder");
    assert_eq!((holder.object, holder.name.as_deref()), (Object::id(&object), Some("somebody")));
    assert_eq!((holder.held(), holder.waited), (Duration::ZERO, Duration::ZERO));
    drop(object);
    assert!(pool.holders().is_empty());
}

#[test]
fn limits_have_uses_alone() {
    let limits = Limits { uses: Some(2) };
    let pool: Pool<Numbers> = one().pre_recycle(limits).build().expect("a pool");
    assert_eq!([0; 4].map(|_| *block_on(pool.get()).expect("an object")), [0, 0, 1, 1]);
    let mut keeper = Box::pin(pool.keeper(limits, Duration::ZERO));
    let mut keeper = Task::new(keeper.as_mut());
    (0..4).for_each(|_| assert!(keeper.poll().is_pending()));
    assert_eq!(pool.status().size, 0, "the keeper has given it up");
    pool.close();
    keeper.ready();
}
