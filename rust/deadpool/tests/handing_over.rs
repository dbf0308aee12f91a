//! A get that waits is handed its object over by the step that makes it due. What comes between that and its next poll.
mod common;

use common::{Count, Numbers, Task, block_on, counts, gone};
use deadpool::managed::{Manager, Metrics, Object, Pool, PoolBuilder, PoolError, RecycleResult};
use std::convert::Infallible;
use std::future::Future;
use std::panic::{AssertUnwindSafe, catch_unwind};
use std::pin::pin;
use std::sync::atomic::{AtomicUsize, Ordering::SeqCst};
use std::task::{Context, Poll};
use std::time::Duration;

type Got = Result<Object<Numbers>, PoolError<Infallible>>;

fn builder(max_size: usize) -> PoolBuilder<Numbers> {
    Pool::builder(Numbers::default()).max_size(max_size)
}

fn pool(max_size: usize) -> Pool<Numbers> {
    builder(max_size).build().expect("a pool")
}

fn get(pool: &Pool<Numbers>) -> Object<Numbers> {
    block_on(pool.get()).expect("an object")
}

/// A get that waits.
fn waits(pool: &Pool<Numbers>) -> Task<'_, Got> {
    let mut get = Task::new(pool.get());
    assert!(get.poll().is_pending());
    get
}

/// A get that was handed over the only object of a pool, 0.
fn handed_over(pool: &Pool<Numbers>) -> Task<'_, Got> {
    let held = get(pool);
    let waits = waits(pool);
    drop(held);
    assert_eq!(waits.woken(), 1);
    waits
}

/// How many idle objects a retain sees.
fn seen(pool: &Pool<Numbers>) -> usize {
    pool.retain(|_, _| true).retained
}

#[test]
fn a_retain_does_not_see_the_object() {
    let pool = pool(1);
    let waits = handed_over(&pool);
    assert_eq!((counts(pool.status()), pool.tally().tally.served), ([1, 0, 0], 2));
    let retained = pool.retain(|_, _| false);
    assert_eq!((retained.retained, retained.removed), (0, vec![]));
    assert_eq!(*waits.ready().expect("its object"), 0);
    assert_eq!((counts(pool.status()), seen(&pool)), ([1, 1, 0], 1));
}

#[test]
fn a_shrink_leaves_the_object() {
    let pool = pool(1);
    let waits = handed_over(&pool);
    pool.resize(0);
    let held = waits.ready().expect("its object");
    assert_eq!((*held, counts(pool.status())), (0, [1, 0, 0]));
    // It is surplus when it comes back.
    drop(held);
    assert_eq!((pool.manager().detached(), counts(pool.status())), (1, [0, 0, 0]));
}

#[test]
fn a_get_that_is_dropped_gives_the_object_back() {
    let pool = pool(1);
    drop(handed_over(&pool));
    assert_eq!((pool.manager().detached(), counts(pool.status()), seen(&pool)), (0, [1, 1, 0], 1));
    // It is handed over to the next one that waits, which has had the same ticket.
    let (first, second) = (handed_over(&pool), waits(&pool));
    drop(first);
    assert_eq!((second.woken(), seen(&pool)), (1, 0));
    assert_eq!(*second.ready().expect("the same"), 0);
    let tally = pool.tally().tally;
    assert_eq!((tally.created, tally.cancelled, tally.surplus), (1, 0, 0));
}

#[test]
fn a_get_that_is_dropped_gives_up_what_is_surplus() {
    let pool = pool(1);
    let waits = handed_over(&pool);
    pool.resize(0);
    drop(waits);
    assert_eq!((pool.manager().detached(), counts(pool.status())), (1, [0, 0, 0]));
}

/// A pool with the objects 0 and 1 out, whose one cell was made for the first of them.
fn two_of_one_cell(pool: &Pool<Numbers>) -> [Object<Numbers>; 2] {
    let first = get(pool);
    let waits = waits(pool);
    pool.resize(2);
    [first, waits.ready().expect("a new one")]
}

#[test]
fn a_get_whose_cell_is_taken_asks_the_pool() {
    let pool = pool(1);
    let [first, second] = two_of_one_cell(&pool);
    let (one, other) = (waits(&pool), waits(&pool));
    drop(first);
    drop(second);
    assert_eq!((one.woken(), other.woken(), seen(&pool), counts(pool.status())), (1, 1, 1, [2, 0, 0]));
    let given = [other.ready(), one.ready()].map(|it| it.expect("an object"));
    assert_eq!(given.each_ref().map(|it| **it), [1, 0]);
    drop(given);
    // The cell is free again.
    let [_first, second] = [get(&pool), get(&pool)];
    let waits = waits(&pool);
    drop(second);
    assert_eq!(seen(&pool), 0);
    assert!(waits.ready().is_ok());
}

#[test]
fn a_get_with_the_ticket_of_another_finds_only_its_own() {
    let pool = pool(1);
    let [first, second] = two_of_one_cell(&pool);
    let mut one = waits(&pool);
    drop(first);
    // (the ticket of the first is void, and the next one has it again)
    let mut other = waits(&pool);
    assert!(other.poll().is_pending());
    assert!(matches!(one.poll(), Poll::Ready(Ok(object)) if *object == 0 && other.poll().is_pending()));
    drop(second);
    assert!(other.ready().is_ok());
}

#[test]
fn a_get_may_be_polled_again_by_another_task() {
    let pool = pool(1);
    let (held, mut waits, [(first, woken), (second, other)]) =
        (get(&pool), Box::pin(pool.get()), [(); 2].map(|()| Count::waker()));
    let mut poll = |waker| waits.as_mut().poll(&mut Context::from_waker(waker));
    assert!(poll(&first).is_pending() && poll(&second).is_pending());
    drop(held);
    assert_eq!([woken.get(), other.get()], [0, 1]);
    assert!(matches!(poll(&first), Poll::Ready(Ok(object)) if *object == 0));
    assert_eq!((counts(pool.status()), [woken.get(), other.get()]), ([1, 1, 0], [0, 1]));
}

#[test]
fn a_close_takes_the_object_back() {
    let pool = pool(1);
    let (mut waits, drain) = (handed_over(&pool), Task::new(pool.drain()));
    // (it ends at once, though the get is not polled)
    drain.ready();
    assert_eq!((pool.manager().detached(), counts(pool.status())), (0, [0, 0, 0]));
    assert!(matches!(waits.poll(), Poll::Ready(Err(PoolError::Closed))));
    let tally = pool.tally().tally;
    assert_eq!((tally.created, tally.surplus, tally.served), (1, 1, 2));
}

#[test]
fn a_get_that_is_dropped_after_a_close_holds_nothing() {
    let pool = pool(1);
    let waits = handed_over(&pool);
    pool.close();
    let closed = pool.tally().tally;
    drop(waits);
    assert_eq!((pool.tally().tally, counts(pool.status())), (closed, [0, 0, 0]));
}

#[test]
fn a_close_gives_up_what_is_surplus() {
    let pool = pool(1);
    let waits = handed_over(&pool);
    pool.resize(0);
    pool.close();
    assert_eq!((pool.manager().detached(), counts(pool.status())), (1, [0, 0, 0]));
    assert!(matches!(waits.ready(), Err(PoolError::Closed)));
    block_on(pool.drain());
}

/// Counts the values that were dropped.
#[derive(Default)]
struct Counted(std::sync::Arc<AtomicUsize>);

struct Value(std::sync::Arc<AtomicUsize>);

impl Drop for Value {
    fn drop(&mut self) {
        self.0.fetch_add(1, SeqCst);
    }
}

impl Manager for Counted {
    type Type = Value;
    type Error = Infallible;

    async fn create(&self) -> Result<Value, Infallible> {
        Ok(Value(self.0.clone()))
    }

    async fn recycle(&self, _: &mut Value, _: &Metrics) -> RecycleResult<Infallible> {
        Ok(())
    }

    fn detach(&self, _: &mut Value) {
        panic!("the connection has gone");
    }
}

#[test]
fn a_detach_that_panics_in_a_close_leaves_nothing() {
    for waits_on in [true, false] {
        let pool: Pool<Counted> = Pool::builder(Counted::default()).max_size(1).build().expect("a pool");
        let dropped = pool.manager().0.clone();
        let held = block_on(pool.get()).expect("an object");
        let mut get = Task::new(pool.get());
        assert!(get.poll().is_pending());
        drop(held);
        pool.resize(0);
        let drain = waits_on.then(|| Task::new(pool.drain_for(Duration::ZERO)));
        let panicked = catch_unwind(AssertUnwindSafe(|| match drain {
            Some(drain) => drop(drain.ready()),
            None => drop(get),
        }));
        assert!(panicked.is_err(), "the panic goes on");
        assert_eq!((dropped.load(SeqCst), counts(pool.status())), (1, [0, 0, 0]));
        block_on(pool.drain());
    }
}

#[test]
fn a_task_that_panics_gives_the_object_back() {
    let pool = pool(1);
    let waits = handed_over(&pool);
    let panicked = catch_unwind(AssertUnwindSafe(|| {
        let _waits = waits;
        panic!("the task has gone");
    }));
    assert!(panicked.is_err());
    assert_eq!((pool.manager().detached(), counts(pool.status()), seen(&pool)), (0, [1, 1, 0], 1));
}

#[test]
fn a_waker_that_panics_loses_no_object() {
    let pool = pool(1);
    let (held, mut waits) = (get(&pool), pin!(pool.get()));
    assert!(waits.as_mut().poll(&mut Context::from_waker(&gone())).is_pending());
    assert!(catch_unwind(AssertUnwindSafe(|| drop(held))).is_err());
    assert_eq!(seen(&pool), 0);
    assert_eq!(*block_on(waits).expect("its object"), 0);
}

#[test]
fn a_get_that_leaves_the_queue_has_the_next_one_handed_over_what_is_idle() {
    let pool = pool(1);
    let [first, second] = two_of_one_cell(&pool);
    let [one, other, last] = [(); 3].map(|()| waits(&pool));
    drop(first);
    drop(second);
    let _held = one.ready().expect("its object");
    assert_eq!((other.woken(), seen(&pool)), (1, 1));
    drop(other);
    assert_eq!((last.woken(), seen(&pool)), (1, 0));
    assert_eq!(*last.ready().expect("its object"), 1);
}

#[test]
fn where_nothing_is_idle_nothing_is_handed_over() {
    let pool = pool(1);
    let (held, waits) = (get(&pool), waits(&pool));
    assert_eq!(Object::take(held), 0);
    assert_eq!((waits.woken(), pool.tally().tally.served), (1, 1));
    assert_eq!(*waits.ready().expect("a new one"), 1);
}

#[test]
fn a_pool_with_a_journal_hands_nothing_over() {
    let pool: Pool<Numbers> = builder(1).journal(100).build().expect("a pool");
    let waits = handed_over(&pool);
    assert_eq!((seen(&pool), pool.tally().tally.served), (1, 1));
    let before = pool.journal().entries.len();
    let held = waits.ready().expect("its object");
    assert_eq!(pool.journal().entries[before..], ["ask 0 object 0 left 0"]);
    drop(held);
}
