//! Who holds what is out, and since when: each object that is out is in the list, once, and no other one.
#![cfg(not(target_arch = "wasm32"))]
mod common;
#[path = "common/refusing.rs"]
mod refusing;

use common::{Numbers, Task, block_on, refusals};
use deadpool::managed::{Hook, HookError, Metrics, Object, Pool, PoolBuilder, Timeouts, held_by};
use refusing::refusing;
use std::future::{pending, poll_fn};
use std::panic::{AssertUnwindSafe, catch_unwind};
use std::pin::Pin;
use std::sync::{Arc, Mutex};
use std::task::{Context, Poll, Wake, Waker};
use std::thread;
use std::time::{Duration, Instant};

/// What is built with this tracks its holders.
fn tracked(max_size: usize) -> PoolBuilder<Numbers> {
    Pool::builder(Numbers::default()).max_size(max_size).tracks_holders(true)
}

fn get(pool: &Pool<Numbers>) -> Object<Numbers> {
    block_on(pool.get()).expect("an object")
}

fn get_as(name: &'static str, pool: &Pool<Numbers>) -> Object<Numbers> {
    block_on(held_by(name, pool.get())).expect("an object")
}

/// The numbers and the names of what is out, in order.
fn held(pool: &Pool<Numbers>) -> Vec<(String, Option<String>)> {
    pool.holders().into_iter().map(|it| (it.object.to_string(), it.name.map(Into::into))).collect()
}

fn named(number: usize, name: &str) -> (String, Option<String>) {
    (number.to_string(), Some(name.into()))
}

fn nameless(number: usize) -> (String, Option<String>) {
    (number.to_string(), None)
}

#[test]
fn what_is_out_is_listed_in_the_order_in_which_it_was_handed_out() {
    let pool = tracked(9).build().expect("a pool");
    assert!(pool.holders().is_empty());
    let mut out: Vec<_> = (0..9).map(|_| get(&pool)).collect();
    let all: Vec<_> = (0..9).map(nameless).collect();
    assert_eq!(held(&pool), all);
    drop(out.remove(3));
    assert_eq!(held(&pool), [&all[..3], &all[4..]].concat());
    // (it is recycled, and out anew)
    out.push(get_as("late", &pool));
    assert_eq!(held(&pool), [&all[..3], &all[4..], &[named(3, "late")]].concat());
    drop(out);
    assert!(pool.holders().is_empty());
}

#[test]
fn each_hold_has_its_own_beginning() {
    let pool = tracked(1).build().expect("a pool");
    for _ in 0..2 {
        let before = Instant::now();
        let object = get(&pool);
        let after = Instant::now();
        thread::sleep(Duration::from_millis(2));
        let holder = pool.holders().pop().expect("a holder");
        assert!(before <= holder.since && holder.since <= after);
        assert!(after.elapsed() <= holder.held() && holder.held() <= before.elapsed());
        assert_eq!((holder.object, holder.waited), (Object::id(&object), Duration::ZERO));
    }
}

#[test]
fn a_pool_has_no_list_unless_it_is_asked_for_one() {
    let pool: Pool<Numbers> = Pool::builder(Numbers::default()).max_size(2).build().expect("a pool");
    let _out = [get(&pool), get_as("somebody", &pool)];
    assert!(pool.holders().is_empty());
    assert!(!format!("{pool:?}").contains("holders"));
}

#[test]
fn a_threshold_asks_for_the_list() {
    let builder = Pool::builder(Numbers::default()).max_size(1).hold_threshold(Some(Duration::ZERO));
    let pool: Pool<Numbers> = builder.build().expect("a pool");
    let object = get_as("somebody", &pool);
    // (what was told stays in the list)
    for _ in 0..2 {
        assert_eq!(held(&pool), [named(0, "somebody")]);
    }
    drop(object);
    assert!(pool.holders().is_empty());
}

#[test]
fn a_holder_tells_how_long_its_get_has_waited() {
    let pool = tracked(1).build().expect("a pool");
    let first = get(&pool);
    let mut waits = Task::new(pool.get());
    assert!(waits.poll().is_pending());
    thread::sleep(Duration::from_millis(20));
    assert_eq!(held(&pool), [nameless(0)], "one that waits has nothing");
    drop(first);
    let object = waits.ready().expect("the object");
    let waited = pool.holders()[0].waited;
    assert!(waited >= Duration::from_millis(20) && waited == Object::waited(&object), "{waited:?}");
}

#[test]
fn debug_says_who_holds_what() {
    let pool = tracked(2).name("orders").build().expect("a pool");
    let _out = [get_as("checkout", &pool), get(&pool)];
    let text = format!("{pool:?}");
    let begin = r#"Pool { name: "orders", holders: [Holder { object: 0, name: "checkout", held: "#;
    assert!(text.starts_with(begin) && text.contains("Holder { object: 1, held: "), "{text}");
    assert!(text.contains(", waited: 0ns }") && text.ends_with("is_closed: false }"), "{text}");
}

#[test]
fn what_has_left_is_not_held() {
    let pool = tracked(3).build().expect("a pool");
    assert_eq!(Object::take(get(&pool)), 0);
    assert!(pool.holders().is_empty(), "it is taken");
    let out = [get(&pool), get(&pool)];
    pool.resize(1);
    assert_eq!(held(&pool), [nameless(1), nameless(2)]);
    drop(out);
    assert!(pool.holders().is_empty(), "one is surplus");
    let outlives = get(&pool);
    pool.close();
    assert_eq!(held(&pool), [nameless(2)]);
    drop(outlives);
    assert!(pool.holders().is_empty(), "the pool has closed");
}

#[test]
fn a_get_that_gives_nothing_holds_nothing() {
    let refuses = Hook::sync_fn(|_: &mut usize, _: &Metrics| Err(HookError::message("no")));
    let pool = tracked(1).post_create(refuses).build().expect("a pool");
    assert!(block_on(pool.get()).is_err() && pool.holders().is_empty());
    let pool = tracked(1).build().expect("a pool");
    let first = get(&pool);
    for is_served in [false, true] {
        let mut waits = Task::new(held_by("nobody", pool.get()));
        assert!(waits.poll().is_pending());
        if is_served {
            pool.resize(2);
        }
        drop(waits);
        assert_eq!(held(&pool), [nameless(0)], "is served: {is_served}");
    }
    let no_wait = Timeouts { wait: Some(Duration::ZERO), ..Timeouts::new() };
    let second = block_on(pool.timeout_get(&no_wait)).expect("an object");
    assert!(block_on(pool.try_get()).is_err());
    drop((first, second));
    assert!(pool.holders().is_empty());
}

/// Gives nobody what it is given.
struct Panics;

impl From<Object<Numbers>> for Panics {
    fn from(_: Object<Numbers>) -> Self {
        panic!("planned")
    }
}

#[test]
fn what_a_wrapper_drops_is_not_held() {
    let builder = PoolBuilder::tracks_holders(Pool::<Numbers, Panics>::builder(Numbers::default()), true);
    let pool = builder.build().expect("a pool");
    assert!(catch_unwind(AssertUnwindSafe(|| drop(block_on(pool.get())))).is_err());
    assert!(pool.holders().is_empty());
    assert_eq!(pool.status().available, 1);
}

type Getting = Pin<Box<dyn Future<Output = Object<Numbers>> + Send>>;

/// Polls a get as it is woken, and keeps what that gives.
#[derive(Default)]
struct AtOnce {
    get: Mutex<Option<Getting>>,
    got: Mutex<Option<Object<Numbers>>>,
}

impl Wake for AtOnce {
    fn wake(self: Arc<Self>) {
        let mut get = self.get.lock().expect("no panic").take().expect("it is woken once");
        let Poll::Ready(object) = get.as_mut().poll(&mut Context::from_waker(Waker::noop())) else {
            panic!("it waits")
        };
        *self.got.lock().expect("no panic") = Some(object);
    }
}

/// An object is out again before the call that gives it back has ended.
#[test]
fn a_hold_ends_before_the_next_one_begins() {
    let pool = tracked(1).build().expect("a pool");
    let (first, at_once, other) = (get_as("first", &pool), Arc::<AtOnce>::default(), pool.clone());
    let mut get: Getting = Box::pin(async move { held_by("second", other.get()).await.expect("an object") });
    assert!(get.as_mut().poll(&mut Context::from_waker(&Waker::from(at_once.clone()))).is_pending());
    *at_once.get.lock().expect("no panic") = Some(get);
    drop(first);
    assert_eq!(held(&pool), [named(0, "second")]);
    drop(at_once.got.lock().expect("no panic").take().expect("an object"));
    assert!(pool.holders().is_empty());
}

#[test]
fn a_name_is_there_only_while_its_future_is_polled() {
    let pool = tracked(9).build().expect("a pool");
    let two_of = |name| {
        held_by(name, async {
            let first = pool.get().await.expect("an object");
            common::pause().await;
            (
                first,
                held_by(String::from("inner"), pool.get()).await.expect("an object"),
                pool.get().await.expect("an object"),
            )
        })
    };
    let (mut one, mut other) = (Task::new(two_of("one")), Task::new(two_of("other")));
    assert!(one.poll().is_pending() && other.poll().is_pending());
    let alone = get(&pool);
    let _all = (one.ready(), other.ready(), alone);
    let before = [named(0, "one"), named(1, "other"), nameless(2)];
    let after = [named(3, "inner"), named(4, "one"), named(5, "inner"), named(6, "other")];
    assert_eq!(held(&pool), [&before[..], &after[..]].concat());
}

#[test]
fn a_panic_leaves_no_name_behind() {
    let pool = tracked(1).build().expect("a pool");
    let mut panics = Task::new(held_by("gone", poll_fn(|_| -> Poll<()> { panic!("planned") })));
    assert!(catch_unwind(AssertUnwindSafe(|| panics.poll())).is_err());
    let mut waits = Task::new(held_by("waits", pending::<()>()));
    assert!(waits.poll().is_pending());
    let _object = get(&pool);
    assert_eq!(held(&pool), [nameless(0)]);
}

#[test]
fn a_name_is_given_on_its_own_thread() {
    let pool = tracked(2).build().expect("a pool");
    let out = block_on(held_by("here", async {
        let there = thread::scope(|threads| threads.spawn(|| get(&pool)).join().expect("an object"));
        (there, pool.get_blocking().expect("an object"))
    }));
    assert_eq!(held(&pool), [nameless(0), named(1, "here")]);
    drop(out);
}

/// Each allocation of a get is refused in turn. One that lacks memory for the list or for its name alone is served.
#[test]
fn what_the_list_has_no_room_for_is_out_all_the_same() {
    let (mut unlisted, mut unnamed) = (0, 0);
    for granted in 0.. {
        let pool = tracked(1).build().expect("a pool");
        let mut get = Task::new(held_by(String::from("job 7"), pool.get()));
        let (polled, was_refused) = refusing(granted, || get.poll());
        match polled {
            Poll::Ready(Ok(object)) => {
                assert_eq!((*object, pool.status().available), (0, 0));
                let listed = pool.holders();
                unlisted += usize::from(listed.is_empty());
                unnamed += usize::from(listed.iter().any(|it| it.name.is_none()));
                drop(object);
                assert_eq!(pool.status().available, 1);
            }
            Poll::Ready(Err(refusal)) => assert!(refusals::has_no_memory(&refusal)),
            Poll::Pending => assert!(was_refused, "it waits"),
        }
        assert!(pool.holders().is_empty());
        if !was_refused {
            break;
        }
    }
    assert_eq!((unlisted, unnamed), (1, 1), "the list takes memory once, and a name too");
}

/// Says how many are held as it is woken.
struct Looks(Pool<Numbers>, Mutex<Option<usize>>);

impl Wake for Looks {
    fn wake(self: Arc<Self>) {
        *self.1.lock().expect("no panic") = Some(self.0.holders().len());
    }
}

#[test]
fn what_is_taken_is_not_held_once_its_place_is_free() {
    let pool = tracked(1).build().expect("a pool");
    let (first, looks) = (get(&pool), Arc::new(Looks(pool.clone(), Mutex::default())));
    let mut waits = std::pin::pin!(pool.get());
    assert!(waits.as_mut().poll(&mut Context::from_waker(&Waker::from(looks.clone()))).is_pending());
    assert_eq!(Object::take(first), 0);
    assert_eq!(*looks.1.lock().expect("no panic"), Some(0));
}

/// Each listed one is out, so there are no more than the limit at any time.
#[test]
fn no_more_are_listed_than_may_be_out() {
    let pool = tracked(3).build().expect("a pool");
    thread::scope(|threads| {
        let works = || (0..500).for_each(|_| _ = Object::take(pool.get_blocking().expect("an object")));
        let all = [(); 5].map(|()| threads.spawn(works));
        while !all.iter().all(|it| it.is_finished()) {
            let count = pool.holders().len();
            assert!(count <= 3, "{count} are listed");
        }
    });
    assert!(pool.holders().is_empty());
}
