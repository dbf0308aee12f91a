//! A step that makes many due has them woken some at a time, with the lock given back, and each once.
use super::Pool;
use crate::managed::{Limits, Manager, Metrics, Object, RecycleResult, WeakPool};
use crate::shared::State;
use crate::unmanaged;
use crate::wakers::Wakers;
use std::convert::Infallible;
use std::future::Future;
use std::panic::{AssertUnwindSafe, catch_unwind};
use std::pin::{Pin, pin};
use std::sync::{Arc, Mutex};
use std::task::{Context, Poll, Wake, Waker};
use std::time::Duration;

/// More than one has room for in a few sections, and no multiple of what one has room for.
const CROWD: usize = 3_001;
/// The most that are woken at a time.
const MOST: usize = 32;

struct Units;

impl Manager for Units {
    type Type = ();
    type Error = Infallible;

    async fn create(&self) -> Result<(), Infallible> {
        Ok(())
    }

    async fn recycle(&self, (): &mut (), _: &Metrics) -> RecycleResult<Infallible> {
        Ok(())
    }
}

fn pool(max_size: usize) -> Pool<Units> {
    Pool::builder(Units).max_size(max_size).build().expect("a pool")
}

fn now<F: Future>(future: F) -> F::Output {
    match pin!(future).poll(&mut Context::from_waker(Waker::noop())) {
        Poll::Ready(output) => output,
        Poll::Pending => panic!("the future is pending"),
    }
}

/// What the wakers of a crowd tell: their numbers, and what each finds.
type Told<T> = Mutex<Vec<(usize, T)>>;

/// One of a crowd. Its call takes the lock.
struct Member<F>(usize, F);

impl<F: Fn(usize) + Send + Sync> Wake for Member<F> {
    fn wake(self: Arc<Self>) {
        (self.1)(self.0);
    }
}

type Futures<'a, T> = Vec<Pin<Box<dyn Future<Output = T> + 'a>>>;

/// So many futures that are pending. When they are woken they make a call, with their number.
fn begun<'a, T, F>(
    futures: impl Iterator<Item = F>,
    call: impl Fn(usize) + Clone + Send + Sync + 'static,
) -> Futures<'a, T>
where
    F: Future<Output = T> + 'a,
{
    let begin = |(number, future): (usize, F)| {
        let (mut future, waker) = (Box::pin(future), Waker::from(Arc::new(Member(number, call.clone()))));
        assert!(future.as_mut().poll(&mut Context::from_waker(&waker)).is_pending());
        future as Pin<Box<dyn Future<Output = T> + 'a>>
    };
    futures.enumerate().map(begin).collect()
}

type Listed = fn(&mut State<super::Core<Units>>) -> &mut Wakers;

/// A call that tells of one how many are left in a list.
fn tells_left(told: &Arc<Told<usize>>, pool: WeakPool<Units>, list: Listed) -> impl Fn(usize) + Clone + use<> {
    let told = told.clone();
    move |number| {
        let left = pool.upgrade().map(|pool| pool.shared.look(|state| list(state).count()));
        told.lock().expect("nobody panics").push((number, left.expect("a handle is left")));
    }
}

/// Each was woken once, in few sections of the lock, and nothing is left of their list but some room.
fn were_woken_in_few_sections(told: &Told<usize>, pool: &Pool<Units>, list: Listed) {
    let told = told.lock().expect("nobody panics");
    let mut left: Vec<_> = told.iter().map(|(_, left)| *left).collect();
    left.dedup();
    let taken = std::iter::once(&CROWD).chain(&left).zip(&left).map(|(before, after)| before - after);
    assert_eq!((told.len(), left.last()), (CROWD, Some(&0)));
    assert!(taken.max() <= Some(MOST), "too many are woken at a time");
    assert!(left.len() <= CROWD / MOST + 2, "the lock is taken {} times", left.len());
    let room = pool.shared.look(|state| list(state).room());
    assert!(room <= 4 * MOST, "there is room for {room}");
}

#[test]
fn a_close_and_a_resize_wake_a_crowd_in_turn() {
    let steps: [fn(&Pool<Units>); 2] = [Pool::close, |pool| pool.resize(CROWD)];
    for step in steps {
        let (pool, told) = (pool(0), Arc::<Told<usize>>::default());
        let list: Listed = |state| &mut state.gets;
        let gets = begun((0..CROWD).map(|_| pool.get()), tells_left(&told, pool.weak(), list));
        step(&pool);
        were_woken_in_few_sections(&told, &pool, list);
        assert!(told.lock().expect("nobody panics").iter().map(|(number, _)| *number).eq(0..CROWD), "in turn");
        gets.into_iter().for_each(|get| _ = now(get));
    }
}

#[test]
fn a_crowd_of_drains_is_told_of_the_last_object() {
    let (pool, told) = (pool(1), Arc::<Told<usize>>::default());
    let held = now(pool.get()).expect("an object");
    let list: Listed = |state| &mut state.drains;
    let drains = begun((0..CROWD).map(|_| pool.drain()), tells_left(&told, pool.weak(), list));
    drop(held);
    were_woken_in_few_sections(&told, &pool, list);
    drains.into_iter().for_each(|drain| _ = now(drain));
}

#[test]
fn a_crowd_of_keepers_is_told_of_a_close() {
    let (pool, told) = (pool(1), Arc::<Told<usize>>::default());
    let list: Listed = |state| &mut state.keepers;
    let keeper = || pool.keeper(Limits::none(), Duration::from_secs(3600));
    let keepers = begun((0..CROWD).map(|_| keeper()), tells_left(&told, pool.weak(), list));
    pool.close();
    were_woken_in_few_sections(&told, &pool, list);
    keepers.into_iter().for_each(now);
}

/// What makes a crowd due, of whose wakers two panic.
fn all_are_called<T, F: Future<Output = T>>(crowd: impl Iterator<Item = F>, step: impl FnOnce()) {
    const PANICS: [usize; 2] = [1_000, 2_000];
    let told = Arc::<Told<()>>::default();
    let called = told.clone();
    let crowd = begun(crowd, move |number| {
        called.lock().expect("nobody panics").push((number, ()));
        assert!(!PANICS.contains(&number), "{number} has gone");
    });
    let panicked = catch_unwind(AssertUnwindSafe(step)).expect_err("the panic goes on");
    assert_eq!(panicked.downcast_ref::<String>(), Some(&format!("{} has gone", PANICS[0])));
    assert!(told.lock().expect("nobody panics").iter().map(|(number, ())| *number).eq(0..crowd.len()), "each once");
}

#[test]
fn wakers_that_panic_amid_a_crowd_keep_no_other_from_being_called() {
    let managed = pool(0);
    all_are_called((0..CROWD).map(|_| managed.get()), || managed.close());
    let managed = pool(0);
    all_are_called((0..CROWD).map(|_| managed.get()), || managed.resize(CROWD));
    let letters = unmanaged::Pool::<u8>::new(1);
    all_are_called((0..CROWD).map(|_| letters.get()), || letters.close());
    let letters = unmanaged::Pool::from([1]);
    all_are_called((0..CROWD).map(|_| letters.add(2)), || letters.close());
}

/// A waker makes a step of its own while others of its crowd are still to be woken.
#[test]
fn a_step_of_a_waker_wakes_the_next_ones_and_each_is_woken_once() {
    let (pool, told) = (pool(0), Arc::<Told<bool>>::default());
    let (weak, called) = (pool.weak(), told.clone());
    let gets = begun((0..CROWD).map(|_| pool.get()), move |number| {
        let pool = weak.upgrade().expect("a handle is left");
        let is_served = number % 100 != 7 || now(pool.get()).map(Object::take).is_ok();
        called.lock().expect("nobody panics").push((number, is_served));
    });
    pool.close();
    let mut told = std::mem::take(&mut *told.lock().expect("nobody panics"));
    told.sort();
    assert!(told.iter().map(|it| it.0).eq(0..CROWD), "each once");
    assert!(told.iter().all(|(number, is_served)| *is_served == (number % 100 != 7)), "the pool has closed");
    gets.into_iter().for_each(|get| assert!(now(get).is_err()));
}

#[test]
fn the_room_of_a_crowd_that_gives_up_goes_with_it() {
    let pool = pool(0);
    drop(begun((0..CROWD).map(|_| pool.get()), |_| ()));
    let counts = || pool.shared.look(|state| [state.gets.count(), state.gets.room()]);
    let [count, room] = counts();
    assert!(count == 0 && room <= 4 * MOST, "there is room for {room}");
    // The next that waits stands where the last of the crowd stood.
    let _get = begun([pool.get()].into_iter(), |_| ());
    let [count, room] = counts();
    assert!(count == 1 && room <= 4 * MOST, "there is room for {room}");
}
