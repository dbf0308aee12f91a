//! How many idle objects a get may take in one poll: as many as were idle at its first taking.
mod common;

use common::{Task, counts, pause};
use deadpool::managed::{Manager, Metrics, Object, Pool, RecycleError, RecycleResult};
use std::collections::VecDeque;
use std::sync::Mutex;
use std::sync::atomic::{AtomicUsize, Ordering};
use std::task::Poll;

/// What it does when it is to recycle an object.
enum Answer {
    /// It is pending once, and then refuses.
    PauseAndRefuse,
    Refuse,
    /// It gives back an object that is out, and then refuses.
    GiveBackAndRefuse(Object<Told>),
}

/// Makes numbers, and recycles as it is told to; else it accepts.
#[derive(Default)]
struct Told {
    next: AtomicUsize,
    answers: Mutex<VecDeque<Answer>>,
}

impl Told {
    fn next(&self) -> Option<Answer> {
        self.answers.lock().expect("no panic").pop_front()
    }
}

impl Manager for Told {
    type Type = usize;
    type Error = ();

    async fn create(&self) -> Result<usize, ()> {
        Ok(self.next.fetch_add(1, Ordering::SeqCst))
    }

    async fn recycle(&self, _: &mut usize, _: &Metrics) -> RecycleResult<()> {
        let Some(answer) = self.next() else { return Ok(()) };
        match answer {
            Answer::PauseAndRefuse => pause().await,
            Answer::Refuse => (),
            Answer::GiveBackAndRefuse(object) => drop(object),
        }
        Err(RecycleError::Backend(()))
    }
}

fn tell<const N: usize>(pool: &Pool<Told>, answers: [Answer; N]) {
    pool.manager().answers.lock().expect("no panic").extend(answers);
}

/// A pool of three objects, all of which are out.
fn three_out() -> (Pool<Told>, [Object<Told>; 3]) {
    let pool: Pool<Told> = Pool::builder(Told::default()).max_size(3).build().expect("a pool");
    let out = [(); 3].map(|()| Task::new(pool.get()).ready().expect("an object"));
    (pool, out)
}

#[test]
fn each_poll_has_an_allowance_of_its_own() {
    let (pool, [zero, one, two]) = three_out();
    drop((zero, one));
    tell(&pool, [Answer::PauseAndRefuse, Answer::Refuse, Answer::Refuse]);
    let mut get = Task::new(pool.get());
    assert!(get.poll().is_pending());
    drop(two);
    // All three are idle or in hand at this poll, which gives each of them up.
    assert_eq!(*get.ready().expect("an object"), 3);
    assert_eq!(counts(pool.status()), [1, 1, 0]);
}

/// A get that has given up as many as it may, while another one is idle.
fn going(pool: &Pool<Told>, idle: Object<Told>, out: Object<Told>) -> Task<'_, Result<Object<Told>, PoolError>> {
    drop(idle);
    tell(pool, [Answer::GiveBackAndRefuse(out)]);
    let mut get = Task::new(pool.get());
    assert!(get.poll().is_pending());
    assert_eq!(get.woken(), 1);
    get
}

type PoolError = deadpool::managed::PoolError<()>;

#[test]
fn a_get_whose_allowance_is_used_up_asks_for_another_poll() {
    let (pool, [zero, one, two]) = three_out();
    let mut get = going(&pool, zero, one);
    assert_eq!(counts(pool.status()), [2, 0, 0]);
    tell(&pool, [Answer::GiveBackAndRefuse(two)]);
    assert!(get.poll().is_pending());
    assert_eq!(get.woken(), 2);
    let Poll::Ready(Ok(object)) = get.poll() else { panic!("the get is served") };
    assert_eq!((*object, counts(pool.status())), (2, [1, 0, 0]));
}

#[test]
fn a_get_that_is_dropped_while_it_goes_on_leaves_its_place() {
    let (pool, [zero, one, two]) = three_out();
    let get = going(&pool, zero, one);
    let mut others: Vec<_> = (0..2).map(|_| Task::new(pool.get())).collect();
    // One place is left, as one object is out and the first get has a place.
    let first = match others[0].poll() {
        Poll::Ready(Ok(object)) => object,
        other => panic!("{other:?}"),
    };
    assert_eq!(*first, 1);
    assert!(others[1].poll().is_pending());
    drop(get);
    assert_eq!(others[1].woken(), 1);
    let Poll::Ready(Ok(second)) = others[1].poll() else { panic!("the place is free") };
    assert_eq!((*second, counts(pool.status())), (3, [3, 0, 0]));
    drop((first, second, two));
    assert_eq!(counts(pool.status()), [3, 3, 0]);
}

#[test]
fn a_get_that_goes_on_goes_on_after_a_close() {
    let (pool, [zero, one, two]) = three_out();
    let get = going(&pool, zero, one);
    pool.close();
    let object = get.ready().expect("an object");
    assert_eq!((*object, counts(pool.status())), (3, [2, 0, 0]));
    drop((object, two));
    assert_eq!(counts(pool.status()), [0, 0, 0]);
}
