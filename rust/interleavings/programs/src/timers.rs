//! Timers: those that a thread of the program sets off, the crate's own thread, and what blocks.
use crate::managed::{use_one, waits_no_longer};
use crate::pools::{HAND, Line, Managed, ONE, Sees, Setup, line, served, shared};
use deadpool::managed::DrainError;
use deadpool::{Runtime, Sleep, SpawnBlockingError, Timers};
use scheduler::{Job, Program, block_on, holds_a_lock, passes, poll_with_dead_waker, token_waker};
use std::pin::Pin;
use std::sync::{Arc, Mutex};
use std::task::{Context, Poll, Wake, Waker};
use std::time::Duration;

const SECOND: Duration = Duration::from_secs(1);

/// Timers that a thread of the program sets off, once.
#[derive(Default)]
pub struct Clock {
    has_rung: bool,
    waker: Option<Waker>,
}

pub static CLOCK: Mutex<Clock> = Mutex::new(Clock { has_rung: false, waker: None });
const CLOCK_OBJECT: usize = 1;

pub struct Hand;

struct Rings;

impl Future for Rings {
    type Output = ();

    fn poll(self: Pin<&mut Self>, cx: &mut Context<'_>) -> Poll<()> {
        scheduler::point_on(CLOCK_OBJECT);
        let mut clock = CLOCK.lock().expect("nobody panics");
        if std::mem::take(&mut clock.has_rung) {
            return Poll::Ready(());
        }
        clock.waker = Some(cx.waker().clone());
        Poll::Pending
    }
}

impl Timers for Hand {
    fn sleep(&self, _: Duration) -> Sleep {
        assert!(!holds_a_lock(), "a timer is asked under the lock");
        Box::pin(Rings)
    }
}

pub fn rings() {
    scheduler::point_on(CLOCK_OBJECT);
    let waker = {
        let mut clock = CLOCK.lock().expect("nobody panics");
        clock.has_rung = true;
        clock.waker.take()
    };
    waker.into_iter().for_each(Waker::wake);
}

const THREAD: Option<Runtime> = Some(Runtime::Thread);

/// Threads without a pool, and those that serve.
fn alone(services: usize, threads: &[fn()]) -> Program {
    let threads = threads.iter().map(|it| Box::new(*it) as Job).collect();
    Program { threads, services, finale: Box::new(|| ()) }
}

fn sleeps(seconds: u32) {
    block_on(Runtime::Thread.sleep(SECOND * seconds));
}

/// Wakes nobody. What keeps it counts.
struct Kept;

impl Wake for Kept {
    fn wake(self: Arc<Self>) {}
}

/// A sleep that is dropped, before its time or after it, whose waker nobody keeps then.
fn a_sleep_is_dropped() -> Program {
    let kept = Arc::new(Kept);
    let waker = Waker::from(kept.clone());
    let sleeps_not = move || {
        let mut sleep = Runtime::Thread.sleep(SECOND);
        let polled = sleep.as_mut().poll(&mut Context::from_waker(&waker));
        drop((polled, sleep, waker));
    };
    let finale = move || assert_eq!(Arc::strong_count(&kept), 1, "the waker of a sleep that is dropped is kept");
    Program { threads: vec![Box::new(sleeps_not), Box::new(|| passes(SECOND))], services: 1, finale: Box::new(finale) }
}

fn holds_up_a_drain(pool: &Managed) {
    let object = block_on(pool.get());
    scheduler::park_on(50);
    drop(object);
}

fn drains_no_longer(pool: &Managed) {
    let ended = block_on(pool.drain_for(SECOND));
    if let Err(DrainError::Timeout(left)) = ended {
        assert!(left.size > 0, "a drain that is late has something left");
    }
    token_waker(50).wake();
}

fn blocks() -> usize {
    assert!(!holds_a_lock(), "what blocks is called under the lock");
    7
}

fn waits_for_what_blocks() {
    assert_eq!(block_on(Runtime::Thread.spawn_blocking(blocks)).ok(), Some(7));
}

fn waits_by_another_waker() {
    let mut waits = Box::pin(Runtime::Thread.spawn_blocking(blocks));
    if poll_with_dead_waker(waits.as_mut()).is_pending() {
        assert_eq!(block_on(waits).ok(), Some(7));
    }
}

fn waits_not() {
    let mut waits = Box::pin(Runtime::Thread.spawn_blocking(blocks));
    let _ = poll_with_dead_waker(waits.as_mut());
}

fn waits_for_a_panic() {
    let ended = block_on(Runtime::Thread.spawn_blocking(|| panic!("planned")));
    assert!(matches!(ended.map(|()| ()), Err(SpawnBlockingError::Panic(_))));
}

pub const PROGRAMS: &[Line] = &[
    line("a timeout beside a get", Sees::Steps, || {
        shared(Setup { runtime: HAND, ..ONE }, &[use_one, waits_no_longer, |_| rings()])
    }),
    line("a timeout beside two gets", Sees::Steps, || {
        shared(Setup { runtime: HAND, ..ONE }, &[use_one, waits_no_longer, crate::managed::must, |_| rings()])
    }),
    line("a timeout ends a wait that nobody serves", Sees::Steps, || {
        shared(Setup { max: 0, runtime: HAND, ..ONE }, &[waits_no_longer, |_| rings()])
    }),
    line("the crate's thread: a timeout", Sees::Steps, || {
        served(Setup { max: 0, runtime: THREAD, ..ONE }, 1, &[waits_no_longer])
    }),
    line("the crate's thread: a timeout beside a get", Sees::Steps, || {
        served(Setup { runtime: THREAD, ..ONE }, 1, &[use_one, waits_no_longer, |_| passes(SECOND)])
    }),
    line("the crate's thread: two sleeps", Sees::Steps, || alone(1, &[|| sleeps(2), || sleeps(1)])),
    line("the crate's thread: a sleep, as time passes", Sees::Steps, || alone(1, &[|| sleeps(1), || passes(SECOND)])),
    line("the crate's thread: a sleep is dropped", Sees::Steps, a_sleep_is_dropped),
    line("the crate's thread: a drain has no time left", Sees::Steps, || {
        served(Setup { runtime: THREAD, ..ONE }, 1, &[holds_up_a_drain, drains_no_longer])
    }),
    line("what blocks is waited for", Sees::Steps, || alone(1, &[waits_for_what_blocks])),
    line("what blocks twice is waited for", Sees::Steps, || alone(2, &[waits_for_what_blocks, waits_for_what_blocks])),
    line("what blocks, the waker is another", Sees::Steps, || alone(1, &[waits_by_another_waker])),
    line("what blocks is not waited for", Sees::Steps, || alone(1, &[waits_not])),
    line("what blocks panics", Sees::Steps, || alone(1, &[waits_for_a_panic])),
];
