//! What the programs share: values whose drops are noted, managers, and what a pool is at the end of an execution.
use crate::timers::{CLOCK, Clock, Hand};
use deadpool::managed::{Manager, Metrics, Pool, RecycleError, RecycleResult, Tally, Timeouts};
use deadpool::{Runtime, unmanaged};
use scheduler::{Job, Program, block_on, holds_a_lock};
use std::pin::Pin;
use std::sync::atomic::{AtomicBool, AtomicUsize, Ordering::SeqCst};
use std::sync::{Arc, Mutex};
use std::task::{Context, Poll};
use std::time::Duration;

/// A program: its name, what is a point in it beside locks, atomics, waits and wakes, and what makes it.
pub struct Line {
    pub name: &'static str,
    pub sees: Sees,
    pub make: fn() -> Program,
}

#[derive(Clone, Copy, PartialEq)]
pub enum Sees {
    Steps,
    /// Drops of counts, and upgrades.
    Counts,
    /// Unlocks, so that a lock is found taken.
    Contention,
}

pub const fn line(name: &'static str, sees: Sees, make: fn() -> Program) -> Line {
    Line { name, sees, make }
}

/// The drop of a value is a point, so that others may go on before it: these are the numbers from this one on.
const VALUES: usize = 100;

/// What has become of the values of an execution.
#[derive(Default)]
pub struct Log {
    made: AtomicUsize,
    dropped: Mutex<Vec<usize>>,
}

impl Log {
    pub fn made(&self) -> usize {
        self.made.load(SeqCst)
    }

    pub fn dropped(&self) -> usize {
        self.dropped.lock().expect("no drop panics").len()
    }

    pub fn all_are_dropped(&self) {
        (0..self.made()).for_each(|number| scheduler::point_on(VALUES + number));
        assert_eq!(self.made(), self.dropped(), "a value is left");
    }
}

pub struct Value {
    log: Arc<Log>,
    number: usize,
}

impl Value {
    pub fn new(log: &Arc<Log>) -> Self {
        Value { log: log.clone(), number: log.made.fetch_add(1, SeqCst) }
    }
}

impl Drop for Value {
    fn drop(&mut self) {
        assert!(!holds_a_lock(), "a value is dropped under the lock");
        scheduler::point_on(VALUES + self.number);
        let mut dropped = self.log.dropped.lock().expect("no drop panics");
        assert!(!dropped.contains(&self.number), "a value is dropped twice");
        dropped.push(self.number);
    }
}

/// How a manager answers.
#[derive(Clone, Copy, PartialEq)]
pub enum Way {
    Now,
    /// Pending once.
    Later,
    /// It refuses the first time.
    Refuses,
}

pub struct Maker {
    pub log: Arc<Log>,
    create: Way,
    recycle: Way,
    has_refused: AtomicBool,
}

struct Again(bool);

impl Future for Again {
    type Output = ();

    fn poll(mut self: Pin<&mut Self>, cx: &mut Context<'_>) -> Poll<()> {
        if std::mem::replace(&mut self.0, true) {
            return Poll::Ready(());
        }
        cx.waker().wake_by_ref();
        Poll::Pending
    }
}

impl Maker {
    async fn goes(&self, way: Way) -> bool {
        assert!(!holds_a_lock(), "a manager is called under the lock");
        if way == Way::Later {
            Again(false).await;
        }
        way != Way::Refuses || self.has_refused.swap(true, SeqCst)
    }
}

impl Manager for Maker {
    type Type = Value;
    type Error = ();

    async fn create(&self) -> Result<Value, ()> {
        if self.goes(self.create).await { Ok(Value::new(&self.log)) } else { Err(()) }
    }

    async fn recycle(&self, _: &mut Value, _: &Metrics) -> RecycleResult<()> {
        if self.goes(self.recycle).await { Ok(()) } else { Err(RecycleError::Backend(())) }
    }

    fn detach(&self, _: &mut Value) {
        assert!(!holds_a_lock(), "a detach is called under the lock");
    }
}

pub type Managed = Pool<Maker>;
pub type Letters = unmanaged::Pool<Value>;

/// How a managed pool is set up, and how many objects are idle in it.
pub struct Setup {
    pub max: usize,
    pub idle: usize,
    pub create: Way,
    pub recycle: Way,
    pub journal: usize,
    pub runtime: Option<Runtime>,
    pub max_waiting: Option<usize>,
}

pub const ONE: Setup =
    Setup { max: 1, idle: 0, create: Way::Now, recycle: Way::Now, journal: 0, runtime: None, max_waiting: None };
pub const HAND: Option<Runtime> = Some(Runtime::Timers(&Hand));

pub fn pool(setup: &Setup) -> (Managed, Arc<Log>) {
    *CLOCK.lock().expect("nobody panics") = Clock::default();
    let log = Arc::<Log>::default();
    let Setup { create, recycle, .. } = *setup;
    let maker = Maker { log: log.clone(), create, recycle, has_refused: AtomicBool::new(false) };
    let mut builder = Pool::builder(maker).max_size(setup.max).journal(setup.journal).max_waiting(setup.max_waiting);
    if let Some(runtime) = setup.runtime {
        builder = builder.runtime(runtime);
    }
    let pool: Managed = builder.build().expect("a pool");
    let held: Vec<_> = (0..setup.idle).map(|_| block_on(pool.get()).ok()).collect();
    drop(held);
    (pool, log)
}

/// How executions have ended, each told once: two ways to choose executions see the same ends.
pub static ENDS: Mutex<Vec<String>> = Mutex::new(Vec::new());

pub fn ends_as(text: String) {
    let mut ends = ENDS.lock().expect("nobody panics");
    if !ends.contains(&text) {
        ends.push(text);
    }
}

/// The tally of a managed pool and its status, of one moment, add up.
pub fn balances(pool: &Managed) -> Tally {
    let report = pool.tally();
    let tally = report.tally;
    let gone = tally.refused + tally.cancelled + tally.surplus + tally.not_retained + tally.taken + tally.dropped;
    assert_eq!(tally.created, report.status.size as u64 + gone, "the tally does not add up");
    tally
}

/// The pool is whole: nobody waits, nothing is out, the tally adds up, what has left was dropped, and each place can be
/// had.
pub fn is_whole(pool: &Managed, log: &Log) {
    let (status, tally) = (pool.status(), balances(pool));
    ends_as(format!("{status} {tally:?}"));
    assert_eq!(status.waiting, 0, "somebody waits: {status}");
    assert_eq!(status.size, status.available, "something is out: {status}");
    assert!(status.size <= status.max_size, "too many: {status}");
    assert_eq!(tally.created as usize, log.made(), "what was made is not what was created");
    assert_eq!(log.made() - log.dropped(), status.size, "a value is lost");
    pool.manager().has_refused.store(true, SeqCst);
    if !pool.is_closed() && status.max_size < 5 {
        let timeouts = Timeouts { wait: Some(Duration::ZERO), ..Timeouts::new() };
        let all: Vec<_> = (0..status.max_size).map(|_| block_on(pool.timeout_get(&timeouts))).collect();
        assert!(all.iter().all(|it| it.is_ok()), "a place is lost");
        assert!(block_on(pool.timeout_get(&timeouts)).is_err(), "there is a place too many");
    }
}

/// Threads that share a pool, some that serve, and a finale in which it is whole. (That has a handle too, so the drop
/// of another one is no point.)
pub fn served(setup: Setup, services: usize, threads: &[fn(&Managed)]) -> Program {
    let (pool, log) = pool(&setup);
    let threads = threads.iter().map(|it| {
        let (pool, it) = (pool.clone(), *it);
        Box::new(move || it(&pool)) as Job
    });
    let threads = threads.collect();
    let finale = move || {
        is_whole(&pool, &log);
        pool.close();
        log.all_are_dropped();
    };
    Program { threads, services, finale: Box::new(finale) }
}

pub fn shared(setup: Setup, threads: &[fn(&Managed)]) -> Program {
    served(setup, 0, threads)
}
