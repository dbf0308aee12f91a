//! How one thread hands over to another: each waits until it is its turn.
use crate::execution::Execution;
use crate::operation::Operation;
use crate::search::Job;
use std::any::Any;
use std::cell::Cell;
use std::panic::{AssertUnwindSafe, catch_unwind, resume_unwind};
use std::sync::atomic::{AtomicBool, AtomicU32, AtomicUsize, Ordering::SeqCst};
use std::sync::mpsc::{Sender, channel};
use std::sync::{Mutex, MutexGuard, PoisonError};
use std::thread::{self, Thread};

static EXECUTION: Mutex<Option<Execution>> = Mutex::new(None);
/// Whose turn it is.
static TURN: AtomicUsize = AtomicUsize::new(usize::MAX);
/// How many searches have begun. Threads that a failure has left blocked are of an earlier one.
static SEARCHES: AtomicUsize = AtomicUsize::new(0);
/// How many executions have begun.
static EXECUTIONS: AtomicU32 = AtomicU32::new(0);
static IS_OVER: AtomicBool = AtomicBool::new(false);
/// Whether the threads that serve are to end, and how many have.
static STOPS: AtomicBool = AtomicBool::new(false);
static STOPPED: AtomicUsize = AtomicUsize::new(0);
static THREADS: Mutex<Vec<Thread>> = Mutex::new(Vec::new());
static DRIVER: Mutex<Option<Thread>> = Mutex::new(None);

thread_local! { static ME: Cell<Option<usize>> = const { Cell::new(None) }; }

/// The number of this thread in its execution, if it is in one.
pub(crate) fn me() -> Option<usize> {
    ME.try_with(Cell::get).ok().flatten()
}

fn locked<T>(of: &Mutex<T>) -> MutexGuard<'_, T> {
    of.lock().unwrap_or_else(PoisonError::into_inner)
}

/// Asks the execution something, if there is one.
pub(crate) fn with<R>(call: impl FnOnce(&mut Execution) -> R) -> Option<R> {
    locked(&EXECUTION).as_mut().map(call)
}

/// The number of this execution, from 1 on.
pub(crate) fn execution() -> u32 {
    EXECUTIONS.load(SeqCst)
}

/// The turn of a thread in this search.
fn turn_of(thread: usize) -> usize {
    SEARCHES.load(SeqCst) * 64 + thread
}

/// This is what a thread that serves unwinds with once it is to end.
struct Stopped;

/// Waits for a turn, or until the threads that serve are to end.
fn wait_for(turn: usize) {
    while TURN.load(SeqCst) != turn {
        if STOPS.load(SeqCst) {
            resume_unwind(Box::new(Stopped));
        }
        thread::park();
    }
}

fn hand_over(next: Option<usize>) {
    match next {
        Some(next) => {
            TURN.store(turn_of(next), SeqCst);
            let thread = locked(&THREADS)[next].clone();
            thread.unpark();
        }
        None => {
            TURN.store(usize::MAX, SeqCst);
            IS_OVER.store(true, SeqCst);
            locked(&DRIVER).iter().for_each(Thread::unpark);
        }
    }
}

impl Execution {
    /// Who goes on behind this thread: at first each thread, up to its first operation.
    fn next_behind(&mut self, me: usize) -> Option<usize> {
        self.starting = self.starting.map(|_| me + 1).filter(|next| *next < self.threads.len());
        self.starting.or_else(|| self.decide())
    }

    fn point(&mut self, me: usize, operation: Operation) -> Option<usize> {
        self.threads[me].pending = Some(operation);
        // (an unlock that nobody can see is no choice)
        if matches!(operation, Operation::Unlock(_)) && !self.settings.sees_contention {
            self.perform(me);
            return Some(me);
        }
        self.next_behind(me)
    }
}

/// Says what this thread is about to do, and waits until it has done it. The result is that of a try.
pub(crate) fn point(operation: Operation) -> bool {
    let Some(me) = me() else { return true };
    if STOPS.load(SeqCst) {
        // (what is dropped meanwhile waits for nobody)
        return thread::panicking() || resume_unwind(Box::new(Stopped));
    }
    let next = with(|it| it.point(me, operation)).flatten();
    if next != Some(me) {
        let turn = turn_of(me);
        hand_over(next);
        wait_for(turn);
    }
    with(|it| it.threads[me].reply).unwrap_or(true)
}

/// A point of a program's own, on an object of this number.
pub fn point_on(object: usize) {
    point(Operation::Own(object));
}

/// Whether this thread holds a lock. What a user wrote is called without one.
pub fn holds_a_lock() -> bool {
    me().is_some_and(|me| with(|it| it.held.values().any(|holder| *holder == me)).unwrap_or_default())
}

pub(crate) fn text_of(panic: &(dyn Any + Send)) -> String {
    let text = panic.downcast_ref::<String>().cloned();
    text.or_else(|| panic.downcast_ref::<&str>().map(|it| (*it).into())).unwrap_or_default()
}

/// This thread has ended.
fn end(me: usize, ended: thread::Result<()>) {
    let next = with(|it| {
        if let Err(panic) = ended {
            it.failure.get_or_insert(format!("thread {me} panicked: {}", text_of(&*panic)));
        }
        it.threads[me].has_ended = true;
        it.threads[me].pending = None;
        it.next_behind(me)
    });
    hand_over(next.flatten());
}

/// Waits for jobs, and does them.
fn serve(me: usize) {
    loop {
        point(Operation::Park(service_token(me)));
        let job = with(|it| it.threads[me].job.take()).flatten();
        // (it panics as a thread of its own would)
        if let Err(panic) = catch_unwind(AssertUnwindSafe(|| job.into_iter().for_each(|job| job()))) {
            if panic.is::<Stopped>() {
                resume_unwind(panic);
            }
        }
        with(|it| it.threads[me].has_job = false);
    }
}

/// What a thread that serves waits for. Tokens of threads that wait themselves are below.
pub(crate) fn service_token(thread: usize) -> usize {
    1000 + thread
}

/// Threads that stay from one execution to the next.
#[derive(Default)]
pub(crate) struct Workers(Vec<Sender<Job>>);

impl Workers {
    /// The threads of a search, which begins.
    pub(crate) fn begin() -> Self {
        SEARCHES.fetch_add(1, SeqCst);
        *locked(&DRIVER) = Some(thread::current());
        locked(&THREADS).clear();
        Workers::default()
    }

    fn work(at: usize, turn: usize, job: Job) {
        ME.set(Some(at));
        let ended = catch_unwind(AssertUnwindSafe(|| {
            wait_for(turn);
            job();
        }));
        ME.set(None);
        if STOPS.load(SeqCst) {
            STOPPED.fetch_add(1, SeqCst);
            locked(&DRIVER).iter().for_each(Thread::unpark);
            return;
        }
        end(at, ended);
    }

    fn have(&mut self, count: usize) {
        while self.0.len() < count {
            let at = self.0.len();
            let (sender, jobs) = channel::<Job>();
            let turn = turn_of(at);
            let worker = thread::spawn(move || jobs.into_iter().for_each(|job| Workers::work(at, turn, job)));
            locked(&THREADS).push(worker.thread().clone());
            self.0.push(sender);
        }
    }

    /// Runs an execution, of these threads and some that serve, and gives what has become of it.
    pub(crate) fn run(&mut self, execution: Execution, mut threads: Vec<Job>, services: usize) -> Execution {
        let count = threads.len();
        threads.extend((count..count + services).map(|at| Box::new(move || serve(at)) as Job));
        self.have(threads.len());
        IS_OVER.store(false, SeqCst);
        *locked(&EXECUTION) = Some(execution);
        self.0.iter().zip(threads).for_each(|(worker, job)| worker.send(job).expect("a worker stays"));
        hand_over(Some(0));
        while !IS_OVER.load(SeqCst) {
            thread::park();
        }
        let execution = locked(&EXECUTION).take().expect("an execution has its state");
        if execution.failure.is_none() {
            stop(&execution, services);
        }
        execution
    }
}

/// Has the threads end that serve.
fn stop(execution: &Execution, services: usize) {
    STOPPED.store(0, SeqCst);
    STOPS.store(true, SeqCst);
    let all = locked(&THREADS).clone();
    all[execution.threads.len() - services..execution.threads.len()].iter().for_each(Thread::unpark);
    while STOPPED.load(SeqCst) < services {
        thread::park();
    }
    STOPS.store(false, SeqCst);
}

/// An execution begins.
pub(crate) fn begin_execution() {
    EXECUTIONS.fetch_add(1, SeqCst);
}
