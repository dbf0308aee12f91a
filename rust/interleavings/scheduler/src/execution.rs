//! One execution: what its threads are about to do, who goes on, and what an operation changes.
use crate::clock::Clock;
use crate::memory::Cells;
use crate::operation::Operation;
use crate::path::{Mode, Node, Threads};
use crate::search::Job;
use std::collections::HashMap;
use std::time::Duration;

/// What is looked at, and how much of it.
#[derive(Clone, Copy, Debug)]
pub struct Settings {
    pub mode: Mode,
    /// At most so many executions, and so long.
    pub most: u64,
    pub within: Duration,
    /// Whether drops of counts and upgrades are points. They need not be where somebody keeps a count to the end.
    pub sees_counts: bool,
    /// Whether the unlock is a point, so that others find the lock taken.
    pub sees_contention: bool,
}

impl Default for Settings {
    fn default() -> Self {
        Settings { mode: Mode::All, most: 2_000_000, within: Duration::MAX, sees_counts: false, sees_contention: false }
    }
}

/// A thread, as the scheduler knows it.
#[derive(Default)]
pub(crate) struct Thread {
    /// What it is about to do, unless it runs or has ended.
    pub(crate) pending: Option<Operation>,
    pub(crate) has_ended: bool,
    /// How its last operation ended.
    pub(crate) reply: bool,
    /// What it knows to come before, and how many operations it has made.
    pub(crate) known: Clock,
    pub(crate) count: u32,
    /// It waits for jobs that others start. Nobody waits for its end.
    pub(crate) is_service: bool,
    pub(crate) job: Option<Job>,
    pub(crate) has_job: bool,
}

/// A wait for a condition: which one, until when, and whether it was notified.
pub(crate) struct Wait {
    condition: usize,
    until: u64,
    is_notified: bool,
}

#[derive(Default)]
pub(crate) struct Execution {
    pub(crate) settings: Settings,
    pub(crate) threads: Vec<Thread>,
    /// The one that runs up to its first operation, while not all have.
    pub(crate) starting: Option<usize>,
    pub(crate) path: Vec<Node>,
    /// How many of the choices were made.
    pub(crate) depth: usize,
    /// It goes on without choices: another one was the same.
    pub(crate) is_cut: bool,
    pub(crate) held: HashMap<usize, usize>,
    /// What was known at the last unlock of a lock, drop of a count, or point of a program's own.
    clocks: HashMap<Place, Clock>,
    tokens: HashMap<usize, Clock>,
    waits: HashMap<usize, Wait>,
    pub(crate) cells: HashMap<usize, Cells>,
    /// How many objects have a number.
    pub(crate) objects: usize,
    pub(crate) now: u64,
    pub(crate) trace: Vec<(usize, Operation)>,
    pub(crate) failure: Option<String>,
    last: usize,
    pub(crate) random: Random,
}

/// What a clock is kept of: a lock, a count, or an object of a program's own.
#[derive(Clone, Copy, PartialEq, Eq, Hash)]
enum Place {
    Lock(usize),
    Count(usize),
    Own(usize),
}

/// What random choices go by.
#[derive(Default)]
pub(crate) struct Random {
    seed: u64,
    priorities: Vec<u64>,
    /// At which points the one that ran goes behind all others.
    changes: Vec<usize>,
}

impl Random {
    pub(crate) fn new(seed: u64) -> Self {
        Random { seed: seed | 1, ..Random::default() }
    }

    pub(crate) fn next(&mut self) -> u64 {
        self.seed ^= self.seed << 13;
        self.seed ^= self.seed >> 7;
        self.seed ^= self.seed << 17;
        self.seed
    }

    /// Priorities for so many threads, and so many changes below a length.
    pub(crate) fn begin(&mut self, threads: usize, changes: usize, length: usize) {
        self.priorities = (0..threads).map(|_| (self.next() >> 33) + 1000).collect();
        self.changes = (0..changes).map(|_| (self.next() % length.max(20) as u64) as usize).collect();
    }

    fn choose(&mut self, enabled: Threads, depth: usize, last: usize) -> usize {
        if self.changes.contains(&depth) {
            let least = self.priorities.iter().min().map_or(0, |it| it.saturating_sub(1));
            self.priorities[last] = least;
        }
        enabled.each().max_by_key(|at| self.priorities[*at]).unwrap_or(last)
    }
}

impl Execution {
    /// One that begins, of so many threads, of which the last ones serve.
    pub(crate) fn new(settings: Settings, count: usize, services: usize, path: Vec<Node>, random: Random) -> Self {
        let thread = |at| Thread { is_service: at >= count - services, ..Thread::default() };
        let threads = (0..count).map(thread).collect();
        Execution { settings, threads, starting: Some(0), path, now: 1, random, ..Execution::default() }
    }

    fn may_go_on(&self, at: usize, operation: Operation) -> bool {
        match operation {
            Operation::Lock(lock) => !self.held.contains_key(&lock),
            Operation::Park(token) => self.tokens.contains_key(&token),
            Operation::Wait(_) => self.waits.get(&at).is_none_or(|it| it.is_notified || it.until <= self.now),
            _ => true,
        }
    }

    fn enabled(&self) -> Threads {
        let may = |at: &usize| self.threads[*at].pending.is_some_and(|operation| self.may_go_on(*at, operation));
        (0..self.threads.len()).filter(may).collect()
    }

    /// Says who goes on, and has that one make its operation. Nobody does at the end.
    pub(crate) fn decide(&mut self) -> Option<usize> {
        let mut enabled = self.enabled();
        let is_under_way = self.threads.iter().any(|it| !it.is_service && !it.has_ended);
        if enabled.is_empty() && is_under_way && self.passes_to_next_wait() {
            enabled = self.enabled();
        }
        if enabled.is_empty() {
            if is_under_way {
                self.note_that_nobody_goes_on();
            }
            return None;
        }
        let chosen = if self.is_cut { enabled.prefer(self.last) } else { self.choose_thread(enabled) };
        self.perform(chosen);
        Some(chosen)
    }

    /// Where all wait, time goes on up to the first moment that one of them waits for, if there is one.
    fn passes_to_next_wait(&mut self) -> bool {
        let next = self.waits.values().map(|it| it.until).min().filter(|until| *until < u64::MAX);
        self.now = next.unwrap_or(self.now).max(self.now);
        next.is_some()
    }

    fn note_that_nobody_goes_on(&mut self) {
        let blocked = self.threads.iter().enumerate().filter(|(_, it)| !it.is_service && !it.has_ended);
        let who: Vec<_> = blocked.map(|(at, it)| format!("thread {at} at {:?}", it.pending)).collect();
        self.failure.get_or_insert(format!("nobody goes on: {}", who.join(", ")));
    }

    fn choose_thread(&mut self, enabled: Threads) -> usize {
        let chosen = match self.settings.mode {
            Mode::Random { .. } => self.random.choose(enabled, self.depth, self.last),
            _ if self.depth < self.path.len() => {
                let node = &self.path[self.depth];
                assert!(node.enabled == enabled && !node.is_value(), "the program does not run the same way twice");
                node.chosen
            }
            mode => match self.new_node(mode, enabled) {
                Some(node) => {
                    let chosen = node.chosen;
                    self.path.push(node);
                    chosen
                }
                None => {
                    self.is_cut = true;
                    return enabled.prefer(self.last);
                }
            },
        };
        self.depth += 1;
        self.trace.push((chosen, self.threads[chosen].pending.expect("it is about to do something")));
        chosen
    }

    /// A choice among those that may go on. There is none if all of them sleep.
    fn new_node(&self, mode: Mode, enabled: Threads) -> Option<Node> {
        let behind = self.path.last();
        let switches = behind.map_or(0, Node::switches_behind);
        let uses_sleep = !matches!(mode, Mode::Bounded(_));
        let sleeping = behind.filter(|_| uses_sleep).map_or(Threads::default(), Node::sleeping_behind);
        let free = enabled.without(sleeping);
        if free.is_empty() {
            return None;
        }
        let chosen = free.prefer(self.last);
        let to_try = match mode {
            Mode::All => Threads::one(chosen),
            Mode::Bounded(most) if switches >= most && enabled.has(self.last) => Threads::one(self.last),
            _ => enabled,
        };
        let pending = self.threads.iter().map(|it| it.pending).collect();
        let before = self.last;
        Some(Node { pending, enabled, sleeping, to_try, chosen, before, switches, ..Node::default() })
    }

    /// Has a thread make its operation.
    pub(crate) fn perform(&mut self, at: usize) {
        let thread = &mut self.threads[at];
        let operation = thread.pending.take().expect("it is about to do something");
        thread.count += 1;
        let count = thread.count;
        thread.known.set(at, count);
        self.last = at;
        let (reply, learnt) = self.effect(at, operation);
        let thread = &mut self.threads[at];
        thread.reply = reply;
        if let Some(clock) = learnt {
            thread.known.join(&clock);
        }
    }

    /// How an operation ends, and what its thread learns by it.
    fn effect(&mut self, at: usize, operation: Operation) -> (bool, Option<Clock>) {
        let known = &self.threads[at].known;
        match operation {
            Operation::Lock(lock) | Operation::TryLock(lock) => {
                let is_free = !self.held.contains_key(&lock);
                self.held.entry(lock).or_insert(at);
                (is_free, self.clocks.get(&Place::Lock(lock)).filter(|_| is_free).cloned())
            }
            Operation::Unlock(lock) => {
                self.held.remove(&lock);
                self.clocks.insert(Place::Lock(lock), known.clone());
                (true, None)
            }
            Operation::Park(token) => (true, self.tokens.remove(&token)),
            Operation::Unpark(token) => {
                self.tokens.entry(token).or_default().join(known);
                (true, None)
            }
            Operation::DropCount(count) => (true, Some(self.meet(at, Place::Count(count)))),
            Operation::Own(object) => (true, Some(self.meet(at, Place::Own(object)))),
            Operation::BeginWait(_) => (true, None),
            Operation::Wait(_) => (self.waits.remove(&at).is_none_or(|it| it.is_notified), None),
            Operation::Notify(condition) => {
                let waiting = (0..self.threads.len()).find(|at| self.waits_for(*at, condition));
                waiting.and_then(|at| self.waits.get_mut(&at)).into_iter().for_each(|it| it.is_notified = true);
                (true, None)
            }
            Operation::Pass(nanoseconds) => {
                self.now += nanoseconds;
                (true, None)
            }
            Operation::Load(_) | Operation::Store(_) | Operation::Upgrade(_) | Operation::Now | Operation::Choice => {
                (true, None)
            }
        }
    }

    /// What all know that have met at something, with this thread.
    fn meet(&mut self, at: usize, place: Place) -> Clock {
        let clock = self.clocks.entry(place).or_default();
        clock.join(&self.threads[at].known);
        clock.clone()
    }

    fn waits_for(&self, at: usize, condition: usize) -> bool {
        self.waits.get(&at).is_some_and(|it| it.condition == condition && !it.is_notified)
    }

    /// A thread is among those that wait for a condition, until then at most.
    pub(crate) fn begin_wait(&mut self, at: usize, condition: usize, until: u64) {
        self.waits.insert(at, Wait { condition, until, is_notified: false });
    }

    /// Gives a job to a thread that waits for one.
    pub(crate) fn start(&mut self, job: Job) -> usize {
        let free = self.threads.iter().position(|it| it.is_service && !it.has_job);
        let at = free.expect("the program has a thread for this");
        self.threads[at].has_job = true;
        self.threads[at].job = Some(job);
        at
    }
}
