//! The choices of an execution, of which the search makes others in the next ones.
use crate::operation::Operation;

/// Which executions are run.
#[derive(Clone, Copy, Debug, PartialEq)]
pub enum Mode {
    /// All that differ, where only such threads are tried at a point as may be first in the order of two operations
    /// that depend on each other.
    All,
    /// All that differ, where each thread is tried at each point.
    Plain,
    /// All with at most so many switches away from a thread that could go on.
    Bounded(usize),
    /// So many at random, by priorities that change at so many points.
    Random { runs: u64, changes: usize, seed: u64 },
}

/// Some of the threads of an execution.
#[derive(Clone, Copy, Debug, Default, PartialEq, Eq)]
pub(crate) struct Threads(u32);

impl Threads {
    pub(crate) fn one(thread: usize) -> Self {
        Threads(1 << thread)
    }

    pub(crate) fn has(self, thread: usize) -> bool {
        self.0 >> thread & 1 == 1
    }

    pub(crate) fn insert(&mut self, thread: usize) {
        self.0 |= 1 << thread;
    }

    pub(crate) fn and(self, other: Threads) -> Self {
        Threads(self.0 | other.0)
    }

    pub(crate) fn without(self, other: Threads) -> Self {
        Threads(self.0 & !other.0)
    }

    pub(crate) fn is_empty(self) -> bool {
        self.0 == 0
    }

    pub(crate) fn each(self) -> impl Iterator<Item = usize> {
        (0..32).filter(move |thread| self.has(*thread))
    }

    /// The first one, where there is one.
    pub(crate) fn first(self) -> usize {
        self.0.trailing_zeros() as usize
    }

    /// This thread if it is one of them, and else the first one.
    pub(crate) fn prefer(self, thread: usize) -> usize {
        if self.has(thread) { thread } else { self.first() }
    }
}

impl FromIterator<usize> for Threads {
    fn from_iter<I: IntoIterator<Item = usize>>(threads: I) -> Self {
        let mut all = Threads::default();
        threads.into_iter().for_each(|thread| all.insert(thread));
        all
    }
}

/// A choice: which thread goes on, or which value is had.
#[derive(Debug, Default)]
pub(crate) struct Node {
    /// What each thread is about to do, and which of them may go on.
    pub(crate) pending: Vec<Option<Operation>>,
    pub(crate) enabled: Threads,
    /// Those that need not be tried here: what they do was tried before, and nothing since depends on it.
    pub(crate) sleeping: Threads,
    /// Those that were tried, and those that are to be.
    pub(crate) tried: Threads,
    pub(crate) to_try: Threads,
    pub(crate) chosen: usize,
    /// The thread that ran before, and how often one had to stop for another.
    pub(crate) before: usize,
    pub(crate) switches: usize,
    /// How many values there are, if it is a choice of a value.
    pub(crate) values: usize,
}

impl Node {
    pub(crate) fn is_value(&self) -> bool {
        self.values > 0
    }

    /// The threads that sleep behind it.
    pub(crate) fn sleeping_behind(&self) -> Threads {
        if self.is_value() {
            return self.sleeping;
        }
        let Some(operation) = self.pending[self.chosen] else { return Threads::default() };
        let slept = self.sleeping.and(self.tried).without(Threads::one(self.chosen));
        slept.each().filter(|at| self.pending[*at].is_some_and(|other| !other.depends_on(operation))).collect()
    }

    /// How often a thread had to stop for another up to what is behind it.
    pub(crate) fn switches_behind(&self) -> usize {
        let is_switch = !self.is_value() && self.chosen != self.before && self.enabled.has(self.before);
        self.switches + usize::from(is_switch)
    }

    /// Takes its next choice, if there is one.
    fn goes_on(&mut self, mode: Mode) -> bool {
        if self.is_value() {
            self.chosen += 1;
            return self.chosen < self.values;
        }
        self.tried.insert(self.chosen);
        let sleeping = if matches!(mode, Mode::Bounded(_)) { Threads::default() } else { self.sleeping };
        let left = self.to_try.without(self.tried).without(sleeping);
        let left: Threads = left.each().filter(|at| self.enabled.has(*at)).collect();
        if !left.is_empty() {
            self.chosen = left.first();
        }
        !left.is_empty()
    }
}

/// Takes the last choice for which another one is left, and forgets those behind it. There is none once all were made.
pub(crate) fn next(path: &mut Vec<Node>, mode: Mode) -> bool {
    while let Some(node) = path.last_mut() {
        if node.goes_on(mode) {
            return true;
        }
        path.pop();
    }
    false
}
