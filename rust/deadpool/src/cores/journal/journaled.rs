// Made by .ci/made-rust of crates/deadpool_journal/src/journaled.rt, without its contracts. The proof is of that text.
//! A pool's state, beside the steps that led to it.

use crate::cores::desk::gate::Ticket;
use crate::cores::desk::{
    Core, Desk, OwnerDesk, OwnerReply, OwnerStep, QueueMode, Reply, RetainResult, Retainer, Slot, Step,
};
use crate::cores::journal::log::{Log, number_in};
use crate::cores::journal::tally::Tally;
use crate::cores::journal::{Entry, Journal};
use crate::rattle::{AllocError, Global};

/// A pool's state with a journal: at most so many entries, one for each step, and a mark that a step found no room; and
/// a tally of all steps.
///
/// Until the mark is set, the entries, replayed from the state that the pool opened with, are the state, objects by
/// number. Each step is that of `Core`, is counted, and adds its entry, or sets the mark. Of the steps, an entry into
/// the queue, a resize and a retain may take memory, as they do without a journal; the notes of a retain take some too,
/// but not if there is no room for its entry.
#[repr(C)]
pub struct Journaled<T> {
    core: Core<T>,
    tally: Tally,
    log: Log,
    limit: usize,
    mode: QueueMode,
    min_idle: usize,
    max_waiting: Option<usize>,
}

// How many objects there are.
#[inline]
fn size_of<T>(core: &Core<T>) -> usize {
    core.counts().size
}

impl<T> Journaled<T> {
    /// A pool with nothing idle and one handle, whose first object gets the number 0, and room for so many entries.
    /// With none the journal takes no memory, and the first step sets the mark. `min_idle` is as in `Core::new`. Any
    /// number of gets may wait.
    #[inline]
    pub fn new(
        alloc: Global,
        limit: usize,
        mode: QueueMode,
        most_entries: usize,
        min_idle: usize,
    ) -> Result<Journaled<T>, AllocError> {
        let core = Core::new(alloc, limit, mode, 0, min_idle)?;
        let log = Log::new(alloc, most_entries)?;
        let tally = Tally::new();
        Ok(Journaled { core, limit, mode, min_idle, max_waiting: None, log, tally })
    }

    /// The pool, before its first step, with a bound on the gets that wait for a place, or with none.
    #[inline]
    pub fn bounded(self, max_waiting: Option<usize>) -> Self {
        Journaled { core: self.core.bounded(max_waiting), max_waiting, ..self }
    }

    /// A copy of the journal. It is no step.
    #[inline]
    pub fn journal(&self) -> Result<Journal, AllocError> {
        Ok(Journal {
            limit: self.limit,
            mode: self.mode,
            min_idle: self.min_idle,
            max_waiting: self.max_waiting,
            entries: self.log.entries()?,
            full: self.log.is_full(),
        })
    }

    /// The entry at this position of the journal. It is no step.
    #[inline]
    pub fn entry(&self, at: usize) -> Option<&Entry> {
        self.log.entry(at)
    }

    /// Whether a step has found no room for its entry. It is no step.
    #[inline]
    pub fn is_full(&self) -> bool {
        self.log.is_full()
    }

    /// What is true of every state with its journal. The call does nothing.
    #[inline]
    pub fn laws(&self) {
        self.core.laws();
    }

    /// Whether the pool has closed. It is no step.
    #[inline]
    pub fn is_closed(&self) -> bool {
        self.core.is_closed()
    }

    /// Whether the pool has closed and nothing is left in it. It is no step.
    #[inline]
    pub fn is_drained(&self) -> bool {
        self.core.is_drained()
    }

    /// Whether just one pool handle is left, which takes the idle objects with it. It is no step.
    #[inline]
    pub fn is_last_handle(&self) -> bool {
        self.core.is_last_handle()
    }

    /// The idle object at this position, front to back. It is no step.
    #[inline]
    pub fn idle_at(&self, at: usize) -> Option<&Slot<T>> {
        self.core.idle_at(at)
    }

    /// How many idle objects a resize to this limit gives up: those at the front. It is no step.
    #[inline]
    pub fn surplus(&self, limit: usize) -> usize {
        self.core.surplus(limit)
    }

    /// Whether a get that enters now, and is willing to wait, has to join the queue. It is no step.
    #[inline]
    pub fn would_queue(&self) -> bool {
        self.core.would_queue()
    }

    /// The greatest number that the ticket of the next get in the queue may have. It is no step.
    #[inline]
    pub fn most_next_ticket(&self) -> usize {
        self.core.most_next_ticket()
    }

    /// How many gets the queue can list before it has to find memory. It is no step.
    #[inline]
    pub fn queue_room(&self) -> usize {
        self.core.queue_room()
    }

    /// Sees that the queue has room for all gets that may wait in it and all that may be granted a place. It is no
    /// step. Without memory for that only the room may have changed.
    #[inline]
    pub fn make_room_for_waiting(&mut self) -> Result<(), AllocError> {
        self.core.make_room_for_waiting()
    }

    /// How often each thing has happened since the pool was opened. It is no step.
    #[inline]
    pub fn tally(&self) -> Tally {
        self.tally
    }

    /// The next get in the queue that is due to be woken, and that was not named before. It is no step, and nothing is
    /// noted.
    #[inline]
    pub fn take_wake(&mut self) -> Option<Ticket> {
        self.core.take_wake()
    }

    /// Whether `take_wake` would name a get. It is no step.
    #[inline]
    pub fn is_wake_due(&self) -> bool {
        self.core.is_wake_due()
    }
}

impl<T> Desk<T> for Journaled<T> {
    #[inline(always)]
    fn make(&mut self, step: &Step, hand: &mut Option<Slot<T>>) -> Reply {
        let taken = number_in(hand);
        let reply = self.core.make(step, hand);
        self.log.add_step(step, taken, hand, &reply);
        self.tally.count(step, &reply);
        reply
    }
}

impl<T> OwnerDesk<T> for Journaled<T> {
    #[inline(always)]
    fn make_for_owner(&mut self, step: &OwnerStep) -> OwnerReply {
        let size = size_of(&self.core);
        let reply = self.core.make_for_owner(step);
        self.log.add_owner_step(step, &reply);
        let gone = size.saturating_sub(size_of(&self.core));
        self.tally.count_for_owner(step, gone);
        reply
    }

    #[inline]
    fn retain<R: Retainer<T>>(&mut self, retainer: &mut R) -> Result<RetainResult<R::Left>, AllocError> {
        let size = size_of(&self.core);
        if !self.log.has_room() {
            self.log.mark_full();
            let result = self.core.retain(retainer);
            let gone = size.saturating_sub(size_of(&self.core));
            self.tally.count_retain(&result, gone);
            return result;
        }
        match self.core.retain_noting(retainer) {
            Ok((result, noted)) => {
                self.log.add(Entry::Retain(Ok(noted)));
                let fewer = size.saturating_sub(size_of(&self.core));
                self.tally.count_not_retained(fewer);
                Ok(result)
            }
            Err(e) => {
                self.log.add(Entry::Retain(Err(e)));
                Err(e)
            }
        }
    }
}
