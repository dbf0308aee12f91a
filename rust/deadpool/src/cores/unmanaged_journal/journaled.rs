// Made by .ci/made-rust of crates/deadpool_unmanaged_journal/src/journaled.rt, without its contracts. The proof is of that text.
//! A pool's state, beside the steps that led to it.

use crate::cores::unmanaged::gate::Ticket;
use crate::cores::unmanaged::{Core, Reply, Step};
use crate::cores::unmanaged_journal::log::Log;
use crate::cores::unmanaged_journal::tally::Tally;
use crate::cores::unmanaged_journal::{Entry, Journal, Naming, OwnerReply, OwnerStep};
use crate::rattle::{AllocError, Global};
use std::marker::PhantomData;

/// A pool's state with a journal: at most so many entries, one for each step, and a mark that a step found no room; and
/// a tally of all steps. `K` says what stands for an object in the journal.
///
/// Until the mark is set, the entries, replayed from the state that the pool opened with, are the state, objects by
/// name. Whom the pool has told is not looked at. Each step is that of `Core`, is counted, and adds its entry, or sets
/// the mark.
#[repr(C)]
pub struct Journaled<T, K: Naming<T>> {
    pub(crate) core: Core<T>,
    log: Log<K::Name>,
    limit: usize,
    max_waiting: Option<usize>,
    tally: Tally,
    by: PhantomData<K>,
}

impl<T, K: Naming<T>> Journaled<T, K> {
    /// An open pool with nothing idle and one handle, and room for so many entries. With none the journal takes no
    /// memory, and the first step sets the mark. Any number of gets and adds may wait.
    #[inline]
    pub fn new(alloc: Global, max_size: usize, most_entries: usize) -> Result<Self, AllocError> {
        let core = Core::new(alloc, max_size)?;
        let log = Log::new(alloc, most_entries)?;
        let tally = Tally::new();
        Ok(Journaled { core, limit: max_size, max_waiting: None, log, tally, by: PhantomData })
    }

    /// The pool, before its first step, with a bound on the gets that wait, and on the adds, or with none.
    #[inline]
    pub fn bounded(self, max_waiting: Option<usize>) -> Self {
        Journaled { core: self.core.bounded(max_waiting), max_waiting, ..self }
    }

    /// Makes one step of a get, an add or an object, as `Core` does, notes it, and counts it.
    #[inline(always)]
    pub fn make(&mut self, step: &Step, hand: &mut Option<T>) -> Reply {
        let taken = name_in::<T, K>(hand);
        let reply = self.core.make(step, hand);
        let object = taken.or(name_in::<T, K>(hand));
        self.log.add_step(step, object, &reply);
        self.tally.count(step, &reply);
        reply
    }

    /// Makes a step of the pool's owner, notes it, and counts it.
    #[inline]
    pub fn make_for_owner(&mut self, step: &OwnerStep) -> OwnerReply {
        let (reply, gone) = make_counting(&mut self.core, step);
        self.log.add_owner_step(step, &reply);
        self.tally.count_for_owner(step, gone);
        reply
    }

    /// A copy of the journal. It is no step.
    #[inline]
    pub fn journal(&self) -> Result<Journal<K::Name>, AllocError> {
        Ok(Journal {
            limit: self.limit,
            max_waiting: self.max_waiting,
            entries: self.log.entries()?,
            full: self.log.is_full(),
        })
    }

    /// The entry at this position of the journal. It is no step.
    #[inline]
    pub fn entry(&self, at: usize) -> Option<&Entry<K::Name>> {
        self.log.entry(at)
    }

    /// Whether a step has found no room for its entry. It is no step.
    #[inline]
    pub fn is_full(&self) -> bool {
        self.log.is_full()
    }

    /// What is true of every state with its journal. The call does nothing.
    #[inline]
    pub fn laws(&self) {
        self.core.laws();
    }

    /// Whether the pool was closed. It is no step.
    #[inline]
    pub fn is_closed(&self) -> bool {
        self.core.is_closed()
    }

    /// Whether the pool was closed and no object is left, idle or out. It is no step.
    #[inline]
    pub fn is_drained(&self) -> bool {
        self.core.is_drained()
    }

    /// Whether a pool handle is left. It is no step.
    #[inline]
    pub fn has_handle(&self) -> bool {
        self.core.has_handle()
    }

    /// Whether a get that enters now and wants to wait joins the queue. It is no step.
    #[inline]
    pub fn get_would_queue(&self) -> bool {
        self.core.get_would_queue()
    }

    /// Whether an add that enters now and wants to wait joins the queue. It is no step.
    #[inline]
    pub fn add_would_queue(&self) -> bool {
        self.core.add_would_queue()
    }

    /// The greatest number that the ticket of the next get in the queue may have. It is no step.
    #[inline]
    pub fn most_next_get(&self) -> usize {
        self.core.most_next_get()
    }

    /// The greatest number that the ticket of the next add in the queue may have. It is no step.
    #[inline]
    pub fn most_next_add(&self) -> usize {
        self.core.most_next_add()
    }

    /// How many gets the queue has room for. It is no step.
    #[inline]
    pub fn gets_room(&self) -> usize {
        self.core.gets_room()
    }

    /// How many adds the queue has room for. It is no step.
    #[inline]
    pub fn adds_room(&self) -> usize {
        self.core.adds_room()
    }

    /// Whether each queue has room for all that may wait in it and all that may be granted what they ask for. It is no
    /// step.
    #[inline]
    pub fn has_room_for_waiting(&self) -> bool {
        self.core.has_room_for_waiting()
    }

    /// Sees that each queue has that room. Without memory for it only the room may have changed. It is no step, and
    /// nothing is noted.
    #[inline]
    pub fn make_room_for_waiting(&mut self) -> Result<(), AllocError> {
        self.core.make_room_for_waiting()
    }

    /// How often each thing has happened since the pool was opened. It is no step.
    #[inline]
    pub fn tally(&self) -> Tally {
        self.tally
    }

    /// The next get in the queue that is due to be woken. It is no step, and nothing is noted.
    #[inline]
    pub fn take_get_wake(&mut self) -> Option<Ticket> {
        self.core.take_get_wake()
    }

    /// The next add in the queue that is due to be woken. It is no step, and nothing is noted.
    #[inline]
    pub fn take_add_wake(&mut self) -> Option<Ticket> {
        self.core.take_add_wake()
    }

    /// Whether `take_get_wake` or `take_add_wake` would name somebody. It is no step.
    #[inline]
    pub fn is_wake_due(&self) -> bool {
        self.core.is_wake_due()
    }
}

// Makes a step of the owner, and says how many objects go by it. Those are counted only where some may.
#[inline]
fn make_counting<T>(core: &mut Core<T>, step: &OwnerStep) -> (OwnerReply, usize) {
    match step {
        OwnerStep::Close | OwnerStep::DropHandle => {
            let size = core.counts().size;
            let reply = step.make(core);
            (reply, size.saturating_sub(core.counts().size))
        }
        OwnerStep::Status | OwnerStep::CloneHandle | OwnerStep::Upgrade => (step.make(core), 0),
    }
}

// The name of the object in a hand.
#[inline(always)]
fn name_in<T, K: Naming<T>>(hand: &Option<T>) -> Option<K::Name> {
    match hand {
        Some(value) => Some(K::name(value)),
        None => None,
    }
}
