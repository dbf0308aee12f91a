// Made by .ci/made-rust of crates/deadpool_journal/src/log.rt, without its contracts. The proof is of that text.
//! A list of entries with room for so many.
//!
//! Each get through a handle of its own enters, comes back, and counts a handle twice. So for these the mark is looked
//! at first: once it is set no entry is made.

use crate::cores::desk::{OwnerReply, OwnerStep, Reply, Slot, Step};
use crate::cores::journal::Entry;
use crate::cores::parts::tables::append;
use crate::rattle::Vec;
use crate::rattle::{AllocError, Global};

/// At most so many entries, and a mark that a further one found no room. The room for all of them is there from the
/// start.
#[repr(C)]
pub(crate) struct Log {
    is_full: bool,
    most: usize,
    entries: Vec<Entry>,
}

impl Log {
    /// No entry, and room for so many.
    #[inline]
    pub fn new(alloc: Global, most: usize) -> Result<Log, AllocError> {
        let entries = Vec::with_capacity(alloc, most)?;
        Ok(Log { entries, most, is_full: false })
    }

    /// One entry more, or the mark if there is no room.
    #[inline]
    pub fn add(&mut self, entry: Entry) {
        if self.is_full {
            return;
        }
        self.note(entry);
    }

    #[cold]
    #[inline(never)]
    fn note(&mut self, entry: Entry) {
        if self.is_full {
            return;
        }
        if self.entries.len() == self.most {
            self.is_full = true;
            return;
        }
        append(&mut self.entries, entry);
    }

    /// One entry more, of a step, with the number of the object that it took, or of what is in the hand after it. The
    /// step and the reply are copied only if the mark is not set, so that neither has to lie in memory otherwise.
    #[inline(always)]
    pub fn add_step<T>(&mut self, step: &Step, taken: Option<usize>, hand: &Option<Slot<T>>, reply: &Reply) {
        if self.is_full {
            return;
        }
        let number = taken.or(number_in(hand));
        self.note(Entry::Made(*step, number, *reply));
    }

    /// One entry more, of a step of the owner. Nothing is made of it if the mark is set.
    #[inline(always)]
    pub fn add_owner_step(&mut self, step: &OwnerStep, reply: &OwnerReply) {
        if self.is_full {
            return;
        }
        self.note(Entry::Owner(*step, *reply));
    }

    /// Whether there is room for one entry more.
    #[inline]
    pub fn has_room(&self) -> bool {
        self.entries.len() < self.most
    }

    /// Sets the mark. There has to be no room.
    #[inline]
    pub fn mark_full(&mut self) {
        self.is_full = true;
    }

    /// A copy of the entries.
    #[inline]
    pub fn entries(&self) -> Result<Vec<Entry>, AllocError> {
        let mut copies = Vec::with_capacity(*self.entries.allocator(), self.entries.len())?;
        for entry in &self.entries {
            append(&mut copies, entry.copied()?);
        }
        Ok(copies)
    }

    /// The entry at this position.
    #[inline]
    pub fn entry(&self, at: usize) -> Option<&Entry> {
        self.entries.get(at)
    }

    /// Whether an entry has found no room.
    #[inline]
    pub fn is_full(&self) -> bool {
        self.is_full
    }
}

/// The number of the object in a hand.
#[inline]
pub(crate) fn number_in<T>(hand: &Option<Slot<T>>) -> Option<usize> {
    match hand {
        Some(slot) => Some(slot.number),
        None => None,
    }
}
