// Made by .ci/made-rust of crates/deadpool_unmanaged_journal/src/log.rt, without its contracts. The proof is of that text.
//! The entries of a journal.

use crate::cores::parts::tables::append;
use crate::cores::unmanaged::{Reply, Step};
use crate::cores::unmanaged_journal::{Entry, OwnerReply, OwnerStep};
use crate::rattle::Vec;
use crate::rattle::{AllocError, Global};

/// At most so many entries, and a mark that a further one found no room. The room for all of them is there from the
/// start.
#[repr(C)]
pub(crate) struct Log<O: Copy> {
    is_full: bool,
    most: usize,
    entries: Vec<Entry<O>>,
}

impl<O: Copy> Log<O> {
    /// No entry, and room for so many.
    #[inline]
    pub fn new(alloc: Global, most: usize) -> Result<Log<O>, AllocError> {
        let entries = Vec::with_capacity(alloc, most)?;
        Ok(Log { entries, most, is_full: false })
    }

    /// One entry more, of a step, with the name of its object, or the mark if there is no room. The step and the reply
    /// are copied only if the mark is not set.
    #[inline(always)]
    pub fn add_step(&mut self, step: &Step, object: Option<O>, reply: &Reply) {
        if self.is_full {
            return;
        }
        self.note(Entry::Made(*step, object, *reply));
    }

    /// The same of a step of the owner.
    #[inline(always)]
    pub fn add_owner_step(&mut self, step: &OwnerStep, reply: &OwnerReply) {
        if self.is_full {
            return;
        }
        self.note(Entry::Owner(*step, *reply));
    }

    #[cold]
    #[inline(never)]
    fn note(&mut self, entry: Entry<O>) {
        if self.entries.len() == self.most {
            self.is_full = true;
            return;
        }
        append(&mut self.entries, entry);
    }

    /// A copy of the entries.
    #[inline]
    pub fn entries(&self) -> Result<Vec<Entry<O>>, AllocError> {
        let mut copies = Vec::with_capacity(*self.entries.allocator(), self.entries.len())?;
        for entry in &self.entries {
            append(&mut copies, *entry);
        }
        Ok(copies)
    }

    /// The entry at this position.
    #[inline]
    pub fn entry(&self, at: usize) -> Option<&Entry<O>> {
        self.entries.get(at)
    }

    /// Whether an entry has found no room.
    #[inline]
    pub fn is_full(&self) -> bool {
        self.is_full
    }
}
