// Made by .ci/made-rust of crates/deadpool_desk/src/state/places.rt, without its contracts. The proof is of that text.
//! The places of a pool: how many there are, and what holds those that no get in the queue has.
//!
//! A step may leave places free while gets wait, and settles them before it ends. So these are functions over the
//! counts and the queue alone, and not over a core, which is settled.

use crate::cores::desk::gate::Gate;

// How many places there are, and how many of them are held, by what holds them.
pub(super) struct Places {
    pub limit: usize,
    // Of gets that hold nothing else.
    pub going: usize,
    // Of gets with a creation under way.
    pub creations: usize,
    // Of objects: those under preparation and those out.
    pub outside: usize,
}

impl Places {
    // None is held.
    #[inline]
    pub fn new(limit: usize) -> Places {
        Places { limit, going: 0, creations: 0, outside: 0 }
    }

    // How many are held by what is no get in the queue. (In this order rustc makes a get one instruction shorter.)
    #[inline(always)]
    fn held(&self) -> usize {
        self.outside + self.creations + self.going
    }

    // How many more there are than are held, those included that the gate has granted.
    #[inline(always)]
    pub fn room(&self, gate: &Gate) -> usize {
        gate.room_within(self.limit, self.held())
    }

    // Grants the free places to the earliest that wait.
    #[inline(always)]
    pub fn settle(&self, gate: &mut Gate) {
        gate.settle_within(self.limit, self.held());
    }
}
