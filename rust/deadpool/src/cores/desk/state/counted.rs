// Made by .ci/made-rust of crates/deadpool_desk/src/state/counted.rt, without its contracts. The proof is of that text.
//! What a core says of itself between two steps: its handles, its counts, its idle objects, and who in the queue has a
//! place.

use super::Core;
use crate::cores::desk::gate::Ticket;
use crate::cores::desk::{Counts, Slot};

impl<T> Core<T> {
    /// Whether a pool handle is left.
    #[inline]
    pub fn has_handle(&self) -> bool {
        self.handles > 0
    }

    /// Whether just one pool handle is left, which takes the idle objects with it.
    #[inline]
    pub fn is_last_handle(&self) -> bool {
        self.handles == 1
    }

    /// The idle object at this position, front to back.
    #[inline]
    pub fn idle_at(&self, at: usize) -> Option<&Slot<T>> {
        self.ring.get(at)
    }

    /// How many idle objects a resize to this limit gives up: those at the front. It is 0 once the pool has closed.
    #[inline]
    pub fn surplus(&self, limit: usize) -> usize {
        if self.gate.is_closed() {
            return 0;
        }
        let idle = self.ring.len();
        let excess = (idle + self.places.outside).saturating_sub(limit);
        excess.min(idle.saturating_sub(self.min_idle.min(limit)))
    }

    /// Whether the pool has closed.
    #[inline]
    pub fn is_closed(&self) -> bool {
        self.gate.is_closed()
    }

    /// Whether the pool has closed and nothing is left in it: no object, and no get that holds a place or has a
    /// creation under way. It stays so.
    #[inline]
    pub fn is_drained(&self) -> bool {
        let left = self.ring.len() + self.places.outside + self.places.going + self.places.creations;
        left == 0 && self.gate.is_closed()
    }

    /// Whether a get that enters now, and is willing to wait, has to join the queue: the pool is open, no place is
    /// free, and fewer wait than may.
    #[inline]
    pub fn would_queue(&self) -> bool {
        !self.gate.is_closed() && self.places.room(&self.gate) == 0 && self.may_join(true)
    }

    // Whether a get that finds no place may join the queue: it is willing to wait, and fewer wait than may.
    #[inline]
    pub(super) fn may_join(&self, wait: bool) -> bool {
        wait && self.gate.waiting() < self.max_waiting
    }

    /// What the pool counts.
    #[inline]
    pub fn counts(&self) -> Counts {
        let idle = self.ring.len();
        let granted = self.gate.granted();
        let size = idle + self.places.outside;
        let served = granted + self.places.going;
        Counts {
            limit: self.places.limit,
            size,
            places: served + self.places.creations + self.places.outside,
            reach: size + self.places.creations + served.saturating_sub(idle),
            granted,
            waiting: self.gate.waiting(),
        }
    }

    /// Whether the get in the queue with this ticket was granted a place, which it has not taken yet. Nothing changes.
    #[inline]
    pub fn is_granted(&mut self, ticket: Ticket) -> bool {
        self.gate.has_place(ticket)
    }

    /// The greatest number that the ticket of the next get in the queue may have.
    #[inline]
    pub fn most_next_ticket(&self) -> usize {
        self.gate.most_next_number()
    }

    /// How many gets the queue can list before it has to find memory. It never falls.
    #[inline]
    pub fn queue_room(&self) -> usize {
        self.gate.room()
    }

    /// Whether the queue has room for all gets that may wait in it and all that may be granted a place. As long as it
    /// has, none is refused for want of memory.
    #[inline]
    pub fn has_room_for_waiting(&self) -> bool {
        let most = self.max_waiting.saturating_add(self.ring.capacity());
        most <= self.gate.room().min(usize::MAX / 2)
    }

    // How many objects stay idle, if as many are.
    #[inline]
    pub(super) fn least_idle(&self) -> usize {
        self.min_idle.min(self.places.limit)
    }
}
