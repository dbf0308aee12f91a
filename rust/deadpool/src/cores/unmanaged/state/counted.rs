// Made by .ci/made-rust of crates/deadpool_unmanaged/src/state/counted.rt, without its contracts. The proof is of that text.
//! What a core says of itself between two steps: its handles, its counts, its idle objects, and who in a queue was
//! granted what it asks for.

use super::Core;
use crate::cores::gate::gate::Ticket;
use crate::cores::unmanaged::Counts;

impl<T> Core<T> {
    /// Whether the pool was closed.
    #[inline]
    pub fn is_closed(&self) -> bool {
        self.gets.is_closed()
    }

    /// Whether the pool was closed and no object is left, idle or out. It stays so.
    #[inline]
    pub fn is_drained(&self) -> bool {
        self.is_closed() && self.idle.is_empty() && self.outside == 0
    }

    /// Whether a pool handle is left.
    #[inline]
    pub fn has_handle(&self) -> bool {
        self.handles > 0
    }

    /// Whether just one pool handle is left, which takes the idle objects with it.
    #[inline]
    pub fn is_last_handle(&self) -> bool {
        self.handles == 1
    }

    /// The idle object at this position. The last is the next to go out.
    #[inline]
    pub fn idle_at(&self, at: usize) -> Option<&T> {
        self.idle.get(at)
    }

    /// What the pool counts.
    #[inline]
    pub fn counts(&self) -> Counts {
        Counts {
            limit: self.limit,
            size: self.idle.len() + self.outside,
            gets_granted: self.gets.granted(),
            gets_waiting: self.gets.waiting(),
            adds_granted: self.adds.granted(),
            adds_waiting: self.adds.waiting(),
        }
    }

    /// The greatest number that the ticket of the next get in the queue may have. If there is room for that get it is
    /// below the room.
    #[inline]
    pub fn most_next_get(&self) -> usize {
        self.gets.most_next_number()
    }

    /// The greatest number that the ticket of the next add in the queue may have. If there is room for that add it is
    /// below the room.
    #[inline]
    pub fn most_next_add(&self) -> usize {
        self.adds.most_next_number()
    }

    /// How many gets the queue has room for.
    #[inline]
    pub fn gets_room(&self) -> usize {
        self.gets.room()
    }

    /// How many adds the queue has room for.
    #[inline]
    pub fn adds_room(&self) -> usize {
        self.adds.room()
    }

    /// Whether each queue has room for all that may wait in it and all that may be granted what they ask for. As long
    /// as it has, none is refused for want of memory.
    #[inline]
    pub fn has_room_for_waiting(&self) -> bool {
        let most = self.most_listed();
        let room = self.gets_room().min(self.adds_room());
        most <= room.min(usize::MAX / 2)
    }

    // How many a queue lists at most, or the greatest number.
    #[inline]
    pub(super) fn most_listed(&self) -> usize {
        self.max_waiting.saturating_add(self.limit)
    }

    // How many idle objects no get was granted.
    #[inline]
    pub(super) fn free_objects(&self) -> usize {
        self.gets.room_within(self.idle.len(), 0)
    }

    // How much room no add was granted.
    #[inline]
    pub(super) fn free_room(&self) -> usize {
        self.adds.room_within(self.limit - self.idle.len() - self.outside, 0)
    }

    // Whether a get that finds no object may join the queue: it is willing to wait, and fewer wait than may.
    #[inline(always)]
    pub(super) fn get_may_join(&self, wait: bool) -> bool {
        wait && self.gets.waiting() < self.max_waiting
    }

    // The same of an add that finds no room.
    #[inline(always)]
    pub(super) fn add_may_join(&self, wait: bool) -> bool {
        wait && self.adds.waiting() < self.max_waiting
    }

    /// Whether a get that enters now and wants to wait joins the queue: the pool is open, has no free object, and fewer
    /// gets wait than may.
    #[inline]
    pub fn get_would_queue(&self) -> bool {
        !self.gets.is_closed() && self.free_objects() == 0 && self.get_may_join(true)
    }

    /// Whether an add that enters now and wants to wait joins the queue: the pool is open, has no free room, and fewer
    /// adds wait than may.
    #[inline]
    pub fn add_would_queue(&self) -> bool {
        !self.gets.is_closed() && self.free_room() == 0 && self.add_may_join(true)
    }

    /// Whether the get in the queue with this ticket was granted an object, which it has not taken yet. Nothing
    /// changes.
    #[inline]
    pub fn get_is_granted(&mut self, ticket: Ticket) -> bool {
        self.gets.has_place(ticket)
    }

    /// Whether the add in the queue with this ticket was granted room, which it has not taken yet. Nothing changes.
    #[inline]
    pub fn add_is_granted(&mut self, ticket: Ticket) -> bool {
        self.adds.has_place(ticket)
    }
}
