// Made by .ci/made-rust of crates/deadpool_gate/src/gate/within.rt, without its contracts. The proof is of that text.
//! A gate at what there is so much of in all, objects or room: how much of it is free, and the granting of that.

use super::Gate;

impl Gate {
    /// How many of `total` places are free: those that others do not hold, `held` of them, and no listed waiter has.
    #[inline(always)]
    pub fn room_within(&self, total: usize, held: usize) -> usize {
        total.saturating_sub(self.granted() + held)
    }

    /// Gives those of `total` places that are free to waiters, the earliest first; others hold `held`. In an open gate
    /// nobody waits then while a place is free. Nobody is told of it here. While nobody waits it changes nothing.
    #[inline(always)]
    pub fn settle_within(&mut self, total: usize, held: usize) {
        if self.waiting() > 0 {
            let room = self.room_within(total, held);
            self.settle(room);
        }
    }
}
