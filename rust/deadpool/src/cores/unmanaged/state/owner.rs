// Made by .ci/made-rust of crates/deadpool_unmanaged/src/state/owner.rt, without its contracts. The proof is of that text.
//! The steps of a core that the pool's owner makes.

use super::Core;
use crate::cores::unmanaged::{HandleReply, Status};

impl<T> Core<T> {
    /// How the pool stands. All idle objects are available, also those that a get was granted, and all gets in the
    /// queue wait.
    #[inline]
    pub fn status(&self) -> Status {
        let available = self.idle.len();
        Status {
            max_size: self.limit,
            size: available + self.outside,
            available,
            waiting: self.gets.waiting() + self.gets.granted(),
        }
    }

    /// The pool closes for good. The idle objects are dropped, and the limit stays.
    #[inline]
    pub fn close(&mut self) {
        self.gets.close();
        self.adds.close();
        self.idle.clear();
    }

    /// There is one more handle. A count that has reached the greatest `u64` stays there.
    #[inline]
    pub fn clone_handle(&mut self) -> HandleReply {
        if self.handles == 0 {
            return HandleReply::NoHandle;
        }
        self.handles = self.handles.saturating_add(1);
        HandleReply::Done
    }

    /// There is one handle less. The last one takes the idle objects with it, which are dropped. A count that has
    /// reached the greatest `u64` stays there.
    #[inline]
    pub fn drop_handle(&mut self) -> HandleReply {
        if self.handles == 0 {
            return HandleReply::NoHandle;
        }
        if self.handles < u64::MAX {
            self.handles -= 1;
        }
        if self.handles == 0 {
            self.idle.clear();
            self.adds.settle_within(self.limit - self.outside, 0);
        }
        HandleReply::Done
    }

    /// There is one more handle, for an owner that has none: true exactly if one is left. Otherwise nothing changes.
    #[inline]
    pub fn upgrade(&mut self) -> bool {
        match self.clone_handle() {
            HandleReply::Done => true,
            HandleReply::NoHandle => false,
        }
    }
}
