// Made by .ci/made-rust of crates/deadpool_unmanaged_journal/src/owner_step.rt, without its contracts. The proof is of that text.
//! The steps of a pool that its owner makes, as values, and their replies.

use crate::cores::unmanaged::{Core, HandleReply, Status};

/// A step of a pool's owner. Nothing is in a hand: it takes no object and gives none.
#[derive(Clone, Copy, Debug, PartialEq, Eq)]
pub enum OwnerStep {
    /// The owner asks how the pool stands.
    Status,
    /// The pool closes for good. The idle objects are dropped, and the limit stays.
    Close,
    /// There is one more handle. A count that has reached the greatest `u64` stays there.
    CloneHandle,
    /// There is one handle less. The last one takes the idle objects with it, which are dropped. A count that has
    /// reached the greatest `u64` stays there.
    DropHandle,
    /// There is one more handle, for an owner that has none.
    Upgrade,
}

/// The reply to a step of the owner.
#[derive(Clone, Copy, Debug, PartialEq, Eq)]
pub enum OwnerReply {
    /// The pool stands so.
    Stands(Status),
    Done,
    /// The pool has no handle left. Nothing has changed.
    NoHandle,
}

impl OwnerStep {
    /// Makes the step, and notes it nowhere.
    #[inline]
    pub fn make<T>(&self, core: &mut Core<T>) -> OwnerReply {
        match self {
            OwnerStep::Status => OwnerReply::Stands(core.status()),
            OwnerStep::Close => {
                core.close();
                OwnerReply::Done
            }
            OwnerStep::CloneHandle => reply_for(core.clone_handle()),
            OwnerStep::DropHandle => reply_for(core.drop_handle()),
            OwnerStep::Upgrade => {
                if core.upgrade() {
                    OwnerReply::Done
                } else {
                    OwnerReply::NoHandle
                }
            }
        }
    }
}

// The reply of a step that needs a handle.
#[inline]
fn reply_for(reply: HandleReply) -> OwnerReply {
    match reply {
        HandleReply::Done => OwnerReply::Done,
        HandleReply::NoHandle => OwnerReply::NoHandle,
    }
}
