// Made by .ci/made-rust of crates/deadpool_desk/src/owner_step.rt, without its contracts. The proof is of that text.
//! The steps of a pool that its owner makes, as values, and their replies.
use crate::cores::desk::Status;

/// A step of a pool's owner. Nothing is in a hand: it takes no object and gives none.
#[derive(Clone, Copy, Debug, PartialEq, Eq)]
pub enum OwnerStep {
    /// The owner asks how the pool stands.
    Status,
    /// The pool gets another limit, a number of objects. While it has more objects than that, idle ones are dropped,
    /// the front one first, without a detach, down to its least number of idle objects, which counts as far as the
    /// limit allows. A closed pool stays as it is. A limit beyond the room for objects takes memory first. The room
    /// never shrinks.
    Resize { limit: usize },
    /// The pool closes for good: its limit is 0, and the idle objects are dropped without a detach.
    Close,
    /// There is one more handle. A count that has reached the greatest `u64` stays there.
    CloneHandle,
    /// There is one handle less. The last one takes the idle objects with it, which are dropped without a detach. A
    /// count that has reached the greatest `u64` stays there.
    DropHandle,
    /// There is one more handle, for an owner that has none.
    Upgrade,
}

/// The reply to a step of the owner.
#[derive(Clone, Copy, Debug, PartialEq, Eq)]
pub enum OwnerReply {
    /// The pool stands so.
    Stands(Status),
    Done,
    /// The room for so many objects found no memory. Nothing has changed.
    OutOfMemory,
    /// The pool has no handle left. Nothing has changed.
    NoHandle,
}
