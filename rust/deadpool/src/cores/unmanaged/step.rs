// Made by .ci/made-rust of crates/deadpool_unmanaged/src/step.rt, without its contracts. The proof is of that text.
//! The steps of a pool that a get, an add or an object makes, as values, and their replies.
use crate::cores::gate::gate::Ticket;

/// A step. An object that it takes or gives is in the hand of whoever makes it.
#[derive(Clone, Copy, Debug, PartialEq, Eq)]
pub enum Step {
    /// A new get asks for an object, and joins the queue if none is free and it may wait.
    GetEnter { wait: bool },
    /// A get in the queue asks for its object. `expired` says that it has waited long enough.
    GetAsk { ticket: Ticket, expired: bool },
    /// A get leaves the queue. What it was granted is free again.
    GetCancel { ticket: Ticket },
    /// A new add brings an object, and joins the queue if there is no room and it may wait.
    AddEnter { wait: bool },
    /// An add in the queue asks for its room, and brings its object.
    AddAsk { ticket: Ticket },
    /// An add leaves the queue. The room that it was granted is free again.
    AddCancel { ticket: Ticket },
    /// An object comes back.
    Back,
    /// An object that is out leaves the pool for good, and its room is free.
    Take,
}

/// The reply to a step.
#[derive(Clone, Copy, Debug, PartialEq, Eq)]
pub enum Reply {
    /// The object is out, and in the hand.
    Object,
    /// The object is in the pool.
    Stored,
    /// The pool is closed, or the object that the get was granted went with the last handle. Who asked has left the
    /// queue.
    Closed,
    /// Nothing is free, and who asks does not wait.
    Full,
    /// Nothing is free, and as many wait for it as may.
    Crowded,
    /// Who asks waits, under this ticket.
    Waiting(Ticket),
    /// The entry in the queue found no memory.
    OutOfMemory,
    /// The get has waited long enough, and left the queue.
    Expired,
    Done,
    /// The pool keeps the object.
    Kept,
    /// The pool is closed or has no handle left, and has no use for the object, which stays in the hand.
    Dropped,
    Taken,
    /// No object is out, or nobody has the ticket. Nothing has changed.
    Unknown,
}
