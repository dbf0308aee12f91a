// Made by .ci/made-rust of crates/deadpool_unmanaged_order/src/state.rt, without its contracts. The proof is of that text.
//! How far an order is.
use crate::cores::unmanaged::gate::Ticket;
use crate::cores::unmanaged_order::Cause;

/// The queue in which it may wait.
#[derive(Clone, Copy)]
pub enum Line {
    /// That of gets, which ask for an object.
    Gets,
    /// That of adds. They ask for room for the object in the hand.
    Adds,
}

/// How far it is: which command is under way. The steps are made, and told, as one; all else may never come back.
#[derive(Clone, Copy)]
pub enum State {
    /// It makes its first step.
    Entering { line: Line, wait: bool },
    /// It is in the queue, and asks.
    Asking { line: Line, ticket: Ticket, expired: bool },
    /// It is in the queue, and its poll has ended.
    Queued(Line, Ticket),
    /// It leaves the queue.
    Withdrawing(Line, Ticket, Cause),
    /// The object is to be given out.
    Giving,
    /// The object comes back.
    Returning,
    /// The object leaves the pool for good.
    Taking,
    /// It has left, and those that wait for the pool's end are to be told.
    Parted,
    /// What is in the hand is none of the pool's, and is to be handed over to whoever owns the order.
    Yielding(Cause),
    /// The object that came back has left the pool, and is to be dropped.
    Releasing,
    /// It is gone, and those that wait for the pool's end are to be told.
    Telling,
    /// Nothing is left to do.
    Over(Cause),
}
