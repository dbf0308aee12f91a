// Made by .ci/made-rust of crates/deadpool_order/src/state.rt, without its contracts. The proof is of that text.
//! How far an order is.
use crate::cores::desk::Held;
use crate::cores::desk::gate::Ticket;
use crate::cores::order::Cause;

/// How far it is: which command is under way. The steps are made, and told, as one; all else may never come back.
#[derive(Clone, Copy)]
pub enum State {
    /// It was not polled yet.
    New,
    /// It makes its first step.
    Entering { wait: bool },
    /// It is in the queue, and asks.
    Asking { ticket: Ticket, expired: bool },
    /// It is in the queue, and its poll has ended.
    Queued(Ticket),
    /// It has a place and nothing else, and its poll has ended.
    Going,
    /// It goes on with its place.
    GoingOn,
    /// The manager makes a value.
    Creating,
    /// A value was made, and is to be an object.
    Numbering,
    /// No value was made.
    Failing(Cause),
    /// This hook sees the idle object.
    PreRecycling(usize),
    /// The manager recycles it.
    Recycling,
    /// This hook sees it.
    PostRecycling(usize),
    /// The idle object was refused, or was pending for too long.
    Discarding,
    /// This hook sees the new object.
    Checking(usize),
    /// The new object was refused.
    Refusing,
    /// The object is to be given out, which was recycled or is new.
    Giving { recycled: bool },
    /// It leaves the queue.
    Withdrawing(Ticket, Cause),
    /// It gives back what it holds.
    Cancelling(Held),
    /// The object comes back.
    Returning,
    /// The object leaves the pool for good.
    Taking,
    /// The object in the hand is to be detached, for its taker.
    Parting,
    /// It has left, and those that wait for the pool's end are to be told.
    Parted,
    /// It is to be handed over to its taker.
    Yielding,
    /// The object in the hand is to be detached.
    Detaching(Then),
    /// What is in the hand is to be dropped.
    Releasing(Then),
    /// Those that wait for the pool's end are to be told.
    Telling(Cause),
    /// Nothing is left to do.
    Over(Cause),
}

/// What follows once something has left the hand.
#[derive(Clone, Copy)]
pub enum Then {
    /// It goes on with its place.
    GoOn,
    /// The place is given back too.
    Cancel,
    /// It ends.
    End(Cause),
}
