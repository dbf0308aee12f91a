// Made by .ci/made-rust of crates/deadpool_order/src/command.rt, without its contracts. The proof is of that text.
//! What an order says is next.
use crate::cores::desk::gate::Ticket;

/// What is to be done next.
///
/// The **hand** is where the executor keeps the value of its get, or of the object that comes back or is taken.
#[derive(Clone, Copy)]
pub enum Command {
    /// Make this first step of a get at the desk, and tell its reply. The get may have to wait then.
    Enter { wait: bool },
    /// Make the step that the order has, and tell its reply. The get may have to wait on.
    Ask,
    /// Make the step `Created`, and tell its reply, whose number is that of the object in the hand.
    Number,
    /// Make the step that the order has, and tell its reply.
    Make,
    /// Make the step `Back` with the object out of the hand, and tell its reply. What the pool does not keep goes back
    /// there.
    Back,
    /// Keep what wakes the get, by this ticket, and end the poll until it is woken or the wait is too long.
    Wait(Ticket),
    /// End the poll, and ask for another one.
    Pause,
    /// Have the manager make a value, which goes into the hand.
    Create,
    /// Have this `pre_recycle` hook see the object in the hand.
    PreRecycle(usize),
    /// Have the manager recycle the object in the hand.
    Recycle,
    /// Have this `post_recycle` hook see it.
    PostRecycle(usize),
    /// Have this `post_create` hook see the new object in the hand.
    PostCreate(usize),
    /// Tell that it begins, then detach the object in the hand.
    Detach,
    /// Tell that it begins, then drop what is in the hand, if anything is.
    Release,
    /// Tell that it begins, then detach the object in the hand, which stays there for its taker.
    Part,
    /// Tell that it begins, then tell those that wait for the pool's end, if it has come.
    Tell,
    /// Give out the object in the hand, which was recycled or is new, and tell it.
    Give { recycled: bool },
    /// Hand the object over to its taker, and tell it.
    Yield,
    /// Nothing is left to do, and nothing is held.
    End(Cause),
}

/// Why an order has ended.
#[derive(Clone, Copy)]
pub enum Cause {
    /// The pool is closed, or does not know what the get holds.
    Closed,
    /// No place came in time.
    NoPlace,
    /// As many wait as may.
    Crowded,
    /// No memory was found for the entry in the queue, for what is to wake the get, or for a new object.
    OutOfMemory,
    /// No object number is left.
    NumbersExhausted,
    /// A timeout is set, and there is no runtime to tell it.
    NoRuntime,
    /// The creation was pending for too long.
    Late,
    /// The manager has made no value.
    Failed,
    /// A hook has refused the new object.
    Refused,
    /// It was dropped, or something that it called has never come back.
    Dropped,
    /// The object is out, is back, or was taken.
    Done,
}

/// How many hooks each list has. It is the same for all events of an order.
#[derive(Clone, Copy)]
pub struct HookCounts {
    pub pre_recycle: usize,
    pub post_recycle: usize,
    pub post_create: usize,
}
