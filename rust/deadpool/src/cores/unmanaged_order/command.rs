// Made by .ci/made-rust of crates/deadpool_unmanaged_order/src/command.rt, without its contracts. The proof is of that text.
//! What an order says is next.
use crate::cores::unmanaged::gate::Ticket;

/// What is to be done next.
///
/// The **hand** is where the executor keeps the value of its get or add, or of the object that comes back or is taken.
#[derive(Clone, Copy)]
pub enum Command {
    /// Make the step that the order has with what is in the hand, and tell its reply. It may have to wait then.
    Ask,
    /// Make the step that the order has with what is in the hand, and tell its reply.
    Pass,
    /// Make the step that the order has, and tell its reply. What is in the hand stays there.
    Make,
    /// Keep what wakes it, by this ticket, and end the poll until it is woken or the wait is too long.
    Wait(Ticket),
    /// Give out the object in the hand, and tell it.
    Give,
    /// Hand over what is in the hand to whoever owns the order, and tell it.
    Yield(Cause),
    /// Tell that it begins, then drop what is in the hand. It departs from the step on after which this comes.
    Release,
    /// Tell that it begins, then tell those that wait for the pool's end, if it has come. What has departed, if it has,
    /// is gone.
    Tell { has_departed: bool },
    /// Nothing is left to do, and the hand is empty.
    End(Cause),
}

/// Why an order has ended.
#[derive(Clone, Copy)]
pub enum Cause {
    /// The pool is closed, or does not know what the order has there.
    Closed,
    /// Nothing was free in time.
    NothingFree,
    /// As many wait as may.
    Crowded,
    /// No memory was found for the entry in the queue, or for what is to wake it.
    OutOfMemory,
    /// It was dropped, or something that it called has never come back.
    Dropped,
    /// The object is out, in the pool, back, or was taken.
    Done,
}
