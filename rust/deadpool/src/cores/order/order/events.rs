// Made by .ci/made-rust of crates/deadpool_order/src/order/events.rt, without its contracts. The proof is of that text.
//! The events of an order, but for the reply to a step. Each says what is next.

use crate::cores::desk::Held;
use crate::cores::order::{Cause, Command, HookCounts, Order, State, Then};

impl Order {
    /// The get is polled for the first time.
    #[inline(always)]
    pub fn started(&mut self, wait: bool) -> Command {
        self.to(State::Entering { wait }, Command::Enter { wait })
    }

    /// The same of a get that may wait so long, without a runtime to tell the time. It has made no step.
    #[inline]
    pub fn lacking(&mut self) -> Command {
        let cause = Cause::NoRuntime;
        self.to(State::Over(cause), Command::End(cause))
    }

    /// It is in the queue, and no memory was found for what is to wake it.
    #[inline]
    pub fn unheard(&mut self) -> Command {
        match &self.state {
            State::Queued(ticket) => {
                let (ticket, cause) = (*ticket, Cause::OutOfMemory);
                self.to(State::Withdrawing(ticket, cause), Command::Make)
            }
            _ => unreachable!(),
        }
    }

    /// It is polled again. In the queue it may have waited for too long.
    #[inline]
    pub fn polled(&mut self, expired: bool) -> Command {
        match &self.state {
            State::Queued(ticket) => {
                let ticket = *ticket;
                self.to(State::Asking { ticket, expired }, Command::Ask)
            }
            _ => self.to(State::GoingOn, Command::Make),
        }
    }

    /// The poll ends within a call. The next one has an allowance of its own.
    #[inline]
    pub fn pauses(&mut self) {
        self.left = None;
    }

    /// A call ended well.
    #[inline(always)]
    pub fn ready(&mut self, counts: &HookCounts) -> Command {
        match &self.state {
            State::Creating => self.to(State::Numbering, Command::Number),
            State::PreRecycling(at) => {
                let next = *at + 1;
                self.pre_recycled(counts, next)
            }
            State::Recycling => self.post_recycled(counts, 0),
            State::PostRecycling(at) => {
                let next = *at + 1;
                self.post_recycled(counts, next)
            }
            State::Checking(at) => {
                let next = *at + 1;
                self.checked(counts, next)
            }
            _ => unreachable!(),
        }
    }

    /// A call ended badly, was pending for too long, or was not made. Of a creation this is the cause by which its get
    /// ends.
    #[inline]
    pub fn failed(&mut self, cause: Cause) -> Command {
        match &self.state {
            State::Creating => self.to(State::Failing(cause), Command::Make),
            State::Checking(_) => self.to(State::Refusing, Command::Make),
            _ => self.to(State::Discarding, Command::Make),
        }
    }

    /// A call begins that answers nothing: a detach, a drop, or what tells of the pool's end. It is told first, so that
    /// none is made twice, even if it never comes back. What it says is next once the call has come back.
    #[inline(always)]
    pub fn begins(&mut self) -> Command {
        match &self.state {
            State::Parting => self.to(State::Parted, Command::Tell),
            State::Parted => self.to(State::Yielding, Command::Yield),
            State::Detaching(next) => {
                let next = *next;
                self.release_then(next)
            }
            State::Releasing(Then::GoOn) => self.to(State::GoingOn, Command::Make),
            State::Releasing(Then::Cancel) => self.cancel(Held::Place),
            State::Releasing(Then::End(cause)) => {
                let cause = *cause;
                self.tell(cause)
            }
            State::Telling(cause) => {
                let cause = *cause;
                self.to(State::Over(cause), Command::End(cause))
            }
            _ => unreachable!(),
        }
    }

    /// The object leaves the hand for whoever has asked for it, and holds its place from now on, or for its taker.
    #[inline(always)]
    pub fn gives(&mut self) {
        self.state = State::Over(Cause::Done);
    }

    /// It is dropped, or a call has never come back, anywhere: what is held is given back, and an object in the hand is
    /// given up. By four commands at most it is at its end, whichever of their calls come back.
    #[cold]
    pub fn dropped(&mut self) -> Command {
        match &self.state {
            State::New | State::Entering { .. } => self.to(State::Over(Cause::Dropped), Command::End(Cause::Dropped)),
            State::Asking { ticket, .. } | State::Queued(ticket) | State::Withdrawing(ticket, _) => {
                let ticket = *ticket;
                self.to(State::Withdrawing(ticket, Cause::Dropped), Command::Make)
            }
            State::Going | State::GoingOn => self.cancel(Held::Place),
            State::Creating | State::Numbering | State::Failing(_) => self.cancel(Held::Creation),
            State::Cancelling(held) => {
                let held = *held;
                self.cancel(held)
            }
            State::Returning => self.to(State::Returning, Command::Back),
            State::Parting => self.to(State::Detaching(Then::End(Cause::Dropped)), Command::Detach),
            State::Detaching(next) => {
                let next = next.dropped();
                self.to(State::Detaching(next), Command::Detach)
            }
            State::Parted | State::Yielding => self.release_then(Then::End(Cause::Dropped)),
            State::Releasing(next) => {
                let next = next.dropped();
                self.release_then(next)
            }
            State::Telling(cause) => {
                let cause = *cause;
                self.tell(cause)
            }
            State::Over(cause) => {
                let cause = *cause;
                self.to(State::Over(cause), Command::End(cause))
            }
            _ => self.cancel(Held::Object),
        }
    }

    // What is held is given back.
    #[inline]
    fn cancel(&mut self, held: Held) -> Command {
        self.to(State::Cancelling(held), Command::Make)
    }
}

impl Then {
    // The same, if its get is dropped meanwhile.
    #[inline]
    fn dropped(&self) -> Then {
        match self {
            Then::GoOn => Then::Cancel,
            next => *next,
        }
    }
}
