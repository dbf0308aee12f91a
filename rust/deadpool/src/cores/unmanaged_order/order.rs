// Made by .ci/made-rust of crates/deadpool_unmanaged_order/src/order.rt, without its contracts. The proof is of that text.
//! The order, the step that it has, and what it is told.

use crate::cores::unmanaged::{Reply, Step};
use crate::cores::unmanaged_order::{Cause, Command, Line, State};

/// The order of a get, of an add, of a return or of a take.
pub struct Order {
    state: State,
}

impl Order {
    /// That of a get. Its first command is `Ask` if it may wait, and else `Pass`.
    #[inline]
    pub fn getting(wait: bool) -> Self {
        let line = Line::Gets;
        Order { state: State::Entering { line, wait } }
    }

    /// That of an add, whose object is in the hand. Its first command is `Ask` if it may wait, and else `Pass`.
    #[inline]
    pub fn adding(wait: bool) -> Self {
        let line = Line::Adds;
        Order { state: State::Entering { line, wait } }
    }

    /// That of an object which comes back, and is in the hand. Its first command is `Pass`.
    #[inline]
    pub fn returning() -> Self {
        Order { state: State::Returning }
    }

    /// That of an object which is taken out of the pool, and is in the hand. Its first command is `Make`.
    #[inline]
    pub fn taking() -> Self {
        Order { state: State::Taking }
    }

    /// Whether nothing is left to do.
    #[inline(always)]
    pub fn is_over(&self) -> bool {
        matches!(&self.state, State::Over(_))
    }

    /// The step that is to be made.
    #[inline(always)]
    pub fn step(&self) -> Step {
        match &self.state {
            State::Entering { line: Line::Gets, wait } => Step::GetEnter { wait: *wait },
            State::Entering { line: Line::Adds, wait } => Step::AddEnter { wait: *wait },
            State::Asking { line: Line::Gets, ticket, expired } => Step::GetAsk { ticket: *ticket, expired: *expired },
            State::Asking { line: Line::Adds, ticket, .. } => Step::AddAsk { ticket: *ticket },
            State::Withdrawing(Line::Gets, ticket, _) => Step::GetCancel { ticket: *ticket },
            State::Withdrawing(Line::Adds, ticket, _) => Step::AddCancel { ticket: *ticket },
            State::Returning => Step::Back,
            State::Taking => Step::Take,
            _ => unreachable!(),
        }
    }

    /// The step was made, and has this reply. It is told before any code of a user's runs, wakers among it.
    #[inline(always)]
    pub fn replied(&mut self, step: &Step, reply: Reply) -> Command {
        match step {
            Step::GetEnter { .. } | Step::GetAsk { .. } => self.get_replied(reply),
            Step::AddEnter { .. } | Step::AddAsk { .. } => self.add_replied(reply),
            Step::GetCancel { .. } => {
                let cause = self.cause();
                self.ends(cause)
            }
            Step::AddCancel { .. } => {
                let cause = self.cause();
                self.yields(cause)
            }
            Step::Back => match reply {
                Reply::Kept => self.ends(Cause::Done),
                _ => self.to(State::Releasing, Command::Release),
            },
            Step::Take => self.parts(),
        }
    }

    // The reply to a get.
    #[inline(always)]
    fn get_replied(&mut self, reply: Reply) -> Command {
        match reply {
            Reply::Object => self.to(State::Giving, Command::Give),
            Reply::Waiting(ticket) => self.to(State::Queued(Line::Gets, ticket), Command::Wait(ticket)),
            _ => self.ends(cause_of(reply)),
        }
    }

    // The reply to an add. One that is refused gives its object back.
    #[inline(always)]
    fn add_replied(&mut self, reply: Reply) -> Command {
        match reply {
            Reply::Stored => self.ends(Cause::Done),
            Reply::Waiting(ticket) => self.to(State::Queued(Line::Adds, ticket), Command::Wait(ticket)),
            _ => self.yields(cause_of(reply)),
        }
    }

    // Why it leaves the queue.
    #[inline(always)]
    fn cause(&self) -> Cause {
        match &self.state {
            State::Withdrawing(_, _, cause) => *cause,
            _ => Cause::Dropped,
        }
    }

    /// It is in the queue, and no memory was found for what is to wake it.
    #[inline]
    pub fn unheard(&mut self) -> Command {
        match &self.state {
            State::Queued(line, ticket) => {
                let (line, ticket, cause) = (*line, *ticket, Cause::OutOfMemory);
                self.to(State::Withdrawing(line, ticket, cause), Command::Make)
            }
            _ => unreachable!(),
        }
    }

    /// It is polled again. It may have waited for too long.
    #[inline(always)]
    pub fn polled(&mut self, expired: bool) -> Command {
        match &self.state {
            State::Queued(line, ticket) => {
                let (line, ticket) = (*line, *ticket);
                self.to(State::Asking { line, ticket, expired }, Command::Ask)
            }
            _ => unreachable!(),
        }
    }

    /// A call begins that answers nothing: a drop, or what tells of the pool's end. It is told first, so that none is
    /// made twice, even if it never comes back. What it says is next once the call has come back.
    #[inline(always)]
    pub fn begins(&mut self) -> Command {
        match &self.state {
            State::Parted => self.yields(Cause::Done),
            State::Releasing => self.tells(),
            State::Telling => self.ends(Cause::Done),
            _ => unreachable!(),
        }
    }

    /// What was in the hand is out, or was handed over.
    #[inline(always)]
    pub fn gives(&mut self) {
        self.state = State::Over(Cause::Done);
    }

    /// It is dropped, or a call has never come back, anywhere: what it has at the pool is given back. By three commands
    /// at most it is at its end, whichever of their calls come back.
    #[cold]
    pub fn dropped(&mut self) -> Command {
        match &self.state {
            State::Entering { line: Line::Gets, .. } => self.ends(Cause::Dropped),
            State::Entering { line: Line::Adds, .. } => self.yields(Cause::Dropped),
            State::Asking { line, ticket, .. } | State::Queued(line, ticket) | State::Withdrawing(line, ticket, _) => {
                let (line, ticket, cause) = (*line, *ticket, Cause::Dropped);
                self.to(State::Withdrawing(line, ticket, cause), Command::Make)
            }
            State::Giving | State::Returning | State::Taking => self.to(State::Returning, Command::Pass),
            State::Parted => self.parts(),
            State::Releasing => self.to(State::Releasing, Command::Release),
            State::Telling => self.tells(),
            State::Yielding(cause) => {
                let cause = *cause;
                self.yields(cause)
            }
            State::Over(cause) => {
                let cause = *cause;
                self.ends(cause)
            }
        }
    }

    // An object was taken, and is no part of the pool.
    #[inline(always)]
    fn parts(&mut self) -> Command {
        let has_departed = false;
        self.to(State::Parted, Command::Tell { has_departed })
    }

    // What has departed is gone.
    #[inline(always)]
    fn tells(&mut self) -> Command {
        let has_departed = true;
        self.to(State::Telling, Command::Tell { has_departed })
    }

    #[inline(always)]
    fn ends(&mut self, cause: Cause) -> Command {
        self.to(State::Over(cause), Command::End(cause))
    }

    // What is in the hand goes to whoever owns the order.
    #[inline(always)]
    fn yields(&mut self, cause: Cause) -> Command {
        self.to(State::Yielding(cause), Command::Yield(cause))
    }

    #[inline(always)]
    fn to(&mut self, state: State, command: Command) -> Command {
        self.state = state;
        command
    }
}

// Why one ends that is refused.
#[inline(always)]
fn cause_of(reply: Reply) -> Cause {
    match reply {
        Reply::Full | Reply::Expired => Cause::NothingFree,
        Reply::Crowded => Cause::Crowded,
        Reply::OutOfMemory => Cause::OutOfMemory,
        _ => Cause::Closed,
    }
}
