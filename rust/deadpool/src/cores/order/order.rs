// Made by .ci/made-rust of crates/deadpool_order/src/order.rt, without its contracts. The proof is of that text.
//! The order, the step that it has, and the replies that it is told.

mod events;

use crate::cores::desk::{Held, Reply, Step};
use crate::cores::order::{Cause, Command, HookCounts, State, Then};

/// The order of a get, of a return or of a take.
pub struct Order {
    state: State,
    // How many more idle objects its get may take in this poll. None set is as many as are idle.
    left: Option<usize>,
}

impl Order {
    /// That of a get, which was not polled yet.
    #[inline]
    pub fn new() -> Self {
        Order { state: State::New, left: None }
    }

    /// That of an object which comes back. Its first command is `Back`.
    #[inline]
    pub fn returning() -> Self {
        Order { state: State::Returning, left: None }
    }

    /// That of an object which is taken out of the pool. Its first command is `Make`.
    #[inline]
    pub fn taking() -> Self {
        Order { state: State::Taking, left: None }
    }

    /// One that is at this state, as it was read of another one.
    #[inline]
    pub fn resumed(state: State, left: Option<usize>) -> Self {
        Order { state, left }
    }

    /// How far it is.
    #[inline]
    pub fn state(&self) -> &State {
        &self.state
    }

    /// How many more idle objects its get may take in this poll. None set is as many as are idle.
    #[inline]
    pub fn left(&self) -> Option<usize> {
        self.left
    }

    /// Whether nothing is left to do.
    #[inline(always)]
    pub fn is_over(&self) -> bool {
        matches!(&self.state, State::Over(_))
    }

    /// The step that is to be made.
    #[inline]
    pub fn step(&self) -> Step {
        match &self.state {
            State::Entering { wait } => Step::Enter { wait: *wait },
            State::Asking { ticket, expired } => Step::Ask { ticket: *ticket, expired: *expired },
            State::GoingOn => Step::Again { allowance: self.left },
            State::Numbering => Step::Created,
            State::Failing(_) => Step::Failed,
            State::Discarding => Step::Discard,
            State::Refusing => Step::Refused,
            State::Withdrawing(ticket, _) => Step::Withdraw { ticket: *ticket },
            State::Cancelling(held) => Step::Cancel(*held),
            State::Returning => Step::Back,
            State::Taking => Step::Take,
            _ => unreachable!(),
        }
    }

    /// The step was made, and has this reply. It is told before any code of a user's runs, wakers among it.
    #[inline(always)]
    pub fn replied(&mut self, counts: &HookCounts, step: &Step, reply: Reply) -> Command {
        match step {
            Step::Enter { .. } | Step::Ask { .. } | Step::Again { .. } => self.served(counts, reply),
            Step::Created => match reply {
                Reply::Number(_) => self.checked(counts, 0),
                _ => self.gone(Then::End(Cause::Closed), reply),
            },
            Step::Discard => self.gone(Then::GoOn, reply),
            Step::Refused => self.gone(Then::End(Cause::Refused), reply),
            Step::Cancel(Held::Object) => self.gone(Then::End(Cause::Dropped), reply),
            Step::Cancel(_) => self.tell(cause_or(Cause::Dropped, reply)),
            Step::Failed => {
                let cause = match &self.state {
                    State::Failing(cause) => *cause,
                    _ => Cause::Failed,
                };
                self.tell(cause_or(cause, reply))
            }
            Step::Withdraw { .. } => {
                let cause = match &self.state {
                    State::Withdrawing(_, cause) => *cause,
                    _ => Cause::Dropped,
                };
                self.to(State::Over(cause), Command::End(cause))
            }
            Step::Back => match reply {
                Reply::Kept => self.to(State::Over(Cause::Done), Command::End(Cause::Done)),
                _ => self.gone(Then::End(Cause::Done), reply),
            },
            Step::Take => match reply {
                Reply::Taken { detach: false } => self.to(State::Parted, Command::Tell),
                _ => self.to(State::Parting, Command::Part),
            },
        }
    }

    // The reply to a get that asks for a place. One that had a place, and has none any more, tells of it.
    #[inline(always)]
    fn served(&mut self, counts: &HookCounts, reply: Reply) -> Command {
        let cause = match reply {
            Reply::Object { left } => {
                self.left = Some(left);
                return self.pre_recycled(counts, 0);
            }
            Reply::Create => return self.to(State::Creating, Command::Create),
            Reply::Going => {
                self.left = None;
                return self.to(State::Going, Command::Pause);
            }
            Reply::Waiting(ticket) => return self.to(State::Queued(ticket), Command::Wait(ticket)),
            Reply::Exhausted => return self.tell(Cause::NumbersExhausted),
            Reply::Full | Reply::Expired => Cause::NoPlace,
            Reply::Crowded => Cause::Crowded,
            Reply::OutOfMemory => Cause::OutOfMemory,
            _ => Cause::Closed,
        };
        self.to(State::Over(cause), Command::End(cause))
    }

    // An object has left the pool. It is detached, if the pool has given it up or does not know it.
    #[inline(always)]
    fn gone(&mut self, next: Then, reply: Reply) -> Command {
        match reply {
            Reply::Done | Reply::Detach => self.detach_then(next),
            Reply::Dropped => self.release_then(next),
            _ => self.detach_then(Then::End(Cause::Closed)),
        }
    }

    // The hooks before the recycling see the object, from this one on, then it is recycled.
    #[inline(always)]
    fn pre_recycled(&mut self, counts: &HookCounts, at: usize) -> Command {
        if at < counts.pre_recycle {
            return self.to(State::PreRecycling(at), Command::PreRecycle(at));
        }
        self.to(State::Recycling, Command::Recycle)
    }

    // The hooks after the recycling see it, from this one on, then it is given out.
    #[inline(always)]
    fn post_recycled(&mut self, counts: &HookCounts, at: usize) -> Command {
        if at < counts.post_recycle {
            return self.to(State::PostRecycling(at), Command::PostRecycle(at));
        }
        let recycled = true;
        self.to(State::Giving { recycled }, Command::Give { recycled })
    }

    // The hooks see the new object, from this one on, then it is given out.
    #[inline(always)]
    fn checked(&mut self, counts: &HookCounts, at: usize) -> Command {
        if at < counts.post_create {
            return self.to(State::Checking(at), Command::PostCreate(at));
        }
        let recycled = false;
        self.to(State::Giving { recycled }, Command::Give { recycled })
    }

    // The manager is told of what is in the hand.
    #[inline(always)]
    fn detach_then(&mut self, next: Then) -> Command {
        self.to(State::Detaching(next), Command::Detach)
    }

    // What is in the hand is dropped, if anything is.
    #[inline(always)]
    fn release_then(&mut self, next: Then) -> Command {
        self.to(State::Releasing(next), Command::Release)
    }

    // Those that wait for the pool's end are told, and it ends.
    #[inline(always)]
    fn tell(&mut self, cause: Cause) -> Command {
        self.to(State::Telling(cause), Command::Tell)
    }

    #[inline(always)]
    fn to(&mut self, state: State, command: Command) -> Command {
        self.state = state;
        command
    }
}

// Why a get ends, unless the desk did not know its step.
#[inline(always)]
fn cause_or(cause: Cause, reply: Reply) -> Cause {
    match reply {
        Reply::Unknown => Cause::Closed,
        _ => cause,
    }
}
