// Made by .ci/made-rust of crates/deadpool_unmanaged_journal/src/tally.rt, without its contracts. The proof is of that text.
//! How often each thing has happened in a pool.

use crate::cores::unmanaged::{Reply, Step};
use crate::cores::unmanaged_journal::OwnerStep;

/// How often each thing has happened since a pool was opened. A count stays at its greatest value.
#[derive(Clone, Copy, Debug, PartialEq, Eq)]
pub struct Tally {
    /// Gets that asked for an object.
    pub gets: u64,
    /// Gets that were given an object, at once or after a wait.
    pub served: u64,
    /// Gets that joined the queue, since no object was free.
    pub waited: u64,
    /// Gets that ended without an object, at once where they did not wait, or when they had waited long enough.
    pub late: u64,
    /// Gets that were refused since as many waited as may.
    pub crowded: u64,
    /// Gets that were refused since the pool had closed or its last handle had gone, at once or after a wait.
    pub closed: u64,
    /// Adds that brought an object.
    pub adds: u64,
    /// Adds whose object the pool took, at once or after a wait.
    pub stored: u64,
    /// Adds that joined the queue, since there was no room.
    pub adds_waited: u64,
    /// Adds that were refused at once, since there was no room and they did not wait.
    pub adds_full: u64,
    /// Adds that were refused since as many waited as may.
    pub adds_crowded: u64,
    /// Adds that were refused since the pool had closed, at once or after a wait.
    pub adds_closed: u64,
    /// Objects that were taken out of the pool for good.
    pub taken: u64,
    /// Objects that went with a close or the last handle, or came back after it.
    pub dropped: u64,
}

// A count with so many more.
#[inline]
fn add(count: &mut u64, by: u64) {
    *count = count.saturating_add(by);
}

impl Tally {
    /// That of a pool that has made no step.
    #[inline]
    pub fn new() -> Tally {
        Tally {
            gets: 0,
            served: 0,
            waited: 0,
            late: 0,
            crowded: 0,
            closed: 0,
            adds: 0,
            stored: 0,
            adds_waited: 0,
            adds_full: 0,
            adds_crowded: 0,
            adds_closed: 0,
            taken: 0,
            dropped: 0,
        }
    }

    /// Counts a step of a get, an add or an object.
    #[inline(always)]
    pub(crate) fn count(&mut self, step: &Step, reply: &Reply) {
        match (step, reply) {
            (Step::GetEnter { .. }, _) => self.enter_get(reply),
            (Step::GetAsk { .. }, _) => self.answer_get(reply),
            (Step::AddEnter { .. }, _) => self.enter_add(reply),
            (Step::AddAsk { .. }, _) => self.answer_add(reply),
            (Step::Back, Reply::Dropped) => add(&mut self.dropped, 1),
            (Step::Take, Reply::Taken) => add(&mut self.taken, 1),
            _ => {}
        }
    }

    // Counts a get that enters.
    #[inline(always)]
    fn enter_get(&mut self, reply: &Reply) {
        add(&mut self.gets, 1);
        match reply {
            Reply::Waiting(_) => add(&mut self.waited, 1),
            _ => self.answer_get(reply),
        }
    }

    // Counts the reply to a get that asks for an object.
    #[inline(always)]
    fn answer_get(&mut self, reply: &Reply) {
        match reply {
            Reply::Object => add(&mut self.served, 1),
            Reply::Full | Reply::Expired => add(&mut self.late, 1),
            Reply::Crowded => add(&mut self.crowded, 1),
            Reply::Closed => add(&mut self.closed, 1),
            _ => {}
        }
    }

    // Counts an add that enters.
    #[inline(always)]
    fn enter_add(&mut self, reply: &Reply) {
        add(&mut self.adds, 1);
        match reply {
            Reply::Waiting(_) => add(&mut self.adds_waited, 1),
            _ => self.answer_add(reply),
        }
    }

    // Counts the reply to an add that asks for room.
    #[inline(always)]
    fn answer_add(&mut self, reply: &Reply) {
        match reply {
            Reply::Stored => add(&mut self.stored, 1),
            Reply::Full => add(&mut self.adds_full, 1),
            Reply::Crowded => add(&mut self.adds_crowded, 1),
            Reply::Closed => add(&mut self.adds_closed, 1),
            _ => {}
        }
    }

    /// Counts a step of the owner, by which so many idle objects go.
    #[inline(always)]
    pub(crate) fn count_for_owner(&mut self, step: &OwnerStep, gone: usize) {
        match step {
            OwnerStep::Close | OwnerStep::DropHandle => add(&mut self.dropped, gone as u64),
            _ => {}
        }
    }
}
