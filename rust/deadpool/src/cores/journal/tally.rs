// Made by .ci/made-rust of crates/deadpool_journal/src/tally.rt, without its contracts. The proof is of that text.
//! How often each thing has happened in a pool.

use crate::cores::desk::{Held, OwnerStep, Reply, Step};

/// How often each thing has happened since a pool was opened. A count stays at its greatest value.
#[derive(Clone, Copy, Debug, PartialEq, Eq)]
pub struct Tally {
    /// Gets that asked for a place.
    pub gets: u64,
    /// Gets that were given a place, at once or after a wait.
    pub served: u64,
    /// Gets that joined the queue, since no place was free.
    pub waited: u64,
    /// Gets that ended without a place, at once where they did not wait, or when they had waited long enough.
    pub late: u64,
    /// Gets that were refused since as many waited as may.
    pub crowded: u64,
    /// Gets that were refused since the pool had closed, at once or after a wait.
    pub closed: u64,
    /// Creations that made an object.
    pub created: u64,
    /// Creations that ended in an error.
    pub failed: u64,
    /// Objects refused by the manager or a hook, or recycled too late.
    pub refused: u64,
    /// Objects that were given up with the get that prepared them.
    pub cancelled: u64,
    /// Objects that were given up since there were more than the limit, which is 0 once the pool has closed.
    pub surplus: u64,
    /// Idle objects that a retain gave up.
    pub not_retained: u64,
    /// Objects that were taken out of the pool for good.
    pub taken: u64,
    /// Objects that went with the last handle, or came back after it.
    pub dropped: u64,
}

// A count with so many more.
#[inline]
fn add(count: &mut u64, by: u64) {
    *count = count.saturating_add(by);
}

impl Tally {
    /// That of a pool that has made no step.
    #[inline]
    pub fn new() -> Tally {
        Tally {
            gets: 0,
            served: 0,
            waited: 0,
            late: 0,
            crowded: 0,
            closed: 0,
            created: 0,
            failed: 0,
            refused: 0,
            cancelled: 0,
            surplus: 0,
            not_retained: 0,
            taken: 0,
            dropped: 0,
        }
    }

    /// Counts a step of a get or an object.
    #[inline(always)]
    pub(crate) fn count(&mut self, step: &Step, reply: &Reply) {
        match (step, reply) {
            (Step::Enter { .. }, Reply::Object { .. } | Reply::Create) => {
                add(&mut self.gets, 1);
                add(&mut self.served, 1);
            }
            (Step::Enter { .. }, _) => self.enter(reply),
            (Step::Ask { .. }, _) => self.answer(reply),
            (Step::Created, Reply::Number(_)) => add(&mut self.created, 1),
            (Step::Failed, Reply::Done) => add(&mut self.failed, 1),
            (Step::Discard | Step::Refused, Reply::Done) => add(&mut self.refused, 1),
            (Step::Cancel(Held::Object), Reply::Done) => add(&mut self.cancelled, 1),
            (Step::Back, Reply::Kept) => {}
            (Step::Back, _) => self.come_back(reply),
            (Step::Take, Reply::Taken { .. }) => add(&mut self.taken, 1),
            _ => {}
        }
    }

    // Counts a get that enters. (What `count` does with the usual replies costs less.)
    #[inline(never)]
    fn enter(&mut self, reply: &Reply) {
        add(&mut self.gets, 1);
        match reply {
            Reply::Waiting(_) => add(&mut self.waited, 1),
            _ => self.answer(reply),
        }
    }

    // Counts the reply to a get that asks for its place.
    #[inline(never)]
    fn answer(&mut self, reply: &Reply) {
        match reply {
            Reply::Object { .. } | Reply::Create | Reply::Going => add(&mut self.served, 1),
            Reply::Full | Reply::Expired => add(&mut self.late, 1),
            Reply::Crowded => add(&mut self.crowded, 1),
            Reply::Closed => add(&mut self.closed, 1),
            _ => {}
        }
    }

    // Counts an object that comes back.
    #[inline(never)]
    fn come_back(&mut self, reply: &Reply) {
        match reply {
            Reply::Detach => add(&mut self.surplus, 1),
            Reply::Dropped => add(&mut self.dropped, 1),
            _ => {}
        }
    }

    /// Counts a step of the owner, by which so many idle objects go.
    #[inline(always)]
    pub(crate) fn count_for_owner(&mut self, step: &OwnerStep, gone: usize) {
        match step {
            OwnerStep::Resize { .. } | OwnerStep::Close => add(&mut self.surplus, gone as u64),
            OwnerStep::DropHandle => add(&mut self.dropped, gone as u64),
            _ => {}
        }
    }

    /// Counts a retain with its result, by which so many idle objects go.
    #[inline]
    pub(crate) fn count_retain<A, E>(&mut self, retained: &Result<A, E>, gone: usize) {
        if retained.is_ok() {
            self.count_not_retained(gone);
        }
    }

    /// Counts so many idle objects that a retain gave up.
    #[inline]
    pub(crate) fn count_not_retained(&mut self, gone: usize) {
        add(&mut self.not_retained, gone as u64);
    }
}
