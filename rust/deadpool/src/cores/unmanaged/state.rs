// Made by .ci/made-rust of crates/deadpool_unmanaged/src/state.rt, without its contracts. The proof is of that text.
//! The core of an unmanaged pool: a line for objects, a line for room, and the idle objects; and each step that a get,
//! an add or an object makes.
//!
//! `counted` has what a core says of itself, and `owner` the steps of the pool's owner.

use crate::rattle::Vec;
mod counted;
mod owner;

use crate::cores::gate::gate::{Ask, Entry, Gate, Ticket, Withdrawn};
use crate::cores::unmanaged::{Reply, Step};
use crate::rattle::{AllocError, Global};

/// The state of an unmanaged pool on one thread. A step that puts something in or gives something back ends with the
/// settling: the earliest gets that wait are granted the objects that are free, and the earliest adds the free room. So
/// in an open pool nobody waits for what is free. In an open pool with a handle, an object or room that was granted is
/// nobody else's until its party has asked or cancelled.
///
/// No step tells a get or an add in the queue that its wait has ended. Who owns the core asks `take_get_wake` and
/// `take_add_wake` whom to tell.
pub struct Core<T> {
    // Gets ask for objects, and adds for room.
    gets: Gate,
    adds: Gate,
    // The last is the next to go out.
    idle: Vec<T>,
    limit: usize,
    // How many objects are out.
    outside: usize,
    handles: u64,
    // How many gets may wait, and how many adds. So many as the greatest number never do.
    max_waiting: usize,
}

// The next object goes out.
#[inline(always)]
fn take_last<T>(idle: &mut Vec<T>) -> Option<T> {
    idle.pop()
}

// The object in the hand joins the idle ones, where there is room for it, and the earliest get that waits is granted
// it.
#[inline(always)]
fn store<T>(idle: &mut Vec<T>, gets: &mut Gate, hand: &mut Option<T>) {
    let Some(value) = hand.take() else {
        unreachable!();
    };
    match idle.push(value) {
        Ok(()) => gets.settle_within(idle.len(), 0),
        Err(_) => unreachable!(),
    }
}

impl<T> Core<T> {
    /// An open pool with nothing idle and one handle. It has room for `max_size` objects from now on: only
    /// those that enter are answered `OutOfMemory`, for an entry in a queue that has no room left.
    #[inline]
    pub fn new(alloc: Global, max_size: usize) -> Result<Core<T>, AllocError> {
        let idle = Vec::with_capacity(alloc, max_size)?;
        Ok(Core::open(alloc, idle, max_size))
    }

    /// An open pool with one handle, in which these objects are idle, the last to go out first, and no more fit.
    #[inline]
    pub fn from_items(alloc: Global, items: Vec<T>) -> Core<T> {
        let limit = items.len();
        Core::open(alloc, items, limit)
    }

    // An open pool with these objects idle and one handle.
    #[inline]
    fn open(alloc: Global, idle: Vec<T>, limit: usize) -> Core<T> {
        Core {
            gets: Gate::new(alloc),
            adds: Gate::new(alloc),
            idle,
            limit,
            outside: 0,
            handles: 1,
            max_waiting: usize::MAX,
        }
    }

    /// The pool with a bound on the gets that wait, and on the adds, or with none, before any waits.
    #[inline]
    pub fn bounded(self, max_waiting: Option<usize>) -> Self {
        Core { max_waiting: max_waiting.unwrap_or(usize::MAX), ..self }
    }

    /// What is true of every core. The call does nothing.
    #[inline]
    pub fn laws(&self) {
        let _ = &self.gets;
    }

    /// Sees that each queue has room for all that may wait in it and all that may be granted what they ask for, an
    /// object or room for one. As the limit stays, no entry is refused for want of memory from then on. Without memory
    /// for that only the room may have changed. A pool with no bound on those that wait never finds it.
    #[inline]
    pub fn make_room_for_waiting(&mut self) -> Result<(), AllocError> {
        if self.has_room_for_waiting() {
            return Ok(());
        }
        let most = self.most_listed();
        if most > usize::MAX / 2 {
            return Err(AllocError);
        }
        self.gets.reserve(most)?;
        self.adds.reserve(most)
    }

    /// The earliest get in the queue whose wait has ended, by an object or by the closing, and that was not named
    /// before. It stays in the queue until it asks or cancels. Nothing else changes.
    #[inline]
    pub fn take_get_wake(&mut self) -> Option<Ticket> {
        self.gets.take_wake()
    }

    /// The earliest add in the queue whose wait has ended, by room or by the closing, and that was not named before. It
    /// stays in the queue until it asks or cancels. Nothing else changes.
    #[inline]
    pub fn take_add_wake(&mut self) -> Option<Ticket> {
        self.adds.take_wake()
    }

    /// Whether `take_get_wake` or `take_add_wake` would name somebody.
    #[inline]
    pub fn is_wake_due(&self) -> bool {
        self.gets.is_wake_due() || self.adds.is_wake_due()
    }

    /// Makes one step. The object that it takes or gives is in `hand`. `OutOfMemory` comes only if the queue had no
    /// room left, so never once there is room for all that may wait.
    #[inline(always)]
    pub fn make(&mut self, step: &Step, hand: &mut Option<T>) -> Reply {
        let _ = &self.gets;
        match step {
            Step::GetEnter { wait } => self.get_enter(*wait, hand),
            Step::GetAsk { ticket, expired } => self.get_ask(*ticket, *expired, hand),
            Step::GetCancel { ticket } => self.get_cancel(*ticket),
            Step::AddEnter { wait } => self.add_enter(*wait, hand),
            Step::AddAsk { ticket } => self.add_ask(*ticket, hand),
            Step::AddCancel { ticket } => self.add_cancel(*ticket),
            Step::Back => self.back(hand),
            Step::Take => self.take(),
        }
    }

    // It has an object, joins the queue, or is refused.
    #[inline(always)]
    fn get_enter(&mut self, wait: bool, hand: &mut Option<T>) -> Reply {
        let objects = self.free_objects();
        let may_join = self.get_may_join(wait);
        match self.gets.enter(objects, may_join) {
            Entry::Granted => match take_last(&mut self.idle) {
                Some(value) => {
                    *hand = Some(value);
                    self.outside += 1;
                    Reply::Object
                }
                None => unreachable!(),
            },
            Entry::Closed => Reply::Closed,
            Entry::Full if wait => Reply::Crowded,
            Entry::Full => Reply::Full,
            Entry::Waiting(ticket) => Reply::Waiting(ticket),
            Entry::OutOfMemory => Reply::OutOfMemory,
        }
    }

    // It has an object, stays, or leaves the queue.
    #[inline]
    fn get_ask(&mut self, ticket: Ticket, expired: bool, hand: &mut Option<T>) -> Reply {
        match self.gets.ask(ticket) {
            Ask::Granted => match take_last(&mut self.idle) {
                Some(value) => {
                    *hand = Some(value);
                    self.outside += 1;
                    Reply::Object
                }
                None => Reply::Closed,
            },
            Ask::Closed => Reply::Closed,
            Ask::Unknown => Reply::Unknown,
            Ask::Waiting => {
                if expired {
                    self.gets.withdraw(ticket);
                    Reply::Expired
                } else {
                    Reply::Waiting(ticket)
                }
            }
        }
    }

    // What it was granted goes to the next.
    #[inline]
    fn get_cancel(&mut self, ticket: Ticket) -> Reply {
        if let Withdrawn::Unknown = self.gets.withdraw(ticket) {
            return Reply::Unknown;
        }
        self.gets.settle_within(self.idle.len(), 0);
        Reply::Done
    }

    // It leaves its object, joins the queue, or has the object back.
    #[inline(always)]
    fn add_enter(&mut self, wait: bool, hand: &mut Option<T>) -> Reply {
        let room = self.free_room();
        let may_join = self.add_may_join(wait);
        match self.adds.enter(room, may_join) {
            Entry::Granted => {
                store(&mut self.idle, &mut self.gets, hand);
                Reply::Stored
            }
            Entry::Closed => Reply::Closed,
            Entry::Full if wait => Reply::Crowded,
            Entry::Full => Reply::Full,
            Entry::Waiting(ticket) => Reply::Waiting(ticket),
            Entry::OutOfMemory => Reply::OutOfMemory,
        }
    }

    // It leaves its object, stays, or has the object back.
    #[inline]
    fn add_ask(&mut self, ticket: Ticket, hand: &mut Option<T>) -> Reply {
        match self.adds.ask(ticket) {
            Ask::Granted => {
                store(&mut self.idle, &mut self.gets, hand);
                Reply::Stored
            }
            Ask::Closed => Reply::Closed,
            Ask::Waiting => Reply::Waiting(ticket),
            Ask::Unknown => Reply::Unknown,
        }
    }

    // What it was granted goes to the next.
    #[inline]
    fn add_cancel(&mut self, ticket: Ticket) -> Reply {
        if let Withdrawn::Unknown = self.adds.withdraw(ticket) {
            return Reply::Unknown;
        }
        self.adds.settle_within(self.limit - self.idle.len() - self.outside, 0);
        Reply::Done
    }

    // It is idle, or the pool has no use for it.
    #[inline(always)]
    fn back(&mut self, hand: &mut Option<T>) -> Reply {
        if self.outside == 0 {
            return Reply::Unknown;
        }
        self.outside -= 1;
        if self.gets.is_closed() || self.handles == 0 {
            self.adds.settle_within(self.limit - self.idle.len() - self.outside, 0);
            return Reply::Dropped;
        }
        store(&mut self.idle, &mut self.gets, hand);
        Reply::Kept
    }

    // Its room is free.
    #[inline(always)]
    fn take(&mut self) -> Reply {
        if self.outside == 0 {
            return Reply::Unknown;
        }
        self.outside -= 1;
        self.adds.settle_within(self.limit - self.idle.len() - self.outside, 0);
        Reply::Taken
    }
}
