// Made by .ci/made-rust of crates/deadpool_desk/src/state.rt, without its contracts. The proof is of that text.
//! The core of a managed pool: its queue, its idle objects and its counts; and each step that a get or an object makes.
//!
//! `places` has the counts, and settles them with the queue. `counted` has what a core says of itself, and `owner` the
//! steps of the pool's owner.

mod counted;
mod owner;
mod places;

use crate::cores::desk::gate::{Ask, Entry, Gate, Ticket, Withdrawn};
use crate::cores::desk::{Desk, Held, QueueMode, Reply, Slot, Step};
use crate::rattle::HeapCircularBuffer;
use crate::rattle::{AllocError, Global};
use places::Places;

/// The state of a managed pool on one thread. Each of its steps is one of `Desk`, or of `OwnerDesk`.
///
/// No step tells a get in the queue that its wait has ended. Who owns the core asks `take_wake` whom to tell.
#[repr(C)]
pub struct Core<T> {
    places: Places,
    // The idle objects, front to back.
    ring: HeapCircularBuffer<Slot<T>>,
    gate: Gate,
    handles: u64,
    mode: QueueMode,
    // How many gets may wait. So many as the greatest number never do.
    max_waiting: usize,
    next: usize,
    min_idle: usize,
}

// The next idle object leaves the ring.
#[inline(always)]
fn take_idle<T>(ring: &mut HeapCircularBuffer<Slot<T>>, mode: QueueMode) -> Option<Slot<T>> {
    match mode {
        QueueMode::Fifo => ring.pop_front(),
        QueueMode::Lifo => ring.pop_back(),
    }
}

impl<T> Core<T> {
    /// A pool with nothing idle, one handle, and room for as many objects as the limit, at least one. If as many are
    /// idle, a shrink and a retain leave so many idle, `min_idle`, or as many as the limit allows.
    #[inline]
    pub fn new(
        alloc: Global,
        limit: usize,
        mode: QueueMode,
        first_number: usize,
        min_idle: usize,
    ) -> Result<Core<T>, AllocError> {
        let ring = HeapCircularBuffer::with_capacity(alloc, limit.max(1))?;
        Ok(Core {
            gate: Gate::new(alloc),
            ring,
            places: Places::new(limit),
            mode,
            min_idle,
            max_waiting: usize::MAX,
            next: first_number,
            handles: 1,
        })
    }

    /// The pool with a bound on the gets that wait for a place, or with none, before any waits.
    #[inline]
    pub fn bounded(self, max_waiting: Option<usize>) -> Self {
        Core { max_waiting: max_waiting.unwrap_or(usize::MAX), ..self }
    }

    /// What is true of every core. The call does nothing.
    #[inline]
    pub fn laws(&self) {
        let _ = &self.gate;
    }

    /// Sees that the queue has room for all gets that may wait in it and all that may be granted a place, at the
    /// greatest limit that the pool has had so far. Without memory for that only the room may have changed. A pool
    /// with no bound on the gets that wait never finds it.
    #[inline]
    pub fn make_room_for_waiting(&mut self) -> Result<(), AllocError> {
        let most = self.max_waiting.saturating_add(self.ring.capacity());
        if most > usize::MAX / 2 {
            return Err(AllocError);
        }
        self.gate.reserve(most)
    }

    /// The next get in the queue that is due to be woken, as it was granted a place or the pool has closed, and that
    /// was not named before. It stays in the queue until it asks or is cancelled. This is no step of the pool.
    #[inline]
    pub fn take_wake(&mut self) -> Option<Ticket> {
        self.gate.take_wake()
    }

    /// Whether `take_wake` would name a get.
    #[inline]
    pub fn is_wake_due(&self) -> bool {
        self.gate.is_wake_due()
    }

    // Serves a get whose place is one of those going. Its object goes into the hand.
    #[inline(always)]
    fn serve(&mut self, allowance: Option<usize>, hand: &mut Option<Slot<T>>) -> Reply {
        let allowed = allowance.unwrap_or(self.ring.len());
        if allowed == 0 && !self.ring.is_empty() {
            return Reply::Going;
        }
        self.places.going -= 1;
        match take_idle(&mut self.ring, self.mode) {
            Some(slot) => {
                *hand = Some(slot);
                self.places.outside += 1;
                Reply::Object { left: allowed - 1 }
            }
            None if self.next + self.places.creations < usize::MAX => {
                self.places.creations += 1;
                Reply::Create
            }
            None => {
                self.places.settle(&mut self.gate);
                Reply::Exhausted
            }
        }
    }

    // It is served, joins the queue, or is refused. The place that it is given is one of those going until it is
    // served.
    #[inline(always)]
    fn enter(&mut self, wait: bool, hand: &mut Option<Slot<T>>) -> Reply {
        let room = self.places.room(&self.gate);
        if room > 0 && !self.gate.is_closed() {
            self.places.going += 1;
            return self.serve(None, hand);
        }
        let may_join = self.may_join(wait);
        match self.gate.enter(room, may_join) {
            Entry::Granted => {
                self.places.going += 1;
                self.serve(None, hand)
            }
            Entry::Closed => Reply::Closed,
            Entry::Full if wait => Reply::Crowded,
            Entry::Full => Reply::Full,
            Entry::Waiting(ticket) => Reply::Waiting(ticket),
            Entry::OutOfMemory => Reply::OutOfMemory,
        }
    }

    // It is served, stays, or leaves the queue. If it was granted a place, that is one of those going until it is
    // served.
    #[inline]
    fn ask(&mut self, ticket: Ticket, expired: bool, hand: &mut Option<Slot<T>>) -> Reply {
        match self.gate.ask(ticket) {
            Ask::Granted => {
                self.places.going += 1;
                self.serve(None, hand)
            }
            Ask::Closed => Reply::Closed,
            Ask::Unknown => Reply::Unknown,
            Ask::Waiting => {
                if expired {
                    self.gate.withdraw(ticket);
                    Reply::Expired
                } else {
                    Reply::Waiting(ticket)
                }
            }
        }
    }

    // Its place is one of those going.
    #[inline]
    fn again(&mut self, allowance: Option<usize>, hand: &mut Option<Slot<T>>) -> Reply {
        if self.places.going == 0 {
            return Reply::Unknown;
        }
        self.serve(allowance, hand)
    }

    // The place of the object is one of those going again.
    #[inline]
    fn discard(&mut self) -> Reply {
        if self.places.outside == 0 {
            return Reply::Unknown;
        }
        self.places.outside -= 1;
        self.places.going += 1;
        Reply::Done
    }

    // The place of the creation is that of an object.
    #[inline]
    fn created(&mut self) -> Reply {
        if self.places.creations == 0 {
            return Reply::Unknown;
        }
        let number = self.next;
        self.places.creations -= 1;
        self.next += 1;
        self.places.outside += 1;
        Reply::Number(number)
    }

    // The place of the creation is free.
    #[inline]
    fn failed(&mut self) -> Reply {
        if self.places.creations == 0 {
            return Reply::Unknown;
        }
        self.places.creations -= 1;
        self.places.settle(&mut self.gate);
        Reply::Done
    }

    // The place of the object is free.
    #[inline]
    fn refused(&mut self) -> Reply {
        if self.places.outside == 0 {
            return Reply::Unknown;
        }
        self.places.outside -= 1;
        self.places.settle(&mut self.gate);
        Reply::Done
    }

    // It is idle, or there are too many, or no handle is left.
    #[inline]
    fn back(&mut self, hand: &mut Option<Slot<T>>) -> Reply {
        if self.places.outside == 0 {
            return Reply::Unknown;
        }
        let size = self.ring.len() + self.places.outside;
        self.places.outside -= 1;
        if self.handles == 0 {
            self.places.settle(&mut self.gate);
            return Reply::Dropped;
        }
        if size > self.places.limit {
            self.places.settle(&mut self.gate);
            return Reply::Detach;
        }
        let Some(slot) = hand.take() else {
            unreachable!();
        };
        self.ring.push_back(slot);
        self.places.settle(&mut self.gate);
        Reply::Kept
    }

    // The place that it may have is free.
    #[inline]
    fn withdraw(&mut self, ticket: Ticket) -> Reply {
        if let Withdrawn::Unknown = self.gate.withdraw(ticket) {
            return Reply::Unknown;
        }
        self.places.settle(&mut self.gate);
        Reply::Done
    }

    // The place that it holds is free.
    #[inline]
    fn cancel(&mut self, held: Held) -> Reply {
        match held {
            Held::Place => {
                if self.places.going == 0 {
                    return Reply::Unknown;
                }
                self.places.going -= 1;
                self.places.settle(&mut self.gate);
                Reply::Done
            }
            Held::Creation => self.failed(),
            Held::Object => self.refused(),
        }
    }

    // Its place is free.
    #[inline]
    fn take(&mut self) -> Reply {
        if self.places.outside == 0 {
            return Reply::Unknown;
        }
        let detach = self.handles > 0;
        self.places.outside -= 1;
        self.places.settle(&mut self.gate);
        Reply::Taken { detach }
    }
}

impl<T> Desk<T> for Core<T> {
    #[inline(always)]
    fn make(&mut self, step: &Step, hand: &mut Option<Slot<T>>) -> Reply {
        match step {
            Step::Enter { wait } => self.enter(*wait, hand),
            Step::Ask { ticket, expired } => self.ask(*ticket, *expired, hand),
            Step::Again { allowance } => self.again(*allowance, hand),
            Step::Discard => self.discard(),
            Step::Created => self.created(),
            Step::Failed => self.failed(),
            Step::Refused => self.refused(),
            Step::Back => self.back(hand),
            Step::Withdraw { ticket } => self.withdraw(*ticket),
            Step::Cancel(held) => self.cancel(*held),
            Step::Take => self.take(),
        }
    }
}
