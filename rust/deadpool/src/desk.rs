//! What the lock, the queue and the handles ask of a core, under one name for both pools.
//!
//! The steps of gets, objects and adds are no part of it: each pool makes those of its own core.
use crate::cells::Answer;
use crate::cores::desk::{Desk as _, OwnerDesk, QueueMode, Slot};
use crate::cores::gate::gate::Ticket;
use crate::cores::parts::Status;
use crate::cores::unmanaged_journal::Nameless;
use crate::cores::{desk, journal, unmanaged_journal};
use crate::parcel::{Boxed, Parcel};
use crate::rattle::Global;
use std::alloc::{Layout, handle_alloc_error};

/// The core of a managed pool.
pub(crate) type Managed<T> = journal::Journaled<T>;
/// The core of an unmanaged one. Its objects are its users' values, so they have no names in its journal.
pub(crate) type Unmanaged<T> = unmanaged_journal::Journaled<T, Nameless>;

/// A core, as what both pools have in common sees it.
pub(crate) trait Desk {
    /// What its parcels hold.
    type Value;

    /// That of a closed pool with nothing in it. The program ends if no memory is found.
    fn closed() -> Self;
    /// Whether a get or an add is due to be woken.
    fn is_due(&self) -> bool;
    /// The next get that is due.
    fn next_get(&mut self) -> Option<Ticket>;
    /// The next add that is due.
    fn next_add(&mut self) -> Option<Ticket> {
        None
    }
    /// The answer to a get that is due, if an object is idle for it. It has left the queue then.
    fn hand_over(&mut self, _: Ticket) -> Option<Answer<Self::Value>> {
        None
    }
    /// An object comes back that was handed over, and not found. What the pool has no use for is to be detached.
    fn come_back(&mut self, slot: Slot<Parcel<Self::Value>>) -> Option<Boxed<Self::Value>> {
        slot.value.take()
    }
    /// The idle object at a position, counted from the front.
    fn idle(&self, at: usize) -> Option<&Parcel<Self::Value>>;
    fn shut(&mut self);
    fn has_shut(&self) -> bool;
    /// Whether it has shut and nothing is left, idle, out or under way. It stays so.
    fn is_drained(&self) -> bool;
    fn status(&mut self) -> Status;
    /// Whether one handle is left.
    fn is_last(&self) -> bool;
    /// A handle more, if one is left, and whether one was.
    fn count_handle(&mut self) -> bool;
    fn uncount_handle(&mut self);
}

/// Has a core be a desk: where the steps of its owner are from, which calls name those that are due, where the parcel of an idle
/// object is, what is asked for it and for the handles, how one is made, and what it does otherwise.
macro_rules! desk_of {
    (
        $core:ident, steps of $steps:ident, $next_get:ident $(and $next_add:ident)?, $parcel:ident in $idle:pat,
        $desk:ident: $state:expr, new $empty:expr, also { $($own:tt)* }
    ) => {
        impl<V> Desk for $core<Parcel<V>> {
            type Value = V;

            fn closed() -> Self {
                let mut desk: Self = $empty.unwrap_or_else(|_| handle_alloc_error(Layout::new::<Self>()));
                desk.shut();
                desk
            }

            #[inline]
            fn is_due(&self) -> bool {
                self.is_wake_due()
            }

            fn next_get(&mut self) -> Option<Ticket> {
                self.$next_get()
            }

            $(fn next_add(&mut self) -> Option<Ticket> {
                self.$next_add()
            })?

            fn idle(&self, at: usize) -> Option<&Parcel<V>> {
                let $desk = self;
                $state.idle_at(at).map(|$idle| $parcel)
            }

            fn shut(&mut self) {
                self.make_for_owner(&$steps::OwnerStep::Close);
            }

            fn has_shut(&self) -> bool {
                self.is_closed()
            }

            fn is_drained(&self) -> bool {
                self.is_drained()
            }

            fn status(&mut self) -> Status {
                match self.make_for_owner(&$steps::OwnerStep::Status) {
                    $steps::OwnerReply::Stands(status) => status,
                    reply => unreachable!("{reply:?} is no reply to how the pool stands"),
                }
            }

            fn is_last(&self) -> bool {
                let $desk = self;
                $state.is_last_handle()
            }

            #[inline]
            fn count_handle(&mut self) -> bool {
                self.make_for_owner(&$steps::OwnerStep::CloneHandle) == $steps::OwnerReply::Done
            }

            #[inline]
            fn uncount_handle(&mut self) {
                self.make_for_owner(&$steps::OwnerStep::DropHandle);
            }

            $($own)*
        }
    };
}
desk_of!(
    Managed, steps of desk, take_wake, value in Slot { value, .. },
    desk: desk, new Self::new(Global, 0, QueueMode::Fifo, 0, 0), also {
        #[inline]
        fn hand_over(&mut self, ticket: Ticket) -> Option<Answer<V>> {
            // (in a closed pool none is idle)
            self.idle_at(0)?;
            let mut hand = None;
            let reply = self.make(&desk::Step::Ask { ticket, expired: false }, &mut hand);
            Some(Answer { reply, hand })
        }

        fn come_back(&mut self, slot: Slot<Parcel<V>>) -> Option<Boxed<V>> {
            let mut hand = Some(slot);
            self.make(&desk::Step::Back, &mut hand);
            hand?.value.take()
        }
    }
);
desk_of!(
    Unmanaged, steps of unmanaged_journal, take_get_wake and take_add_wake, parcel in parcel,
    desk: desk.core, new Self::new(Global, 0, 0), also {}
);
