//! What a pool tells the crate tracing: a span for each get, and an event for each object that it gives up, each get that is late and
//! each hold that is long. None of it is told under the lock. Without the feature `tracing` nothing is left of it.

#[cfg(not(feature = "tracing"))]
mod silent;
#[cfg(feature = "tracing")]
mod told;

#[cfg(not(feature = "tracing"))]
pub(crate) use silent::{Reason, Span, Teller, tell_hold, tell_late};
#[cfg(feature = "tracing")]
pub(crate) use told::{Reason, Span, Teller, tell_hold, tell_late};

use crate::desk::Desk;
use crate::parcel::Parcel;
use crate::shared::Shared;

/// Why a pool gives an object up.
#[derive(Clone, Copy)]
pub(crate) enum Why {
    /// Its recycling took too long.
    Late,
    /// The manager could not recycle it.
    Failed,
    /// Its recycling has a timeout, and there is no runtime to tell it.
    NoRuntime,
    /// A hook refused it.
    Refused,
    /// What had it was dropped, or has panicked.
    Dropped,
    /// A retain gave it up, or a keeper.
    Retain,
    /// There were more than the limit.
    Surplus,
    /// The pool had closed, or had no handle left.
    Closed,
}

impl<C, D: Desk> Shared<C, D> {
    /// Tells of an object that the pool gives up.
    #[inline(always)]
    pub(crate) fn tell(&self, value: &D::Value, why: Why) {
        self.teller.tell(&self.setup, value, why);
    }

    /// The same of one that lies in a parcel.
    #[inline(always)]
    pub(crate) fn tell_parcel(&self, parcel: &Parcel<D::Value>, why: Why) {
        self.teller.tell_parcel(&self.setup, parcel, why);
    }
}
