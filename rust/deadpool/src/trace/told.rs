//! With the feature: what the crate tracing is told.
use super::Why;
use crate::Status;
use crate::desk::Desk;
use crate::parcel::Parcel;
use crate::shared::Shared;
use std::time::Duration;
use tracing::field::{Empty, debug};
use tracing::instrument::{Instrument, Instrumented};

/// How a pool tells of an object: by the pool's name and the object's number, if they have any.
pub(crate) struct Teller<C, V> {
    name: fn(&C) -> Option<&str>,
    number: fn(&V) -> Option<usize>,
}

impl<C, V> Teller<C, V> {
    pub(crate) fn new(name: fn(&C) -> Option<&str>, number: fn(&V) -> Option<usize>) -> Self {
        Teller { name, number }
    }

    #[inline(never)]
    pub(crate) fn tell(&self, setup: &C, value: &V, why: Why) {
        let cause = match why {
            Why::Late => "late",
            Why::Failed => "failed",
            Why::NoRuntime => "no runtime",
            Why::Refused => "refused",
            Why::Dropped => "dropped",
            Why::Retain => "retain",
            Why::Surplus => "surplus",
            Why::Closed => "closed",
        };
        let (pool, object) = ((self.name)(setup), (self.number)(value));
        tracing::debug!(target: "deadpool", pool, object, cause, "an object is given up");
    }

    pub(crate) fn tell_parcel(&self, setup: &C, parcel: &Parcel<V>, why: Why) {
        parcel.lend(|value| self.tell(setup, value, why));
    }
}

/// Why the object in a hand is given up. If it is not said the pool has no use for it.
pub(crate) struct Reason(Option<Why>);

impl Reason {
    pub(crate) fn new() -> Self {
        Reason(None)
    }

    pub(crate) fn is(&mut self, why: Why) {
        self.0 = Some(why);
    }

    /// The reason, if it was not said.
    pub(crate) fn is_else(&mut self, why: Why) {
        self.0.get_or_insert(why);
    }

    /// Tells of the object in the hand, if there is one, which is given up.
    pub(crate) fn tell<C, D: Desk>(&mut self, pool: &Shared<C, D>, given_up: Option<&D::Value>) {
        let why = self.0.take();
        if let Some(value) = given_up {
            pool.tell(value, why.unwrap_or_else(|| if pool.has_ended() { Why::Closed } else { Why::Surplus }));
        }
    }
}

/// The span of a get.
pub(crate) struct Span(tracing::Span);

impl Span {
    /// One under this name of a pool.
    pub(crate) fn of_get(pool: Option<&str>) -> Self {
        Span(tracing::debug_span!(target: "deadpool", "get", pool, object = Empty, waited = Empty))
    }

    /// The get within it.
    pub(crate) fn around<F: Future>(&self, get: F) -> Instrumented<F> {
        get.instrument(self.0.clone())
    }

    /// The get has given an object with this number, for whose place it has waited so long, if that was measured.
    pub(crate) fn has(&self, object: usize, waited: Option<Duration>) {
        self.0.record("object", object);
        if let Some(waited) = waited {
            self.0.record("waited", debug(waited));
        }
    }
}

/// Tells that an object with this number is held past the threshold, by the holder that was named, or was until now.
pub(crate) fn tell_hold(
    pool: Option<&str>,
    object: usize,
    holder: Option<&str>,
    held: Duration,
    waited: Duration,
    is_out: bool,
) {
    let (held, waited) = (debug(held), debug(waited));
    tracing::warn!(target: "deadpool", pool, object, holder, held, waited, is_out, "an object is held for long");
}

/// Tells that a get found no place in time, and how its pool stands. That is looked at only if somebody listens.
pub(crate) fn tell_late(pool: Option<&str>, waited: Option<Duration>, status: impl FnOnce() -> Status) {
    let waited = waited.map(debug);
    tracing::debug!(target: "deadpool", pool, waited, status = %status(), "a get is late");
}
