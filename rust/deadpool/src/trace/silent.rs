//! Without the feature: values without a size, and calls that do nothing.
use super::Why;
use crate::Status;
use crate::desk::Desk;
use crate::parcel::Parcel;
use crate::shared::Shared;
use std::marker::PhantomData;
use std::time::Duration;

/// How a pool tells of an object.
pub(crate) struct Teller<C, V>(PhantomData<fn(&C, &V)>);

impl<C, V> Teller<C, V> {
    #[inline(always)]
    pub(crate) fn new(_: fn(&C) -> Option<&str>, _: fn(&V) -> Option<usize>) -> Self {
        Teller(PhantomData)
    }

    #[inline(always)]
    #[allow(clippy::unused_self, reason = "it is used with the feature")]
    pub(crate) fn tell(&self, _: &C, _: &V, _: Why) {}

    #[inline(always)]
    #[allow(clippy::unused_self, reason = "it is used with the feature")]
    pub(crate) fn tell_parcel(&self, _: &C, _: &Parcel<V>, _: Why) {}
}

/// Why the object in a hand is given up.
pub(crate) struct Reason;

impl Reason {
    #[inline(always)]
    pub(crate) fn new() -> Self {
        Reason
    }

    #[inline(always)]
    #[allow(clippy::unused_self, reason = "it is used with the feature")]
    pub(crate) fn is(&mut self, _: Why) {}

    #[inline(always)]
    #[allow(clippy::unused_self, reason = "it is used with the feature")]
    pub(crate) fn is_else(&mut self, _: Why) {}

    #[inline(always)]
    #[allow(clippy::unused_self, reason = "it is used with the feature")]
    pub(crate) fn tell<C, D: Desk>(&mut self, _: &Shared<C, D>, _: Option<&D::Value>) {}
}

/// The span of a get.
pub(crate) struct Span;

impl Span {
    #[inline(always)]
    pub(crate) fn of_get(_: Option<&str>) -> Self {
        Span
    }

    #[inline(always)]
    #[allow(clippy::unused_self, reason = "it is used with the feature")]
    pub(crate) fn around<F: Future>(&self, get: F) -> F {
        get
    }

    #[inline(always)]
    #[allow(clippy::unused_self, reason = "it is used with the feature")]
    pub(crate) fn has(&self, _: usize, _: Option<Duration>) {}
}

#[inline(always)]
pub(crate) fn tell_hold(_: Option<&str>, _: usize, _: Option<&str>, _: Duration, _: Duration, _: bool) {}

#[inline(always)]
pub(crate) fn tell_late(_: Option<&str>, _: Option<Duration>, _: impl FnOnce() -> Status) {}
