//! Why a get or a recycling was refused.
use crate::errors::error_texts;
use std::borrow::Cow;

/// The phase of a get that ran out of time.
#[derive(Clone, Copy, Debug, PartialEq, Eq)]
pub enum TimeoutType {
    /// The wait for a place.
    Wait,
    /// The creation of an object.
    Create,
    /// The recycling of an idle object.
    Recycle,
}

/// Why a get ended without an object. It then holds neither a place nor an object.
///
/// None can say how the pool stood, as programs match these kinds by all that they have. With the feature `tracing` a get that found no
/// place in time is an event, which says so. Without it `format!("{error}: {pool:?}")` says how the pool stands, unless a step is under way, and who [holds what is
/// out](super::Pool::holders).
///
/// The last three kinds are this crate's own, and come with its feature `refusals`. Without that the kinds are those of the crate
/// deadpool: instead of `Crowded` and `OutOfMemory` comes `Timeout(TimeoutType::Wait)`, and instead of `NumbersExhausted`
/// `Timeout(TimeoutType::Create)`.
#[derive(Debug)]
pub enum PoolError<E> {
    /// The phase ran out of time.
    Timeout(TimeoutType),
    /// The manager refused to create an object.
    Backend(E),
    /// The pool was closed.
    Closed,
    /// A timeout that the get needs is set, and there is no runtime.
    NoRuntimeSpecified,
    /// A hook refused the new object.
    PostCreateHook(HookError<E>),
    /// No place was free, and as many gets waited as may.
    #[cfg(feature = "refusals")]
    Crowded,
    /// The get's entry in the queue, its waker or its object's box found no memory.
    #[cfg(feature = "refusals")]
    OutOfMemory,
    /// No object number is left.
    #[cfg(feature = "refusals")]
    NumbersExhausted,
}

/// The nearest of the kinds that are there.
#[cfg(not(feature = "refusals"))]
#[allow(non_upper_case_globals, reason = "they stand for kinds, which have such names")]
impl<E> PoolError<E> {
    pub(super) const Crowded: Self = PoolError::Timeout(TimeoutType::Wait);
    pub(super) const OutOfMemory: Self = PoolError::Timeout(TimeoutType::Wait);
    pub(super) const NumbersExhausted: Self = PoolError::Timeout(TimeoutType::Create);
}

error_texts! { PoolError<E: 'static> {
    Self::Timeout(TimeoutType::Wait) => "Timeout occurred while waiting for a slot to become available",
    Self::Timeout(TimeoutType::Create) => "Timeout occurred while creating a new object",
    Self::Timeout(TimeoutType::Recycle) => "Timeout occurred while recycling an object",
    Self::Backend(cause) => "Error occurred while creating a new object: {cause}" from cause,
    Self::Closed => "Pool has been closed",
    Self::NoRuntimeSpecified => "No runtime specified",
    Self::PostCreateHook(cause) => "`post_create` hook failed: {cause}\n" from cause,
    #[cfg(feature = "refusals")] Self::Crowded => "Too many gets wait for a slot",
    #[cfg(feature = "refusals")] Self::OutOfMemory => "Out of memory",
    #[cfg(feature = "refusals")] Self::NumbersExhausted => "Object numbers are exhausted",
} }

impl<E> From<E> for PoolError<E> {
    fn from(cause: E) -> Self {
        PoolError::Backend(cause)
    }
}

/// Why an object was not recycled.
#[derive(Debug)]
pub enum RecycleError<E> {
    /// A text.
    Message(Cow<'static, str>),
    /// What the backend says of it.
    Backend(E),
}

impl<E> RecycleError<E> {
    /// A refusal with this text.
    pub fn message(msg: impl Into<Cow<'static, str>>) -> Self {
        RecycleError::Message(msg.into())
    }
}

error_texts! { RecycleError<E: 'static> {
    Self::Message(text) => "Error occurred while recycling an object: {text}",
    Self::Backend(cause) => "Error occurred while recycling an object: {cause}" from cause,
} }

impl<E> From<E> for RecycleError<E> {
    fn from(cause: E) -> Self {
        RecycleError::Backend(cause)
    }
}

/// Why a hook refused an object.
#[derive(Debug)]
pub enum HookError<E> {
    /// A text.
    Message(Cow<'static, str>),
    /// What the backend says of it.
    Backend(E),
}

impl<E> HookError<E> {
    /// A refusal with this text.
    pub fn message(msg: impl Into<Cow<'static, str>>) -> Self {
        HookError::Message(msg.into())
    }
}

error_texts! { HookError<E: 'static> {
    Self::Message(text) => "{text}",
    Self::Backend(cause) => "{cause}" from cause,
} }
