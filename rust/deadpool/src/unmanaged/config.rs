//! What a pool is opened with, and why its calls are refused.
use crate::errors::error_texts;
use crate::runtime::Runtime;
use std::time::Duration;

/// How many objects there may be, and how long a get waits.
#[derive(Clone, Copy, Debug)]
#[cfg_attr(feature = "serde", derive(serde::Deserialize, serde::Serialize), serde(from = "read::PoolConfig"))]
pub struct PoolConfig {
    /// The greatest number of objects.
    pub max_size: usize,
    /// How long a get waits; `None` is no timeout. Zero is not to wait, and needs no runtime.
    pub timeout: Option<Duration>,
    /// Where the pool has its timers from.
    #[cfg_attr(feature = "serde", serde(skip))]
    pub runtime: Option<Runtime>,
}

impl PoolConfig {
    /// So many objects, no timeout and no runtime.
    #[must_use]
    pub fn new(max_size: usize) -> Self {
        PoolConfig { max_size, timeout: None, runtime: None }
    }
}

/// Twice as many objects as there are processors.
impl Default for PoolConfig {
    fn default() -> Self {
        PoolConfig::new(crate::shared::usual_size())
    }
}

/// What is read of a configuration, whose timeout may be a text.
#[cfg(feature = "serde")]
mod read {
    use crate::durations::Spelt;

    #[derive(serde::Deserialize)]
    pub(super) struct PoolConfig {
        max_size: usize,
        timeout: Option<Spelt>,
    }

    impl From<PoolConfig> for super::PoolConfig {
        fn from(PoolConfig { max_size, timeout }: PoolConfig) -> Self {
            super::PoolConfig { max_size, timeout: timeout.map(|Spelt(duration)| duration), runtime: None }
        }
    }
}

/// A configuration, with what a file of settings may have beside its keys, and a journal. It is this crate's own, and read from
/// formats with keys. An example is at [`Pool::journal`](super::Pool::journal).
#[derive(Clone, Copy, Debug, Default)]
#[cfg_attr(feature = "serde", derive(serde::Deserialize, serde::Serialize))]
pub struct Settings {
    /// What the crate deadpool has too.
    #[cfg_attr(feature = "serde", serde(flatten))]
    pub config: PoolConfig,
    /// How many gets may wait for an object, and how many adds for room; `None` is no bound.
    #[cfg_attr(feature = "serde", serde(default, skip_serializing_if = "Option::is_none"))]
    pub max_waiting: Option<usize>,
    /// How many steps the pool's journal has room for, 0 at first. No file has it.
    #[cfg_attr(feature = "serde", serde(skip))]
    pub journal: usize,
}

/// A configuration with nothing else.
impl From<PoolConfig> for Settings {
    fn from(config: PoolConfig) -> Self {
        Settings { config, max_waiting: None, journal: 0 }
    }
}

/// Why a call was refused. It then holds nothing.
///
/// The last two kinds are this crate's own, and come with its feature `refusals`. Without that `Timeout` comes instead of them.
#[derive(Clone, Copy, Debug, PartialEq, Eq)]
pub enum PoolError {
    /// No object, or no room, was free in time.
    Timeout,
    /// The pool was closed.
    Closed,
    /// A wait above zero is set, and there is no runtime.
    NoRuntimeSpecified,
    /// As many gets, or adds, waited as may.
    #[cfg(feature = "refusals")]
    Crowded,
    /// The entry in the queue, its waker or the object's box found no memory.
    #[cfg(feature = "refusals")]
    OutOfMemory,
}

/// The nearest of the kinds that are there.
#[cfg(not(feature = "refusals"))]
#[allow(non_upper_case_globals, reason = "they stand for kinds, which have such names")]
impl PoolError {
    pub(super) const Crowded: Self = PoolError::Timeout;
    pub(super) const OutOfMemory: Self = PoolError::Timeout;
}

error_texts! { PoolError {
    Self::Timeout => "Timeout occurred while waiting for an object to become available",
    Self::Closed => "Pool has been closed",
    Self::NoRuntimeSpecified => "No runtime specified",
    #[cfg(feature = "refusals")] Self::Crowded => "Too many wait already",
    #[cfg(feature = "refusals")] Self::OutOfMemory => "Out of memory",
} }
