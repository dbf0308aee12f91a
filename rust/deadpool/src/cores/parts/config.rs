// Made by .ci/made-rust of crates/deadpool_parts/src/config.rt, without its contracts. The proof is of that text.
//! How a pool is configured.

use std::time::Duration;

/// How long each phase of a get may last. None is no limit.
#[derive(Clone, Copy, Debug, Default, PartialEq, Eq)]
pub struct Timeouts {
    /// The wait for a place. Zero does not wait.
    pub wait: Option<Duration>,
    /// The creation of an object.
    pub create: Option<Duration>,
    /// The recycling of an idle object.
    pub recycle: Option<Duration>,
}

impl Timeouts {
    /// No limit at all.
    #[inline]
    pub fn new() -> Self {
        Timeouts::default()
    }

    /// Limits the wait alone.
    #[inline]
    pub fn wait_millis(wait: u64) -> Self {
        Timeouts { wait: Some(Duration::from_millis(wait)), ..Timeouts::new() }
    }
}

/// Which idle object is handed out first.
#[derive(Clone, Copy, Debug, Default, PartialEq, Eq)]
pub enum QueueMode {
    /// The one that came back first.
    #[default]
    Fifo,
    /// The one that came back last.
    Lifo,
}

/// How a managed pool is configured.
#[derive(Clone, Copy, Debug, PartialEq, Eq)]
pub struct PoolConfig {
    /// How many objects the pool may have.
    pub max_size: usize,
    /// What a get is limited to that names no timeouts of its own.
    pub timeouts: Timeouts,
    /// Which idle object is handed out first.
    pub queue_mode: QueueMode,
    /// How many objects a shrink and a retain leave idle, if as many are. It may be above
    /// `max_size`.
    pub min_idle: usize,
    /// How many gets may wait for a place. One more is refused at once. None is no bound.
    pub max_waiting: Option<usize>,
}

impl PoolConfig {
    /// A pool of at most `max_size` objects, first in first out.
    #[inline]
    pub fn new(max_size: usize) -> Self {
        PoolConfig {
            max_size,
            timeouts: Timeouts::new(),
            queue_mode: QueueMode::default(),
            min_idle: 0,
            max_waiting: None,
        }
    }

    /// A pool for a machine with `count` processors: twice as many objects.
    #[inline]
    pub fn with_processors(count: usize) -> Self {
        PoolConfig::new(count.saturating_mul(2))
    }
}
