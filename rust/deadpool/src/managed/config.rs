//! What a pool is opened with.
use super::{BuildError, QueueMode};
use crate::errors::error_texts;
use std::time::Duration;

/// How many objects, how long each phase of a get may last, and which idle object is next.
#[derive(Clone, Copy, Debug)]
#[cfg_attr(feature = "serde", derive(serde::Deserialize, serde::Serialize))]
pub struct PoolConfig {
    /// The greatest number of objects.
    pub max_size: usize,
    /// How long each phase of a get may last.
    #[cfg_attr(feature = "serde", serde(default))]
    pub timeouts: Timeouts,
    /// Which idle object is handed out next.
    #[cfg_attr(feature = "serde", serde(default))]
    pub queue_mode: QueueMode,
}

impl PoolConfig {
    /// So many objects, no timeouts, and the idle object next that came back first.
    #[must_use]
    pub fn new(max_size: usize) -> Self {
        PoolConfig { max_size, timeouts: Timeouts::default(), queue_mode: QueueMode::default() }
    }
}

/// Twice as many objects as there are processors.
impl Default for PoolConfig {
    fn default() -> Self {
        PoolConfig::new(crate::shared::usual_size())
    }
}

/// A configuration, with what a file of settings may have beside its keys. It is this crate's own, and read from formats with keys.
///
/// ```
/// # use deadpool::managed::{Manager, Metrics, RecycleResult};
/// # use std::convert::Infallible;
/// # struct Lists;
/// # impl Manager for Lists {
/// #     type Type = Vec<u64>;
/// #     type Error = Infallible;
/// #     async fn create(&self) -> Result<Vec<u64>, Infallible> { Ok(Vec::new()) }
/// #     async fn recycle(&self, _: &mut Vec<u64>, _: &Metrics) -> RecycleResult<Infallible> { Ok(()) }
/// # }
/// use deadpool::managed::{Pool, PoolConfig, Settings};
///
/// let settings = Settings { max_waiting: Some(64), ..PoolConfig::new(8).into() };
/// let pool: Pool<Lists> = Pool::builder(Lists).settings(settings).build().expect("a pool");
/// assert_eq!(pool.status().max_size, 8);
/// ```
#[derive(Clone, Copy, Debug, Default)]
#[cfg_attr(feature = "serde", derive(serde::Deserialize, serde::Serialize))]
pub struct Settings {
    /// What the crate deadpool has too.
    #[cfg_attr(feature = "serde", serde(flatten))]
    pub config: PoolConfig,
    /// How many gets may wait for a place; `None` is no bound.
    #[cfg_attr(feature = "serde", serde(default, skip_serializing_if = "Option::is_none"))]
    pub max_waiting: Option<usize>,
}

/// A configuration with nothing else.
impl From<PoolConfig> for Settings {
    fn from(config: PoolConfig) -> Self {
        Settings { config, max_waiting: None }
    }
}

/// How long each phase of a get may last; `None` is no timeout. A duration that is read may be a text, as `30s`, `500ms` or `1m 30s`.
///
/// ```
/// use deadpool::managed::{PoolConfig, Timeouts};
/// use std::time::Duration;
///
/// let mut config = PoolConfig::new(8);
/// config.timeouts = Timeouts { create: Some(Duration::from_secs(5)), ..Timeouts::wait_millis(50) };
/// assert_eq!(config.timeouts.wait, Some(Duration::from_millis(50)));
/// ```
#[derive(Clone, Copy, Debug, Default)]
#[cfg_attr(feature = "serde", derive(serde::Deserialize, serde::Serialize), serde(from = "read::Timeouts"))]
pub struct Timeouts {
    /// The wait for a place. Zero is not to wait, and needs no runtime.
    pub wait: Option<Duration>,
    /// The creation of an object.
    pub create: Option<Duration>,
    /// The recycling of an idle object. One that lasts longer is given up.
    pub recycle: Option<Duration>,
}

impl Timeouts {
    /// None is set.
    #[must_use]
    pub const fn new() -> Self {
        Timeouts { wait: None, create: None, recycle: None }
    }

    /// The wait for a place, in milliseconds, and no other.
    #[must_use]
    pub const fn wait_millis(wait: u64) -> Self {
        Timeouts { wait: Some(Duration::from_millis(wait)), create: None, recycle: None }
    }

    pub(super) fn is_any_set(&self) -> bool {
        self.wait.is_some() || self.create.is_some() || self.recycle.is_some()
    }
}

/// Why a backend made no pool of its own configuration.
#[derive(Debug)]
pub enum CreatePoolError<C> {
    /// The configuration gave no builder.
    Config(C),
    /// The builder gave no pool.
    Build(BuildError),
}

error_texts! { CreatePoolError<C> {
    Self::Config(cause) => "Config: {cause}",
    Self::Build(cause) => "Build: {cause}",
} }

/// What is read of timeouts, each of which may be a text.
#[cfg(feature = "serde")]
mod read {
    use crate::durations::Spelt;

    #[derive(serde::Deserialize)]
    pub(super) struct Timeouts {
        wait: Option<Spelt>,
        create: Option<Spelt>,
        recycle: Option<Spelt>,
    }

    impl From<Timeouts> for super::Timeouts {
        fn from(Timeouts { wait, create, recycle }: Timeouts) -> Self {
            let [wait, create, recycle] = [wait, create, recycle].map(|it| it.map(|Spelt(duration)| duration));
            super::Timeouts { wait, create, recycle }
        }
    }
}

/// The names of the queue modes in a configuration. The type itself is made of the proved text.
#[cfg(feature = "serde")]
mod names {
    use super::QueueMode;
    use serde::{Deserialize, Deserializer, Serialize, Serializer};

    #[derive(Deserialize, Serialize)]
    #[serde(remote = "QueueMode", rename = "QueueMode")]
    enum Named {
        Fifo,
        Lifo,
    }

    impl<'de> Deserialize<'de> for QueueMode {
        fn deserialize<D: Deserializer<'de>>(deserializer: D) -> Result<Self, D::Error> {
            Named::deserialize(deserializer)
        }
    }

    impl Serialize for QueueMode {
        fn serialize<S: Serializer>(&self, serializer: S) -> Result<S::Ok, S::Error> {
            Named::serialize(self, serializer)
        }
    }
}
