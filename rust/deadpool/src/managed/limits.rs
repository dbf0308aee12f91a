//! How long the objects of a pool may serve, which a hook asks at each get, and a keeper meanwhile.
use super::{Hook, HookError, Manager, Metrics};
#[cfg(not(target_arch = "wasm32"))]
use std::time::{Duration, Instant};

/// How long an object may serve. A limit that is not set allows every object.
///
/// As a hook it refuses an idle object that is past its limits: then the pool gives it up, and the get goes on. Meanwhile
/// [`Pool::keeper`](super::Pool::keeper) gives up those that nobody asks for. On wasm32 there are no moments, and `uses` is the one limit.
///
/// ```
/// # use deadpool::managed::{Manager, Metrics, RecycleResult};
/// # use std::convert::Infallible;
/// # struct Lists;
/// # impl Manager for Lists {
/// #     type Type = Vec<u64>;
/// #     type Error = Infallible;
/// #     async fn create(&self) -> Result<Vec<u64>, Infallible> { Ok(Vec::new()) }
/// #     async fn recycle(&self, _: &mut Vec<u64>, _: &Metrics) -> RecycleResult<Infallible> { Ok(()) }
/// # }
/// use deadpool::managed::{Limits, Object, Pool};
/// use std::time::Duration;
///
/// let limits = Limits::none().lifetime(Duration::from_secs(1800)).uses(2);
/// let pool: Pool<Lists> = Pool::builder(Lists).max_size(1).pre_recycle(limits).build().expect("a pool");
/// let uses = |_| Object::metrics(&deadpool::wait(pool.get()).expect("a list")).recycle_count;
/// assert_eq!([0; 4].map(uses), [0, 1, 0, 1]);
/// ```
#[derive(Clone, Copy, Debug, Default, PartialEq, Eq)]
#[cfg_attr(feature = "serde", derive(serde::Deserialize, serde::Serialize))]
#[cfg_attr(feature = "serde", serde(default))]
pub struct Limits {
    /// How long ago it may have been created. From this age on it is given up.
    #[cfg(not(target_arch = "wasm32"))]
    #[cfg_attr(feature = "serde", serde(deserialize_with = "crate::durations::read"))]
    pub lifetime: Option<Duration>,
    /// How long ago it may have been handed out last.
    #[cfg(not(target_arch = "wasm32"))]
    #[cfg_attr(feature = "serde", serde(deserialize_with = "crate::durations::read"))]
    pub idle: Option<Duration>,
    /// How often it may be handed out: once when it is created, and once for each time that it was recycled.
    pub uses: Option<usize>,
}

impl Limits {
    /// Objects serve without an end.
    #[must_use]
    pub const fn none() -> Self {
        Limits {
            #[cfg(not(target_arch = "wasm32"))]
            lifetime: None,
            #[cfg(not(target_arch = "wasm32"))]
            idle: None,
            uses: None,
        }
    }

    /// With this lifetime.
    #[cfg(not(target_arch = "wasm32"))]
    #[must_use]
    pub const fn lifetime(self, most: Duration) -> Self {
        Limits { lifetime: Some(most), ..self }
    }

    /// With this idle time.
    #[cfg(not(target_arch = "wasm32"))]
    #[must_use]
    pub const fn idle(self, most: Duration) -> Self {
        Limits { idle: Some(most), ..self }
    }

    /// With so many uses.
    #[must_use]
    pub const fn uses(self, most: usize) -> Self {
        #[cfg_attr(target_arch = "wasm32", allow(clippy::needless_update, reason = "there is no other field"))]
        Limits { uses: Some(most), ..self }
    }

    /// Whether an idle object with these metrics may be handed out once more at this moment.
    #[cfg(not(target_arch = "wasm32"))]
    #[must_use]
    pub fn allow(&self, metrics: &Metrics, now: Instant) -> bool {
        let since = |then: Instant| now.saturating_duration_since(then);
        self.lifetime.is_none_or(|most| since(metrics.created) < most)
            && self.idle.is_none_or(|most| since(metrics.recycled.unwrap_or(metrics.created)) < most)
            && self.allow_use(metrics)
    }

    fn allow_use(&self, metrics: &Metrics) -> bool {
        self.uses.is_none_or(|most| metrics.recycle_count.saturating_add(1) < most)
    }

    /// Says of each idle object whether it may be handed out once more now.
    pub(super) fn allow_now(self) -> impl Fn(&Metrics) -> bool {
        #[cfg(not(target_arch = "wasm32"))]
        let now = Instant::now();
        move |metrics| {
            #[cfg(not(target_arch = "wasm32"))]
            let allows = self.allow(metrics, now);
            #[cfg(target_arch = "wasm32")]
            let allows = self.allow_use(metrics);
            allows
        }
    }
}

/// A hook before the recycling, which gives up what is past its limits.
impl<M: Manager> From<Limits> for Hook<M> {
    fn from(limits: Limits) -> Self {
        Hook::sync_fn(
            move |_, metrics| {
                if limits.allow_now()(metrics) { Ok(()) } else { Err(HookError::message("past its limits")) }
            },
        )
    }
}
