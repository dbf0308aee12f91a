//! A handle of a pool.
use super::get::Get;
use super::holders::tell_long;
use super::object::Kept;
use super::{
    Core, Handle, Holder, Journal, Limits, Manager, Metrics, Object, OutOfMemory, PoolBuilder, PoolError, Report,
    Shared, Timeouts,
};
use crate::Status;
use crate::cores::desk::{OwnerDesk, OwnerReply, OwnerStep, Retainer};
use crate::desk::Desk;
use crate::ending::{DrainError, alarm_within, drained, ends_within};
use crate::errors::Named;
use crate::parcel::{Boxed, Parcel};
use crate::shared::State;
use crate::timed::{Alarm, poll_again};
use crate::trace::{Span, Why};
use crate::wait::wait;
use std::fmt;
use std::future::Future;
use std::marker::PhantomData;
use std::sync::{Arc, Weak};
use std::time::Duration;

/// What became of the idle objects in a retain.
#[derive(Debug)]
pub struct RetainResult<T> {
    /// How many stay.
    pub retained: usize,
    /// The values of the others, in order, as `detach` left them.
    pub removed: Vec<T>,
}

impl<T> Default for RetainResult<T> {
    fn default() -> Self {
        RetainResult { retained: 0, removed: Vec::new() }
    }
}

/// What a predicate has said of the idle objects, front to back.
struct Choice(std::vec::IntoIter<bool>);

impl<M: Manager> Retainer<Parcel<Kept<M>>> for Choice {
    type Left = Option<Boxed<Kept<M>>>;

    fn keeps(&mut self, _: usize, _: &Parcel<Kept<M>>) -> bool {
        self.0.next().unwrap_or(true)
    }

    fn detach(&mut self, parcel: Parcel<Kept<M>>) -> Self::Left {
        parcel.take()
    }
}

/// A handle of a pool, which hands its objects out as `W`. With the last handle the idle objects are dropped.
///
/// ```
/// # use deadpool::managed::{Manager, Metrics, RecycleResult};
/// # use std::convert::Infallible;
/// # struct Lists;
/// # impl Manager for Lists {
/// #     type Type = Vec<u64>;
/// #     type Error = Infallible;
/// #     async fn create(&self) -> Result<Vec<u64>, Infallible> { Ok(Vec::new()) }
/// #     async fn recycle(&self, _: &mut Vec<u64>, _: &Metrics) -> RecycleResult<Infallible> { Ok(()) }
/// # }
/// use deadpool::managed::{Pool, PoolError};
///
/// # let example = async {
/// let pool: Pool<Lists> = Pool::builder(Lists).max_size(1).build().expect("a pool");
/// let list = pool.get().await.expect("a list");
/// assert_eq!(pool.status().available, 0);
/// drop(list);
/// pool.close();
/// assert!(matches!(pool.get().await, Err(PoolError::Closed)));
/// # };
/// # assert!(std::pin::pin!(example).poll(&mut std::task::Context::from_waker(std::task::Waker::noop())).is_ready());
/// ```
pub struct Pool<M: Manager, W: From<Object<M>> = Object<M>> {
    shared: Handle<M>,
    wrapper: PhantomData<fn() -> W>,
}

impl<M: Manager, W: From<Object<M>>> Pool<M, W> {
    /// What a pool with this manager is built by.
    pub fn builder(manager: M) -> PoolBuilder<M, W> {
        PoolBuilder::new(manager)
    }

    pub(super) fn of(shared: Handle<M>) -> Self {
        Pool { shared, wrapper: PhantomData }
    }

    pub(super) fn upgrade(shared: &Arc<Shared<M>>) -> Option<Self> {
        let count = |desk: &mut Core<M>| desk.make_for_owner(&OwnerStep::Upgrade) == OwnerReply::Done;
        Some(Pool::of(Handle::upgrade(shared, count)?))
    }

    /// An object, within the pool's timeouts.
    ///
    /// # Errors
    ///
    /// Each [`PoolError`] says when it comes. The get then holds nothing.
    ///
    /// # Cancel safety
    ///
    /// It can be dropped at any await. It then leaves the queue, or gives its place to the next one. An object that it was preparing is
    /// given up, and one that was being created is not waited for. Who drops it loses its turn in the queue.
    ///
    /// # Panics
    ///
    /// As its manager and its hooks: the object is given up then, and the place is free. `Runtime::Tokio1` with its feature panics
    /// outside of tokio, if a timeout begins there.
    pub async fn get(&self) -> Result<W, PoolError<M::Error>> {
        self.timeout_get(&self.shared.setup.timeouts).await
    }

    /// An object, within these timeouts.
    ///
    /// # Errors
    ///
    /// As of [`Pool::get`].
    ///
    /// # Cancel safety
    ///
    /// As of [`Pool::get`].
    ///
    /// # Panics
    ///
    /// As of [`Pool::get`].
    pub async fn timeout_get(&self, timeouts: &Timeouts) -> Result<W, PoolError<M::Error>> {
        let span = Span::of_get(self.name());
        let kept = span.around(Get::within(&self.shared, timeouts)).await?;
        let object = Object { kept, pool: Arc::clone(&self.shared) };
        if let Some(kept) = &object.kept {
            span.has(kept.number, self.shared.setup.times_waits.then_some(kept.waited));
        }
        Ok(object.into())
    }

    /// An object, if a place is free. It does not wait for one, but for its manager and hooks, within the pool's timeouts.
    ///
    /// # Errors
    ///
    /// As of [`Pool::get`]: it is `Timeout(TimeoutType::Wait)` if none is free.
    ///
    /// # Cancel safety
    ///
    /// As of [`Pool::get`].
    ///
    /// # Panics
    ///
    /// As of [`Pool::get`].
    pub async fn try_get(&self) -> Result<W, PoolError<M::Error>> {
        self.get_timeout(Duration::ZERO).await
    }

    /// An object, if a place is free within this time. The pool's other timeouts hold as well.
    ///
    /// # Errors
    ///
    /// As of [`Pool::get`]: it is `Timeout(TimeoutType::Wait)` if none is free in time. A time above zero needs a runtime.
    ///
    /// # Cancel safety
    ///
    /// As of [`Pool::get`].
    ///
    /// # Panics
    ///
    /// As of [`Pool::get`].
    pub async fn get_timeout(&self, wait: Duration) -> Result<W, PoolError<M::Error>> {
        self.timeout_get(&Timeouts { wait: Some(wait), ..self.timeouts() }).await
    }

    /// An object, for which this thread [waits](crate::wait()). A task of an executor awaits [`Pool::get`] instead.
    ///
    /// ```
    /// # use deadpool::managed::{Manager, Metrics, RecycleResult};
    /// # use std::convert::Infallible;
    /// # struct Lists;
    /// # impl Manager for Lists {
    /// #     type Type = Vec<u64>;
    /// #     type Error = Infallible;
    /// #     async fn create(&self) -> Result<Vec<u64>, Infallible> { Ok(Vec::new()) }
    /// #     async fn recycle(&self, _: &mut Vec<u64>, _: &Metrics) -> RecycleResult<Infallible> { Ok(()) }
    /// # }
    /// # use deadpool::managed::Pool;
    /// let pool: Pool<Lists> = Pool::builder(Lists).max_size(1).build().expect("a pool");
    /// std::thread::scope(|threads| {
    ///     for number in 1..=4 {
    ///         let pool = &pool;
    ///         threads.spawn(move || pool.get_blocking().expect("a list").push(number));
    ///     }
    /// });
    /// assert_eq!(pool.get_blocking().expect("a list").iter().sum::<u64>(), 10);
    /// ```
    ///
    /// # Errors
    ///
    /// As of [`Pool::get`].
    ///
    /// # Panics
    ///
    /// As of [`Pool::get`].
    pub fn get_blocking(&self) -> Result<W, PoolError<M::Error>> {
        wait(self.get())
    }

    /// Sets the limit of an open pool. The idle objects above it are dropped, the one that came back first before the others.
    ///
    /// # Panics
    ///
    /// If no memory is found, as [`Pool::try_resize`] tells.
    pub fn resize(&self, max_size: usize) {
        self.try_resize(max_size).expect("memory for a larger pool");
    }

    /// As [`Pool::resize`].
    ///
    /// # Errors
    ///
    /// A limit above all before it needs memory. If none is found nothing has changed.
    pub fn try_resize(&self, max_size: usize) -> Result<(), OutOfMemory> {
        let step = OwnerStep::Resize { limit: max_size };
        // (one that needs memory drops none)
        match self.shared.give_up(|desk| desk.surplus(max_size), |desk| desk.make_for_owner(&step)) {
            OwnerReply::OutOfMemory => Err(OutOfMemory),
            _ => Ok(()),
        }
    }

    /// Gives up the idle objects of which the predicate, which is asked about each, says no. It is asked under the lock, and
    /// must not use the pool.
    ///
    /// # Panics
    ///
    /// If no memory is found, as [`Pool::try_retain`] tells, and as the predicate and [`Manager::detach`].
    pub fn retain(&self, predicate: impl FnMut(&M::Type, Metrics) -> bool) -> RetainResult<M::Type> {
        self.try_retain(predicate).expect("memory for a retain")
    }

    /// As [`Pool::retain`].
    ///
    /// # Errors
    ///
    /// If no memory is found no object has left.
    pub fn try_retain(
        &self,
        predicate: impl FnMut(&M::Type, Metrics) -> bool,
    ) -> Result<RetainResult<M::Type>, OutOfMemory> {
        retained(&self.shared, predicate)
    }

    /// Gives up, after each period, the idle objects that are past these limits, as [`Pool::try_retain`] does, until the pool
    /// has closed or has no handle. It is no handle: a task is spawned with it, or a thread [waits](crate::wait()) for it. The
    /// periods are measured by the pool's timers, or by this crate's thread if it has none.
    ///
    /// # Cancel safety
    ///
    /// It can be dropped at any await. Nothing is kept of its period.
    ///
    /// # Panics
    ///
    /// As [`Manager::detach`]. `Runtime::Tokio1` with its feature panics outside of tokio.
    pub fn keeper(&self, limits: Limits, period: Duration) -> impl Future<Output = ()> + Send + use<M, W> {
        let (pool, runtime) = (Arc::downgrade(&*self.shared), self.shared.setup.runtime);
        async move {
            while !ends_within(&pool, alarm_within(period, runtime)).await {
                if let Some(pool) = pool.upgrade() {
                    let allows = limits.allow_now();
                    // (what finds no memory is tried again after a period)
                    let _ = retained(&pool, |_, metrics| allows(&metrics));
                }
                // (a period may be zero)
                poll_again().await;
            }
        }
    }

    /// The timeouts that the pool was built with.
    #[must_use]
    pub fn timeouts(&self) -> Timeouts {
        self.shared.setup.timeouts
    }

    /// Closes the pool for good: its limit is 0, the idle objects are dropped, and each get ends with `Closed`.
    pub fn close(&self) {
        self.shared.close();
    }

    /// Closes the pool, as [`Pool::close`], and waits until nothing is left of it: no object is out, no get has a place or a
    /// creation under way, and what has left was detached and dropped. Gives how it stands then. Who has an object waits
    /// for good.
    ///
    /// # Cancel safety
    ///
    /// It can be dropped at any await. Once it was polled the pool stays closed, and another one waits for the same.
    pub async fn drain(&self) -> Status {
        drained(&self.shared, Alarm::Unset).await.unwrap_or_else(DrainError::status)
    }

    /// The same, but no longer than this, by the pool's timers, or by this crate's thread if it has none.
    ///
    /// # Errors
    ///
    /// `Timeout` if something is left then, and `Departing` if only what has left is still to be dropped. The pool stays closed.
    ///
    /// # Cancel safety
    ///
    /// As of [`Pool::drain`].
    ///
    /// # Panics
    ///
    /// `Runtime::Tokio1` with its feature panics outside of tokio.
    pub async fn drain_for(&self, most: Duration) -> Result<Status, DrainError> {
        drained(&self.shared, alarm_within(most, self.shared.setup.runtime)).await
    }

    /// The name that the pool was built with.
    #[must_use]
    pub fn name(&self) -> Option<&str> {
        self.shared.setup.name.as_deref()
    }

    /// The error under the pool's name.
    ///
    /// ```
    /// # use deadpool::managed::{Manager, Metrics, RecycleResult};
    /// # use std::convert::Infallible;
    /// # struct Lists;
    /// # impl Manager for Lists {
    /// #     type Type = Vec<u64>;
    /// #     type Error = Infallible;
    /// #     async fn create(&self) -> Result<Vec<u64>, Infallible> { Ok(Vec::new()) }
    /// #     async fn recycle(&self, _: &mut Vec<u64>, _: &Metrics) -> RecycleResult<Infallible> { Ok(()) }
    /// # }
    /// use deadpool::managed::Pool;
    ///
    /// let pool: Pool<Lists> = Pool::builder(Lists).name("orders").build().expect("a pool");
    /// pool.close();
    /// let error = deadpool::wait(pool.get()).map_err(|error| pool.named(error)).expect_err("it is closed");
    /// assert_eq!(error.to_string(), "pool orders: Pool has been closed");
    /// ```
    #[must_use]
    pub fn named<E>(&self, error: E) -> Named<E> {
        Named { name: self.shared.setup.name.clone(), error }
    }

    /// Whether the pool has closed.
    #[must_use]
    pub fn is_closed(&self) -> bool {
        self.shared.look(|state| state.desk.is_closed())
    }

    /// How the pool stands.
    #[must_use]
    #[doc(alias("state", "size", "num_idle"))]
    pub fn status(&self) -> Status {
        self.shared.look(|state| state.desk.status())
    }

    /// Who holds what is out, and since when, the one that holds longest first. It is empty unless the pool [tracks
    /// holders](PoolBuilder::tracks_holders). An object that was taken is not out, and one that was forgotten ([`std::mem::forget`])
    /// stays so. One for whose entry no memory was found is not listed.
    ///
    /// Those that are past the [threshold](PoolBuilder::hold_threshold), and were not told before, are told to the log.
    /// [`held_by`](super::held_by) has an example.
    #[must_use]
    #[doc(alias("leaks", "leak_detection"))]
    pub fn holders(&self) -> Vec<Holder> {
        tell_long(&self.shared);
        self.shared.setup.holders.as_ref().map_or_else(Vec::new, |holders| holders.list())
    }

    /// How often each thing has happened since the pool was opened, with how it stands, both of one moment. It is printed as
    /// Prometheus reads it, with the pool's name as a label; [`Reports`](crate::Reports) has several pools in one text.
    #[must_use]
    pub fn tally(&self) -> Report<'_> {
        let (tally, status) = self.shared.look(|State { desk, .. }| (desk.tally(), desk.status()));
        Report { name: self.name().unwrap_or_default(), tally, status }
    }

    /// The manager.
    #[must_use]
    pub fn manager(&self) -> &M {
        &self.shared.setup.manager
    }

    /// A reference that is no handle.
    #[must_use]
    pub fn weak(&self) -> WeakPool<M> {
        WeakPool { shared: Arc::downgrade(&*self.shared), wrapper: PhantomData }
    }

    /// The steps that the pool has made, of which [`PoolBuilder::journal`] says how many are noted.
    ///
    /// # Panics
    ///
    /// If no memory is found for a copy.
    #[must_use]
    pub fn journal(&self) -> Journal {
        let copy = self.shared.look(|state| state.desk.journal());
        let copy = copy.expect("memory for a copy of the journal");
        Journal::of(&copy, copy.full)
    }
}

impl<M: Manager, W: From<Object<M>>> Clone for Pool<M, W> {
    #[inline]
    fn clone(&self) -> Self {
        Pool::of(self.shared.clone())
    }
}

/// Its name, its holders if it tracks them, and how it stands, as [`Pool::status`] says, unless a step is under way.
impl<M: Manager, W: From<Object<M>>> fmt::Debug for Pool<M, W> {
    fn fmt(&self, f: &mut fmt::Formatter<'_>) -> fmt::Result {
        let mut told = f.debug_struct("Pool");
        self.name().iter().for_each(|name| _ = told.field("name", name));
        if let Some(holders) = &self.shared.setup.holders {
            told.field("holders", &holders.list());
        }
        self.shared.debug(&mut told)
    }
}

/// Gives up the idle objects of which a predicate says no.
#[allow(clippy::needless_for_each, reason = "it reads as the line below it")]
fn retained<M: Manager>(
    pool: &Shared<M>,
    mut predicate: impl FnMut(&M::Type, Metrics) -> bool,
) -> Result<RetainResult<M::Type>, OutOfMemory> {
    // (it makes nobody due)
    let given = pool.look(|state| {
        let mut keep = Vec::new();
        while state.desk.idle_at(keep.len()).is_some() {
            keep.try_reserve(1).map_err(|_| OutOfMemory)?;
            let is_kept = state.lent(|state| {
                let slot = state.desk.idle_at(keep.len())?;
                slot.value.lend(|kept| predicate(&kept.value, kept.metrics))
            });
            keep.push(is_kept.unwrap_or_default());
        }
        state.desk.retain(&mut Choice(keep.into_iter())).map_err(|_| OutOfMemory)
    })?;
    let mut gone: Vec<_> = given.removed.into_iter().flatten().collect();
    gone.iter().for_each(|kept| pool.tell(kept, Why::Retain));
    gone.iter_mut().for_each(|kept| pool.setup.manager.detach(&mut kept.value));
    Ok(RetainResult { retained: given.retained, removed: gone.into_iter().map(|kept| kept.open().value).collect() })
}

/// A reference to a pool that is no handle.
pub struct WeakPool<M: Manager, W: From<Object<M>> = Object<M>> {
    shared: Weak<Shared<M>>,
    wrapper: PhantomData<fn() -> W>,
}

impl<M: Manager, W: From<Object<M>>> WeakPool<M, W> {
    /// A handle more, if one is left.
    #[must_use]
    pub fn upgrade(&self) -> Option<Pool<M, W>> {
        Pool::upgrade(&self.shared.upgrade()?)
    }
}

impl<M: Manager, W: From<Object<M>>> Clone for WeakPool<M, W> {
    fn clone(&self) -> Self {
        WeakPool { shared: self.shared.clone(), wrapper: PhantomData }
    }
}

impl<M: Manager, W: From<Object<M>>> fmt::Debug for WeakPool<M, W> {
    fn fmt(&self, f: &mut fmt::Formatter<'_>) -> fmt::Result {
        f.debug_struct("WeakPool").finish_non_exhaustive()
    }
}

#[cfg(test)]
mod broken;
#[cfg(test)]
mod crowd;
