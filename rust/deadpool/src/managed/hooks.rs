//! Code of a user's that sees each object at a point of its life, and may refuse it.
use super::object::Kept;
use super::{HookError, Manager, Metrics};
use std::fmt;
use std::future::Future;
use std::pin::Pin;

/// How a hook ended.
pub type HookResult<E> = Result<(), HookError<E>>;

/// What a hook with a future gives.
pub type HookFuture<'a, E> = Pin<Box<dyn Future<Output = HookResult<E>> + Send + 'a>>;

type SyncFn<M> = dyn Fn(&mut <M as Manager>::Type, &Metrics) -> HookResult<<M as Manager>::Error> + Sync + Send;

type AsyncFn<M> =
    dyn for<'a> Fn(&'a mut <M as Manager>::Type, &'a Metrics) -> HookFuture<'a, <M as Manager>::Error> + Sync + Send;

/// A hook, which sees an object and what is known of its past.
///
/// ```
/// # use deadpool::managed::{Manager, Metrics, RecycleResult};
/// # use std::convert::Infallible;
/// # struct Lists;
/// # impl Manager for Lists {
/// #     type Type = Vec<u64>;
/// #     type Error = Infallible;
/// #     async fn create(&self) -> Result<Vec<u64>, Infallible> { Ok(Vec::new()) }
/// #     async fn recycle(&self, _: &mut Vec<u64>, _: &Metrics) -> RecycleResult<Infallible> { Ok(()) }
/// # }
/// use deadpool::managed::{Hook, HookError, Object, Pool};
///
/// # let example = async {
/// let spent = Hook::sync_fn(|_, metrics: &Metrics| match metrics.recycle_count {
///     0 => Ok(()),
///     _ => Err(HookError::message("was used twice")),
/// });
/// let pool: Pool<Lists> = Pool::builder(Lists).pre_recycle(spent).build().expect("a pool");
/// for _ in 0..2 {
///     assert_eq!(pool.get().await.expect("a list").len(), 0);
/// }
/// // The third is a new one.
/// assert_eq!(Object::metrics(&pool.get().await.expect("a list")).recycle_count, 0);
/// # };
/// # assert!(std::pin::pin!(example).poll(&mut std::task::Context::from_waker(std::task::Waker::noop())).is_ready());
/// ```
pub enum Hook<M: Manager> {
    /// One that ends at once.
    Fn(Box<SyncFn<M>>),
    /// One that gives a future.
    AsyncFn(Box<AsyncFn<M>>),
}

impl<M: Manager> Hook<M> {
    /// A hook that ends at once.
    pub fn sync_fn(f: impl Fn(&mut M::Type, &Metrics) -> HookResult<M::Error> + Sync + Send + 'static) -> Self {
        Hook::Fn(Box::new(f))
    }

    /// A hook that gives a future. The type of the value has to be written out, as here, if a method of it is called.
    ///
    /// ```
    /// # use deadpool::managed::{Manager, Metrics, Pool, RecycleResult};
    /// # use std::convert::Infallible;
    /// # struct Lists;
    /// # impl Manager for Lists {
    /// #     type Type = Vec<u64>;
    /// #     type Error = Infallible;
    /// #     async fn create(&self) -> Result<Vec<u64>, Infallible> { Ok(Vec::new()) }
    /// #     async fn recycle(&self, _: &mut Vec<u64>, _: &Metrics) -> RecycleResult<Infallible> { Ok(()) }
    /// # }
    /// use deadpool::managed::Hook;
    ///
    /// let begun = Hook::async_fn(|list: &mut Vec<u64>, _: &Metrics| {
    ///     Box::pin(async move {
    ///         list.push(7);
    ///         Ok(())
    ///     })
    /// });
    /// let pool: Pool<Lists> = Pool::builder(Lists).post_create(begun).build().expect("a pool");
    /// assert_eq!(*pool.get_blocking().expect("a list"), [7]);
    /// ```
    pub fn async_fn(
        f: impl for<'a> Fn(&'a mut M::Type, &'a Metrics) -> HookFuture<'a, M::Error> + Sync + Send + 'static,
    ) -> Self {
        Hook::AsyncFn(Box::new(f))
    }

    /// The hook sees an object.
    pub(super) async fn call(&self, kept: &mut Kept<M>) -> HookResult<M::Error> {
        match self {
            Hook::Fn(f) => f(&mut kept.value, &kept.metrics),
            Hook::AsyncFn(f) => f(&mut kept.value, &kept.metrics).await,
        }
    }
}

impl<M: Manager> fmt::Debug for Hook<M> {
    fn fmt(&self, f: &mut fmt::Formatter<'_>) -> fmt::Result {
        f.write_str(if matches!(self, Hook::Fn(_)) { "Fn" } else { "AsyncFn" })
    }
}

/// The hooks of a pool, in three lists. Those of a list see an object in turn, up to the first that refuses it.
pub(super) struct Hooks<M: Manager> {
    pub(super) post_create: Vec<Hook<M>>,
    pub(super) pre_recycle: Vec<Hook<M>>,
    pub(super) post_recycle: Vec<Hook<M>>,
}
