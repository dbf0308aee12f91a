//! An object that is out.
use super::executor::Executor;
use super::holders::Long;
use super::{Manager, Metrics, ObjectId, Pool, Shared};
use crate::cores::desk::Step;
use crate::cores::order::Order;
use crate::lends::lends_value;
use crate::parcel::Boxed;
use std::fmt;
use std::sync::Arc;
use std::time::Duration;

/// A value, with what is known of it.
pub(super) struct Kept<M: Manager> {
    pub(super) value: M::Type,
    pub(super) metrics: Metrics,
    /// How long its last get has waited for a place.
    pub(super) waited: Duration,
    pub(super) number: usize,
}

impl<M: Manager> Kept<M> {
    pub(super) fn new(value: M::Type) -> Self {
        Kept { value, metrics: Metrics::default(), waited: Duration::ZERO, number: 0 }
    }
}

/// An object that is out. Its drop gives it back to the pool.
///
/// ```
/// # use deadpool::managed::{Manager, Metrics, RecycleResult};
/// # use std::convert::Infallible;
/// # struct Lists;
/// # impl Manager for Lists {
/// #     type Type = Vec<u64>;
/// #     type Error = Infallible;
/// #     async fn create(&self) -> Result<Vec<u64>, Infallible> { Ok(Vec::new()) }
/// #     async fn recycle(&self, _: &mut Vec<u64>, _: &Metrics) -> RecycleResult<Infallible> { Ok(()) }
/// # }
/// use deadpool::managed::{Object, Pool};
///
/// # let example = async {
/// let pool: Pool<Lists> = Pool::builder(Lists).max_size(2).build().expect("a pool");
/// let kept: Vec<u64> = Object::take(pool.get().await.expect("a list"));
/// assert_eq!((kept.len(), pool.status().size), (0, 0));
/// drop(pool.get().await.expect("a list"));
/// assert_eq!((pool.status().size, pool.status().available), (1, 1));
/// # };
/// # assert!(std::pin::pin!(example).poll(&mut std::task::Context::from_waker(std::task::Waker::noop())).is_ready());
/// ```
#[must_use]
pub struct Object<M: Manager> {
    /// It is there until the object is taken or dropped.
    pub(super) kept: Option<Boxed<Kept<M>>>,
    pub(super) pool: Arc<Shared<M>>,
}

impl<M: Manager> Object<M> {
    fn kept(&self) -> &Kept<M> {
        self.kept.as_ref().expect("an object has its value")
    }

    /// Nobody holds it any more. It is called before its number can be another's.
    fn ends(&self) -> Option<Long> {
        self.pool.setup.holders.as_ref()?.end(self.kept.as_ref()?.number)
    }

    /// Tells of the hold that has ended.
    fn tell(&self, long: Option<Long>) {
        if let Some(long) = long {
            long.tell(self.pool.setup.name.as_deref());
        }
    }

    /// It is about to be taken. (If who is told panics, it comes back.)
    #[cold]
    #[inline(never)]
    fn leaves_tracked(&self) {
        let long = self.ends();
        self.tell(long);
    }

    #[cold]
    #[inline(never)]
    fn comes_back_tracked(&mut self) {
        // (who is told may panic, and the object is back by then)
        let long = self.ends();
        comes_back_rarely(&self.pool, self.kept.take());
        self.tell(long);
    }

    /// Takes the value out of the pool for good. Its place is free.
    #[must_use]
    #[allow(clippy::missing_panics_doc, reason = "the value is there until this or the drop takes it")]
    pub fn take(mut this: Self) -> M::Type {
        if this.pool.setup.holders.is_some() {
            this.leaves_tracked();
        }
        let mut take = Executor::new(&this.pool, Order::taking(), this.kept.take());
        let command = take.make(&Step::Take);
        take.execute(command);
        take.given().expect("an object has its value").open().value
    }

    /// Its number.
    #[must_use]
    pub fn id(this: &Self) -> ObjectId {
        ObjectId::new(this.kept().number)
    }

    /// What is known of its past.
    pub fn metrics(this: &Self) -> &Metrics {
        &this.kept().metrics
    }

    /// How long its get waited for a place: zero if it was served at once, and in a pool that was not built to [time
    /// waits](super::PoolBuilder::times_waits). What the manager and the hooks took is no part of it.
    #[must_use]
    pub fn waited(this: &Self) -> Duration {
        this.kept().waited
    }

    /// Its pool, if that has a handle left.
    #[must_use]
    pub fn pool(this: &Self) -> Option<Pool<M>> {
        Pool::upgrade(&this.pool)
    }
}

impl<M: Manager> Drop for Object<M> {
    fn drop(&mut self) {
        if self.kept.is_some() {
            match self.pool.setup.holders {
                None => comes_back(&self.pool, self.kept.take()),
                Some(_) => self.comes_back_tracked(),
            }
        }
    }
}

/// As [`comes_back`], where that is rare.
#[inline(never)]
pub(super) fn comes_back_rarely<M: Manager>(pool: &Shared<M>, kept: Option<Boxed<Kept<M>>>) {
    comes_back(pool, kept);
}

/// An object comes back to its pool.
#[inline(always)]
fn comes_back<M: Manager>(pool: &Shared<M>, kept: Option<Boxed<Kept<M>>>) {
    let mut back = Executor::new(pool, Order::returning(), kept);
    let command = back.give_back();
    if !back.order.is_over() {
        back.execute_rarely(command);
    }
}

lends_value!([M: Manager] Object<M> => M::Type, in kept.value);

impl<M: Manager> fmt::Debug for Object<M>
where
    M::Type: fmt::Debug,
{
    fn fmt(&self, f: &mut fmt::Formatter<'_>) -> fmt::Result {
        let kept = self.kept();
        f.debug_struct("Object").field("id", &kept.number).field("value", &kept.value).finish_non_exhaustive()
    }
}
