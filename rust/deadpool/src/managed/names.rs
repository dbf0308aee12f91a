//! Names of who asks for objects.
use std::borrow::Cow;
use std::cell::RefCell;
use std::future::poll_fn;
use std::mem::swap;
use std::pin::pin;

type Name = Option<Cow<'static, str>>;

thread_local! {
    /// The name of the future that is polled on this thread, if it has one.
    static NAME: RefCell<Name> = const { RefCell::new(None) };
}

/// The future, with a name for the objects that it gets: from any pool that [tracks holders](super::PoolBuilder::tracks_holders), by
/// whichever call, also in what it awaits. [`Pool::holders`](super::Pool::holders) lists them under it. What is polled
/// elsewhere, as a task that was spawned, has it not, and within another one the inner name counts. It has more than twice the future's bytes.
///
/// ```
/// # use deadpool::managed::{Manager, Metrics, RecycleResult};
/// # use std::convert::Infallible;
/// # struct Lists;
/// # impl Manager for Lists {
/// #     type Type = Vec<u64>;
/// #     type Error = Infallible;
/// #     async fn create(&self) -> Result<Vec<u64>, Infallible> { Ok(Vec::new()) }
/// #     async fn recycle(&self, _: &mut Vec<u64>, _: &Metrics) -> RecycleResult<Infallible> { Ok(()) }
/// # }
/// use deadpool::managed::{Pool, held_by};
///
/// let pool: Pool<Lists> = Pool::builder(Lists).tracks_holders(true).build().expect("a pool");
/// let list = deadpool::wait(held_by("checkout", pool.get())).expect("a list");
/// assert_eq!(pool.holders()[0].name.as_deref(), Some("checkout"));
/// drop(list);
/// assert!(pool.holders().is_empty());
/// ```
///
/// # Cancel safety
///
/// As of the future.
pub fn held_by<F: Future>(name: impl Into<Cow<'static, str>>, future: F) -> impl Future<Output = F::Output> {
    let mut name = Some(name.into());
    async move {
        let mut future = pin!(future);
        poll_fn(|cx| {
            let _turn = Turn::begin(&mut name);
            future.as_mut().poll(cx)
        })
        .await
    }
}

/// The name that is given on this thread, if there is one.
pub(super) fn name_here() -> Name {
    let copied = |name: &RefCell<Name>| match &*name.borrow() {
        Some(Cow::Borrowed(name)) => Some(Cow::Borrowed(*name)),
        Some(Cow::Owned(name)) => copy(name),
        None => None,
    };
    NAME.try_with(copied).ok().flatten()
}

/// A copy of a name, or none if no memory is found for it.
fn copy(name: &str) -> Name {
    let mut copy = String::new();
    copy.try_reserve_exact(name.len()).ok()?;
    copy.push_str(name);
    Some(copy.into())
}

/// A poll under a name. At its end, also by a panic, the one before it is there again.
struct Turn<'a>(&'a mut Name);

impl<'a> Turn<'a> {
    fn begin(name: &'a mut Name) -> Self {
        exchange(name);
        Turn(name)
    }
}

impl Drop for Turn<'_> {
    fn drop(&mut self) {
        exchange(self.0);
    }
}

/// Gives the thread a name in place of the one that it has. (A thread that ends may have none any more.)
fn exchange(name: &mut Name) {
    let _ = NAME.try_with(|here| swap(&mut *here.borrow_mut(), name));
}
