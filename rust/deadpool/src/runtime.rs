//! Timers, which end a wait, a creation or a recycling that has lasted too long.

use crate::owed::{Owed, give_back, take_again};
use crate::timed::{self, in_time};
use std::collections::BTreeMap;
use std::fmt;
use std::future::{Future, pending};
use std::panic::{AssertUnwindSafe, RefUnwindSafe, UnwindSafe, catch_unwind};
use std::pin::{Pin, pin};
use std::sync::atomic::{AtomicU64, Ordering};
use std::sync::{Condvar, Mutex, MutexGuard, OnceLock, PoisonError};
use std::task::{Context, Poll, Waker};
use std::thread::{self, JoinHandle};
use std::time::{Duration, Instant};

/// A future that is ready once its time has passed.
pub type Sleep = Pin<Box<dyn Future<Output = ()> + Send>>;

/// Timers of an executor, which are plugged in by [`Runtime::Timers`]. For tokio `sleep` is
/// `Box::pin(tokio::time::sleep(duration))`.
pub trait Timers: Send + Sync + UnwindSafe + RefUnwindSafe {
    /// A future that is ready after so long.
    fn sleep(&self, duration: Duration) -> Sleep;
}

/// Where a pool has its timers from. A timeout above zero needs one.
#[derive(Clone, Copy)]
#[non_exhaustive]
pub enum Runtime {
    /// A thread of this crate's own, which is started at the first timeout. It serves under every executor. Where it cannot start a
    /// call with a timeout ends as one without a runtime, and a sleep asks in each poll whether it is over. A process that was forked
    /// off has no such thread, so no timeout fires there once one has been used before the fork.
    Thread,
    /// Timers that are plugged in.
    Timers(&'static dyn Timers),
    /// The timers of tokio, and its threads for what blocks.
    #[cfg(feature = "rt_tokio_1")]
    Tokio1,
    /// The timers of async-std, and its threads for what blocks.
    #[cfg(feature = "rt_async-std_1")]
    AsyncStd1,
    /// The thread, under the name that smol's timers have in the crate deadpool.
    #[cfg(feature = "rt_smol_2")]
    Smol2,
}

/// Two are equal if they are of one kind, and plugged in as the same value.
impl PartialEq for Runtime {
    fn eq(&self, other: &Self) -> bool {
        match (self, other) {
            (Runtime::Timers(one), Runtime::Timers(other)) => std::ptr::eq(*one, *other),
            (one, other) => std::mem::discriminant(one) == std::mem::discriminant(other),
        }
    }
}

impl Eq for Runtime {}

#[allow(non_upper_case_globals, reason = "they stand for kinds, which have such names")]
impl Runtime {
    /// The name of tokio's timers. Without the feature `rt_tokio_1` it is the thread, which wakes tokio's tasks as well.
    #[cfg(not(feature = "rt_tokio_1"))]
    pub const Tokio1: Runtime = Runtime::Thread;

    /// The name of async-std's timers. Without the feature `rt_async-std_1` it is the thread.
    #[cfg(not(feature = "rt_async-std_1"))]
    pub const AsyncStd1: Runtime = Runtime::Thread;

    /// Whether it has timers: not if its thread cannot start.
    #[inline]
    pub(crate) fn has_timers(&self) -> bool {
        match self {
            Runtime::Timers(_) => true,
            #[cfg(feature = "rt_tokio_1")]
            Runtime::Tokio1 => true,
            #[cfg(feature = "rt_async-std_1")]
            Runtime::AsyncStd1 => true,
            _ => is_served(),
        }
    }

    /// A future that is ready after so long.
    ///
    /// # Panics
    ///
    /// `Runtime::Tokio1` with its feature does if it is called outside of tokio.
    #[must_use = "it sleeps while it is awaited"]
    pub fn sleep(&self, duration: Duration) -> Sleep {
        match self {
            Runtime::Timers(timers) => timers.sleep(duration),
            #[cfg(feature = "rt_tokio_1")]
            Runtime::Tokio1 => Box::pin(tokio::time::sleep(duration)),
            #[cfg(feature = "rt_async-std_1")]
            Runtime::AsyncStd1 => Box::pin(async_std::task::sleep(duration)),
            _ => match Instant::now().checked_add(duration) {
                Some(at) => Box::pin(Alarm { at, number: None }),
                // (it is too far away to have a moment)
                None => Box::pin(pending()),
            },
        }
    }

    /// What a future gives, or none if it takes longer.
    ///
    /// # Cancel safety
    ///
    /// The future is dropped with this one.
    ///
    /// # Panics
    ///
    /// As [`Runtime::sleep`], and as the future.
    pub async fn timeout<F: Future>(&self, duration: Duration, future: F) -> Option<F::Output> {
        in_time(timed::Alarm::Set(duration, *self), pin!(future)).await
    }
}

impl fmt::Debug for Runtime {
    fn fmt(&self, f: &mut fmt::Formatter<'_>) -> fmt::Result {
        f.write_str(match self {
            Runtime::Thread => "Thread",
            Runtime::Timers(_) => "Timers",
            #[cfg(feature = "rt_tokio_1")]
            Runtime::Tokio1 => "Tokio1",
            #[cfg(feature = "rt_async-std_1")]
            Runtime::AsyncStd1 => "AsyncStd1",
            #[cfg(feature = "rt_smol_2")]
            Runtime::Smol2 => "Smol2",
        })
    }
}

/// Wakers by the moment at which they are due, and by the number of their alarm.
type Wakers = BTreeMap<(Instant, u64), Waker>;

static WAKERS: Mutex<Wakers> = Mutex::new(BTreeMap::new());
static HAVE_CHANGED: Condvar = Condvar::new();
static ALARMS: AtomicU64 = AtomicU64::new(0);
static THREAD: OnceLock<JoinHandle<()>> = OnceLock::new();

fn wakers() -> MutexGuard<'static, Wakers> {
    WAKERS.lock().unwrap_or_else(PoisonError::into_inner)
}

/// Wakes, on the thread, each alarm at its moment.
fn serve() {
    let mut waiting = wakers();
    loop {
        let next = waiting.first_key_value().map(|((at, _), _)| at.saturating_duration_since(Instant::now()));
        let left = next.unwrap_or(Duration::MAX);
        if left.is_zero() {
            let reached = waiting.pop_first().map(|(_, waker)| Owed::new(waker));
            let free = give_back(waiting);
            // (a waker that panics ends its own wake, and no other alarm)
            let _ = catch_unwind(AssertUnwindSafe(|| reached.into_iter().for_each(|owed| owed.pay(&free))));
            waiting = take_again(free, wakers);
        } else {
            waiting = HAVE_CHANGED.wait_timeout(waiting, left).unwrap_or_else(PoisonError::into_inner).0;
        }
    }
}

/// Whether the thread is there, or starts now.
fn is_served() -> bool {
    static STARTS: Mutex<()> = Mutex::new(());
    if THREAD.get().is_some() {
        return true;
    }
    let _one_at_a_time = STARTS.lock().unwrap_or_else(PoisonError::into_inner);
    let start = || thread::Builder::new().name("deadpool timers".into()).spawn(serve);
    THREAD.get().is_some() || start().is_ok_and(|thread| THREAD.set(thread).is_ok())
}

/// A sleep by the thread.
struct Alarm {
    at: Instant,
    number: Option<u64>,
}

impl Future for Alarm {
    type Output = ();

    fn poll(mut self: Pin<&mut Self>, cx: &mut Context<'_>) -> Poll<()> {
        if self.at <= Instant::now() {
            return Poll::Ready(());
        }
        if !is_served() {
            // (it asks in each poll)
            cx.waker().wake_by_ref();
            return Poll::Pending;
        }
        let number = *self.number.get_or_insert_with(|| ALARMS.fetch_add(1, Ordering::Relaxed));
        let waker = cx.waker().clone();
        let _replaced = wakers().insert((self.at, number), waker);
        HAVE_CHANGED.notify_one();
        Poll::Pending
    }
}

impl Drop for Alarm {
    fn drop(&mut self) {
        if let Some(number) = self.number {
            let _removed = wakers().remove(&(self.at, number));
        }
    }
}
