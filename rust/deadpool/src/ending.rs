//! Those that wait until a pool has ended or is drained.
use crate::desk::Desk;
use crate::errors::{OutOfMemory, error_texts};
use crate::shared::{Shared, State};
use crate::timed::Alarm;
use crate::wakers::Wakers;
use crate::{Runtime, Status};
use std::future::{Future, poll_fn};
use std::sync::{Arc, Weak};
use std::task::{Context, Poll};
use std::time::Duration;

/// Why a drain ended before the end of its pool, which is closed. It says how the pool stood then.
#[derive(Clone, Copy, Debug, PartialEq, Eq)]
pub enum DrainError {
    /// Something was left in the pool, and the time to wait was over.
    Timeout(Status),
    /// Nothing was left in the pool, but what had left it was not detached and dropped yet, and the time to wait was over.
    Departing(Status),
}

impl DrainError {
    /// How the pool stood then.
    #[must_use]
    pub fn status(self) -> Status {
        match self {
            DrainError::Timeout(status) | DrainError::Departing(status) => status,
        }
    }
}

error_texts! { DrainError {
    DrainError::Timeout(status) => "Timeout occurred while draining the pool: {status}",
    DrainError::Departing(status) => "An object is still being given up: {status}",
} }

/// One that waits for something that comes once, and stays. If it is dropped its waker goes.
struct Watch<C, D: Desk> {
    pool: Weak<Shared<C, D>>,
    wakers: fn(&mut State<D>) -> &mut Wakers,
    /// Where its waker is kept, once there is one.
    place: Option<usize>,
}

impl<C, D: Desk> Watch<C, D> {
    /// What has come, or nothing if the pool has gone. Until then the waker is kept, or called at once if no memory is found for it.
    fn poll<T>(
        &mut self,
        cx: &Context<'_>,
        look: impl FnOnce(&Shared<C, D>, &mut State<D>) -> Option<T>,
    ) -> Poll<Option<T>> {
        let Some(pool) = self.pool.upgrade() else { return Poll::Ready(None) };
        let mut come = None;
        let kept = pool.look(|state| {
            come = look(&pool, state);
            if come.is_some() {
                return None;
            }
            let wakers = (self.wakers)(state);
            let place = *self.place.get_or_insert_with(|| wakers.free_place());
            Some(state.lent(|state| (self.wakers)(state).keep(place, cx.waker())))
        });
        // (wakers are dropped and called without the lock)
        match kept {
            None => {}
            Some(Ok(replaced)) => drop(replaced),
            Some(Err(OutOfMemory)) => {
                self.place = None;
                cx.waker().wake_by_ref();
            }
        }
        if come.is_some() { Poll::Ready(come) } else { Poll::Pending }
    }
}

impl<C, D: Desk> Drop for Watch<C, D> {
    fn drop(&mut self) {
        if let (Some(pool), Some(place)) = (self.pool.upgrade(), self.place) {
            drop(pool.look(|state| (self.wakers)(state).take(place)));
        }
    }
}

/// Waits until a pool has closed or has no handle, or so long. Says whether it has ended.
pub(crate) fn ends_within<C, D: Desk>(pool: &Weak<Shared<C, D>>, mut alarm: Alarm) -> impl Future<Output = bool> {
    let mut watch = Watch { pool: pool.clone(), wakers: |state| &mut state.keepers, place: None };
    poll_fn(move |cx| {
        if watch.poll(cx, |pool, _| pool.has_ended().then_some(())).is_ready() {
            Poll::Ready(true)
        } else if alarm.is_over(cx) {
            Poll::Ready(false)
        } else {
            Poll::Pending
        }
    })
}

/// Closes a pool, and waits until nothing is left of it, or the alarm is over. Says how it stands then.
pub(crate) fn drained<C, D: Desk>(
    pool: &Arc<Shared<C, D>>,
    mut alarm: Alarm,
) -> impl Future<Output = Result<Status, DrainError>> {
    pool.close();
    let mut watch = Watch { pool: Arc::downgrade(pool), wakers: |state| &mut state.drains, place: None };
    poll_fn(move |cx| {
        let come = watch.poll(cx, |_, state| state.is_drained().then(|| state.desk.status()));
        if let Poll::Ready(Some(status)) = come {
            return Poll::Ready(Ok(status));
        }
        if !alarm.is_over(cx) {
            return Poll::Pending;
        }
        Poll::Ready(pool.look(end_of))
    })
}

/// How a drain ends that ends now.
fn end_of<D: Desk>(state: &mut State<D>) -> Result<Status, DrainError> {
    let status = state.desk.status();
    if state.is_drained() {
        Ok(status)
    } else if state.desk.is_drained() {
        Err(DrainError::Departing(status))
    } else {
        Err(DrainError::Timeout(status))
    }
}

/// An alarm after so long, by the pool's timers, or those of this crate's thread.
pub(crate) fn alarm_within(most: Duration, runtime: Option<Runtime>) -> Alarm {
    if most.is_zero() { Alarm::Over } else { Alarm::Set(most, runtime.unwrap_or(Runtime::Thread)) }
}
