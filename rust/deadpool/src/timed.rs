//! Futures that are polled beside something else.

use crate::runtime::{Runtime, Sleep};
use std::future::{Future, poll_fn};
use std::pin::Pin;
use std::task::{Context, Poll};
use std::time::Duration;

/// A timeout, if there is one. Its sleep begins with the first look at it, so what is ready at once needs none.
#[derive(Default)]
pub(crate) enum Alarm {
    #[default]
    Unset,
    Set(Duration, Runtime),
    Asleep(Sleep),
    Over,
}

impl Alarm {
    /// An alarm after so long, if there is a timeout. None if it needs a runtime and there is none, or none whose thread starts.
    #[inline(always)]
    pub(crate) fn after(timeout: Option<Duration>, runtime: Option<Runtime>) -> Option<Self> {
        timeout.map_or(Some(Alarm::Unset), |duration| Some(Alarm::Set(duration, runtime.filter(Runtime::has_timers)?)))
    }

    /// Is set, unless it was.
    #[inline]
    pub(crate) fn begin(&mut self, timeout: Option<Duration>, runtime: Option<Runtime>) -> &mut Self {
        if let Alarm::Unset = self {
            *self = Alarm::after(timeout, runtime).unwrap_or_default();
        }
        self
    }

    /// Whether it is reached. A sleep is not polled any more once it is over.
    #[inline]
    pub(crate) fn is_over(&mut self, cx: &mut Context<'_>) -> bool {
        !matches!(self, Alarm::Unset) && self.is_reached(cx)
    }

    fn is_reached(&mut self, cx: &mut Context<'_>) -> bool {
        if let Alarm::Set(duration, runtime) = *self {
            *self = Alarm::Asleep(runtime.sleep(duration));
        }
        let is_reached = if let Alarm::Asleep(sleep) = self { sleep.as_mut().poll(cx).is_ready() } else { false };
        if is_reached {
            *self = Alarm::Over;
        }
        matches!(self, Alarm::Over)
    }
}

/// Whether a timeout lacks what can time it: there is no runtime, or none whose thread starts.
#[inline]
pub(crate) fn lacks_timers(timeout: Option<Duration>, runtime: Option<Runtime>) -> bool {
    timeout.is_some() && !runtime.is_some_and(|it| it.has_timers())
}

/// What a future gives, or none if its time is over before that.
pub(crate) fn in_time<F: Future>(mut alarm: Alarm, mut future: Pin<&mut F>) -> impl Future<Output = Option<F::Output>> {
    poll_fn(move |cx| match future.as_mut().poll(cx) {
        Poll::Ready(output) => Poll::Ready(Some(output)),
        Poll::Pending if alarm.is_over(cx) => Poll::Ready(None),
        Poll::Pending => Poll::Pending,
    })
}

/// Ends this poll, and asks for another one.
pub(crate) fn poll_again() -> impl Future<Output = ()> {
    let mut has_ended = false;
    poll_fn(move |cx| {
        if std::mem::replace(&mut has_ended, true) {
            return Poll::Ready(());
        }
        cx.waker().wake_by_ref();
        Poll::Pending
    })
}
