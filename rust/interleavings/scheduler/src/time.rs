//! A clock that goes on where a program says so, and where all wait for it.
use crate::handover::{point, with};
use crate::operation::Operation;
use std::time::Duration;

/// A moment, in nanoseconds of its execution.
#[derive(Clone, Copy, Debug, PartialEq, Eq, PartialOrd, Ord)]
pub struct Instant(u64);

fn nanoseconds(duration: Duration) -> u64 {
    u64::try_from(duration.as_nanos()).unwrap_or(u64::MAX)
}

impl Instant {
    pub fn now() -> Self {
        point(Operation::Now);
        Instant(with(|it| it.now).unwrap_or_default())
    }

    pub fn checked_add(self, duration: Duration) -> Option<Self> {
        Some(Instant(self.0.checked_add(nanoseconds(duration))?))
    }

    pub fn saturating_duration_since(self, other: Self) -> Duration {
        Duration::from_nanos(self.0.saturating_sub(other.0))
    }
}

/// The moment of an execution so long from now on.
pub(crate) fn moment_after(duration: Duration) -> u64 {
    with(|it| it.now).unwrap_or_default().saturating_add(nanoseconds(duration))
}

/// Time goes on by so much.
pub fn passes(duration: Duration) {
    point(Operation::Pass(nanoseconds(duration)));
}
