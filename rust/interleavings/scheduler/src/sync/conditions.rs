//! A condition, whose waits end when they are notified, or when the clock reaches their moment.
use super::{Id, LockResult, MutexGuard, PoisonError};
use crate::handover::{me, point, with};
use crate::operation::Operation;
use crate::time::moment_after;
use std::time::Duration;

#[derive(Debug, Default)]
pub struct Condvar {
    id: Id,
}

pub struct WaitTimeoutResult(bool);

impl WaitTimeoutResult {
    pub fn timed_out(&self) -> bool {
        self.0
    }
}

impl Condvar {
    pub const fn new() -> Self {
        Condvar { id: Id::new() }
    }

    pub fn notify_one(&self) {
        if me().is_some() {
            point(Operation::Notify(self.id.get()));
        }
    }

    pub fn wait_timeout<'a, T>(
        &self,
        guard: MutexGuard<'a, T>,
        most: Duration,
    ) -> LockResult<(MutexGuard<'a, T>, WaitTimeoutResult)> {
        let (of, id, me) = (guard.of, self.id.get(), me().expect("a thread of the program waits"));
        point(Operation::BeginWait(id));
        let until = moment_after(most);
        with(|it| it.begin_wait(me, id, until));
        drop(guard);
        let was_notified = point(Operation::Wait(id));
        match of.lock() {
            Ok(it) => Ok((it, WaitTimeoutResult(!was_notified))),
            Err(it) => Err(PoisonError::new((it.into_inner(), WaitTimeoutResult(!was_notified)))),
        }
    }
}
