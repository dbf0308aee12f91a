//! A clock that stands at the moment of the line that is played.
use deadpool::{Runtime, Sleep, Timers};
use std::cell::Cell;
use std::future::poll_fn;
use std::task::Poll;
use std::time::Duration;

thread_local! {
    static NOW: Cell<u128> = const { Cell::new(0) };
}

struct Clock;

impl Timers for Clock {
    fn sleep(&self, duration: Duration) -> Sleep {
        let at = NOW.get().saturating_add(duration.as_nanos());
        Box::pin(poll_fn(move |_| if at <= NOW.get() { Poll::Ready(()) } else { Poll::Pending }))
    }
}

pub fn set(now: u128) {
    NOW.set(now);
}

/// The runtime that a script names.
pub fn runtime(word: &str) -> Option<Option<Runtime>> {
    match word {
        "none" => Some(None),
        "clock" => Some(Some(Runtime::Timers(&Clock))),
        _ => None,
    }
}
