//! Those that may wait in a queue: how many of them are answered by their first polls.
use std::cell::Cell;

/// How many that might have waited are answered on a thread by their first polls, in a row. The next one first ends its poll, so that
/// a task which asks in a loop, and never has to wait, lets the others of its executor run.
const AT_ONCE: u32 = 128;

thread_local! {
    static LEFT: Cell<u32> = const { Cell::new(AT_ONCE) };
}

/// Whether one that begins may ask in its first poll. If not, the next ones may again.
#[inline]
pub(crate) fn may_ask_at_once() -> bool {
    LEFT.with(|left| {
        let after = left.get().checked_sub(1);
        left.set(after.unwrap_or(AT_ONCE));
        after.is_some()
    })
}

/// One that asked in its first poll was not answered, so it does not count.
pub(crate) fn has_to_wait() {
    LEFT.set(LEFT.get() + 1);
}
