//! A waker that is owed is called once, or it is seen.
use super::{Owed, give_back};
use std::panic::{AssertUnwindSafe, catch_unwind};
use std::sync::atomic::{AtomicUsize, Ordering};
use std::sync::{Arc, Mutex};
use std::task::{Wake, Waker};

/// Counts its calls, and panics in them if it is told to.
#[derive(Default)]
struct Count {
    calls: AtomicUsize,
    panics: bool,
}

impl Wake for Count {
    fn wake(self: Arc<Self>) {
        self.calls.fetch_add(1, Ordering::SeqCst);
        assert!(!self.panics, "on purpose");
    }
}

/// A waker that is owed, and what counts its calls.
fn owed(panics: bool) -> (Owed, Arc<Count>) {
    let count = Arc::new(Count { panics, ..Count::default() });
    (Owed::new(Waker::from(count.clone())), count)
}

/// How a call ends that panics.
fn panics(call: impl FnOnce()) -> &'static str {
    let panic = catch_unwind(AssertUnwindSafe(call)).expect_err("the call panics");
    panic.downcast_ref::<&str>().expect("a text")
}

fn calls(count: &Count) -> usize {
    count.calls.load(Ordering::SeqCst)
}

#[test]
fn one_that_is_paid_is_called_with_the_lock_given_back() {
    let (lock, (owed, count)) = (Mutex::new(()), owed(false));
    let free = give_back(lock.lock().expect("no panic"));
    assert!(lock.try_lock().is_ok());
    owed.pay(&free);
    assert_eq!((calls(&count), Arc::strong_count(&count)), (1, 1));
}

#[test]
fn one_whose_call_panics_was_paid() {
    let (lock, (owed, count)) = (Mutex::new(()), owed(true));
    let free = give_back(lock.lock().expect("no panic"));
    assert_eq!(panics(|| owed.pay(&free)), "on purpose");
    assert_eq!((calls(&count), Arc::strong_count(&count)), (1, 1));
}

#[test]
#[cfg(debug_assertions)]
fn one_that_is_let_go_is_seen() {
    let (owed, count) = owed(false);
    assert_eq!(panics(|| drop(owed)), "a waker that is to be called is let go");
    assert_eq!((calls(&count), Arc::strong_count(&count)), (0, 1));
}

/// A second panic would end the program.
#[test]
fn one_that_a_panic_lets_go_ends_nothing_else() {
    let (owed, count) = owed(false);
    let ends = || {
        let _owed = owed;
        panic!("on purpose")
    };
    assert_eq!(panics(ends), "on purpose");
    assert_eq!((calls(&count), Arc::strong_count(&count)), (0, 1));
}
