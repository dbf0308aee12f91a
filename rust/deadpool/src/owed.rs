// A waker that is to be called, and when it may be called: not under the lock.
//
// Who gives the lock back has a `Free`, who takes it once more gives that up, and who pays an `Owed` shows one. So a waker that is
// called under the lock does not compile, and one that is let go or kept fails the first test in which it is.
use std::mem::forget;
use std::sync::MutexGuard;
use std::task::Waker;
use std::thread::panicking;

#[cfg(test)]
mod tests;

/// That its holder has given the lock back, and has not taken it since.
#[must_use = "who has given the lock back pays what is owed, or takes the lock once more"]
pub(crate) struct Free(());

/// Gives a lock back.
#[inline]
pub(crate) fn give_back<S>(kept: MutexGuard<'_, S>) -> Free {
    drop(kept);
    Free(())
}

/// Takes a lock once more.
#[inline]
pub(crate) fn take_again<G>(_: Free, take: impl FnOnce() -> G) -> G {
    take()
}

/// A waker that is to be called. In a debug build it fails if it is let go, unless a panic does that.
///
/// It is paid once the lock was given back.
///
/// ```
/// # mod owed { include!(concat!(env!("CARGO_MANIFEST_DIR"), "/src/owed.rs")); }
/// # use {owed::{Owed, give_back, take_again}, std::{sync::Mutex, task::Waker}};
/// let lock = Mutex::new(vec![Waker::noop().clone()]);
/// let mut kept = lock.lock().expect("no panic");
/// let owed = Owed::new(kept.pop().expect("a waker"));
/// let free = give_back(kept);
/// owed.pay(&free);
/// let kept = take_again(free, || lock.lock().expect("no panic"));
/// assert!(kept.is_empty());
/// ```
///
/// Not before that.
///
/// ```compile_fail,E0425
/// # mod owed { include!(concat!(env!("CARGO_MANIFEST_DIR"), "/src/owed.rs")); }
/// # use {owed::{Owed, give_back, take_again}, std::{sync::Mutex, task::Waker}};
/// let lock = Mutex::new(vec![Waker::noop().clone()]);
/// let mut kept = lock.lock().expect("no panic");
/// let owed = Owed::new(kept.pop().expect("a waker"));
/// owed.pay(&free);
/// let free = give_back(kept);
/// let kept = take_again(free, || lock.lock().expect("no panic"));
/// assert!(kept.is_empty());
/// ```
///
/// And not once it was taken again.
///
/// ```compile_fail,E0382
/// # mod owed { include!(concat!(env!("CARGO_MANIFEST_DIR"), "/src/owed.rs")); }
/// # use {owed::{Owed, give_back, take_again}, std::{sync::Mutex, task::Waker}};
/// let lock = Mutex::new(vec![Waker::noop().clone()]);
/// let mut kept = lock.lock().expect("no panic");
/// let owed = Owed::new(kept.pop().expect("a waker"));
/// let free = give_back(kept);
/// let kept = take_again(free, || lock.lock().expect("no panic"));
/// owed.pay(&free);
/// assert!(kept.is_empty());
/// ```
#[must_use = "a waker that is to be called is paid once the lock was given back"]
pub(crate) struct Owed {
    waker: Waker,
    unpaid: Unpaid,
}

impl Owed {
    /// It is to be called from now on.
    #[inline]
    pub(crate) fn new(waker: Waker) -> Self {
        Owed { waker, unpaid: Unpaid }
    }

    /// Calls it, with the lock given back.
    #[inline]
    pub(crate) fn pay(self, _: &Free) {
        let Owed { waker, unpaid } = self;
        forget(unpaid);
        waker.wake();
    }
}

/// What is dropped with a waker that nobody has called.
struct Unpaid;

impl Drop for Unpaid {
    #[inline]
    fn drop(&mut self) {
        debug_assert!(panicking(), "a waker that is to be called is let go");
    }
}
