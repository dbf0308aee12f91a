//! A thread that waits for a future, where no executor is.
use std::future::{Future, IntoFuture};
use std::pin::pin;
use std::sync::Arc;
use std::sync::atomic::{AtomicBool, Ordering};
use std::task::{Context, Poll, Wake, Waker};
use std::thread::{self, Thread};

/// Wakes a thread. The mark stays if what the future calls has parked the thread too, and has taken its wake.
struct Bell {
    has_rung: AtomicBool,
    thread: Thread,
}

impl Wake for Bell {
    fn wake(self: Arc<Self>) {
        self.wake_by_ref();
    }

    fn wake_by_ref(self: &Arc<Self>) {
        self.has_rung.store(true, Ordering::Release);
        self.thread.unpark();
    }
}

/// Waits on this thread for what a future gives. The thread is parked meanwhile. A task of an executor awaits instead.
///
/// ```
/// let pool = deadpool::unmanaged::Pool::from(["a letter"]);
/// assert_eq!(deadpool::wait(pool.remove()), Ok("a letter"));
/// ```
///
/// # Panics
///
/// If the future does. On a thread of an executor it keeps the tasks of that thread from running.
pub fn wait<F: IntoFuture>(future: F) -> F::Output {
    let mut future = pin!(future.into_future());
    let bell = Arc::new(Bell { has_rung: AtomicBool::new(false), thread: thread::current() });
    let waker = Waker::from(bell.clone());
    loop {
        if let Poll::Ready(output) = future.as_mut().poll(&mut Context::from_waker(&waker)) {
            return output;
        }
        while !bell.has_rung.swap(false, Ordering::Acquire) {
            thread::park();
        }
    }
}
