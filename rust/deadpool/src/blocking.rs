//! Closures that may block, on threads of their own.
use crate::owed::{Owed, give_back};
use crate::runtime::Runtime;
use std::any::Any;
use std::fmt;
use std::future::poll_fn;
use std::io;
use std::panic::{AssertUnwindSafe, catch_unwind};
use std::sync::{Arc, Mutex, MutexGuard, PoisonError};
use std::task::{Poll, Waker};
use std::thread;

/// Why a closure gave nothing.
#[derive(Debug)]
pub enum SpawnBlockingError {
    /// It panicked, with this.
    Panic(Box<dyn Any + Send + 'static>),
}

impl fmt::Display for SpawnBlockingError {
    fn fmt(&self, f: &mut fmt::Formatter<'_>) -> fmt::Result {
        f.write_str("SpawnBlockingError: Panic")
    }
}

impl std::error::Error for SpawnBlockingError {}

/// How a closure ended, and who waits for that.
struct End<R> {
    result: Option<thread::Result<R>>,
    waker: Option<Waker>,
}

fn locked<R>(end: &Mutex<End<R>>) -> MutexGuard<'_, End<R>> {
    end.lock().unwrap_or_else(PoisonError::into_inner)
}

impl Runtime {
    /// Runs a closure where it may block: on a thread that the runtime has for such, or else on one of its own.
    ///
    /// # Errors
    ///
    /// If it panics, or if no thread starts for it: then this is said by a text in place of the panic.
    ///
    /// # Cancel safety
    ///
    /// If the future is dropped the closure runs on to its end, and what it gives is dropped there. If it was never polled, the closure
    /// is dropped and does not run.
    ///
    /// # Panics
    ///
    /// `Runtime::Tokio1` with its feature does if it is called outside of tokio.
    pub async fn spawn_blocking<F, R>(&self, f: F) -> Result<R, SpawnBlockingError>
    where
        F: FnOnce() -> R + Send + 'static,
        R: Send + 'static,
    {
        let end = Arc::new(Mutex::new(End { result: None, waker: None }));
        let set = end.clone();
        let started = self.start(move || {
            let result = catch_unwind(AssertUnwindSafe(f));
            let mut end = locked(&set);
            end.result = Some(result);
            let owed = end.waker.take().map(Owed::new);
            let free = give_back(end);
            if let Some(owed) = owed {
                owed.pay(&free);
            }
        });
        started.map_err(|error| SpawnBlockingError::Panic(Box::new(format!("no thread starts: {error}"))))?;
        let result = poll_fn(move |cx| {
            let mut end = locked(&end);
            let result = end.result.take();
            let _replaced = if result.is_none() { end.waker.replace(cx.waker().clone()) } else { None };
            // (a waker is dropped without the lock)
            drop(end);
            result.map_or(Poll::Pending, Poll::Ready)
        });
        result.await.map_err(SpawnBlockingError::Panic)
    }

    /// The same, without its result. Where no thread starts the closure is dropped.
    ///
    /// # Panics
    ///
    /// As [`Runtime::spawn_blocking`].
    pub fn spawn_blocking_background<F: FnOnce() + Send + 'static>(&self, f: F) {
        let _ = self.start(f);
    }

    fn start<F: FnOnce() + Send + 'static>(&self, f: F) -> io::Result<()> {
        match self {
            #[cfg(feature = "rt_tokio_1")]
            Runtime::Tokio1 => drop(tokio::task::spawn_blocking(f)),
            #[cfg(feature = "rt_async-std_1")]
            Runtime::AsyncStd1 => drop(async_std::task::spawn_blocking(f)),
            _ => drop(thread::Builder::new().spawn(f)?),
        }
        Ok(())
    }
}
