// A value whose calls block, for tasks. The page is that of README.md.
#![doc = include_str!("../README.md")]
#![forbid(unsafe_code)]
#![warn(missing_docs, clippy::pedantic)]

mod guard;
pub mod reexports;

pub use deadpool_runtime::{Runtime, SpawnBlockingError};
pub use guard::SyncGuard;

use std::any::Any;
use std::fmt;
use std::panic::resume_unwind;
use std::sync::{Arc, Mutex, MutexGuard, PoisonError, TryLockError};

/// Why a closure gave nothing.
#[derive(Debug)]
pub enum InteractError {
    /// It panicked, with this.
    Panic(Box<dyn Any + Send + 'static>),
    /// The value has gone.
    Aborted,
}

impl fmt::Display for InteractError {
    fn fmt(&self, f: &mut fmt::Formatter<'_>) -> fmt::Result {
        f.write_str(match self {
            InteractError::Panic(_) => "Panic",
            InteractError::Aborted => "Aborted",
        })
    }
}

impl std::error::Error for InteractError {}

/// A value, the lock under which closures see it one at a time, and the runtime whose threads run them.
#[must_use]
pub struct SyncWrapper<T: Send + 'static> {
    /// It is there until the drop.
    value: Arc<Mutex<Option<T>>>,
    runtime: Runtime,
}

impl<T: Send + 'static> SyncWrapper<T> {
    /// The value that a closure makes, in a thread that may block.
    ///
    /// # Errors
    ///
    /// Those of the closure.
    ///
    /// # Panics
    ///
    /// As the closure, and if no thread starts for it.
    pub async fn new<F, E>(runtime: Runtime, f: F) -> Result<Self, E>
    where
        F: FnOnce() -> Result<T, E> + Send + 'static,
        E: Send + 'static,
    {
        match runtime.spawn_blocking(f).await {
            Ok(made) => made.map(|value| SyncWrapper { value: Arc::new(Mutex::new(Some(value))), runtime }),
            Err(SpawnBlockingError::Panic(panic)) => resume_unwind(panic),
        }
    }

    /// What a closure on the value gives. It runs in a thread that may block, after those that were begun before it.
    ///
    /// # Errors
    ///
    /// It has panicked, or one before it has.
    ///
    /// # Cancel safety
    ///
    /// If this is dropped a closure that was begun runs to its end, and what it gives is dropped. The value can be used again after that.
    ///
    /// # Panics
    ///
    /// `Runtime::Tokio1` does if this is awaited outside of tokio.
    pub async fn interact<F, R>(&self, f: F) -> Result<R, InteractError>
    where
        F: FnOnce(&mut T) -> R + Send + 'static,
        R: Send + 'static,
    {
        let value = self.value.clone();
        let ran = self.runtime.spawn_blocking(move || match value.lock() {
            Ok(mut value) => value.as_mut().map(f).ok_or(InteractError::Aborted),
            Err(_) => Err(InteractError::Panic(Box::new("a closure before this one has panicked"))),
        });
        ran.await.unwrap_or_else(|SpawnBlockingError::Panic(panic)| Err(InteractError::Panic(panic)))
    }

    /// Whether a closure has panicked. Then the value is of no use any more.
    #[must_use]
    pub fn is_mutex_poisoned(&self) -> bool {
        self.value.is_poisoned()
    }

    /// The value, once no closure runs. This blocks the thread that calls it.
    ///
    /// # Errors
    ///
    /// A closure has panicked.
    pub fn lock(&self) -> Result<SyncGuard<'_, T>, PoisonError<MutexGuard<'_, Option<T>>>> {
        self.value.lock().map(SyncGuard)
    }

    /// The value, if no closure runs.
    ///
    /// # Errors
    ///
    /// A closure runs, or one has panicked.
    pub fn try_lock(&self) -> Result<SyncGuard<'_, T>, TryLockError<MutexGuard<'_, Option<T>>>> {
        self.value.try_lock().map(SyncGuard)
    }
}

impl<T: Send + 'static> Drop for SyncWrapper<T> {
    /// Its value is dropped once no closure runs, in a thread that may block: the end of a connection may.
    fn drop(&mut self) {
        let value = self.value.clone();
        self.runtime.spawn_blocking_background(move || {
            let gone = value.lock().unwrap_or_else(PoisonError::into_inner).take();
            drop(gone);
        });
    }
}

impl<T: fmt::Debug + Send + 'static> fmt::Debug for SyncWrapper<T> {
    fn fmt(&self, f: &mut fmt::Formatter<'_>) -> fmt::Result {
        f.debug_struct("SyncWrapper").field("value", &self.value).field("runtime", &self.runtime).finish()
    }
}
