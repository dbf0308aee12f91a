//! What `std::sync` has, where each operation is a point at which another thread may go on.
mod atomics;
mod conditions;
mod counts;
mod locks;

pub mod atomic {
    //! Atomics of which a load may see an older store.
    pub use super::atomics::{AtomicBool, AtomicU64};
    pub use std::sync::atomic::Ordering;
}
pub use conditions::{Condvar, WaitTimeoutResult};
pub use counts::{Arc, Weak};
pub use locks::{Mutex, MutexGuard, StaticOnceLock};
pub use std::sync::{LockResult, OnceLock, PoisonError, TryLockError, TryLockResult};

use crate::handover::{execution, with};
use std::sync::atomic::{AtomicU64, Ordering::SeqCst};

/// The number of an object in its execution, which it has at its first use.
#[derive(Debug, Default)]
struct Id(AtomicU64);

impl Id {
    const fn new() -> Self {
        Id(AtomicU64::new(0))
    }

    fn get(&self) -> usize {
        let (of, had) = (execution(), self.0.load(SeqCst));
        if (had >> 32) as u32 == of && of != 0 {
            return (had & 0xffff_ffff) as usize;
        }
        let id = with(|it| {
            it.objects += 1;
            it.objects
        });
        let id = id.unwrap_or_default();
        self.0.store((u64::from(of) << 32) | id as u64, SeqCst);
        id
    }
}
