//! How calls end that the crate deadpool does not refuse: by a kind of their own, or by the nearest of its kinds.
use deadpool::managed;
use deadpool::unmanaged::PoolError;

#[cfg(feature = "refusals")]
pub const CROWDED: PoolError = PoolError::Crowded;
#[cfg(feature = "refusals")]
pub const NO_MEMORY: PoolError = PoolError::OutOfMemory;

#[cfg(not(feature = "refusals"))]
pub const CROWDED: PoolError = PoolError::Timeout;
#[cfg(not(feature = "refusals"))]
pub const NO_MEMORY: PoolError = PoolError::Timeout;

pub fn is_crowded<E>(refusal: &managed::PoolError<E>) -> bool {
    #[cfg(feature = "refusals")]
    let is = matches!(refusal, managed::PoolError::Crowded);
    #[cfg(not(feature = "refusals"))]
    let is = matches!(refusal, managed::PoolError::Timeout(managed::TimeoutType::Wait));
    is
}

pub fn has_no_memory<E>(refusal: &managed::PoolError<E>) -> bool {
    #[cfg(feature = "refusals")]
    let has = matches!(refusal, managed::PoolError::OutOfMemory);
    #[cfg(not(feature = "refusals"))]
    let has = matches!(refusal, managed::PoolError::Timeout(managed::TimeoutType::Wait));
    has
}
