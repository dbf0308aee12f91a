//! A pool of objects that its users add.
//!
//! ```
//! use deadpool::unmanaged::{Pool, PoolError};
//!
//! let pool = Pool::from(["a letter"]);
//! let letter = pool.try_get()?;
//! assert!(matches!(pool.try_get(), Err(PoolError::Timeout)));
//! drop(letter);
//! assert_eq!(pool.try_remove()?, "a letter");
//! # Ok::<(), PoolError>(())
//! ```

mod config;
mod executor;
mod object;
mod pool;

pub use crate::Status;
pub use crate::cores::unmanaged_journal::{Report, Tally};
pub use crate::ending::DrainError;
pub use crate::errors::OutOfMemory;
pub use crate::journal::Journal;
pub use config::{PoolConfig, PoolError, Settings};
pub use object::Object;
pub use pool::Pool;

use crate::desk::Unmanaged;
use crate::parcel::Parcel;

type Core<T> = Unmanaged<Parcel<T>>;
