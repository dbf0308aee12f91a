//! The runtimes of the crate `deadpool`, for backends that name them by the crate deadpool-runtime. They are the same types.
#![forbid(unsafe_code)]
#![warn(missing_docs)]

pub use deadpool::{Runtime, SpawnBlockingError};
