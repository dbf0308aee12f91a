//! A pool whose objects are made by a manager.
//!
//! ```
//! use deadpool::managed::{Manager, Metrics, Pool, RecycleResult};
//! use std::convert::Infallible;
//!
//! struct Lists;
//!
//! impl Manager for Lists {
//!     type Type = Vec<u64>;
//!     type Error = Infallible;
//!
//!     async fn create(&self) -> Result<Vec<u64>, Infallible> {
//!         Ok(Vec::new())
//!     }
//!
//!     async fn recycle(&self, list: &mut Vec<u64>, _: &Metrics) -> RecycleResult<Infallible> {
//!         list.clear();
//!         Ok(())
//!     }
//! }
//!
//! # let example = async {
//! let pool: Pool<Lists> = Pool::builder(Lists).max_size(1).build().expect("a pool");
//! let mut list = pool.get().await.expect("a list");
//! list.push(7);
//! drop(list);
//! assert_eq!(*pool.get().await.expect("the same list"), []);
//! # };
//! # assert!(std::pin::pin!(example).poll(&mut std::task::Context::from_waker(std::task::Waker::noop())).is_ready());
//! ```

mod builder;
mod config;
mod errors;
mod executor;
mod get;
mod holders;
mod hooks;
mod limits;
mod manager;
mod names;
mod object;
mod pool;
pub mod reexports;

pub use crate::Status;
pub use crate::cores::desk::{ObjectId, QueueMode};
pub use crate::cores::journal::{Report, Tally};
pub use crate::ending::DrainError;
pub use crate::errors::OutOfMemory;
pub use crate::journal::Journal;
pub use builder::{BuildError, PoolBuilder};
pub use config::{CreatePoolError, PoolConfig, Settings, Timeouts};
pub use errors::{HookError, PoolError, RecycleError, TimeoutType};
pub use holders::Holder;
pub use hooks::{Hook, HookFuture, HookResult};
pub use limits::Limits;
pub use manager::{Manager, Metrics, RecycleResult};
pub use names::held_by;
pub use object::Object;
pub use pool::{Pool, RetainResult, WeakPool};

use crate::desk::Managed;
use crate::parcel::Parcel;
use crate::shared;

/// What both pools have, at the types of this one.
type Core<M> = Managed<Parcel<object::Kept<M>>>;
type Shared<M> = shared::Shared<builder::Setup<M>, Core<M>>;
type Handle<M> = shared::Handle<builder::Setup<M>, Core<M>>;
