//! A scheduler of threads that run one at a time, and hand over only at an operation on what they share.
//!
//! `explore` runs a program again and again, each time by other choices, until all that differ have been run. The
//! choices are who goes on at each operation, and which of the values that it may see a relaxed load sees. Two
//! executions do not differ if only the order of operations is another of which none can be seen from the other, as of
//! two locks.
#![forbid(unsafe_code)]

mod clock;
mod execution;
mod handover;
pub mod hint;
mod memory;
mod operation;
mod path;
mod races;
mod search;
pub mod sync;
pub mod thread;
pub mod time;
mod token;

pub use execution::Settings;
pub use handover::{holds_a_lock, point_on};
pub use memory::choose;
pub use path::Mode;
pub use search::{Failure, Found, Job, Program, explore};
pub use time::passes;
pub use token::{block_on, park_on, poll_with_dead_waker, token_waker};
