// Made by .ci/made-rust of crates/deadpool_parts/src/lib.rt, without its contracts. The proof is of that text.
//! What both pools stand on beside the queue of those that wait: configuration, errors, the clock and the status.

pub mod config;
mod moment;
mod replies;
mod status;
pub mod tables;

pub use moment::{Clock, Moment, NoTime, Runtime};
pub use replies::HandleReply;
pub use status::Status;
