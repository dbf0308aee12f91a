// Made by .ci/made-rust of crates/deadpool_unmanaged/src/lib.rt, without its contracts. The proof is of that text.
//! The unmanaged pool on one thread: its user adds the objects. Gets wait for an object, and adds for room, in order of
//! arrival.

mod counts;
mod state;
mod step;

pub use crate::cores::gate::gate;
pub use crate::cores::parts::{Clock, HandleReply, Moment, NoTime, Runtime, Status};
pub use counts::Counts;
pub use state::Core;
pub use step::{Reply, Step};
