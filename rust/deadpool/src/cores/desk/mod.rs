// Made by .ci/made-rust of crates/deadpool_desk/src/lib.rt, without its contracts. The proof is of that text.
//! The state of a managed pool on one thread, and its steps.
//!
//! A pool is asked for one step at a time, by a get or an object (`desk`) or by its owner (`owner_desk`). `state` has
//! `Core`, which is a desk to both. Nothing here asks a manager or a hook; a retain asks its retainer (`retain`,
//! `review`).

mod counts;
mod desk;
mod object_id;
mod owner_desk;
mod owner_step;
mod retain;
mod review;
mod slot;
mod state;
mod step;

pub use crate::cores::gate::gate;
pub use crate::cores::parts::Status;
pub use crate::cores::parts::config::QueueMode;
pub use counts::Counts;
pub use desk::Desk;
pub use object_id::ObjectId;
pub use owner_desk::OwnerDesk;
pub use owner_step::{OwnerReply, OwnerStep};
pub use retain::{Removal, Removals, RetainResult, Retainer};
pub use slot::Slot;
pub use state::Core;
pub use step::{Held, Reply, Step};
