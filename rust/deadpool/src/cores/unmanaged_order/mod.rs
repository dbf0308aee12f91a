// Made by .ci/made-rust of crates/deadpool_unmanaged_order/src/lib.rt, without its contracts. The proof is of that text.
//! The order of what a get, an add, a return and a take of an unmanaged pool do, as a value.
//!
//! An `Order` is told what has happened, by an event, and says by a command what is next. It calls nothing and has
//! no type of a user's. Whoever executes it decides nothing: what it has at the pool, what is in the hand and what
//! follows is here.

mod command;
mod order;
mod state;

pub use command::{Cause, Command};
pub use order::Order;
pub use state::{Line, State};
