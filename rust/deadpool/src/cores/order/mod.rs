// Made by .ci/made-rust of crates/deadpool_order/src/lib.rt, without its contracts. The proof is of that text.
//! The order of what a get does, and of what a return and a take do, as a value.
//!
//! An `Order` is told what has happened, by an event, and says by a command what is next. It calls nothing and has
//! no type of a user's. Whoever executes it decides nothing: what is held at the desk, what is in the hand and what
//! follows is here. `ending` executes all that needs no wait.

mod command;
mod order;
mod state;

pub use command::{Cause, Command, HookCounts};
pub use order::Order;
pub use state::{State, Then};
