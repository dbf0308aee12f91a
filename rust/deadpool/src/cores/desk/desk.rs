// Made by .ci/made-rust of crates/deadpool_desk/src/desk.rt, without its contracts. The proof is of that text.
//! What gets ask of a pool, and objects that go back: one step at a time, each with its reply.
//!
//! What a step does is said as `Core` does it, by its relation. Another desk has a relation of its own, and owes
//! nothing beyond it but that the reply is one of those of the step, and that it says what its get holds.

use crate::cores::desk::{Reply, Slot, Step};

/// The steps of a pool that a get or an object makes. The pool's owner makes those of `OwnerDesk`.
pub trait Desk<T> {
    /// Makes one step. The object that it takes or gives is in `hand`.
    fn make(&mut self, step: &Step, hand: &mut Option<Slot<T>>) -> Reply;
}
