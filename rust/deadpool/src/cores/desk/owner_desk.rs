// Made by .ci/made-rust of crates/deadpool_desk/src/owner_desk.rt, without its contracts. The proof is of that text.
//! What a pool's owner asks of it: one step at a time, each with its reply.
//!
//! A get makes none of these: it knows its pool as a `Desk`. A retain asks about each object, so it is a call of its
//! own.

use crate::cores::desk::{OwnerReply, OwnerStep, RetainResult, Retainer};
use crate::rattle::AllocError;

/// The steps of a pool's owner. An implementation states by its relations when each reply comes, and what it leaves.
pub trait OwnerDesk<T> {
    /// Makes one step.
    fn make_for_owner(&mut self, step: &OwnerStep) -> OwnerReply;

    /// Asks about each idle object once, front to back. One that is not kept is given up and detached there and then,
    /// before the next question. Where no more are idle than the pool's least number, as far as the limit allows, an
    /// object stays though it is not kept: it is not detached, and counts as retained. The list of the values takes
    /// memory first, for as many as are idle: where none is found,
    /// nothing is asked and nothing has changed. With nothing idle it takes none.
    fn retain<R: Retainer<T>>(&mut self, retainer: &mut R) -> Result<RetainResult<R::Left>, AllocError>;
}
