// Made by .ci/made-rust of crates/deadpool_unmanaged_journal/src/entry.rt, without its contracts. The proof is of that text.
//! What a journal keeps of a step.
use crate::cores::unmanaged::{Reply, Step};
use crate::cores::unmanaged_journal::{OwnerReply, OwnerStep};

/// A step of a pool with its reply. `O` is what stands for an object. `docs/MODEL.md` has the text of each.
#[derive(Clone, Copy, Debug, PartialEq)]
pub enum Entry<O> {
    /// A step of a get, an add or an object, the object that it took or gave, and the reply.
    Made(Step, Option<O>, Reply),
    /// A step of the pool's owner, and the reply.
    Owner(OwnerStep, OwnerReply),
}
