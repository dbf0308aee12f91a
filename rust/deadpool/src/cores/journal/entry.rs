// Made by .ci/made-rust of crates/deadpool_journal/src/entry.rt, without its contracts. The proof is of that text.
//! What a journal keeps of a step.

use crate::cores::desk::{OwnerReply, OwnerStep, Removals, Reply, Step};
use crate::rattle::AllocError;

/// A step of a pool with its reply, objects by number. `docs/MODEL.md` has the text of each.
#[derive(Debug, PartialEq)]
pub enum Entry {
    /// A step of a get or an object, the number of the object that it took or gave, and the reply.
    Made(Step, Option<usize>, Reply),
    /// A step of the pool's owner, and the reply.
    Owner(OwnerStep, OwnerReply),
    /// The objects that were removed, and where each of them stood among those that were idle.
    Retain(Result<Removals, AllocError>),
}

impl Entry {
    /// The same entry. That of a retain takes memory for its list.
    #[inline]
    pub fn copied(&self) -> Result<Entry, AllocError> {
        match self {
            Entry::Made(step, number, reply) => Ok(Entry::Made(*step, *number, *reply)),
            Entry::Owner(step, reply) => Ok(Entry::Owner(*step, *reply)),
            Entry::Retain(Ok(noted)) => Ok(Entry::Retain(Ok(noted.copied()?))),
            Entry::Retain(Err(e)) => Ok(Entry::Retain(Err(*e))),
        }
    }
}
