// Made by .ci/made-rust of crates/deadpool_parts/src/replies.rt, without its contracts. The proof is of that text.
//! The reply to a step on the handles of an unmanaged pool.

/// The reply to a step on the count of handles.
#[derive(Clone, Copy, Debug, PartialEq, Eq)]
pub enum HandleReply {
    Done,
    /// The pool has no handle left, and nothing has changed.
    NoHandle,
}
