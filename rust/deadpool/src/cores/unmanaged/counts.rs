// Made by .ci/made-rust of crates/deadpool_unmanaged/src/counts.rt, without its contracts. The proof is of that text.
//! What an unmanaged pool counts.

/// The counts of an unmanaged pool at one moment.
#[derive(Clone, Copy, PartialEq, Eq, Debug)]
pub struct Counts {
    /// How many objects there may be.
    pub limit: usize,
    /// How many there are: idle or out.
    pub size: usize,
    /// How many gets in the queue were granted an object.
    pub gets_granted: usize,
    /// How many gets in the queue wait for one.
    pub gets_waiting: usize,
    /// How many adds in the queue were granted room.
    pub adds_granted: usize,
    /// How many adds in the queue wait for it.
    pub adds_waiting: usize,
}
