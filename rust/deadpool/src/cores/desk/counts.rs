// Made by .ci/made-rust of crates/deadpool_desk/src/counts.rt, without its contracts. The proof is of that text.
//! What a managed pool counts.

/// The counts of a managed pool at one moment.
#[derive(Clone, Copy, PartialEq, Eq, Debug)]
pub struct Counts {
    /// How many objects there may be.
    pub limit: usize,
    /// How many there are: idle, under preparation, or out.
    pub size: usize,
    /// How many places are held: granted, by gets that hold one and no object, by creations under way, and by objects
    /// that are not idle.
    pub places: usize,
    /// The size if each place that was given leads to an object.
    pub reach: usize,
    /// How many in the queue were granted a place.
    pub granted: usize,
    /// How many in the queue wait for one.
    pub waiting: usize,
}
