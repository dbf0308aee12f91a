// Made by .ci/made-rust of crates/deadpool_parts/src/status.rt, without its contracts. The proof is of that text.
//! What a pool says of itself.
use std::fmt;

/// How a pool stands, all in numbers of objects or gets. The two kinds of pool count differently who waits.
#[derive(Clone, Copy, Debug, PartialEq, Eq)]
pub struct Status {
    /// How many objects the pool may have.
    pub max_size: usize,
    /// How many it has: idle, being prepared, or out.
    pub size: usize,
    /// Of a managed pool, how many more objects are idle than gets were polled and have none; 0 if there are fewer. Of
    /// an unmanaged pool, how many objects are idle.
    pub available: usize,
    /// Of a managed pool, how many more gets were polled and have no object than objects are idle; 0 if there are
    /// fewer. Of an unmanaged pool, how many gets are in the queue.
    pub waiting: usize,
}

impl fmt::Display for Status {
    #[inline]
    fn fmt(&self, f: &mut fmt::Formatter<'_>) -> fmt::Result {
        let Status { max_size, size, available, waiting } = *self;
        write!(f, "max_size {max_size}, size {size}, available {available}, waiting {waiting}",)
    }
}
