// Made by .ci/made-rust of crates/deadpool_desk/src/retain.rt, without its contracts. The proof is of that text.
//! What a retain asks, and what it gives.

use crate::rattle::Vec;
use crate::rattle::{AllocError, Global};

/// Says which idle objects a retain keeps, and takes the value of each that is given up. It may change with each call.
///
/// An implementation states by its relations which answers its calls may give. By default every answer is allowed.
pub trait Retainer<T> {
    /// What it leaves of a value.
    type Left;

    /// Says whether an idle object is kept.
    fn keeps(&mut self, number: usize, value: &T) -> bool;

    /// Takes the value of an object that is given up, and gives what is left of it.
    fn detach(&mut self, value: T) -> Self::Left;
}

/// An object that a retain gave up: how many idle objects stood before it, and its number.
#[derive(Clone, Copy, Debug, PartialEq, Eq)]
pub struct Removal {
    pub position: usize,
    pub number: usize,
}

/// The objects that a retain gave up, in order. Contracts see them as a list.
#[derive(Debug)]
pub struct Removals {
    removals: Vec<Removal>,
}

impl PartialEq for Removals {
    #[inline]
    fn eq(&self, other: &Removals) -> bool {
        self.removals == other.removals
    }
}

impl Removals {
    /// The objects of this list.
    #[inline]
    pub fn new(removals: Vec<Removal>) -> Self {
        Removals { removals }
    }

    /// They, front to back.
    #[inline]
    pub fn as_slice(&self) -> &[Removal] {
        self.removals.as_slice()
    }

    /// A copy of them.
    #[inline]
    pub fn copied(&self) -> Result<Removals, AllocError> {
        let removals = self.removals.clone()?;
        Ok(Removals { removals })
    }
}

/// What became of the idle objects in a retain.
#[derive(Debug)]
pub struct RetainResult<T> {
    /// How many stay.
    pub retained: usize,
    /// What `detach` left of the others, in order.
    pub removed: Vec<T>,
}

impl<T> RetainResult<T> {
    /// What a retain gives where nothing is idle. It takes no memory.
    #[inline]
    pub fn empty(alloc: Global) -> Self {
        RetainResult { retained: 0, removed: Vec::new(alloc) }
    }
}
