// Made by .ci/made-rust of crates/deadpool_desk/src/slot.rt, without its contracts. The proof is of that text.
//! An object of a pool.

use crate::cores::desk::ObjectId;
use crate::cores::parts::tables::Numbered;

/// An object: its number in its pool, and its value.
pub struct Slot<T> {
    pub number: usize,
    pub value: T,
}

impl<T> Slot<T> {
    /// The object's identifier.
    #[inline]
    pub fn id(&self) -> ObjectId {
        ObjectId::new(self.number)
    }
}

impl<T> Numbered for Slot<T> {
    #[inline]
    fn number(&self) -> usize {
        self.number
    }
}
