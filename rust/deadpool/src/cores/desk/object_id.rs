// Made by .ci/made-rust of crates/deadpool_desk/src/object_id.rt, without its contracts. The proof is of that text.
//! The number of an object.

use std::cmp::Ordering;
use std::fmt;

/// The number of an object in its pool. Numbers rise in order of creation, with gaps where a new object was refused,
/// and none is given out twice.
#[derive(Clone, Copy, Debug, PartialEq, Eq, Hash)]
pub struct ObjectId {
    number: usize,
}

impl ObjectId {
    // The identifier with this number.
    #[inline]
    pub(crate) fn new(number: usize) -> Self {
        ObjectId { number }
    }
}

impl Ord for ObjectId {
    #[inline]
    fn cmp(&self, other: &ObjectId) -> Ordering {
        self.number.cmp(&other.number)
    }
}

impl PartialOrd for ObjectId {
    #[inline]
    fn partial_cmp(&self, other: &ObjectId) -> Option<Ordering> {
        Some(self.cmp(other))
    }
}

impl fmt::Display for ObjectId {
    #[inline]
    fn fmt(&self, f: &mut fmt::Formatter<'_>) -> fmt::Result {
        let number = self.number;
        write!(f, "{number}")
    }
}
