// Made by .ci/made-rust of crates/deadpool_desk/src/review.rt, without its contracts. The proof is of that text.
//! How a retain goes through the idle objects.

use crate::cores::desk::{Removal, Retainer, Slot};
use crate::cores::parts::tables::append;
use crate::rattle::AllocError;
use crate::rattle::HeapCircularBuffer;
use crate::rattle::Vec;

// Asks about one object of so many that are idle, and gives back the object if it stays, else what `detach` left of its
// value.
#[inline]
fn ask_about<T, R: Retainer<T>>(
    slot: Slot<T>,
    least: usize,
    idle: usize,
    retainer: &mut R,
) -> Result<Slot<T>, R::Left> {
    let is_kept = retainer.keeps(slot.number, &slot.value);
    if is_kept || idle <= least {
        return Ok(slot);
    }
    let Slot { number: _, value } = slot;
    Err(retainer.detach(value))
}

// Asks about each object in the ring, front to back, and gives what is left of the values of those that go, and notes
// of them. None goes while no more than the least number are in the ring. The others go round to the back, one by one,
// so that they stand in their order at the end.
#[inline]
pub(crate) fn review<T, R: Retainer<T>>(
    ring: &mut HeapCircularBuffer<Slot<T>>,
    least: usize,
    retainer: &mut R,
) -> Result<(Vec<R::Left>, Vec<Removal>), AllocError> {
    let count = ring.len();
    let mut removed = Vec::with_capacity(*ring.allocator(), count)?;
    let mut noted = Vec::with_capacity(*ring.allocator(), count)?;
    for asked in 0..count {
        let idle = ring.len();
        let Some(slot) = ring.pop_front() else {
            break;
        };
        let number = slot.number;
        match ask_about(slot, least, idle, retainer) {
            Ok(kept) => {
                ring.push_back(kept);
            }
            Err(left) => {
                append(&mut removed, left);
                append(&mut noted, Removal { position: asked, number });
            }
        }
    }
    Ok((removed, noted))
}
