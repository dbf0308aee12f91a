//! Cells, in which gets that have waited find what their pool has answered them meanwhile.
//!
//! The step that makes a get due also makes the next step of that get, its `Ask`, if an object is idle for it. So the get takes no lock
//! when it is polled: the answer lies in its cell. A ticket is given to another get once its own has asked, so a get that waits has a
//! number that no other one has, and the cell of its number. If another answer lies there, the get asks the pool itself.
use crate::cores::desk::{Reply, Slot};
use crate::parcel::Parcel;
use std::sync::atomic::{AtomicU64, Ordering};
use std::sync::{Mutex, MutexGuard, OnceLock, PoisonError};

/// The most cells of a pool.
const MOST: usize = 64;

/// What a step of a get was answered, and the object that it gives.
pub(crate) struct Answer<V> {
    pub(crate) reply: Reply,
    pub(crate) hand: Option<Slot<Parcel<V>>>,
}

/// A place for an answer, in a line of a cache of its own.
#[repr(align(64))]
struct Cell<V> {
    /// The number of the get that finds its answer here, and 0 if there is none. It is set under the pool's lock.
    of: AtomicU64,
    answer: Mutex<Option<Answer<V>>>,
}

impl<V> Cell<V> {
    fn answer(&self) -> MutexGuard<'_, Option<Answer<V>>> {
        self.answer.lock().unwrap_or_else(PoisonError::into_inner)
    }

    /// Whether it has the answer of the get with this number. Under the pool's lock that is sure.
    #[inline]
    fn is_of(&self, number: u64) -> bool {
        self.of.load(Ordering::Relaxed) == number
    }
}

/// The cells of a pool. They are made when a get has to wait for the first time.
pub(crate) struct Cells<V> {
    cells: OnceLock<Box<[Cell<V>]>>,
    /// Whether gets are answered in cells.
    are_used: bool,
}

impl<V> Cells<V> {
    pub(crate) fn new(are_used: bool) -> Self {
        Cells { cells: OnceLock::new(), are_used }
    }

    /// Makes as many as the limit, up to a power of two, unless they were made. If no memory is found there are none.
    #[inline]
    pub(crate) fn open(&self, limit: impl FnOnce() -> usize) {
        if self.are_used && self.cells.get().is_none() {
            self.make(limit().clamp(1, MOST).next_power_of_two());
        }
    }

    #[cold]
    fn make(&self, count: usize) {
        let mut cells = Vec::new();
        if cells.try_reserve_exact(count).is_ok() {
            cells.extend((0..count).map(|_| Cell { of: AtomicU64::new(0), answer: Mutex::new(None) }));
            self.cells.get_or_init(|| cells.into_boxed_slice());
        }
    }

    #[inline]
    fn of(&self, number: u64) -> Option<&Cell<V>> {
        let cells = self.cells.get()?;
        // (their number is a power of two)
        cells.get(usize::try_from(number & (cells.len() as u64 - 1)).ok()?)
    }

    /// Has a get answered in its cell, if that is empty and there is an answer. It is called under the pool's lock.
    #[inline]
    pub(crate) fn put(&self, number: u64, answer: impl FnOnce() -> Option<Answer<V>>) {
        let Some(cell) = self.of(number).filter(|cell| cell.is_of(0)) else { return };
        if let Some(answer) = answer() {
            *cell.answer() = Some(answer);
            cell.of.store(number, Ordering::Relaxed);
        }
    }

    /// Takes the answer of the get with this number out of its cell. Under the pool's lock none is missed.
    #[inline]
    pub(crate) fn take(&self, number: u64) -> Option<Answer<V>> {
        let cell = self.of(number).filter(|cell| number != 0 && cell.is_of(number))?;
        let answer = cell.answer().take();
        cell.of.store(0, Ordering::Relaxed);
        answer
    }

    /// Takes back the objects that were not found. Their gets find that the pool has closed. No get is answered after it.
    pub(crate) fn end(&self, mut take_back: impl FnMut(Slot<Parcel<V>>)) {
        for cell in self.cells.get().into_iter().flatten() {
            if let Some(Answer { reply, hand }) = &mut *cell.answer() {
                *reply = Reply::Closed;
                hand.take().into_iter().for_each(&mut take_back);
            }
        }
    }
}
