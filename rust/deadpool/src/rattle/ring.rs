//! A ring: items from the front to the back, and a capacity that they do not exceed.
use super::{AllocError, Global};
use std::collections::VecDeque;

#[repr(C)]
pub(crate) struct HeapCircularBuffer<T> {
    items: VecDeque<T>,
    capacity: usize,
}

impl<T> HeapCircularBuffer<T> {
    /// If it is made it has no items and just this capacity, for all of which there is memory.
    pub(crate) fn with_capacity(_: Global, capacity: usize) -> Result<Self, AllocError> {
        let mut items = VecDeque::new();
        items.try_reserve_exact(capacity).map_err(|_| AllocError)?;
        Ok(HeapCircularBuffer { items, capacity })
    }

    /// The number of items.
    #[inline]
    pub(crate) fn len(&self) -> usize {
        self.items.len()
    }

    /// Whether there are no items.
    #[inline]
    pub(crate) fn is_empty(&self) -> bool {
        self.items.is_empty()
    }

    /// The capacity.
    #[inline]
    pub(crate) fn capacity(&self) -> usize {
        self.capacity
    }

    /// Where its memory is from.
    #[allow(clippy::unused_self, reason = "what it stands for keeps its own")]
    pub(crate) fn allocator(&self) -> &Global {
        &Global
    }

    /// The item at an index, counted from the front, if there are as many.
    #[inline]
    pub(crate) fn get(&self, index: usize) -> Option<&T> {
        self.items.get(index)
    }

    /// The items are then the last ones, up to the capacity, of those before and this one behind them. The result is the one that
    /// has left for it: the first of all if there were as many as the capacity, which is the item itself if that is 0; else none.
    #[inline]
    pub(crate) fn push_back(&mut self, item: T) -> Option<T> {
        if self.capacity == 0 {
            return Some(item);
        }
        let replaced = if self.items.len() == self.capacity { self.items.pop_front() } else { None };
        self.items.push_back(item);
        replaced
    }

    /// The first item leaves, if there is one, and is the result. The capacity stays.
    #[inline]
    pub(crate) fn pop_front(&mut self) -> Option<T> {
        self.items.pop_front()
    }

    /// The last item leaves, if there is one, and is the result. The capacity stays.
    #[inline]
    pub(crate) fn pop_back(&mut self) -> Option<T> {
        self.items.pop_back()
    }

    /// No items are left. The capacity stays.
    pub(crate) fn clear(&mut self) {
        self.items.clear();
    }

    /// The items are then the last ones of those before, so many, or all if they are fewer. The capacity stays.
    pub(crate) fn truncate_front(&mut self, len: usize) {
        self.items.drain(..self.items.len().saturating_sub(len));
    }

    /// To be called with a capacity that the items do not exceed. If it ends well the items are as before and the capacity is this
    /// one, for all of which there is memory. If not, nothing has changed.
    pub(crate) fn resize(&mut self, capacity: usize) -> Result<(), AllocError> {
        self.items.try_reserve_exact(capacity.saturating_sub(self.items.len())).map_err(|_| AllocError)?;
        self.capacity = capacity;
        Ok(())
    }
}
