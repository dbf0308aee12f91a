//! A list. Beside what stands here it is a slice.
use super::{AllocError, Global};
use std::ops::{Deref, DerefMut};
use std::{slice, vec};

#[derive(Debug, PartialEq, Eq)]
pub(crate) struct Vec<T>(vec::Vec<T>);

impl<T> Vec<T> {
    /// No items. It takes no memory.
    pub(crate) fn new(_: Global) -> Self {
        Vec(vec::Vec::new())
    }

    /// If it is made it has no items, and there is memory for so many at least. With 0 it is made.
    pub(crate) fn with_capacity(_: Global, capacity: usize) -> Result<Self, AllocError> {
        let mut items = vec::Vec::new();
        items.try_reserve_exact(capacity).map_err(|_| AllocError)?;
        Ok(Vec(items))
    }

    /// If it ends well the item stands behind those before. If not it comes back, and they stay. It ends well if there was memory for
    /// more than there are.
    #[inline]
    pub(crate) fn push(&mut self, item: T) -> Result<(), T> {
        if self.0.len() == self.0.capacity() && self.0.try_reserve(1).is_err() {
            return Err(item);
        }
        self.0.push(item);
        Ok(())
    }

    /// To be called with an index up to the number of items. If it ends well the item stands there, before those that stood there and
    /// behind. If not it comes back, and they stay. It ends well if there was memory for more than there are.
    pub(crate) fn insert(&mut self, index: usize, item: T) -> Result<(), T> {
        if self.0.try_reserve(1).is_err() {
            return Err(item);
        }
        self.0.insert(index, item);
        Ok(())
    }

    /// The last item leaves, if there is one, and is the result.
    #[inline]
    pub(crate) fn pop(&mut self) -> Option<T> {
        self.0.pop()
    }

    /// To be called with an index below the number of items. The item there leaves and is the result; the later ones move down.
    pub(crate) fn remove(&mut self, index: usize) -> T {
        self.0.remove(index)
    }

    /// No items are left.
    pub(crate) fn clear(&mut self) {
        self.0.clear();
    }

    /// The items.
    #[inline]
    pub(crate) fn as_slice(&self) -> &[T] {
        &self.0
    }

    /// Where its memory is from.
    #[allow(clippy::unused_self, reason = "what it stands for keeps its own")]
    pub(crate) fn allocator(&self) -> &Global {
        &Global
    }
}

impl<T: Copy> Vec<T> {
    /// If it is made it has the same items.
    pub(crate) fn clone(&self) -> Result<Self, AllocError> {
        let mut copy = Vec::with_capacity(Global, self.0.len())?;
        copy.0.extend_from_slice(&self.0);
        Ok(copy)
    }
}

impl<T> Deref for Vec<T> {
    type Target = [T];

    #[inline]
    fn deref(&self) -> &[T] {
        &self.0
    }
}

impl<T> DerefMut for Vec<T> {
    #[inline]
    fn deref_mut(&mut self) -> &mut [T] {
        &mut self.0
    }
}

impl<T> IntoIterator for Vec<T> {
    type Item = T;
    type IntoIter = vec::IntoIter<T>;

    fn into_iter(self) -> Self::IntoIter {
        self.0.into_iter()
    }
}

impl<'a, T> IntoIterator for &'a Vec<T> {
    type Item = &'a T;
    type IntoIter = slice::Iter<'a, T>;

    fn into_iter(self) -> Self::IntoIter {
        self.0.iter()
    }
}
