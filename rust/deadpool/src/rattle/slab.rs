//! Values under keys that the slab picks.
use super::{AllocError, Global};

pub(crate) struct Slab<T> {
    /// A value, or the key that was vacant before this one.
    places: Vec<Result<T, usize>>,
    vacant_key: usize,
    len: usize,
}

impl<T> Slab<T> {
    /// No values, and the first key is 0. It takes no memory.
    pub(crate) fn new(_: Global) -> Self {
        Slab { places: Vec::new(), vacant_key: 0, len: 0 }
    }

    /// The number of values.
    #[inline]
    pub(crate) fn len(&self) -> usize {
        self.len
    }

    /// How many values fit without more memory.
    pub(crate) fn capacity(&self) -> usize {
        self.places.capacity()
    }

    /// If it ends well there is memory for so many values more. If not, the values and the next key are as they were.
    pub(crate) fn reserve_exact(&mut self, additional: usize) -> Result<(), AllocError> {
        let vacant = self.places.len() - self.len;
        self.places.try_reserve_exact(additional.saturating_sub(vacant)).map_err(|_| AllocError)
    }

    /// The value under a key, if there is one.
    #[inline]
    pub(crate) fn get(&self, key: usize) -> Option<&T> {
        self.places.get(key)?.as_ref().ok()
    }

    /// The same, to write to.
    #[inline]
    pub(crate) fn get_mut(&mut self, key: usize) -> Option<&mut T> {
        self.places.get_mut(key)?.as_mut().ok()
    }

    /// The key of the next value. No value is under it.
    #[inline]
    pub(crate) fn vacant_key(&self) -> usize {
        self.vacant_key
    }

    /// If it ends well the value is under the key that was vacant, which is the result, and no other key has changed. If not, the
    /// value comes back, and nothing has changed. While a key is vacant again after a removal it takes no memory and ends well.
    pub(crate) fn insert(&mut self, value: T) -> Result<usize, T> {
        let key = self.vacant_key;
        if let Some(place) = self.places.get_mut(key) {
            if let Err(vacant_before) = std::mem::replace(place, Ok(value)) {
                self.vacant_key = vacant_before;
            }
        } else {
            if self.places.try_reserve(1).is_err() {
                return Err(value);
            }
            self.places.push(Ok(value));
            self.vacant_key = key + 1;
        }
        self.len += 1;
        Ok(key)
    }

    /// The value under a key leaves, if there is one, and is the result. Then the key is the next to be given, and no other key has
    /// changed. If there is none nothing has changed.
    pub(crate) fn try_remove(&mut self, key: usize) -> Option<T> {
        let place = self.places.get_mut(key)?;
        if place.is_err() {
            return None;
        }
        let value = std::mem::replace(place, Err(self.vacant_key)).ok();
        self.vacant_key = key;
        self.len -= 1;
        value
    }
}
