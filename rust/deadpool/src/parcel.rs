//! Objects in boxes, which travel in the cores.
use std::cell::Cell;
use std::mem::forget;
use std::ops::{Deref, DerefMut};
use std::thread::panicking;

/// A value in a box of its own, for which memory was found.
pub(crate) struct Boxed<V>(Box<[V; 1]>);

impl<V> Boxed<V> {
    /// The value comes back if no memory is found.
    pub(crate) fn new(value: V) -> Result<Self, V> {
        let mut place = Vec::new();
        if place.try_reserve_exact(1).is_err() {
            return Err(value);
        }
        place.push(value);
        Ok(Boxed(place.try_into().unwrap_or_else(|_| unreachable!("it has one value"))))
    }

    pub(crate) fn open(self) -> V {
        let [value] = *self.0;
        value
    }
}

impl<V> Deref for Boxed<V> {
    type Target = V;

    fn deref(&self) -> &V {
        &self.0[0]
    }
}

impl<V> DerefMut for Boxed<V> {
    fn deref_mut(&mut self) -> &mut V {
        &mut self.0[0]
    }
}

/// What a core keeps of an object: its box, which is taken out before a core drops the parcel, so that no step drops a value.
pub(crate) struct Parcel<V>(Cell<Option<Boxed<V>>>);

impl<V> Parcel<V> {
    pub(crate) fn of(value: Boxed<V>) -> Self {
        Parcel(Cell::new(Some(value)))
    }

    pub(crate) fn take(&self) -> Option<Boxed<V>> {
        self.0.take()
    }

    /// Lends the value to a call, which may panic.
    pub(crate) fn lend<R>(&self, call: impl FnOnce(&V) -> R) -> Option<R> {
        struct Lent<'a, V>(&'a Parcel<V>, Option<Boxed<V>>);
        impl<V> Drop for Lent<'_, V> {
            fn drop(&mut self) {
                self.0.0.set(self.1.take());
            }
        }
        Lent(self, self.take()).1.as_deref().map(call)
    }
}

impl<V> Drop for Parcel<V> {
    /// What a panic leaves in it within a step is forgotten, as that is under the lock.
    fn drop(&mut self) {
        match self.take() {
            Some(value) if panicking() => forget(value),
            left => debug_assert!(left.is_none(), "a parcel is empty when it is dropped"),
        }
    }
}
