//! The value, while no closure runs on it.
use std::fmt;
use std::ops::{Deref, DerefMut};
use std::sync::MutexGuard;

/// The value of a [`SyncWrapper`](crate::SyncWrapper), until this is dropped.
#[must_use]
pub struct SyncGuard<'a, T: Send>(pub(crate) MutexGuard<'a, Option<T>>);

impl<T: Send> Deref for SyncGuard<'_, T> {
    type Target = T;

    fn deref(&self) -> &T {
        self.0.as_ref().expect("the value is there until the drop of what lends it")
    }
}

impl<T: Send> DerefMut for SyncGuard<'_, T> {
    fn deref_mut(&mut self) -> &mut T {
        self.0.as_mut().expect("the value is there until the drop of what lends it")
    }
}

impl<T: Send> AsRef<T> for SyncGuard<'_, T> {
    fn as_ref(&self) -> &T {
        self
    }
}

impl<T: Send> AsMut<T> for SyncGuard<'_, T> {
    fn as_mut(&mut self) -> &mut T {
        self
    }
}

impl<T: fmt::Debug + Send> fmt::Debug for SyncGuard<'_, T> {
    fn fmt(&self, f: &mut fmt::Formatter<'_>) -> fmt::Result {
        (**self).fmt(f)
    }
}
