//! Locks, and a value that is made once in an execution.
use super::{Id, LockResult, PoisonError, TryLockError, TryLockResult};
use crate::handover::{execution, me, point};
use crate::operation::Operation;
use std::ops::{Deref, DerefMut};

#[derive(Debug, Default)]
pub struct Mutex<T> {
    id: Id,
    inner: std::sync::Mutex<T>,
}

pub struct MutexGuard<'a, T> {
    pub(super) of: &'a Mutex<T>,
    /// It is there until the guard is dropped.
    inner: Option<std::sync::MutexGuard<'a, T>>,
}

impl<T> Mutex<T> {
    pub const fn new(value: T) -> Self {
        Mutex { id: Id::new(), inner: std::sync::Mutex::new(value) }
    }

    fn taken(&self) -> LockResult<MutexGuard<'_, T>> {
        let guard = |inner| MutexGuard { of: self, inner: Some(inner) };
        match self.inner.try_lock() {
            Ok(it) => Ok(guard(it)),
            Err(TryLockError::Poisoned(it)) => Err(PoisonError::new(guard(it.into_inner()))),
            Err(TryLockError::WouldBlock) => panic!("the scheduler says that a lock is free which is not"),
        }
    }

    pub fn lock(&self) -> LockResult<MutexGuard<'_, T>> {
        if me().is_none() {
            let guard = |inner| MutexGuard { of: self, inner: Some(inner) };
            return self.inner.lock().map(guard).map_err(|it| PoisonError::new(guard(it.into_inner())));
        }
        point(Operation::Lock(self.id.get()));
        self.taken()
    }

    pub fn clear_poison(&self) {
        self.inner.clear_poison();
    }

    pub fn try_lock(&self) -> TryLockResult<MutexGuard<'_, T>> {
        if me().is_some() && !point(Operation::TryLock(self.id.get())) {
            return Err(TryLockError::WouldBlock);
        }
        self.taken().map_err(TryLockError::Poisoned)
    }
}

impl<T> Drop for MutexGuard<'_, T> {
    fn drop(&mut self) {
        if me().is_some() {
            point(Operation::Unlock(self.of.id.get()));
        }
        self.inner = None;
    }
}

impl<T> Deref for MutexGuard<'_, T> {
    type Target = T;

    fn deref(&self) -> &T {
        self.inner.as_ref().expect("a guard has its lock")
    }
}

impl<T> DerefMut for MutexGuard<'_, T> {
    fn deref_mut(&mut self) -> &mut T {
        self.inner.as_mut().expect("a guard has its lock")
    }
}

/// A value that is set once in each execution, as one of a program is set once.
#[derive(Debug)]
pub struct StaticOnceLock<T: 'static> {
    id: Id,
    /// In which execution it was set, and as what. It stays to the end of the search, as that of a program does to its end.
    set: std::sync::Mutex<(u32, Option<&'static T>)>,
}

impl<T> StaticOnceLock<T> {
    #[expect(clippy::new_without_default)]
    pub const fn new() -> Self {
        StaticOnceLock { id: Id::new(), set: std::sync::Mutex::new((0, None)) }
    }

    fn there(&self) -> Option<&'static T> {
        let (of, value) = *self.set.lock().unwrap_or_else(PoisonError::into_inner);
        value.filter(|_| of == execution())
    }

    pub fn get(&self) -> Option<&'static T> {
        if me().is_some() {
            point(Operation::Load(self.id.get()));
        }
        self.there()
    }

    /// It comes back if one was set.
    pub fn set(&self, value: T) -> Result<(), T> {
        if me().is_some() {
            point(Operation::Store(self.id.get()));
        }
        if self.there().is_some() {
            return Err(value);
        }
        *self.set.lock().unwrap_or_else(PoisonError::into_inner) = (execution(), Some(Box::leak(Box::new(value))));
        Ok(())
    }
}
