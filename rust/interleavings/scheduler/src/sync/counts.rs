//! Counts. The drop of a strong one, and upgrades beside it, are points; clones of a strong one commute with
//! everything.
use super::Id;
use crate::handover::{me, point, with};
use crate::operation::Operation;
use std::ops::Deref;

pub struct Arc<T>(Option<std::sync::Arc<Counted<T>>>);

struct Counted<T> {
    id: std::sync::Arc<Id>,
    value: T,
}

pub struct Weak<T>(std::sync::Weak<Counted<T>>, std::sync::Arc<Id>);

fn are_seen() -> bool {
    me().is_some() && with(|it| it.settings.sees_counts).unwrap_or_default()
}

impl<T> Arc<T> {
    pub fn new(value: T) -> Self {
        Arc(Some(std::sync::Arc::new(Counted { id: std::sync::Arc::new(Id::new()), value })))
    }

    fn inner(&self) -> &std::sync::Arc<Counted<T>> {
        self.0.as_ref().expect("it is not dropped")
    }

    pub fn downgrade(this: &Self) -> Weak<T> {
        Weak(std::sync::Arc::downgrade(this.inner()), this.inner().id.clone())
    }
}

impl<T> Clone for Arc<T> {
    fn clone(&self) -> Self {
        Arc(Some(self.inner().clone()))
    }
}

impl<T> Drop for Arc<T> {
    fn drop(&mut self) {
        if are_seen() {
            point(Operation::DropCount(self.inner().id.get()));
        }
        // (what is dropped with the value may hand over: the count is at 0 then, so nobody upgrades)
        self.0 = None;
    }
}

impl<T> Deref for Arc<T> {
    type Target = T;

    fn deref(&self) -> &T {
        &self.inner().value
    }
}

impl<T> Weak<T> {
    pub fn upgrade(&self) -> Option<Arc<T>> {
        if are_seen() {
            point(Operation::Upgrade(self.1.get()));
        }
        self.0.upgrade().map(|it| Arc(Some(it)))
    }
}

impl<T> Clone for Weak<T> {
    fn clone(&self) -> Self {
        Weak(self.0.clone(), self.1.clone())
    }
}
