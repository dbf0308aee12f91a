//! An object that is out.
use super::executor::Executor;
use super::{Core, PoolConfig};
use crate::cores::unmanaged::Step;
use crate::cores::unmanaged_order::Order;
use crate::lends::lends_value;
use crate::parcel::Boxed;
use crate::shared::Shared;
use std::fmt;
use std::sync::Arc;
use std::task::Waker;

/// An object that is out. Its drop gives it back to the pool.
#[must_use]
pub struct Object<T> {
    /// It is there until the object is taken or dropped.
    pub(super) value: Option<Boxed<T>>,
    pub(super) pool: Arc<Shared<PoolConfig, Core<T>>>,
}

impl<T> Object<T> {
    /// Takes the value out of the pool for good. There is room for another one.
    #[must_use]
    #[allow(clippy::missing_panics_doc, reason = "the value is there until this or the drop takes it")]
    pub fn take(mut this: Self) -> T {
        let mut take = Executor::new(&this.pool, Order::taking(), this.value.take());
        let command = take.make(|| Step::Take);
        let _ended = take.execute(command, Waker::noop());
        take.given().expect("an object has its value").open()
    }
}

impl<T> Drop for Object<T> {
    fn drop(&mut self) {
        if self.value.is_some() {
            let mut back = Executor::new(&self.pool, Order::returning(), self.value.take());
            let command = back.pass(|| Step::Back);
            if !back.order.is_over() {
                let _ended = back.execute(command, Waker::noop());
            }
        }
    }
}

lends_value!([T] Object<T> => T, in value);

impl<T: fmt::Debug> fmt::Debug for Object<T> {
    fn fmt(&self, f: &mut fmt::Formatter<'_>) -> fmt::Result {
        f.debug_tuple("Object").field(&**self).finish()
    }
}
