//! Atomics. A load may see any store that is not known to be replaced.
use super::Id;
use crate::handover::{me, point};
use crate::memory;
use crate::operation::Operation;
use std::sync::atomic::Ordering;

fn releases(order: Ordering) -> bool {
    matches!(order, Ordering::Release | Ordering::AcqRel | Ordering::SeqCst)
}

fn acquires(order: Ordering) -> bool {
    matches!(order, Ordering::Acquire | Ordering::AcqRel | Ordering::SeqCst)
}

macro_rules! atomic {
    ($name:ident of $of:ty, as $to:expr, and $from:expr) => {
        #[derive(Debug, Default)]
        pub struct $name {
            id: Id,
            real: std::sync::atomic::$name,
        }

        impl $name {
            pub const fn new(value: $of) -> Self {
                $name { id: Id::new(), real: std::sync::atomic::$name::new(value) }
            }

            /// The number of this atomic, whose first value is that which it has.
            fn begun(&self) -> usize {
                let id = self.id.get();
                memory::begin(id, $to(self.real.load(Ordering::SeqCst)));
                id
            }

            pub fn load(&self, order: Ordering) -> $of {
                if me().is_none() {
                    return self.real.load(Ordering::SeqCst);
                }
                let id = self.begun();
                point(Operation::Load(id));
                $from(memory::load(id, acquires(order)))
            }

            pub fn store(&self, value: $of, order: Ordering) {
                if me().is_some() {
                    let id = self.begun();
                    point(Operation::Store(id));
                    memory::store(id, $to(value), releases(order), false);
                }
                self.real.store(value, Ordering::SeqCst);
            }

            pub fn swap(&self, value: $of, order: Ordering) -> $of {
                if me().is_some() {
                    let id = self.begun();
                    point(Operation::Store(id));
                    memory::see_last(id, acquires(order));
                    memory::store(id, $to(value), releases(order), true);
                }
                self.real.swap(value, Ordering::SeqCst)
            }
        }
    };
}
atomic!(AtomicBool of bool, as u64::from, and |it: u64| it != 0);
atomic!(AtomicU64 of u64, as |it: u64| it, and |it: u64| it);

impl AtomicU64 {
    /// (The numbers that are counted by this are all different, whoever comes first.)
    pub fn fetch_add(&self, more: u64, _: Ordering) -> u64 {
        self.real.fetch_add(more, Ordering::SeqCst)
    }
}
