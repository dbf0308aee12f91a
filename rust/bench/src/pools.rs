//! The pools that are timed, each behind a trait. Another one is put in here, by its traits and a line of the lists below.
use crate::fair::{Fair, Lent};
use std::future::Future;
use std::ops::DerefMut;
use std::time::Duration;

/// A pool of numbers, which it makes itself.
pub trait Managed: Clone + Send + Sync + 'static {
    type Object: DerefMut<Target = u64> + Send;
    const NAME: &'static str;

    fn new(limit: usize) -> Self;
    fn get(&self) -> impl Future<Output = Self::Object> + Send;
    /// A get that does not wait.
    fn get_at_once(&self) -> impl Future<Output = Self::Object> + Send;
    fn take(object: Self::Object) -> u64;
}

/// A pool of numbers that its users add. As many as the limit are in it at first.
pub trait Unmanaged: Clone + Send + Sync + 'static {
    type Object: DerefMut<Target = u64> + Send;
    const NAME: &'static str;

    fn new(limit: usize) -> Self;
    fn get(&self) -> impl Future<Output = Self::Object> + Send;
    fn try_get(&self) -> Self::Object;
    fn take(object: Self::Object) -> u64;
    fn try_add(&self, number: u64);
}

/// Puts both pools of a crate in that has the names of `deadpool`, in a module of their own.
macro_rules! pools_of {
    ($module:ident, $krate:ident, $name:literal) => {
        pub mod $module {
            use super::{Duration, Managed, Unmanaged};
            use std::convert::Infallible;
            use $krate::{managed, unmanaged};

            pub struct Zeros;

            impl managed::Manager for Zeros {
                type Type = u64;
                type Error = Infallible;

                async fn create(&self) -> Result<u64, Infallible> {
                    Ok(0)
                }

                async fn recycle(&self, _: &mut u64, _: &managed::Metrics) -> managed::RecycleResult<Infallible> {
                    Ok(())
                }
            }

            const AT_ONCE: managed::Timeouts =
                managed::Timeouts { wait: Some(Duration::ZERO), create: None, recycle: None };

            impl Managed for managed::Pool<Zeros> {
                type Object = managed::Object<Zeros>;
                const NAME: &'static str = $name;

                fn new(limit: usize) -> Self {
                    managed::Pool::builder(Zeros).max_size(limit).build().expect("a pool")
                }

                #[inline]
                async fn get(&self) -> Self::Object {
                    managed::Pool::get(self).await.ok().expect("an object")
                }

                #[inline]
                async fn get_at_once(&self) -> Self::Object {
                    self.timeout_get(&AT_ONCE).await.ok().expect("an object")
                }

                #[inline]
                fn take(object: Self::Object) -> u64 {
                    managed::Object::take(object)
                }
            }

            impl Unmanaged for unmanaged::Pool<u64> {
                type Object = unmanaged::Object<u64>;
                const NAME: &'static str = $name;

                fn new(limit: usize) -> Self {
                    unmanaged::Pool::from(vec![0; limit])
                }

                #[inline]
                async fn get(&self) -> Self::Object {
                    unmanaged::Pool::get(self).await.ok().expect("an object")
                }

                #[inline]
                fn try_get(&self) -> Self::Object {
                    unmanaged::Pool::try_get(self).ok().expect("an object")
                }

                #[inline]
                fn take(object: Self::Object) -> u64 {
                    unmanaged::Object::take(object)
                }

                #[inline]
                fn try_add(&self, number: u64) {
                    assert!(unmanaged::Pool::try_add(self, number).is_ok());
                }
            }

            pub type ManagedPool = managed::Pool<Zeros>;
            pub type UnmanagedPool = unmanaged::Pool<u64>;
        }
    };
}

pools_of!(here, deadpool, "this crate");

/// Makes a call for each managed pool. What is timed first is what the others are compared with.
macro_rules! each_managed {
    ($call:ident($($given:expr),*)) => {
        $call::<crate::pools::here::ManagedPool>($($given),*);
        $call::<crate::fair::Fair>($($given),*);
    };
}

/// Makes a call for each managed pool whose gets may be dropped while they wait.
macro_rules! each_cancellable {
    ($call:ident($($given:expr),*)) => {
        $call::<crate::pools::here::ManagedPool>($($given),*);
    };
}

/// Makes a call for each unmanaged pool.
macro_rules! each_unmanaged {
    ($call:ident($($given:expr),*)) => {
        $call::<crate::pools::here::UnmanagedPool>($($given),*);
    };
}
pub(crate) use {each_cancellable, each_managed, each_unmanaged};

impl Managed for Fair {
    type Object = Lent;
    const NAME: &'static str = "a fair pool";

    fn new(limit: usize) -> Self {
        Fair::new(limit)
    }

    async fn get(&self) -> Lent {
        Fair::get(self).await
    }

    async fn get_at_once(&self) -> Lent {
        Fair::get(self).await
    }

    fn take(object: Lent) -> u64 {
        object.take()
    }
}
