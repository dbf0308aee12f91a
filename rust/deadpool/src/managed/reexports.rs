//! What a backend gives on under its own name, so that its users need not depend on this crate.
pub use super::{Holder, Limits, Metrics, ObjectId, PoolConfig, Report, Status, Tally, TimeoutType, Timeouts, held_by};
pub use crate::{Reports, Runtime, Sleep, Timers};

/// Names the types of a backend's pools: by its own name, its manager, what its pools hand out, and the errors of its manager and of
/// its configuration. It stands in a module of the backend, for its users.
#[macro_export]
macro_rules! managed_reexports {
    ($backend:literal, $manager:ty, $wrapper:ty, $error:ty, $config_error:ty) => {
        $crate::managed_reexports! { of $backend {
            Pool<$manager, $wrapper>; WeakPool<$manager, $wrapper>; PoolBuilder<$manager, $wrapper>; Object<$manager>;
            Hook<$manager>; PoolError<$error>; HookError<$error>; BuildError<>; CreatePoolError<$config_error>;
            QueueMode<>;
        } }
    };
    (of $backend:literal { $($name:ident<$($of:ty),*>;)* }) => {
        $(#[doc = concat!("`", stringify!($name), "` of ", $backend, ".")]
        pub type $name = $crate::managed::$name<$($of),*>;)*
    };
}
