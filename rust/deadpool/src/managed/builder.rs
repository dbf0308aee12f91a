//! How a pool is built.
use super::holders::Holders;
use super::hooks::Hooks;
use super::object::Kept;
use super::{Core, Handle, Hook, Manager, Object, Pool, PoolConfig, QueueMode, Settings, Timeouts};
use crate::errors::error_texts;
use crate::rattle::Global;
use crate::runtime::Runtime;
use crate::trace::Teller;
use std::borrow::Cow;
use std::fmt;
use std::marker::PhantomData;
use std::time::Duration;

/// Why a pool was not built.
#[derive(Clone, Copy, Debug, PartialEq, Eq)]
pub enum BuildError {
    /// There is a timeout, if only one of zero, and no runtime.
    NoRuntimeSpecified,
    /// No memory was found for as many objects. It is this crate's own, and comes with its feature `refusals`.
    #[cfg(feature = "refusals")]
    OutOfMemory,
}

error_texts! { BuildError {
    Self::NoRuntimeSpecified => "Error occurred while building the pool: Timeouts require a runtime",
    #[cfg(feature = "refusals")] Self::OutOfMemory => "Error occurred while building the pool: Out of memory",
} }

/// Has a builder set a field of its own, or add to a list of hooks.
macro_rules! setters {
    (fields { $($(#[$doc:meta])* $name:ident: $type:ty => $($field:ident).+;)* }
     lists { $($(#[$list_doc:meta])* $list:ident;)* }) => {
        $($(#[$doc])* pub fn $name(mut self, value: $type) -> Self {
            self.$($field).+ = value.into();
            self
        })*

        $($(#[$list_doc])* pub fn $list(mut self, hook: impl Into<Hook<M>>) -> Self {
            self.hooks.$list.push(hook.into());
            self
        })*
    };
}

/// What a pool was built with.
pub(super) struct Setup<M: Manager> {
    pub(super) name: Option<Cow<'static, str>>,
    pub(super) manager: M,
    pub(super) hooks: Hooks<M>,
    pub(super) timeouts: Timeouts,
    pub(super) runtime: Option<Runtime>,
    pub(super) times_waits: bool,
    /// The list of what is out, if it is asked for: then waits are timed as well.
    pub(super) holders: Option<Box<Holders>>,
}

/// What a pool is built by.
#[must_use]
pub struct PoolBuilder<M: Manager, W: From<Object<M>> = Object<M>> {
    name: Option<Cow<'static, str>>,
    manager: M,
    settings: Settings,
    runtime: Option<Runtime>,
    hooks: Hooks<M>,
    min_idle: usize,
    entries: usize,
    times_waits: bool,
    tracks_holders: bool,
    hold_threshold: Option<Duration>,
    wrapper: PhantomData<fn() -> W>,
}

impl<M: Manager, W: From<Object<M>>> PoolBuilder<M, W> {
    pub(super) fn new(manager: M) -> Self {
        PoolBuilder {
            name: None,
            manager,
            settings: Settings::default(),
            runtime: None,
            hooks: Hooks { post_create: Vec::new(), pre_recycle: Vec::new(), post_recycle: Vec::new() },
            min_idle: 0,
            entries: 0,
            times_waits: false,
            tracks_holders: false,
            hold_threshold: None,
            wrapper: PhantomData,
        }
    }

    /// Builds the pool.
    ///
    /// # Errors
    ///
    /// If a timeout is set and no runtime, or, with the feature `refusals`, if no memory is found.
    ///
    /// # Panics
    ///
    /// Without the feature `refusals`, if no memory is found.
    pub fn build(self) -> Result<Pool<M, W>, BuildError> {
        let PoolBuilder { name, manager, settings, runtime, hooks, hold_threshold, .. } = self;
        let Settings { config: PoolConfig { max_size, timeouts, queue_mode }, max_waiting } = settings;
        if timeouts.is_any_set() && runtime.is_none() {
            return Err(BuildError::NoRuntimeSpecified);
        }
        let desk = Core::<M>::new(Global, max_size, queue_mode, self.entries, self.min_idle);
        #[cfg(feature = "refusals")]
        let desk = desk.map_err(|_| BuildError::OutOfMemory)?;
        #[cfg(not(feature = "refusals"))]
        let desk = desk.unwrap_or_else(|_| panic!("memory for a pool"));
        let tracks_holders = self.tracks_holders || hold_threshold.is_some();
        let holders = tracks_holders.then(|| Box::new(Holders::new(hold_threshold)));
        let times_waits = self.times_waits || tracks_holders;
        let setup = Setup { name, manager, hooks, timeouts, runtime, times_waits, holders };
        let detach = |setup: &Setup<M>, kept: &mut Kept<M>| setup.manager.detach(&mut kept.value);
        let teller = Teller::new(|setup: &Setup<M>| setup.name.as_deref(), |kept: &Kept<M>| Some(kept.number));
        Ok(Pool::of(Handle::new(setup, desk.bounded(max_waiting), self.entries > 0, detach, teller)))
    }

    /// Sets the name by which the pool is told from others: in its `Debug`, its tally, and the errors that [`Pool::named`] gives.
    /// It is this crate's own.
    pub fn name(self, name: impl Into<Cow<'static, str>>) -> Self {
        PoolBuilder { name: Some(name.into()), ..self }
    }

    setters! {
        fields {
            /// Sets what the configuration has.
            config: PoolConfig => settings.config;
            /// Sets what the settings have. It is this crate's own.
            settings: Settings => settings;
            /// Sets the limit, at first twice the processors.
            max_size: usize => settings.config.max_size;
            /// Sets all timeouts.
            timeouts: Timeouts => settings.config.timeouts;
            /// Sets the timeout of the wait for a place.
            wait_timeout: Option<Duration> => settings.config.timeouts.wait;
            /// Sets the timeout of a creation.
            create_timeout: Option<Duration> => settings.config.timeouts.create;
            /// Sets the timeout of a recycling.
            recycle_timeout: Option<Duration> => settings.config.timeouts.recycle;
            /// Sets which idle object is handed out next.
            queue_mode: QueueMode => settings.config.queue_mode;
            /// Sets how many gets may wait for a place; `None` is no bound. It is this crate's own.
            max_waiting: Option<usize> => settings.max_waiting;
            /// Sets where the pool has its timers from.
            runtime: Runtime => runtime;
            /// Sets how many idle objects a resize and a retain leave, if as many are idle. It is this crate's own.
            min_idle: usize => min_idle;
            /// Sets how many steps the pool's journal has room for, 0 at first. It is this crate's own.
            journal: usize => entries;
            /// Sets whether a get that waits reads the clock, so that its object tells how long ([`Object::waited`]). At first it does
            /// not. It is this crate's own.
            times_waits: bool => times_waits;
            /// Sets whether the pool keeps a list of who holds its objects ([`Pool::holders`](super::Pool::holders)). At first it does
            /// not. With it waits are timed ([`PoolBuilder::times_waits`]), a get reads the clock, and a get and a return take a lock more. It is this crate's
            /// own.
            tracks_holders: bool => tracks_holders;
            /// Sets how long an object may be held until a line of the log tells who holds it: none at first. With it holders are
            /// tracked ([`PoolBuilder::tracks_holders`]). The line is an event of the feature `tracing`, of the level `WARN`; without that
            /// feature nothing is told, nor on wasm32. There is one for each time that an object is out: as it comes back or is taken, or before that
            /// as the list is asked for, or as a get ends that found no place in time. No thread looks for it. It is this crate's own.
            hold_threshold: Option<Duration> => hold_threshold;
        }
        lists {
            /// Adds a hook that sees a new object.
            post_create;
            /// Adds a hook that sees an idle object before it is recycled.
            pre_recycle;
            /// Adds a hook that sees an idle object after it was recycled.
            post_recycle;
        }
    }
}

impl<M: Manager, W: From<Object<M>>> fmt::Debug for PoolBuilder<M, W> {
    fn fmt(&self, f: &mut fmt::Formatter<'_>) -> fmt::Result {
        f.debug_struct("PoolBuilder").field("config", &self.settings.config).finish_non_exhaustive()
    }
}
