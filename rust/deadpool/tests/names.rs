//! The names of the crate deadpool with their signatures, as programs over it and backends write them. It is enough that
//! this file compiles, but for what is looked at in the two pools of a backend.
mod common;

use common::{Numbers, block_on};
use deadpool::managed::{
    BuildError, CreatePoolError, DrainError, Holder, Hook, HookError, HookFuture, HookResult, Journal, Limits, Metrics,
    Object, ObjectId, Pool, PoolBuilder, PoolConfig, PoolError, QueueMode, RecycleError, RecycleResult, Report,
    RetainResult, Settings, Tally, Timeouts, WeakPool, held_by,
};
use deadpool::{Reports, Runtime, Status, unmanaged};
use std::convert::Infallible;
use std::error::Error;
use std::fmt::{Debug, Display};
use std::future::Future;
use std::hash::Hash;
use std::ops::{Deref, DerefMut};
use std::time::{Duration, Instant};

/// A future that can go to another thread, and what it gives.
fn gives<T>(_: impl Future<Output = T> + Send) {}

fn is_shared<T: Clone + Debug + Send + Sync + 'static>() {}

fn lends<T, O: Deref<Target = T> + DerefMut + AsRef<T> + AsMut<T> + Debug + Send + 'static>() {}

fn is_error<E: Error + Display + Debug + 'static>() {}

fn is_plain<T: Copy + Clone + Debug + 'static>() {}

#[test]
fn a_managed_pool_has_its_calls() {
    is_shared::<Pool<Numbers>>();
    is_shared::<WeakPool<Numbers>>();
    lends::<usize, Object<Numbers>>();
    let pool = block_on(async { Pool::<Numbers>::builder(Numbers::default()).max_size(1).build() }).expect("a pool");
    gives::<Result<Object<Numbers>, PoolError<Infallible>>>(pool.get());
    gives::<Result<Object<Numbers>, PoolError<Infallible>>>(pool.timeout_get(&Timeouts::new()));
    let _: fn(Numbers) -> PoolBuilder<Numbers> = Pool::builder;
    let _: fn(&Pool<Numbers>, usize) = Pool::resize;
    type Predicate = fn(&usize, Metrics) -> bool;
    let _: fn(&Pool<Numbers>, Predicate) -> RetainResult<usize> = Pool::retain;
    let _: fn(&Pool<Numbers>) -> Timeouts = Pool::timeouts;
    let _: fn(&Pool<Numbers>) = Pool::close;
    let _: fn(&Pool<Numbers>) -> bool = Pool::is_closed;
    let _: fn(&Pool<Numbers>) -> Status = Pool::status;
    let _: fn(&Pool<Numbers>) -> &Numbers = Pool::manager;
    let _: fn(&Pool<Numbers>) -> WeakPool<Numbers> = Pool::weak;
    let _: fn(&WeakPool<Numbers>) -> Option<Pool<Numbers>> = WeakPool::upgrade;
    let _: fn(Object<Numbers>) -> usize = Object::take;
    let _: fn(&Object<Numbers>) -> ObjectId = Object::id;
    let _: fn(&Object<Numbers>) -> &Metrics = Object::metrics;
    let _: fn(&Object<Numbers>) -> Option<Pool<Numbers>> = Object::pool;
    let RetainResult { retained: 0, removed } = RetainResult::<usize>::default() else { panic!("nothing is retained") };
    assert!(removed.is_empty());
}

#[test]
fn a_builder_has_its_setters() {
    let _: fn(PoolBuilder<Numbers>) -> Result<Pool<Numbers>, BuildError> = PoolBuilder::build;
    type Set<T> = fn(PoolBuilder<Numbers>, T) -> PoolBuilder<Numbers>;
    let _: Set<PoolConfig> = PoolBuilder::config;
    let _: Set<usize> = PoolBuilder::max_size;
    let _: Set<Timeouts> = PoolBuilder::timeouts;
    let _: [Set<Option<Duration>>; 3] =
        [PoolBuilder::wait_timeout, PoolBuilder::create_timeout, PoolBuilder::recycle_timeout];
    let _: Set<QueueMode> = PoolBuilder::queue_mode;
    let _: Set<Runtime> = PoolBuilder::runtime;
    let _: [Set<Hook<Numbers>>; 3] = [PoolBuilder::post_create, PoolBuilder::pre_recycle, PoolBuilder::post_recycle];
    type Plain = fn(&mut usize, &Metrics) -> HookResult<Infallible>;
    let _: fn(Plain) -> Hook<Numbers> = Hook::sync_fn;
    type Async = for<'a> fn(&'a mut usize, &'a Metrics) -> HookFuture<'a, Infallible>;
    let _: fn(Async) -> Hook<Numbers> = Hook::async_fn;
}

#[test]
fn values_have_their_fields_and_traits() {
    is_plain::<PoolConfig>();
    is_plain::<Timeouts>();
    is_plain::<QueueMode>();
    is_plain::<Metrics>();
    is_plain::<Status>();
    is_plain::<Runtime>();
    fn is_equal<T: Eq>() {}
    is_equal::<Runtime>();
    is_plain::<unmanaged::PoolConfig>();
    let _: fn(usize) -> PoolConfig = PoolConfig::new;
    let PoolConfig { max_size: _, timeouts, queue_mode: QueueMode::Fifo } = PoolConfig::default() else {
        panic!("the one that came back first is next")
    };
    let Timeouts { wait: None, create: None, recycle: None } = timeouts else { panic!("no timeout is set") };
    let _: [fn() -> Timeouts; 2] = [Timeouts::new, Timeouts::default];
    let _: fn(u64) -> Timeouts = Timeouts::wait_millis;
    let Metrics { created, recycled: None, recycle_count: 0 } = Metrics::default() else { panic!("it is new") };
    assert!(created <= Instant::now());
    let _: [fn(&Metrics) -> Duration; 2] = [Metrics::age, Metrics::last_used];
    let Status { max_size: 1, size: 0, available: 0, waiting: 0 } = unmanaged::Pool::<u8>::new(1).status() else {
        panic!("nothing is there")
    };
    fn is_id<T: Copy + Ord + Hash + Debug + Display>() {}
    is_id::<ObjectId>();
}

#[test]
fn errors_have_their_kinds() {
    use deadpool::managed::TimeoutType::{Create, Recycle, Wait};
    type Cause = std::io::Error;
    is_error::<PoolError<Cause>>();
    is_error::<RecycleError<Cause>>();
    is_error::<HookError<Cause>>();
    is_error::<BuildError>();
    is_error::<CreatePoolError<Cause>>();
    // (the error of a configuration need not live for good)
    fn of_any_life<E: Error>(error: CreatePoolError<E>) -> impl Error {
        error
    }
    let _ = of_any_life::<Cause>;
    is_error::<unmanaged::PoolError>();
    let cause = || Cause::other("broken");
    let of_pool = [
        PoolError::Timeout(Wait),
        PoolError::Timeout(Create),
        PoolError::Timeout(Recycle),
        PoolError::Backend(cause()),
        PoolError::Closed,
        PoolError::NoRuntimeSpecified,
        PoolError::PostCreateHook(HookError::message("no")),
        cause().into(),
    ];
    let of_recycling = [RecycleError::message(String::from("no")), RecycleError::Backend(cause()), cause().into()];
    let of_building = [CreatePoolError::Config(cause()), CreatePoolError::Build(BuildError::NoRuntimeSpecified)];
    let of_unmanaged =
        [unmanaged::PoolError::Timeout, unmanaged::PoolError::Closed, unmanaged::PoolError::NoRuntimeSpecified];
    let texts = [
        of_pool.map(|it| it.to_string()).concat(),
        of_recycling.map(|it| it.to_string()).concat(),
        of_building.map(|it| it.to_string()).concat(),
        of_unmanaged.map(|it| it.to_string()).concat(),
    ];
    assert!(texts.iter().all(|it| !it.is_empty()));
}

#[test]
fn an_unmanaged_pool_has_its_calls() {
    type Items = unmanaged::Pool<u64>;
    type Refused = unmanaged::PoolError;
    type Added = Result<(), (u64, Refused)>;
    is_shared::<Items>();
    lends::<u64, unmanaged::Object<u64>>();
    let pool = Items::from(vec![1]);
    gives::<Result<unmanaged::Object<u64>, Refused>>(pool.get());
    gives::<Result<unmanaged::Object<u64>, Refused>>(pool.timeout_get(None));
    gives::<Result<u64, Refused>>(pool.remove());
    gives::<Result<u64, Refused>>(pool.timeout_remove(Some(Duration::ZERO)));
    gives::<Added>(pool.add(2));
    let _: fn(usize) -> Items = Items::new;
    let _: fn() -> Items = Items::default;
    let _: fn(&unmanaged::PoolConfig) -> Items = Items::from_config;
    let _: fn(&Items) -> Result<unmanaged::Object<u64>, Refused> = Items::try_get;
    let _: fn(&Items) -> Result<u64, Refused> = Items::try_remove;
    let _: fn(&Items, u64) -> Added = Items::try_add;
    let _: fn(&Items) = Items::close;
    let _: fn(&Items) -> bool = Items::is_closed;
    let _: fn(&Items) -> Status = Items::status;
    let _: fn(unmanaged::Object<u64>) -> u64 = unmanaged::Object::take;
    let _: fn(usize) -> unmanaged::PoolConfig = unmanaged::PoolConfig::new;
    let unmanaged::PoolConfig { max_size: _, timeout: None, runtime: None } = unmanaged::PoolConfig::default() else {
        panic!("nothing else is set")
    };
}

#[test]
fn what_is_this_crates_own_has_its_names() {
    type Items = unmanaged::Pool<u64>;
    let pool: Pool<Numbers> = Pool::builder(Numbers::default()).name("own").build().expect("a pool");
    gives::<Result<Object<Numbers>, PoolError<Infallible>>>(pool.try_get());
    gives::<Result<Object<Numbers>, PoolError<Infallible>>>(pool.get_timeout(Duration::ZERO));
    let _: fn(&Pool<Numbers>) -> Result<Object<Numbers>, PoolError<Infallible>> = Pool::get_blocking;
    gives::<Status>(pool.drain());
    gives::<Result<Status, DrainError>>(pool.drain_for(Duration::ZERO));
    fn is_free(_: impl Future<Output = ()> + Send + 'static) {}
    is_free(pool.keeper(Limits::none(), Duration::ZERO));
    let items = Items::new(1);
    gives::<Status>(items.drain());
    gives::<Result<Status, unmanaged::DrainError>>(items.drain_for(Duration::ZERO));
    let _: fn(PoolBuilder<Numbers>, Option<usize>) -> PoolBuilder<Numbers> = PoolBuilder::max_waiting;
    let _: fn(PoolBuilder<Numbers>, usize) -> PoolBuilder<Numbers> = PoolBuilder::journal;
    let _: fn(&Pool<Numbers>) -> Journal = Pool::journal;
    let _: fn(&Items) -> unmanaged::Journal = Items::journal;
    let _: fn(PoolBuilder<Numbers>, Settings) -> PoolBuilder<Numbers> = PoolBuilder::settings;
    is_plain::<Settings>();
    is_plain::<unmanaged::Settings>();
    let Settings { config: _, max_waiting: None } = Settings::default() else { panic!("nothing is set") };
    let unmanaged::Settings { config: _, max_waiting: None, journal: 0 } = unmanaged::Settings::default() else {
        panic!("nothing is set")
    };
    let _: fn(&unmanaged::Settings) -> Items = Items::from_settings;
    let _: fn(&unmanaged::Settings) -> Result<Items, unmanaged::OutOfMemory> = Items::try_from_settings;
    let _: fn(&Pool<Numbers>) -> Option<&str> = Pool::name;
    let _: fn(&Object<Numbers>) -> Duration = Object::waited;
    let _: fn(PoolBuilder<Numbers>, bool) -> PoolBuilder<Numbers> = PoolBuilder::tracks_holders;
    let _: fn(PoolBuilder<Numbers>, Option<Duration>) -> PoolBuilder<Numbers> = PoolBuilder::hold_threshold;
    let _: fn(&Pool<Numbers>) -> Vec<backend::Holder> = Pool::holders;
    let _: fn(&Holder) -> Duration = Holder::held;
    is_shared::<Holder>();
    gives::<Result<Object<Numbers>, PoolError<Infallible>>>(held_by("own", pool.get()));
    gives::<u8>(held_by(String::from("own"), std::future::ready(1)));
    gives::<u8>(backend::held_by("own", std::future::ready(1)));
    let _: for<'a> fn(&'a Pool<Numbers>) -> Report<'a> = Pool::tally;
    let _: fn(&Items) -> unmanaged::Report<'static> = Items::tally;
    is_shared::<Reports>();
    let _: fn(Report<'static>) -> backend::Reports = Reports::from;
    let _: fn(unmanaged::Report<'static>) -> Reports = Reports::from;
    let _: fn(&mut Reports, Report<'static>) = Reports::push;
    is_plain::<Limits>();
    is_plain::<Tally>();
    is_plain::<unmanaged::Tally>();
    let _: fn(Limits) -> Hook<Numbers> = Hook::from;
    let _: fn(&Limits, &Metrics, Instant) -> bool = Limits::allow;
    let _: fn(std::future::Ready<u8>) -> u8 = deadpool::wait;
}

#[cfg(feature = "refusals")]
#[test]
fn refusals_of_this_crates_own_have_their_texts() {
    let of_pool = [PoolError::<Infallible>::Crowded, PoolError::OutOfMemory, PoolError::NumbersExhausted];
    assert!(of_pool.iter().all(|it| it.source().is_none()));
    let texts = ["Too many gets wait for a slot", "Out of memory", "Object numbers are exhausted"];
    assert_eq!(of_pool.map(|it| it.to_string()), texts);
    let of_unmanaged = [unmanaged::PoolError::Crowded, unmanaged::PoolError::OutOfMemory];
    assert_eq!(of_unmanaged.map(|it| it.to_string()), ["Too many wait already", "Out of memory"]);
    assert!(BuildError::OutOfMemory.to_string().ends_with(": Out of memory"));
}

/// A crate of a backend, as those over deadpool are written.
mod backend {
    use deadpool::managed;
    use std::convert::Infallible;

    pub use deadpool::managed::reexports::*;
    deadpool::managed_reexports!("tests", Manager, Connection, Infallible, std::fmt::Error);

    pub type Manager = super::Numbers;

    /// What its pools hand out.
    pub struct Connection(pub Object);

    impl From<Object> for Connection {
        fn from(object: Object) -> Self {
            Connection(object)
        }
    }

    pub struct Config {
        pub pool: PoolConfig,
    }

    impl Config {
        pub fn create_pool(&self, runtime: Option<Runtime>) -> Result<Pool, CreatePoolError> {
            let mut builder: PoolBuilder = Pool::builder(Manager::from(9)).config(self.pool);
            if let Some(runtime) = runtime {
                builder = builder.runtime(runtime);
            }
            builder = builder.queue_mode(QueueMode::Lifo);
            builder.post_create(Hook::sync_fn(not_ten)).build().map_err(CreatePoolError::Build)
        }
    }

    fn not_ten(value: &mut usize, _: &Metrics) -> Result<(), HookError> {
        if *value == 10 { Err(managed::HookError::message("ten")) } else { Ok(()) }
    }
}

#[test]
fn a_backend_names_its_types_by_one_line() {
    let timed = PoolConfig { timeouts: Timeouts::wait_millis(1), ..PoolConfig::new(2) };
    let error: backend::CreatePoolError = backend::Config { pool: timed }.create_pool(None).expect_err("no runtime");
    assert!(matches!(error, CreatePoolError::Build(BuildError::NoRuntimeSpecified)));
    let pool: backend::Pool = backend::Config { pool: timed }.create_pool(Some(Runtime::Tokio1)).expect("a pool");
    fn upgraded(weak: &backend::WeakPool) -> Option<backend::Pool> {
        weak.upgrade()
    }
    let _ = upgraded;
    let backend::Connection(object) = block_on(pool.get()).expect("a connection");
    assert_eq!(*object, 9);
    let refused: backend::PoolError = block_on(pool.get()).map(|_| ()).expect_err("ten is refused");
    assert!(matches!(refused, PoolError::PostCreateHook(HookError::Message(text)) if text == "ten"));
    let _: RecycleResult<Infallible> = Err(RecycleError::message("used"));
}
