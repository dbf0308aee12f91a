//! What each feature has: tokio's and async-std's own timers and threads, names, and configurations in JSON.
use deadpool::managed::{
    Limits, Manager, Metrics, Pool, PoolConfig, PoolError, QueueMode, RecycleResult, Settings, TimeoutType, Timeouts,
};
use deadpool::{Runtime, SpawnBlockingError, unmanaged};
use std::convert::Infallible;
use std::future::pending;
use std::sync::Arc;
use std::sync::atomic::{AtomicBool, Ordering};
use std::time::{Duration, Instant};

const HOUR: Duration = Duration::from_secs(3600);
const SOON: Duration = Duration::from_millis(30);

/// Makes zeros, or waits for good.
struct Zeros {
    is_stuck: bool,
}

impl Manager for Zeros {
    type Type = u64;
    type Error = Infallible;

    async fn create(&self) -> Result<u64, Infallible> {
        if self.is_stuck { pending().await } else { Ok(0) }
    }

    async fn recycle(&self, _: &mut u64, _: &Metrics) -> RecycleResult<Infallible> {
        Ok(())
    }
}

fn pool(is_stuck: bool, runtime: Runtime, timeouts: Timeouts) -> Pool<Zeros> {
    let builder = Pool::builder(Zeros { is_stuck }).max_size(1).runtime(runtime).timeouts(timeouts);
    builder.build().expect("a pool")
}

#[tokio::test(start_paused = true)]
async fn an_hour_of_tokios_paused_clock_passes_at_once() {
    let (begun, begun_there) = (Instant::now(), tokio::time::Instant::now());
    let all = Timeouts { wait: Some(HOUR), create: Some(2 * HOUR), recycle: None };
    let waits = pool(false, Runtime::Tokio1, all);
    let object = waits.get().await.expect("an object");
    assert_eq!(tokio::time::Instant::now(), begun_there);
    assert!(matches!(waits.get().await, Err(PoolError::Timeout(TimeoutType::Wait))));
    assert!((HOUR..HOUR + SOON).contains(&begun_there.elapsed()));
    let creates = pool(true, Runtime::Tokio1, all);
    assert!(matches!(creates.get().await, Err(PoolError::Timeout(TimeoutType::Create))));
    let config =
        unmanaged::PoolConfig { timeout: Some(HOUR), runtime: Some(Runtime::Tokio1), ..unmanaged::PoolConfig::new(1) };
    let empty = unmanaged::Pool::<u8>::from_config(&config);
    assert!(matches!(empty.get().await, Err(unmanaged::PoolError::Timeout)));
    assert_eq!(Runtime::Tokio1.timeout(HOUR, pending::<u8>()).await, None);
    assert!((5 * HOUR..5 * HOUR + SOON).contains(&begun_there.elapsed()));
    assert!(begun.elapsed() < HOUR / 60, "no hour of real time has passed");
    drop(object);
    assert_eq!(*waits.get().await.expect("the object is back"), 0);
}

#[tokio::test]
async fn a_loop_of_gets_lets_another_task_of_its_thread_run() {
    let (managed, has_run) = (pool(false, Runtime::Tokio1, Timeouts::new()), Arc::new(AtomicBool::new(false)));
    let added = unmanaged::Pool::from([0]);
    for is_managed in [true, false] {
        has_run.store(false, Ordering::SeqCst);
        let flag = has_run.clone();
        let other = tokio::spawn(async move { flag.store(true, Ordering::SeqCst) });
        let mut gets = 0;
        while !has_run.load(Ordering::SeqCst) && gets < 1000 {
            if is_managed {
                drop(managed.get().await.expect("an object"));
            } else {
                drop(added.get().await.expect("an object"));
            }
            gets += 1;
        }
        assert!(gets <= 129, "{gets}");
        other.await.expect("it does not panic");
    }
}

#[tokio::test]
async fn tokio_runs_what_blocks_on_its_own_threads() {
    let there = Runtime::Tokio1.spawn_blocking(|| tokio::runtime::Handle::try_current().is_ok()).await;
    assert!(there.expect("it does not panic"), "the closure is on a thread of the executor");
    let ended = Runtime::Tokio1.spawn_blocking(|| panic!("planned")).await;
    let Err::<(), _>(SpawnBlockingError::Panic(panic)) = ended else { panic!("it has panicked") };
    assert_eq!(panic.downcast_ref(), Some(&"planned"));
}

#[test]
fn async_std_has_its_own_timers_and_threads() {
    async_std::task::block_on(async {
        let begun = Instant::now();
        let waits = pool(false, Runtime::AsyncStd1, Timeouts { wait: Some(SOON), ..Timeouts::new() });
        let object = waits.get().await.expect("an object");
        assert!(matches!(waits.get().await, Err(PoolError::Timeout(TimeoutType::Wait))));
        assert!(begun.elapsed() >= SOON);
        drop(object);
        let name = Runtime::AsyncStd1.spawn_blocking(|| std::thread::current().name().map(String::from)).await;
        assert!(name.expect("it does not panic").is_some_and(|it| it.starts_with("blocking")));
    });
}

#[test]
fn each_runtime_has_its_name() {
    fn is_same_type(runtime: deadpool_runtime::Runtime) -> Runtime {
        runtime
    }
    let _: fn(deadpool_runtime::SpawnBlockingError) -> SpawnBlockingError = |it| it;
    let names = [Runtime::Thread, Runtime::Tokio1, Runtime::AsyncStd1, Runtime::Smol2];
    let told = names.map(|it| format!("{:?}", is_same_type(it)));
    assert_eq!(told, ["Thread", "Tokio1", "AsyncStd1", "Smol2"]);
    for (at, one) in names.iter().enumerate() {
        assert!(names.iter().enumerate().all(|(other_at, other)| (one == other) == (at == other_at)));
    }
    // (it is a pattern too, as backends write it)
    assert!(matches!(Runtime::Tokio1, Runtime::Tokio1) && !matches!(Runtime::Thread, Runtime::Tokio1));
}

#[test]
fn configurations_are_read_and_written() {
    let timeouts = r#"{"wait":{"secs":1,"nanos":2},"create":null,"recycle":null}"#;
    let text = format!(r#"{{"max_size":3,"timeouts":{timeouts},"queue_mode":"Lifo"}}"#);
    let config: PoolConfig = serde_json::from_str(&text).expect("a configuration");
    assert_eq!((config.max_size, config.queue_mode), (3, QueueMode::Lifo));
    assert_eq!(config.timeouts.wait, Some(Duration::new(1, 2)));
    assert_eq!(serde_json::to_string(&config).expect("a text"), text);
    let config: PoolConfig = serde_json::from_str(r#"{"max_size":4}"#).expect("the others have defaults");
    assert_eq!((config.max_size, config.queue_mode, config.timeouts.wait), (4, QueueMode::Fifo, None));
    assert!(serde_json::from_str::<PoolConfig>(r#"{"max_size":4,"queue_mode":"lifo"}"#).is_err());
    assert!(serde_json::from_str::<PoolConfig>("{}").is_err(), "the limit has no default");
    let config =
        unmanaged::PoolConfig { timeout: Some(HOUR), runtime: Some(Runtime::Tokio1), ..unmanaged::PoolConfig::new(5) };
    let text = serde_json::to_string(&config).expect("a text");
    assert_eq!(text, r#"{"max_size":5,"timeout":{"secs":3600,"nanos":0}}"#);
    let config: unmanaged::PoolConfig = serde_json::from_str(&text).expect("a configuration");
    assert_eq!((config.max_size, config.timeout, config.runtime), (5, Some(HOUR), None));
}

/// A configuration's timeout, of this value, and the wait of timeouts of it.
fn timeouts_of(value: &str) -> (Option<Duration>, Option<Duration>) {
    let of_pool = serde_json::from_str::<unmanaged::PoolConfig>(&format!(r#"{{"max_size":1,"timeout":{value}}}"#));
    let all = serde_json::from_str::<Timeouts>(&format!(r#"{{"wait":{value}}}"#));
    (of_pool.expect("a configuration").timeout, all.expect("timeouts").wait)
}

#[test]
fn a_duration_may_be_a_text() {
    for (text, secs, millis) in [
        ("0s", 0, 0),
        ("30s", 30, 0),
        ("500ms", 0, 500),
        ("1500ms", 1, 500),
        ("5m", 300, 0),
        ("90m", 5400, 0),
        ("1h", 3600, 0),
        ("1m 30s", 90, 0),
        ("2h 3m 4s 5ms", 7384, 5),
        ("1h 1ms", 3600, 1),
        ("007s", 7, 0),
        ("18446744073709551615ms", 18_446_744_073_709_551, 615),
    ] {
        let expected = Some(Duration::new(secs, millis * 1_000_000));
        assert_eq!(timeouts_of(&format!("\"{text}\"")), (expected, expected), "{text}");
    }
    let all: Timeouts = serde_json::from_str(r#"{"create":"2s","recycle":"3ms"}"#).expect("timeouts");
    assert_eq!((all.create, all.recycle), (Some(Duration::from_secs(2)), Some(Duration::from_millis(3))));
    let limits: Limits = serde_json::from_str(r#"{"lifetime":"30m","idle":"90s"}"#).expect("limits");
    assert_eq!(limits, Limits::none().lifetime(HOUR / 2).idle(Duration::from_secs(90)));
    // (it is written as ever)
    let text = serde_json::to_string(&limits).expect("a text");
    assert_eq!(text, r#"{"lifetime":{"secs":1800,"nanos":0},"idle":{"secs":90,"nanos":0},"uses":null}"#);
}

#[test]
fn a_duration_is_read_as_ever() {
    for (value, expected) in [
        (r#"{"secs":1,"nanos":2}"#, Duration::new(1, 2)),
        (r#"{"nanos":4294967295,"secs":1}"#, Duration::new(5, 294_967_295)),
        ("[1,2]", Duration::new(1, 2)),
    ] {
        assert_eq!(timeouts_of(value), (Some(expected), Some(expected)), "{value}");
    }
    assert_eq!(timeouts_of("null"), (None, None));
    let refused = |value: &str| {
        let read = serde_json::from_str::<unmanaged::PoolConfig>(&format!(r#"{{"max_size":1,"timeout":{value}}}"#));
        read.map(|_| ()).expect_err("it is no duration").to_string()
    };
    let expected = r#"expected a duration, as "30s" or an object of secs and nanos at line 1 column 25"#;
    assert_eq!(refused("5"), format!("invalid type: integer `5`, {expected}"));
    assert_eq!(refused(r#"{"secs":1}"#), "missing field `nanos` at line 1 column 34");
    assert!(refused("[1]").starts_with("invalid length 1, expected struct Duration"));
    assert!(refused(r#"{"secs":1,"nanos":0,"x":1}"#).starts_with("unknown field `x`, expected `secs` or `nanos`"));
    assert!(refused(r#"{"secs":18446744073709551615,"nanos":1000000000}"#).starts_with("overflow"));
    // (what has no keys has all values)
    let short = serde_json::from_str::<Timeouts>("[null,null]").map(|_| ()).expect_err("one is missing").to_string();
    assert!(short.starts_with("invalid length 2, expected struct Timeouts with 3 elements"), "{short}");
}

#[test]
fn a_bound_is_written_if_it_is_set() {
    let settings = Settings { max_waiting: Some(0), ..PoolConfig::new(3).into() };
    let text = serde_json::to_string(&settings).expect("a text");
    assert!(text.ends_with(r#","queue_mode":"Fifo","max_waiting":0}"#), "{text}");
    let read: Settings = serde_json::from_str(&text).expect("settings");
    assert_eq!((read.config.max_size, read.max_waiting), (3, Some(0)));
    let settings = unmanaged::Settings { max_waiting: Some(7), ..unmanaged::PoolConfig::new(3).into() };
    let text = serde_json::to_string(&settings).expect("a text");
    assert_eq!(text, r#"{"max_size":3,"timeout":null,"max_waiting":7}"#);
    let read: unmanaged::Settings = serde_json::from_str(&text).expect("settings");
    assert_eq!((read.config.max_size, read.max_waiting), (3, Some(7)));
    for text in [r#"{"max_size":3,"timeout":null}"#, r#"{"max_size":3,"timeout":null,"max_waiting":null}"#] {
        let managed: Settings = serde_json::from_str(text).expect("settings");
        let unmanaged: unmanaged::Settings = serde_json::from_str(text).expect("settings");
        assert_eq!((managed.max_waiting, unmanaged.max_waiting), (None, None));
        assert!(!serde_json::to_string(&managed).expect("a text").contains("max_waiting"));
    }
    assert!(serde_json::from_str::<Settings>(r#"{"max_size":3,"max_waiting":-1}"#).is_err());
    assert!(serde_json::from_str::<Settings>(r#"{"max_waiting":1}"#).is_err(), "the limit has no default");
    let limits: Limits = serde_json::from_str(r#"{"uses":3}"#).expect("what is not there is no limit");
    assert_eq!(limits, Limits::none().uses(3));
}
