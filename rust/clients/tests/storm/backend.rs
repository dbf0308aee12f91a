//! A manager and hooks that are slow, hang, refuse and panic.
use deadpool::managed::{Hook, HookError, Manager, Metrics, RecycleError, RecycleResult};
use std::future::pending;
use std::panic::PanicHookInfo;
use std::sync::Arc;
use std::sync::atomic::{AtomicBool, AtomicU64, AtomicUsize, Ordering::SeqCst};
use std::time::Duration;

/// The panic of a manager.
pub const PLANNED: &str = "planned";

/// Has no word of such panics printed.
pub fn hide_planned_panics() {
    let usual = std::panic::take_hook();
    std::panic::set_hook(Box::new(move |info: &PanicHookInfo<'_>| {
        if info.payload().downcast_ref() != Some(&PLANNED) {
            usual(info);
        }
    }));
}

/// Numbers that look random, the same for each seed.
pub struct Random(AtomicU64);

impl Random {
    pub fn new(seed: u64) -> Self {
        Random(AtomicU64::new(seed))
    }

    pub fn below(&self, bound: u64) -> u64 {
        let mut mixed = self.0.fetch_add(0x9E37_79B9_7F4A_7C15, SeqCst);
        mixed = (mixed ^ (mixed >> 30)).wrapping_mul(0xBF58_476D_1CE4_E5B9);
        mixed = (mixed ^ (mixed >> 27)).wrapping_mul(0x94D0_49BB_1331_11EB);
        (mixed ^ (mixed >> 31)) % bound
    }
}

/// Counts the values that are there, and those that are in use.
#[derive(Default)]
pub struct Seen {
    live: AtomicUsize,
    out: AtomicUsize,
}

impl Seen {
    pub fn live(&self) -> usize {
        self.live.load(SeqCst)
    }

    /// One that uses a value, until it is dropped.
    pub fn holder(self: &Arc<Self>) -> Holder {
        Holder(self.clone(), self.out.fetch_add(1, SeqCst) + 1)
    }
}

pub struct Holder(Arc<Seen>, usize);

impl Holder {
    /// How many there were when it began.
    pub fn count(&self) -> usize {
        self.1
    }
}

impl Drop for Holder {
    fn drop(&mut self) {
        self.0.out.fetch_sub(1, SeqCst);
    }
}

pub struct Value(Arc<Seen>);

impl Drop for Value {
    fn drop(&mut self) {
        self.0.live.fetch_sub(1, SeqCst);
    }
}

pub struct Slow {
    pub seen: Arc<Seen>,
    random: Random,
    is_calm: AtomicBool,
}

impl Slow {
    pub fn new(seed: u64) -> Self {
        Slow { seen: Arc::default(), random: Random::new(seed), is_calm: AtomicBool::new(false) }
    }

    /// From now on each phase ends at once and well.
    pub fn calm(&self) {
        self.is_calm.store(true, SeqCst);
    }

    async fn phase(&self) -> Result<(), &'static str> {
        if self.is_calm.load(SeqCst) {
            return Ok(());
        }
        match self.random.below(100) {
            0..40 => {}
            40..60 => tokio::task::yield_now().await,
            60..85 => tokio::time::sleep(Duration::from_micros(self.random.below(3000))).await,
            85..90 => pending().await,
            90..98 => return Err("refused"),
            _ => std::panic::panic_any(PLANNED),
        }
        Ok(())
    }
}

impl Manager for Slow {
    type Type = Value;
    type Error = &'static str;

    async fn create(&self) -> Result<Value, &'static str> {
        self.phase().await?;
        self.seen.live.fetch_add(1, SeqCst);
        Ok(Value(self.seen.clone()))
    }

    async fn recycle(&self, _: &mut Value, _: &Metrics) -> RecycleResult<&'static str> {
        self.phase().await.map_err(RecycleError::Backend)
    }
}

/// A hook that refuses one of twenty, and yields now and then.
pub fn hook(seed: u64) -> Hook<Slow> {
    let random = Arc::new(Random::new(seed));
    Hook::async_fn(move |_, _| {
        let random = random.clone();
        Box::pin(async move {
            match random.below(20) {
                0 => return Err(HookError::message("hook")),
                1..5 => tokio::task::yield_now().await,
                _ => {}
            }
            Ok(())
        })
    })
}
