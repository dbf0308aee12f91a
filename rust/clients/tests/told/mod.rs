//! What the tests share that look at what the crate tracing is told: a subscriber, and a pool of numbers.
#![allow(dead_code)]

use deadpool::managed::{Manager, Metrics, Object, Pool, PoolBuilder, RecycleError, RecycleResult};
use deadpool::wait;
use std::fmt::{Debug, Write};
use std::future::pending;
use std::mem::take;
use std::sync::atomic::{AtomicU64, Ordering};
use std::sync::{Arc, Mutex};
use tracing::field::{Field, Visit};
use tracing::span::{Attributes, Id, Record};
use tracing::{Event, Level, Metadata, Subscriber};

/// What is told: each span with its fields, once it has ended, and each event.
#[derive(Clone, Default)]
pub struct Told(pub Arc<Lines>);

#[derive(Default)]
pub struct Lines {
    spans: Mutex<Vec<(u64, usize, String)>>,
    lines: Mutex<Vec<String>>,
    last: AtomicU64,
    /// Looks whether the lock of a pool is free.
    pub looks: Mutex<Option<Box<dyn Fn() + Send>>>,
}

struct Fields(String);

impl Visit for Fields {
    fn record_str(&mut self, field: &Field, value: &str) {
        write!(self.0, " {field}={value}").expect("a text takes it");
    }

    fn record_debug(&mut self, field: &Field, value: &dyn Debug) {
        write!(self.0, " {field}={value:?}").expect("a text takes it");
    }
}

impl Told {
    fn looks(&self) {
        self.0.looks.lock().expect("no panic").iter().for_each(|look| look());
    }

    /// What was told since the last time.
    pub fn lines(&self) -> Vec<String> {
        take(&mut *self.0.lines.lock().expect("no panic"))
    }

    /// Changes how many hold a span, and what is known of it. One that nobody holds has ended.
    fn change(&self, id: &Id, change: impl FnOnce(&mut usize, &mut String)) -> bool {
        let mut spans = self.0.spans.lock().expect("no panic");
        let at = spans.iter().position(|(other, ..)| *other == id.into_u64()).expect("a span");
        let (_, holders, line) = &mut spans[at];
        change(holders, line);
        let has_ended = *holders == 0;
        if has_ended {
            self.0.lines.lock().expect("no panic").push(spans.remove(at).2);
        }
        has_ended
    }
}

impl Subscriber for Told {
    fn enabled(&self, metadata: &Metadata<'_>) -> bool {
        metadata.target() == "deadpool" && [Level::DEBUG, Level::WARN].contains(metadata.level())
    }

    fn new_span(&self, attributes: &Attributes<'_>) -> Id {
        self.looks();
        let number = self.0.last.fetch_add(1, Ordering::SeqCst) + 1;
        let mut fields = Fields(attributes.metadata().name().into());
        attributes.record(&mut fields);
        self.0.spans.lock().expect("no panic").push((number, 1, fields.0));
        Id::from_u64(number)
    }

    fn record(&self, id: &Id, values: &Record<'_>) {
        self.looks();
        let mut fields = Fields(String::new());
        values.record(&mut fields);
        self.change(id, |_, line| line.push_str(&fields.0));
    }

    fn record_follows_from(&self, _: &Id, _: &Id) {}

    fn event(&self, event: &Event<'_>) {
        self.looks();
        let is_warning = *event.metadata().level() == Level::WARN;
        let mut fields = Fields(if is_warning { "WARN".into() } else { String::new() });
        event.record(&mut fields);
        self.0.lines.lock().expect("no panic").push(fields.0.trim().into());
    }

    fn enter(&self, id: &Id) {
        self.looks();
        // (how often depends on the version of tracing)
        self.change(id, |_, line| line.extend((!line.ends_with('>')).then_some('>')));
    }

    fn exit(&self, _: &Id) {
        self.looks();
    }

    fn clone_span(&self, id: &Id) -> Id {
        self.change(id, |holders, _| *holders += 1);
        id.clone()
    }

    fn try_close(&self, id: Id) -> bool {
        self.looks();
        self.change(&id, |holders, _| *holders -= 1)
    }
}

/// Makes numbers. What the number says is how it is recycled.
pub struct Numbers;

pub const WELL: u8 = 0;
pub const BADLY: u8 = 1;
pub const NEVER: u8 = 2;
pub const PANICS: u8 = 3;

impl Manager for Numbers {
    type Type = u8;
    type Error = &'static str;

    async fn create(&self) -> Result<u8, &'static str> {
        Ok(WELL)
    }

    async fn recycle(&self, number: &mut u8, _: &Metrics) -> RecycleResult<&'static str> {
        match *number {
            WELL => Ok(()),
            BADLY => Err(RecycleError::Backend("badly")),
            NEVER => pending().await,
            _ => panic!("planned"),
        }
    }
}

/// What is told of a pool while it is called. At each call of the subscriber the pool's lock is free.
pub fn told_of(
    max_size: usize,
    set: impl FnOnce(PoolBuilder<Numbers>) -> PoolBuilder<Numbers>,
    call: impl FnOnce(&Pool<Numbers>, &Told),
) -> Vec<String> {
    let told = Told::default();
    tracing::subscriber::with_default(told.clone(), || {
        let builder = Pool::builder(Numbers).name("orders").max_size(max_size);
        let pool = set(builder).build().expect("a pool");
        let looked_at = pool.clone();
        *told.0.looks.lock().expect("no panic") = Some(Box::new(move || {
            let told = format!("{looked_at:?}");
            assert!(told.contains("is_closed"), "the lock is taken: {told}");
        }));
        call(&pool, &told);
        let lines = told.lines();
        *told.0.looks.lock().expect("no panic") = None;
        lines
    })
}

pub fn get(pool: &Pool<Numbers>) -> Object<Numbers> {
    wait(pool.get()).expect("an object")
}

/// What is told of a get of such a pool, until its end.
pub const GET: &str = "get pool=orders";
