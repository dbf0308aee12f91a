//! What `std::thread` has, as far as the crate needs it. What is started runs on a thread that the program has for it.
use crate::handover::{execution, me, point, service_token, with};
use crate::operation::Operation;
use crate::search::Job;
use std::cell::Cell;
use std::io;
use std::marker::PhantomData;
pub use std::thread::{Result, available_parallelism, panicking};

pub enum Thread {
    Real(std::thread::Thread),
    Scheduled(usize),
}

pub fn current() -> Thread {
    me().map_or_else(|| Thread::Real(std::thread::current()), Thread::Scheduled)
}

impl Thread {
    pub fn unpark(&self) {
        match self {
            Thread::Real(it) => it.unpark(),
            Thread::Scheduled(at) => _ = point(Operation::Unpark(200 + at)),
        }
    }
}

pub fn park() {
    match me() {
        None => std::thread::park(),
        Some(at) => _ = point(Operation::Park(200 + at)),
    }
}

/// A thread that was started. Nobody joins it.
pub struct JoinHandle<R>(PhantomData<fn() -> R>);

/// The number of what programs start threads by.
const STARTS: usize = usize::MAX;

pub fn spawn<R>(job: impl FnOnce() -> R + Send + 'static) -> JoinHandle<R> {
    let job: Job = Box::new(move || _ = job());
    point(Operation::Own(STARTS));
    let thread = with(|it| it.start(job)).expect("a thread is started by one of the program's");
    point(Operation::Unpark(service_token(thread)));
    JoinHandle(PhantomData)
}

pub struct Builder;

impl Builder {
    #[expect(clippy::new_without_default)]
    pub fn new() -> Self {
        Builder
    }

    #[must_use]
    pub fn name(self, _: String) -> Self {
        self
    }

    pub fn spawn<R>(self, job: impl FnOnce() -> R + Send + 'static) -> io::Result<JoinHandle<R>> {
        Ok(spawn(job))
    }
}

/// A number of a thread's own, which is new in each execution.
pub struct LocalNumber {
    first: u32,
    kept: &'static std::thread::LocalKey<Cell<(u32, u32)>>,
}

impl LocalNumber {
    pub const fn new(first: u32, kept: &'static std::thread::LocalKey<Cell<(u32, u32)>>) -> Self {
        LocalNumber { first, kept }
    }

    pub fn get(&self) -> u32 {
        let (of, value) = self.kept.get();
        if of == execution() { value } else { self.first }
    }

    pub fn set(&self, value: u32) {
        self.kept.set((execution(), value));
    }

    pub fn with<R>(&self, call: impl FnOnce(&Cell<u32>) -> R) -> R {
        let value = Cell::new(self.get());
        let reply = call(&value);
        self.set(value.get());
        reply
    }
}

/// As `std::thread_local`, for a number.
#[macro_export]
macro_rules! thread_local {
    (static $name:ident: Cell<u32> = const { Cell::new($first:expr) };) => {
        static $name: $crate::thread::LocalNumber = {
            std::thread_local! { static KEPT: std::cell::Cell<(u32, u32)> = const { std::cell::Cell::new((0, 0)) }; }
            $crate::thread::LocalNumber::new($first, &KEPT)
        };
    };
}
