//! What the tests share: a small executor, futures that are polled by hand, and managers.
#![allow(dead_code)]

pub mod refusals;

use deadpool::managed::{Manager, Metrics, RecycleResult};
use std::convert::Infallible;
use std::future::Future;
use std::pin::{Pin, pin};
use std::sync::Arc;
use std::sync::atomic::{AtomicBool, AtomicUsize, Ordering};
use std::sync::mpsc::channel;
use std::task::{Context, Poll, Wake, Waker};
use std::thread::{self, Thread};
use std::time::Duration;

struct Unpark(Thread);

impl Wake for Unpark {
    fn wake(self: Arc<Self>) {
        self.0.unpark();
    }
}

/// Polls a future until it is ready, and sleeps in between.
pub fn block_on<F: Future>(future: F) -> F::Output {
    let mut future = pin!(future);
    let waker = Waker::from(Arc::new(Unpark(thread::current())));
    loop {
        match future.as_mut().poll(&mut Context::from_waker(&waker)) {
            Poll::Ready(output) => return output,
            Poll::Pending => thread::park(),
        }
    }
}

/// Counts how often it is woken.
#[derive(Default)]
pub struct Count(AtomicUsize);

impl Count {
    /// A waker, with what counts its wakes.
    pub fn waker() -> (Waker, Arc<Self>) {
        let count = Arc::<Self>::default();
        (Waker::from(count.clone()), count)
    }

    pub fn get(&self) -> usize {
        self.0.load(Ordering::SeqCst)
    }
}

impl Wake for Count {
    fn wake(self: Arc<Self>) {
        self.0.fetch_add(1, Ordering::SeqCst);
    }
}

/// As the waker of a task whose executor has gone: its wake panics.
struct Gone;

impl Wake for Gone {
    fn wake(self: Arc<Self>) {
        panic!("the executor has gone");
    }
}

pub fn gone() -> Waker {
    Waker::from(Arc::new(Gone))
}

/// A future that is polled by hand.
pub struct Task<'a, T> {
    future: Pin<Box<dyn Future<Output = T> + 'a>>,
    woken: Arc<Count>,
}

impl<'a, T> Task<'a, T> {
    pub fn new(future: impl Future<Output = T> + 'a) -> Self {
        Task { future: Box::pin(future), woken: Arc::default() }
    }

    pub fn poll(&mut self) -> Poll<T> {
        let waker = Waker::from(self.woken.clone());
        self.future.as_mut().poll(&mut Context::from_waker(&waker))
    }

    pub fn woken(&self) -> usize {
        self.woken.get()
    }

    /// What it gives at the next poll.
    pub fn ready(mut self) -> T {
        match self.poll() {
            Poll::Ready(output) => output,
            Poll::Pending => panic!("the future is pending"),
        }
    }
}

/// Is pending until it was opened.
#[derive(Clone, Default)]
pub struct Door(Arc<AtomicBool>);

impl Door {
    pub fn open(&self) {
        self.0.store(true, Ordering::SeqCst);
    }
}

impl Future for Door {
    type Output = ();

    fn poll(self: Pin<&mut Self>, cx: &mut Context<'_>) -> Poll<()> {
        if self.0.load(Ordering::SeqCst) {
            return Poll::Ready(());
        }
        cx.waker().wake_by_ref();
        Poll::Pending
    }
}

/// Ends a poll once.
pub async fn pause() {
    let mut has_paused = false;
    std::future::poll_fn(move |cx| {
        if std::mem::replace(&mut has_paused, true) {
            return Poll::Ready(());
        }
        cx.waker().wake_by_ref();
        Poll::Pending
    })
    .await;
}

/// Makes numbers from the first on.
#[derive(Default)]
pub struct Numbers {
    next: AtomicUsize,
    pub detached: AtomicUsize,
}

impl Numbers {
    pub fn from(first: usize) -> Self {
        Numbers { next: AtomicUsize::new(first), detached: AtomicUsize::new(0) }
    }

    pub fn detached(&self) -> usize {
        self.detached.load(Ordering::SeqCst)
    }
}

impl Manager for Numbers {
    type Type = usize;
    type Error = Infallible;

    async fn create(&self) -> Result<usize, Infallible> {
        Ok(self.next.fetch_add(1, Ordering::SeqCst))
    }

    async fn recycle(&self, _: &mut usize, _: &Metrics) -> RecycleResult<Infallible> {
        Ok(())
    }

    fn detach(&self, _: &mut usize) {
        self.detached.fetch_add(1, Ordering::SeqCst);
    }
}

/// The size, how many are available, and how many wait.
pub fn counts(status: deadpool::Status) -> [usize; 3] {
    [status.size, status.available, status.waiting]
}

/// Whether a call that takes a pool's lock ends: not if this thread has it.
pub fn is_answered(call: impl FnOnce() + Send + 'static) -> bool {
    let (sender, receiver) = channel();
    thread::spawn(move || {
        call();
        let _ = sender.send(());
    });
    receiver.recv_timeout(Duration::from_secs(20)).is_ok()
}
