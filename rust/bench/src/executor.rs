//! An executor with some workers and one queue.
use std::collections::VecDeque;
use std::future::{Future, poll_fn};
use std::pin::Pin;
use std::sync::atomic::{AtomicUsize, Ordering};
use std::sync::{Arc, Condvar, Mutex};
use std::task::{Context, Poll, Wake, Waker};
use std::thread;
use std::time::Instant;

/// What a task does.
pub type Spawned = Pin<Box<dyn Future<Output = ()> + Send>>;

const WORKERS: usize = 4;

struct Executor {
    ready: Mutex<VecDeque<Arc<Task>>>,
    has_changed: Condvar,
    going: AtomicUsize,
}

struct Task {
    future: Mutex<Option<Spawned>>,
    executor: Arc<Executor>,
}

impl Wake for Task {
    fn wake(self: Arc<Self>) {
        let executor = self.executor.clone();
        executor.ready.lock().expect("no panic").push_back(self);
        executor.has_changed.notify_one();
    }
}

impl Executor {
    fn next(&self) -> Option<Arc<Task>> {
        let mut ready = self.ready.lock().expect("no panic");
        loop {
            if let Some(task) = ready.pop_front() {
                return Some(task);
            }
            if self.going.load(Ordering::SeqCst) == 0 {
                return None;
            }
            ready = self.has_changed.wait(ready).expect("no panic");
        }
    }

    fn work(&self) {
        while let Some(task) = self.next() {
            let waker = Waker::from(task.clone());
            let mut future = task.future.lock().expect("no panic");
            let polled = future.as_mut().map(|it| it.as_mut().poll(&mut Context::from_waker(&waker)));
            if let Some(Poll::Ready(())) = polled {
                *future = None;
                if self.going.fetch_sub(1, Ordering::SeqCst) == 1 {
                    let _ready = self.ready.lock().expect("no panic");
                    self.has_changed.notify_all();
                }
            }
        }
    }
}

/// Runs futures to their ends, and says how many nanoseconds it took.
pub fn run(futures: Vec<Spawned>) -> f64 {
    let executor = Arc::new(Executor {
        ready: Mutex::new(VecDeque::new()),
        has_changed: Condvar::new(),
        going: AtomicUsize::new(futures.len()),
    });
    let begun = Instant::now();
    for future in futures {
        Arc::new(Task { future: Mutex::new(Some(future)), executor: executor.clone() }).wake();
    }
    thread::scope(|scope| {
        for _ in 0..WORKERS {
            scope.spawn(|| executor.work());
        }
    });
    begun.elapsed().as_nanos() as f64
}

/// Ends a poll, and asks for another.
pub async fn yield_now() {
    let mut has_ended = false;
    poll_fn(move |cx| {
        if std::mem::replace(&mut has_ended, true) {
            return Poll::Ready(());
        }
        cx.waker().wake_by_ref();
        Poll::Pending
    })
    .await;
}
