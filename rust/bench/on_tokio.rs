//! Takes the place of `src/executor.rs` where tasks run on tokio (`beside`).
use std::future::Future;
use std::pin::Pin;
use std::time::Instant;
pub use tokio::task::yield_now;

/// What a task does.
pub type Spawned = Pin<Box<dyn Future<Output = ()> + Send>>;

/// Runs futures to their ends, and says how many nanoseconds it took.
pub fn run(futures: Vec<Spawned>) -> f64 {
    let runtime = tokio::runtime::Builder::new_multi_thread().worker_threads(4).build().expect("a runtime");
    let begun = Instant::now();
    runtime.block_on(async {
        let tasks: Vec<_> = futures.into_iter().map(tokio::spawn).collect();
        for task in tasks {
            task.await.expect("no panic");
        }
    });
    begun.elapsed().as_nanos() as f64
}
