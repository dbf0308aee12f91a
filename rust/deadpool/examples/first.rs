//! Four threads share two numbers.
use deadpool::managed::{Manager, Metrics, Pool, RecycleResult};
use deadpool::wait;
use std::convert::Infallible;
use std::thread;

/// Makes numbers that begin at 0, and hands out each again as it came back.
struct Zeros;

impl Manager for Zeros {
    type Type = u64;
    type Error = Infallible;

    async fn create(&self) -> Result<u64, Infallible> {
        Ok(0)
    }

    async fn recycle(&self, _number: &mut u64, _metrics: &Metrics) -> RecycleResult<Infallible> {
        Ok(())
    }
}

pub fn total() -> u64 {
    let pool: Pool<Zeros> = Pool::builder(Zeros).max_size(2).build().expect("a pool");
    thread::scope(|scope| {
        for _ in 0..4 {
            scope.spawn(|| {
                for _ in 0..100 {
                    // It waits while both numbers are out, and gives its own back at the end of the turn.
                    let mut number = wait(pool.get()).expect("a number");
                    *number += 1;
                }
            });
        }
    });
    pool.retain(|_, _| false).removed.iter().sum()
}

fn main() {
    println!("4 threads, total {}", total());
}
