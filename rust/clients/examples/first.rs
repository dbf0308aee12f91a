//! Ten tasks share two numbers.
use deadpool::Runtime;
use deadpool::managed::{Manager, Metrics, Pool, PoolError, RecycleResult};
use std::convert::Infallible;
use std::error::Error;
use std::time::Duration;

struct Numbers;

impl Manager for Numbers {
    type Type = u64;
    type Error = Infallible;

    async fn create(&self) -> Result<u64, Infallible> {
        Ok(0)
    }

    async fn recycle(&self, _: &mut u64, _: &Metrics) -> RecycleResult<Infallible> {
        Ok(())
    }
}

async fn add_one(pool: Pool<Numbers>) -> Result<(), PoolError<Infallible>> {
    // It waits while both numbers are out, and gives its own back at the end.
    *pool.get().await? += 1;
    Ok(())
}

#[tokio::main]
async fn main() -> Result<(), Box<dyn Error>> {
    let builder = Pool::builder(Numbers).max_size(2).runtime(Runtime::Tokio1);
    let pool: Pool<Numbers> = builder.wait_timeout(Some(Duration::from_secs(1))).build()?;
    let tasks: Vec<_> = (0..10).map(|_| tokio::spawn(add_one(pool.clone()))).collect();
    for task in tasks {
        task.await??;
    }
    println!("10 tasks, total {}", pool.retain(|_, _| false).removed.iter().sum::<u64>());
    Ok(())
}
