//! A pool with hooks and with a timeout for each phase of a get.
use deadpool::Runtime;
use deadpool::managed::{Hook, HookError, Manager, Metrics, Pool, PoolError, RecycleResult, TimeoutType, Timeouts};
use std::convert::Infallible;
use std::error::Error;
use std::time::Duration;

struct Numbers;

impl Manager for Numbers {
    type Type = u64;
    type Error = Infallible;

    async fn create(&self) -> Result<u64, Infallible> {
        Ok(0)
    }

    async fn recycle(&self, _: &mut u64, _: &Metrics) -> RecycleResult<Infallible> {
        Ok(())
    }
}

#[tokio::main]
async fn main() -> Result<(), Box<dyn Error>> {
    let (second, hour) = (Duration::from_secs(1), Duration::from_secs(3600));
    let builder = Pool::builder(Numbers).max_size(2).runtime(Runtime::Tokio1);
    let builder = builder.wait_timeout(Some(second)).create_timeout(Some(5 * second)).recycle_timeout(Some(second));
    // A hook that refuses a new object ends the get. One that refuses an idle object has it given up, and the get goes on.
    let builder = builder.post_create(Hook::async_fn(|number: &mut u64, _| {
        Box::pin(async move {
            tokio::task::yield_now().await;
            *number = 7;
            Ok(())
        })
    }));
    let builder = builder.pre_recycle(Hook::sync_fn(move |_, metrics| {
        if metrics.age() < hour { Ok(()) } else { Err(HookError::message("it is old")) }
    }));
    let pool: Pool<Numbers> = builder.build()?;
    let (first, _second) = (pool.get().await?, pool.get().await?);
    // (these timeouts stand in place of the pool's)
    match pool.timeout_get(&Timeouts::wait_millis(20)).await {
        Err(PoolError::Timeout(TimeoutType::Wait)) => println!("{}, and no third in time", *first),
        other => println!("a third: {:?}", other?),
    }
    Ok(())
}
