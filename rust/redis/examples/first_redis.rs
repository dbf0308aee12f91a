//! Ten tasks share two connections. `REDIS_URL` says where the server is.
use deadpool_redis::redis::cmd;
use deadpool_redis::{Config, Pool, PoolConfig, Runtime, Timeouts};
use std::error::Error;

type Fault = Box<dyn Error + Send + Sync>;

async fn add(pool: Pool, number: i64) -> Result<(), Fault> {
    // It waits while both connections are out, and gives its own back at the end.
    let mut connection = pool.get().await?;
    cmd("INCRBY").arg("squares").arg(number * number).query_async::<()>(&mut connection).await?;
    Ok(())
}

#[tokio::main]
async fn main() -> Result<(), Fault> {
    let mut config = Config::from_url(std::env::var("REDIS_URL")?);
    config.pool = Some(PoolConfig { timeouts: Timeouts::wait_millis(5000), ..PoolConfig::new(2) });
    let pool = config.create_pool(Some(Runtime::Tokio1))?;
    let tasks: Vec<_> = (1..=10).map(|number| tokio::spawn(add(pool.clone(), number))).collect();
    for task in tasks {
        task.await??;
    }
    let sum: i64 = cmd("GETDEL").arg("squares").query_async(&mut pool.get().await?).await?;
    println!("10 squares, sum {sum}");
    Ok(())
}
