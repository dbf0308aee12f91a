//! Ten tasks share two connections. `DATABASE_URL` says where the database is.
use deadpool_postgres::tokio_postgres::NoTls;
use deadpool_postgres::{Config, ManagerConfig, Pool, PoolConfig, RecyclingMethod, Runtime, Timeouts};
use std::error::Error;

type Fault = Box<dyn Error + Send + Sync>;

async fn squared(pool: Pool, number: i64) -> Result<i64, Fault> {
    // It waits while both connections are out, and gives its own back at the end.
    let mut client = pool.get().await?;
    let transaction = client.transaction().await?;
    let square = transaction.prepare_cached("SELECT $1::bigint * $1").await?;
    let row = transaction.query_one(&square, &[&number]).await?;
    transaction.commit().await?;
    Ok(row.get(0))
}

#[tokio::main]
async fn main() -> Result<(), Fault> {
    let mut config = Config::new();
    config.url = Some(std::env::var("DATABASE_URL")?);
    config.manager = Some(ManagerConfig { recycling_method: RecyclingMethod::Verified });
    config.pool = Some(PoolConfig { timeouts: Timeouts::wait_millis(5000), ..PoolConfig::new(2) });
    let pool = config.create_pool(Some(Runtime::Tokio1), NoTls)?;
    let tasks: Vec<_> = (1..=10).map(|number| tokio::spawn(squared(pool.clone(), number))).collect();
    let mut sum = 0;
    for task in tasks {
        sum += task.await??;
    }
    println!("10 squares, sum {sum}");
    Ok(())
}
