//! Ten tasks share two connections to a new database.
use deadpool_sqlite::{Config, Pool, PoolConfig, Runtime, Timeouts};
use std::error::Error;

type Fault = Box<dyn Error + Send + Sync>;

async fn note(pool: Pool, number: i64) -> Result<(), Fault> {
    // It waits while both connections are out, and gives its own back at the end.
    let connection = pool.get().await?;
    let noted = connection.interact(move |it| it.execute("INSERT INTO squares VALUES (?1, ?1 * ?1)", [number]));
    // (a panic within a closure is no value that threads share)
    noted.await.map_err(|panic| panic.to_string())??;
    Ok(())
}

#[tokio::main]
async fn main() -> Result<(), Fault> {
    let path = std::env::temp_dir().join(format!("squares-{}.db", std::process::id()));
    let mut config = Config::new(&path);
    config.pool = Some(PoolConfig { timeouts: Timeouts::wait_millis(5000), ..PoolConfig::new(2) });
    let pool = config.create_pool(Runtime::Tokio1)?;
    let table = "CREATE TABLE squares (number INTEGER, square INTEGER)";
    pool.get().await?.interact(|it| it.execute_batch(table)).await.map_err(|panic| panic.to_string())??;
    let tasks: Vec<_> = (1..=10).map(|number| tokio::spawn(note(pool.clone(), number))).collect();
    for task in tasks {
        task.await??;
    }
    let connection = pool.get().await?;
    let sum = connection.interact(|it| it.query_row("SELECT sum(square) FROM squares", [], |row| row.get(0)));
    let sum: i64 = sum.await.map_err(|panic| panic.to_string())??;
    println!("10 squares, sum {sum}");
    std::fs::remove_file(path)?;
    Ok(())
}
