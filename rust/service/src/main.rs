//! A service over PostgreSQL. Rough clients ask it over eight connections; then it is drained, and its pool's tally is shown.
//! `DATABASE_URL` says where the database is.
mod books;
mod clients;

use deadpool_postgres::tokio_postgres::NoTls;
use deadpool_postgres::{Config, Limits, ManagerConfig, Pool, PoolConfig, RecyclingMethod, Runtime, Timeouts};
use std::error::Error;
use std::time::Duration;

type Fault = Box<dyn Error + Send + Sync>;

/// How long a connection may serve: a get asks the first pool hook, and the keeper asks meanwhile.
const LIMITS: Limits = Limits::none().lifetime(Duration::from_secs(2)).idle(Duration::from_millis(300)).uses(200);

fn open() -> Result<Pool, Fault> {
    let mut config = Config::new();
    config.url = Some(std::env::var("DATABASE_URL")?);
    config.application_name = Some("service".into());
    config.manager = Some(ManagerConfig { recycling_method: RecyclingMethod::Verified });
    let seconds = |count| Some(Duration::from_secs(count));
    let timeouts = Timeouts { wait: Some(Duration::from_millis(100)), create: seconds(5), recycle: seconds(1) };
    config.pool = Some(PoolConfig { timeouts, ..PoolConfig::new(8) });
    // One more than may wait is refused at once, so that it can tell its own client to come back later.
    let builder = config.builder(NoTls)?.name("orders").max_waiting(Some(48));
    Ok(builder.runtime(Runtime::Tokio1).pre_recycle(LIMITS).build()?)
}

/// Waits until the keeper has given up all that is idle.
async fn is_quiet(pool: &Pool) -> Result<(), Fault> {
    for _ in 0..500 {
        if pool.status().size == 0 {
            return Ok(());
        }
        tokio::time::sleep(Duration::from_millis(20)).await;
    }
    Err(format!("what is idle is not given up: {pool:?}").into())
}

fn main() -> Result<(), Fault> {
    let executor = tokio::runtime::Builder::new_multi_thread().worker_threads(4).enable_all().build()?;
    let _entered = executor.enter();
    let pool = open()?;
    println!("{pool:?}");
    let keeper = executor.spawn(pool.keeper(LIMITS, Duration::from_millis(50)));
    let asked = executor.block_on(clients::ask_all(&pool))?;
    executor.block_on(is_quiet(&pool))?;
    // This thread is no task: it waits by itself. While a connection is out, the pool is not drained.
    let held = deadpool::wait(pool.try_get())?;
    match deadpool::wait(pool.drain_for(Duration::from_millis(20))) {
        Ok(_) => return Err("it is drained with a connection out".into()),
        Err(late) => println!("{late}"),
    }
    drop(held);
    deadpool::wait(pool.drain());
    // (it has ended with the pool)
    executor.block_on(keeper)?;
    let report = pool.tally();
    print!("{report}");
    books::judge(&report, &asked)?;
    println!("{} requests were answered, and the books balance", clients::WANTED);
    Ok(())
}
