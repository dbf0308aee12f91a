//! The server that the tests speak to. `.ci/rust-clients` starts one, and says by `WITH_POSTGRES_URL` where it is.
#![allow(dead_code)]

use deadpool_postgres::{Config, ManagerConfig, Pool, PoolConfig, RecyclingMethod, Runtime};
use std::future::poll_fn;
use std::pin::pin;
use std::task::Poll;
use std::time::{Duration, Instant};
use tokio_postgres::{Client, NoTls};

/// For how long a test waits until the server has done what it is to do.
const PATIENCE: Duration = Duration::from_secs(20);

/// A configuration whose connections are known at the server by a name.
pub fn config(name: &str) -> Config {
    let url = std::env::var("WITH_POSTGRES_URL")
        .expect("WITH_POSTGRES_URL says where a server is: .ci/rust-clients starts one");
    Config { url: Some(url), application_name: Some(name.into()), ..Config::new() }
}

/// A pool of at most so many connections.
pub fn pool(name: &str, max_size: usize, recycling_method: RecyclingMethod) -> Pool {
    let mut config = config(name);
    config.manager = Some(ManagerConfig { recycling_method });
    config.pool = Some(PoolConfig::new(max_size));
    config.create_pool(Some(Runtime::Tokio1), NoTls).expect("a pool")
}

/// A connection that is no pool's, once there is a server.
pub async fn judge() -> Client {
    let config = config("judge").get_pg_config().expect("a configuration");
    let begun = Instant::now();
    loop {
        match config.connect(NoTls).await {
            Ok((client, connection)) => {
                tokio::spawn(async move { drop(connection.await) });
                return client;
            }
            Err(error) => assert!(begun.elapsed() < PATIENCE, "there is no server: {error}"),
        }
        tokio::time::sleep(Duration::from_millis(20)).await;
    }
}

/// How many connections of this name the server has.
pub async fn open(judge: &Client, name: &str) -> i64 {
    let count = "SELECT count(*) FROM pg_stat_activity WHERE application_name = $1";
    judge.query_one(count, &[&name]).await.expect("a count").get(0)
}

/// Ends all connections of this name, as an administrator does, and says how many there were.
pub async fn end_all(judge: &Client, name: &str) -> usize {
    let ended = "SELECT pg_terminate_backend(pid) FROM pg_stat_activity WHERE application_name = $1";
    judge.query(ended, &[&name]).await.expect("their ends").len()
}

/// Waits until the server has so many connections of this name. One that was given up goes a moment later.
pub async fn until_open(judge: &Client, name: &str, wanted: i64) {
    let begun = Instant::now();
    loop {
        let count = open(judge, name).await;
        if count == wanted {
            return;
        }
        assert!(begun.elapsed() < PATIENCE, "{count} connections of {name} are open, and not {wanted}");
        tokio::time::sleep(Duration::from_millis(20)).await;
    }
}

/// Polls a future once and so many times more, and drops it unless it is ready before.
pub async fn cut<F: Future>(after: usize, future: F) -> Option<F::Output> {
    let mut future = pin!(future);
    let mut left = after;
    poll_fn(|cx| match future.as_mut().poll(cx) {
        Poll::Ready(output) => Poll::Ready(Some(output)),
        Poll::Pending if left == 0 => Poll::Ready(None),
        Poll::Pending => {
            left -= 1;
            Poll::Pending
        }
    })
    .await
}
