//! What the tests share: a pool over a real server, and a command.
use deadpool_redis::redis::{FromRedisValue, RedisError, cmd};
use deadpool_redis::{Config, Connection, Pool, PoolConfig, Runtime, Timeouts};
use std::time::Duration;

/// A pool over the server that the test has.
pub fn pool_of(max_size: usize) -> Pool {
    let url = std::env::var("WITH_REDIS_URL").expect("WITH_REDIS_URL says where the server is: run by .ci/with-redis");
    let long = Some(Duration::from_secs(60));
    let mut config = Config::from_url(url);
    config.pool = Some(PoolConfig {
        timeouts: Timeouts { wait: long, create: long, recycle: long },
        ..PoolConfig::new(max_size)
    });
    config.create_pool(Some(Runtime::Tokio1)).expect("a pool")
}

/// The answer to a command.
pub async fn asked<T: FromRedisValue>(connection: &mut Connection, words: &[&str]) -> Result<T, RedisError> {
    cmd(words[0]).arg(&words[1..]).query_async(connection).await
}
