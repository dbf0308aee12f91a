//! A pool of connections to Redis, by the names of the crate deadpool-redis, with a small client of its own.
//!
//! It stands on the crate `deadpool` in version 0.13, by names that each crate of that name and version has.
//!
//! ```no_run
//! use deadpool_redis::{Config, Runtime, redis::cmd};
//!
//! # async fn example() -> Result<(), Box<dyn std::error::Error>> {
//! let pool = Config::from_url("redis://127.0.0.1/").create_pool(Some(Runtime::Tokio1))?;
//! let mut connection = pool.get().await?;
//! cmd("SET").arg("tea").arg(7).query_async::<()>(&mut connection).await?;
//! let price: Option<i64> = cmd("GET").arg("tea").query_async(&mut connection).await?;
//! assert_eq!(price, Some(7));
//! # Ok(())
//! # }
//! ```
#![forbid(unsafe_code)]
#![warn(missing_docs, clippy::pedantic)]

mod config;
mod manager;
pub mod redis;

pub use config::{Config, ConfigError};
pub use deadpool::managed::reexports::*;
pub use manager::{Connection, Manager};

deadpool::managed_reexports!("Redis", Manager, Connection, redis::RedisError, ConfigError);
