//! A pool of connections to PostgreSQL, by the names of the crate deadpool-postgres.
//!
//! It stands on the crate `deadpool` in version 0.13, by names that each crate of that name and version has.
//!
//! ```no_run
//! use deadpool_postgres::{Config, ManagerConfig, RecyclingMethod, Runtime};
//! use tokio_postgres::NoTls;
//!
//! # async fn example() -> Result<(), Box<dyn std::error::Error>> {
//! let mut config = Config::new();
//! config.dbname = Some("shop".into());
//! config.manager = Some(ManagerConfig { recycling_method: RecyclingMethod::Verified });
//! let pool = config.create_pool(Some(Runtime::Tokio1), NoTls)?;
//!
//! let client = pool.get().await?;
//! let by_name = client.prepare_cached("SELECT price FROM goods WHERE name = $1").await?;
//! let price: i64 = client.query_one(&by_name, &[&"tea"]).await?.get(0);
//! # let _ = price;
//! # Ok(())
//! # }
//! ```
#![forbid(unsafe_code)]
#![warn(missing_docs)]

#[macro_use]
mod watched;

mod client;
mod config;
#[cfg(feature = "serde")]
mod durations;
mod generic;
mod manager;
mod options;
mod statements;
mod transaction;

pub use client::ClientWrapper;
pub use config::{Config, ConfigError};
pub use generic::GenericClient;
pub use manager::{ConfigConnectImpl, Connect, Manager};
pub use options::{ChannelBinding, ManagerConfig, RecyclingMethod, SslMode, TargetSessionAttrs};
pub use statements::{StatementCache, StatementCaches};
pub use tokio_postgres;
pub use transaction::{Transaction, TransactionBuilder};

pub use deadpool::managed::reexports::*;

deadpool::managed_reexports!(
    "deadpool-postgres",
    Manager,
    deadpool::managed::Object<Manager>,
    tokio_postgres::Error,
    ConfigError
);

/// What a pool hands out: a connection, which goes back when it is dropped.
pub type Client = Object;
