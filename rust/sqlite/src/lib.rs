//! A pool of connections to SQLite, by the names of the crate deadpool-sqlite.
//!
//! It stands on the crate `deadpool` in version 0.13, by names that each crate of that name and version has.
//!
//! ```
//! use deadpool_sqlite::{Config, Runtime};
//!
//! # #[tokio::main]
//! # async fn main() -> Result<(), Box<dyn std::error::Error>> {
//! let pool = Config::new(":memory:").create_pool(Runtime::Tokio1)?;
//! let connection = pool.get().await?;
//! let sum: i64 = connection.interact(|it| it.query_row("SELECT 41 + 1", [], |row| row.get(0))).await??;
//! assert_eq!(sum, 42);
//! # Ok(())
//! # }
//! ```
#![forbid(unsafe_code)]
#![warn(missing_docs, clippy::pedantic)]

mod config;
mod manager;

pub use config::{Config, ConfigError};
pub use deadpool::managed::reexports::*;
pub use deadpool_sync::reexports::*;
pub use manager::Manager;
pub use rusqlite;

deadpool::managed_reexports!("SQLite", Manager, deadpool::managed::Object<Manager>, rusqlite::Error, ConfigError);

/// What a get gives. Its `interact` runs a closure on the connection, in a thread that may block.
pub type Connection = Object;
