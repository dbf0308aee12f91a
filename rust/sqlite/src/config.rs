//! What a pool is made of: where the database is, and how many connections there are.
use crate::{CreatePoolError, Manager, Pool, PoolBuilder, PoolConfig, Runtime};
use std::convert::Infallible;
use std::path::PathBuf;

/// Where the database is, and how many connections there are.
///
/// With the feature `serde` it can be read and written, as `{"path": "shop.db", "pool": {"max_size": 4}}`.
#[derive(Clone, Debug)]
#[cfg_attr(feature = "serde", derive(serde::Deserialize, serde::Serialize))]
pub struct Config {
    /// The file of the database. With `:memory:` each connection has a database of its own.
    pub path: PathBuf,
    /// How many connections there are, and how long a get may last.
    pub pool: Option<PoolConfig>,
}

/// Each configuration gives a builder.
pub type ConfigError = Infallible;

impl Config {
    /// The database of a file.
    #[must_use]
    pub fn new(path: impl Into<PathBuf>) -> Self {
        Config { path: path.into(), pool: None }
    }

    /// A pool of this configuration. The runtime is for its timeouts, and for the closures on its connections.
    ///
    /// # Errors
    ///
    /// None: the file is opened by the first get.
    pub fn create_pool(&self, runtime: Runtime) -> Result<Pool, CreatePoolError> {
        let builder = self.builder(runtime).map_err(CreatePoolError::Config)?;
        builder.build().map_err(CreatePoolError::Build)
    }

    /// A builder of a pool of this configuration, for who has hooks to add.
    ///
    /// # Errors
    ///
    /// None.
    pub fn builder(&self, runtime: Runtime) -> Result<PoolBuilder, ConfigError> {
        let manager = Manager::from_config(self, runtime);
        Ok(Pool::builder(manager).config(self.pool.unwrap_or_default()).runtime(runtime))
    }
}
