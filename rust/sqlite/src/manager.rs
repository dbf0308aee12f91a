//! What opens connections, and looks at those that came back.
use crate::{Config, Metrics, Runtime};
use deadpool::managed::{self, RecycleError, RecycleResult};
use deadpool_sync::SyncWrapper;
use rusqlite::{Connection, Error};
use std::path::PathBuf;

/// Opens connections, and rolls back what one that came back has open.
#[derive(Debug)]
pub struct Manager {
    path: PathBuf,
    runtime: Runtime,
}

impl Manager {
    /// That of a configuration.
    #[must_use]
    pub fn from_config(config: &Config, runtime: Runtime) -> Self {
        Manager { path: config.path.clone(), runtime }
    }
}

impl managed::Manager for Manager {
    type Type = SyncWrapper<Connection>;
    type Error = Error;

    async fn create(&self) -> Result<Self::Type, Error> {
        let path = self.path.clone();
        SyncWrapper::new(self.runtime, move || Connection::open(path)).await
    }

    /// It waits for a closure that nobody awaits any more. If one has panicked the connection is given up.
    async fn recycle(&self, connection: &mut Self::Type, _: &Metrics) -> RecycleResult<Error> {
        let answers = connection.interact(|connection| {
            if !connection.is_autocommit() {
                connection.execute_batch("ROLLBACK")?;
            }
            connection.query_row("SELECT 1", [], |_| Ok(()))
        });
        match answers.await {
            Ok(answered) => Ok(answered?),
            Err(error) => Err(RecycleError::message(format!("a closure on it has ended badly: {error}"))),
        }
    }
}
