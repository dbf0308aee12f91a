//! Makes connections, and says of each that came back whether it can be used again.
use crate::{ClientWrapper, ManagerConfig, StatementCaches};
use deadpool::managed::{self, Metrics, RecycleError, RecycleResult};
use std::fmt;
use std::pin::Pin;
use tokio::task::JoinHandle;
use tokio_postgres::tls::{MakeTlsConnect, TlsConnect};
use tokio_postgres::{Client, Config, Error, Socket};

/// Makes connections for a pool.
pub struct Manager {
    config: Config,
    manager_config: ManagerConfig,
    connect: Box<dyn Connect>,
    /// The statements of all its connections.
    pub statement_caches: StatementCaches,
}

impl Manager {
    /// One that recycles by [`RecyclingMethod::Fast`](crate::RecyclingMethod::Fast).
    #[must_use]
    pub fn new<T>(config: Config, tls: T) -> Self
    where
        T: MakeTlsConnect<Socket> + Clone + Send + Sync + 'static,
        T::Stream: Send + Sync,
        T::TlsConnect: Send + Sync,
        <T::TlsConnect as TlsConnect<Socket>>::Future: Send,
    {
        Manager::from_config(config, tls, ManagerConfig::default())
    }

    /// One that recycles as its configuration says.
    #[must_use]
    pub fn from_config<T>(config: Config, tls: T, manager_config: ManagerConfig) -> Self
    where
        T: MakeTlsConnect<Socket> + Clone + Send + Sync + 'static,
        T::Stream: Send + Sync,
        T::TlsConnect: Send + Sync,
        <T::TlsConnect as TlsConnect<Socket>>::Future: Send,
    {
        Manager::from_connect(config, ConfigConnectImpl { tls }, manager_config)
    }

    /// One that connects in a way of the caller's own.
    #[must_use]
    pub fn from_connect(config: Config, connect: impl Connect + 'static, manager_config: ManagerConfig) -> Self {
        let statement_caches = StatementCaches::default();
        Manager { config, manager_config, connect: Box::new(connect), statement_caches }
    }
}

impl managed::Manager for Manager {
    type Type = ClientWrapper;
    type Error = Error;

    async fn create(&self) -> Result<ClientWrapper, Error> {
        let (client, driver) = self.connect.connect(&self.config).await?;
        let client = ClientWrapper::new(client, driver);
        self.statement_caches.add(&client.statement_cache);
        Ok(client)
    }

    async fn recycle(&self, client: &mut ClientWrapper, _: &Metrics) -> RecycleResult<Error> {
        if client.is_closed() {
            return Err(RecycleError::message("The connection is closed"));
        }
        client.end_transaction().await;
        if let Some(query) = self.manager_config.recycling_method.query() {
            client.simple_query(&query).await?;
        }
        Ok(())
    }

    fn detach(&self, client: &mut ClientWrapper) {
        self.statement_caches.forget(&client.statement_cache);
    }
}

impl fmt::Debug for Manager {
    fn fmt(&self, f: &mut fmt::Formatter<'_>) -> fmt::Result {
        let mut told = f.debug_struct("Manager");
        told.field("config", &self.config).field("manager_config", &self.manager_config);
        told.field("statement_caches", &self.statement_caches).finish_non_exhaustive()
    }
}

/// A connection, and the task by which it hears from the server.
type Connecting<'a> = Pin<Box<dyn Future<Output = Result<(Client, JoinHandle<()>), Error>> + Send + 'a>>;

/// A way to connect.
pub trait Connect: Send + Sync {
    /// Connects, and starts a task by which the connection hears from the server.
    fn connect<'a>(&'a self, config: &'a Config) -> Connecting<'a>;
}

/// Connects as tokio-postgres does.
#[derive(Clone, Copy, Debug)]
pub struct ConfigConnectImpl<T> {
    /// What encrypts, or [`NoTls`](tokio_postgres::NoTls).
    pub tls: T,
}

impl<T> Connect for ConfigConnectImpl<T>
where
    T: MakeTlsConnect<Socket> + Clone + Send + Sync + 'static,
    T::Stream: Send + Sync,
    T::TlsConnect: Send + Sync,
    <T::TlsConnect as TlsConnect<Socket>>::Future: Send,
{
    fn connect<'a>(&'a self, config: &'a Config) -> Connecting<'a> {
        Box::pin(async {
            let (client, connection) = config.connect(self.tls.clone()).await?;
            // (if it fails its client is closed, and says so)
            let driver = tokio::spawn(async move { drop(connection.await) });
            Ok((client, driver))
        })
    }
}
