//! What a pool is made of: where the database is, how its connections are recycled, and how many there are.
use crate::options::{ChannelBinding, ManagerConfig, SslMode, TargetSessionAttrs};
use crate::{CreatePoolError, Manager, Pool, PoolBuilder, PoolConfig, Runtime};
use std::fmt;
use std::time::Duration;
use tokio_postgres::tls::{MakeTlsConnect, TlsConnect};
use tokio_postgres::{Config as PgConfig, Error, Socket};

/// Where these folders are, a server on the same machine has its socket in one.
#[cfg(unix)]
const SOCKETS: [&str; 3] = ["/run/postgresql", "/var/run/postgresql", "/tmp"];

/// Where the database is, how its connections are recycled, and how many there are. What is not set is as tokio-postgres has it.
///
/// With the feature `serde` it can be read and written. A duration that is read may be a text, as `30s`, `500ms` or `1m 30s`.
///
/// ```
/// # #[cfg(feature = "serde")]
/// # fn main() -> Result<(), Box<dyn std::error::Error>> {
/// use deadpool_postgres::{Config, RecyclingMethod};
///
/// let config: Config = serde_json::from_str(r#"{
///     "url": "postgres://ada@db.example/shop",
///     "manager": { "recycling_method": "Clean" },
///     "pool": { "max_size": 16 }
/// }"#)?;
/// assert_eq!(config.get_manager_config().recycling_method, RecyclingMethod::Clean);
/// assert_eq!(config.get_pool_config().max_size, 16);
/// assert_eq!(config.get_pg_config()?.get_dbname(), Some("shop"));
/// # Ok(())
/// # }
/// # #[cfg(not(feature = "serde"))]
/// # fn main() {}
/// ```
#[derive(Clone, Default)]
#[cfg_attr(feature = "serde", derive(serde::Deserialize, serde::Serialize))]
pub struct Config {
    /// A text that says where the database is. The fields below come before it.
    pub url: Option<String>,
    /// Who connects. If nobody is named it is the user of the environment.
    pub user: Option<String>,
    /// Its password.
    pub password: Option<String>,
    /// The name of the database.
    pub dbname: Option<String>,
    /// What the server is told at the begin of a session.
    pub options: Option<String>,
    /// The name by which the server knows the program.
    pub application_name: Option<String>,
    /// Whether a connection is encrypted.
    pub ssl_mode: Option<SslMode>,
    /// The machine, or the folder of the socket.
    pub host: Option<String>,
    /// More of these, in the order in which they are tried.
    pub hosts: Option<Vec<String>>,
    /// The port.
    pub port: Option<u16>,
    /// A port of each machine, if they differ.
    pub ports: Option<Vec<u16>>,
    /// How long a connection to one address may take.
    #[cfg_attr(feature = "serde", serde(default, deserialize_with = "crate::durations::read"))]
    pub connect_timeout: Option<Duration>,
    /// Whether idle connections are kept up.
    pub keepalives: Option<bool>,
    /// After which time.
    #[cfg_attr(feature = "serde", serde(default, deserialize_with = "crate::durations::read"))]
    pub keepalives_idle: Option<Duration>,
    /// Which server is connected to, where several are named.
    pub target_session_attrs: Option<TargetSessionAttrs>,
    /// Whether the password's exchange is bound to the encryption.
    pub channel_binding: Option<ChannelBinding>,
    /// How connections are recycled.
    pub manager: Option<ManagerConfig>,
    /// How many connections there are, and how long a get may last.
    pub pool: Option<PoolConfig>,
}

/// Why a configuration gives no connection.
#[derive(Debug)]
pub enum ConfigError {
    /// The text of [`Config::url`] cannot be read.
    InvalidUrl(Error),
    /// No database is named.
    DbnameMissing,
    /// The name of the database is empty.
    DbnameEmpty,
}

impl Config {
    /// Nothing is set.
    #[must_use]
    pub fn new() -> Self {
        Config::default()
    }

    /// A configuration, as it is read by serde, in which each key is known, also those of its pool: a key that is not, as one that is
    /// misspelt, is refused and named by its path.
    ///
    /// # Errors
    /// What the format says, or that a key is not known.
    #[cfg(feature = "serde")]
    pub fn read_strictly<'de, D: serde::Deserializer<'de>>(format: D) -> Result<Self, D::Error> {
        let mut unknown = None;
        // (a path has a question mark for what may be left out)
        let config = serde_ignored::deserialize(format, |key| {
            unknown.get_or_insert(key.to_string().replace(".?.", "."));
        })?;
        match unknown {
            None => Ok(config),
            Some(key) => Err(serde::de::Error::custom(format!("{key}: no key of a configuration"))),
        }
    }

    /// A pool of this configuration. The runtime is for its timeouts, and may be left out if there are none.
    ///
    /// # Errors
    /// The configuration gives no connection, or a timeout has no runtime.
    pub fn create_pool<T>(&self, runtime: Option<Runtime>, tls: T) -> Result<Pool, CreatePoolError>
    where
        T: MakeTlsConnect<Socket> + Clone + Send + Sync + 'static,
        T::Stream: Send + Sync,
        T::TlsConnect: Send + Sync,
        <T::TlsConnect as TlsConnect<Socket>>::Future: Send,
    {
        let mut builder = self.builder(tls).map_err(CreatePoolError::Config)?;
        if let Some(runtime) = runtime {
            builder = builder.runtime(runtime);
        }
        builder.build().map_err(CreatePoolError::Build)
    }

    /// A builder of a pool of this configuration, for who has hooks to add.
    ///
    /// # Errors
    /// The configuration gives no connection.
    pub fn builder<T>(&self, tls: T) -> Result<PoolBuilder, ConfigError>
    where
        T: MakeTlsConnect<Socket> + Clone + Send + Sync + 'static,
        T::Stream: Send + Sync,
        T::TlsConnect: Send + Sync,
        <T::TlsConnect as TlsConnect<Socket>>::Future: Send,
    {
        let manager = Manager::from_config(self.get_pg_config()?, tls, self.get_manager_config());
        Ok(Pool::builder(manager).config(self.get_pool_config()))
    }

    /// What tokio-postgres connects by.
    ///
    /// # Errors
    /// The text of `url` cannot be read, or there is no name of a database.
    pub fn get_pg_config(&self) -> Result<PgConfig, ConfigError> {
        let mut config = match &self.url {
            Some(url) => url.parse().map_err(ConfigError::InvalidUrl)?,
            None => PgConfig::new(),
        };
        self.say_who(&mut config);
        self.say_where(&mut config);
        self.say_how(&mut config);
        match config.get_dbname() {
            None => Err(ConfigError::DbnameMissing),
            Some("") => Err(ConfigError::DbnameEmpty),
            Some(_) => Ok(config),
        }
    }

    fn say_who(&self, config: &mut PgConfig) {
        let of_environment = || std::env::var("USER").ok().filter(|_| config.get_user().is_none());
        if let Some(user) = self.user.clone().or_else(of_environment) {
            config.user(&user);
        }
        self.password.iter().for_each(|it| _ = config.password(it));
        self.dbname.iter().for_each(|it| _ = config.dbname(it));
    }

    fn say_where(&self, config: &mut PgConfig) {
        self.host.iter().chain(self.hosts.iter().flatten()).for_each(|it| _ = config.host(it));
        if config.get_hosts().is_empty() {
            #[cfg(unix)]
            SOCKETS.iter().for_each(|it| _ = config.host_path(it));
            #[cfg(not(unix))]
            config.host("127.0.0.1");
        }
        self.port.iter().chain(self.ports.iter().flatten()).for_each(|it| _ = config.port(*it));
        self.target_session_attrs.iter().for_each(|it| _ = config.target_session_attrs((*it).into()));
    }

    fn say_how(&self, config: &mut PgConfig) {
        self.options.iter().for_each(|it| _ = config.options(it));
        self.application_name.iter().for_each(|it| _ = config.application_name(it));
        self.ssl_mode.iter().for_each(|it| _ = config.ssl_mode((*it).into()));
        self.channel_binding.iter().for_each(|it| _ = config.channel_binding((*it).into()));
        self.connect_timeout.iter().for_each(|it| _ = config.connect_timeout(*it));
        self.keepalives.iter().for_each(|it| _ = config.keepalives(*it));
        self.keepalives_idle.iter().for_each(|it| _ = config.keepalives_idle(*it));
    }

    /// How connections are recycled.
    #[must_use]
    pub fn get_manager_config(&self) -> ManagerConfig {
        self.manager.clone().unwrap_or_default()
    }

    /// How many connections there are, and how long a get may last.
    #[must_use]
    pub fn get_pool_config(&self) -> PoolConfig {
        self.pool.unwrap_or_default()
    }
}

/// It tells no password, and no `url`, which may have one in it.
impl fmt::Debug for Config {
    fn fmt(&self, f: &mut fmt::Formatter<'_>) -> fmt::Result {
        let mut told = f.debug_struct("Config");
        told.field("user", &self.user).field("dbname", &self.dbname);
        told.field("host", &self.host)
            .field("hosts", &self.hosts)
            .field("port", &self.port)
            .field("ports", &self.ports);
        told.field("manager", &self.manager).field("pool", &self.pool).finish_non_exhaustive()
    }
}

impl fmt::Display for ConfigError {
    fn fmt(&self, f: &mut fmt::Formatter<'_>) -> fmt::Result {
        match self {
            ConfigError::InvalidUrl(cause) => write!(f, "The `url` of the configuration cannot be read: {cause}"),
            ConfigError::DbnameMissing => write!(f, "The configuration has no `dbname`"),
            ConfigError::DbnameEmpty => write!(f, "The `dbname` of the configuration is empty"),
        }
    }
}

impl std::error::Error for ConfigError {
    fn source(&self) -> Option<&(dyn std::error::Error + 'static)> {
        match self {
            ConfigError::InvalidUrl(cause) => Some(cause),
            ConfigError::DbnameMissing | ConfigError::DbnameEmpty => None,
        }
    }
}
