//! Choices of a configuration.
use std::borrow::Cow;
use tokio_postgres::config;

/// How a connection that came back is looked at before it is handed out again. By each of these the server rolls back a
/// transaction that its last user has left open.
#[derive(Clone, Debug, Default, Eq, PartialEq)]
#[cfg_attr(feature = "serde", derive(serde::Deserialize, serde::Serialize))]
pub enum RecyclingMethod {
    /// Only whether it is known to be closed, and no answer is waited for. One whose server has gone a moment ago may be handed out.
    #[default]
    Fast,
    /// The server has to answer.
    Verified,
    /// The server has to end what the session has open: cursors, locks, temporary tables, settings, what it listens to. Its
    /// statements stay.
    Clean,
    /// The server has to carry out this text.
    Custom(String),
}

/// Statements that have nothing to end do nothing.
const CLEAN: &str = "CLOSE ALL; SET SESSION AUTHORIZATION DEFAULT; RESET ALL; UNLISTEN *; \
    SELECT pg_advisory_unlock_all(); DISCARD TEMP; DISCARD SEQUENCES;";

impl RecyclingMethod {
    /// The text that the server has to carry out, if any.
    #[must_use]
    pub fn query(&self) -> Option<Cow<'_, str>> {
        match self {
            RecyclingMethod::Fast => None,
            RecyclingMethod::Verified => Some("".into()),
            RecyclingMethod::Clean => Some(CLEAN.into()),
            RecyclingMethod::Custom(text) => Some(text.into()),
        }
    }
}

/// What a manager does, beside to connect.
#[derive(Clone, Debug, Default, Eq, PartialEq)]
#[cfg_attr(feature = "serde", derive(serde::Deserialize, serde::Serialize))]
pub struct ManagerConfig {
    /// How a connection that came back is looked at.
    #[cfg_attr(feature = "serde", serde(default))]
    pub recycling_method: RecyclingMethod,
}

/// Names a choice of tokio-postgres, so that a configuration can be read and written.
macro_rules! choices {
    ($(#[doc = $of:literal] $name:ident { $(#[doc = $means:literal] $choice:ident,)* })*) => {$(
        #[doc = $of]
        #[derive(Clone, Copy, Debug, Eq, PartialEq)]
        #[cfg_attr(feature = "serde", derive(serde::Deserialize, serde::Serialize))]
        #[non_exhaustive]
        pub enum $name {
            $(#[doc = $means] $choice,)*
        }

        impl From<$name> for config::$name {
            fn from(choice: $name) -> Self {
                match choice {
                    $($name::$choice => config::$name::$choice,)*
                }
            }
        }
    )*};
}

choices! {
    /// Whether a connection is encrypted.
    SslMode {
        /// It is not.
        Disable,
        /// It is, if the server can do so.
        Prefer,
        /// It has to be.
        Require,
    }

    /// Which server is connected to, where several are named.
    TargetSessionAttrs {
        /// The first that answers.
        Any,
        /// The first that can be written to.
        ReadWrite,
    }

    /// Whether the password's exchange is bound to the encryption.
    ChannelBinding {
        /// It is not.
        Disable,
        /// It is, if the server can do so.
        Prefer,
        /// It has to be.
        Require,
    }
}
