//! Why a call gave nothing.
use std::{fmt, io};

/// Why a call gave nothing.
#[derive(Debug)]
#[non_exhaustive]
pub enum RedisError {
    /// The connection is lost, or was not made.
    Io(io::Error),
    /// The server has refused the call, with this text.
    Refused(String),
    /// The answer, or the text of an address, is not of the form that is asked for.
    Form(String),
    /// An earlier call on this connection was cut off, so that answers no longer belong to their calls.
    CutOff,
}

impl fmt::Display for RedisError {
    fn fmt(&self, f: &mut fmt::Formatter<'_>) -> fmt::Result {
        match self {
            RedisError::Io(cause) => write!(f, "the connection to the server: {cause}"),
            RedisError::Refused(text) => write!(f, "the server has refused a call: {text}"),
            RedisError::Form(text) => f.write_str(text),
            RedisError::CutOff => f.write_str("an earlier call on this connection was cut off"),
        }
    }
}

impl std::error::Error for RedisError {
    fn source(&self) -> Option<&(dyn std::error::Error + 'static)> {
        if let RedisError::Io(cause) = self { Some(cause) } else { None }
    }
}

impl From<io::Error> for RedisError {
    fn from(cause: io::Error) -> Self {
        RedisError::Io(cause)
    }
}

/// The error of a value, or a text, that is something else than was asked for.
pub(super) fn no(what: &str, it: &dyn fmt::Debug) -> RedisError {
    RedisError::Form(format!("no {what}: {it:?}"))
}
