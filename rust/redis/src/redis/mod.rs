//! A small client of Redis: calls and their answers, by some of the names of the crate redis. It has neither pipelines, nor clusters, nor
//! encryption, nor what is published.
mod client;
mod error;
mod info;
mod values;

pub use client::{Client, Cmd, cmd};
pub use error::RedisError;
pub use info::ConnectionInfo;
pub use values::{FromRedisValue, ToRedisArgs, Value};
