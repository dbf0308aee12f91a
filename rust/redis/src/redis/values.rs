//! What is sent to a server, and what it answers.
use super::RedisError;
use super::error::no;

/// An answer of the server.
#[derive(Clone, Debug, Eq, PartialEq)]
pub enum Value {
    /// There is nothing.
    Nil,
    /// A number.
    Int(i64),
    /// Bytes.
    Data(Vec<u8>),
    /// Several answers.
    Bulk(Vec<Value>),
    /// A word of the server's own, as `OK`.
    Status(String),
    /// A refusal within a list, as of a call of a transaction.
    ServerError(String),
}

/// What can be an argument of a call.
pub trait ToRedisArgs {
    /// Adds the arguments that it is.
    fn write_redis_args(&self, to: &mut Vec<Vec<u8>>);
}

/// What an answer can be read as.
pub trait FromRedisValue: Sized {
    /// Reads an answer.
    ///
    /// # Errors
    ///
    /// It is something else.
    fn from_redis_value(value: Value) -> Result<Self, RedisError>;
}

impl ToRedisArgs for str {
    fn write_redis_args(&self, to: &mut Vec<Vec<u8>>) {
        to.push(self.as_bytes().into());
    }
}

impl ToRedisArgs for String {
    fn write_redis_args(&self, to: &mut Vec<Vec<u8>>) {
        self.as_str().write_redis_args(to);
    }
}

/// Bytes are one argument.
impl ToRedisArgs for [u8] {
    fn write_redis_args(&self, to: &mut Vec<Vec<u8>>) {
        to.push(self.into());
    }
}

impl<T: ToRedisArgs + ?Sized> ToRedisArgs for &T {
    fn write_redis_args(&self, to: &mut Vec<Vec<u8>>) {
        (**self).write_redis_args(to);
    }
}

/// Each of a list is an argument.
macro_rules! lists {
    ($($item:ty)*) => {$(
        impl ToRedisArgs for [$item] {
            fn write_redis_args(&self, to: &mut Vec<Vec<u8>>) {
                self.iter().for_each(|it| it.write_redis_args(to));
            }
        }

        impl<const N: usize> ToRedisArgs for [$item; N] {
            fn write_redis_args(&self, to: &mut Vec<Vec<u8>>) {
                self.as_slice().write_redis_args(to);
            }
        }
    )*};
}

lists! { &str String i64 }

/// Numbers are sent as texts, and read from numbers and texts.
macro_rules! numbers {
    ($($number:ty)*) => {$(
        impl ToRedisArgs for $number {
            fn write_redis_args(&self, to: &mut Vec<Vec<u8>>) {
                self.to_string().write_redis_args(to);
            }
        }

        impl FromRedisValue for $number {
            fn from_redis_value(value: Value) -> Result<Self, RedisError> {
                let text = match &value {
                    Value::Int(number) => number.to_string(),
                    Value::Data(bytes) => String::from_utf8_lossy(bytes).into_owned(),
                    _ => String::new(),
                };
                text.parse().map_err(|_| no(stringify!($number), &value))
            }
        }
    )*};
}

numbers! { i32 i64 u32 u64 usize f64 }

impl FromRedisValue for Value {
    fn from_redis_value(value: Value) -> Result<Self, RedisError> {
        Ok(value)
    }
}

/// Each answer will do.
impl FromRedisValue for () {
    fn from_redis_value(value: Value) -> Result<Self, RedisError> {
        match value {
            Value::ServerError(text) => Err(RedisError::Refused(text)),
            Value::Bulk(items) => items.into_iter().try_for_each(<()>::from_redis_value),
            _ => Ok(()),
        }
    }
}

impl FromRedisValue for bool {
    fn from_redis_value(value: Value) -> Result<Self, RedisError> {
        match &value {
            Value::Int(number @ 0..=1) => Ok(*number == 1),
            Value::Status(word) if word == "OK" => Ok(true),
            Value::Nil => Ok(false),
            _ => Err(no("bool", &value)),
        }
    }
}

impl FromRedisValue for String {
    fn from_redis_value(value: Value) -> Result<Self, RedisError> {
        match value {
            Value::Data(bytes) => String::from_utf8(bytes).map_err(|error| no("text", &error)),
            Value::Status(word) => Ok(word),
            Value::Int(number) => Ok(number.to_string()),
            other => Err(no("text", &other)),
        }
    }
}

/// The answers of a list, or bytes.
impl<T: FromListed> FromRedisValue for Vec<T> {
    fn from_redis_value(value: Value) -> Result<Self, RedisError> {
        T::all_of(value)
    }
}

impl<T: FromRedisValue> FromRedisValue for Option<T> {
    fn from_redis_value(value: Value) -> Result<Self, RedisError> {
        if value == Value::Nil { Ok(None) } else { T::from_redis_value(value).map(Some) }
    }
}

/// What a list can be read as: bytes, or an answer each.
pub trait FromListed: Sized {
    /// Reads a list.
    ///
    /// # Errors
    ///
    /// It is something else.
    fn all_of(value: Value) -> Result<Vec<Self>, RedisError>;
}

impl FromListed for u8 {
    fn all_of(value: Value) -> Result<Vec<u8>, RedisError> {
        if let Value::Data(bytes) = value { Ok(bytes) } else { Err(no("bytes", &value)) }
    }
}

macro_rules! listed {
    ($($item:ty)*) => {$(
        impl FromListed for $item {
            fn all_of(value: Value) -> Result<Vec<Self>, RedisError> {
                match value {
                    Value::Bulk(items) => items.into_iter().map(<$item>::from_redis_value).collect(),
                    Value::Nil => Ok(Vec::new()),
                    other => Err(no("list", &other)),
                }
            }
        }
    )*};
}

listed! { i64 u64 f64 bool String Value Option<i64> Option<String> Vec<u8> Vec<String> }
