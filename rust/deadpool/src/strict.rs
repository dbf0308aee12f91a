//! Configurations that are read strictly: an unknown key is refused, and a fault names the key and why.
use serde::de::{Deserialize, Deserializer, Error, IgnoredAny, MapAccess, SeqAccess, Visitor};
use std::borrow::Cow;
use std::fmt;
use std::time::Duration;

/// A `PoolConfig` or the `Settings` of either pool, read strictly, from a format that says what its values are, as JSON and TOML do.
///
/// It reads what these themselves read, but refuses a key that they do not have, one that stands twice, and a list in
/// place of an object. The error names the key and why, as in `timeouts.wait: no duration`. The first fault is told: keys come first.
/// A duration is an object of `secs` and `nanos`, or a text as `30s`, `500ms` or `1m 30s`, of whole numbers with units `h`, `m`, `s`, `ms`.
///
/// ```
/// # #[cfg(feature = "managed")]
/// use serde::Deserialize;
///
/// # #[cfg(feature = "managed")]
/// fn read<'de, D: serde::Deserializer<'de>>(format: D) -> Result<deadpool::managed::Settings, D::Error> {
///     deadpool::Strict::deserialize(format).map(deadpool::Strict::into_inner)
/// }
/// ```
#[derive(Clone, Copy, Debug)]
pub struct Strict<T>(pub T);

impl<T> Strict<T> {
    /// What was read.
    #[must_use]
    pub fn into_inner(self) -> T {
        self.0
    }
}

impl<'de, T: Configuration> Deserialize<'de> for Strict<T> {
    fn deserialize<D: Deserializer<'de>>(deserializer: D) -> Result<Self, D::Error> {
        let value = Value::deserialize(deserializer)?;
        T::of(&value).map(Strict).map_err(D::Error::custom)
    }
}

/// Where a configuration is at fault, and why.
#[derive(Debug)]
pub struct Fault {
    path: String,
    why: Cow<'static, str>,
}

impl fmt::Display for Fault {
    fn fmt(&self, f: &mut fmt::Formatter<'_>) -> fmt::Result {
        let Fault { path, why } = self;
        if path.is_empty() { f.write_str(why) } else { write!(f, "{path}: {why}") }
    }
}

/// What is read of a value.
pub trait Configuration: Sized {
    /// The configuration that the value is, or its first fault.
    fn of(value: &Value) -> Result<Self, Fault>;
}

#[cfg(feature = "managed")]
impl Configuration for crate::managed::PoolConfig {
    fn of(value: &Value) -> Result<Self, Fault> {
        value.has_only(&["max_size", "timeouts", "queue_mode"], "")?;
        managed_of(value)
    }
}

#[cfg(feature = "managed")]
impl Configuration for crate::managed::Settings {
    fn of(value: &Value) -> Result<Self, Fault> {
        value.has_only(&["max_size", "timeouts", "queue_mode", "max_waiting"], "")?;
        Ok(Self { config: managed_of(value)?, max_waiting: value.max_waiting()? })
    }
}

/// What stands at the keys of a configuration.
#[cfg(feature = "managed")]
fn managed_of(value: &Value) -> Result<crate::managed::PoolConfig, Fault> {
    let timeouts = value.get("timeouts");
    timeouts.map_or(Ok(()), |it| it.has_only(&["wait", "create", "recycle"], "timeouts."))?;
    Ok(crate::managed::PoolConfig {
        max_size: value.max_size()?,
        timeouts: timeouts.map_or_else(|| Ok(crate::managed::Timeouts::new()), timeouts_of)?,
        queue_mode: value.get("queue_mode").map_or_else(|| Ok(crate::managed::QueueMode::default()), mode_of)?,
    })
}

#[cfg(feature = "managed")]
fn timeouts_of(value: &Value) -> Result<crate::managed::Timeouts, Fault> {
    let Value::Object(_) = value else { return Err(fault("timeouts", "no object")) };
    Ok(crate::managed::Timeouts {
        wait: value.duration("wait", "timeouts.")?,
        create: value.duration("create", "timeouts.")?,
        recycle: value.duration("recycle", "timeouts.")?,
    })
}

#[cfg(feature = "managed")]
fn mode_of(value: &Value) -> Result<crate::managed::QueueMode, Fault> {
    match value {
        Value::Text(name) if name == "Fifo" => Ok(crate::managed::QueueMode::Fifo),
        Value::Text(name) if name == "Lifo" => Ok(crate::managed::QueueMode::Lifo),
        _ => Err(fault("queue_mode", "neither Fifo nor Lifo")),
    }
}

/// There is no runtime in it.
#[cfg(feature = "unmanaged")]
impl Configuration for crate::unmanaged::PoolConfig {
    fn of(value: &Value) -> Result<Self, Fault> {
        value.has_only(&["max_size", "timeout"], "")?;
        unmanaged_of(value)
    }
}

/// There is no journal in them either.
#[cfg(feature = "unmanaged")]
impl Configuration for crate::unmanaged::Settings {
    fn of(value: &Value) -> Result<Self, Fault> {
        value.has_only(&["max_size", "timeout", "max_waiting"], "")?;
        Ok(Self { config: unmanaged_of(value)?, max_waiting: value.max_waiting()?, journal: 0 })
    }
}

/// What stands at the keys of a configuration.
#[cfg(feature = "unmanaged")]
fn unmanaged_of(value: &Value) -> Result<crate::unmanaged::PoolConfig, Fault> {
    Ok(crate::unmanaged::PoolConfig {
        max_size: value.max_size()?,
        timeout: value.duration("timeout", "")?,
        runtime: None,
    })
}

fn fault(path: impl Into<String>, why: impl Into<Cow<'static, str>>) -> Fault {
    Fault { path: path.into(), why: why.into() }
}

/// A value of any format, as far as a configuration is told from others by it.
#[derive(Debug)]
pub enum Value {
    /// Null, or a none.
    Null,
    /// A number, if it is a whole one from 0 on.
    Number(Option<u64>),
    /// A text.
    Text(String),
    /// Keys and values, in their order.
    Object(Vec<(String, Value)>),
    /// Another one.
    Other,
}

impl Value {
    fn get(&self, key: &str) -> Option<&Value> {
        let Value::Object(members) = self else { return None };
        members.iter().find(|(other, _)| other == key).map(|(_, value)| value)
    }

    /// Refuses another key than these, and one that stands twice. The path leads to this object.
    fn has_only(&self, known: &[&str], path: &str) -> Result<(), Fault> {
        let Value::Object(members) = self else { return Ok(()) };
        for (at, (key, _)) in members.iter().enumerate() {
            if !known.contains(&key.as_str()) {
                return Err(fault(format!("{path}{key}"), "no key of a pool"));
            }
            if members[..at].iter().any(|(other, _)| other == key) {
                return Err(fault(format!("{path}{key}"), "it stands twice"));
            }
        }
        Ok(())
    }

    fn number(&self, path: &str) -> Result<usize, Fault> {
        let Value::Number(number) = self else { return Err(fault(path, "no number")) };
        let number = number.and_then(|it| usize::try_from(it).ok());
        number.ok_or_else(|| fault(path, format!("no whole number from 0 to {}", usize::MAX)))
    }

    fn max_size(&self) -> Result<usize, Fault> {
        let Value::Object(_) = self else { return Err(fault("", "no object")) };
        self.get("max_size").ok_or_else(|| fault("max_size", "missing"))?.number("max_size")
    }

    fn max_waiting(&self) -> Result<Option<usize>, Fault> {
        match self.get("max_waiting") {
            None | Some(Value::Null) => Ok(None),
            Some(value) => value.number("max_waiting").map(Some),
        }
    }

    fn duration(&self, key: &str, within: &str) -> Result<Option<Duration>, Fault> {
        match self.get(key) {
            None | Some(Value::Null) => Ok(None),
            Some(value) => value.as_duration().map(Some).map_err(|why| fault(format!("{within}{key}"), why)),
        }
    }

    fn as_duration(&self) -> Result<Duration, Cow<'static, str>> {
        match self {
            Value::Text(text) => Ok(crate::durations::duration_of(text)?),
            value => value.seconds().ok_or("no duration".into()),
        }
    }

    /// Whole seconds and nanoseconds, and nothing else. Those past a second carry.
    fn seconds(&self) -> Option<Duration> {
        let Value::Object(members) = self else { return None };
        let [Some(Value::Number(Some(secs))), Some(Value::Number(Some(nanos)))] =
            ["secs", "nanos"].map(|it| self.get(it))
        else {
            return None;
        };
        let nanos = Duration::from_nanos(u32::try_from(*nanos).ok()?.into());
        (members.len() == 2).then(|| Duration::from_secs(*secs).checked_add(nanos)).flatten()
    }
}

impl<'de> Deserialize<'de> for Value {
    fn deserialize<D: Deserializer<'de>>(deserializer: D) -> Result<Self, D::Error> {
        deserializer.deserialize_any(Reader)
    }
}

struct Reader;

impl<'de> Visitor<'de> for Reader {
    type Value = Value;

    fn expecting(&self, f: &mut fmt::Formatter<'_>) -> fmt::Result {
        f.write_str("a configuration")
    }

    fn visit_unit<E: Error>(self) -> Result<Value, E> {
        Ok(Value::Null)
    }

    fn visit_none<E: Error>(self) -> Result<Value, E> {
        Ok(Value::Null)
    }

    fn visit_some<D: Deserializer<'de>>(self, deserializer: D) -> Result<Value, D::Error> {
        deserializer.deserialize_any(self)
    }

    fn visit_newtype_struct<D: Deserializer<'de>>(self, deserializer: D) -> Result<Value, D::Error> {
        deserializer.deserialize_any(self)
    }

    fn visit_bool<E: Error>(self, _: bool) -> Result<Value, E> {
        Ok(Value::Other)
    }

    fn visit_u64<E: Error>(self, number: u64) -> Result<Value, E> {
        Ok(Value::Number(Some(number)))
    }

    fn visit_i64<E: Error>(self, number: i64) -> Result<Value, E> {
        Ok(Value::Number(number.try_into().ok()))
    }

    fn visit_u128<E: Error>(self, number: u128) -> Result<Value, E> {
        Ok(Value::Number(number.try_into().ok()))
    }

    fn visit_i128<E: Error>(self, number: i128) -> Result<Value, E> {
        Ok(Value::Number(number.try_into().ok()))
    }

    fn visit_f64<E: Error>(self, _: f64) -> Result<Value, E> {
        Ok(Value::Number(None))
    }

    fn visit_str<E: Error>(self, text: &str) -> Result<Value, E> {
        Ok(Value::Text(text.into()))
    }

    fn visit_bytes<E: Error>(self, _: &[u8]) -> Result<Value, E> {
        Ok(Value::Other)
    }

    fn visit_seq<A: SeqAccess<'de>>(self, mut items: A) -> Result<Value, A::Error> {
        while items.next_element::<IgnoredAny>()?.is_some() {}
        Ok(Value::Other)
    }

    fn visit_map<A: MapAccess<'de>>(self, mut members: A) -> Result<Value, A::Error> {
        let mut read = Vec::new();
        while let Some(member) = members.next_entry()? {
            read.push(member);
        }
        Ok(Value::Object(read))
    }
}
