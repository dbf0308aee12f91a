//! Durations of a configuration, which may be written as a text beside what Rust's own type reads.
use serde::de::value::{MapAccessDeserializer, SeqAccessDeserializer};
use serde::de::{Deserialize, Deserializer, Error, MapAccess, SeqAccess, Visitor};
use std::fmt;
use std::time::Duration;

/// The units, the greatest first, with their milliseconds.
const UNITS: [(&str, u64); 4] = [("h", 3_600_000), ("m", 60_000), ("s", 1_000), ("ms", 1)];

/// What a text says, as `30s` or `1m 30s`: whole numbers, each with its unit, the greatest unit first. The error has the text in it.
pub(crate) fn duration_of(text: &str) -> Result<Duration, String> {
    sum_of(text).map_err(|why| format!("{text:?} is no duration: {why}"))
}

fn sum_of(text: &str) -> Result<Duration, &'static str> {
    let (mut sum, mut left) = (Duration::ZERO, &UNITS[..]);
    for part in text.split(' ') {
        let (number, unit) = part.split_at(part.find(|it: char| !it.is_ascii_digit()).unwrap_or(part.len()));
        if number.is_empty() {
            return Err("a whole number is missing");
        }
        if !UNITS.iter().any(|(name, _)| *name == unit) {
            return Err("its unit is none of h, m, s and ms");
        }
        let at = left.iter().position(|(name, _)| *name == unit).ok_or("its units do not fall")?;
        let millis = number.parse().ok().and_then(|it: u64| it.checked_mul(left[at].1));
        sum = millis.and_then(|it| sum.checked_add(Duration::from_millis(it))).ok_or("it is too long")?;
        left = &left[at + 1..];
    }
    Ok(sum)
}

/// Reads what may be left out.
#[allow(dead_code, reason = "one of these is for fields, the other for what has them")]
pub(crate) fn read<'de, D: Deserializer<'de>>(format: D) -> Result<Option<Duration>, D::Error> {
    Ok(Option::<Spelt>::deserialize(format)?.map(|Spelt(duration)| duration))
}

/// A duration that may be written as a text, in a format for human readers. Of others, as some have no types, only its own form is read.
pub(crate) struct Spelt(pub(crate) Duration);

impl<'de> Deserialize<'de> for Spelt {
    fn deserialize<D: Deserializer<'de>>(format: D) -> Result<Self, D::Error> {
        if format.is_human_readable() {
            format.deserialize_any(Reader).map(Spelt)
        } else {
            Duration::deserialize(format).map(Spelt)
        }
    }
}

struct Reader;

impl<'de> Visitor<'de> for Reader {
    type Value = Duration;

    fn expecting(&self, f: &mut fmt::Formatter<'_>) -> fmt::Result {
        f.write_str("a duration, as \"30s\" or an object of secs and nanos")
    }

    fn visit_str<E: Error>(self, text: &str) -> Result<Duration, E> {
        duration_of(text).map_err(E::custom)
    }

    fn visit_seq<A: SeqAccess<'de>>(self, items: A) -> Result<Duration, A::Error> {
        Duration::deserialize(SeqAccessDeserializer::new(items))
    }

    fn visit_map<A: MapAccess<'de>>(self, members: A) -> Result<Duration, A::Error> {
        Duration::deserialize(MapAccessDeserializer::new(members))
    }
}
