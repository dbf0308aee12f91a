//! Configurations in formats that have no keys: what is written of them is what the crate deadpool writes, value by value.
use deadpool::managed::{self, QueueMode, Timeouts};
use deadpool::{Runtime, unmanaged};
use serde::de::{self, DeserializeSeed, Deserializer, IntoDeserializer, SeqAccess, Visitor};
use serde::ser::{self, Impossible, Serialize, SerializeStruct, Serializer};
use std::fmt::{self, Display};
use std::time::Duration;

/// Why something is not written or read.
#[derive(Debug)]
struct Fault(String);

impl Display for Fault {
    fn fmt(&self, f: &mut fmt::Formatter<'_>) -> fmt::Result {
        f.write_str(&self.0)
    }
}

impl std::error::Error for Fault {}

impl ser::Error for Fault {
    fn custom<T: Display>(text: T) -> Self {
        Fault(text.to_string())
    }
}

impl de::Error for Fault {
    fn custom<T: Display>(text: T) -> Self {
        Fault(text.to_string())
    }
}

fn none<T>() -> Result<T, Fault> {
    Err(Fault("no configuration has such a value".into()))
}

/// Writes numbers one after another: of an option whether it is there, of a kind which one. The names are kept apart.
#[derive(Default)]
struct Writer {
    numbers: Vec<u64>,
    names: Vec<&'static str>,
}

macro_rules! not_written {
    ($($name:ident: $of:ty,)*) => {
        $(fn $name(self, _: $of) -> Result<(), Fault> {
            none()
        })*
    };
}

impl Serializer for &mut Writer {
    type Ok = ();
    type Error = Fault;
    type SerializeSeq = Impossible<(), Fault>;
    type SerializeTuple = Impossible<(), Fault>;
    type SerializeTupleStruct = Impossible<(), Fault>;
    type SerializeTupleVariant = Impossible<(), Fault>;
    type SerializeMap = Impossible<(), Fault>;
    type SerializeStruct = Self;
    type SerializeStructVariant = Impossible<(), Fault>;

    not_written! {
        serialize_bool: bool,
        serialize_i8: i8,
        serialize_i16: i16,
        serialize_i32: i32,
        serialize_i64: i64,
        serialize_u8: u8,
        serialize_u16: u16,
        serialize_f32: f32,
        serialize_f64: f64,
        serialize_char: char,
        serialize_str: &str,
        serialize_bytes: &[u8],
        serialize_unit_struct: &'static str,
    }

    fn serialize_u32(self, number: u32) -> Result<(), Fault> {
        self.serialize_u64(number.into())
    }

    fn serialize_u64(self, number: u64) -> Result<(), Fault> {
        self.numbers.push(number);
        Ok(())
    }

    fn serialize_none(self) -> Result<(), Fault> {
        self.serialize_u64(0)
    }

    fn serialize_some<T: ?Sized + Serialize>(self, value: &T) -> Result<(), Fault> {
        self.serialize_u64(1)?;
        value.serialize(self)
    }

    fn serialize_unit(self) -> Result<(), Fault> {
        none()
    }

    fn serialize_unit_variant(self, of: &'static str, at: u32, name: &'static str) -> Result<(), Fault> {
        self.names.extend([of, name]);
        self.serialize_u32(at)
    }

    fn serialize_newtype_struct<T: ?Sized + Serialize>(self, _: &'static str, _: &T) -> Result<(), Fault> {
        none()
    }

    fn serialize_newtype_variant<T: ?Sized + Serialize>(
        self,
        _: &'static str,
        _: u32,
        _: &'static str,
        _: &T,
    ) -> Result<(), Fault> {
        none()
    }

    fn serialize_seq(self, _: Option<usize>) -> Result<Self::SerializeSeq, Fault> {
        none()
    }

    fn serialize_tuple(self, _: usize) -> Result<Self::SerializeTuple, Fault> {
        none()
    }

    fn serialize_tuple_struct(self, _: &'static str, _: usize) -> Result<Self::SerializeTupleStruct, Fault> {
        none()
    }

    fn serialize_tuple_variant(
        self,
        _: &'static str,
        _: u32,
        _: &'static str,
        _: usize,
    ) -> Result<Self::SerializeTupleVariant, Fault> {
        none()
    }

    fn serialize_map(self, _: Option<usize>) -> Result<Self::SerializeMap, Fault> {
        none()
    }

    fn serialize_struct(self, of: &'static str, _: usize) -> Result<Self, Fault> {
        self.names.push(of);
        Ok(self)
    }

    fn serialize_struct_variant(
        self,
        _: &'static str,
        _: u32,
        _: &'static str,
        _: usize,
    ) -> Result<Self::SerializeStructVariant, Fault> {
        none()
    }

    fn is_human_readable(&self) -> bool {
        false
    }
}

impl SerializeStruct for &mut Writer {
    type Ok = ();
    type Error = Fault;

    fn serialize_field<T: ?Sized + Serialize>(&mut self, name: &'static str, value: &T) -> Result<(), Fault> {
        self.names.push(name);
        value.serialize(&mut **self)
    }

    fn end(self) -> Result<(), Fault> {
        Ok(())
    }
}

/// Reads them again. A struct has as many values as it is declared with.
struct Reader<'a>(&'a [u64]);

impl Reader<'_> {
    fn next(&mut self) -> Result<u64, Fault> {
        let (first, rest) = self.0.split_first().ok_or_else(|| Fault("nothing is left".into()))?;
        self.0 = rest;
        Ok(*first)
    }
}

impl<'de> Deserializer<'de> for &mut Reader<'_> {
    type Error = Fault;

    fn deserialize_any<V: Visitor<'de>>(self, visitor: V) -> Result<V::Value, Fault> {
        visitor.visit_u64(self.next()?)
    }

    fn deserialize_option<V: Visitor<'de>>(self, visitor: V) -> Result<V::Value, Fault> {
        if self.next()? == 0 { visitor.visit_none() } else { visitor.visit_some(self) }
    }

    fn deserialize_struct<V: Visitor<'de>>(
        self,
        _: &'static str,
        fields: &'static [&'static str],
        visitor: V,
    ) -> Result<V::Value, Fault> {
        visitor.visit_seq(Fields { reader: self, left: fields.len() })
    }

    fn deserialize_enum<V: Visitor<'de>>(
        self,
        _: &'static str,
        _: &'static [&'static str],
        visitor: V,
    ) -> Result<V::Value, Fault> {
        let at = u32::try_from(self.next()?).map_err(|_| Fault("no kind".into()))?;
        visitor.visit_enum(IntoDeserializer::<Fault>::into_deserializer(at))
    }

    fn is_human_readable(&self) -> bool {
        false
    }

    serde::forward_to_deserialize_any! {
        bool i8 i16 i32 i64 i128 u8 u16 u32 u64 u128 f32 f64 char str string bytes byte_buf unit unit_struct newtype_struct seq
        tuple tuple_struct map identifier ignored_any
    }
}

struct Fields<'r, 'a> {
    reader: &'r mut Reader<'a>,
    left: usize,
}

impl<'de> SeqAccess<'de> for Fields<'_, '_> {
    type Error = Fault;

    fn next_element_seed<T: DeserializeSeed<'de>>(&mut self, seed: T) -> Result<Option<T::Value>, Fault> {
        let Some(left) = self.left.checked_sub(1) else { return Ok(None) };
        self.left = left;
        seed.deserialize(&mut *self.reader).map(Some)
    }
}

/// The names and the numbers that are written.
fn written<T: Serialize>(value: &T) -> (String, Vec<u64>) {
    let mut writer = Writer::default();
    value.serialize(&mut writer).expect("it is written");
    (writer.names.join(" "), writer.numbers)
}

/// What is read of numbers, if all of them are read.
fn read<T: de::DeserializeOwned>(numbers: &[u64]) -> T {
    let mut reader = Reader(numbers);
    let value = T::deserialize(&mut reader).expect("it is read");
    assert!(reader.0.is_empty(), "{:?} is left", reader.0);
    value
}

#[test]
fn a_managed_configuration_is_written_by_position() {
    let timeouts = Timeouts { wait: Some(Duration::new(5, 6)), create: None, recycle: Some(Duration::new(0, 8)) };
    let config = managed::PoolConfig { max_size: 7, timeouts, queue_mode: QueueMode::Lifo };
    let (names, numbers) = written(&config);
    let times = "timeouts Timeouts wait Duration secs nanos create recycle Duration secs nanos";
    assert_eq!(names, format!("PoolConfig max_size {times} queue_mode QueueMode Lifo"));
    assert_eq!(numbers, [7, 1, 5, 6, 0, 1, 0, 8, 1]);
    let again: managed::PoolConfig = read(&numbers);
    assert_eq!(format!("{again:?}"), format!("{config:?}"));
    assert_eq!(written(&managed::PoolConfig::new(9)).1, [9, 0, 0, 0, 0]);
    assert_eq!(written(&read::<managed::PoolConfig>(&[9, 0, 0, 0, 0])).1, [9, 0, 0, 0, 0]);
}

#[test]
fn an_unmanaged_configuration_is_written_by_position() {
    let timeout = Some(Duration::new(2, 3));
    let config = unmanaged::PoolConfig { max_size: 7, timeout, runtime: Some(Runtime::Tokio1) };
    let (names, numbers) = written(&config);
    assert_eq!(names, "PoolConfig max_size timeout Duration secs nanos");
    assert_eq!(numbers, [7, 1, 2, 3]);
    let again: unmanaged::PoolConfig = read(&numbers);
    assert_eq!((again.max_size, again.timeout, again.runtime), (7, timeout, None));
    assert_eq!(written(&read::<unmanaged::PoolConfig>(&[9, 0])).1, [9, 0]);
}
