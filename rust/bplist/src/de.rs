//! Makes values of serde's types, without a tree between.

use std::fmt::{self, Display, Formatter};

use serde::de::value::{BorrowedStrDeserializer, StringDeserializer};
use serde::de::{self, Deserialize, DeserializeSeed, IntoDeserializer, Unexpected, Visitor};
use serde::forward_to_deserialize_any;

use crate::containers::{Iter, Pairs};
use crate::error::Error;
use crate::plist::Plist;
use crate::text::Text;
use crate::value::Value;

/// How deep a value may be nested: a visitor recurses as deep.
const DEEPEST: usize = 128;

/// Why a file does not give a value of a type.
#[derive(Clone, Debug, PartialEq, Eq)]
#[non_exhaustive]
pub enum DeserializeError {
    /// The file could not be opened.
    Unopened(Error),
    /// The type asks for another value, in words.
    Other(String),
    /// The value is nested deeper than 128 containers.
    TooDeep,
    /// The text has no UTF-8, because a half of a surrogate pair stands alone in it.
    Unpaired,
}

impl Display for DeserializeError {
    fn fmt(&self, f: &mut Formatter<'_>) -> fmt::Result {
        match self {
            DeserializeError::Unopened(error) => Display::fmt(error, f),
            DeserializeError::Other(words) => f.write_str(words),
            DeserializeError::TooDeep => {
                write!(f, "the value is nested deeper than {DEEPEST} containers")
            }
            DeserializeError::Unpaired => {
                f.write_str("a half of a surrogate pair stands alone in a text")
            }
        }
    }
}

impl std::error::Error for DeserializeError {}

impl de::Error for DeserializeError {
    fn custom<T: Display>(words: T) -> DeserializeError {
        DeserializeError::Other(words.to_string())
    }
}

impl From<Error> for DeserializeError {
    fn from(error: Error) -> DeserializeError {
        DeserializeError::Unopened(error)
    }
}

/// Lints a file, and makes a value of its value. Texts that the file stores as ASCII, and data, may be borrowed from
/// it.
///
/// | the file has | a type gets |
/// |---|---|
/// | null | `()` or `None` |
/// | an integer | the narrowest of `i64`, `u64` and `i128` |
/// | a date | the seconds since 2001-01-01 00:00:00 UTC, as `f64` |
/// | data | bytes, as `serde_bytes` takes them |
/// | a UID | `u32` |
/// | a text, or a dictionary of one pair | an enum: the variant, or the variant and what it holds |
///
/// ```
/// #[derive(serde::Deserialize)]
/// struct Job<'f> {
///     id: u32,
///     name: &'f str,
/// }
///
/// #[derive(serde::Deserialize)]
/// struct Jobs<'f> {
///     #[serde(borrow)]
///     jobs: Vec<Job<'f>>,
///     open: bool,
/// }
///
/// # fn main() -> Result<(), Box<dyn std::error::Error>> {
/// let file = std::fs::read("tests/data/jobs.plist")?;
/// let jobs: Jobs = bplist::from_slice(&file)?;
/// assert_eq!((jobs.jobs[1].id, jobs.jobs[1].name, jobs.open), (42, "paint the fence", true));
/// # Ok(())
/// # }
/// ```
pub fn from_slice<'f, T: Deserialize<'f>>(file: &'f [u8]) -> Result<T, DeserializeError> {
    Plist::open(file)?.root().deserialize()
}

impl<'f> Value<'_, 'f> {
    /// Makes a value of a type of this value, as [`from_slice`] does. An object may be a member of many others, so a
    /// type that holds any value may become very large; [`Plist::nodes`] tells first.
    pub fn deserialize<T: Deserialize<'f>>(self) -> Result<T, DeserializeError> {
        T::deserialize(Nested {
            value: self,
            left: DEEPEST,
        })
    }
}

/// A value, and how much deeper its members may be nested.
struct Nested<'p, 'f> {
    value: Value<'p, 'f>,
    left: usize,
}

/// Returns a text as its visitor takes it.
fn visit_text<'f, V: Visitor<'f>>(
    text: Text<'f>,
    visitor: V,
) -> Result<V::Value, DeserializeError> {
    match text.as_ascii() {
        Some(borrowed) => visitor.visit_borrowed_str(borrowed),
        None => visitor.visit_string(owned(text)?),
    }
}

fn owned(text: Text<'_>) -> Result<String, DeserializeError> {
    char::decode_utf16(text.units())
        .collect::<Result<String, _>>()
        .map_err(|_| DeserializeError::Unpaired)
}

fn visit_int<'f, V: Visitor<'f>>(number: i128, visitor: V) -> Result<V::Value, DeserializeError> {
    if let Ok(number) = i64::try_from(number) {
        visitor.visit_i64(number)
    } else if let Ok(number) = u64::try_from(number) {
        visitor.visit_u64(number)
    } else {
        visitor.visit_i128(number)
    }
}

impl<'p, 'f> Nested<'p, 'f> {
    /// Returns how deep the members of a container may be nested.
    fn deeper(&self) -> Result<usize, DeserializeError> {
        self.left.checked_sub(1).ok_or(DeserializeError::TooDeep)
    }

    fn visit_members<V: Visitor<'f>>(
        &self,
        members: Iter<'p, 'f>,
        visitor: V,
    ) -> Result<V::Value, DeserializeError> {
        let left = self.deeper()?;
        let count = members.len();
        let mut access = Members { members, left };
        let made = visitor.visit_seq(&mut access)?;
        match access.members.len() {
            0 => Ok(made),
            _ => Err(de::Error::invalid_length(count, &"fewer members")),
        }
    }
}

impl<'f> de::Deserializer<'f> for Nested<'_, 'f> {
    type Error = DeserializeError;

    fn deserialize_any<V: Visitor<'f>>(self, visitor: V) -> Result<V::Value, DeserializeError> {
        match self.value {
            Value::Null => visitor.visit_unit(),
            Value::Bool(value) => visitor.visit_bool(value),
            Value::Int(number) => visit_int(number, visitor),
            Value::Real(number) => visitor.visit_f64(number),
            Value::Date(date) => visitor.visit_f64(date.seconds()),
            Value::Data(octets) => visitor.visit_borrowed_bytes(octets),
            Value::Text(text) => visit_text(text, visitor),
            Value::Uid(number) => visitor.visit_u32(number),
            Value::Array(array) => self.visit_members(array.iter(), visitor),
            Value::Set(set) => self.visit_members(set.iter(), visitor),
            Value::Dict(dict) => visitor.visit_map(Entries {
                left: self.deeper()?,
                pairs: dict.iter(),
                value: None,
            }),
        }
    }

    fn deserialize_option<V: Visitor<'f>>(self, visitor: V) -> Result<V::Value, DeserializeError> {
        match self.value {
            Value::Null => visitor.visit_none(),
            _ => visitor.visit_some(self),
        }
    }

    fn deserialize_newtype_struct<V: Visitor<'f>>(
        self,
        _name: &'static str,
        visitor: V,
    ) -> Result<V::Value, DeserializeError> {
        visitor.visit_newtype_struct(self)
    }

    fn deserialize_enum<V: Visitor<'f>>(
        self,
        _name: &'static str,
        _variants: &'static [&'static str],
        visitor: V,
    ) -> Result<V::Value, DeserializeError> {
        match self.value {
            Value::Text(text) => visitor.visit_enum(Variant {
                name: text,
                of: None,
            }),
            Value::Dict(dict) if dict.len() == 1 => match dict.iter().next() {
                Some((name, value)) => {
                    let left = self.deeper()?;
                    visitor.visit_enum(Variant {
                        name,
                        of: Some(Nested { value, left }),
                    })
                }
                None => unreachable!("a dictionary of one pair"),
            },
            _ => Err(de::Error::invalid_type(
                Unexpected::Other("another value"),
                &"a text, or a dictionary of one pair",
            )),
        }
    }

    /// Reads nothing of what is ignored.
    fn deserialize_ignored_any<V: Visitor<'f>>(
        self,
        visitor: V,
    ) -> Result<V::Value, DeserializeError> {
        visitor.visit_unit()
    }

    forward_to_deserialize_any! {
        <V: Visitor<'f>>
        bool i8 i16 i32 i64 i128 u8 u16 u32 u64 u128 f32 f64 char str string bytes byte_buf unit unit_struct seq tuple
        tuple_struct map struct identifier
    }
}

/// The members of an array or a set.
struct Members<'p, 'f> {
    members: Iter<'p, 'f>,
    left: usize,
}

impl<'f> de::SeqAccess<'f> for Members<'_, 'f> {
    type Error = DeserializeError;

    fn next_element_seed<T: DeserializeSeed<'f>>(
        &mut self,
        seed: T,
    ) -> Result<Option<T::Value>, DeserializeError> {
        let left = self.left;
        self.members
            .next()
            .map(|value| seed.deserialize(Nested { value, left }))
            .transpose()
    }
}

/// The pairs of a dictionary.
struct Entries<'p, 'f> {
    pairs: Pairs<'p, 'f>,
    left: usize,
    /// The value of the key that was given last.
    value: Option<Value<'p, 'f>>,
}

impl<'f> de::MapAccess<'f> for Entries<'_, 'f> {
    type Error = DeserializeError;

    fn next_key_seed<K: DeserializeSeed<'f>>(
        &mut self,
        seed: K,
    ) -> Result<Option<K::Value>, DeserializeError> {
        match self.pairs.next() {
            Some((key, value)) => {
                self.value = Some(value);
                deserialize_name(key, seed).map(Some)
            }
            None => Ok(None),
        }
    }

    fn next_value_seed<V: DeserializeSeed<'f>>(
        &mut self,
        seed: V,
    ) -> Result<V::Value, DeserializeError> {
        match self.value.take() {
            Some(value) => seed.deserialize(Nested {
                value,
                left: self.left,
            }),
            None => Err(de::Error::custom("a value was asked for before its key")),
        }
    }
}

/// Makes a value of a key, or of the name of a variant.
fn deserialize_name<'f, K: DeserializeSeed<'f>>(
    name: Text<'f>,
    seed: K,
) -> Result<K::Value, DeserializeError> {
    match name.as_ascii() {
        Some(borrowed) => seed.deserialize(BorrowedStrDeserializer::new(borrowed)),
        None => {
            let made: StringDeserializer<DeserializeError> = owned(name)?.into_deserializer();
            seed.deserialize(made)
        }
    }
}

/// The variant of an enum, and what it holds.
struct Variant<'p, 'f> {
    name: Text<'f>,
    of: Option<Nested<'p, 'f>>,
}

impl<'p, 'f> de::EnumAccess<'f> for Variant<'p, 'f> {
    type Error = DeserializeError;
    type Variant = Held<'p, 'f>;

    fn variant_seed<V: DeserializeSeed<'f>>(
        self,
        seed: V,
    ) -> Result<(V::Value, Held<'p, 'f>), DeserializeError> {
        Ok((deserialize_name(self.name, seed)?, Held(self.of)))
    }
}

/// What a variant of an enum holds.
struct Held<'p, 'f>(Option<Nested<'p, 'f>>);

impl<'p, 'f> Held<'p, 'f> {
    fn some(self) -> Result<Nested<'p, 'f>, DeserializeError> {
        self.0.ok_or_else(|| {
            de::Error::custom("the variant holds nothing, and the type asks for a value")
        })
    }
}

impl<'f> de::VariantAccess<'f> for Held<'_, 'f> {
    type Error = DeserializeError;

    fn unit_variant(self) -> Result<(), DeserializeError> {
        match self.0 {
            None => Ok(()),
            Some(nested) => <()>::deserialize(nested),
        }
    }

    fn newtype_variant_seed<T: DeserializeSeed<'f>>(
        self,
        seed: T,
    ) -> Result<T::Value, DeserializeError> {
        seed.deserialize(self.some()?)
    }

    fn tuple_variant<V: Visitor<'f>>(
        self,
        _length: usize,
        visitor: V,
    ) -> Result<V::Value, DeserializeError> {
        de::Deserializer::deserialize_any(self.some()?, visitor)
    }

    fn struct_variant<V: Visitor<'f>>(
        self,
        _fields: &'static [&'static str],
        visitor: V,
    ) -> Result<V::Value, DeserializeError> {
        de::Deserializer::deserialize_any(self.some()?, visitor)
    }
}
