//! Values, which borrow from the file and from its `Plist`.

use std::time::{Duration, SystemTime};

use crate::containers::{Array, Dict, Members, Set};
use crate::ffi::{kind, Session, Status};
use crate::text::Text;

/// The number of seconds from 1970-01-01 00:00:00 UTC to 2001-01-01 00:00:00 UTC.
const EPOCH: u64 = 978_307_200;

/// A value of a property list. Data and texts borrow from the bytes of the file, for `'f`. Containers also borrow from
/// the `Plist`, for `'p`.
#[derive(Clone, Copy, Debug)]
#[non_exhaustive]
pub enum Value<'p, 'f> {
    /// Null, which means no value.
    Null,
    /// True or false.
    Bool(bool),
    /// An integer of at most 128 bits.
    Int(i128),
    /// A floating-point number.
    Real(f64),
    /// A point in time.
    Date(Date),
    /// Bytes, as they are in the file.
    Data(&'f [u8]),
    /// A text.
    Text(Text<'f>),
    /// A number with which NSKeyedArchiver refers to an object of its archive.
    Uid(u32),
    /// An array.
    Array(Array<'p, 'f>),
    /// A set. Its members may be equal.
    Set(Set<'p, 'f>),
    /// A dictionary. Its keys are texts, and differ.
    Dict(Dict<'p, 'f>),
}

/// Unwraps the answer about an object of an open file. There is always an answer, because the file does not change.
pub(crate) fn known<T>(answer: Result<T, Status>) -> T {
    answer.unwrap_or_else(|status| unreachable!("{}", status.sentence()))
}

impl<'p, 'f> Value<'p, 'f> {
    /// Returns the value of an object, or `None` if the file has no checked object with that number.
    pub(crate) fn of(session: &'p Session<'f>, object: u32) -> Option<Value<'p, 'f>> {
        let body = match session.face(object) {
            Err(Status::NO_OBJECT) => return None,
            answer => known(answer),
        };
        let place = body.place as usize;
        let octets = &session.file()[place..place + body.length as usize];
        let members = Members {
            session,
            object,
            count: body.count,
        };
        Some(match body.kind {
            kind::NULL => Value::Null,
            kind::FALSE => Value::Bool(false),
            kind::TRUE => Value::Bool(true),
            kind::INT => Value::Int(known(session.int(object))),
            kind::REAL => Value::Real(real(octets)),
            kind::DATE => Value::Date(Date(real(octets))),
            kind::DATA => Value::Data(octets),
            kind::ASCII => Value::Text(Text::ascii(octets)),
            kind::WIDE => Value::Text(Text::wide(octets)),
            kind::UID => Value::Uid(known(session.uid(object))),
            kind::ARRAY => Value::Array(Array(members)),
            kind::SET => Value::Set(Set(members)),
            kind::DICT => Value::Dict(Dict(members)),
            other => unreachable!("kind {other}"),
        })
    }

    /// Returns true or false if the value is one of them.
    pub fn as_bool(&self) -> Option<bool> {
        match self {
            Value::Bool(value) => Some(*value),
            _ => None,
        }
    }

    /// Returns the integer if the value is one.
    pub fn as_int(&self) -> Option<i128> {
        match self {
            Value::Int(number) => Some(*number),
            _ => None,
        }
    }

    /// Returns the floating-point number if the value is one.
    pub fn as_real(&self) -> Option<f64> {
        match self {
            Value::Real(number) => Some(*number),
            _ => None,
        }
    }

    /// Returns the point in time if the value is one.
    pub fn as_date(&self) -> Option<Date> {
        match self {
            Value::Date(date) => Some(*date),
            _ => None,
        }
    }

    /// Returns the bytes if the value is data.
    pub fn as_data(&self) -> Option<&'f [u8]> {
        match self {
            Value::Data(octets) => Some(octets),
            _ => None,
        }
    }

    /// Returns the text if the value is one.
    pub fn as_text(&self) -> Option<Text<'f>> {
        match self {
            Value::Text(text) => Some(*text),
            _ => None,
        }
    }

    /// Returns the number of the UID if the value is one.
    pub fn as_uid(&self) -> Option<u32> {
        match self {
            Value::Uid(number) => Some(*number),
            _ => None,
        }
    }

    /// Returns the array if the value is one.
    pub fn as_array(&self) -> Option<Array<'p, 'f>> {
        match self {
            Value::Array(array) => Some(*array),
            _ => None,
        }
    }

    /// Returns the set if the value is one.
    pub fn as_set(&self) -> Option<Set<'p, 'f>> {
        match self {
            Value::Set(set) => Some(*set),
            _ => None,
        }
    }

    /// Returns the dictionary if the value is one.
    pub fn as_dict(&self) -> Option<Dict<'p, 'f>> {
        match self {
            Value::Dict(dict) => Some(*dict),
            _ => None,
        }
    }
}

/// Decodes a big-endian IEEE 754 number of 4 or 8 bytes.
fn real(octets: &[u8]) -> f64 {
    if let Ok(wide) = <[u8; 8]>::try_from(octets) {
        return f64::from_be_bytes(wide);
    }
    match <[u8; 4]>::try_from(octets) {
        Ok(narrow) => f32::from_be_bytes(narrow).into(),
        Err(_) => unreachable!("a number of {} bytes", octets.len()),
    }
}

/// A point in time, in seconds since 2001-01-01 00:00:00 UTC. It may be any number, even one that is not finite.
#[derive(Clone, Copy, Debug, PartialEq, PartialOrd)]
pub struct Date(f64);

impl Date {
    /// Returns the seconds since 2001-01-01 00:00:00 UTC.
    pub fn seconds(self) -> f64 {
        self.0
    }

    /// Converts to a time of the system, if that can hold it.
    pub fn to_system_time(self) -> Option<SystemTime> {
        let epoch = SystemTime::UNIX_EPOCH.checked_add(Duration::from_secs(EPOCH))?;
        // `Duration::from_secs_f64` only takes finite numbers below 2^64.
        if self.0.is_nan() || self.0.abs() >= u64::MAX as f64 {
            return None;
        }
        let since = Duration::from_secs_f64(self.0.abs());
        if self.0 < 0.0 {
            epoch.checked_sub(since)
        } else {
            epoch.checked_add(since)
        }
    }
}
