//! Compares the values that the crates bplist and plist read.
#![forbid(unsafe_code)]

use bplist::Value;
use std::time::{Duration, SystemTime};

/// The crate plist rounds the seconds of a date differently.
const ROUNDING: Duration = Duration::from_micros(1);

/// Returns true if two values are the same. Recurses as deep as the value.
pub fn same(ours: Value, theirs: &plist::Value) -> bool {
    match (ours, theirs) {
        (Value::Bool(value), plist::Value::Boolean(other)) => value == *other,
        (Value::Int(value), plist::Value::Integer(other)) => {
            let unsigned = other.as_unsigned().map(i128::from);
            unsigned.or(other.as_signed().map(i128::from)) == Some(value)
        }
        (Value::Real(value), plist::Value::Real(other)) => value.to_bits() == other.to_bits(),
        (Value::Date(value), plist::Value::Date(other)) => {
            let other: SystemTime = (*other).into();
            value
                .to_system_time()
                .map_or(false, |time| is_near(time, other))
        }
        (Value::Data(value), plist::Value::Data(other)) => value == other.as_slice(),
        (Value::Text(value), plist::Value::String(other)) => value == other.as_str(),
        (Value::Uid(value), plist::Value::Uid(other)) => u64::from(value) == other.get(),
        (Value::Array(value), plist::Value::Array(other)) => {
            value.len() == other.len() && value.iter().zip(other).all(|(a, b)| same(a, b))
        }
        (Value::Dict(value), plist::Value::Dictionary(other)) => {
            value.len() == other.len()
                && value.iter().all(|(key, a)| {
                    other
                        .get(&key.to_string_lossy())
                        .map_or(false, |b| same(a, b))
                })
        }
        _ => false,
    }
}

fn is_near(a: SystemTime, b: SystemTime) -> bool {
    let between = a.duration_since(b).or_else(|_| b.duration_since(a));
    between.map_or(false, |between| between <= ROUNDING)
}
