//! read_plist FILE [parse]: reads FILE with the crate plist and prints its value as plist_value.py spells it, or
//! nothing if the word `parse` is given. The exit status is 1 if the crate refuses the file.
use plist::Value;
use std::{io::Cursor, process::exit, time::SystemTime};

const NODES: u32 = 4000;
const DEPTH: u32 = 200;
const TO_2001: i64 = 978_307_200;

fn hex(octets: &[u8]) -> String {
    octets.iter().map(|octet| format!("{octet:02x}")).collect()
}

fn seconds(date: plist::Date) -> i64 {
    let time: SystemTime = date.into();
    match time.duration_since(SystemTime::UNIX_EPOCH) {
        Ok(after) => after.as_secs() as i64 - TO_2001,
        Err(before) => -(before.duration().as_secs_f64().ceil() as i64) - TO_2001,
    }
}

fn integer(value: plist::Integer) -> String {
    match (value.as_signed(), value.as_unsigned()) {
        (Some(signed), _) => signed.to_string(),
        (_, Some(unsigned)) => unsigned.to_string(),
        _ => "none".into(),
    }
}

/// The spelling, or none if it has too many nodes.
fn spell(value: &Value, depth: u32, nodes: &mut u32) -> Option<String> {
    *nodes += 1;
    if *nodes > NODES || depth > DEPTH {
        return None;
    }
    Some(match value {
        Value::Boolean(yes) => yes.to_string(),
        Value::Integer(number) => format!("int {}", integer(*number)),
        Value::Real(number) if number.is_nan() => "real nan".into(),
        Value::Real(number) => format!("real {:016x}", number.to_bits()),
        Value::Date(date) => format!("date {}", seconds(*date)),
        Value::Data(octets) => format!("data {}", hex(octets)),
        Value::String(text) => format!("text {}", hex(text.as_bytes())),
        Value::Uid(uid) => format!("uid {}", uid.get()),
        Value::Array(members) => {
            let spelled: Option<Vec<_>> = members.iter().map(|member| spell(member, depth + 1, nodes)).collect();
            format!("array({})", spelled?.join(","))
        }
        Value::Dictionary(pairs) => {
            let mut spelled = Vec::new();
            for (key, member) in pairs {
                spelled.push(format!("{}={}", hex(key.as_bytes()), spell(member, depth + 1, nodes)?));
            }
            spelled.sort();
            format!("dict({})", spelled.join(","))
        }
        _ => "other".into(),
    })
}

fn main() {
    let path = std::env::args().nth(1).unwrap_or_default();
    let octets = std::fs::read(path).unwrap_or_else(|_| exit(3));
    let value = Value::from_reader(Cursor::new(octets)).unwrap_or_else(|error| {
        eprintln!("{error:?}");
        exit(1)
    });
    if std::env::args().count() == 2 {
        println!("{}", spell(&value, 0, &mut 0).unwrap_or_else(|| "large".into()));
    }
}
