//! Values of serde's types from property lists.
#![cfg(feature = "serde")]

mod common;

use bplist::{from_slice, DeserializeError, Error, OwnedPlist, Plist};
use common::file;
use serde::de::IgnoredAny;
use serde::Deserialize;
use std::collections::BTreeMap;

#[derive(Debug, Deserialize, PartialEq)]
struct Job<'f> {
    id: u32,
    name: &'f str,
}

#[derive(Debug, Deserialize, PartialEq)]
struct Jobs<'f> {
    #[serde(borrow)]
    jobs: Vec<Job<'f>>,
    open: bool,
    closed: Option<bool>,
}

#[derive(Debug, Deserialize, PartialEq)]
enum Shape {
    Empty,
    Circle(f64),
    Line(i8, i8),
    Box { width: u8 },
}

fn jobs_file() -> Vec<u8> {
    std::fs::read("tests/data/jobs.plist").unwrap()
}

/// A dictionary of these keys and values, which are bytes of ASCII texts and objects.
fn pairs(pairs: &[(&str, &[u8])]) -> Vec<u8> {
    let count = pairs.len() as u8;
    let mut top = vec![0xd0 + count];
    top.extend(1..=2 * count);
    let keys = pairs.iter().map(|(key, _)| {
        let mut text = vec![0x50 + key.len() as u8];
        text.extend(key.as_bytes());
        text
    });
    let values = pairs.iter().map(|(_, value)| value.to_vec());
    let objects: Vec<Vec<u8>> = std::iter::once(top).chain(keys).chain(values).collect();
    let objects: Vec<&[u8]> = objects.iter().map(Vec::as_slice).collect();
    file(&objects)
}

#[test]
fn structs() {
    let octets = jobs_file();
    let jobs: Jobs = from_slice(&octets).unwrap();
    let (one, other) = (
        Job {
            id: 7,
            name: "mow the lawn",
        },
        Job {
            id: 42,
            name: "paint the fence",
        },
    );
    let wanted = Jobs {
        jobs: vec![one, other],
        open: true,
        closed: None,
    };
    assert_eq!(jobs, wanted);
    // The texts are those of the file.
    let within = octets.as_ptr_range();
    assert!(within.contains(&jobs.jobs[0].name.as_ptr()));
    // A part of the value, of a property list that owns its bytes.
    let owned = OwnedPlist::open(octets.clone()).unwrap();
    let job: Job = owned.plist().at("/jobs/1").unwrap().deserialize().unwrap();
    assert_eq!(job.id, 42);
}

#[test]
fn leaves() {
    let octets = pairs(&[
        ("null", b"\x00"),
        (
            "max",
            b"\x14\x00\x00\x00\x00\x00\x00\x00\x00\xff\xff\xff\xff\xff\xff\xff\xff",
        ),
        ("real", b"\x22\x3f\xc0\x00\x00"),
        ("date", b"\x33\xc0\x00\x00\x00\x00\x00\x00\x00"),
        ("wide", b"\x63\x00\xe9\xd8\x3d\xde\x00"),
        ("uid", b"\x81\x01\x00"),
        ("negative", b"\x13\xff\xff\xff\xff\xff\xff\xff\xfe"),
    ]);
    #[derive(Debug, Deserialize, PartialEq)]
    struct Leaves {
        null: (),
        max: u64,
        real: f32,
        date: f64,
        wide: String,
        uid: u32,
        negative: i8,
    }
    let leaves: Leaves = from_slice(&octets).unwrap();
    let wanted = Leaves {
        null: (),
        max: u64::MAX,
        real: 1.5,
        date: -2.0,
        wide: "\u{e9}\u{1f600}".into(),
        uid: 256,
        negative: -2,
    };
    assert_eq!(leaves, wanted);
    let data = file(&[b"\x43\x01\x02\x03"]);
    assert_eq!(from_slice::<&[u8]>(&data).unwrap(), b"\x01\x02\x03");
    let set = file(&[b"\xc2\x01\x02", b"\x10\x01", b"\x10\x02"]);
    assert_eq!(from_slice::<Vec<u8>>(&set).unwrap(), [1, 2]);
    assert_eq!(from_slice::<(u8, u8)>(&set).unwrap(), (1, 2));
    let long = file(&[b"\x14\x7f\x00\x00\x00\x00\x00\x00\x00\x00\x00\x00\x00\x00\x00\x00\x00"]);
    assert_eq!(from_slice::<i128>(&long).unwrap(), 0x7f << 120);
}

#[test]
fn enums() {
    let shape = |value: &[u8], name: &str| from_slice::<Shape>(&pairs(&[(name, value)]));
    assert_eq!(
        from_slice::<Shape>(&file(&[b"\x55Empty"])).unwrap(),
        Shape::Empty
    );
    assert_eq!(
        shape(b"\x22\x3f\xc0\x00\x00", "Circle").unwrap(),
        Shape::Circle(1.5)
    );
    let line = file(&[
        b"\xd1\x01\x02",
        b"\x54Line",
        b"\xa2\x03\x04",
        b"\x10\x01",
        b"\x10\x02",
    ]);
    assert_eq!(from_slice::<Shape>(&line).unwrap(), Shape::Line(1, 2));
    let long = file(&[
        b"\xd1\x01\x02",
        b"\x53Box",
        b"\xd1\x03\x04",
        b"\x55width",
        b"\x10\x09",
    ]);
    assert_eq!(from_slice::<Shape>(&long).unwrap(), Shape::Box { width: 9 });
    assert!(matches!(
        shape(b"\x10\x01", "Oval"),
        Err(DeserializeError::Other(_))
    ));
    assert!(from_slice::<Shape>(&file(&[b"\x09"])).is_err());
    assert!(from_slice::<Shape>(&file(&[b"\x56Circle"])).is_err());
}

#[test]
fn errors() {
    let refused = from_slice::<bool>(b"bplist00").unwrap_err();
    assert!(matches!(
        refused,
        DeserializeError::Unopened(Error::Refused(_))
    ));
    assert!(refused
        .to_string()
        .starts_with("rule 2 (TooShort) is broken"));
    let half = file(&[b"\x61\xd8\x00"]);
    assert_eq!(from_slice::<String>(&half), Err(DeserializeError::Unpaired));
    let many = file(&[b"\xa2\x01\x01", b"\x09"]);
    assert!(from_slice::<(bool,)>(&many).is_err());
    let octets = jobs_file();
    let wrong = from_slice::<BTreeMap<String, u8>>(&octets).unwrap_err();
    assert!(wrong.to_string().contains("invalid type"), "{wrong}");
}

/// Makes a file of these objects, with references and offsets of 4 bytes.
fn wide_file(objects: &[Vec<u8>]) -> Vec<u8> {
    let mut file = b"bplist00".to_vec();
    let mut offsets = Vec::new();
    for object in objects {
        offsets.extend((file.len() as u32).to_be_bytes());
        file.extend(object);
    }
    let table = file.len() as u64;
    file.extend(offsets);
    file.extend([0, 0, 0, 0, 0, 0, 4, 4]);
    for number in [objects.len() as u64, 0, table] {
        file.extend(number.to_be_bytes());
    }
    file
}

#[derive(Deserialize)]
struct Nest(Vec<Nest>);

/// A hostile file exhausts no stack: a visitor recurses as deep as the value.
#[test]
fn depth() {
    let chain = |count: u32| {
        let mut objects: Vec<Vec<u8>> = (1..=count)
            .map(|n| [&[0xa1][..], &n.to_be_bytes()].concat())
            .collect();
        objects.push(vec![0xa0]);
        wide_file(&objects)
    };
    assert!(from_slice::<Nest>(&chain(127)).is_ok());
    for count in [128, 300_000] {
        assert!(matches!(
            from_slice::<Nest>(&chain(count)),
            Err(DeserializeError::TooDeep)
        ));
    }
    let deep = chain(300_000);
    assert!(from_slice::<IgnoredAny>(&deep).is_ok());
    let nest: Nest = Plist::open(&chain(2))
        .unwrap()
        .root()
        .deserialize()
        .unwrap();
    assert_eq!(nest.0.len(), 1);
}
