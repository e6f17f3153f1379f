//! Values of every kind, containers and paths.

mod common;

use bplist::{Options, OwnedPlist, PathError, Plist, Text, Value};
use common::file;
use std::collections::HashMap;
use std::time::{Duration, SystemTime};

/// An array of 200 members. They are objects 1 and 2 in turn, which are true and false.
fn long_array() -> Vec<u8> {
    let mut array = vec![0xaf, 0x10, 200];
    array.extend((0..200).map(|i| 1 + i % 2));
    file(&[&array, b"\x09", b"\x08"])
}

#[test]
fn leaves() {
    let wide: &[u8] = b"\x64\x00\xe9\xd8\x3d\xde\x00\xd8\x3d";
    let array: &[u8] = b"\xad\x01\x02\x03\x04\x05\x06\x07\x08\x09\x0a\x0b\x0c\x0d";
    let file = file(&[
        array,
        b"\x00",
        b"\x09",
        b"\x10\xff",
        b"\x13\xff\xff\xff\xff\xff\xff\xff\xfe",
        b"\x14\x00\x00\x00\x00\x00\x00\x00\x00\xff\xff\xff\xff\xff\xff\xff\xff",
        b"\x22\x3f\xc0\x00\x00",
        b"\x23\xbf\xf8\x00\x00\x00\x00\x00\x00",
        b"\x33\xc0\x00\x00\x00\x00\x00\x00\x00",
        b"\x42\x00\xff",
        b"\x53abc",
        wide,
        b"\x81\x01\x00",
        b"\xc1\x01",
    ]);
    let plist = Plist::open(&file).unwrap();
    let values: Vec<Value> = plist.root().as_array().unwrap().iter().collect();
    assert!(matches!(values[0], Value::Null));
    assert_eq!(values[1].as_bool(), Some(true));
    assert_eq!(values[2].as_int(), Some(255));
    assert_eq!(values[3].as_int(), Some(-2));
    assert_eq!(values[4].as_int(), Some(u64::MAX.into()));
    assert_eq!(
        (values[5].as_real(), values[6].as_real()),
        (Some(1.5), Some(-1.5))
    );
    let date = values[7].as_date().unwrap();
    assert_eq!(date.seconds(), -2.0);
    assert_eq!(
        date.to_system_time(),
        Some(SystemTime::UNIX_EPOCH + Duration::from_secs(978_307_198))
    );
    assert_eq!(values[8].as_data(), Some(&b"\x00\xff"[..]));
    assert_eq!(values[9].as_text().unwrap().as_ascii(), Some("abc"));
    let text = values[10].as_text().unwrap();
    assert_eq!((text.as_ascii(), text.len()), (None, 4));
    assert_eq!(text.to_string_lossy(), "\u{e9}\u{1f600}\u{fffd}");
    assert_eq!(format!("{text:?}"), "\"\u{e9}\u{1f600}\\u{d83d}\"");
    assert_eq!(
        text.units().collect::<Vec<u16>>(),
        [0xe9, 0xd83d, 0xde00, 0xd83d]
    );
    assert_eq!(
        (values[11].as_uid(), values[11].as_int()),
        (Some(256), None)
    );
    let set = values[12].as_set().unwrap();
    assert!(matches!(set.iter().next(), Some(Value::Null)));
}

/// More members than one block holds.
#[test]
fn long_arrays() {
    let file = long_array();
    let plist = Plist::open(&file).unwrap();
    let array = plist.root().as_array().unwrap();
    let mut members = array.iter();
    for i in 0..200 {
        assert_eq!(members.len(), 200 - i);
        assert!(matches!(members.next(), Some(Value::Bool(value)) if value == (i % 2 == 0)));
    }
    assert!(members.next().is_none() && members.next().is_none());
    assert_eq!((array.len(), array.object(), members.len()), (200, 0, 0));
    assert!(matches!(array.get(199), Some(Value::Bool(false))));
    assert!(array.get(200).is_none() && array.get(usize::MAX).is_none());
    assert_eq!(plist.nodes(), Ok(201));
}

#[test]
fn dictionaries() {
    let octets = std::fs::read("tests/data/jobs.plist").unwrap();
    for sorted in [false, true] {
        let plist = Options::new().sorted(sorted).open(&octets).unwrap();
        let top = plist.root().as_dict().unwrap();
        assert_eq!((top.len(), top.is_empty()), (2, false));
        let mut pairs = top.iter();
        assert_eq!(pairs.len(), 2);
        let (key, jobs) = pairs.next().unwrap();
        assert!(key == "jobs" && pairs.len() == 1);
        assert_eq!(jobs.as_array().unwrap().len(), 2);
        assert_eq!(
            top.keys()
                .map(|key| key.to_string())
                .collect::<Vec<String>>(),
            ["jobs", "open"]
        );
        assert_eq!(top.values().len(), 2);
        assert!(matches!(top.get("open"), Some(Value::Bool(true))));
        assert!(top.get("shut").is_none() && top.get("").is_none());
    }
}

#[test]
fn paths() {
    let octets = std::fs::read("tests/data/jobs.plist").unwrap();
    let plist = Plist::open(&octets).unwrap();
    assert!(plist.at("/jobs/1/name").unwrap().as_text().unwrap() == "paint the fence");
    assert!(plist.at("").unwrap().as_dict().is_some());
    let error = |path| plist.at(path).unwrap_err();
    assert_eq!(error("/works"), PathError::NoKey { step: 0 });
    assert_eq!(error("/jobs/2"), PathError::NoIndex { step: 1 });
    assert_eq!(error("/open/0"), PathError::NotSteppable { step: 1 });
    assert_eq!(error("/a~2"), PathError::Text { place: 2 });
    assert_eq!(
        error("/jobs/2").to_string(),
        "step 1 is not an index of the array"
    );
}

#[test]
fn objects() {
    let file = file(&[b"\xa1\x01", b"\x09", b"\x08"]);
    let plist = Plist::open(&file).unwrap();
    assert!(matches!(plist.object(1), Some(Value::Bool(true))));
    // Object 2 is not reachable from the top, and object 3 does not exist.
    assert!(plist.object(2).is_none() && plist.object(3).is_none());
    let summary = plist.summary();
    assert_eq!((summary.objects, summary.top, summary.height), (3, 0, 2));
    assert_eq!((summary.reached, summary.references), (2, 1));
}

#[test]
fn certificates() {
    let octets = std::fs::read("tests/data/jobs.plist").unwrap();
    let plain = Plist::open(&octets).unwrap().certificate().unwrap();
    let sorted = Options::new()
        .sorted(true)
        .open(&octets)
        .unwrap()
        .certificate()
        .unwrap();
    assert!(plain.starts_with(b"bplcert1") && sorted.starts_with(b"bplcert2"));
    for certificate in [&plain, &sorted] {
        let plist = Options::new()
            .certificate(certificate)
            .open(&octets)
            .unwrap();
        assert_eq!(plist.at("/jobs/0/id").unwrap().as_int(), Some(7));
        assert_eq!(plist.certificate().unwrap(), *certificate);
    }
}

/// One thread opens a file and another reads it.
#[test]
fn threads() {
    let octets = long_array();
    let plist = Plist::open(&octets).unwrap();
    std::thread::scope(|scope| {
        scope.spawn(move || assert_eq!(plist.root().as_array().unwrap().iter().count(), 200));
    });
}

/// Data and a text of a file whose property list is gone.
fn lent(file: &[u8]) -> (&[u8], Text<'_>) {
    let plist = Plist::open(file).unwrap();
    let member = |index| plist.root().as_array().unwrap().get(index).unwrap();
    (member(0).as_data().unwrap(), member(1).as_text().unwrap())
}

#[test]
fn loans() {
    let file = file(&[b"\xa2\x01\x02", b"\x41x", b"\x53abc"]);
    let (data, text) = lent(&file);
    assert_eq!((data, text.as_ascii()), (&b"x"[..], Some("abc")));
}

#[test]
fn owned() {
    let octets = file(&[b"\xa1\x01", b"\x53abc"]);
    let plist = OwnedPlist::open(octets.clone()).unwrap();
    let held = [plist];
    assert_eq!(held[0].plist().at("/0").unwrap().as_text().unwrap(), "abc");
    let sorted = Options::new()
        .sorted(true)
        .open_owned(octets.clone())
        .unwrap();
    let [plist] = held;
    assert_eq!(format!("{plist:?}"), format!("{sorted:?}"));
    assert_eq!(plist.into_bytes(), octets);
    assert!(OwnedPlist::open(octets[1..].to_vec()).is_err());
}

#[test]
fn places() {
    let octets = file(&[b"\xd1\x01\x02", b"\x51a", b"\xa2\x01\x03", b"\x10\x07"]);
    let plist = Plist::open(&octets).unwrap();
    for (path, object, place) in [("", 0, 8), ("/a", 2, 13), ("/a/0", 1, 11), ("/a/1", 3, 16)] {
        let found = plist.find(path).unwrap();
        assert_eq!((found.object, found.place), (object, place), "{path}");
    }
    assert_eq!(plist.find("/b"), Err(PathError::NoKey { step: 0 }));
    assert_eq!(plist.find("b"), Err(PathError::Text { place: 0 }));
}

#[test]
fn hashes() {
    let octets = file(&[
        b"\xa4\x01\x02\x03\x04",
        b"\x52ab",
        b"\x62\x00a\x00b",
        b"\x51b",
        b"\x61\xd8\x00",
    ]);
    let plist = Plist::open(&octets).unwrap();
    let texts: Vec<Text> = plist
        .root()
        .as_array()
        .unwrap()
        .iter()
        .filter_map(|v| v.as_text())
        .collect();
    let counts = texts.iter().fold(HashMap::new(), |mut counts, text| {
        *counts.entry(*text).or_insert(0) += 1;
        counts
    });
    assert_eq!((counts.len(), counts[&texts[1]]), (3, 2));
    let mut sorted = texts.clone();
    sorted.sort();
    assert_eq!(sorted, [texts[0], texts[1], texts[2], texts[3]]);
}
