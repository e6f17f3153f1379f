//! Files and certificates that are refused, and why.

mod common;

use bplist::{library_version, lint, looks_like, Error, Fault, Options, Plist, Rule};
use common::file;

fn fault<T: std::fmt::Debug>(answer: Result<T, Error>) -> Fault {
    match answer {
        Err(Error::Refused(fault)) => fault,
        other => panic!("{other:?}"),
    }
}

#[test]
fn of_files() {
    let fault = fault(Plist::open(&file(&[b"\xa1\x01", b"\x0f"])));
    assert_eq!(
        (fault.rule().number(), fault.rule().name().as_str()),
        (15, "Marker")
    );
    assert_eq!(
        fault.rule().sentence(),
        "An object begins with a byte that marks a kind."
    );
    assert_eq!(
        (fault.object(), fault.place(), fault.circle()),
        (Some(1), Some(10), &[][..])
    );
    assert!(!fault.is_of_certificate());
    assert_eq!(
        fault.to_string(),
        "rule 15 (Marker) is broken by object 1 at place 10: An object begins with a byte that marks a kind."
    );
}

#[test]
fn of_lint() {
    let short = fault(lint(b""));
    assert_eq!(
        (short.rule().name().as_str(), short.object(), short.place()),
        ("TooShort", None, Some(0))
    );
    assert_eq!(
        format!("{:?}", Error::Refused(short)),
        "Refused(Fault { rule: TooShort, object: None, place: Some(0), circle: [] })"
    );
    assert_eq!(lint(&file(&[b"\x09"])).unwrap().reached, 1);
}

#[test]
fn of_looks() {
    let sound = file(&[b"\x09"]);
    assert_eq!(looks_like(&sound), None);
    let longer = [&sound[..], b"\r\n"].concat();
    let place = sound.len() - 32;
    assert_eq!(
        looks_like(&longer),
        Some(format!("2 bytes too many after a trailer at {place}"))
    );
    assert_eq!(looks_like(b"").as_deref(), Some("an empty file"));
    assert_eq!(looks_like(b"anything else"), None);
}

#[test]
fn of_circles() {
    let fault = fault(Plist::open(&file(&[b"\xa1\x01", b"\xa1\x02", b"\xa1\x01"])));
    assert_eq!(
        (fault.rule().number(), fault.rule().name().as_str()),
        (23, "Circle")
    );
    assert_eq!(
        (fault.object(), fault.place(), fault.circle()),
        (Some(1), None, &[1, 2][..])
    );
}

#[test]
fn of_certificates() {
    let octets = file(&[b"\x09"]);
    let mut certificate = Plist::open(&octets).unwrap().certificate().unwrap();
    certificate[0] = b'B';
    let fault = fault(Options::new().certificate(&certificate).open(&octets));
    assert_eq!(
        (fault.rule().name().as_str(), fault.is_of_certificate()),
        ("CertMagic", true)
    );
    assert!(fault
        .to_string()
        .contains("at place 0 of the certificate: "));
}

/// The crate and the linked library have the same version.
#[test]
fn version() {
    let (major, minor, patch) = library_version();
    assert_eq!(
        format!("{major}.{minor}.{patch}"),
        env!("CARGO_PKG_VERSION")
    );
}

/// The rules are those of the library, in its order.
#[test]
fn rules() {
    for (number, rule) in (1..).zip(Rule::ALL) {
        assert_eq!((rule.number(), rule.name()), (number, format!("{rule:?}")));
        assert!(rule.sentence().ends_with('.'));
    }
    assert!(matches!(fault(lint(b"")).rule(), Rule::TooShort));
}
