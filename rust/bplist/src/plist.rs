//! Lints and opens files.

use std::fmt::{self, Debug, Formatter};

use crate::error::{Error, PathError};
use crate::ffi::{self, Owned, Session, Status, Verdict};
use crate::value::{known, Value};

/// What the linter found in a file that holds a value.
#[derive(Clone, Copy, Debug, PartialEq, Eq)]
#[non_exhaustive]
pub struct Summary {
    /// The number of objects in the file.
    pub objects: u64,
    /// The number of the top object, which holds the value of the file.
    pub top: u32,
    /// The number of objects on the longest way down from the top, including the top.
    pub height: u32,
    /// The number of objects reachable from the top, including the top. It is 0 for a file that was opened with a
    /// certificate.
    pub reached: u64,
    /// The number of references in these objects. It is 0 for a file that was opened with a certificate.
    pub references: u64,
}

impl Summary {
    fn told(verdict: &Verdict) -> Summary {
        Summary {
            objects: verdict.objects,
            top: verdict.top,
            height: verdict.height,
            reached: verdict.reached,
            references: verdict.references,
        }
    }
}

/// Decides whether a file holds a value. If it does not, the error says which rule it breaks. The call reads the whole
/// file.
pub fn lint(file: &[u8]) -> Result<Summary, Error> {
    match ffi::lint(file) {
        (Status::OK, verdict) => Ok(Summary::told(&verdict)),
        (status, verdict) => Err(Error::told(file, status, &verdict)),
    }
}

/// Returns what a file looks like that holds no value, in words, or `None` if that is not known. The words are a guess
/// from the first and the last bytes. A file with a right header, trailer and offset table has none.
///
/// ```
/// let words = bplist::looks_like(b"<?xml version='1.0'?><plist><true/></plist>");
/// assert_eq!(words.as_deref(), Some("an XML property list"));
/// ```
pub fn looks_like(file: &[u8]) -> Option<String> {
    Some(ffi::looks_like(file)).filter(|words| !words.is_empty())
}

/// Returns the version of the linked libbplist.a: major, minor and patch number.
pub fn library_version() -> (u8, u8, u8) {
    let [_, major, minor, patch] = ffi::version().to_be_bytes();
    (major, minor, patch)
}

/// How to open a file.
///
/// ```
/// # fn main() -> Result<(), Box<dyn std::error::Error>> {
/// let file = std::fs::read("tests/data/jobs.plist")?;
/// let certificate = bplist::Plist::open(&file)?.certificate()?;
/// let plist = bplist::Options::new().sorted(true).certificate(&certificate).open(&file)?;
/// assert_eq!(plist.at("/jobs/1/id")?.as_int(), Some(42));
/// # Ok(())
/// # }
/// ```
#[derive(Clone, Copy, Debug, Default)]
pub struct Options<'c> {
    sorted: bool,
    certificate: Option<&'c [u8]>,
}

impl<'c> Options<'c> {
    /// The default: the file is linted, and its keys are not sorted.
    pub fn new() -> Options<'c> {
        Options::default()
    }

    /// If `sorted` is true, the keys of each dictionary are sorted once. A key is then found by binary search.
    pub fn sorted(self, sorted: bool) -> Options<'c> {
        Options { sorted, ..self }
    }

    /// Opens the file with a certificate instead of linting it. This is faster and takes less memory. The certificate
    /// may come from anywhere; [`Plist::certificate`] and `bplint certify` write one.
    pub fn certificate(self, octets: &'c [u8]) -> Options<'c> {
        Options {
            certificate: Some(octets),
            ..self
        }
    }

    /// Opens a file.
    pub fn open<'f>(&self, file: &'f [u8]) -> Result<Plist<'f>, Error> {
        match Session::open(file, self.certificate, self.sorted) {
            Ok((session, verdict)) => Ok(Plist {
                session,
                summary: Summary::told(&verdict),
            }),
            Err((status, verdict)) => Err(Error::told(file, status, &verdict)),
        }
    }

    /// Opens a file that the property list owns.
    pub fn open_owned(&self, file: Vec<u8>) -> Result<OwnedPlist, Error> {
        Ok(OwnedPlist(Owned::make(file, |file| self.open(file))?))
    }
}

/// An open file that holds a value, together with its bytes. A struct can hold it, and a function can return it.
///
/// ```
/// # fn main() -> Result<(), Box<dyn std::error::Error>> {
/// struct Jobs(bplist::OwnedPlist);
///
/// let jobs = Jobs(bplist::OwnedPlist::open(std::fs::read("tests/data/jobs.plist")?)?);
/// assert_eq!(jobs.0.plist().at("/jobs/1/id")?.as_int(), Some(42));
/// # Ok(())
/// # }
/// ```
pub struct OwnedPlist(Owned<Plist<'static>>);

impl OwnedPlist {
    /// Lints a file and opens it. [`Options::open_owned`] has other ways to open it.
    pub fn open(file: Vec<u8>) -> Result<OwnedPlist, Error> {
        Options::new().open_owned(file)
    }

    /// Returns the property list, which borrows the bytes.
    pub fn plist(&self) -> &Plist<'_> {
        self.0.held()
    }

    /// Returns the bytes of the file.
    pub fn into_bytes(self) -> Vec<u8> {
        self.0.into_octets()
    }
}

impl Debug for OwnedPlist {
    fn fmt(&self, f: &mut Formatter<'_>) -> fmt::Result {
        self.plist().fmt(f)
    }
}

/// Where a value stands in the file.
#[derive(Clone, Copy, Debug, PartialEq, Eq)]
#[non_exhaustive]
pub struct Found {
    /// The number of the object that holds the value.
    pub object: u32,
    /// The place of that object: the number of its first byte in the file, counted from 0.
    pub place: u64,
}

/// The length of the trailer, with which a file ends.
const TRAILER: usize = 32;

/// Returns the entry of an object in the offset table. The trailer has the size of an entry, and the place of the
/// table.
fn place_of(file: &[u8], object: u32) -> u64 {
    let trailer = &file[file.len() - TRAILER..];
    let size = usize::from(trailer[6]);
    let at = big_endian(&trailer[24..]) as usize + size * object as usize;
    big_endian(&file[at..at + size])
}

/// Decodes a big-endian number of at most 8 bytes.
fn big_endian(octets: &[u8]) -> u64 {
    octets
        .iter()
        .fold(0, |number, &octet| number << 8 | u64::from(octet))
}

/// An open file that holds a value. It borrows the file, and takes 4 bytes of memory for each object.
///
/// A `Plist` is `Send` but not `Sync`, because the library allows only one call at a time for each open file:
///
/// ```compile_fail
/// fn shared<T: Sync>() {}
/// shared::<bplist::Plist<'static>>();
/// ```
pub struct Plist<'f> {
    session: Session<'f>,
    summary: Summary,
}

impl<'f> Plist<'f> {
    /// Lints a file and opens it. [`Options`] has other ways to open it.
    pub fn open(file: &'f [u8]) -> Result<Plist<'f>, Error> {
        Options::new().open(file)
    }

    /// Returns what was found in the file.
    pub fn summary(&self) -> Summary {
        self.summary
    }

    /// Returns the value of the file.
    pub fn root(&self) -> Value<'_, 'f> {
        match Value::of(&self.session, self.summary.top) {
            Some(value) => value,
            None => unreachable!("the top reaches itself"),
        }
    }

    /// Returns the value that a path leads to. A path is a JSON Pointer (RFC 6901). The empty path leads to the root.
    /// Otherwise each step is `/` and a key, or `/` and an index of an array in decimal digits. `~0` stands for `~`,
    /// and `~1` for `/`.
    pub fn at(&self, path: &str) -> Result<Value<'_, 'f>, PathError> {
        let object = self.object_at(path)?;
        match Value::of(&self.session, object) {
            Some(value) => Ok(value),
            None => unreachable!("the top reaches object {object}"),
        }
    }

    /// Returns the object that a path leads to, and its place in the file. A path is as for [`at`](Plist::at).
    pub fn find(&self, path: &str) -> Result<Found, PathError> {
        let object = self.object_at(path)?;
        Ok(Found {
            object,
            place: place_of(self.session.file(), object),
        })
    }

    /// Returns the number of the object that a path leads to.
    fn object_at(&self, path: &str) -> Result<u32, PathError> {
        match self.session.find(path) {
            (Status::OK, found) => Ok(found.object),
            (status, found) => Err(PathError::told(status, found.step)),
        }
    }

    /// Returns the value of the object with this number, or `None` if the file has no checked object with that number.
    /// Objects that the top does not reach are checked only if a certificate gives them a height.
    pub fn object(&self, number: u32) -> Option<Value<'_, 'f>> {
        Value::of(&self.session, number)
    }

    /// Returns the number of nodes in the tree of the value, including the keys of dictionaries, or `u64::MAX` if it is
    /// that large or larger. A small file may hold a very large tree. The call looks at each object of the file once.
    /// The only error is [`Error::OutOfMemory`].
    pub fn nodes(&self) -> Result<u64, Error> {
        match self.session.size(self.summary.top) {
            Err(Status::MEMORY) => Err(Error::OutOfMemory),
            answer => Ok(known(answer).nodes),
        }
    }

    /// Returns the certificate with which the file can be opened again. The only error is [`Error::OutOfMemory`].
    pub fn certificate(&self) -> Result<Vec<u8>, Error> {
        match self.session.certificate() {
            Err(Status::MEMORY) => Err(Error::OutOfMemory),
            answer => Ok(known(answer)),
        }
    }
}

impl Debug for Plist<'_> {
    fn fmt(&self, f: &mut Formatter<'_>) -> fmt::Result {
        f.debug_struct("Plist")
            .field("summary", &self.summary)
            .finish_non_exhaustive()
    }
}
