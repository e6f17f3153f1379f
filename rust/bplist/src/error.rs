//! Why a file is refused, and why a path leads to no value.

use std::error;
use std::fmt::{self, Debug, Display, Formatter};

use crate::ffi::{self, Status, Verdict};

/// A rule about property lists or certificates. Rules have numbers from 1 to 32, in this order.
#[derive(Clone, Copy, Debug, PartialEq, Eq, Hash, PartialOrd, Ord)]
#[non_exhaustive]
pub enum Rule {
    /// A file has at most 4294967295 bytes.
    TooLarge,
    /// A file has at least 41 bytes: a header of 8, an object and a trailer of 32.
    TooShort,
    /// A file begins with the eight bytes bplist00.
    Magic,
    /// The trailer gives one object or more.
    NoObjects,
    /// The number of the top object is below the number of objects.
    Top,
    /// The offset table begins at place 9 or later, behind the header and an object.
    TableEarly,
    /// The offset table begins before the trailer, the last 32 bytes.
    TableLate,
    /// An entry of the offset table has 1 to 8 bytes.
    OffsetSize,
    /// A reference has 1 to 8 bytes.
    RefSize,
    /// The offset table and the trailer end exactly at the end of the file.
    Length,
    /// References are wide enough for the number of objects.
    RefNarrow,
    /// Entries of the offset table are wide enough for the place of the table.
    OffsetNarrow,
    /// Each entry of the offset table leads to a place before the table.
    OffsetHigh,
    /// An object begins at place 8 or later, behind the header.
    OffsetLow,
    /// An object begins with a byte that marks a kind.
    Marker,
    /// If the marker of data, a text or a container ends in f, its count follows as an integer of 1, 2, 4, 8 or 16
    /// bytes.
    Count,
    /// An object ends before the offset table.
    Extent,
    /// Every byte of an ASCII text is below 0x80.
    NotAscii,
    /// A UID is at most 4294967295.
    UidLarge,
    /// A reference is the number of an object, below the number of objects.
    RefHigh,
    /// The keys of a dictionary are texts.
    KeyKind,
    /// The keys of a dictionary differ.
    KeyTwice,
    /// No chain of references that begins at the top comes back to an object of the chain.
    Circle,
    /// A certificate begins with the eight bytes bplcert1 or bplcert2.
    CertMagic,
    /// A certificate has as many bytes as its version and its number of heights ask for.
    CertLength,
    /// A certificate has one height for each object of the file.
    CertCount,
    /// The height of the top object is 1 or more.
    TopNotVouched,
    /// What an object of height 1 or more refers to has a height of 1 or more.
    ChildNotVouched,
    /// What an object of height 1 or more refers to has a smaller height.
    HeightNotLess,
    /// A path is empty or begins with /. Each ~ in it is followed by 0 or 1.
    PathText,
    /// Together the objects fit between the header and the offset table. lint adds up the reachable objects, check
    /// those of height 1 or more.
    Overfull,
    /// The key list of a dictionary is wholly there, and names the dictionary's keys in ascending order.
    KeyOrder,
}

impl Rule {
    /// All rules, in the order of their numbers.
    pub const ALL: [Rule; 32] = [
        Rule::TooLarge,
        Rule::TooShort,
        Rule::Magic,
        Rule::NoObjects,
        Rule::Top,
        Rule::TableEarly,
        Rule::TableLate,
        Rule::OffsetSize,
        Rule::RefSize,
        Rule::Length,
        Rule::RefNarrow,
        Rule::OffsetNarrow,
        Rule::OffsetHigh,
        Rule::OffsetLow,
        Rule::Marker,
        Rule::Count,
        Rule::Extent,
        Rule::NotAscii,
        Rule::UidLarge,
        Rule::RefHigh,
        Rule::KeyKind,
        Rule::KeyTwice,
        Rule::Circle,
        Rule::CertMagic,
        Rule::CertLength,
        Rule::CertCount,
        Rule::TopNotVouched,
        Rule::ChildNotVouched,
        Rule::HeightNotLess,
        Rule::PathText,
        Rule::Overfull,
        Rule::KeyOrder,
    ];

    /// Returns the number of the rule.
    pub fn number(self) -> u32 {
        self as u32 + 1
    }

    /// Returns the name of the rule, for example `Marker`.
    pub fn name(self) -> String {
        ffi::rule_name(self.number())
    }

    /// Returns what the rule requires, as one sentence, for example `The keys of a dictionary differ.`
    pub fn sentence(self) -> String {
        ffi::rule_text(self.number())
    }

    /// Returns the rule with a number of the library.
    fn told(number: u32) -> Rule {
        Rule::ALL[number as usize - 1]
    }
}

/// The first rule that a file or certificate breaks, and where.
#[derive(Clone, Debug, PartialEq, Eq)]
pub struct Fault {
    rule: Rule,
    object: Option<u32>,
    place: Option<u64>,
    circle: Vec<u32>,
}

impl Fault {
    /// Returns the fault that a verdict describes.
    fn told(file: &[u8], verdict: &Verdict) -> Result<Fault, Status> {
        let rule = Rule::told(verdict.rule);
        let circle = match rule {
            Rule::Circle => ffi::circle(file, verdict.circle)?,
            _ => Vec::new(),
        };
        Ok(Fault {
            rule,
            object: (verdict.has_object == 1).then_some(verdict.object),
            place: (rule != Rule::Circle).then_some(verdict.place),
            circle,
        })
    }

    /// Returns the broken rule.
    pub fn rule(&self) -> Rule {
        self.rule
    }

    /// Returns the number of the object that breaks the rule, if there is one. For a circle this is the first object.
    pub fn object(&self) -> Option<u32> {
        self.object
    }

    /// Returns the place of the fault: the number of a byte, counted from 0, in the file, or in the certificate if
    /// [`is_of_certificate`](Fault::is_of_certificate) is true. A circle has no place.
    pub fn place(&self) -> Option<u64> {
        self.place
    }

    /// Returns the objects of the circle if the file is refused for a circle of references. Each refers to the next,
    /// and the last to the first. The slice is empty for all other faults.
    pub fn circle(&self) -> &[u32] {
        &self.circle
    }

    /// Returns true if the certificate is at fault, and not the file.
    pub fn is_of_certificate(&self) -> bool {
        matches!(
            self.rule,
            Rule::CertMagic
                | Rule::CertLength
                | Rule::CertCount
                | Rule::TopNotVouched
                | Rule::KeyOrder
        )
    }
}

impl Display for Fault {
    fn fmt(&self, f: &mut Formatter<'_>) -> fmt::Result {
        write!(
            f,
            "rule {} ({}) is broken",
            self.rule.number(),
            self.rule.name()
        )?;
        if let Some(object) = self.object {
            write!(f, " by object {object}")?;
        }
        if let Some(place) = self.place {
            let whose = if self.is_of_certificate() {
                " of the certificate"
            } else {
                ""
            };
            write!(f, " at place {place}{whose}")?;
        }
        write!(f, ": {}", self.rule.sentence())
    }
}

/// Why a file could not be opened.
#[derive(Clone, Debug, PartialEq, Eq)]
#[non_exhaustive]
pub enum Error {
    /// The file holds no value, or the certificate is not valid for the file.
    Refused(Fault),
    /// Memory was refused. The call can be repeated.
    OutOfMemory,
    /// Somebody has changed the bytes of the file during the call. Only unsafe code can do that, as in a mapped file.
    Changed,
}

impl Error {
    /// Returns the error that a status and a verdict describe.
    pub(crate) fn told(file: &[u8], status: Status, verdict: &Verdict) -> Error {
        match status {
            Status::FAULT => match Fault::told(file, verdict) {
                Ok(fault) => Error::Refused(fault),
                Err(Status::MEMORY) => Error::OutOfMemory,
                Err(_) => Error::Changed,
            },
            Status::OTHER_FILE => Error::Changed,
            _ => Error::OutOfMemory,
        }
    }
}

impl Display for Error {
    fn fmt(&self, f: &mut Formatter<'_>) -> fmt::Result {
        match self {
            Error::Refused(fault) => Display::fmt(fault, f),
            Error::OutOfMemory => f.write_str("out of memory"),
            Error::Changed => f.write_str("the file has changed"),
        }
    }
}

impl error::Error for Error {}

/// Why a path leads to no value. Steps are counted from 0.
#[derive(Clone, Copy, Debug, PartialEq, Eq)]
#[non_exhaustive]
pub enum PathError {
    /// The dictionary at this step has no such key.
    NoKey {
        /// The number of the step.
        step: u64,
    },
    /// The step is not an index of the array.
    NoIndex {
        /// The number of the step.
        step: u64,
    },
    /// The value at this step is neither a dictionary nor an array.
    NotSteppable {
        /// The number of the step.
        step: u64,
    },
    /// The text is not a JSON Pointer.
    Text {
        /// The number of the wrong byte, counted from 0.
        place: u64,
    },
    /// Memory was refused. The call can be repeated.
    OutOfMemory,
}

impl PathError {
    /// Returns the error for a status, with the step or place that the call gave.
    pub(crate) fn told(status: Status, step: u64) -> PathError {
        match status {
            Status::NO_KEY => PathError::NoKey { step },
            Status::NO_INDEX => PathError::NoIndex { step },
            Status::NOT_STEPPABLE => PathError::NotSteppable { step },
            Status::PATH_TEXT => PathError::Text { place: step },
            Status::MEMORY => PathError::OutOfMemory,
            other => unreachable!("{}", other.sentence()),
        }
    }
}

impl Display for PathError {
    fn fmt(&self, f: &mut Formatter<'_>) -> fmt::Result {
        match self {
            PathError::NoKey { step } => write!(f, "step {step}: the dictionary has no such key"),
            PathError::NoIndex { step } => write!(f, "step {step} is not an index of the array"),
            PathError::NotSteppable { step } => write!(
                f,
                "step {step}: the value is neither a dictionary nor an array"
            ),
            PathError::Text { place } => {
                write!(f, "the path is not a JSON Pointer at its byte {place}")
            }
            PathError::OutOfMemory => f.write_str("out of memory"),
        }
    }
}

impl error::Error for PathError {}
