//! Texts, as they are in the file.

use std::borrow::Cow;
use std::char::{self, REPLACEMENT_CHARACTER};
use std::cmp::Ordering;
use std::fmt::{self, Debug, Display, Formatter, Write};
use std::hash::{Hash, Hasher};
use std::iter::FusedIterator;
use std::str;

/// A text: ASCII, or UTF-16 that may contain unpaired surrogates.
#[derive(Clone, Copy)]
pub struct Text<'a> {
    octets: &'a [u8],
    wide: bool,
}

impl<'a> Text<'a> {
    /// A text with one byte for each unit.
    pub(crate) fn ascii(octets: &'a [u8]) -> Text<'a> {
        Text {
            octets,
            wide: false,
        }
    }

    /// A text with two bytes for each unit, big-endian.
    pub(crate) fn wide(octets: &'a [u8]) -> Text<'a> {
        Text { octets, wide: true }
    }

    /// Returns the length in UTF-16 units.
    pub fn len(&self) -> usize {
        self.units().len()
    }

    /// Returns true if the text is empty.
    pub fn is_empty(&self) -> bool {
        self.octets.is_empty()
    }

    /// Returns the text if the file stores it as ASCII.
    pub fn as_ascii(&self) -> Option<&'a str> {
        if self.wide {
            return None;
        }
        str::from_utf8(self.octets).ok()
    }

    /// Returns the text with U+FFFD in place of each unpaired surrogate.
    pub fn to_string_lossy(&self) -> Cow<'a, str> {
        match self.as_ascii() {
            Some(text) => Cow::Borrowed(text),
            None => char::decode_utf16(self.units())
                .map(|unit| unit.unwrap_or(REPLACEMENT_CHARACTER))
                .collect(),
        }
    }

    /// Iterates over the UTF-16 units.
    pub fn units(&self) -> Units<'a> {
        Units {
            octets: self.octets.chunks_exact(if self.wide { 2 } else { 1 }),
        }
    }
}

impl Display for Text<'_> {
    /// Writes the text with U+FFFD in place of each unpaired surrogate.
    fn fmt(&self, f: &mut Formatter<'_>) -> fmt::Result {
        f.pad(&self.to_string_lossy())
    }
}

impl Debug for Text<'_> {
    /// Writes the text in quotes, and an unpaired surrogate as `\u{d83d}`.
    fn fmt(&self, f: &mut Formatter<'_>) -> fmt::Result {
        f.write_char('"')?;
        for unit in char::decode_utf16(self.units()) {
            match unit {
                Ok(letter) => write!(f, "{}", letter.escape_debug())?,
                Err(alone) => write!(f, "\\u{{{:x}}}", alone.unpaired_surrogate())?,
            }
        }
        f.write_char('"')
    }
}

impl PartialEq for Text<'_> {
    fn eq(&self, other: &Text<'_>) -> bool {
        self.units().eq(other.units())
    }
}

impl Eq for Text<'_> {}

impl Hash for Text<'_> {
    /// Texts of the same units have the same hash, however the file stores them.
    fn hash<H: Hasher>(&self, state: &mut H) {
        self.units().for_each(|unit| state.write_u16(unit));
        state.write_usize(self.len());
    }
}

impl Ord for Text<'_> {
    /// Compares unit by unit.
    fn cmp(&self, other: &Text<'_>) -> Ordering {
        self.units().cmp(other.units())
    }
}

impl PartialOrd for Text<'_> {
    fn partial_cmp(&self, other: &Text<'_>) -> Option<Ordering> {
        Some(self.cmp(other))
    }
}

impl PartialEq<str> for Text<'_> {
    fn eq(&self, other: &str) -> bool {
        self.units().eq(other.encode_utf16())
    }
}

impl PartialEq<&str> for Text<'_> {
    fn eq(&self, other: &&str) -> bool {
        *self == **other
    }
}

/// Iterates over the units of a text.
#[derive(Clone, Debug)]
pub struct Units<'a> {
    octets: std::slice::ChunksExact<'a, u8>,
}

impl Iterator for Units<'_> {
    type Item = u16;

    fn next(&mut self) -> Option<u16> {
        self.octets.next().map(|unit| {
            unit.iter()
                .fold(0, |number, &octet| number << 8 | u16::from(octet))
        })
    }

    fn size_hint(&self) -> (usize, Option<usize>) {
        self.octets.size_hint()
    }
}

impl ExactSizeIterator for Units<'_> {}

impl FusedIterator for Units<'_> {}
