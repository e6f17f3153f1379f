//! Arrays, sets and dictionaries, and the iterators over them.

use std::fmt::{self, Debug, Formatter};
use std::iter::FusedIterator;

use crate::ffi::{Session, Status};
use crate::text::Text;
use crate::value::{known, Value};

/// The number of members that one call of the library gives.
const BLOCK: usize = 64;

/// The object of a container, and the number of its members.
#[derive(Clone, Copy)]
pub(crate) struct Members<'p, 'f> {
    pub(crate) session: &'p Session<'f>,
    pub(crate) object: u32,
    /// The number of members of an array or a set, or of pairs of a dictionary.
    pub(crate) count: u64,
}

impl<'p, 'f> Members<'p, 'f> {
    fn len(self) -> usize {
        self.count as usize
    }

    fn value(self, object: u32) -> Value<'p, 'f> {
        match Value::of(self.session, object) {
            Some(value) => value,
            None => unreachable!("object {object} is a member of object {}", self.object),
        }
    }

    fn get(self, index: usize) -> Option<Value<'p, 'f>> {
        let mut member = [0];
        let found = known(self.session.members(self.object, index as u64, &mut member));
        (found == 1).then(|| self.value(member[0]))
    }

    fn find(self, key: &str) -> Option<Value<'p, 'f>> {
        let units: Vec<u16> = key.encode_utf16().collect();
        match self.session.find_key(self.object, &units) {
            Err(Status::NO_KEY) => None,
            answer => Some(self.value(known(answer))),
        }
    }

    fn debug(self, name: &str, f: &mut Formatter<'_>) -> fmt::Result {
        f.debug_struct(name)
            .field("object", &self.object)
            .field("len", &self.count)
            .finish()
    }
}

/// An iterator over the objects of members. It asks for them in blocks.
#[derive(Clone)]
struct Objects<'p, 'f> {
    of: Members<'p, 'f>,
    block: [u32; BLOCK],
    /// The position in the block, and the length of the block.
    next: usize,
    filled: usize,
    /// The number of the first member after the block.
    behind: u64,
}

impl<'p, 'f> Objects<'p, 'f> {
    fn new(of: Members<'p, 'f>) -> Objects<'p, 'f> {
        Objects {
            of,
            block: [0; BLOCK],
            next: 0,
            filled: 0,
            behind: 0,
        }
    }

    fn next_value(&mut self) -> Option<Value<'p, 'f>> {
        if self.next == self.filled {
            self.filled = known(self.of.session.members(
                self.of.object,
                self.behind,
                &mut self.block,
            ));
            self.behind += self.filled as u64;
            self.next = 0;
            if self.filled == 0 {
                return None;
            }
        }
        let object = self.block[self.next];
        self.next += 1;
        Some(self.of.value(object))
    }

    /// The number of members that were given.
    fn given(&self) -> usize {
        self.behind as usize - (self.filled - self.next)
    }
}

/// An array.
#[derive(Clone, Copy)]
pub struct Array<'p, 'f>(pub(crate) Members<'p, 'f>);

/// A set. Its members come in the order of the file.
#[derive(Clone, Copy)]
pub struct Set<'p, 'f>(pub(crate) Members<'p, 'f>);

/// A dictionary. Its pairs come in the order of the file.
#[derive(Clone, Copy)]
pub struct Dict<'p, 'f>(pub(crate) Members<'p, 'f>);

macro_rules! container {
    ($name:ident, $iter:ident, $item:ty) => {
        impl<'p, 'f> $name<'p, 'f> {
            /// Returns the number of members, or of pairs.
            pub fn len(&self) -> usize {
                self.0.len()
            }

            /// Returns true if it is empty.
            pub fn is_empty(&self) -> bool {
                self.0.count == 0
            }

            /// Returns the number of the object that holds this container. An object may be a member of many others.
            pub fn object(&self) -> u32 {
                self.0.object
            }

            /// Iterates in the order of the file.
            pub fn iter(&self) -> $iter<'p, 'f> {
                $iter(Objects::new(self.0))
            }
        }

        impl<'p, 'f> IntoIterator for $name<'p, 'f> {
            type Item = $item;
            type IntoIter = $iter<'p, 'f>;

            fn into_iter(self) -> $iter<'p, 'f> {
                self.iter()
            }
        }

        impl<'p, 'f> IntoIterator for &$name<'p, 'f> {
            type Item = $item;
            type IntoIter = $iter<'p, 'f>;

            fn into_iter(self) -> $iter<'p, 'f> {
                self.iter()
            }
        }

        impl Debug for $name<'_, '_> {
            /// Writes the number of the object and the number of members, but not the members: a small file may hold a
            /// very large tree.
            fn fmt(&self, f: &mut Formatter<'_>) -> fmt::Result {
                self.0.debug(stringify!($name), f)
            }
        }
    };
}

container!(Array, Iter, Value<'p, 'f>);
container!(Set, Iter, Value<'p, 'f>);
container!(Dict, Pairs, (Text<'f>, Value<'p, 'f>));

impl<'p, 'f> Array<'p, 'f> {
    /// Returns the member with this index, or `None` if the index is not below `len`.
    pub fn get(&self, index: usize) -> Option<Value<'p, 'f>> {
        self.0.get(index)
    }
}

impl<'p, 'f> Dict<'p, 'f> {
    /// Returns the value for a key, or `None` if the dictionary has no such key.
    ///
    /// If the file was opened with [`sorted`](crate::Options::sorted), the call does a binary search. Otherwise it
    /// looks at one key after the other.
    pub fn get(&self, key: &str) -> Option<Value<'p, 'f>> {
        self.0.find(key)
    }

    /// Iterates over the keys, in the order of the file.
    pub fn keys(&self) -> impl ExactSizeIterator<Item = Text<'f>> + 'p {
        self.iter().map(|(key, _)| key)
    }

    /// Iterates over the values, in the order of the file.
    pub fn values(&self) -> impl ExactSizeIterator<Item = Value<'p, 'f>> + 'p {
        self.iter().map(|(_, value)| value)
    }
}

/// Iterates over the members of an array or a set.
#[derive(Clone)]
pub struct Iter<'p, 'f>(Objects<'p, 'f>);

impl<'p, 'f> Iterator for Iter<'p, 'f> {
    type Item = Value<'p, 'f>;

    fn next(&mut self) -> Option<Value<'p, 'f>> {
        self.0.next_value()
    }

    fn size_hint(&self) -> (usize, Option<usize>) {
        let left = self.0.of.len() - self.0.given();
        (left, Some(left))
    }
}

/// Iterates over the pairs of a dictionary, as key and value.
#[derive(Clone)]
pub struct Pairs<'p, 'f>(Objects<'p, 'f>);

impl<'p, 'f> Iterator for Pairs<'p, 'f> {
    type Item = (Text<'f>, Value<'p, 'f>);

    fn next(&mut self) -> Option<(Text<'f>, Value<'p, 'f>)> {
        let key = self.0.next_value()?;
        let value = self.0.next_value()?;
        match key {
            Value::Text(text) => Some((text, value)),
            _ => unreachable!("the keys of a dictionary are texts"),
        }
    }

    fn size_hint(&self) -> (usize, Option<usize>) {
        let left = self.0.of.len() - self.0.given() / 2;
        (left, Some(left))
    }
}

impl ExactSizeIterator for Iter<'_, '_> {}

impl ExactSizeIterator for Pairs<'_, '_> {}

impl FusedIterator for Iter<'_, '_> {}

impl FusedIterator for Pairs<'_, '_> {}
