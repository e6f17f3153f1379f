//! Lints Apple's binary property lists (`bplist00`) and reads single values of them, without building a tree.
//!
//! ```
//! use bplist::{Plist, Value};
//!
//! # fn main() -> Result<(), Box<dyn std::error::Error>> {
//! let file = std::fs::read("tests/data/jobs.plist")?;
//! let plist = Plist::open(&file)?;
//! assert_eq!(plist.at("/jobs/1/id")?.as_int(), Some(42));
//!
//! if let Value::Dict(top) = plist.root() {
//!     for (key, value) in top {
//!         println!("{key}: {value:?}");
//!     }
//! }
//!
//! let error = Plist::open(&file[1..]).unwrap_err();
//! assert!(error.to_string().starts_with("rule 3 (Magic) is broken at place 0: "));
//! # Ok(())
//! # }
//! ```
//!
//! | to do this | items |
//! |---|---|
//! | open a file | [`Plist::open`], [`Options`], [`Plist`], [`OwnedPlist`] |
//! | learn whether a file holds a value, and why not | [`lint`], [`looks_like`], [`Error`], [`Fault`], [`Rule`] |
//! | read a value | [`Value`], [`Text`], [`Date`], [`Array`], [`Set`], [`Dict`] |
//! | follow a path | [`Plist::at`], [`Plist::find`], [`PathError`] |
//! | make a struct of a file | `from_slice`, with the feature `serde` |
//!
//! Data and texts borrow from the bytes of the file, and containers also from its `Plist`. A value is read when it is
//! asked for, and an iterator asks for its members in blocks. Once a file is open, reading it cannot fail. An object
//! may be a member of many others, so a walk over a small file may take very long. [`Plist::nodes`] gives the size of
//! the tree before the walk.
//!
//! The crate is a layer over the C library bplist. The answers of the library are proved; this layer is tested. It has
//! no dependencies but serde, with the feature `serde`. The build looks for `libbplist.a` in the directory that the
//! environment variable `BPLIST_LIB_DIR` names, or with pkg-config. All unsafe code is in one module, `ffi`. The folder
//! `examples` has two small programs.
#![deny(unsafe_code)]
#![warn(missing_docs)]

#[forbid(unsafe_code)]
mod containers;
#[cfg(feature = "serde")]
#[forbid(unsafe_code)]
mod de;
#[forbid(unsafe_code)]
mod error;
#[allow(unsafe_code)]
mod ffi;
#[forbid(unsafe_code)]
mod plist;
#[forbid(unsafe_code)]
mod text;
#[forbid(unsafe_code)]
mod value;

pub use containers::{Array, Dict, Iter, Pairs, Set};
#[cfg(feature = "serde")]
pub use de::{from_slice, DeserializeError};
pub use error::{Error, Fault, PathError, Rule};
pub use plist::{library_version, lint, looks_like, Found, Options, OwnedPlist, Plist, Summary};
pub use text::{Text, Units};
pub use value::{Date, Value};
