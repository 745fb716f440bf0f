//! Git's object ids over `libgix_hash`, whose calls are proved, and object stores over the program `packtool`; this crate is
//! only tested.
//!
//! If `GIX_HASH_LIB` is the absolute path of a directory, or of a file in it, the library `libgix_hash.a` is linked from there,
//! and otherwise from where an archive, `make install` or `make lib` put it.
//!
//! ```
#![doc = include_str!("../examples/find.rs")]
//! ```

/// The example of the readme, as a test.
#[cfg(doctest)]
#[doc = include_str!("../README.md")]
struct Readme;

mod error;
mod hasher;
mod ids;
mod raw;
mod store;
mod tables;

pub use error::{Code, Error};
pub use hasher::{Hasher, ObjectType};
pub use ids::{Id, Kind, Prefix};
pub use store::{Abbreviations, FindMany, Location, Store, StoreError};
pub use tables::{Entries, Entry, Ids, PackIndex, SortedDigests};
