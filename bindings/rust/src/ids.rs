//! Ids and prefixes.

use crate::{raw, Code, Error};
use std::cmp::Ordering;
use std::fmt;
use std::str::FromStr;

/// The hash function of an id.
#[derive(Debug, Clone, Copy, PartialEq, Eq, PartialOrd, Ord, Hash)]
#[repr(u32)]
pub enum Kind {
    /// 20 bytes, 40 hex digits.
    Sha1 = 1,
    /// 32 bytes, 64 hex digits.
    Sha256 = 2,
}

impl Kind {
    /// The number of bytes of a digest.
    #[must_use]
    pub fn len_in_bytes(self) -> usize {
        match self {
            Kind::Sha1 => 20,
            Kind::Sha256 => 32,
        }
    }

    /// The kind of a number that the library wrote.
    pub(crate) fn of(number: u32) -> Kind {
        if number == 1 {
            Kind::Sha1
        } else {
            Kind::Sha256
        }
    }
}

/// Reads `sha1` or `sha256`. The error is `BadKind`.
impl FromStr for Kind {
    type Err = Error;

    fn from_str(text: &str) -> Result<Kind, Error> {
        match text {
            "sha1" => Ok(Kind::Sha1),
            "sha256" => Ok(Kind::Sha256),
            _ => Err(Error { code: Code::BadKind, detail: 0 }),
        }
    }
}

/// `sha1` or `sha256`.
impl fmt::Display for Kind {
    fn fmt(&self, f: &mut fmt::Formatter<'_>) -> fmt::Result {
        f.pad(match self {
            Kind::Sha1 => "sha1",
            Kind::Sha256 => "sha256",
        })
    }
}

fn order(number: i32) -> Option<Ordering> {
    match number {
        -1 => Some(Ordering::Less),
        0 => Some(Ordering::Equal),
        1 => Some(Ordering::Greater),
        _ => None,
    }
}

/// An id, ordered by kind and then by digits.
///
/// ```
/// # use nunbirdstand::{Id, Kind};
/// let id: Id = "e69de29bb2d1d6434b8b29ae775ad8c2e48c5391".parse()?;
/// assert_eq!(id, Id::digest(Kind::Sha1, b"blob 0\0"));
/// # Ok::<(), nunbirdstand::Error>(())
/// ```
// The bytes after a digest of SHA-1 are zeros.
#[derive(Clone, Copy, PartialEq, Eq, Hash)]
pub struct Id(pub(crate) raw::Id);

impl Id {
    /// The digest of bytes.
    #[must_use]
    pub fn digest(kind: Kind, bytes: &[u8]) -> Id {
        let mut id = raw::Id::default();
        // SAFETY: the slice is valid for its length, and a kind is a good one.
        let code = unsafe { raw::gix_hash_digest(kind as u32, bytes.as_ptr(), bytes.len(), &mut id) };
        debug_assert_eq!(code, 0);
        Id(id)
    }

    /// The id with a digest of 20 or 32 bytes, or `None` for another length.
    #[must_use]
    pub fn from_bytes(digest: &[u8]) -> Option<Id> {
        let sha1 = <[u8; 20]>::try_from(digest).map(Id::from);
        sha1.or_else(|_| <[u8; 32]>::try_from(digest).map(Id::from)).ok()
    }

    /// The kind.
    #[must_use]
    pub fn kind(&self) -> Kind {
        Kind::of(self.0.kind)
    }

    /// The 20 or 32 bytes of the digest.
    #[must_use]
    pub fn as_bytes(&self) -> &[u8] {
        &self.0.bytes[..self.kind().len_in_bytes()]
    }
}

impl AsRef<[u8]> for Id {
    fn as_ref(&self) -> &[u8] {
        self.as_bytes()
    }
}

/// The id with a digest of SHA-1.
impl From<[u8; 20]> for Id {
    fn from(digest: [u8; 20]) -> Id {
        let mut id = raw::Id { kind: Kind::Sha1 as u32, bytes: [0; 32] };
        id.bytes[..20].copy_from_slice(&digest);
        Id(id)
    }
}

/// The id with a digest of SHA-256.
impl From<[u8; 32]> for Id {
    fn from(bytes: [u8; 32]) -> Id {
        Id(raw::Id { kind: Kind::Sha256 as u32, bytes })
    }
}

/// The id with a digest of 20 or 32 bytes. The error is `BadLength`.
impl TryFrom<&[u8]> for Id {
    type Error = Error;

    fn try_from(digest: &[u8]) -> Result<Id, Error> {
        Id::from_bytes(digest).ok_or(Error { code: Code::BadLength, detail: 0 })
    }
}

/// Reads 40 or 64 hex digits in either case.
impl FromStr for Id {
    type Err = Error;

    fn from_str(text: &str) -> Result<Id, Error> {
        let mut id = raw::Id::default();
        // SAFETY: the text is valid for its length.
        Error::check(unsafe { raw::gix_hash_id_from_hex(text.as_ptr(), text.len(), &mut id) }, 0)?;
        Ok(Id(id))
    }
}

/// The lowercase hex digits.
impl fmt::Display for Id {
    fn fmt(&self, f: &mut fmt::Formatter<'_>) -> fmt::Result {
        let mut digits = [0; 64];
        // SAFETY: the buffer is valid for its length, which is enough for each kind.
        let code = unsafe { raw::gix_hash_id_to_hex(&self.0, digits.as_mut_ptr(), digits.len()) };
        debug_assert_eq!(code, 0);
        let digits = &digits[..2 * self.kind().len_in_bytes()];
        f.pad(std::str::from_utf8(digits).map_err(|_| fmt::Error)?)
    }
}

/// The kind and the digits, as in `Sha1(e69de29bb2d1d6434b8b29ae775ad8c2e48c5391)`.
impl fmt::Debug for Id {
    fn fmt(&self, f: &mut fmt::Formatter<'_>) -> fmt::Result {
        write!(f, "{:?}({self})", self.kind())
    }
}

impl Ord for Id {
    fn cmp(&self, other: &Id) -> Ordering {
        // SAFETY: both are structs.
        order(unsafe { raw::gix_hash_id_cmp(&self.0, &other.0) }).expect("the kind of an id is good")
    }
}

impl PartialOrd for Id {
    fn partial_cmp(&self, other: &Id) -> Option<Ordering> {
        Some(self.cmp(other))
    }
}

/// A prefix of 1 to 64 hex digits.
///
/// ```
/// # use nunbirdstand::{Id, Kind, Prefix};
/// # use std::cmp::Ordering;
/// let prefix: Prefix = "e69".parse()?;
/// assert_eq!(prefix.cmp_id(&Id::digest(Kind::Sha1, b"blob 0\0")), Some(Ordering::Equal));
/// # Ok::<(), nunbirdstand::Error>(())
/// ```
// The bits after the digits are zeros.
#[derive(Clone, Copy, PartialEq, Eq, Hash)]
pub struct Prefix(pub(crate) raw::Prefix);

impl Prefix {
    /// The number of digits.
    #[must_use]
    pub fn hex_len(&self) -> usize {
        self.0.hex_len as usize
    }

    /// The order of the prefix and as many first digits of an id: `Equal` if and only if the id begins
    /// with the prefix. `None` if the id has fewer digits.
    #[must_use]
    pub fn cmp_id(&self, id: &Id) -> Option<Ordering> {
        // SAFETY: both are structs.
        order(unsafe { raw::gix_hash_prefix_cmp_id(&self.0, &id.0) })
    }
}

/// Reads 1 to 64 hex digits in either case.
impl FromStr for Prefix {
    type Err = Error;

    fn from_str(text: &str) -> Result<Prefix, Error> {
        let mut prefix = raw::Prefix::default();
        // SAFETY: the text is valid for its length.
        Error::check(unsafe { raw::gix_hash_prefix_from_hex(text.as_ptr(), text.len(), &mut prefix) }, 0)?;
        Ok(Prefix(prefix))
    }
}

/// All digits of an id.
impl From<Id> for Prefix {
    fn from(id: Id) -> Prefix {
        Prefix(raw::Prefix { hex_len: if id.kind() == Kind::Sha1 { 40 } else { 64 }, bytes: id.0.bytes })
    }
}

/// The lowercase hex digits.
impl fmt::Display for Prefix {
    fn fmt(&self, f: &mut fmt::Formatter<'_>) -> fmt::Result {
        let mut digits = String::with_capacity(64);
        for byte in self.0.bytes {
            digits.extend(
                [byte >> 4, byte & 15].map(|digit| char::from(b"0123456789abcdef"[usize::from(digit)])),
            );
        }
        f.pad(&digits[..self.hex_len()])
    }
}

/// The digits, as in `Prefix(e69)`.
impl fmt::Debug for Prefix {
    fn fmt(&self, f: &mut fmt::Formatter<'_>) -> fmt::Result {
        write!(f, "Prefix({self})")
    }
}
