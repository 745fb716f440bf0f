//! Sorted tables of digests, and pack indexes. The bytes are borrowed, so nobody changes them after the check.

use crate::{raw, Code, Error, Id, Kind, Prefix};
use std::fmt;
use std::iter::Map;
use std::ops::Range;
use std::slice::ChunksExact;

/// Sorted digests of a kind, one after the other, looked up where they are.
///
/// ```
/// # use nunbirdstand::{Id, Kind, SortedDigests};
/// # let (one, other) = (Id::digest(Kind::Sha1, b"1"), Id::digest(Kind::Sha1, b"2"));
/// let table = [one.as_bytes(), other.as_bytes()].concat();
/// let digests = SortedDigests::new(Kind::Sha1, &table)?;
/// assert_eq!(digests.find(&"da4".parse()?)?, 1..2);
/// # Ok::<(), nunbirdstand::Error>(())
/// ```
#[derive(Clone, Copy)]
pub struct SortedDigests<'a> {
    kind: Kind,
    table: &'a [u8],
}

impl<'a> SortedDigests<'a> {
    /// Checks the order. The error is `Unsorted`, with the first position whose digest is below the one
    /// before it. A part of a digest at the end is left out.
    pub fn new(kind: Kind, table: &'a [u8]) -> Result<SortedDigests<'a>, Error> {
        let mut at = 0;
        // SAFETY: the slice is valid for its length.
        let code = unsafe { raw::gix_hash_check_sorted(kind as u32, table.as_ptr(), table.len(), &mut at) };
        Error::check(code, at as u64)?;
        Ok(SortedDigests { kind, table })
    }

    /// The kind of the digests.
    #[must_use]
    pub fn kind(&self) -> Kind {
        self.kind
    }

    /// The number of digests.
    #[must_use]
    pub fn len(&self) -> usize {
        self.table.len() / self.kind.len_in_bytes()
    }

    /// Whether there is none.
    #[must_use]
    pub fn is_empty(&self) -> bool {
        self.len() == 0
    }

    /// All digests, in order.
    pub fn iter(&self) -> Ids<'a> {
        self.table.chunks_exact(self.kind.len_in_bytes()).map(id_of)
    }

    /// The digest at a position, or `None` from the number of digests on.
    #[must_use]
    pub fn get(&self, at: usize) -> Option<Id> {
        self.iter().nth(at)
    }

    /// The positions of the digests that begin with a prefix. The error is `PrefixTooLong`.
    pub fn find(&self, prefix: &Prefix) -> Result<Range<usize>, Error> {
        let (kind, table, mut run) = (self.kind as u32, self.table, raw::Run::default());
        // SAFETY: the slice is valid for its length.
        let code = unsafe { raw::gix_hash_find(kind, table.as_ptr(), table.len(), &prefix.0, &mut run) };
        Error::check(code, 0)?;
        Ok(run.start..run.end)
    }
}

/// The digests of a table, in order.
pub type Ids<'a> = Map<ChunksExact<'a, u8>, fn(&'a [u8]) -> Id>;

fn id_of(digest: &[u8]) -> Id {
    Id::from_bytes(digest).expect("a digest has the length of its kind")
}

impl<'a> IntoIterator for &SortedDigests<'a> {
    type Item = Id;
    type IntoIter = Ids<'a>;

    fn into_iter(self) -> Ids<'a> {
        self.iter()
    }
}

/// The kind, and the number of digests.
impl fmt::Debug for SortedDigests<'_> {
    fn fmt(&self, f: &mut fmt::Formatter<'_>) -> fmt::Result {
        f.debug_struct("SortedDigests")
            .field("kind", &self.kind)
            .field("len", &self.len())
            .finish_non_exhaustive()
    }
}

/// What a pack index contains about an object.
#[derive(Debug, Clone, Copy, PartialEq, Eq)]
pub struct Entry {
    /// Its id.
    pub id: Id,
    /// Where it begins in the pack.
    pub offset: u64,
    /// The CRC-32 of the packed object.
    pub crc: u32,
}

/// A pack index of version 2, over its bytes.
///
/// ```no_run
/// # use nunbirdstand::{Kind, PackIndex};
/// let bytes = std::fs::read("pack.idx")?;
/// let index = PackIndex::new(Kind::Sha1, &bytes)?;
/// for entry in &index {
///     println!("{} {}", entry.offset, entry.id);
/// }
/// # Ok::<(), Box<dyn std::error::Error>>(())
/// ```
#[derive(Clone, Copy)]
pub struct PackIndex<'a> {
    kind: Kind,
    bytes: &'a [u8],
}

impl<'a> PackIndex<'a> {
    /// Checks the whole index. The error is `OtherKind`, or one from `IndexTooShort` to `WrongChecksum`.
    pub fn new(kind: Kind, bytes: &'a [u8]) -> Result<PackIndex<'a>, Error> {
        let mut detail = 0;
        // SAFETY: the slice is valid for its length.
        let code = unsafe { raw::gix_hash_pack_check(kind as u32, bytes.as_ptr(), bytes.len(), &mut detail) };
        Error::check(code, detail)?;
        Ok(PackIndex { kind, bytes })
    }

    /// Checks a whole index with ids of either kind. The error is one from `IndexTooShort` to `WrongChecksum`.
    pub fn of_any_kind(bytes: &'a [u8]) -> Result<PackIndex<'a>, Error> {
        let mut number = 0;
        // SAFETY: the slice is valid for its length.
        let code = unsafe { raw::gix_hash_pack_kind(bytes.as_ptr(), bytes.len(), &mut number) };
        match code {
            0 => Ok(PackIndex { kind: Kind::of(number), bytes }),
            // This is the same error, with its detail.
            _ if PackIndex::count(Kind::Sha256, bytes).is_some() => PackIndex::new(Kind::Sha256, bytes),
            _ => PackIndex::new(Kind::Sha1, bytes),
        }
    }

    /// The kind of the ids.
    #[must_use]
    pub fn kind(&self) -> Kind {
        self.kind
    }

    /// The number of objects.
    #[must_use]
    pub fn len(&self) -> usize {
        PackIndex::count(self.kind, self.bytes).unwrap_or(0)
    }

    // The number of objects, if the header and the lengths of the tables are those of an index of the kind.
    fn count(kind: Kind, bytes: &[u8]) -> Option<usize> {
        let mut count = 0;
        // SAFETY: the slice is valid for its length.
        let code = unsafe { raw::gix_hash_pack_count(kind as u32, bytes.as_ptr(), bytes.len(), &mut count) };
        (code == 0).then_some(count)
    }

    /// Whether there is none.
    #[must_use]
    pub fn is_empty(&self) -> bool {
        self.len() == 0
    }

    /// What the index contains about the object at a position, or `None` if it is not below `len`.
    #[must_use]
    pub fn get(&self, at: usize) -> Option<Entry> {
        let (kind, bytes, mut entry) = (self.kind as u32, self.bytes, raw::Entry::default());
        // SAFETY: the slice is valid for its length.
        let code = unsafe { raw::gix_hash_pack_entry(kind, bytes.as_ptr(), bytes.len(), at, &mut entry) };
        debug_assert!(code == 0 || code == Code::OutOfRange as u32);
        (code == 0).then_some(Entry { id: Id(entry.id), offset: entry.offset, crc: entry.crc })
    }

    /// The id of the object at a position, or `None` from the number of objects on.
    #[must_use]
    pub fn id(&self, at: usize) -> Option<Id> {
        let (kind, bytes, mut id) = (self.kind as u32, self.bytes, raw::Id::default());
        // SAFETY: the slice is valid for its length.
        let code = unsafe { raw::gix_hash_pack_id(kind, bytes.as_ptr(), bytes.len(), at, &mut id) };
        debug_assert!(code == 0 || code == Code::OutOfRange as u32);
        (code == 0).then_some(Id(id))
    }

    /// All that the index contains, in the order of ids.
    #[must_use]
    pub fn iter(&self) -> Entries<'a> {
        Entries { index: *self, left: 0..self.len() }
    }

    /// The positions of the objects whose ids begin with a prefix. The error is `PrefixTooLong`.
    pub fn find(&self, prefix: &Prefix) -> Result<Range<usize>, Error> {
        let (kind, bytes, mut run) = (self.kind as u32, self.bytes, raw::Run::default());
        // SAFETY: the slice is valid for its length.
        let code = unsafe { raw::gix_hash_pack_find(kind, bytes.as_ptr(), bytes.len(), &prefix.0, &mut run) };
        Error::check(code, 0)?;
        Ok(run.start..run.end)
    }

    /// The smallest number of first digits, at least 4, with which no other id begins. The error is
    /// `OutOfRange`, or `NotUnique` for an id that occurs more than once.
    pub fn abbreviate(&self, at: usize) -> Result<usize, Error> {
        let (kind, bytes, mut hex_len) = (self.kind as u32, self.bytes, 0);
        // SAFETY: the slice is valid for its length.
        let code =
            unsafe { raw::gix_hash_pack_abbreviate(kind, bytes.as_ptr(), bytes.len(), at, &mut hex_len) };
        Error::check(code, 0)?;
        Ok(hex_len)
    }
}

/// The kind, and the number of objects.
impl fmt::Debug for PackIndex<'_> {
    fn fmt(&self, f: &mut fmt::Formatter<'_>) -> fmt::Result {
        f.debug_struct("PackIndex")
            .field("kind", &self.kind)
            .field("len", &self.len())
            .finish_non_exhaustive()
    }
}

/// What a pack index contains, in the order of ids.
#[derive(Debug, Clone)]
pub struct Entries<'a> {
    index: PackIndex<'a>,
    left: Range<usize>,
}

impl Iterator for Entries<'_> {
    type Item = Entry;

    fn next(&mut self) -> Option<Entry> {
        self.index.get(self.left.next()?)
    }

    fn size_hint(&self) -> (usize, Option<usize>) {
        self.left.size_hint()
    }
}

impl DoubleEndedIterator for Entries<'_> {
    fn next_back(&mut self) -> Option<Entry> {
        self.index.get(self.left.next_back()?)
    }
}

impl ExactSizeIterator for Entries<'_> {}

impl<'a> IntoIterator for &PackIndex<'a> {
    type Item = Entry;
    type IntoIter = Entries<'a>;

    fn into_iter(self) -> Entries<'a> {
        self.iter()
    }
}
