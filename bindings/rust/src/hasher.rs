//! Digests of messages that come in chunks, and ids of objects.

use crate::{raw, Id, Kind};
use std::fmt;
use std::io;

/// A hash function at work on a message, which comes in chunks. As a writer it never fails.
///
/// ```
/// # use nunbirdstand::{Hasher, Id, Kind, ObjectType};
/// let mut hasher = Hasher::for_object(Kind::Sha1, ObjectType::Blob, 3);
/// std::io::copy(&mut &b"abc"[..], &mut hasher)?;
/// assert_eq!(hasher.finish(), Id::of_object(Kind::Sha1, ObjectType::Blob, b"abc"));
/// # Ok::<(), std::io::Error>(())
/// ```
#[derive(Clone)]
pub struct Hasher(raw::Hasher);

impl Hasher {
    /// A hasher of a message with no bytes yet.
    #[must_use]
    pub fn new(kind: Kind) -> Hasher {
        // SAFETY: the hasher is a struct.
        Hasher::made(|hasher| unsafe { raw::gix_hash_hasher_new(kind as u32, hasher) })
    }

    /// A hasher of an object of `len` bytes, which has been fed what `git hash-object` hashes before them. Feed it the
    /// bytes, and [`finish`](Hasher::finish) is the id of the object. No call checks that they are `len` bytes. If they are not,
    /// the digest is not the id of an object.
    #[must_use]
    pub fn for_object(kind: Kind, object_type: ObjectType, len: u64) -> Hasher {
        let object_type = object_type as u32;
        // SAFETY: the hasher is a struct.
        Hasher::made(|hasher| unsafe { raw::gix_hash_object_hasher(kind as u32, object_type, len, hasher) })
    }

    /// What a call makes that does not fail, since each kind and each type is a good one.
    fn made(call: impl FnOnce(&mut raw::Hasher) -> u32) -> Hasher {
        let mut hasher = raw::Hasher { kind: 0, words: [0; 8], count: 0, block: [0; 64] };
        let code = call(&mut hasher);
        debug_assert_eq!(code, 0);
        Hasher(hasher)
    }

    /// The kind of the digest.
    #[must_use]
    pub fn kind(&self) -> Kind {
        Kind::of(self.0.kind)
    }

    /// Appends bytes to the message.
    pub fn update(&mut self, bytes: &[u8]) {
        // SAFETY: the slice is valid for its length.
        let code = unsafe { raw::gix_hash_hasher_update(&mut self.0, bytes.as_ptr(), bytes.len()) };
        debug_assert_eq!(code, 0);
    }

    /// The digest of the message so far. More can be appended after it.
    #[must_use]
    pub fn finish(&self) -> Id {
        let mut id = raw::Id::default();
        // SAFETY: both are structs.
        let code = unsafe { raw::gix_hash_hasher_finish(&self.0, &mut id) };
        debug_assert_eq!(code, 0);
        Id(id)
    }
}

impl io::Write for Hasher {
    fn write(&mut self, bytes: &[u8]) -> io::Result<usize> {
        self.update(bytes);
        Ok(bytes.len())
    }

    fn flush(&mut self) -> io::Result<()> {
        Ok(())
    }
}

impl fmt::Debug for Hasher {
    fn fmt(&self, f: &mut fmt::Formatter<'_>) -> fmt::Result {
        f.debug_struct("Hasher").field("kind", &self.kind()).finish_non_exhaustive()
    }
}

/// The type of an object, by the number that it has in packs.
#[derive(Debug, Clone, Copy, PartialEq, Eq, PartialOrd, Ord, Hash)]
#[repr(u32)]
pub enum ObjectType {
    /// A commit.
    Commit = 1,
    /// A tree.
    Tree = 2,
    /// A blob.
    Blob = 3,
    /// An annotated tag.
    Tag = 4,
}

impl Id {
    /// The id of an object, as `git hash-object` computes it. Whether the bytes are such an object is not checked.
    #[must_use]
    pub fn of_object(kind: Kind, object_type: ObjectType, bytes: &[u8]) -> Id {
        let (ptr, len) = (bytes.as_ptr(), bytes.len());
        // SAFETY: the slice is valid for its length.
        Id::made(|id| unsafe { raw::gix_hash_object_id(kind as u32, object_type as u32, ptr, len, id) })
    }

    /// The id whose digits are all zero.
    #[must_use]
    pub fn null(kind: Kind) -> Id {
        // SAFETY: the id is a struct.
        Id::made(|id| unsafe { raw::gix_hash_id_null(kind as u32, id) })
    }

    /// The id of the blob with no bytes.
    #[must_use]
    pub fn empty_blob(kind: Kind) -> Id {
        // SAFETY: the id is a struct.
        Id::made(|id| unsafe { raw::gix_hash_id_empty_blob(kind as u32, id) })
    }

    /// The id of the tree with no entries.
    #[must_use]
    pub fn empty_tree(kind: Kind) -> Id {
        // SAFETY: the id is a struct.
        Id::made(|id| unsafe { raw::gix_hash_id_empty_tree(kind as u32, id) })
    }

    /// What a call makes that does not fail, since each kind and each type is a good one.
    fn made(call: impl FnOnce(&mut raw::Id) -> u32) -> Id {
        let mut id = raw::Id::default();
        let code = call(&mut id);
        debug_assert_eq!(code, 0);
        Id(id)
    }
}
