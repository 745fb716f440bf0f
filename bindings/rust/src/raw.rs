//! The declarations of `include/gix_hash.h`.

#[repr(C)]
#[derive(Clone, Copy, Default, PartialEq, Eq, Hash)]
pub struct Id {
    pub kind: u32,
    pub bytes: [u8; 32],
}

#[repr(C)]
#[derive(Clone, Copy, Default, PartialEq, Eq, Hash)]
pub struct Prefix {
    pub hex_len: u32,
    pub bytes: [u8; 32],
}

#[repr(C)]
#[derive(Default)]
pub struct Run {
    pub start: usize,
    pub end: usize,
}

#[repr(C)]
#[derive(Default)]
pub struct Entry {
    pub offset: u64,
    pub crc: u32,
    pub id: Id,
}

#[repr(C)]
#[derive(Clone)]
pub struct Hasher {
    pub kind: u32,
    pub words: [u32; 8],
    pub count: u64,
    pub block: [u8; 64],
}

// Some are not called, since the bytes and digits of an id are at hand in Rust.
#[allow(dead_code)]
extern "C" {
    pub fn gix_hash_version() -> u32;
    pub fn gix_hash_id_from_hex(text: *const u8, len: usize, id: *mut Id) -> u32;
    pub fn gix_hash_id_to_hex(id: *const Id, buffer: *mut u8, len: usize) -> u32;
    pub fn gix_hash_id_to_text(id: *const Id, text: *mut u8, len: usize) -> u32;
    pub fn gix_hash_id_from_bytes(kind: u32, bytes: *const u8, len: usize, id: *mut Id) -> u32;
    pub fn gix_hash_id_null(kind: u32, id: *mut Id) -> u32;
    pub fn gix_hash_id_empty_blob(kind: u32, id: *mut Id) -> u32;
    pub fn gix_hash_id_empty_tree(kind: u32, id: *mut Id) -> u32;
    pub fn gix_hash_id_cmp(one: *const Id, other: *const Id) -> i32;
    pub fn gix_hash_prefix_from_hex(text: *const u8, len: usize, prefix: *mut Prefix) -> u32;
    pub fn gix_hash_prefix_cmp_id(prefix: *const Prefix, id: *const Id) -> i32;
    pub fn gix_hash_digest(kind: u32, bytes: *const u8, len: usize, id: *mut Id) -> u32;
    pub fn gix_hash_hasher_new(kind: u32, hasher: *mut Hasher) -> u32;
    pub fn gix_hash_hasher_update(hasher: *mut Hasher, bytes: *const u8, len: usize) -> u32;
    pub fn gix_hash_hasher_finish(hasher: *const Hasher, id: *mut Id) -> u32;
    pub fn gix_hash_object_id(kind: u32, object_type: u32, bytes: *const u8, len: usize, id: *mut Id) -> u32;
    pub fn gix_hash_object_hasher(kind: u32, object_type: u32, len: u64, hasher: *mut Hasher) -> u32;
    pub fn gix_hash_check_sorted(kind: u32, table: *const u8, len: usize, at: *mut usize) -> u32;
    pub fn gix_hash_find(
        kind: u32,
        table: *const u8,
        len: usize,
        prefix: *const Prefix,
        run: *mut Run,
    ) -> u32;
    pub fn gix_hash_pack_check(kind: u32, bytes: *const u8, len: usize, detail: *mut u64) -> u32;
    pub fn gix_hash_pack_kind(bytes: *const u8, len: usize, kind: *mut u32) -> u32;
    pub fn gix_hash_pack_count(kind: u32, bytes: *const u8, len: usize, count: *mut usize) -> u32;
    pub fn gix_hash_pack_entry(kind: u32, bytes: *const u8, len: usize, at: usize, entry: *mut Entry) -> u32;
    pub fn gix_hash_pack_id(kind: u32, bytes: *const u8, len: usize, at: usize, id: *mut Id) -> u32;
    pub fn gix_hash_pack_find(
        kind: u32,
        bytes: *const u8,
        len: usize,
        prefix: *const Prefix,
        run: *mut Run,
    ) -> u32;
    pub fn gix_hash_pack_abbreviate(
        kind: u32,
        bytes: *const u8,
        len: usize,
        at: usize,
        hex_len: *mut usize,
    ) -> u32;
}

#[cfg(test)]
mod tests {
    #[test]
    fn version() {
        // SAFETY: it takes nothing.
        let version = unsafe { super::gix_hash_version() };
        let text = format!("{}.{}.{}", version / 10000, version / 100 % 100, version % 100);
        assert_eq!(text, env!("CARGO_PKG_VERSION").trim_end_matches("-dev"));
    }
}
