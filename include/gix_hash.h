/*
 * Git's object ids for C: SHA-1 and SHA-256 ids, prefixes of their hex digits, digests of bytes
 * and ids of objects, look-ups in sorted tables of digests, and pack indexes. Link libgix_hash, as by
 * cc program.c $(pkg-config --cflags --libs gix_hash).
 *
 * A len is a number of bytes, a hex_len a number of hex digits, of which a byte has two. A position
 * counts from 0. A text is a pointer to chars and their number, len.
 *
 * SHA-1 is computed without the detection of collisions that Git has: where others make the bytes, an
 * equal id does not prove that they are equal.
 *
 * No function allocates memory or keeps anything between calls, so any thread may call any function at
 * any time. Every call is safe and returns, whatever the values are, if the caller ensures that
 *
 * - each pointer is aligned, and each len is below 2^63;
 * - a pointer with a len points to len initialised bytes (if the len is 0, it may be null), and any
 *   other to one initialised struct or number. Initialise also what a function writes, for example to
 *   zeros;
 * - nobody changes these bytes during the call, and what a function writes does not overlap anything
 *   else that is passed to it.
 *
 * A function that returns a code returns GIX_HASH_OK if it succeeds. Otherwise it returns the first code
 * in its list that applies, and writes nothing. The two exceptions are *at of gix_hash_check_sorted and
 * *detail of gix_hash_pack_check, which say more about the code.
 *
 * For example, this finds the objects of a pack index of len bytes whose ids begin with 4b82. If code is
 * GIX_HASH_OK then, they are at the positions from run.start on, before run.end:
 *
 *     gix_hash_prefix prefix = {0};
 *     gix_hash_run run = {0};
 *     uint32_t kind = 0, code = gix_hash_pack_kind(bytes, len, &kind);
 *     if (!code) code = gix_hash_prefix_from_hex("4b82", 4, &prefix);
 *     if (!code) code = gix_hash_pack_find(kind, bytes, len, &prefix, &run);
 */
#ifndef GIX_HASH_H
#define GIX_HASH_H

#include <stddef.h>
#include <stdint.h>

#ifdef __cplusplus
extern "C" {
#endif

#define GIX_HASH_VERSION "0.7.0"

/* gcc warns of bytes that are fewer than their len says, and of what is not initialised. */
#if defined(__GNUC__) && __GNUC__ >= 10
#define GIX_HASH_READS(...) __attribute__((access(read_only, __VA_ARGS__)))
#define GIX_HASH_WRITES(...) __attribute__((access(read_write, __VA_ARGS__)))
#else
#define GIX_HASH_READS(...)
#define GIX_HASH_WRITES(...)
#endif

/* Kinds. */
#define GIX_HASH_SHA1 1   /* 20 bytes, 40 digits */
#define GIX_HASH_SHA256 2 /* 32 bytes, 64 digits */

/* Types of objects, by the numbers that they have in packs. */
#define GIX_HASH_COMMIT 1
#define GIX_HASH_TREE 2
#define GIX_HASH_BLOB 3
#define GIX_HASH_TAG 4

/* Codes: the name, the number and the meaning of each. From 16 on they say why bytes are not a pack
 * index. "detail" is a number that gix_hash_pack_check writes, and "at" one of gix_hash_check_sorted. */
#define GIX_HASH_CODES(CODE) \
    CODE(OK, 0, "success") \
    CODE(BAD_LENGTH, 1, "wrong length: an id has 40 or 64 digits (20 or 32 bytes), and a prefix 1 to 64 digits") \
    CODE(BAD_DIGIT, 2, "a byte of the text is not a hex digit") \
    CODE(BAD_KIND, 3, "the kind is neither GIX_HASH_SHA1 nor GIX_HASH_SHA256") \
    CODE(NO_ROOM, 4, "the buffer is too short") \
    CODE(PREFIX_TOO_LONG, 5, "the prefix has more digits than ids of the kind") \
    CODE(OUT_OF_RANGE, 6, "the position is not below the number of objects") \
    CODE(UNSORTED, 7, "a digest is below the one before it (at: its position)") \
    CODE(NOT_UNIQUE, 8, "another object has the same id, so none of its prefixes is unique") \
    CODE(BAD_TYPE, 9, "the type is not one of GIX_HASH_COMMIT to GIX_HASH_TAG") \
    CODE(INDEX_TOO_SHORT, 16, "fewer bytes than any pack index has") \
    CODE(VERSION_1, 17, "a pack index of version 1, by its length") \
    CODE(BAD_MAGIC, 18, "not a pack index (bad magic number)") \
    CODE(BAD_VERSION, 19, "a pack index of another version than 2 (detail: its version)") \
    CODE(WRONG_LENGTH, 20, "the tables do not fill the bytes") \
    CODE(NAMES_FALL, 21, "an object id is below the one before it (detail: its position)") \
    CODE(WRONG_COUNT, 22, "an entry of the fan-out table is wrong (detail: its first byte)") \
    CODE(NO_OFFSET, 23, "an object's 8-byte offset is missing (detail: the object's position)") \
    CODE(LONG_OUT_OF_ORDER, 24, "an object's 8-byte offset is not the next one (detail: the object's position)") \
    CODE(SPARE_LONG, 25, "an 8-byte offset is unused (detail: its position)") \
    CODE(OFFSET_IN_HEADER, 26, "an object's offset is below 12 (detail: the object's position)") \
    CODE(OFFSET_TOO_HIGH, 27, "an object's offset is 2^63 or more (detail: the object's position)") \
    CODE(WRONG_CHECKSUM, 28, "the last bytes are not the digest of those before them") \
    CODE(OTHER_KIND, 29, "a pack index of the other kind (detail: its kind)")

/* GIX_HASH_OK, GIX_HASH_BAD_LENGTH, .. */
#ifdef GIX_HASH_CODE
#error "gix_hash.h defines the macro GIX_HASH_CODE for itself"
#endif
#define GIX_HASH_CODE(name, number, text) GIX_HASH_##name = number,
enum { GIX_HASH_CODES(GIX_HASH_CODE) };
#undef GIX_HASH_CODE

/* Returns the meaning of a code, or of another number a text that says so. */
static inline const char *gix_hash_code_text(uint32_t code) {
#define GIX_HASH_CODE(name, number, text) case number: return text;
    switch (code) { GIX_HASH_CODES(GIX_HASH_CODE) }
#undef GIX_HASH_CODE
    return "not a code of gix_hash.h";
}

/* Returned by the comparisons for bad arguments, instead of -1, 0 or 1. */
#define GIX_HASH_NO_ORDER 2

/* An id. The 12 bytes after a digest of SHA-1 are not read, and are written as zeros. */
typedef struct gix_hash_id {
    uint32_t kind;
    uint8_t bytes[32];
} gix_hash_id;

/* A prefix of 1 to 64 digits, two a byte, the high half first. The bits after them are not read, and
 * are written as zeros. */
typedef struct gix_hash_prefix {
    uint32_t hex_len;
    uint8_t bytes[32];
} gix_hash_prefix;

/* The positions start..end, a half-open range. The run is empty if they are equal. */
typedef struct gix_hash_run {
    size_t start;
    size_t end;
} gix_hash_run;

/* What a pack index contains about an object: the byte of the pack at which it begins, the CRC-32 of
 * the packed object, and its id. */
typedef struct gix_hash_entry {
    uint64_t offset;
    uint32_t crc;
    gix_hash_id id;
} gix_hash_entry;

/* A hash function at work on a message, which comes in chunks. Any values are safe, but only those that
 * gix_hash_hasher_new, gix_hash_object_hasher and gix_hash_hasher_update wrote stand for a message. A copy of the struct is a
 * hasher of its own. What words, count and block contain may change with the version. */
typedef struct gix_hash_hasher {
    uint32_t kind;
    uint32_t words[8];
    uint64_t count;
    uint8_t block[64];
} gix_hash_hasher;

/* Returns the version of the library that is linked: 10,000 times the first number of GIX_HASH_VERSION,
 * 100 times the second, and the third: 10203 for 1.2.3, and also for 1.2.3-dev. */
uint32_t gix_hash_version(void);

/* Reads an id from a text of 40 or 64 hex digits in either case. No zero has to end it.
 * Returns GIX_HASH_OK, GIX_HASH_BAD_LENGTH or GIX_HASH_BAD_DIGIT. */
GIX_HASH_READS(1, 2) GIX_HASH_WRITES(3)
uint32_t gix_hash_id_from_hex(const char *text, size_t len, gix_hash_id *id);

/* Writes the 40 or 64 lowercase hex digits of an id to the front of a buffer. The bytes after them stay
 * as they were, so no zero ends the digits.
 * Returns GIX_HASH_OK, GIX_HASH_BAD_KIND or GIX_HASH_NO_ROOM. */
GIX_HASH_READS(1) GIX_HASH_WRITES(2, 3)
uint32_t gix_hash_id_to_hex(const gix_hash_id *id, char *buffer, size_t len);

/* Writes the 40 or 64 lowercase hex digits of an id to the front of a buffer, and a zero after them. The
 * bytes after it stay as they were. 65 bytes are enough for both kinds.
 * Returns GIX_HASH_OK, GIX_HASH_BAD_KIND or GIX_HASH_NO_ROOM. */
GIX_HASH_READS(1) GIX_HASH_WRITES(2, 3)
uint32_t gix_hash_id_to_text(const gix_hash_id *id, char *text, size_t len);

/* Takes an id from the 20 or 32 bytes of its digest.
 * Returns GIX_HASH_OK, GIX_HASH_BAD_KIND or GIX_HASH_BAD_LENGTH. */
GIX_HASH_READS(2, 3) GIX_HASH_WRITES(4)
uint32_t gix_hash_id_from_bytes(uint32_t kind, const uint8_t *bytes, size_t len, gix_hash_id *id);

/* Gets the id whose digits are all zero, that of the blob with no bytes, or that of the tree with no
 * entries.
 * Each returns GIX_HASH_OK or GIX_HASH_BAD_KIND. */
GIX_HASH_WRITES(2)
uint32_t gix_hash_id_null(uint32_t kind, gix_hash_id *id);
GIX_HASH_WRITES(2)
uint32_t gix_hash_id_empty_blob(uint32_t kind, gix_hash_id *id);
GIX_HASH_WRITES(2)
uint32_t gix_hash_id_empty_tree(uint32_t kind, gix_hash_id *id);

/* Returns the order of two ids, by kind and then by digits: -1 if one is below other, 0 if they are
 * equal, 1 if one is above other; GIX_HASH_NO_ORDER if a kind is bad. */
GIX_HASH_READS(1) GIX_HASH_READS(2)
int32_t gix_hash_id_cmp(const gix_hash_id *one, const gix_hash_id *other);

/* Reads a prefix from a text of 1 to 64 hex digits in either case. No zero has to end it.
 * Returns GIX_HASH_OK, GIX_HASH_BAD_LENGTH or GIX_HASH_BAD_DIGIT. */
GIX_HASH_READS(1, 2) GIX_HASH_WRITES(3)
uint32_t gix_hash_prefix_from_hex(const char *text, size_t len, gix_hash_prefix *prefix);

/* Returns the order of a prefix and as many first digits of an id: 0 if and only if the id begins with
 * the prefix, -1 if the prefix is below them, 1 if it is above; GIX_HASH_NO_ORDER if the hex_len or
 * the kind is bad, or the id has fewer digits than the prefix. */
GIX_HASH_READS(1) GIX_HASH_READS(2)
int32_t gix_hash_prefix_cmp_id(const gix_hash_prefix *prefix, const gix_hash_id *id);

/* Computes the digest of bytes. (The id of a blob is another one: see gix_hash_object_id.)
 * Returns GIX_HASH_OK or GIX_HASH_BAD_KIND. */
GIX_HASH_READS(2, 3) GIX_HASH_WRITES(4)
uint32_t gix_hash_digest(uint32_t kind, const uint8_t *bytes, size_t len, gix_hash_id *id);

/* Makes a hasher of a message with no bytes yet.
 * Returns GIX_HASH_OK or GIX_HASH_BAD_KIND. */
GIX_HASH_WRITES(2)
uint32_t gix_hash_hasher_new(uint32_t kind, gix_hash_hasher *hasher);

/* Appends bytes to the message of a hasher.
 * Returns GIX_HASH_OK, or GIX_HASH_BAD_KIND for a hasher of no kind, as one of zeros. */
GIX_HASH_WRITES(1) GIX_HASH_READS(2, 3)
uint32_t gix_hash_hasher_update(gix_hash_hasher *hasher, const uint8_t *bytes, size_t len);

/* Computes the digest of the message so far. The hasher stays as it is, and can be fed more.
 * Returns GIX_HASH_OK, or GIX_HASH_BAD_KIND for a hasher of no kind, as one of zeros. */
GIX_HASH_READS(1) GIX_HASH_WRITES(2)
uint32_t gix_hash_hasher_finish(const gix_hash_hasher *hasher, gix_hash_id *id);

/* Computes the id of an object from its type and its bytes, as git hash-object does: the digest of the
 * name of the type, a space, len in decimal, a zero, and the bytes. For an object that comes in chunks
 * there is gix_hash_object_hasher. Whether the bytes are a tree, a commit or a tag is not checked.
 * Returns GIX_HASH_OK, GIX_HASH_BAD_KIND or GIX_HASH_BAD_TYPE. */
GIX_HASH_READS(3, 4) GIX_HASH_WRITES(5)
uint32_t gix_hash_object_id(uint32_t kind, uint32_t object_type, const uint8_t *bytes, size_t len, gix_hash_id *id);

/* Makes a hasher of an object of len bytes, which come in chunks: its message is what gix_hash_object_id
 * hashes before them, the name of the type, a space, len in decimal, and a zero. Feed it the bytes by
 * gix_hash_hasher_update, and gix_hash_hasher_finish computes the id. That they are len bytes is not checked:
 * of more or fewer the digest is the id of no object.
 * Returns GIX_HASH_OK, GIX_HASH_BAD_KIND or GIX_HASH_BAD_TYPE. */
GIX_HASH_WRITES(4)
uint32_t gix_hash_object_hasher(uint32_t kind, uint32_t object_type, uint64_t len, gix_hash_hasher *hasher);

/* Tests whether a table of digests of a kind, one after the other, is sorted. Duplicates are fine, and a
 * part of a digest at the end is not read. Takes time proportional to len.
 * Returns GIX_HASH_OK, GIX_HASH_BAD_KIND, or GIX_HASH_UNSORTED with the first position whose digest
 * is below the one before it in *at. */
GIX_HASH_READS(2, 3) GIX_HASH_WRITES(4)
uint32_t gix_hash_check_sorted(uint32_t kind, const uint8_t *table, size_t len, size_t *at);

/* Finds the digests of a sorted table that begin with a prefix, in time logarithmic in len. If none
 * does, the run is empty, at the position where the prefix would be. If the table is not sorted, the
 * run is unspecified, but in range. A part of a digest at the end is not read.
 * Returns GIX_HASH_OK, GIX_HASH_BAD_KIND, GIX_HASH_BAD_LENGTH (of the prefix) or GIX_HASH_PREFIX_TOO_LONG. */
GIX_HASH_READS(2, 3) GIX_HASH_READS(4) GIX_HASH_WRITES(5)
uint32_t gix_hash_find(uint32_t kind, const uint8_t *table, size_t len, const gix_hash_prefix *prefix, gix_hash_run *run);

/* Gets the kind of which the bytes are a pack index, and checks them whole. By their length they can be
 * one of at most one kind.
 * Returns GIX_HASH_OK, or the code of gix_hash_pack_check: for GIX_HASH_SHA256 if gix_hash_pack_count
 * returns GIX_HASH_OK for that kind, and otherwise for GIX_HASH_SHA1. */
GIX_HASH_READS(1, 2) GIX_HASH_WRITES(3)
uint32_t gix_hash_pack_kind(const uint8_t *bytes, size_t len, uint32_t *kind);

/* Checks whether bytes are a pack index of version 2 with ids of a kind: lengths, order of the ids,
 * fan-out table, offsets and checksum. Git's reader tests neither the order nor the checksum, nor that
 * each 8-byte offset is used: git verify-pack does. Takes time proportional to len.
 * Returns GIX_HASH_OK, GIX_HASH_BAD_KIND, GIX_HASH_OTHER_KIND, or the first of the codes from
 * GIX_HASH_INDEX_TOO_SHORT to GIX_HASH_WRONG_CHECKSUM that applies, with its detail, if it has one, in
 * *detail.
 *
 * The functions below are for bytes that this one accepted, and say what the index contains. They test
 * only the kind, the magic number, the version and the lengths of the tables, in constant time, and
 * return GIX_HASH_BAD_KIND, or a code from GIX_HASH_INDEX_TOO_SHORT to GIX_HASH_WRONG_LENGTH. They are safe
 * for any bytes, also if the bytes changed since the check. */
GIX_HASH_READS(2, 3) GIX_HASH_WRITES(4)
uint32_t gix_hash_pack_check(uint32_t kind, const uint8_t *bytes, size_t len, uint64_t *detail);

/* Gets the number of objects. */
GIX_HASH_READS(2, 3) GIX_HASH_WRITES(4)
uint32_t gix_hash_pack_count(uint32_t kind, const uint8_t *bytes, size_t len, size_t *count);

/* Gets the offset, the CRC-32 and the id of the object at a position.
 * Also returns GIX_HASH_OUT_OF_RANGE or GIX_HASH_NO_OFFSET, after the codes above. */
GIX_HASH_READS(2, 3) GIX_HASH_WRITES(5)
uint32_t gix_hash_pack_entry(uint32_t kind, const uint8_t *bytes, size_t len, size_t at, gix_hash_entry *entry);

/* Gets the id of the object at a position.
 * Also returns GIX_HASH_OUT_OF_RANGE, after the codes above. */
GIX_HASH_READS(2, 3) GIX_HASH_WRITES(5)
uint32_t gix_hash_pack_id(uint32_t kind, const uint8_t *bytes, size_t len, size_t at, gix_hash_id *id);

/* Finds the objects whose ids begin with a prefix, as gix_hash_find does. An id that is in the index twice
 * is a run of two: the prefix means one id if the first and the last of its run are equal.
 * Also returns GIX_HASH_BAD_LENGTH or GIX_HASH_PREFIX_TOO_LONG, right after GIX_HASH_BAD_KIND. */
GIX_HASH_READS(2, 3) GIX_HASH_READS(4) GIX_HASH_WRITES(5)
uint32_t gix_hash_pack_find(uint32_t kind, const uint8_t *bytes, size_t len, const gix_hash_prefix *prefix, gix_hash_run *run);

/* Gets the length in digits of the abbreviation of the object at a position: its shortest prefix of 4
 * digits or more with which no other id of the index begins. For any bytes it is at most 40 or 64, by
 * the kind. Takes constant time.
 * Also returns GIX_HASH_OUT_OF_RANGE or GIX_HASH_NOT_UNIQUE, after the codes above. */
GIX_HASH_READS(2, 3) GIX_HASH_WRITES(5)
uint32_t gix_hash_pack_abbreviate(uint32_t kind, const uint8_t *bytes, size_t len, size_t at, size_t *hex_len);

#ifdef __cplusplus
}
#endif

#endif
