"""Pack indexes that are changed, and what packtool says of them."""

from gitstore import plain_index

# Ids of objects, of which nothing else is read.
PACKED = "4b825dc642cb6eb9a060e54bf8d69288fbee4904"
BOTH = "4b90000000000000000000000000000000000000"
LOOSE = "4bffffffffffffffffffffffffffffffffffffff"
# An id of each kind, with one beginning.
IDS = {"sha1": f"4b{'0' * 38}", "sha256": f"4b{'0' * 62}"}
# What `find x` says in a store of each kind.
NO_PREFIX = {kind: f"x: not 2 to {len(id)} hex digits" for kind, id in IDS.items()}

# Bytes of sha1.idx, which has 21 ids, by position and value, and the error of the changed index.
BROKEN = [
    # The magic number, and the version.
    (0, 0, "not a pack index (bad magic number)"),
    (7, 3, "pack indexes of version 3 are not read"),
    # The count of byte 1, and that of byte 255.
    (15, 200, "the fan-out entry of the first byte 01 is wrong"),
    (1031, 20, "the tables of the pack index do not fill its bytes"),
    # The first byte of the second id, and the highest of the third offset.
    (1052, 0, "the id at position 1 is below the one before it"),
    (1544, 128, "the object at position 2 has no offset"),
    # The last byte of the pack's digest, and the last of all.
    (1639, 0, "the checksum of the pack index is wrong"),
    (1659, 0, "the checksum of the pack index is wrong"),
]
# Bytes of longs.idx, whose 4 objects have 8-byte offsets except the second, as many as there may be. The checksum is made right.
RESEALED = [
    # The last bytes of the words of the first object and of the third: their numbers are 1 and 0.
    (1131, 1, "the 8-byte offset of the object at position 0 is not the next one"),
    (1139, 0, "the 8-byte offset of the object at position 2 is not the next one"),
    # That of the fourth: its number is 3. Then its word is short, and an 8-byte offset is spare.
    (1143, 3, "the object at position 3 has no offset"),
    (1140, 0, "the 8-byte offset at position 2 is unused"),
    # The second object's offset is 11, then 13.
    (1135, 11, "the offset of the object at position 1 is in the header of the pack"),
    (1135, 13, ""),
    # The last byte of the first 8-byte offset, and the highest of all three.
    (1151, 11, "the offset of the object at position 0 is in the header of the pack"),
    (1151, 12, ""),
    (1152, 128, "the offset of the object at position 2 is 2^63 or more"),
    (1152, 127, ""),
]
# Whole files that are read as what they are not, or are no index of version 2 that Git's reader takes: one has as many 8-byte
# offsets as ids.
OTHERS = [
    ("sha256.idx", "sha1", "the ids of the pack index are of the kind sha256"),
    ("version-1-none.idx", "sha1", "pack indexes of version 1 are not read"),
    ("all-long.idx", "sha1", "the tables of the pack index do not fill its bytes"),
    ("none.idx", "sha1", ""),
]

# The highest offset that Git has.
LAST_OFFSET = (1 << 63) - 1
# Two packs. The second has two 8-byte offsets.
TWO = {
    "pack-1": plain_index([f"4b825d{'0' * 34}", PACKED, "e69de29bb2d1d6434b8b29ae775ad8c2e48c5391", "f" * 40]),
    "pack-2": plain_index(["0" * 40, PACKED, BOTH], (0x1_0000_000C, LAST_OFFSET)),
}
# Bytes of the first index, by position and value, and why it is passed over then.
BAD_HEADS = [
    # The count of byte 4a, and that of byte 4b.
    (307, 3, "the fan-out entry of the first byte 4b is below the one before it"),
    (311, 3, "the fan-out entry of the first byte 4c is below the one before it"),
    (0, 0, "not a pack index (bad magic number)"),
    (7, 3, "pack indexes of version 3 are not read"),
    (1031, 5, "the tables of the pack index do not fill its bytes"),
]
# The first byte of its first name, and the error of its look-up of `4b` then.
DAMAGED = [(1032, 0, "an id among those with the first byte 4b has another")]
