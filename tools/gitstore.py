"""Ids, packs, pack indexes and stores that the tools make, by git or by hand, and what git says of stores. What is made by hand has
empty objects: nothing is read of them except their ids."""

import bisect
import hashlib
import os
import random
import struct
import zlib
from pathlib import Path

from probe import ROOT, git, temporary

# Pack indexes of the tests, and how they are made: `recipes` of tools/stores.
DATA = ROOT / "crates" / "packtool_tests" / "data"
# Of each kind of ids how many digits they have, and the letters of a change id, from that of the digit 0 on.
DIGITS = {"sha1": 40, "sha256": 64}
LETTERS = str.maketrans("0123456789abcdef", "zyxwvutsrqponmlk")
# The text of a `HEAD`, and the config of a repository of each kind.
HEAD = b"ref: refs/heads/main\n"
SHA256 = b"[core]\nrepositoryformatversion = 1\n[extensions]\n\tobjectformat = sha256\n"
CONFIGS = {"sha1": b"[core]\n", "sha256": SHA256}
# How many blobs a store has in its packs, if nobody says it; the first offset in a pack index of ids; and how often a store is packed
# again while it is read.
PACKED, FIRST, ROUNDS = 3000, 3072, 4
# A time, in seconds, after which a change leaves another time of a file, so that a store is kept.
SETTLED = 0.025


def write(path, content=b""):
    """Writes a file, and makes the directories that it is in."""
    path.parent.mkdir(parents=True, exist_ok=True)
    path.write_bytes(content)


def write_all(room, files):
    """Writes files, each by its path in a directory."""
    for name, content in files.items():
        write(room / name, content)


def changed(whole, at, value):
    """The bytes with one that has another value."""
    return whole[:at] + bytes([value]) + whole[at + 1 :]


def digest_of(kind):
    """The hash function of a kind of ids, and the length of its digests."""
    return getattr(hashlib, kind), DIGITS[kind] // 2


def sealed(body, digest=hashlib.sha1):
    """The bytes with their digest after them."""
    return body + digest(body).digest()


def sorted_ids(size, id_lens):
    """That many random sorted ids in hex, each of one of these numbers of bytes, the same at each run."""
    rng = random.Random(size + sum(id_lens))
    for word in sorted(rng.getrandbits(64) for _ in range(size)):
        yield f"{word:016x}{rng.randbytes(rng.choice(id_lens) - 8).hex()}"


def pack_index(rows, longs=None, pack=None):
    """The bytes of a pack index of version 2 of sorted rows, each an offset, an id in hex and a CRC. Offsets are long at
    these positions, and else from 2^31 on. The pack's digest is zeros if it is not given."""
    digest = hashlib.sha1 if len(rows[0][1]) == 40 else hashlib.sha256
    names = [bytes.fromhex(id) for _, id, _ in rows]
    is_long = [at in longs if longs is not None else offset >> 31 > 0 for at, (offset, _, _) in enumerate(rows)]
    words = [(1 << 31) + sum(is_long[:at]) if is_long[at] else offset for at, (offset, _, _) in enumerate(rows)]
    parts = [b"\xfftOc\0\0\0\2", counts_of(names), *names]
    parts += [struct.pack(f">{len(rows)}I", *(crc for _, _, crc in rows)), struct.pack(f">{len(rows)}I", *words)]
    parts += [struct.pack(">Q", offset) for at, (offset, _, _) in enumerate(rows) if is_long[at]]
    return sealed(b"".join(parts) + (pack or bytes(digest().digest_size)), digest)


def version_1(rows, pack):
    """The bytes of a pack index of version 1."""
    names = [bytes.fromhex(id) for _, id, _ in rows]
    parts = [struct.pack(">I", offset) + name for (offset, _, _), name in zip(rows, names)]
    return sealed(b"".join([counts_of(names), *parts, pack]), hashlib.sha1 if len(names[0]) == 20 else hashlib.sha256)


def counts_of(names):
    """The fan-out table of sorted names."""
    firsts = [name[0] for name in names]
    return struct.pack(">256I", *(bisect.bisect_right(firsts, byte) for byte in range(256)))


def index_of(ids):
    """A pack index of sorted ids, each with a random CRC and an offset of its own."""
    ids = list(ids)
    rng = random.Random(len(ids))
    offsets = [12 + 40 * position for position in range(len(ids))]
    rng.shuffle(offsets)
    return pack_index([(offset, id, rng.getrandbits(32)) for offset, id in zip(offsets, ids)])


def plain_index(ids, longs=()):
    """A pack index of sorted ids. The first offsets are these, and each other is FIRST and the position of its id."""
    offsets = [*longs, *range(FIRST + len(longs), FIRST + len(ids))]
    return pack_index([(offset, id, 0) for offset, id in zip(offsets, ids)])


def pack_of(texts):
    """The bytes of a pack of blobs, each shorter than 16 bytes."""
    blobs = b"".join(bytes([0x30 | len(text)]) + zlib.compress(text.encode()) for text in texts)
    return sealed(b"PACK" + struct.pack(">II", 2, len(texts)) + blobs)


def add_objects(objects, loose=(), packs=()):
    """Adds loose objects to an object directory, and packs, which are empty and have an index each."""
    for id in loose:
        write(objects / id[:2] / id[2:])
    for number, ids in enumerate(packs):
        add_pack(objects, f"pack-{number}", index_of(ids))


def add_pack(objects, name, index):
    """Adds an empty pack with this index to an object directory."""
    write(objects / "pack" / f"{name}.idx", index)
    write(objects / "pack" / f"{name}.pack")


def add_repository(directory, kind="sha1", loose=(), packs=()):
    """Makes a directory a repository with such objects."""
    write_all(directory, {"HEAD": HEAD, "config": CONFIGS[kind], "refs/none": b"", "objects/info/none": b""})
    add_objects(directory / "objects", loose, packs)


def add_blobs(directory, texts):
    """Adds a loose blob of each of these texts to a repository, and returns their ids."""
    with temporary() as room:
        paths = [room / str(number) for number in range(len(texts))]
        for path, text in zip(paths, texts):
            path.write_text(text, encoding="utf-8")
        return git(directory, "hash-object", "-w", "--stdin-paths", given="".join(f"{path}\n" for path in paths).encode()).split()


def pack_objects(directory, ids, target):
    """Packs objects of a repository, which stay loose, and returns the path of the pack: this text, a hyphen and its digest."""
    given = "".join(f"{id}\n" for id in ids).encode()
    digest = git(directory, "pack-objects", "--quiet", "--window=0", target, given=given).strip()
    return Path(directory, f"{target}-{digest}.pack")


def make_blobs(directory, kind, packs=2, packed=PACKED, loose=200, seed=0):
    """Makes a bare repository with that many packs, blobs in them, and loose blobs."""
    git(directory.parent, "init", "--quiet", "--bare", f"--object-format={kind}", directory)
    texts = [f"{seed} {number}" for number in range(packed)]
    for at in range(packs):
        given = "".join(f"blob\ndata {len(text)}\n{text}\n" for text in texts[at::packs])
        git(directory, "-c", "fastimport.unpackLimit=0", "fast-import", "--quiet", given=given.encode())
    add_blobs(directory, [f"{seed} loose {number}" for number in range(loose)])


def some_prefixes(ids, size, least):
    """That many random prefixes, of ids and of none, some in capitals: of at least so many digits, and most of few."""
    rng = random.Random(size + least)
    for _ in range(size):
        id = rng.choice(ids)
        prefix = id[: rng.randint(least, rng.choice((least + 1, 8, len(id))))]
        if rng.random() < 0.3:
            prefix = prefix[:-1] + rng.choice("0123456789abcdef")
        yield prefix.upper() if rng.random() < 0.1 else prefix


def beginning_with(ids, prefix):
    """The sorted ids that begin with a prefix."""
    return ids[bisect.bisect_left(ids, prefix.lower()) : bisect.bisect_left(ids, f"{prefix.lower()}g")]


def answered(ids, prefixes):
    """The lines of `find --stdin` for prefixes, no errors, and its status."""
    found = [(prefix, beginning_with(ids, prefix)) for prefix in prefixes]
    lines = [f"{prefix} {id}\n" for prefix, ids in found for id in ids or ["missing"]]
    return "".join(lines), "", 0 if all(ids for _, ids in found) else 1


def answered_one(ids, prefixes, printed=str):
    """The same if each is to be of one id, which is printed so."""
    found = [(prefix, beginning_with(ids, prefix)) for prefix in prefixes]
    lines = [printed(ids[0]) if len(ids) == 1 else f"{prefix} {'ambiguous' if ids else 'missing'}" for prefix, ids in found]
    return "".join(f"{line}\n" for line in lines), "", 0 if all(len(ids) == 1 for _, ids in found) else 1


def shortest(ids):
    """The lines of `abbreviate` for sorted ids: each after its shortest beginning, of 4 digits or more, that no other one has."""
    shared = [len(os.path.commonprefix(pair)) for pair in zip(ids, ids[1:])]
    needed = [max(pair) + 1 for pair in zip([0, *shared], [*shared, 0])]
    return "".join(f"{id[: max(4, size)]} {id}\n" for id, size in zip(ids, needed))


def listed(cwd, env=None):
    """The ids of all objects, sorted, by git."""
    return sorted(set(git(cwd, "cat-file", "--batch-all-objects", "--batch-check=%(objectname)", env=env).split()))


def places(objects, ids):
    """The lines of `locate` for ids of an objects directory: packs by `git show-index`, then loose files."""
    lines = {id: [] for id in ids}
    for index in sorted(Path(objects, "pack").glob("*.idx")):
        kind = f"--object-format={'sha1' if len(ids[0]) == 40 else 'sha256'}"
        for line in git(objects, "show-index", kind, given=index.read_bytes()).splitlines():
            offset, id = line.split()[:2]
            if id in lines:
                lines[id].append(f"{id} {index.with_suffix('.pack')} {offset}\n")
    for id in ids:
        path = Path(objects, id[:2], id[2:])
        lines[id] += [f"{id} {path}\n"] if path.exists() else []
    return "".join(line for id in ids for line in lines[id])


def keep(live):
    """The ids of all objects, each of which gets a reference, so that git keeps it."""
    ids = listed(live)
    for id in ids:
        write(live / "refs" / "tags" / id, f"{id}\n".encode())
    return ids


def unpack(live, room):
    """Makes all packed objects loose, and then removes the packs."""
    packs = list(Path(live, "objects", "pack").glob("*.pack"))
    with temporary(room) as spare:
        git(room, "init", "--quiet", "--bare", f"--object-format={live.name}", spare)
        for pack in packs:
            git(spare, "unpack-objects", "-q", given=pack.read_bytes())
        for path in spare.glob("objects/??/*"):
            target = live / path.relative_to(spare)
            target.parent.mkdir(exist_ok=True)
            if not target.exists():
                os.link(path, target)
    remove(packs)


def move(live, back):
    """Packs a store, which goes back to what it was, again and again."""
    for _ in range(ROUNDS):
        git(live, "repack", "-adq")
        back()


def remove(packs):
    """Removes packs with their indexes."""
    for pack in packs:
        pack.with_suffix(".idx").unlink()
        pack.unlink()
