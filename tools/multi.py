"""Multi-pack-indexes that `check` reads, for tools/stores: as git writes them and `git multi-pack-index verify` finds them, and changed by
hand, with the digest made right again, so that only what was changed is wrong."""

import itertools
import os
import struct

from edges import DIGITS, NO_FILE, TOO_FEW, error_of, verdict_of
from gitstore import add_repository, counts_of, digest_of, git, pack_index, sealed, sorted_ids, version_1, write
from many_packs import chunk_starts
from probe import difference, ran

CHUNKS = "FAILED: its header, its table of chunks or a chunk is wrong"
FAN_OUT, ORDER = "FAILED: its fan-out table is wrong", "FAILED: its ids are not in order"
# How many objects are in the packs of one store, so that several have one first byte, and how many packs another has.
OBJECTS, PACKS = 600, 300
NAMES = [b"pack-a.idx", b"pack-b.idx", b"pack-c.idx"]


def multi_of(kind, ids, names, counts=None):
    """The bytes of a multi-pack-index of these ids and names, all of whose objects are at the offset 12 of the first pack."""
    listed = b"".join(name + b"\0" for name in names)
    chunks = [listed + bytes(-len(listed) % 4), counts or counts_of(ids), b"".join(ids), struct.pack(">II", 0, 12) * len(ids)]
    starts = itertools.accumulate([12 * (len(chunks) + 2), *map(len, chunks)])
    rows = b"".join(letters + struct.pack(">Q", at) for letters, at in zip((b"PNAM", b"OIDF", b"OIDL", b"OOFF", bytes(4)), starts))
    head = b"MIDX" + bytes([1, list(DIGITS).index(kind) + 1, len(chunks), 0]) + struct.pack(">I", len(names))
    return sealed(head + rows + b"".join(chunks), digest_of(kind)[0])


def resealed(content, kind, at, part):
    """The bytes with others at a position, and their digest."""
    digest, size = digest_of(kind)
    return sealed((content[:at] + part + content[at + len(part) :])[:-size], digest)


def says(program, room, verdicts, *words, given=b"", limits=()):
    """How `check` differs from these verdicts, each of a file, or an error if it begins with one's path."""
    printed = "".join(f"{name}: {said}\n" for name, said in verdicts.items() if said.startswith(("OK", "FAILED")))
    errors = "".join(error_of(said) for said in verdicts.values() if not said.startswith(("OK", "FAILED")))
    status = 2 if errors else int("FAILED" in printed)
    return difference(ran(program, "check", *words, *verdicts, cwd=room, given=given, limits=limits), (printed, errors, status))


def stored(room, kind):
    """A repository of git's with three packs, one object in two of them, and a multi-pack-index; and its ids."""
    git(room.parent, "init", "--quiet", "--bare", f"--object-format={kind}", room)
    for at in range(3):
        blobs = [f"{number}" for number in range(OBJECTS) if number % 3 == at or number == 7]
        given = "".join(f"blob\ndata {len(text)}\n{text}\n" for text in blobs)
        git(room, "-c", "fastimport.unpackLimit=0", "fast-import", "--quiet", given=given.encode())
    git(room, "multi-pack-index", "write")
    lines = git(room, "cat-file", "--batch-all-objects", "--batch-check=%(objectname)").split()
    return room / "objects" / "pack", [bytes.fromhex(id) for id in lines]


def verified(room):
    """Whether git finds the multi-pack-index of a repository right."""
    return ran("git", "multi-pack-index", "verify", cwd=room)[2] == 0


def checked(program, room, kind):
    """All comparisons of one kind of ids."""
    packs, ids = stored(room / "r", kind)
    content, own = (packs / "multi-pack-index").read_bytes(), ["--kind", kind]
    other = next(it for it in DIGITS if it != kind)
    yield "git finds it right", None if verified(room / "r") else "no"
    for words, path in ([], "multi-pack-index"), (own, "multi-pack-index"), ([], f"{packs}/multi-pack-index"), ([], "../pack/multi-pack-index"):
        yield f"{path} {words}", says(program, packs, {path: "OK"}, *words)
    yield "the other kind", says(program, packs, {"multi-pack-index": f"FAILED: its ids are of the kind {kind}"}, "--kind", other)
    for words in ([], own):
        yield f"standard input {words}", says(program, room, {"-": "OK"}, *words, given=content)
    yield "standard input, the other kind", says(program, room, {"-": f"FAILED: its ids are of the kind {kind}"}, "--kind", other, given=content)
    add_repository(room / "more", kind)
    yield from changed_bytes(program, room / "bytes", kind, content)
    yield from changed_ids(program, packs, kind, content, ids)
    yield from odd_indexes(program, room, packs, kind)
    yield from made_by_hand(program, room / "hand", kind)
    yield from alone(program, room / "alone", kind, ids)
    yield from many(program, room / "many", kind)


def changed_bytes(program, room, kind, content):
    """Each byte of the header and of the table of chunks changed in three ways, with the old digest and with the right one; and cuts."""
    front = 12 * (content[6] + 2)
    offsets = content.index(b"OOFF")
    for name, values in ("old", (1, 128, 255)), ("right", (1, 128, 255)):
        verdicts = {}
        for at, value in itertools.product(range(front), values):
            # (these letters are not read)
            if name == "right" and offsets <= at < offsets + 4:
                continue
            changed = content[:at] + bytes([content[at] ^ value]) + content[at + 1 :]
            changed = changed if name == "old" else resealed(content, kind, at, bytes([content[at] ^ value]))
            path = f"{name}/{at}.{value}/multi-pack-index"
            write(room / path, changed)
            # (the sixth byte says of which kind the digest is)
            verdicts[path] = verdict_of(changed, tuple(DIGITS) if at == 5 else (kind,)) if name == "old" else CHUNKS
        yield f"each changed byte of the front, {name} digest", says(program, room, verdicts)
    digest, size = digest_of(kind)
    verdicts = {}
    for length in (*range(0, front + 12, 7), len(content) - size - 1):
        path = f"cut/{length}/multi-pack-index"
        write(room / path, sealed(content[:length], digest))
        verdicts[path] = CHUNKS
    yield "cut, with a digest", says(program, room, verdicts)
    verdicts = {f"short/{length}/multi-pack-index": content[:length] for length in (0, 1, 4, 12, 19, 20, 31, 32, 33, 100)}
    for path, short in verdicts.items():
        write(room / path, short)
    said = {path: verdict_of(short, (kind,) if len(short) > 5 else tuple(DIGITS)) for path, short in verdicts.items()}
    yield "cut, without a digest", says(program, room, said)
    other = next(it for it in DIGITS if it != kind)
    changed = resealed(content, kind, 5, bytes([content[5] ^ 3]))
    write(room / "other" / "multi-pack-index", changed)
    yield "the number of the other kind", says(program, room, {"other/multi-pack-index": verdict_of(changed, (other,))})
    longer = sealed(content[:-size] + b"\0", digest)
    write(room / "longer" / "multi-pack-index", longer)
    yield "a byte more", says(program, room, {"longer/multi-pack-index": CHUNKS})


def changed_ids(program, packs, kind, content, ids):
    """Fan-out tables, orders and ids that are wrong, and whether git says the same."""
    size, names = DIGITS[kind] // 2, [name.encode() for name in sorted(os.listdir(packs)) if name.endswith(".idx")]
    starts = chunk_starts(content)
    counts, first = starts[b"OIDF"], starts[b"OIDL"]
    same = next(at for at in range(OBJECTS - 1) if ids[at][0] == ids[at + 1][0])
    differ = next(at for at in range(OBJECTS - 1) if ids[at][0] + 1 == ids[at + 1][0])
    near = ids[same][:-1] + bytes([ids[same][-1] ^ 1])
    has = [(id, name.decode()) for name in names for id in ids_of(packs / name.decode(), kind)]
    lacks = {id: min(name for it, name in has if it == id) for id in ids}
    rows = [
        ("a count", counts + 4 * ids[differ][0], struct.pack(">I", differ + 2), FAN_OUT),
        ("a falling count", counts + 4 * 255 - 4, struct.pack(">I", OBJECTS + 1), CHUNKS),
        ("the last count", counts + 4 * 255, struct.pack(">I", OBJECTS - 1), CHUNKS),
        ("two ids of one first byte", first + size * same, ids[same + 1] + ids[same], ORDER),
        ("two ids of other first bytes", first + size * differ, ids[differ + 1] + ids[differ], FAN_OUT),
        ("one id twice", first + size * same, ids[same] * 2, ORDER),
        ("a letter of the chunk of offsets", content.index(b"OOFF"), b"x", "OK"),
        ("another id", first + size * same, near, f"FAILED: it lacks {ids[same].hex()} of {lacks[ids[same]]}"),
    ]
    for name, at, part, said in rows:
        (packs / "multi-pack-index").write_bytes(resealed(content, kind, at, part))
        yield f"wrong: {name}", says(program, packs, {"multi-pack-index": said})
        # (git 2.39 looks only at the ids that the last count says)
        if name != "the last count":
            yield f"git, wrong: {name}", "it finds nothing" if verified(packs.parent.parent) else None
    (packs / "multi-pack-index").unlink()
    (packs / "multi-pack-index").write_bytes(content)
    for at in (0, same, OBJECTS - 1):
        (packs / "other").write_bytes(multi_of(kind, ids[:at] + ids[at + 1 :], names))
        yield f"without the id at {at}", says(program, packs, {"other": f"FAILED: it lacks {ids[at].hex()} of {lacks[ids[at]]}"})
        (packs / "other").write_bytes(multi_of(kind, sorted([*ids, near]), names))
    yield "with an id more", says(program, packs, {"other": f"FAILED: {near.hex()} is in none of its packs"})
    (packs / "other").write_bytes(multi_of(kind, ids, names))
    yield "made by hand", says(program, packs, {"other": "OK"})
    (packs / "other").write_bytes(multi_of(kind, ids, names[:2]))
    spare = min(id for id in ids if all(name == names[2].decode() for it, name in has if it == id))
    yield "without a name", says(program, packs, {"other": f"FAILED: {spare.hex()} is in none of its packs"})
    (packs / "other").unlink()


def ids_of(path, kind):
    """The ids of a pack index, by git."""
    printed = git(path.parent, "show-index", f"--object-format={kind}", given=path.read_bytes())
    return [bytes.fromhex(line.split()[1]) for line in printed.splitlines()]


def odd_indexes(program, room, packs, kind):
    """Pack indexes that are missing, damaged or of another type where a multi-pack-index names them; and a pack that it does not name."""
    index = next(packs / name for name in sorted(os.listdir(packs)) if name.endswith(".idx"))
    whole, saved, other = index.read_bytes(), room / "saved", next(it for it in DIGITS if it != kind)
    index.rename(saved)
    for way, make, why in [
        ("missing", lambda: None, NO_FILE),
        ("a directory", index.mkdir, "not a regular file"),
        ("a pipe", lambda: os.mkfifo(index), "not a regular file"),
        ("a link to nothing", lambda: index.symlink_to("none"), NO_FILE),
        ("a link to it", lambda: index.symlink_to(saved), None),
        ("cut", lambda: index.write_bytes(whole[:1000]), TOO_FEW),
        ("of another beginning", lambda: index.write_bytes(b"x" + whole[1:]), "not a pack index (bad magic number)"),
        ("with a falling count", lambda: index.write_bytes(whole[:8] + b"\1" + whole[9:]), "the fan-out entry of the first byte 01 is wrong"),
        ("of the other kind", lambda: index.write_bytes(pack_index([(12, "0" * DIGITS[other], 0)])), f"the ids of the pack index are of the kind {other}"),
        ("of version 1", lambda: index.write_bytes(version_1([(12, "0" * DIGITS[kind], 0)], bytes(DIGITS[kind] // 2))), "pack indexes of version 1 are not read"),
    ]:
        make()
        said = f"{index.name}: {why}" if why else "OK"
        yield f"an index that is {way}", says(program, packs, {"multi-pack-index": said})
        index.rmdir() if index.is_dir() else index.unlink(missing_ok=True)
    saved.rename(index)
    given = b"blob\ndata 4\nmore\n"
    git(packs.parent.parent, "-c", "fastimport.unpackLimit=0", "fast-import", "--quiet", given=given)
    yield "a pack more", says(program, packs, {"multi-pack-index": "OK"})
    yield "git, a pack more", None if verified(packs.parent.parent) else "it finds a fault"


def made_by_hand(program, room, kind):
    """Names that no pack index has, ids that several packs lack, and what has only the name or only the beginning."""
    ids = [bytes.fromhex(id) for id in sorted_ids(40, [DIGITS[kind] // 2])]
    for name, part in zip(NAMES, (ids[::2], ids[1::2], ids[::3])):
        write(room / name.decode(), pack_index([(12, id.hex(), 0) for id in part]))
    digest, name = digest_of(kind)[0], "multi-pack-index"
    for way, content, said in [
        ("right", multi_of(kind, ids, NAMES), "OK"),
        ("right, without ids", multi_of(kind, [], []), "OK"),
        ("lacks all ids", multi_of(kind, [], NAMES), f"FAILED: it lacks {ids[0].hex()} of pack-a.idx"),
        ("lacks two ids", multi_of(kind, ids[:6] + ids[7:9] + ids[10:], NAMES), f"FAILED: it lacks {ids[6].hex()} of pack-a.idx"),
        ("names one pack twice", multi_of(kind, ids, [*NAMES, NAMES[0]]), "OK"),
        ("a name with a slash", multi_of(kind, ids, [*NAMES[:2], b"./pack-c.idx"]), CHUNKS),
        ("a name with a line feed", multi_of(kind, ids, [*NAMES, b"pack-d.idx\n"]), CHUNKS),
        ("a name that is not UTF-8", multi_of(kind, ids, [*NAMES, b"\xff.idx"]), CHUNKS),
        ("an empty name", multi_of(kind, ids, [*NAMES, b""]), CHUNKS),
        ("only the name", sealed(b"x", digest), CHUNKS),
        ("only the beginning", sealed(b"MIDX", digest), CHUNKS),
        ("no bytes but the digest", sealed(b"", digest), CHUNKS),
    ]:
        write(room / name, content)
        yield f"by hand, {way}", says(program, room, {name: said})
    write(room / "x", sealed(b"MIDX", digest))
    write(room / "x.idx", sealed(b"MIDX", digest))
    yield "under another name", says(program, room, {"x": CHUNKS, "x.idx": f"FAILED: {TOO_FEW}"})


def alone(program, room, kind, ids):
    """What is checked of a layer of a chain, and of standard input: not the packs that it names."""
    swapped = multi_of(kind, ids[::-1], NAMES, counts_of(ids))
    rows = [("right", multi_of(kind, ids, NAMES), "OK"), ("reversed", swapped, FAN_OUT), ("wrong", sealed(b"MIDX", digest_of(kind)[0]), CHUNKS)]
    for way, content, said in rows:
        layer = "multi-pack-index.d/multi-pack-index-1.midx"
        write(room / layer, content)
        yield f"a layer, {way}", says(program, room, {layer: said})
        yield f"standard input, {way}", says(program, room, {"-": said}, given=content)
        changed = content[:-1] + bytes([content[-1] ^ 1])
        write(room / layer, changed)
        kinds = tuple(DIGITS) if way == "wrong" else (kind,)
        yield f"a layer, {way}, with another digest", says(program, room, {layer: verdict_of(changed, kinds)})
        yield f"standard input, {way}, with another digest", says(program, room, {"-": verdict_of(changed, kinds)}, given=changed)


def many(program, room, kind):
    """Many packs, with few open files and little memory."""
    ids, names = [bytes.fromhex(id) for id in sorted_ids(20 * PACKS, [DIGITS[kind] // 2])], []
    for at in range(PACKS):
        names.append(b"pack-%04d.idx" % at)
        write(room / names[-1].decode(), pack_index([(12, id.hex(), 0) for id in ids[at::PACKS]]))
    write(room / "multi-pack-index", multi_of(kind, ids, names))
    yield f"{PACKS} packs", says(program, room, {"multi-pack-index": "OK"}, limits=["--nofile=8", f"--data={8 << 20}"])
