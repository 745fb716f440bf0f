"""Inputs that wait for the results of packtool, for tools/stores, also after its store has changed.

A group of `TALKS` yields the names of its comparisons, each with what is wrong, if anything."""

import contextlib
import fcntl
import itertools
import os
import subprocess
import time

import made
from edges import LOCKED, NO_FILE, TOO_FEW, error_of
from gitstore import DIGITS, SETTLED, add_objects, add_pack, add_repository, changed, plain_index, sorted_ids, write
from probe import CLEAN, POWERLESS, difference, started

# How long all results of an input may take, in seconds.
PATIENCE = 60
# How many bytes a read of standard input takes at most: at first, after one that got as many, and then.
READS = [1 << 14, 1 << 16, 1 << 18]
# Sets how many bytes a pipe holds: the most that anybody may ask for.
SET_PIPE_SIZE, PIPE_SIZE = 1031, 1 << 20


@contextlib.contextmanager
def talk(program, room, *words, around=(), store=("--objects", "objects"), **how):
    """A packtool over the object directory `objects`, whose input is a pipe that holds much, and which is killed if it waits too long."""
    how = {"cwd": room, "stdin": subprocess.PIPE, "stderr": subprocess.DEVNULL, "bufsize": 0, **how}
    with started([*around, program, *words, "--stdin", *store], PATIENCE, **how) as child:
        fcntl.fcntl(child.stdin, SET_PIPE_SIZE, PIPE_SIZE)
        yield child


def ask(child, given, wanted):
    """Writes bytes, and returns what is wrong with the result, of which not a byte is missing or too much, if anything."""
    child.stdin.write(given)
    got = b""
    while len(got) < len(wanted) and (part := os.read(child.stdout.fileno(), 1 << 20)):
        got += part
    return None if got == wanted else f"{len(got)} bytes of {len(wanted)}, as {got[-60:]!r}"


def answer_to(line, id):
    """What `find --stdin` prints for a line in a store of one id of SHA-1."""
    if not 2 <= len(line) <= DIGITS["sha1"]:
        return f"{line} bad\n"
    return f"{line} {id if id.startswith(line) else 'missing'}\n"


def exchanges(program, room):
    """Inputs of exactly as many bytes as a read takes, each with its result before the next comes, in lines of each length."""
    add_repository(room, loose=[made.LOOSE])
    for size in (1, 2, 3, 4, 5, 9, 41):
        with talk(program, room, "find") as child:
            wrong = None
            for total in [*READS, READS[-1], READS[0] - 1, READS[0] + 1]:
                lines = [made.LOOSE[: size - 1]] * (total // size)
                lines[-1] += "0" * (total % size)
                given = "".join(f"{line}\n" for line in lines).encode()
                wrong = wrong or ask(child, given, "".join(answer_to(line, made.LOOSE) for line in lines).encode())
        yield f"find --stdin of whole reads of lines of {size} bytes", wrong


def statuses(program, room):
    """Chunks of each status in each order: the worst is the status of all."""
    add_repository(room, loose=[made.LOOSE])
    for order in (order for size in (1, 2, 3) for order in itertools.permutations(range(3), size)):
        with talk(program, room, "find") as child:
            wrong = None
            for status in order:
                paths = [room / "objects" / "pack" / name for name in ("x.pack", "x.idx")]
                for path in paths:
                    write(path) if status == 2 else path.unlink(missing_ok=True)
                line, answer = ("4bff", made.LOOSE) if status != 1 else ("4b00", "missing")
                wrong = wrong or ask(child, f"{line}\n".encode(), f"{line} {answer}\n".encode())
            child.stdin.close()
            wrong = wrong or (f"status {child.returncode}" if child.wait() != max(order) else None)
        yield f"find --stdin of chunks of the statuses {order}", wrong


def asked_twice(child, given, wanted):
    """Asks two times, of which the second finds a store that is kept. Returns what is wrong, if anything."""
    for _ in range(2):
        time.sleep(SETTLED)
        if wrong := ask(child, given, wanted):
            return wrong
    return None


def ends(child, given, wanted):
    """Writes the last bytes, and returns what is wrong with what is printed then, the errors and the status, if anything."""
    printed, errors = (os.fsdecode(it) for it in child.communicate(given))
    return difference((printed, errors, child.returncode), wanted)


def locked_later(program, room):
    """What may not be looked at any more after two requests: the error has its path, and the status is 2."""
    for name, link, asked, path in [
        ("pack", "pack", "4b", "objects/pack"),
        ("a fan-out directory", "4b", "4b", "objects/4b"),
        ("a fan-out directory that was asked for before", "4b", "00", "objects/4b"),
        ("a list of alternates", "info", "4b", f"{room}/a list of alternates/objects/info/alternates"),
        ("a missing list of alternates", "info", "4b", f"{room}/a missing list of alternates/objects/info/alternates"),
    ]:
        place, objects = room / name, room / name / "objects"
        add_objects(objects, [made.LOOSE, "0" * 40], packs=[[made.BOTH]])
        if name == "a list of alternates":
            write(objects / "info" / "alternates", f"{place}\n".encode())
        (objects / link).mkdir(exist_ok=True)
        (place / "above").mkdir()
        (objects / link).rename(place / "above" / link)
        (objects / link).symlink_to(f"../above/{link}")
        answers = {"4b": f"4b {made.BOTH}\n4b {made.LOOSE}\n", "00": f"00 {'0' * 40}\n"}
        with talk(program, place, "find", around=POWERLESS, stderr=subprocess.PIPE) as child:
            wrong = asked_twice(child, b"4b\n", answers["4b"].encode())
            wrong = wrong or asked_twice(child, f"{asked}\n".encode(), answers[asked].encode())
            (place / "above").chmod(0)
            wrong = wrong or ends(child, b"4b\n", ("", error_of(f"{path}: {LOCKED}"), 2))
            (place / "above").chmod(0o700)
        yield f"{name}, which may not be looked at any more", wrong


def mended_later(program, room):
    """What the directories do not show, after two requests: a damaged pack index that is mended in place, and a pack that is a link to
    nothing and then to a file; a pack in the ninth alternate; and a link to nothing that is asked for later."""
    index, whole = room / "objects" / "pack" / "x.idx", plain_index([made.BOTH])
    found, missing = f"4b {made.BOTH}\n", "4b missing\n"
    add_pack(room / "objects", "x", changed(whole, 0, 0))
    skipped = error_of("objects/pack/x.idx: not a pack index (bad magic number), skipped")
    with talk(program, room, "find", stderr=subprocess.PIPE) as child:
        wrong = asked_twice(child, b"4b\n", missing.encode())
        index.write_bytes(whole)
        yield "a pack index that is mended in place", wrong or ends(child, b"4b\n", (found, skipped, 2))
    index.with_suffix(".pack").unlink()
    index.with_suffix(".pack").symlink_to("../../later")
    with talk(program, room, "find", stderr=subprocess.PIPE) as child:
        wrong = asked_twice(child, b"4b\n", missing.encode())
        write(room / "later")
        yield "a pack by a link that leads to nothing at first", wrong or ends(child, b"4b\n", (found, "", 1))
    env = CLEAN | {"GIT_OBJECT_DIRECTORY": "objects", "GIT_ALTERNATE_OBJECT_DIRECTORIES": ":".join(map(str, range(9)))}
    for number in range(9):
        write(room / f"{number}" / "pack" / "none")
    with talk(program, room, "find", store=(), env=env) as child:
        wrong = asked_twice(child, b"4b\n", found.encode())
        add_pack(room / "8", "y", plain_index([made.PACKED]))
        wrong = wrong or ask(child, b"4b\n", f"4b {made.PACKED}\n{found}".encode())
        add_pack(room / "objects", "z", plain_index([made.LOOSE]))
        wrong = wrong or ask(child, b"4b\n", f"4b {made.PACKED}\n{found}4b {made.LOOSE}\n".encode())
    yield "a pack in the ninth alternate of the environment, and then one in the store", wrong
    with talk(program, room, "find", stderr=subprocess.PIPE) as child:
        wrong = asked_twice(child, b"4b\n", f"{found}4b {made.LOOSE}\n".encode())
        index.write_bytes(b"")
        index.rename(index.with_name("later.idx"))
        index.with_suffix(".pack").rename(index.with_name("later.pack"))
        skipped = error_of(f"objects/pack/later.idx: {TOO_FEW}, skipped")
        yield "a damaged pack index that comes later", wrong or ends(child, b"4b\n", (f"4b {made.LOOSE}\n", skipped, 2))
    path = f"objects/ff/{'f' * 38}"
    write(room / "objects" / "ff" / "none")
    (room / path).symlink_to("gone")
    index.with_name("later.idx").unlink()
    with talk(program, room, "locate", stderr=subprocess.PIPE) as child:
        wrong = asked_twice(child, b"00\n", b"00 missing\n")
        yield "a link to nothing that is asked for later", wrong or ends(child, b"ff\n", ("", error_of(f"{path}: {NO_FILE}"), 2))


def few_files(program, room):
    """Requests to a packtool that may open as many files as there are packs, and none more; or fewer, so that 64 stay open, or none, and
    the others are opened again for ids that are far from the beginning of their indexes."""
    write(room / "objects" / "00" / "none")
    ids = list(sorted_ids(1000, [20]))
    for number in range(64):
        add_pack(room / "objects", f"{number:02}", plain_index(ids))
    for packs, files, stay_open in (64, 67, 64), (70, 70, 64), (70, 64, 0):
        for number in range(64, packs):
            add_pack(room / "objects", f"{number:02}", plain_index(ids))
        with talk(program, room, "find", "--one", around=("prlimit", f"--nofile={files}")) as child:
            asked = [ids[-1], "0000", ids[0], ids[-1]]
            wrong = [asked_twice(child, f"{id}\n".encode(), f"{id if id in ids else f'{id} missing'}\n".encode()) for id in asked]
            # (and its input and outputs)
            are_open = len(os.listdir(f"/proc/{child.pid}/fd")) - 3
        wrong = next(filter(None, wrong), None) or (f"{are_open} stay open" if are_open != stay_open else None)
        yield f"{packs} packs, and {files} open files", wrong


def out_of_order(program, room):
    """Requests for each of many ids with one first byte, one after the other, of which two are in each other's place in a pack index,
    and of which none are, also after one index has taken the place of another that has its size and time: each id is found each time."""
    ids = sorted({f"4b{id[2:]}" for id in sorted_ids(300, [20])})
    swapped = [*ids[:10], ids[200], *ids[11:200], ids[10], *ids[201:]]

    def wrong_in(child):
        asked = (ask(child, f"{id[:12]}\n".encode(), f"{id}\n".encode()) for id in [*ids, *ids[::-1]])
        return next(filter(None, asked), None)

    for name, names, later in ("in order", ids, swapped), ("with two in each other's place", swapped, ids):
        add_pack(room / "objects", "x", plain_index(names))
        index, other = room / "objects" / "pack" / "x.idx", room / "other.idx"
        with talk(program, room, "find", "--one") as child:
            what = f"find --one --stdin of each of {len(ids)} ids with one first byte"
            time.sleep(SETTLED)
            yield f"{what} {name}", wrong_in(child)
            other.write_bytes(plain_index(later))
            os.utime(other, ns=(index.stat().st_atime_ns, index.stat().st_mtime_ns))
            other.replace(index)
            yield f"{what}, of which the index {name} is replaced", wrong_in(child)


def each_byte(program, room):
    """Requests for which the loose objects of all first bytes are listed, as one comes with every 16th first byte."""
    wrong = None
    for byte in range(256):
        (room / "objects" / f"{byte:02x}").mkdir(parents=True)
    with talk(program, room, "find") as child:
        for byte in range(7, 256, 16):
            id = f"{byte:02x}{'0' * 38}"
            asked = f"00\n{id[:2]}\n".encode()
            wrong = wrong or asked_twice(child, asked, f"00 missing\n{id[:2]} missing\n".encode())
            write(room / "objects" / id[:2] / id[2:])
            wrong = wrong or ask(child, asked, f"00 missing\n{id[:2]} {id}\n".encode())
    yield "find --stdin of two first bytes, as loose objects come", wrong


TALKS = [exchanges, statuses, locked_later, mended_later, few_files, out_of_order, each_byte]
