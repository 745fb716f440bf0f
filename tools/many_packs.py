"""Stores that have a multi-pack-index made by git, for tools/stores: whole, damaged, cut off, of another store, and what is no file in
its place; of packs of which one has gone, and one has come, and whose indexes are not read.

In each row packtool prints what it prints of the same store without a multi-pack-index, with the same errors and the same status, and
the ids that git finds with it are among these. (Git ends with an error at some, and misses what packs have that it does not cover.)
A group of `GROUPS` yields its rows: a name, and what is wrong, if anything."""

import os
import shutil
import time
from collections import Counter
from concurrent.futures import ThreadPoolExecutor

from edges import SECONDS, SPARSE
from gitstore import DIGITS, SETTLED, add_repository, changed, keep, listed, make_blobs, pack_objects, write
from probe import POWERLESS, difference, git, ran
from talks import ask, talk

# How many blobs are packed and how many are loose, and of how many ids one is in one more pack, and one is asked for.
PACKED, LOOSE, TWICE, ASKED = 900, 20, 50, 40
# How often packs are made, and packed into one.
MOVES = 12
# The lengths of the header of a multi-pack-index, of a row of its table of chunks, and of its fan-out table.
HEADER, ROW, FAN_OUT = 12, 12, 1024
# The most memory that a run takes beside a file that no memory holds, and how many seconds one that would wait for a pipe has.
DATA, PATIENCE = 64 << 20, 10 * SECONDS


def clear(place):
    """Removes what is in the place of a multi-pack-index."""
    if place.is_dir() and not place.is_symlink():
        place.rmdir()
    else:
        place.unlink(missing_ok=True)


def links(place, kept):
    """Links that may be in the place of a multi-pack-index, to a file that is one, to nothing and to itself; and where each leads."""
    rows = {"a link": kept, "a relative link": os.path.relpath(kept, place.parent), "a dangling link": "gone"}
    return rows | {"a link to itself": place.name}


def size_of_tables(whole):
    """The length of the header of a multi-pack-index and of its table of chunks, which ends with a row for their end."""
    return HEADER + ROW * (whole[6] + 1)


def chunk_starts(whole):
    """Where each chunk of a multi-pack-index begins, by its letters, and where they end, by four NULs."""
    rows = [whole[at : at + ROW] for at in range(HEADER, size_of_tables(whole), ROW)]
    return {row[:4]: int.from_bytes(row[4:], "big") for row in rows}


def cuts(whole):
    """The lengths at which a multi-pack-index is cut: at and beside each of its parts."""
    top, starts = size_of_tables(whole), [*chunk_starts(whole).values()]
    sizes = {0, 1, 4, 8, HEADER, HEADER + ROW, top - ROW, top, *starts, starts[1] + FAN_OUT // 2, len(whole) - 1, len(whole) // 2}
    sizes |= {size + by for size in (HEADER, top, *starts) for by in (-1, 1)}
    return sorted(size for size in sizes if size < len(whole))


class Store:
    """A bare repository of four packs and loose objects, and what packtool prints of it without its multi-pack-index, which is put
    there by each row."""

    def __init__(self, program, path, kind, seed=0):
        self.program, self.path, self.cwd, self.limits = program, path, path, ()
        make_blobs(path, kind, packs=3, packed=PACKED, loose=LOOSE, seed=seed)
        self.ids = listed(path)
        pack_objects(path, self.ids[::TWICE], path / "objects" / "pack" / "pack")
        git(path, "multi-pack-index", "write")
        self.place = path / "objects" / "pack" / "multi-pack-index"
        self.whole = self.place.read_bytes()
        self.clear()
        counts = Counter(id[:2] for id in self.ids)
        most = max((id[:2] for id in self.ids[::TWICE]), key=counts.get)
        shared = next(id[:4] for id, other in zip(self.ids, self.ids[1:]) if id[:4] == other[:4])
        self.lines = [*(id[:12] for id in self.ids[::ASKED]), *(id.upper() for id in self.ids[:: 4 * TWICE]), shared, "0" * 12]
        self.given = "".join(f"{line}\n" for line in self.lines).encode()
        self.commands = [("find", most), ("find", "--stdin", "--one"), ("abbreviate", "--stdin"), ("locate", most)]
        self.note()

    def clear(self):
        """Removes what is in the place of the multi-pack-index."""
        clear(self.place)

    def put(self, content):
        """Puts a file with these bytes there."""
        self.clear()
        self.place.write_bytes(content)

    def printed(self, *around):
        """What each command prints, its errors and its status."""
        how = {"cwd": self.cwd, "given": self.given, "seconds": PATIENCE, "limits": self.limits}
        return [ran(*around, self.program, *words, **how) for words in self.commands]

    def note(self):
        """Notes what is printed of the store as it is now without a multi-pack-index, which git prints then, too."""
        self.clear()
        self.wanted = self.printed()
        if self.by_git() != (self.wanted[1][0], 0):
            raise ValueError("git finds other ids where there is no multi-pack-index")

    def by_git(self):
        """What git finds for the lines, and its status."""
        found, _, status = ran("git", "cat-file", "--batch-check=%(objectname)", cwd=self.cwd, given=self.given)
        return found, status

    def row(self, name, *around, is_asked=True):
        """A row of what is there now. Git is not asked if it would wait."""
        wrong = next(filter(None, map(difference, self.printed(*around), self.wanted)), None)
        found, status = self.by_git() if is_asked else ("", 1)
        if not wrong and status == 0:
            lost = {*found.split()} & {*self.ids} - {*self.wanted[1][0].split()}
            wrong = f"git finds {min(lost)}" if lost else None
        return name, wrong


def damaged_bytes(program, room, kind):
    """A multi-pack-index with another byte in its header or in its table of chunks, each in turn: all its bits are changed, and of SHA-1
    also its lowest bit alone."""
    store = Store(program, room / kind, kind)
    for at in range(size_of_tables(store.whole)):
        for bits in (0xFF, 1) if kind == "sha1" else (0xFF,):
            store.put(changed(store.whole, at, store.whole[at] ^ bits))
            yield store.row(f"byte {at} of a multi-pack-index, changed by {bits:#x}")


def cut_off(program, room, kind):
    """A multi-pack-index that ends too early, at and beside each of its parts, or too late."""
    store = Store(program, room / kind, kind)
    whole = store.whole
    for size in cuts(whole):
        store.put(whole[:size])
        yield store.row(f"the first {size} of {len(whole)} bytes of a multi-pack-index")
    for name, content in ("a byte more", whole + b"\0"), ("its bytes twice", whole * 2), ("zeros", bytes(len(whole))):
        store.put(content)
        yield store.row(f"a multi-pack-index of {name}")


def other_forms(program, room, kind):
    """What is in the place of a multi-pack-index, in a store and in its alternate: a file of another store, and what is no file."""
    store = Store(program, room / kind, kind)
    (other,) = {*DIGITS} - {kind}
    files = {f"of the kind {other}": Store(program, room / other, other, seed=1).whole, "of another store": Store(program, room / "own", kind, seed=2).whole}
    write(room / "kept", store.whole)
    write(room / "locked" / "multi-pack-index", store.whole)
    (room / "locked").chmod(0)
    targets = links(store.place, room / "kept")
    targets |= {"a link without an end": "/dev/zero", "a link that may not be followed": room / "locked" / "multi-pack-index"}
    borrowing = room / "borrowing"
    add_repository(borrowing, kind)
    write(borrowing / "objects" / "info" / "alternates", os.fsencode(f"{store.path}/objects\n"))
    for where, cwd in ("", store.path), (" of an alternate", borrowing):
        store.cwd, store.limits = cwd, [f"--data={DATA}", f"--cpu={SECONDS}"]
        store.note()
        for name, content in files.items():
            store.put(content)
            yield store.row(f"a multi-pack-index{where}: {name}")
        for name, target in targets.items():
            store.clear()
            store.place.symlink_to(target)
            yield store.row(f"a multi-pack-index{where}: {name}", *POWERLESS)
        store.clear()
        store.place.mkdir()
        yield store.row(f"a multi-pack-index{where}: a directory")
        store.clear()
        os.mkfifo(store.place)
        yield store.row(f"a multi-pack-index{where}: a pipe", is_asked=False)
        for name, content in ("that goes on", store.whole), ("of zeros", b""):
            store.put(content)
            os.truncate(store.place, SPARSE)
            yield store.row(f"a multi-pack-index{where}: a sparse file {name}")
        store.put(store.whole)
        store.place.chmod(0)
        yield store.row(f"a multi-pack-index{where}: a file that may not be read", *POWERLESS)
        write(store.path / "objects" / "pack" / "multi-pack-index.d" / "multi-pack-index-chain", b"0" * DIGITS[kind] + b"\n")
        yield store.row(f"a multi-pack-index{where}: a list of a chain beside it")
        shutil.rmtree(store.path / "objects" / "pack" / "multi-pack-index.d")
    (room / "locked").chmod(0o700)


def other_packs(program, room, kind):
    """A multi-pack-index of which each pack, its index or both have gone or have another name, or to which a pack has come; and two
    multi-pack-indexes, in a store and in its alternate."""
    store = Store(program, room / kind, kind)
    store.put(store.whole)
    yield store.row("a whole multi-pack-index")
    packs = sorted((store.path / "objects" / "pack").glob("*.pack"))
    for number, pack in enumerate(packs):
        index = pack.with_suffix(".idx")
        for what, paths in ("pack", [pack]), ("index", [index]), ("pack and index", [pack, index]):
            for path in paths:
                path.rename(room / path.name)
            store.note()
            store.put(store.whole)
            yield store.row(f"the {what} of pack {number} of a multi-pack-index, gone")
            for path in paths:
                (room / path.name).rename(path)
        for path in (pack, index):
            path.rename(path.with_stem("pack-0"))
        store.note()
        store.put(store.whole)
        yield store.row(f"pack {number} of a multi-pack-index, by another name")
        for path in (pack, index):
            path.with_stem("pack-0").rename(path)
    more = Store(program, room / "more", kind, seed=1)
    for path in sorted((more.path / "objects" / "pack").glob("*.*"), reverse=True):
        os.link(path, store.place.with_name(path.name))
    store.lines += more.lines
    store.given += more.given
    store.note()
    store.put(store.whole)
    yield store.row("a multi-pack-index, and packs more")
    write(store.path / "objects" / "info" / "alternates", os.fsencode(f"{more.path}/objects\n"))
    store.note()
    store.put(store.whole)
    more.put(more.whole)
    yield store.row("a multi-pack-index, and another one of an alternate")


def read_instead(program, room, kind):
    """Multi-pack-indexes of a store and of its alternate `packs` that are read in place of the pack indexes that they name, of which zeros have
    the places then; `locate` reads these."""
    # (with this seed no loose object begins with the byte that is located)
    store, other = Store(program, room / kind, kind), Store(program, room / f"{kind} other", kind, seed=2)
    located = store.commands.pop()
    alternate = (other.path / "objects").rename(store.path / "objects" / "packs")
    write(store.path / "objects" / "info" / "alternates", b"packs\n")
    store.lines += other.lines
    store.given += other.given
    store.note()
    indexes = [path for objects in (store.path / "objects", alternate) for path in sorted((objects / "pack").glob("*.idx"))]
    for path in indexes:
        path.unlink()
        write(path, bytes(2 * FAN_OUT))
    write(alternate / "pack" / "multi-pack-index", other.whole)
    store.put(store.whole)
    yield store.row("a multi-pack-index of packs whose indexes are zeros", is_asked=False)
    yield store.row("the same with few open files", "prlimit", "--nofile=64", is_asked=False)
    found, errors, status = ran(program, *located, cwd=store.path)
    is_right = (status, found) == (2, "") and errors.count(", skipped") == len(indexes)
    yield "locate in the same", None if is_right else f"{status}, {found!r}, {errors!r}"


def asked_again(program, room, kind):
    """Requests to a packtool that is kept running, as a multi-pack-index comes, changes and goes, and git packs the store again."""
    for at, words in enumerate([("find", "--one"), ("abbreviate",)]):
        store = Store(program, room / words[0], kind)
        wanted, title = store.wanted[at + 1][0].encode(), f"{' '.join(words)} --stdin, after a multi-pack-index"
        keep(store.path)
        with talk(program, store.path, *words) as child:
            for name, content in [
                ("none", None),
                ("one that comes", store.whole),
                ("one with another version", changed(store.whole, 4, 9)),
                ("one that is cut off", store.whole[: len(store.whole) // 2]),
                ("one that is whole again", store.whole),
                ("one that goes", None),
            ]:
                store.put(content) if content else store.clear()
                time.sleep(SETTLED)
                yield f"{title}: {name}", ask(child, store.given, wanted)
            store.put(store.whole)
            git(store.path, "repack", "-adq")
            yield f"{title}: git repack -ad, which removes it", ask(child, store.given, wanted) or (store.place.exists() and "it is there") or None
            store.put(store.whole)
            yield f"{title}: one of packs that are gone", ask(child, store.given, wanted)


def while_packs_move(program, room, kind):
    """Requests to a packtool that is kept running, while git makes packs, writes a multi-pack-index of them, packs them into one by it, and
    removes those that it does not need any more."""
    store = Store(program, room / kind, kind)
    wanted = store.wanted[1][0].encode()

    def move():
        for start in range(MOVES):
            pack_objects(store.path, store.ids[start::TWICE], store.path / "objects" / "pack" / "pack")
            for words in ("write",), ("repack", "--batch-size=0"), ("expire",):
                git(store.path, "multi-pack-index", *words)

    with talk(program, store.path, "find", "--one") as child, ThreadPoolExecutor(1) as pool:
        moving, asked, wrong = pool.submit(move), 0, None
        while not moving.done() and not wrong:
            wrong = ask(child, store.given, wanted)
            asked += len(store.lines)
        moving.result()
    yield f"find of {asked} lines while packs move, {MOVES} times", wrong or (None if store.place.exists() else "git wrote none")


GROUPS = [damaged_bytes, cut_off, other_forms, other_packs, read_instead, asked_again, while_packs_move]
