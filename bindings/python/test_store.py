"""Compares gix_hash.Store with Git, over stores that live, beside threads, signals, forks and processes that end.

It runs in this repository, by what tools/gitstore.py says of stores. The variable PACKTOOL is the path of the program.
"""

import contextlib
import errno
import faulthandler
import gc
import hashlib
import itertools
import os
import pathlib
import pickle
import random
import re
import resource
import shutil
import signal
import subprocess
import sys
import tempfile
import threading
import time
import unittest
import warnings
from concurrent.futures import ThreadPoolExecutor
from unittest import mock

TOOLS = pathlib.Path(__file__).resolve().parents[2] / "tools"
# Where `make lib` leaves it, and `make`.
os.environ.setdefault("GIX_HASH_LIB", str(TOOLS.parent / "out" / "libgix_hash.so"))
os.environ.setdefault("PACKTOOL", str(TOOLS.parent / "crates" / "packtool" / "out" / "packtool"))
sys.path.insert(0, str(TOOLS))
from gitstore import (  # noqa: E402
    add_blobs, add_pack, add_repository, beginning_with, keep, listed, make_blobs, move, pack_index, places, shortest, some_prefixes, unpack,
)  # fmt: skip
from probe import git  # noqa: E402

from gix_hash import (  # noqa: E402
    Ambiguous, Code, Error, Id, Kind, Location, Missing, Prefix, SkippedWarning, Store, StoreError,
)  # fmt: skip

KINDS = {"sha1": Kind.SHA1, "sha256": Kind.SHA256}
# It does what packtool does only in a bad moment.
FAKE = str(TOOLS.parent / "bindings" / "fake_packtool")
# How often a store is asked by each thread, and within how many seconds what is begun in a test has to end.
QUESTIONS, LIMIT = 1000, 60


class Alarm(Exception):
    pass


def children():
    """The processes that this one has begun, and that run."""
    pids = [pid for path in pathlib.Path("/proc/self/task").glob("*/children") for pid in path.read_text().split()]
    return [int(pid) for pid in pids if not re.search(r"\) [ZX] ", pathlib.Path(f"/proc/{pid}/stat").read_text())]


def left(size):
    """The processes that run, which are soon no more than these."""
    gc.collect()
    for _ in range(100):
        if len(children()) <= size:
            break
        time.sleep(0.02)
    return children()


def bytes_read():
    """How many bytes this thread has read."""
    return int(re.match(r"rchar: (\d+)", pathlib.Path("/proc/thread-self/io").read_text())[1])


def begun(call):
    """A thread that runs."""
    thread = threading.Thread(target=call, daemon=True)
    thread.start()
    return thread


def forked(call):
    """The status of a forked process that makes a call: 0 if it is true, and 14 if it takes too long."""
    with warnings.catch_warnings():
        warnings.simplefilter("ignore", DeprecationWarning)  # (a fork beside threads is what is tested)
        pid = os.fork()
    if pid == 0:
        signal.signal(signal.SIGALRM, signal.SIG_DFL)
        signal.alarm(LIMIT)
        status = 1
        with contextlib.suppress(BaseException):
            status = 0 if call() else 2
        os._exit(status)
    return os.waitpid(pid, 0)[1]


class Stores(unittest.TestCase):
    def setUp(self):
        self.room = pathlib.Path(tempfile.mkdtemp(prefix="store-")).resolve()
        self.addCleanup(shutil.rmtree, self.room)
        # (a test that hangs ends all, and says where it was)
        faulthandler.dump_traceback_later(5 * LIMIT, exit=True)
        self.addCleanup(faulthandler.cancel_dump_traceback_later)
        caught, unraised = warnings.catch_warnings(), []
        caught.__enter__()
        self.addCleanup(caught.__exit__, None, None, None)
        warnings.simplefilter("error")
        self.addCleanup(setattr, sys, "unraisablehook", sys.unraisablehook)
        self.addCleanup(lambda: self.assertEqual((gc.collect() < 0, unraised), (False, [])))
        sys.unraisablehook = lambda it: unraised.append(repr(it.exc_value))
        self.addCleanup(lambda: self.assertEqual(left(0), []))

    def blobs(self, name="store", kind="sha1", **how):
        """A new bare repository, and the ids of its blobs."""
        make_blobs(self.room / name, kind, **how)
        return self.room / name, listed(self.room / name)

    def opened(self, *given):
        """A store, which is closed at the end of the test."""
        store = Store(*given)
        self.addCleanup(store.close)
        return store

    def compare(self, path, ids, kind="sha1", objects=None, size=60):
        """Compares all calls with what git says of the ids."""
        rng, store = random.Random(len(ids)), self.opened(path)
        names = dict(line.split()[::-1] for line in shortest(ids).splitlines())
        self.assertEqual((store.kind, [str(id) for id in store]), (KINDS[kind], ids))
        for least in 4, 9:
            wanted = [(id[: max(least, len(names[id]))], id) for id in ids]
            self.assertEqual([(name, str(id)) for name, id in store.abbreviations(least)], wanted)
        longest = sorted(ids, key=lambda id: -len(names[id]))[: size // 4]
        for id, least in [*itertools.product(longest, range(4, 13)), *((id, 0) for id in rng.sample(ids, min(size, len(ids))))]:
            self.assertEqual({store.abbreviate(it, least) for it in (id, Id(id))}, {id[: max(least, len(names[id]))]})
        prefixes = [*some_prefixes(ids, 20 * size, 2)]
        given = [rng.choice((str, Prefix))(prefix) for prefix in prefixes] + [Id(id) for id in rng.sample(ids, size)]
        found = {prefix: beginning_with(ids, str(prefix)) for prefix in given}
        many = [(prefix, [str(id) for id in ids]) for prefix, ids in store.find_many(iter(given))]
        self.assertEqual(many, [(prefix, found[prefix]) for prefix in given])
        for prefix in rng.sample(given, size):
            wanted = found[prefix]
            self.assertEqual([str(id) for id in store.find(prefix)], wanted)
            self.assertEqual(str(prefix).lower() in map(str, map(store.resolve, wanted)), len(str(prefix)) == len(ids[0]) and bool(wanted))
            if len(wanted) == 1:
                self.assertEqual(str(store.resolve(prefix)), wanted[0])
            else:
                with self.assertRaises(Ambiguous if wanted else Missing) as raised:
                    store.resolve(prefix)
                self.assertEqual([str(id) for id in getattr(raised.exception, "ids", [])], wanted)
            if objects and wanted:
                lines = [f"{it.id} {it.path}{'' if it.offset is None else f' {it.offset}'}\n" for it in store.locate(prefix)]
                self.assertEqual("".join(lines), places(objects, wanted))
        self.assertTrue(all(Id(id) in store for id in rng.sample(ids, 5)))
        self.assertFalse(Id("1" * 40) in store or Id("1" * 64) in store or "1" * len(ids[0]) in store)
        self.assertTrue(ids[0] in store and ids[0][:7] in store)
        other = Id(ids[0][:40] if kind == "sha256" else f"{ids[0]:0<64}")
        self.assertFalse(other in store)
        self.assertRaises(Missing, store.abbreviate, other)
        with self.assertRaises(TypeError):
            None in store
        self.assertEqual(store.skipped, [])

    def test_kinds(self):
        for kind in KINDS:
            bare, ids = self.blobs(kind, kind)
            self.compare(bare, ids, kind, bare / "objects")
            self.compare(os.fsencode(bare / "refs" / "tags"), ids, kind, bare / "objects", size=5)

    def test_stores(self):
        lent, more = self.blobs("lent", seed=1, packs=1, packed=200)
        own, ids = self.blobs("own", packed=200)
        (own / "objects" / "info" / "alternates").write_text(f"{lent}/objects\n")
        self.compare(own, sorted({*ids, *more}), size=20)
        many, ids = self.blobs("many", packs=80, packed=400)
        self.compare(str(many), ids, objects=many / "objects", size=4)
        git(self.room, "init", "--quiet", "work")
        for name in "ab":
            git(self.room / "work", "commit", "--quiet", "--allow-empty", "-m", name)
        add_blobs(self.room / "work", [f"loose {at}" for at in range(50)])
        git(self.room / "work", "worktree", "add", "--quiet", "-b", "b", str(self.room / "tree"))
        (self.room / "tree" / "deep").mkdir()
        self.compare(self.room / "tree" / "deep", listed(self.room / "work"), size=5)
        large, ids = self.blobs("large", "sha256", packed=20000)
        self.compare(large, ids, "sha256")
        found = {id: [Id(id)] for id in ids}
        # (a pipe of one page has room neither for a chunk nor for its reply)
        with mock.patch("gix_hash._store._PIPE", 4096):
            self.assertEqual(list(self.opened(large).find_many(ids * 5)), list(found.items()) * 5)
        git(self.room, "init", "--quiet", "empty")
        self.assertEqual((list(Store(self.room / "empty")), Store(self.room / "empty").find("4b")), ([], []))

    def test_packed_meanwhile(self):
        live, _ = self.blobs("sha1", packed=600, loose=50)
        ids = [Id(id) for id in keep(live)]
        names = [(name, Id(id)) for name, id in (line.split() for line in shortest([str(id) for id in ids]).splitlines())]
        store, asked = self.opened(live), 0
        with ThreadPoolExecutor(1) as pool:
            moved = pool.submit(move, live, lambda: unpack(live, self.room))
            while not moved.done() or asked < 50:
                id = ids[asked * 7919 % len(ids)]
                self.assertEqual((store.find(str(id)[:12]), store.resolve(id), id in store), ([id], id, True))
                self.assertEqual([it.id for it in store.locate(id)][:1], [id])
                self.assertEqual([(store.abbreviate(id), id)], [pair for pair in names if pair[1] == id])
                asked += 1
                if asked % 10 == 0:
                    self.assertEqual(list(store.find_many(ids)), [(id, [id]) for id in ids])
                    self.assertEqual(list(store.abbreviations()), names)
            moved.result()

    def test_new_objects(self):
        bare, _ = self.blobs(packed=20, loose=5)
        store = self.opened(bare)
        for at in range(20):
            (id,) = add_blobs(bare, [f"new {at}"])
            self.assertEqual((store.find(id[:9]), store.locate(id)[0].offset), ([Id(id)], None))
            self.assertEqual(os.stat(store.locate(Prefix(id))[0].path).st_nlink, 1)

    def test_asked_before(self):
        """A prefix is asked before and after an object comes, another one, and a pack of both."""
        bare, ids = self.blobs(packed=300, loose=20)
        store, texts = self.opened(bare), {}
        for number in itertools.count():
            text = f"new {number}"
            id = hashlib.sha1(f"blob {len(text)}\0{text}".encode()).hexdigest()
            if id[:4] in texts:
                break
            if not beginning_with(ids, id[:4]):
                texts[id[:4]] = text, id
        (other, first), prefix = texts[id[:4]], id[:4]
        for change in (
            lambda: None, lambda: add_blobs(bare, [other]), lambda: add_blobs(bare, [text]),
            lambda: git(bare, "repack", "-adkq"),
        ):  # fmt: skip
            change()
            ids = listed(bare)
            names, wanted = dict(line.split()[::-1] for line in shortest(ids).splitlines()), beginning_with(ids, prefix)
            for _ in range(2):
                found = [Id(id) for id in wanted]
                self.assertEqual((store.find(prefix), list(store.find_many([prefix]))), (found, [(prefix, found)]))
                lines = [f"{it.id} {it.path}{'' if it.offset is None else f' {it.offset}'}\n" for it in store.locate(prefix)]
                self.assertEqual("".join(lines), places(bare / "objects", wanted) if wanted else "")
                self.assertEqual([Id(each) in store for each in (first, id)], [each in wanted for each in (first, id)])
                for each in first, id:
                    with contextlib.nullcontext() if each in wanted else self.assertRaises(Missing):
                        self.assertEqual(store.abbreviate(Id(each)), names.get(each))
                with contextlib.nullcontext() if len(wanted) == 1 else self.assertRaises(Ambiguous if wanted else Missing):
                    self.assertEqual(store.resolve(prefix), found[0])
                self.assertEqual([str(id) for id in store], ids)
        self.assertEqual(len(wanted), 2)

    def test_offsets(self):
        offsets = [12, 2**31 - 1, 2**31, 2**32 + 5, 2**63 - 1]
        rows = [(offset, f"{at:02}" * 20, 0) for at, offset in enumerate(offsets)]
        add_repository(self.room / "store")
        add_pack(self.room / "store" / "objects", "pack-1", pack_index(rows))
        store, pack = self.opened(self.room / "store"), str(self.room / "store" / "objects" / "pack" / "pack-1.pack")
        self.assertEqual([store.locate(id) for _, id, _ in rows], [[Location(Id(id), pack, offset)] for offset, id, _ in rows])

    def test_threads(self):
        bare, ids = self.blobs(packed=500, loose=50)
        store, wrong = self.opened(bare), []

        def ask(seed):
            rng = random.Random(seed)
            try:
                for at in range(QUESTIONS):
                    id = rng.choice(ids)
                    found = [store.find, store.locate][at % 10 == 3](id[:20])
                    if [str(getattr(it, "id", it)) for it in found[:1]] != [id] or at % 10 == 7 and not id.startswith(store.abbreviate(Id(id))):
                        wrong.append((id, found))
            except BaseException as error:
                wrong.append(error)

        for thread in [begun(lambda seed=seed: ask(seed)) for seed in range(8)]:
            thread.join()
        self.assertEqual((wrong, len(children())), ([], 3))

    def test_calls_within_iterators(self):
        bare, ids = self.blobs(packed=300, loose=30)
        store = self.opened(bare)

        def prefixes():
            for id in ids:
                self.assertEqual(threading.current_thread(), threading.main_thread())
                yield store.abbreviate(Id(id))

        for (prefix, found), (name, id) in zip(store.find_many(prefixes()), store.abbreviations()):
            self.assertEqual((found, prefix), ([id], name))
            self.assertEqual([it.id for it in store.locate(prefix)], found)
            self.assertEqual(next(store.find_many([prefix])), (prefix, found))
        self.assertEqual(len(children()), 3)
        many, other, names = store.find_many(ids * 100), store.find_many(ids * 100), store.abbreviations()
        next(many), next(other), next(names)
        self.assertGreaterEqual(len(children()), 5)
        many.close()
        del other, names
        gc.collect()
        self.assertEqual(len(children()), 3)
        with self.assertRaises(ZeroDivisionError):
            list(store.find_many(str(1 // (5 - at)) * 4 for at in range(9)))
        numbers = iter(range(40000))
        next(store.find_many(f"{at:08x}" for at in numbers))
        self.assertLess(next(numbers), 17000)

    def test_chunks(self):
        bare, ids = self.blobs(packed=2000, loose=100)
        store, rng = self.opened(bare), random.Random(3)
        short = [ids[rng.randrange(len(ids))][: rng.choice((2, 2, 2, 3, 4, 12))] for _ in range(3000)]
        for given in (short, ["00"] * 30000, [ids[0]] * 20000, short[:1], [], [id[:9] for id in ids] * 12):
            wanted = {prefix: beginning_with(ids, prefix) for prefix in set(given)}
            left = iter(given)
            for (prefix, found), asked in zip(store.find_many(left), given):
                self.assertEqual((prefix, list(map(str, found))), (asked, wanted[asked]))
            self.assertEqual(list(left), [])
        # (a short prefix counts as many, and may be the one with which a chunk is full)
        long, short = [id[:12] for id in ids * 4], {prefix: beginning_with(ids, prefix) for prefix in (ids[7][:2], ids[7][:3], ids[7][:4])}
        for (prefix, wanted), cost in zip(short.items(), (1024, 64, 4)):
            for at, size in (8189, 8190), (8190, 8191), (8191, 8192), (0, 8192), (8191 - cost, 8192), (8192 - cost, 8192):
                given = [*long[:at], prefix, *long[at + 1 : size]]
                found = list(store.find_many(given))
                self.assertEqual([prefix for prefix, _ in found], given)
                self.assertEqual(list(map(str, found[at][1])), wanted)
        first, second = store.find_many([ids[0]] * 2)
        first[1].clear()
        self.assertEqual(second[1], [Id(ids[0])])

    def test_killed(self):
        bare, ids = self.blobs(packed=50, loose=5)
        store = self.opened(bare)
        for call, command in ((store.find, "find"), (store.locate, "locate"), (lambda id: store.abbreviate(Id(id)), "abbreviate")):
            for _ in range(5):
                self.assertTrue(call(ids[7]))
                for pid in children():
                    os.kill(pid, signal.SIGKILL)
                with self.assertRaisesRegex(StoreError, "^packtool was ended by the signal 9$"):
                    call(ids[7])
                self.assertTrue(call(ids[7]), command)
        many = store.find_many(ids * 500)
        next(many)
        for pid in children():
            os.kill(pid, signal.SIGTERM)
        with self.assertRaisesRegex(StoreError, "signal 15$"):
            list(many)
        # (of ids that end within a line, none is made up)
        self.blobs("many", packed=30000)
        names = self.opened(self.room / "many").abbreviations()
        first, running = next(names), children()
        for pid in running:
            os.kill(pid, signal.SIGKILL)
        with self.assertRaisesRegex(StoreError, "signal 9$"):
            for pair in names:
                self.assertTrue(first < pair and str(pair[1]).startswith(pair[0]))
                first = pair

    def test_alarms(self):
        bare, ids = self.blobs(packed=500, loose=50)
        store, rng, rung = self.opened(bare), random.Random(5), 0
        within = []
        warnings.simplefilter("ignore", ResourceWarning)  # (of a process that was not begun wholly; its input is closed)

        def ring(*_):
            if len(within) % 2:
                within.append(store.find(ids[3]) == [Id(ids[3])])
            else:
                within.append(True)
                raise Alarm

        self.addCleanup(signal.signal, signal.SIGALRM, signal.signal(signal.SIGALRM, ring))
        for at in range(600):
            id = rng.choice(ids)
            try:
                signal.setitimer(signal.ITIMER_REAL, rng.uniform(0.00002, 0.0008))
                found = [store.find, store.locate][at % 3 == 0](id)
                if at % 20 == 0:
                    found = [found for _, [found] in store.find_many([id] * 9)]
                signal.setitimer(signal.ITIMER_REAL, 0)
                self.assertEqual({str(getattr(it, "id", it)) for it in found}, {id})
            except Alarm:
                rung += 1
        self.assertTrue(rung > 20 and all(within), (rung, within))
        self.assertLess(len(left(2)), 10)  # (one that was lost as it was begun ends when it reads that it gets no input)

    def test_close(self):
        bare, ids = self.blobs(packed=500, loose=50)
        for _ in range(5):
            store, ended = Store(bare), []

            def ask(call, store=store, ended=ended):
                with self.assertRaisesRegex(ValueError, "^the store is closed$"):
                    while True:
                        call()
                ended.append(call)

            calls = [lambda: store.find("00"), lambda: store.locate(ids[3]), lambda: store.abbreviate(Id(ids[3]))] * 2
            calls += [lambda: list(store.find_many(ids)), lambda: list(store.abbreviations())]
            threads = [begun(lambda call=call: ask(call)) for call in calls]
            many = store.find_many(ids * 100)
            next(many)
            time.sleep(0.1)
            store.close()
            for thread in threads:
                thread.join(LIMIT)
            self.assertEqual((len(ended), left(0)), (len(calls), []))
            self.assertRaises(ValueError, list, many)
        files = len(os.listdir("/proc/self/fd"))
        for how in ("closed", "left", "with"):
            store = Store(bare)
            store.locate(ids[3]), store.close() if how == "closed" else None
            with store if how == "with" else contextlib.nullcontext():
                pass
            del store
            gc.collect()
            self.assertEqual((children(), len(os.listdir("/proc/self/fd"))), ([], files), how)
        with Store(bare) as store:
            self.assertEqual(store.find(ids[0]), [Id(ids[0])])
        self.assertEqual((children(), len(os.listdir("/proc/self/fd"))), ([], files))
        for call in (store.find, store.resolve, store.locate, lambda it: store.abbreviate(Id(it)), lambda it: Id(it) in store):
            self.assertRaisesRegex(ValueError, "^the store is closed$", call, ids[0])
        for iterator in (store.abbreviations(), store.find_many(ids), iter(store)):
            self.assertRaisesRegex(ValueError, "^the store is closed$", next, iterator)
        self.assertEqual((store.kind, store.skipped), (Kind.SHA1, []))

    def test_forks(self):
        bare, ids = self.blobs(packed=500, loose=50)
        store, id = self.opened(bare), Id(ids[3])
        many = store.find_many(ids * 100)
        next(many), store.find(id)
        running, names = children(), store.abbreviations()
        next(names)

        def use():
            for _ in range(9):
                if store.find(id) != [id] or store.abbreviate(id) not in ids[3] or list(store.find_many([id])) != [(id, [id])]:
                    return False
            for begun_before in many, names:
                try:
                    return len(list(begun_before)) < 0
                except StoreError as error:
                    if "fork" not in str(error):
                        return False
            return store.close() is None

        self.assertEqual([forked(use), forked(lambda: store.close() is None)], [0, 0])
        self.assertLessEqual({*running}, {*children()})
        self.assertEqual((store.find(id), len(list(many)), len(list(names))), ([id], 100 * len(ids) - 1, len(ids) - 1))
        is_over, wrong = threading.Event(), []

        def ask():
            while not is_over.is_set():
                if store.find(id) != [id] or store.locate(id)[0].id != id:
                    wrong.append(id)

        threads = [begun(ask) for _ in range(3)]
        many, names = store.find_many(ids * 100), store.abbreviations()
        next(many), next(names)
        statuses = [forked(use if at % 2 else lambda: store.close() is None) for at in range(20)]
        is_over.set()
        for thread in threads:
            thread.join()
        self.assertEqual((statuses, wrong), ([0] * 20, []))

    def test_paths(self):
        names = [b"\xff", b"a\\b", b"a\nb", b"a\rb", b"\\n\n\\", b"a 12", b" bad", b"'\"\t;", "\u00fc".encode()]
        for name in names:
            path = os.path.join(os.fsencode(self.room), name)
            git(self.room, "init", "--quiet", "--bare", path)
            directory = pathlib.Path(os.fsdecode(path))
            make_blobs(directory, "sha1", packs=1, packed=30, loose=5)
            ids = listed(directory)
            for given in path, os.fsdecode(path), directory:
                store = self.opened(given)
                places = [place for id in ids for place in store.locate(id)]
                self.assertEqual([str(place.id) for place in places], ids)
                packs = {place.path for place in places if place.offset is not None}
                self.assertEqual(packs, {str(pack) for pack in directory.glob("objects/pack/*.pack")}, name)
                loose = {place.path for place in places if place.offset is None}
                self.assertEqual(loose, {str(file) for file in directory.glob("objects/??/*")}, name)
                self.assertEqual([os.fsencode(place.path) for place in places if not os.path.isabs(place.path)], [])
                self.assertEqual((len(packs), len(loose), places[0]), (1, 5, Location(*places[0])))
                store.close()
            (directory / "config").write_text("[core]\n\trepositoryformatversion = 9\n")
            with self.assertRaises(StoreError) as raised:
                Store(path)
            shown = path.decode("utf-8", "replace")
            self.assertRegex(str(raised.exception), rf"^{re.escape(shown)}(: \.)?/config: ")

    def test_damaged_offset(self):
        directory, index, ids = self.room / "damaged.git", None, []
        git(self.room, "init", "--quiet", "--bare", str(directory))
        blobs = "".join(f"blob\ndata 3\n{n}\n" for n in range(100, 400))
        git(directory, "-c", "fastimport.unpackLimit=0", "fast-import", "--quiet", given=blobs.encode())
        (pack,) = directory.glob("objects/pack/*.pack")
        index = pack.with_suffix(".idx")
        index.unlink()
        git(directory, "index-pack", "--index-version=2,2000", "-o", str(index), str(pack))
        ids, data = listed(directory), bytearray(index.read_bytes())
        at = 1032 + 300 * (20 + 4)
        (damaged,) = [position for position in range(300) if data[at + 4 * position] & 0x80][:1]
        data[at + 4 * damaged + 1] = 0x7F  # a long offset that is not there
        index.chmod(0o644)
        index.write_bytes(data)
        store = self.opened(directory)
        for _ in range(3):
            with self.assertRaisesRegex(StoreError, f"{index.name}: .*offset"):
                store.locate(ids[damaged])
            self.assertEqual(store.find(ids[damaged]), [Id(ids[damaged])])
            self.assertEqual([it.id for it in store.locate(ids[damaged - 1])], [Id(ids[damaged - 1])])

    def test_skipped(self):
        bare, ids = self.blobs(packed=50, loose=5)
        gone = [f"/nowhere/{'long' * 20}/{number}" for number in range(2000)]
        (bare / "objects" / "info" / "alternates").write_text("".join(f"{path}\n" for path in gone))
        with warnings.catch_warnings(record=True) as caught:
            warnings.simplefilter("always")
            store = self.opened(bare)
            self.assertEqual((store.find(ids[3]), len(store.locate(ids[3])), len([*store.abbreviations()])), ([Id(ids[3])], 1, len(ids)))
            self.assertEqual([found for _, [found] in store.find_many(ids)], [Id(id) for id in ids])
        self.assertEqual([str(it.message) for it in caught], store.skipped)
        self.assertEqual({(it.category, it.filename) for it in caught}, {(SkippedWarning, __file__)})
        self.assertEqual(len(store.skipped), len(gone))
        self.assertTrue(all(path in text and text.endswith(", skipped") for path, text in zip(gone, store.skipped)))
        # (what it has said is read once)
        before = bytes_read()
        self.assertEqual([store.find(ids[3]) for _ in range(20)], [[Id(ids[3])]] * 20)
        self.assertLess(bytes_read() - before, 500000)
        (bare / "objects" / "info" / "alternates").write_text("/nowhere\n")
        with self.assertRaisesRegex(SkippedWarning, "^/nowhere: .*, skipped$"):
            store.find(ids[3])
        for call in (store.find, store.locate):
            self.assertEqual(len(call(ids[3])), 1)
        self.assertEqual(list(store.find_many(ids[3:4])), [(ids[3], [Id(ids[3])])])
        for call in store.resolve, lambda id: store.abbreviate(Id(id)):
            self.assertRaisesRegex(Missing, r"^no id begins with 1{40} \(2001 parts of the store left out: see skipped\)$", call, "1" * 40)
        self.assertRaises(SkippedWarning, Store, bare)

    def test_surroundings(self):
        one, ids = self.blobs("one", packed=50, loose=5)
        other, others = self.blobs("other", packed=50, loose=5, seed=1)
        before, program = dict(os.environ), os.environ["PACKTOOL"]
        self.addCleanup(os.chdir, os.getcwd())
        self.addCleanup(os.environ.update, before)
        for name in ("GIT_DIR", "GIT_OBJECT_DIRECTORY", "GIT_ALTERNATE_OBJECT_DIRECTORIES", "GIT_COMMON_DIR"):
            self.addCleanup(os.environ.pop, name, None)
        # (as in a hook)
        os.environ.update(GIT_DIR=str(other), GIT_COMMON_DIR=str(other), GIT_OBJECT_DIRECTORY=str(other / "objects"))
        os.chdir(one)
        given, ambient = self.opened("."), self.opened()
        os.chdir("/")
        os.environ.update(GIT_DIR="/nowhere", GIT_OBJECT_DIRECTORY="", PACKTOOL="/bin/cat")
        for store, wanted in (given, ids), (ambient, others):
            self.assertEqual([str(id) for id in store], wanted)
            (place,) = store.locate(wanted[3])
            self.assertTrue(os.path.isabs(place.path) and os.path.exists(place.path))
        os.environ.update(before, PACKTOOL=program)
        os.environ.pop("GIT_OBJECT_DIRECTORY"), os.environ.pop("GIT_COMMON_DIR")
        os.environ["GIT_DIR"] = str(one)
        os.environ["GIT_ALTERNATE_OBJECT_DIRECTORIES"] = str(other / "objects")
        self.assertEqual([str(id) for id in self.opened()], sorted({*ids, *others}))
        self.assertEqual([str(id) for id in self.opened(one)], ids)

    def test_interrupted(self):
        """Ctrl-C, which all processes of a terminal's group get, ends nothing that runs for a store."""
        bare, ids = self.blobs(packed=50, loose=5)

        def use():
            os.setsid()
            signal.signal(signal.SIGINT, lambda *_: None)
            with Store(bare) as store:
                many, running = store.find_many(ids * 1000), children()
                next(many)
                os.killpg(0, signal.SIGINT)
                time.sleep(0.1)
                return store.find(ids[0]) == [Id(ids[0])] and len(list(many)) == 1000 * len(ids) - 1 and {*running} <= {*children()}

        self.assertEqual(forked(use), 0)

    def test_programs(self):
        bare, ids = self.blobs(packed=50, loose=5)
        program, path = os.environ["PACKTOOL"], os.environ["PATH"]
        self.addCleanup(os.environ.update, PACKTOOL=program, PATH=path)
        right = subprocess.run([program, "--version"], stdout=subprocess.PIPE, encoding="ascii", check=True).stdout.strip()
        old, wanted = str(self.room / "old"), r": set PACKTOOL to the absolute path of packtool \d+\.\d+$"
        for given, why in [
            ("/bin/cat", "/bin/cat: no working packtool"), ("/nowhere", r"/nowhere: no working packtool \(No such file or directory\)"),
            *((it, rf"{it}: no working packtool \(Permission denied\)") for it in ("/", str(bare / "HEAD"))),
            ("", "packtool: not on the PATH"), ("false", "/false: no working packtool"), ("nowhere", "nowhere: not on the PATH"),
            ("./packtool", r"\./packtool: not an absolute path"),
            *((old, f"{old}: this is {said}") for said in ("packtool 0.4.9 of Nunbirdstand", re.sub(r"(\.\d+)\.", r"\g<1>0.", right))),
        ]:  # fmt: skip
            (self.room / "old").write_text(f"#!/bin/sh\necho {why.partition('this is ')[2]}\n")
            (self.room / "old").chmod(0o755)
            os.environ.update(PACKTOOL=given, PATH=path if given else "")
            self.assertRaisesRegex(StoreError, why + wanted, Store, bare)
        # (a program that is wrong now may be right later)
        (self.room / "old").unlink()
        (self.room / "old").symlink_to(os.path.abspath(program))
        os.environ.update(PACKTOOL=old, PATH=path)
        limits = resource.getrlimit(resource.RLIMIT_NOFILE)
        resource.setrlimit(resource.RLIMIT_NOFILE, (len(os.listdir("/proc/self/fd")) - 1, limits[1]))
        self.addCleanup(resource.setrlimit, resource.RLIMIT_NOFILE, limits)
        self.assertRaisesRegex(StoreError, r"no working packtool \(Too many open files\)", Store, bare)
        resource.setrlimit(resource.RLIMIT_NOFILE, limits)
        self.assertEqual(Store(bare).find(ids[0]), [Id(ids[0])])
        directory = self.room / "bin"
        directory.mkdir()
        (directory / "packtool").symlink_to(os.path.abspath(program))
        for given in "", "packtool", str(directory / "packtool"):
            os.environ.update(PACKTOOL=given, PATH="/" if "/" in given else f"/nowhere:{directory}")
            self.assertEqual(self.opened(bare).find(ids[0]), [Id(ids[0])])
        self.assertEqual(len(children()), 3)

    def test_beside(self):
        """The program beside the module is run, but no directory of its name."""
        bare, ids = self.blobs(packed=50, loose=5)
        package, program = self.room / "gix_hash", os.path.abspath(os.environ["PACKTOOL"])
        shutil.copytree(pathlib.Path(sys.modules["gix_hash"].__file__).parent, package)
        words = f"import gix_hash; assert len(gix_hash.Store({str(bare)!r}).find({ids[0]!r})) == 1"
        how = {"cwd": self.room, "check": True}
        (package / "packtool").symlink_to(program)
        subprocess.run([sys.executable, "-c", words], env={**os.environ, "PACKTOOL": "", "PATH": "/nowhere"}, **how)
        (package / "packtool").rename(self.room / "packtool")
        (package / "packtool").mkdir()
        subprocess.run([sys.executable, "-c", words], env={**os.environ, "PACKTOOL": "", "PATH": str(self.room)}, **how)

    def test_bad_moments(self):
        self.addCleanup(os.environ.update, PACKTOOL=os.environ["PACKTOOL"])
        os.environ["PACKTOOL"] = FAKE
        store = self.opened(self.room)
        for call in store.find, store.locate, lambda it: list(store.find_many(["bb", it, "cc"])):
            self.assertRaisesRegex(StoreError, "^packtool printed too few lines$", call, "a0")
            self.assertRaisesRegex(StoreError, "^/f: not read$", call, "a4")
        # (the mark at its end comes in two parts)
        self.assertEqual((store.find("a3"), list(store.find_many(["a3"]))), ([], [("a3", [])]))
        self.assertEqual((store.find("a1"), store.skipped), ([], ["/e: gone, skipped", "/g: gone, skipped"]))
        self.assertRaisesRegex(SkippedWarning, "^/half: gone, skipped$", store.find, "a2")
        for least, why in (4, "/c: not read"), (5, "packtool was ended by the signal 9"):
            with self.assertRaisesRegex(StoreError, f"^{why}$"):
                list(store.abbreviations(least))

    def test_programs_of_others(self):
        """What is in the current directory or in the repository is not run, whatever the variables have beside it."""
        bare, ids = self.blobs(packed=50, loose=5)
        program, mark = os.path.abspath(os.environ["PACKTOOL"]), self.room / "mark"
        self.addCleanup(os.environ.update, PACKTOOL=program, PATH=os.environ["PATH"])
        self.addCleanup(os.chdir, os.getcwd())
        for directory in bare, bare / "bin":
            directory.mkdir(exist_ok=True)
            (directory / "packtool").write_text(f'#!/bin/sh\n: > {mark}\nexec {program} "$@"\n')
            (directory / "packtool").chmod(0o755)
        directory = self.room / "bin"
        directory.mkdir()
        (directory / "packtool").symlink_to(program)
        shutil.copyfile(bare / "packtool", self.room / "packtool")  # (without the right to execute it)
        paths = ["/nowhere", "", ":", ":/nowhere", "/nowhere:", "/nowhere::/", ".", "bin", "./bin/", "../store/bin", "~"]
        for here in bare, self.room:
            os.chdir(here)
            for path in paths:
                for given in "", "packtool", "./packtool", "bin/packtool", "../store/packtool":
                    os.environ.update(PACKTOOL=given, PATH=path)
                    self.assertRaisesRegex(StoreError, "not on the PATH|not an absolute path", Store, bare)
                # (it goes on behind what is left out)
                os.environ.update(PACKTOOL="", PATH=f"{path}:{self.room}:{directory}")
                with Store(bare) as store:
                    self.assertEqual(store.find(ids[0]), [Id(ids[0])])
        self.assertFalse(mark.exists())

    def test_no_store(self):
        bare, ids = self.blobs("bare", "sha256", packed=50, loose=5)
        (self.room / "none").mkdir()
        for path, error, text, number in [
            (self.room / "none", StoreError, f"^{self.room}/none: no git repository", None),
            (self.room / "nowhere", StoreError, "directory: '.*/nowhere'$", errno.ENOENT),
            (bare / "HEAD", StoreError, "HEAD'$", errno.ENOTDIR), (b"/nowhere", StoreError, "'/nowhere'$", errno.ENOENT),
            ("a\0b", ValueError, "null", None), (3, TypeError, "int", None), (["a"], TypeError, "list", None),
        ]:  # fmt: skip
            with self.assertRaisesRegex(error, text) as raised:
                Store(path)
            self.assertEqual(getattr(raised.exception, "errno", None), number)
            self.assertTrue(raised.exception.__suppress_context__ or raised.exception.__context__ is None)
        for kind, error in (True, TypeError), ("md5", ValueError), (3, ValueError), (0, ValueError):
            self.assertRaises(error, Store, bare, kind)
        self.assertEqual(children(), [])
        self.assertEqual((self.opened(bare, Kind.SHA256).find(ids[0]), self.opened(bare, "sha256").kind), ([Id(ids[0])], Kind.SHA256))
        (bare / "config").write_text("[core]\n\trepositoryformatversion = 9\n")
        with self.assertRaisesRegex(StoreError, "config: "):
            Store(bare)
        own, ids = self.blobs("own", packs=0, loose=9)
        self.assertEqual([str(id) for id in self.opened(own, 1)], ids)
        self.assertEqual([(it.kind, list(it), it.find(ids[0])) for it in [self.opened(own, "sha256")]], [(Kind.SHA256, [], [])])
        self.addCleanup(os.chdir, os.getcwd())
        os.chdir(self.room / "none")
        (self.room / "none").rmdir()
        for given in (), (".",), ("x",):
            with self.assertRaises(StoreError) as raised:
                Store(*given)
            self.assertEqual((raised.exception.errno, raised.exception.__suppress_context__), (errno.ENOENT, True))
        self.assertEqual(self.opened(own).find(ids[0]), [Id(ids[0])])

    def test_gone(self):
        """A repository that is gone is a StoreError each time, and found again if it comes back."""
        bare, ids = self.blobs(packed=50, loose=5)
        store = self.opened(bare)
        bare.rename(self.room / "away")
        calls = [store.find, store.locate, lambda it: store.abbreviate(Id(it)), lambda it: next(store.find_many([it])), lambda _: next(store.abbreviations())]
        for call in calls * 2:
            with self.assertRaisesRegex(StoreError, str(bare)) as raised:
                call(ids[0])
            self.assertTrue(raised.exception.__suppress_context__ or raised.exception.__context__ is None)
        (self.room / "away").rename(bare)
        self.assertEqual(store.find(ids[0]), [Id(ids[0])])

    def test_hostile_calls(self):
        bare, ids = self.blobs(packed=50, loose=5)
        store = self.opened(bare)
        texts = ["", "a", "g0", "ab\n", "ab\ncd", "\nab", " ab", "ab ", "ab\r", "ab\0", "\uff41b", "\u0661\u0661", "0" * 65, "ab\x85cd", "zz"]
        for call in (store.find, store.resolve, store.locate, lambda it: list(store.find_many([ids[0], it, ids[1]]))):
            for text in texts:
                self.assertRaises(Error, call, text)
            for wrong in (None, 12, b"ab", 1.5, ["ab"]):
                self.assertRaisesRegex(TypeError, "^expected str, Prefix or Id, not ", call, wrong)
            for long in (ids[0] + "0", "0" * 64, Prefix("1" * 41), Id("1" * 64)):
                with self.assertRaises(Error) as raised:
                    call(long)
                self.assertEqual(raised.exception.code, Code.PREFIX_TOO_LONG)
            self.assertTrue(call(ids[0]))
        for text, message in (
            ("HEAD", "'HEAD': a byte of the text is not a hex digit"), ("5", "'5': a store's prefix has 2 digits or more"),
            ("", "'': a store's prefix has 2 digits or more"), (Prefix("5"), "'5': a store's prefix has 2 digits or more"),
            ("0" * 41, f"'{'0' * 41}': the prefix has more digits than ids of the kind"), ("ab\n", "'ab\\n': a byte of the text is not a hex digit"),
        ):  # fmt: skip
            for call in (store.find, lambda it: list(store.find_many([ids[0], it]))):
                with self.assertRaises(Error) as raised:
                    call(text)
                self.assertEqual(str(raised.exception), message)
                self.assertEqual(str(pickle.loads(pickle.dumps(raised.exception))), message)
        for given in [ids[0], ids[0][:2], Id(ids[0])], [ids[0]] * 9000, [ids[0]] * 8191, [ids[0]] * 20000, [Id(ids[0])] * 8200, ["00"] * 9, []:
            for wrong, error in ("zz", Error), ("5", Error), ("0" * 64, Error), (None, TypeError), (b"ab", TypeError):
                many = store.find_many(iter([*given, wrong, ids[0], "zz"]))
                for it in given:
                    self.assertEqual(next(many), (it, [Id(id) for id in beginning_with(ids, str(it))]))
                self.assertRaises(error, next, many)
                self.assertEqual(list(many), [])
        for wrong in ids[0], b"57e0":
            with self.assertRaisesRegex(TypeError, "expected prefixes"):
                next(store.find_many(wrong))
        for wrong in (None, 7, Prefix(ids[0])):
            self.assertRaises(TypeError, store.abbreviate, wrong)
        for wrong in ("", ids[0][:9], ids[0] + "\n"):
            self.assertRaises(Error, store.abbreviate, wrong)
        for id in Id("1" * 40), Id("1" * 64):
            self.assertRaises(Missing, store.abbreviate, id)
        for call in (store.abbreviations, lambda least: store.abbreviate(Id(ids[0]), least)):
            for least in ("4", 4.5, None):
                self.assertRaises(TypeError, lambda call=call, least=least: list(call(least)))
            for least, same in (-9, 4), (3, 4), (41, 40), (10**9, 40):
                self.assertEqual([*call(least)], [*call(same)])
        self.assertEqual((store.abbreviate(ids[0].upper(), 40), store.find(ids[0].upper())), (ids[0], [Id(ids[0])]))
        self.assertRaises(TypeError, store.find_many(3).__next__)
        self.assertRaisesRegex(TypeError, "^a Store cannot be pickled", pickle.dumps, store)
        self.assertEqual(repr(store), f"Store('{bare}', 'sha1')")
        self.assertRaises(AttributeError, setattr, store, "kind", Kind.SHA256)
        for error in (Ambiguous("2 ids", [Id(ids[0]), Id(ids[1])]), Missing("no id"), StoreError("gone")):
            same = pickle.loads(pickle.dumps(error))
            self.assertEqual((type(same), str(same), vars(same)), (type(error), str(error), vars(error)))
        self.assertEqual(str(Missing("no id")), "no id")

    def test_imports(self):
        words = "import gix_hash, sys; assert not {'subprocess', 'gix_hash._store'} & {*sys.modules}; gix_hash.Store; assert 'subprocess' in sys.modules"
        subprocess.run([sys.executable, "-c", words], env={**os.environ, "PYTHONPATH": os.pathsep.join(sys.path)}, check=True)

    def test_end(self):
        """What runs for a store ends with the process that opened it, also if that is killed."""
        bare, ids = self.blobs(packed=50, loose=5)
        for end, status in ("", 0), ("os.kill(os.getpid(), 9)", -9), ("os._exit(3)", 3), ("1 // 0", 1):
            words = f"import os, gix_hash; s = gix_hash.Store({str(bare)!r}); m = s.find_many([{ids[0]!r}] * 99999); next(m)\nprint('ready'); {end}"
            how = {"env": {**os.environ, "PYTHONPATH": os.pathsep.join(sys.path)}, "capture_output": True}
            # (its output ends when nothing that it began has it, or runs)
            self.assertEqual(subprocess.run([sys.executable, "-c", words], timeout=LIMIT, **how).returncode, status)
        for _ in range(100):
            running = []
            for path in pathlib.Path("/proc").glob("[0-9]*/cwd"):
                with contextlib.suppress(OSError):
                    running += [path] if os.readlink(path) == str(bare) else []
            if not running:
                break
            time.sleep(0.05)
        self.assertEqual(running, [])


if __name__ == "__main__":
    unittest.main()
