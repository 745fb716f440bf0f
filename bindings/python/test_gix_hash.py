"""Compares gix_hash with hashlib, Git, and Python's own texts and lists."""

import array
import bisect
import collections
import contextlib
import copy
import doctest
import functools
import hashlib
import io
import mmap
import os
import pathlib
import pickle
import random
import subprocess
import sys
import tempfile
import threading
import unittest

# Where `make lib` leaves it.
os.environ.setdefault("GIX_HASH_LIB", str(pathlib.Path(__file__).resolve().parents[2] / "out" / "libgix_hash.so"))
import gix_hash  # noqa: E402
from gix_hash import Code, Error, Hasher, Id, Kind, ObjectType, PackIndex, Prefix, SortedDigests  # noqa: E402

KINDS = {Kind.SHA1: "sha1", Kind.SHA256: "sha256"}
EMPTY = hashlib.sha256().hexdigest()
# The user's own variables and configuration do not reach git.
CLEAN = {"PATH": os.environ["PATH"], "GIT_CONFIG_GLOBAL": os.devnull, "GIT_CONFIG_NOSYSTEM": "1"}


def git(*words, data=b""):
    return subprocess.run(["git", *words], input=data, env=CLEAN, stdout=subprocess.PIPE, check=True).stdout.decode()


def index_of(kind):
    """A pack index that git makes of 300 blobs. Offsets above 2,000 are long ones."""
    with tempfile.TemporaryDirectory() as directory:
        git("init", "-q", f"--object-format={KINDS[kind]}", directory)
        blobs = "".join(f"blob\ndata 3\n{n}\n" for n in range(100, 400))
        git("-C", directory, "-c", "fastimport.unpackLimit=1", "fast-import", "--quiet", data=blobs.encode())
        (pack,) = pathlib.Path(directory, ".git/objects/pack").glob("*.pack")
        git("-C", directory, "index-pack", "--index-version=2,2000", "-o", "index", str(pack))
        return pathlib.Path(directory, "index").read_bytes()


def load_tests(loader, tests, pattern):
    tests.addTests(doctest.DocTestSuite(gix_hash))
    return tests


class OwnId(Id):
    pass


class Bindings(unittest.TestCase):
    def fails(self, code, detail, call, *arguments):
        with self.assertRaises(Error) as raised:
            call(*arguments)
        self.assertEqual((raised.exception.code, raised.exception.detail), (code, detail))

    def test_digests(self):
        rng = random.Random(1)
        for kind, name in KINDS.items():
            for data in [rng.randbytes(length) for length in range(200)]:
                wanted = hashlib.new(name, data)
                found = Id.digest(kind, data)
                self.assertEqual((str(found), bytes(found), found.kind), (wanted.hexdigest(), wanted.digest(), kind))
                self.assertEqual({found, Id(str(found).upper()), Id.from_bytes(wanted.digest())}, {found})
        of_git = git("hash-object", "--stdin", data=b"abc\n")
        self.assertEqual(str(Id.digest(Kind.SHA1, b"blob 4\0abc\n")), of_git.strip())

    def test_hashers(self):
        rng = random.Random(2)
        for kind, name in KINDS.items():
            for _ in range(100):
                ours, wanted = Hasher(kind), hashlib.new(name)
                for data in [rng.randbytes(rng.randrange(200)) for _ in range(9)]:
                    ours.update(memoryview(data)), wanted.update(data)
                    copied = ours.copy()
                    copied.update(b"more")
                    self.assertEqual((ours.digest(), ours.hexdigest()), (wanted.digest(), wanted.hexdigest()))
                    self.assertNotEqual(ours.id(), copied.id())
            for word in ("name", "digest_size", "block_size"):
                self.assertEqual(getattr(ours, word), getattr(wanted, word))
            whole, chunks = Hasher(kind, bytes(1 << 24)), Hasher(kind)
            threads = [threading.Thread(target=chunks.update, args=(bytes(1 << 20),)) for _ in range(16)]
            for each in threads:
                each.start()
            for each in threads:
                each.join()
            self.assertEqual(chunks.id(), whole.id())
        self.assertRaises(ValueError, Hasher, 3)

    def test_objects(self):
        for kind, name in KINDS.items():
            with tempfile.TemporaryDirectory() as directory:
                git("init", "-q", f"--object-format={name}", directory)
                for object_type in ObjectType:
                    words = "-C", directory, "hash-object", "--literally", "--stdin", "-t", str(object_type)
                    for data in (b"", b"abc\n", bytes(4095)):
                        found = Id.of_object(kind, object_type, data)
                        self.assertEqual(str(found), git(*words, data=data).strip())
                        self.assertEqual(Id.of_object(name, f"{object_type}", data), found)
                        hasher = Hasher.for_object(kind, object_type, len(data))
                        for at in range(0, len(data), 100):
                            hasher.update(data[at : at + 100])
                        self.assertEqual(hasher.id(), found)
                        self.assertEqual(found == Id.empty_blob(kind), (object_type, data) == (ObjectType.BLOB, b""))
                        self.assertEqual(found == Id.empty_tree(kind), (object_type, data) == (ObjectType.TREE, b""))
            self.assertEqual((str(kind), f"{kind:>8}"), (name, name.rjust(8)))
            self.assertEqual(bytes(Id.null(kind)), bytes(kind.len_in_bytes))
            for length in (0, 9, 10, 2**63, 2**64 - 1):
                self.assertEqual(Hasher.for_object(name, "tree", length).id(), Id.digest(name, f"tree {length}\0".encode()))
        self.assertRaises(ValueError, Id.of_object, Kind.SHA1, 5, b"")

    def test_texts(self):
        short, wrong = Code.BAD_LENGTH, Code.BAD_DIGIT
        for text, of_id, of_prefix in [
            ("", short, short), ("e", short, None), (EMPTY[:39], short, None), (EMPTY[:40], None, None),
            (EMPTY, None, None), (EMPTY + "0", short, short), ("g" * 40, wrong, wrong), ("g", short, wrong),
        ]:  # fmt: skip
            for call, code in ((Id, of_id), (Prefix, of_prefix)):
                if code:
                    self.fails(code, 0, call, text)
                else:
                    call(text)

    def test_orders(self):
        rng = random.Random(2)
        ids = [Id.digest(rng.choice(list(KINDS)), rng.randbytes(2)) for _ in range(300)]
        self.assertEqual(sorted(ids), sorted(ids, key=lambda it: (it.kind, str(it))))
        for one, other in zip(ids, ids[1:]):
            order = gix_hash._lib.gix_hash_id_cmp(one._struct, other._struct)
            self.assertEqual((order, one == other), ((one > other) - (one < other), order == 0))
            digits = (str(one) if rng.random() < 0.5 else str(other))[: rng.randint(1, 40)]
            front = str(other)[: len(digits)]
            self.assertEqual(Prefix(digits).cmp(other), (digits > front) - (digits < front))
        self.fails(Code.PREFIX_TOO_LONG, 0, Prefix(EMPTY[:41]).cmp, Id(EMPTY[:40]))

    def test_values(self):
        for make in (Id, Prefix):
            one, same, other = make(EMPTY), make(EMPTY.upper()), make(EMPTY[:40])
            self.assertEqual((one, hash(one), str(one)), (same, hash(same), EMPTY))
            self.assertEqual(repr(one), f"{make.__name__}('{EMPTY}')")
            self.assertNotEqual(one, other)
            self.assertNotEqual(one, EMPTY)
            self.assertEqual((pickle.loads(pickle.dumps(one)), copy.deepcopy(one)), (one, one))
            self.assertRaises(TypeError, make, 40)
        self.assertEqual((f"{Id(EMPTY):.7}", f"{Prefix('E3B'):>5}", f"{Id(EMPTY)}"), (EMPTY[:7], "  e3b", EMPTY))
        self.assertRaises(ValueError, format, Id(EMPTY), "d")
        self.assertEqual([str(Prefix(EMPTY[:n])) for n in (1, 2, 63)], [EMPTY[:n] for n in (1, 2, 63)])
        own = OwnId(EMPTY)
        for made in (pickle.loads(pickle.dumps(own)), OwnId.from_bytes(bytes(own)), OwnId.digest(Kind.SHA256, b"")):
            self.assertEqual((type(made), repr(made), made), (OwnId, f"OwnId('{EMPTY}')", Id(EMPTY)))
        own.__init__("g" * 40)
        self.assertEqual(str(own), EMPTY)
        self.assertEqual(str(Error(Code.BAD_DIGIT)), "a byte of the text is not a hex digit")
        self.assertEqual(str(Error(Code.UNSORTED, 7)), "a digest is below the one before it (its position: 7)")
        for error in (Error(Code.BAD_DIGIT), Error(Code.UNSORTED, 7)):
            same = pickle.loads(pickle.dumps(error))
            self.assertEqual((same.code, same.detail, str(same)), (error.code, error.detail, str(error)))
        self.fails(Code.UNKNOWN, 99, gix_hash._check, 99, 5)

    def test_readme(self):
        readme = pathlib.Path(__file__).with_name("README.md").read_text(encoding="utf-8")
        with contextlib.redirect_stdout(io.StringIO()) as printed:
            exec(readme.split("```python\n")[1].split("```")[0], {})
        self.assertEqual(printed.getvalue(), "f2ba8f8\n")

    def test_library(self):
        file = gix_hash._path()
        none = {name: text for name, text in os.environ.items() if not name.startswith("GIX_HASH")}
        none["PYTHONPATH"] = os.pathsep.join(sys.path)
        for name, path, why in (
            ("GIX_HASH_LIB", file, None),
            ("GIX_HASH_LIB", os.path.dirname(file), None),
            ("GIX_HASH_LIB", "/nowhere.so", "/nowhere.so"),
            ("GIX_HASH_LIB", "/", "/: it has no libgix_hash.so"),
            ("GIX_HASH_LIB", "libc.so.6", "gix_hash_"),
            # (in the directory of the library, whose files must not be loaded)
            ("GIX_HASH_LIB", "libgix_hash.so", "libgix_hash.so: "),
            ("GIX_HASH_LIB", "./libgix_hash.so", "not an absolute path"),
            ("GIX_HASH_LIB", ".", "not an absolute path"),
            ("GIX_HASH_LIB", "./", "not an absolute path"),
        ):
            words = [sys.executable, "-c", "import gix_hash"]
            env = {**none, name: path}
            ran = subprocess.run(words, env=env, cwd=os.path.dirname(file), stderr=subprocess.PIPE, text=True)
            self.assertRegex(ran.stderr, f"ImportError: .*{why}.*GIX_HASH_LIB" if why else "^$")
        source = pathlib.Path(gix_hash.__file__).read_text(encoding="utf-8")
        for version in ("9.9.0", "0.3.9", "0.4.0"):
            with self.assertRaisesRegex(ImportError, rf"libgix_hash\S*: its version \d+\.\d+ is not {version[:3]}: set GIX_HASH_LIB"):
                exec(source.replace(f'"{gix_hash.__version__}"', f'"{version}"'), {"__name__": "other", "__file__": "/"})
        found = {}
        exec("from gix_hash import *", found)
        public = {"Buffer", "Code", "Entry", "Error", "Hasher", "Id", "Kind", "ObjectType", "PackIndex", "Prefix", "SortedDigests"}
        of_stores = {"Ambiguous", "Location", "Missing", "SkippedWarning", "Store", "StoreError"}
        self.assertEqual(found.keys() - {"__builtins__"}, public | of_stores)
        self.assertEqual({found[name].__module__ for name in public - {"Buffer"} | of_stores}, {"gix_hash"})

    def test_hostile_calls(self):
        """Calls that are wrong, and the exception of each."""
        data = index_of(Kind.SHA1)
        index, table = PackIndex(Kind.SHA1, memoryview(data)), SortedDigests(Kind.SHA1, bytearray(40))
        id, prefix = Id(EMPTY), Prefix("e")
        strided, floats = memoryview(bytes(40))[::2], array.array("f", [1.0] * 5)
        rows = [(TypeError, call, wrong) for call in (Id, Prefix) for wrong in (40, None, EMPTY.encode())]
        rows += [(Error, Id, letter * 40) for letter in ("\ud800", "\xe9", "\uff11", "\0", " ")]
        rows += [(Error, Id, text) for text in (" " + EMPTY[:40], EMPTY[:40] + "\n")]
        rows += [(Error, Prefix, text) for text in ("\ud800", "\xe9", " e", "e ", "+1", "0x", "e" * 65)]
        for call in (Id.digest, SortedDigests, PackIndex):
            rows += [(TypeError, call, kind, data) for kind in (True, None, 1.0, b"sha1", ObjectType.COMMIT)]
            rows += [(ValueError, call, kind, data) for kind in (0, 3, -1, 2**32 + 1, 2**64 + 2, "md5", "Sha1", "", "1")]
            rows += [(TypeError, call, Kind.SHA1, wrong) for wrong in (40, None, EMPTY, 1.5, floats, [1])]
            rows += [(BufferError, call, Kind.SHA1, strided)]
        for call in (Id.from_bytes, PackIndex.kind_of, PackIndex.of_any_kind):
            rows += [(TypeError, call, wrong) for wrong in (40, None, EMPTY, 1.5, floats, [1])]
            rows += [(BufferError, call, strided)]
        for call in (Id.null, Id.empty_blob, Id.empty_tree, Hasher):
            rows += [(TypeError, call, True), (ValueError, call, 0), (ValueError, call, 2**32 + 1)]
        for call, last in ((Id.of_object, b""), (Hasher.for_object, 0)):
            rows += [(ValueError, call, Kind.SHA1, wrong, last) for wrong in (0, 5, 2**32 + 1, "blobs")]
            rows += [(TypeError, call, Kind.SHA1, wrong, last) for wrong in (b"blob", None, True, Kind.SHA1)]
        rows += [(ValueError, Hasher.for_object, "sha1", "blob", wrong) for wrong in (-1, 2**64)]
        rows += [(TypeError, Hasher.for_object, "sha1", "blob", wrong) for wrong in (1.0, "1", None, b"")]
        rows += [(TypeError, call, Hasher(Kind.SHA1)) for call in (copy.copy, copy.deepcopy, pickle.dumps)]
        rows += [(TypeError, Hasher(Kind.SHA1).update, "abc")]
        rows += [(Error, Id.from_bytes, bytes(n)) for n in range(100) if n not in (20, 32)]
        for each in (index, table):
            for call in (each.find, each.__contains__, each.count, each.index):
                rows += [(TypeError, call, wrong) for wrong in (None, 5, b"e6", ["e6"])]
                rows += [(Error, call, wrong) for wrong in ("", "xyz", "e6 ", EMPTY, Prefix(EMPTY))]
        rows += [(TypeError, call, index[0]) for call in (table.__contains__, table.count, table.index, index.find)]
        rows += [(TypeError, prefix.cmp, wrong) for wrong in ("e6", None, prefix)]
        for call in (index.__getitem__, index.id, index.abbreviate, table.__getitem__):
            rows += [(TypeError, call, wrong) for wrong in (1.0, "1", None)]
            rows += [(IndexError, call, at) for at in (300, -301, 2**63, 2**64, -(2**64))]
        for call in (index.index, table.index):
            rows += [(ValueError, call, wrong) for wrong in (id, Id(EMPTY[:40]), EMPTY[:40], Prefix(EMPTY[:39]))]
        rows += [(TypeError, index.abbreviate, slice(1))]
        rows += [(AttributeError, setattr, id, "kind", Kind.SHA1), (TypeError, sorted, [id, EMPTY])]
        for wanted, call, *given in rows:
            with self.subTest(call=call, given=given):
                self.assertRaises(wanted, call, *given)
        for cut in range(0, len(data), 7):
            self.assertRaises(Error, PackIndex.of_any_kind, data[:cut])
            self.assertRaises(Error, PackIndex.of_any_kind, data[:cut] + bytes([data[cut] ^ 1]) + data[cut + 1 :])
        self.assertFalse(id in index or id in table or EMPTY[:40] in index or Prefix(EMPTY[:40]) in table)

    def test_words(self):
        """What errors say of wrong arguments, and of positions."""
        index = PackIndex("sha1", index_of(Kind.SHA1))
        for wanted, call, *given in (
            ("expected str of hex digits, not bytes; Id.from_bytes takes a digest", Id, b"a" * 40),
            ("expected str of hex digits, not int", Id, 5),
            ("expected str of hex digits, not NoneType", Prefix, None),
            ("expected Kind or one of 'sha1', 'sha256', not 'md5'", Id.digest, "md5", b""),
            ("expected Kind or one of 'sha1', 'sha256', not None of the type NoneType", Hasher, None),
            ("expected ObjectType or one of 'commit', 'tree', 'blob', 'tag', not 'x'", Hasher.for_object, "sha1", "x", 0),
            ("expected a length from 0 to 2**64 - 1, not -1", Hasher.for_object, "sha1", "blob", -1),
            ("expected str, Prefix or Id, not 5 of the type int", index.find, 5),
            ("expected Entry, Id, Prefix or str, not None of the type NoneType", index.__contains__, None),
            ("no id is at position 99999: there are 300", index.__getitem__, 99999),
            ("no id is at position -301: there are 300", index.abbreviate, -301),
            ("expected Id, not 'e6' of the type str", Prefix("e6").cmp, "e6"),
            ("'HEAD': a byte of the text is not a hex digit", Prefix, "HEAD"),
            (f"'{'g' * 40}': a byte of the text is not a hex digit", Id, "g" * 40),
            (f"'e6': {Code.BAD_LENGTH.text}", Id, "e6"),
            (f"'{'e' * 76}...: {Code.BAD_LENGTH.text}", Id, "e" * 79),
            (f"'{'e' * 78}': {Code.BAD_LENGTH.text}", Id, "e" * 78),
            (f"'{EMPTY}': {Code.PREFIX_TOO_LONG.text}", index.find, EMPTY),
            (f"'{EMPTY}': {Code.PREFIX_TOO_LONG.text}", Prefix(EMPTY).cmp, Id(EMPTY[:40])),
            ("expected bytes or another buffer, not 'abc' of the type str", Hasher("sha1").update, "abc"),
            ("a pack index of the other kind (its kind: sha1)", PackIndex, "sha256", index._data),
            ("a pack index of another version than 2 (its version: 3)", PackIndex, "sha1", b"\xfftOc\0\0\0\3" + bytes(2000)),
        ):
            with self.assertRaises((TypeError, ValueError, IndexError)) as raised:
                call(*given)
            self.assertEqual(str(raised.exception), wanted)

    def test_pickles(self):
        data = index_of(Kind.SHA1)
        table = b"".join(bytes(it.id) for it in PackIndex(Kind.SHA1, data))
        for made in (PackIndex(Kind.SHA1, bytearray(data)), PackIndex.of_any_kind(memoryview(data)), SortedDigests("sha1", table)):
            for same in (pickle.loads(pickle.dumps(made)), copy.copy(made), copy.deepcopy(made)):
                self.assertEqual((type(same), same.kind, list(same)), (type(made), made.kind, list(made)))
        for made, last in ((PackIndex(Kind.SHA1, data), data[-20:]), (SortedDigests(Kind.SHA1, table), table[-20:])):
            # (the last digest is changed as it lies in the pickle)
            self.assertRaises(Error, pickle.loads, pickle.dumps(made).replace(last, bytes(20)))

    def test_indexes(self):
        for kind in KINDS:
            data = index_of(kind)
            index = PackIndex(kind, data)
            self.assertEqual((len(index), PackIndex.kind_of(data), index.kind), (300, kind, kind))
            self.assertEqual((PackIndex.of_any_kind(data).kind, list(PackIndex.of_any_kind(data))), (kind, list(index)))
            lines = [f"{it.offset} {it.id} ({it.crc:08x})\n" for it in index]
            self.assertEqual("".join(lines), git("show-index", f"--object-format={KINDS[kind]}", data=data))
            names = [str(it.id) for it in index]
            self.assertEqual([str(index.id(at)) for at in range(-300, 300)], 2 * names)
            table = SortedDigests(kind, b"".join(bytes(it.id) for it in index))
            self.assertEqual(([str(it) for it in table], table.kind), (names, kind))
            for list_of in (index, table):
                each = list(list_of)
                for at in (-1, -300, 299, slice(5, -3, 7), slice(None, None, -1)):
                    self.assertEqual(list_of[at], each[at])
                for at in (300, -301):
                    self.assertRaises(IndexError, list_of.__getitem__, at)
                self.assertEqual([list_of.index(it) for it in each], list(range(300)))
                self.assertTrue(all(it in list_of and list_of.count(it) == 1 for it in each))
            fronts = collections.Counter(name[:length] for name in names for length in range(4, 65))
            for at, name in enumerate(names):
                hex_len = index.abbreviate(at)
                self.assertEqual((index.index(Id(name)), Id(name) in index, index.count(Id(name))), (at, True, 1))
                self.assertEqual(hex_len, next(length for length in range(4, 65) if fronts[name[:length]] == 1))
                for digits in (name[:1], name[:2], name[:hex_len], name):
                    wanted = range(bisect.bisect_left(names, digits), bisect.bisect_left(names, digits + "g"))
                    for each in (index, table):
                        self.assertEqual([each.find(Prefix(digits)), each.find(digits)], [wanted, wanted])
                        self.assertTrue(digits in each and Prefix(digits.upper()) in each)
                        self.assertEqual((each.count(digits), each.index(digits)), (len(wanted), wanted.start))
            for call in (index.id, index.abbreviate):
                self.assertRaises(IndexError, call, len(index))
            self.fails(Code.OTHER_KIND, kind, PackIndex, 3 - kind, data)
            for call in functools.partial(PackIndex, kind), PackIndex.of_any_kind, PackIndex.kind_of:
                self.fails(Code.WRONG_CHECKSUM, 0, call, data[:-1] + bytes([data[-1] ^ 1]))
                self.fails(Code.NAMES_FALL, 1, call, data[:1032] + b"\xff" + data[1033:])
            self.fails(Code.BAD_VERSION, 9, PackIndex, kind, data[:7] + b"\x09" + data[8:])
            self.fails(Code.BAD_VERSION, 9, PackIndex.kind_of, data[:7] + b"\x09" + data[8:])
            self.assertNotIn(index[0]._replace(crc=index[0].crc ^ 1), index)

    def test_tables(self):
        repeats = SortedDigests(Kind.SHA1, b"1" * 60 + b"2" * 20)
        one = repeats[0]
        self.assertEqual([repeats.count(one), *(repeats.index(one, start) for start in (0, 1, -2))], [3, 0, 1, 2])
        self.assertRaises(ValueError, repeats.index, one, 3)
        self.assertRaises(ValueError, repeats.index, repeats[3], 0, 3)
        self.fails(Code.PREFIX_TOO_LONG, 0, SortedDigests(Kind.SHA1, b"").find, Prefix(EMPTY))
        self.fails(Code.BAD_MAGIC, 0, PackIndex.kind_of, bytes(2000))
        self.fails(Code.UNSORTED, 1, SortedDigests, Kind.SHA1, b"2" * 20 + b"1" * 20)

    def test_buffers(self):
        with tempfile.TemporaryFile() as file:
            file.write(index_of(Kind.SHA1))
            file.flush()
            with mmap.mmap(file.fileno(), 0, access=mmap.ACCESS_READ) as mapped:
                index = PackIndex(Kind.SHA1, mapped)
                self.assertEqual(index._given, PackIndex(Kind.SHA1, memoryview(mapped))._given)
                self.assertEqual(list(index), list(PackIndex(Kind.SHA1, bytearray(mapped[:]))))
                self.assertRaises(BufferError, mapped.close)
                del index
        self.assertEqual(Id.digest(Kind.SHA1, memoryview(b"abcd")[1:3]), Id.digest(Kind.SHA1, b"bc"))
        self.assertEqual(Id.digest(Kind.SHA1, array.array("b", b"bc")), Id.digest(Kind.SHA1, b"bc"))
        self.assertEqual(Id.digest(Kind.SHA256, bytearray()), Id(EMPTY))
        self.assertEqual(len(SortedDigests(Kind.SHA1, b"")), 0)


if __name__ == "__main__":
    unittest.main()
