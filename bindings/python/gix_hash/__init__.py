"""Git's object ids over libgix_hash, whose calls are proved; this module is only tested.

This module spells and compares ids, the library does the rest, and a Store asks the program packtool. The library is beside this
module or where the loader looks, unless the environment variable GIX_HASH_LIB is the absolute path of its file, or of the
directory that has libgix_hash.so.

Bytes are taken from any object that has them one after the other, such as bytes, a memoryview or an mmap, and are not copied. So
nobody may change them during a call, in which other threads run, nor while a SortedDigests or a PackIndex has them. If the
file of an mmap is cut off, reading what is gone ends the program by SIGBUS.

>>> digest = Id.digest(Kind.SHA1, b"blob 0\\0")
>>> str(digest), str(digest.kind)
('e69de29bb2d1d6434b8b29ae775ad8c2e48c5391', 'sha1')
>>> Prefix("e69").cmp(digest)
0
"""

import ctypes
import enum
import functools
import mmap
import operator
import os
import re
import sys
import threading
from collections.abc import Iterator, Sequence
from typing import TYPE_CHECKING, Any, Dict, List, Literal, NamedTuple, Optional, Tuple, Type, TypeVar, Union, overload

__all__ = [
    "Ambiguous", "Buffer", "Code", "Entry", "Error", "Hasher", "Id", "Kind", "Location", "Missing", "ObjectType", "PackIndex",
    "Prefix", "SkippedWarning", "SortedDigests", "Store", "StoreError",
]  # fmt: skip
__version__ = "0.7.0"
# What has bytes. (Other objects that do, as an array of bytes, are taken too.)
Buffer = Union[bytes, bytearray, memoryview, mmap.mmap]
# The name of a kind.
_KindName = Literal["sha1", "sha256"]
_T = TypeVar("_T")
_M = TypeVar("_M", "Kind", "ObjectType")


class _Named(enum.IntEnum):
    """Numbers with names, which are printed as Git spells them."""

    def __str__(self) -> str:
        return self.name.lower()

    def __format__(self, spec: str) -> str:
        return format(str(self), spec)


class Kind(_Named):
    """The hash function of an id: 20 bytes and 40 hex digits, or 32 bytes and 64. Where a kind is taken, its name is too, "sha1"
    or "sha256"."""

    SHA1 = 1
    SHA256 = 2

    @property
    def len_in_bytes(self) -> int:
        """The number of bytes of a digest."""
        return 20 if self is Kind.SHA1 else 32


class ObjectType(_Named):
    """The type of an object, by the number that it has in packs. Where one is taken, its name is too, as "blob"."""

    COMMIT = 1
    TREE = 2
    BLOB = 3
    TAG = 4


class Code(enum.IntEnum):
    """What failed, and its text, that of the header gix_hash.h."""

    text: str

    def __new__(cls, number: int, text: str = "") -> "Code":
        code = int.__new__(cls, number)
        code._value_, code.text = number, text
        return code

    BAD_LENGTH = 1, "wrong length: an id has 40 or 64 digits (20 or 32 bytes), and a prefix 1 to 64 digits"
    BAD_DIGIT = 2, "a byte of the text is not a hex digit"
    BAD_KIND = 3, "the kind is neither GIX_HASH_SHA1 nor GIX_HASH_SHA256"
    NO_ROOM = 4, "the buffer is too short"
    PREFIX_TOO_LONG = 5, "the prefix has more digits than ids of the kind"
    OUT_OF_RANGE = 6, "the position is not below the number of objects"
    UNSORTED = 7, "a digest is below the one before it (at: its position)"
    NOT_UNIQUE = 8, "another object has the same id, so none of its prefixes is unique"
    BAD_TYPE = 9, "the type is not one of GIX_HASH_COMMIT to GIX_HASH_TAG"
    INDEX_TOO_SHORT = 16, "fewer bytes than any pack index has"
    VERSION_1 = 17, "a pack index of version 1, by its length"
    BAD_MAGIC = 18, "not a pack index (bad magic number)"
    BAD_VERSION = 19, "a pack index of another version than 2 (detail: its version)"
    WRONG_LENGTH = 20, "the tables do not fill the bytes"
    NAMES_FALL = 21, "an object id is below the one before it (detail: its position)"
    WRONG_COUNT = 22, "an entry of the fan-out table is wrong (detail: its first byte)"
    NO_OFFSET = 23, "an object's 8-byte offset is missing (detail: the object's position)"
    LONG_OUT_OF_ORDER = 24, "an object's 8-byte offset is not the next one (detail: the object's position)"
    SPARE_LONG = 25, "an 8-byte offset is unused (detail: its position)"
    OFFSET_IN_HEADER = 26, "an object's offset is below 12 (detail: the object's position)"
    OFFSET_TOO_HIGH = 27, "an object's offset is 2^63 or more (detail: the object's position)"
    WRONG_CHECKSUM = 28, "the last bytes are not the digest of those before them"
    OTHER_KIND = 29, "a pack index of the other kind (detail: its kind)"
    UNKNOWN = 2**32 - 1, "a code of a later library, which is not in this list (detail: its number)"


class Error(ValueError):
    """Why a call failed: its code, and the position, byte, version, kind or code that its text mentions, or 0. The message is this
    text. If digits are not an id or a prefix, the message begins with them."""

    def __init__(self, code: Code, detail: int = 0, message: str = ""):
        shown = str(Kind(detail)) if code is Code.OTHER_KIND and detail in (1, 2) else detail
        super().__init__(message or re.sub(r"\((?:detail|at): (.*)\)", rf"(\1: {shown})", code.text))
        self.code, self.detail = code, detail

    def __reduce__(self) -> Tuple[Any, ...]:
        return type(self), (self.code, self.detail, str(self))


# The declarations of gix_hash.h, from which ctypes has its types.
_DECLARED = """
typedef struct gix_hash_id { uint32_t kind; uint8_t bytes[32]; } gix_hash_id;
typedef struct gix_hash_prefix { uint32_t hex_len; uint8_t bytes[32]; } gix_hash_prefix;
typedef struct gix_hash_run { size_t start; size_t end; } gix_hash_run;
typedef struct gix_hash_entry { uint64_t offset; uint32_t crc; gix_hash_id id; } gix_hash_entry;
typedef struct gix_hash_hasher { uint32_t kind; uint32_t words[8]; uint64_t count; uint8_t block[64]; } gix_hash_hasher;
uint32_t gix_hash_version(void);
uint32_t gix_hash_id_from_hex(const char *text, size_t len, gix_hash_id *id);
uint32_t gix_hash_id_to_hex(const gix_hash_id *id, char *buffer, size_t len);
uint32_t gix_hash_id_to_text(const gix_hash_id *id, char *text, size_t len);
uint32_t gix_hash_id_from_bytes(uint32_t kind, const uint8_t *bytes, size_t len, gix_hash_id *id);
uint32_t gix_hash_id_null(uint32_t kind, gix_hash_id *id);
uint32_t gix_hash_id_empty_blob(uint32_t kind, gix_hash_id *id);
uint32_t gix_hash_id_empty_tree(uint32_t kind, gix_hash_id *id);
int32_t gix_hash_id_cmp(const gix_hash_id *one, const gix_hash_id *other);
uint32_t gix_hash_prefix_from_hex(const char *text, size_t len, gix_hash_prefix *prefix);
int32_t gix_hash_prefix_cmp_id(const gix_hash_prefix *prefix, const gix_hash_id *id);
uint32_t gix_hash_digest(uint32_t kind, const uint8_t *bytes, size_t len, gix_hash_id *id);
uint32_t gix_hash_hasher_new(uint32_t kind, gix_hash_hasher *hasher);
uint32_t gix_hash_hasher_update(gix_hash_hasher *hasher, const uint8_t *bytes, size_t len);
uint32_t gix_hash_hasher_finish(const gix_hash_hasher *hasher, gix_hash_id *id);
uint32_t gix_hash_object_id(uint32_t kind, uint32_t object_type, const uint8_t *bytes, size_t len, gix_hash_id *id);
uint32_t gix_hash_object_hasher(uint32_t kind, uint32_t object_type, uint64_t len, gix_hash_hasher *hasher);
uint32_t gix_hash_check_sorted(uint32_t kind, const uint8_t *table, size_t len, size_t *at);
uint32_t gix_hash_find(uint32_t kind, const uint8_t *table, size_t len, const gix_hash_prefix *prefix,
    gix_hash_run *run);
uint32_t gix_hash_pack_check(uint32_t kind, const uint8_t *bytes, size_t len, uint64_t *detail);
uint32_t gix_hash_pack_kind(const uint8_t *bytes, size_t len, uint32_t *kind);
uint32_t gix_hash_pack_count(uint32_t kind, const uint8_t *bytes, size_t len, size_t *count);
uint32_t gix_hash_pack_entry(uint32_t kind, const uint8_t *bytes, size_t len, size_t at, gix_hash_entry *entry);
uint32_t gix_hash_pack_id(uint32_t kind, const uint8_t *bytes, size_t len, size_t at, gix_hash_id *id);
uint32_t gix_hash_pack_find(uint32_t kind, const uint8_t *bytes, size_t len, const gix_hash_prefix *prefix,
    gix_hash_run *run);
uint32_t gix_hash_pack_abbreviate(uint32_t kind, const uint8_t *bytes, size_t len, size_t at, size_t *hex_len);
"""
_TYPES: Dict[str, Any] = {"uint8_t": ctypes.c_uint8, "uint32_t": ctypes.c_uint32, "uint64_t": ctypes.c_uint64}
_TYPES.update({"int32_t": ctypes.c_int32, "size_t": ctypes.c_size_t})


def _typed(declared: str) -> Tuple[str, Any]:
    """The name and the type of a field or a parameter. Bytes are passed as their address."""
    ((kind, star, name, count),) = re.findall(r"(?:const )?(\w+) (\*?)(\w+)(?:\[(\d+)\])?$", declared)
    if star:
        return name, ctypes.c_void_p if kind in ("char", "uint8_t") else ctypes.POINTER(_TYPES[kind])
    return name, _TYPES[kind] * int(count) if count else _TYPES[kind]


for _name, _listed in re.findall(r"struct (\w+) { (.*?); }", _DECLARED):
    _fields = {"_fields_": [_typed(it) for it in _listed.split(";")]}
    _TYPES[_name] = type(_name, (ctypes.Structure,), _fields)


def _path() -> str:
    """Where the library is. It is installed under the first two numbers of its version."""
    given = os.environ.get("GIX_HASH_LIB")
    beside = os.path.dirname(os.path.abspath(__file__))
    for path in (given, os.path.join(given or beside, "libgix_hash.so")):
        if path and os.path.isabs(path) and os.path.isfile(path):
            return path
    # (the loader looks for a name without a slash, and not in the current directory, whose files others may have written)
    if given and (os.path.dirname(given) or os.path.isdir(given)):
        if not os.path.isabs(given):
            raise OSError(f"{given}: not an absolute path")
        if os.path.isdir(given):
            raise OSError(f"{given}: it has no libgix_hash.so")
    return given or f"libgix_hash.so.{__version__.rpartition('.')[0]}"


try:
    _lib = ctypes.CDLL(_path())
    for _result, _name, _listed in re.findall(r"(\w+) (gix_hash_\w+)\((.*?)\);", " ".join(_DECLARED.split())):
        _call = getattr(_lib, _name)
        _call.restype, _call.argtypes = _TYPES[_result], [_typed(it)[1] for it in _listed.split(",") if it != "void"]
    _high, _low = map(int, __version__.split(".")[:2])
    _number = _lib.gix_hash_version() // 100
    if _number != 100 * _high + _low:
        raise OSError(f"{_lib._name}: its version {_number // 100}.{_number % 100} is not {_high}.{_low}")
except (OSError, AttributeError) as _error:
    raise ImportError(f"{_error}: set GIX_HASH_LIB to the absolute path of libgix_hash.so, or of its directory") from None
_Id, _Prefix, _Run, _Entry, _Hasher = (_TYPES[f"gix_hash_{it}"] for it in ("id", "prefix", "run", "entry", "hasher"))
_CODES = frozenset(Code)


def _check(code: int, detail: int = 0, digits: Optional[str] = None) -> None:
    if code:
        error = Error(Code(code), detail) if code in _CODES else Error(Code.UNKNOWN, code)
        raise error if digits is None else Error(error.code, error.detail, f"{_shown(digits)}: {error}")


def _shown(value: object) -> str:
    """A value as Python writes it, up to 80 characters."""
    text = repr(value)
    return text if len(text) <= 80 else f"{text[:77]}..."


def _wrong(value: object, wanted: str) -> TypeError:
    """That a value is of a wrong type, and what was expected."""
    return TypeError(f"expected {wanted}, not {_shown(value)} of the type {type(value).__name__}")


def _only(kind: Type[_T], value: _T) -> _T:
    """The value, which must be of a class."""
    if not isinstance(value, kind):
        raise _wrong(value, kind.__name__)
    return value


def _member(kind: Type[_M], value: object) -> _M:
    """The member of an enumeration that a value is, or that a number or a name stands for, as Git spells it or as Python."""
    if isinstance(value, kind):
        return value
    if isinstance(value, str):
        found = kind.__members__.get(value.upper())
        if found is not None and value in (found.name, str(found)):
            return found
    # (True is 1, and so is ObjectType.COMMIT, and yet no kind)
    elif isinstance(value, int) and not isinstance(value, (bool, enum.Enum)):
        return kind(value)
    wanted = f"{kind.__name__} or one of {', '.join(repr(str(it)) for it in kind)}"
    raise ValueError(f"expected {wanted}, not {_shown(value)}") if isinstance(value, str) else _wrong(value, wanted)


def _kind(value: object) -> Kind:
    return _member(Kind, value)


class _View(ctypes.Structure):
    """Python's Py_buffer: its first field, and room for the others."""

    _fields_ = [("buf", ctypes.c_void_p), ("_", ctypes.c_byte * 144)]


def _bytes(data: Buffer) -> Tuple[Any, Any, int]:
    """Where bytes are: an object that keeps them there, to slice, and what a call is passed, their address and number."""
    if type(data) is bytes:
        return data, data, len(data)
    try:
        view = memoryview(data)
    except TypeError:
        raise _wrong(data, "bytes or another buffer") from None
    if view.itemsize != 1:
        raise TypeError(f"items of {view.itemsize} bytes are not bytes")
    given = _View()
    ctypes.pythonapi.PyObject_GetBuffer(ctypes.py_object(view), ctypes.byref(given), 0)
    address = given.buf
    ctypes.pythonapi.PyBuffer_Release(ctypes.byref(given))
    return view if view.ndim == 1 else view.cast("B"), address, view.nbytes


def _digits(text: str) -> bytes:
    """The bytes of a text that is to have hex digits. What is not ASCII is no digit."""
    if not isinstance(text, str):
        hint = "; Id.from_bytes takes a digest" if isinstance(text, (bytes, bytearray, memoryview)) else ""
        raise TypeError(f"expected str of hex digits, not {type(text).__name__}{hint}")
    return str.encode(text, "ascii", "replace")


# How the struct of an id begins, by the number of bytes of the digest after that.
_HEADS = {kind.len_in_bytes: kind.to_bytes(4, sys.byteorder) for kind in Kind}


@functools.total_ordering
class Id:
    """An id, read from 40 or 64 hex digits in either case. Ids are ordered by kind and then by digits, and do not change."""

    # The bytes of the struct up to the end of the digest, 4 and then 20 or 32. They are ordered as ids are.
    __slots__ = ("_key",)
    _key: bytes

    def __new__(cls, text: str) -> "Id":
        made, digits = _Id(), _digits(text)
        _check(_lib.gix_hash_id_from_hex(digits, len(digits), made), digits=text)
        return cls._of(made)

    @classmethod
    def _of(cls, made: Any) -> "Id":
        return cls._of_key(bytes(made)[: 24 if made.kind == 1 else 36])

    @classmethod
    def _of_key(cls, key: bytes) -> "Id":
        made = object.__new__(cls)
        made._key = key
        return made

    @classmethod
    def digest(cls, kind: Union[Kind, _KindName], data: Buffer) -> "Id":
        """The digest of bytes."""
        made, (held, *given) = _Id(), _bytes(data)
        _check(_lib.gix_hash_digest(_kind(kind), *given, made))
        return cls._of(made)

    @classmethod
    def of_object(cls, kind: Union[Kind, _KindName], object_type: Union[ObjectType, str], data: Buffer) -> "Id":
        """The id of an object, as git hash-object computes it. Whether the bytes are such an object is not checked."""
        made, (held, *given) = _Id(), _bytes(data)
        _check(_lib.gix_hash_object_id(_kind(kind), _member(ObjectType, object_type), *given, made))
        return cls._of(made)

    @classmethod
    def null(cls, kind: Union[Kind, _KindName]) -> "Id":
        """The id whose digits are all zero."""
        return cls._named(_lib.gix_hash_id_null, kind)

    @classmethod
    def empty_blob(cls, kind: Union[Kind, _KindName]) -> "Id":
        """The id of the blob with no bytes."""
        return cls._named(_lib.gix_hash_id_empty_blob, kind)

    @classmethod
    def empty_tree(cls, kind: Union[Kind, _KindName]) -> "Id":
        """The id of the tree with no entries."""
        return cls._named(_lib.gix_hash_id_empty_tree, kind)

    @classmethod
    def _named(cls, call: Any, kind: Union[Kind, _KindName]) -> "Id":
        made = _Id()
        _check(call(_kind(kind), made))
        return cls._of(made)

    @classmethod
    def from_bytes(cls, digest: Buffer) -> "Id":
        """The id with a digest of 20 or 32 bytes. The error is BAD_LENGTH for another length."""
        data = bytes(_bytes(digest)[0])
        _check(0 if len(data) in _HEADS else Code.BAD_LENGTH)
        return cls._of_key(_HEADS[len(data)] + data)

    @property
    def kind(self) -> Kind:
        """The kind."""
        return Kind.SHA1 if len(self._key) == 24 else Kind.SHA256

    @property
    def _struct(self) -> Any:
        return _Id.from_buffer_copy(self._key.ljust(36, b"\0"))

    def __bytes__(self) -> bytes:
        return self._key[4:]

    def __str__(self) -> str:
        return self._key[4:].hex()

    def __format__(self, spec: str) -> str:
        """The digits as a text is formatted: f"{id:.7}" has the first 7."""
        return format(str(self), spec)

    def __repr__(self) -> str:
        return f"{type(self).__name__}('{self}')"

    def __eq__(self, other: object) -> bool:
        return isinstance(other, Id) and self._key == other._key

    def __lt__(self, other: "Id") -> bool:
        return self._key < other._key if isinstance(other, Id) else NotImplemented

    def __hash__(self) -> int:
        return hash(self._key)

    def __reduce__(self) -> Tuple[Any, ...]:
        return type(self), (str(self),)


class Hasher:
    """A hash function at work on a message, which comes in chunks, with what objects of hashlib have. Threads may share one.

    >>> hasher = Hasher.for_object("sha1", "blob", 3)
    >>> hasher.update(b"abc")
    >>> hasher.name, hasher.id() == Id.of_object(Kind.SHA1, ObjectType.BLOB, b"abc")
    ('sha1', True)
    """

    __slots__ = ("_hasher", "_lock")
    block_size = 64

    def __init__(self, kind: Union[Kind, _KindName], data: Buffer = b"") -> None:
        self._hasher, self._lock = _Hasher(), threading.Lock()
        _check(_lib.gix_hash_hasher_new(_kind(kind), self._hasher))
        self.update(data)

    @classmethod
    def for_object(cls, kind: Union[Kind, _KindName], object_type: Union[ObjectType, str], length: int) -> "Hasher":
        """A hasher of an object, which has been fed what git hash-object hashes before the object's bytes. Feed it the bytes,
        and id() is the id of the object. No call checks that they are as many as the length says. If they are not, the digest
        is not the id of an object."""
        made, number = cls(kind), operator.index(length)
        if not 0 <= number < 2**64:
            raise ValueError(f"expected a length from 0 to 2**64 - 1, not {number}")
        _check(_lib.gix_hash_object_hasher(made.kind, _member(ObjectType, object_type), number, made._hasher))
        return made

    @property
    def kind(self) -> Kind:
        """The kind of the digest."""
        return Kind(self._hasher.kind)

    @property
    def name(self) -> str:
        """The kind as hashlib names it."""
        return str(self.kind)

    @property
    def digest_size(self) -> int:
        """The number of bytes of the digest."""
        return self.kind.len_in_bytes

    def update(self, data: Buffer) -> None:
        """Appends bytes to the message."""
        held, *given = _bytes(data)
        with self._lock:
            _check(_lib.gix_hash_hasher_update(self._hasher, *given))

    def id(self) -> Id:
        """The digest of the message so far. More can be appended after it."""
        made = _Id()
        with self._lock:
            _check(_lib.gix_hash_hasher_finish(self._hasher, made))
        return Id._of(made)

    def digest(self) -> bytes:
        """The bytes of that id."""
        return bytes(self.id())

    def hexdigest(self) -> str:
        """The lowercase hex digits of that id."""
        return str(self.id())

    def copy(self) -> "Hasher":
        """A hasher of the same message, which is fed by itself."""
        made = Hasher(self.kind)
        with self._lock:
            made._hasher = _Hasher.from_buffer_copy(self._hasher)
        return made

    def __reduce__(self) -> Tuple[Any, ...]:
        raise TypeError("a Hasher cannot be pickled; copy() makes another")


class Prefix:
    """A prefix of 1 to 64 hex digits, in either case. It does not change."""

    __slots__ = ("_prefix",)
    _prefix: Any

    def __new__(cls, text: str) -> "Prefix":
        made, digits = object.__new__(cls), _digits(text)
        made._prefix = _Prefix()
        _check(_lib.gix_hash_prefix_from_hex(digits, len(digits), made._prefix), digits=text)
        return made

    @property
    def hex_len(self) -> int:
        """The number of digits."""
        return int(self._prefix.hex_len)

    def cmp(self, other: Id) -> int:
        """The order of the prefix and as many first digits of an id: -1, 1, or 0 if and only if the id begins with the
        prefix. The error is PREFIX_TOO_LONG if the id has fewer digits."""
        order = int(_lib.gix_hash_prefix_cmp_id(self._prefix, _only(Id, other)._struct))
        if order == 2:
            _check(Code.PREFIX_TOO_LONG, digits=str(self))
        return order

    def __str__(self) -> str:
        return bytes(self._prefix.bytes).hex()[: self.hex_len]

    def __format__(self, spec: str) -> str:
        """The digits as a text is formatted: f"{id:.7}" has the first 7."""
        return format(str(self), spec)

    def __repr__(self) -> str:
        return f"{type(self).__name__}('{self}')"

    def __eq__(self, other: object) -> bool:
        return isinstance(other, Prefix) and str(self) == str(other)

    def __hash__(self) -> int:
        return hash(str(self))

    def __reduce__(self) -> Tuple[Any, ...]:
        return type(self), (str(self),)


class Entry(NamedTuple):
    """What a pack index contains about an object: its id, where it begins in the pack, and the CRC-32 there."""

    id: Id
    offset: int
    crc: int

    def __eq__(self, other: object) -> bool:
        # (with this, checkers of types take an id or a text for what may be in a list of entries)
        return tuple.__eq__(self, other)


class _Table(Sequence[_T]):
    """What lists of ids share: their bytes, the library's call that finds a prefix, and the classes of what can be in one."""

    _call: Any
    _items: Tuple[Type[Any], ...] = (Id,)

    def _hold(self, kind: Union[Kind, _KindName], data: Buffer) -> None:
        self._kind = _kind(kind)
        self._data, *given = _bytes(data)
        # What each call begins with.
        self._given = (int(self._kind), *given)

    @property
    def kind(self) -> Kind:
        """The kind of all ids."""
        return self._kind

    def _item(self, at: int) -> _T:
        raise NotImplementedError

    @overload
    def __getitem__(self, at: int) -> _T: ...
    @overload
    def __getitem__(self, at: slice) -> List[_T]: ...
    def __getitem__(self, at: Union[int, slice]) -> Union[_T, List[_T]]:
        if isinstance(at, slice):
            return [self._item(each) for each in range(len(self))[at]]
        return self._item(self._position(at))

    def _position(self, at: int) -> int:
        """A position from the start, of one that may be from the end."""
        count, position = len(self), operator.index(at)
        if not -count <= position < count:
            raise IndexError(f"no id is at position {position}: there are {count}")
        return position % count

    def __iter__(self) -> Iterator[_T]:
        return map(self._item, range(len(self)))

    def find(self, prefix: Union[str, Prefix, Id]) -> range:
        """The positions of the ids that begin with a prefix. The error is PREFIX_TOO_LONG, or that of reading a text."""
        if isinstance(prefix, (str, Id)):
            prefix = Prefix(str(prefix))
        elif not isinstance(prefix, Prefix):
            raise _wrong(prefix, "str, Prefix or Id")
        run = _Run()
        if code := self._call(*self._given, prefix._prefix, run):
            _check(code, digits=str(prefix))
        return range(run.start, run.end)

    def _indexes(self, value: object) -> Sequence[int]:
        if isinstance(value, (str, Prefix)):
            return self.find(value)
        if not isinstance(value, self._items):
            raise _wrong(value, ", ".join(it.__name__ for it in self._items) + ", Prefix or str")
        id = value.id if isinstance(value, Entry) else value
        if not isinstance(id, Id) or id.kind is not self._kind:
            return []
        return [at for at in self.find(id) if value is id or self._item(at) == value]

    def __contains__(self, value: object) -> bool:
        return bool(self._indexes(value))

    def count(self, value: Any) -> int:
        """How often an id or an item is in the list, or how many ids begin with a prefix."""
        return len(self._indexes(value))

    def index(self, value: Any, start: int = 0, stop: Optional[int] = None) -> int:
        """The first position of an id, of an item or of what begins with a prefix, from start up to stop, or a ValueError if there
        is none."""
        for at in self._indexes(value):
            if at in range(len(self))[start:stop]:
                return at
        raise ValueError(f"{value!r} is not in the list")

    def __reduce__(self) -> Tuple[Any, ...]:
        # (the check is made again of what was pickled)
        return type(self), (self._kind, bytes(self._data))


class SortedDigests(_Table[Id]):
    """Sorted digests of a kind, one after the other, as a sequence of ids. `in`, `index` and `count` also take a Prefix or a text
    of hex digits. The error is UNSORTED, with the first position whose digest is below the one before it. A part of a digest at
    the end is left out. The bytes are not copied, so nobody may change them. A pickle has a copy, and is checked when it is loaded.
    """

    _call = _lib.gix_hash_find

    def __init__(self, kind: Union[Kind, _KindName], table: Buffer):
        self._hold(kind, table)
        at, self._size = ctypes.c_size_t(), self._kind.len_in_bytes
        _check(_lib.gix_hash_check_sorted(*self._given, at), at.value)

    def __len__(self) -> int:
        return len(self._data) // self._size

    def _item(self, at: int) -> Id:
        return Id._of_key(_HEADS[self._size] + bytes(self._data[at * self._size : (at + 1) * self._size]))


class PackIndex(_Table[Entry]):
    """A pack index of version 2, as a sequence of entries, where `in`, `index` and `count` also take an Id, a Prefix or a text of
    hex digits. The error is OTHER_KIND, or one from INDEX_TOO_SHORT to WRONG_CHECKSUM. The bytes are not copied, so nobody may
    change them, and an mmap must be closed only afterwards. A pickle has a copy, and is checked when it is loaded."""

    _call = _lib.gix_hash_pack_find
    _items = (Entry, Id)

    def __init__(self, kind: Union[Kind, _KindName], data: Buffer):
        self._hold(kind, data)
        detail = ctypes.c_uint64()
        _check(_lib.gix_hash_pack_check(*self._given, detail), detail.value)

    @classmethod
    def of_any_kind(cls, data: Buffer) -> "PackIndex":
        """A pack index with ids of either kind. The error is one from INDEX_TOO_SHORT to WRONG_CHECKSUM."""
        made = cls.__new__(cls)
        made._hold(cls.kind_of(data), data)
        return made

    @staticmethod
    def kind_of(data: Buffer) -> Kind:
        """The kind of the ids of a pack index, which is checked whole. The error is one from INDEX_TOO_SHORT to WRONG_CHECKSUM."""
        (held, *given), kind = _bytes(data), ctypes.c_uint32()
        if _lib.gix_hash_pack_kind(*given, kind):
            is_sha256 = not _lib.gix_hash_pack_count(Kind.SHA256, *given, ctypes.c_size_t())
            PackIndex(Kind.SHA256 if is_sha256 else Kind.SHA1, data)  # raises the same error, with its detail
        return Kind(kind.value)

    def __len__(self) -> int:
        count = ctypes.c_size_t()
        _check(_lib.gix_hash_pack_count(*self._given, count))
        return count.value

    def _item(self, at: int) -> Entry:
        entry = _Entry()
        _check(_lib.gix_hash_pack_entry(*self._given, at, entry))
        return Entry(Id._of(entry.id), entry.offset, entry.crc)

    def id(self, at: int) -> Id:
        """The id of the object at a position."""
        made = _Id()
        _check(_lib.gix_hash_pack_id(*self._given, self._position(at), made))
        return Id._of(made)

    def abbreviate(self, at: int) -> int:
        """The length of the shortest prefix, of 4 digits or more, with which no other id begins. The error is NOT_UNIQUE
        for an id that occurs more than once."""
        hex_len = ctypes.c_size_t()
        _check(_lib.gix_hash_pack_abbreviate(*self._given, self._position(at), hex_len))
        return hex_len.value


if TYPE_CHECKING:
    from gix_hash._store import Ambiguous, Location, Missing, SkippedWarning, Store, StoreError
else:

    def __getattr__(name):
        """What is in the module of stores, which is imported when one of its names is first used."""
        if name not in __all__:
            raise AttributeError(f"module {__name__!r} has no attribute {name!r}")
        from gix_hash import _store

        return getattr(_store, name)
