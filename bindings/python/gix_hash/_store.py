"""The object store of a Git repository, over packtool, which runs beside this process and is asked through pipes."""

import contextlib
import fcntl
import itertools
import operator
import os
import re
import select
import shutil
import subprocess
import sys
import threading
import warnings
import weakref
from collections import deque
from typing import Any, Deque, Dict, Iterable, Iterator, List, NamedTuple, Optional, Set, Tuple, TypeVar, Union, cast

from gix_hash import _HEADS, Code, Error, Id, Kind, Prefix, __version__, _check, _kind, _KindName, _only, _shown, _wrong

__all__ = ["Ambiguous", "Location", "Missing", "SkippedWarning", "Store", "StoreError"]

_Digits = Union[str, Prefix, Id]
_D = TypeVar("_D", bound=_Digits)
# An empty line is no prefix, and only what is printed for it begins with a space. So that ends the results of the lines before it.
_MARK = b"\n bad\n"
# How many lines packtool looks up at once beside an empty one, and as how many one of few digits counts, since it may find many
# ids.
_AT_ONCE, _COSTS = 8191, {2: 1024, 3: 64, 4: 4}
# What is read from a pipe at once, and how much one holds for lists of prefixes: what packtool reads at once it looks up together.
_READ, _PIPE = 1 << 18, 1 << 20
_F_SETPIPE_SZ = 1031  # (fcntl has it from Python 3.10 on)
_VARIABLES = {"GIT_DIR", "GIT_COMMON_DIR", "GIT_OBJECT_DIRECTORY", "GIT_ALTERNATE_OBJECT_DIRECTORIES"}
_ESCAPES = {"n": "\n", "r": "\r"}
_BESIDE = os.path.join(os.path.dirname(os.path.abspath(__file__)), "packtool")
# The programs that have printed the right version. (One that has not is asked again: it may be installed meanwhile.)
_WORKING: Set[str] = set()
_are_lines = re.compile("(?:[0-9A-Fa-f]{2,64}\n)+").fullmatch


class StoreError(OSError):
    """A store cannot be read, or packtool cannot be run. The text is the last line that packtool printed, or why it cannot be run.
    If the directory is not there, or the system fails, the error has the errno."""


class Missing(KeyError):
    """No id of the store begins with the prefix."""

    __str__ = LookupError.__str__  # (that of KeyError adds quotes)


class Ambiguous(LookupError):
    """Several ids of the store begin with the prefix: `ids`, in order."""

    def __init__(self, text: str, ids: List[Id]) -> None:
        super().__init__(text)
        self.ids = ids

    def __reduce__(self) -> Tuple[Any, ...]:
        return type(self), (str(self), self.ids)


class SkippedWarning(UserWarning):
    """A part of a store was left out, as `Store.skipped` says."""


class Location(NamedTuple):
    """Where an object is: the path of its pack and the offset there, or the path of its own file and None. A path that is not
    UTF-8 is as os.fsdecode has it."""

    id: Id
    path: str
    offset: Optional[int]


def _line(prefix: _Digits) -> str:
    """A prefix as a line, without its end. The error is that of Prefix, and BAD_LENGTH for one digit."""
    if not isinstance(prefix, (str, Prefix, Id)):
        raise _wrong(prefix, "str, Prefix or Id")
    line = str.__str__(prefix) if isinstance(prefix, str) else str(prefix)
    if "\n" in line or not _are_lines(f"{line}\n"):
        if line:
            Prefix(line)  # raises why it is none
        raise Error(Code.BAD_LENGTH, 0, f"{line!r}: a store's prefix has 2 digits or more")
    return line


def _id(digits: str) -> Id:
    """The id that packtool printed."""
    return Id._of_key(_HEADS[len(digits) // 2] + bytes.fromhex(digits))


def _unescaped(line: str) -> str:
    """A line of packtool's without its escapes, which it has if it begins with a backslash."""
    if line[:1] != "\\":
        return line
    return re.sub(r"\\(.)", lambda found: _ESCAPES.get(found[1], found[1]), line[1:])


def _program() -> str:
    """The absolute path of packtool: what the variable PACKTOOL names, or else what is beside this module, or else on the PATH. No
    relative path is followed, since it would lead into the current directory, whose files others may have written."""
    given = os.environ.get("PACKTOOL") or (_BESIDE if os.path.isfile(_BESIDE) else "packtool")
    path, wanted = given if os.path.dirname(given) else _on_path(given), f"packtool {__version__.rpartition('.')[0]}"
    if path not in _WORKING:
        if why := _refusal(path, wanted):
            raise StoreError(f"{path or given}: {why}: set PACKTOOL to the absolute path of {wanted}")
        _WORKING.add(path)
    return path


def _on_path(name: str) -> str:
    """The path of a program in the directories of the PATH that are absolute, or an empty text."""
    entries = [entry for entry in os.get_exec_path() if os.path.isabs(entry)]
    return shutil.which(name, path=os.pathsep.join(entries)) or ""


def _refusal(path: str, wanted: str) -> str:
    """Why a program is not the one that is wanted, by the line that it prints of its version, or nothing if it is."""
    if not os.path.isabs(path):
        return "not an absolute path" if path else "not on the PATH"
    try:
        said = subprocess.run([path, "--version"], stdin=subprocess.DEVNULL, capture_output=True, timeout=10).stdout
    except OSError as error:
        return f"no working packtool ({error.strerror})"
    except subprocess.TimeoutExpired:
        return "no working packtool (it takes too long to print its version)"
    line = said.decode("utf-8", "replace").partition("\n")[0]
    if line.startswith(f"{wanted}."):
        return ""
    return f"this is {line}" if line.startswith("packtool ") else "no working packtool"


def _finish(child: "subprocess.Popen[bytes]", files: List[Any], owner: int) -> None:
    """Ends a process, and closes its pipes. If this process was forked, it goes on for the one that began it."""
    if owner == os.getpid():
        child.kill()
    else:
        child.returncode = 0
    for file in files:
        file.close()
    child.wait()


class _Process:
    """A packtool that runs beside this process, and ends with this object. Its messages go to a file in memory, so it never
    waits for someone to read them."""

    def __init__(self, program: str, words: List[str], directory: str, environment: Dict[str, str], is_bulk: bool) -> None:
        self._owner, self._seen, self._unsent = os.getpid(), 0, memoryview(b"")
        # What is read and not returned yet, after the end of the line before it.
        self._got = bytearray(b"\n")
        # (if anything ends this before its end, the process gets no input, and ends. The pipes of a Popen would stay open.)
        with contextlib.ExitStack() as opened:
            self._notes = opened.enter_context(open(os.memfd_create("packtool"), "rb", 0))
            theirs, ours = os.pipe()
            put, self._put = opened.enter_context(open(theirs, "rb", 0)), opened.enter_context(open(ours, "wb", 0))
            ours, theirs = os.pipe()
            self._get, get = opened.enter_context(open(ours, "rb", 0)), opened.enter_context(open(theirs, "wb", 0))
            # (in a session of its own, since Ctrl-C is sent to all processes of a terminal's group)
            how: Dict[str, Any] = {"stdin": put, "stdout": get, "stderr": self._notes, "start_new_session": True}
            self._child = subprocess.Popen([program, *words], cwd=directory, env=environment, **how)
            self.end = weakref.finalize(self, _finish, self._child, [self._notes, self._put, self._get], self._owner)
            for pipe in put, get:
                pipe.close()
            opened.pop_all()
        self._in, self._out = self._put.fileno(), self._get.fileno()
        os.set_blocking(self._in, False)
        with contextlib.suppress(OSError):  # (it works without, and slower)
            for number in (self._in, self._out) if is_bulk else ():
                fcntl.fcntl(number, _F_SETPIPE_SZ, _PIPE)

    def kill(self) -> None:
        """Ends it, but leaves the pipes open, from which another thread may read. In a forked process it goes on."""
        if self._owner == os.getpid():
            self._child.kill()

    def send(self, lines: str) -> None:
        """Asks lines, each with its end. What the pipe has no room for yet is written by `receive`."""
        self._check_owner()
        self._unsent = memoryview(bytes(self._unsent) + f"{lines}\n".encode())
        self._write()

    def _write(self) -> None:
        try:
            self._unsent = self._unsent[os.write(self._in, self._unsent) :]
        except BlockingIOError:
            pass
        except BrokenPipeError:  # (it has ended, and said why)
            self._unsent = self._unsent[:0]

    def receive(self) -> str:
        """The results of the first lines that were sent and have none yet. It reads while it cannot write, so neither waits for the
        other for ever. The error is EOFError if the process has ended."""
        self._check_owner()
        poll, start, got = select.poll(), 0, self._got
        poll.register(self._in, select.POLLOUT)
        poll.register(self._out, select.POLLIN)
        while (end := got.find(_MARK, start)) < 0:
            start = max(0, len(got) - len(_MARK))
            ready = dict(poll.poll()) if self._unsent else {self._out: 0}
            if self._in in ready:
                self._write()
            if self._out in ready:
                data = os.read(self._out, _READ)
                if not data:
                    raise EOFError
                got += data
        results = os.fsdecode(bytes(got[1 : end + 1]))
        del got[: end + len(_MARK) - 1]
        return results

    def blocks(self) -> Iterator[str]:
        """What it prints until it ends, in blocks of whole lines."""
        rest = b""
        while data := os.read(self._out, _READ):
            whole, line_feed, rest = (rest + data).rpartition(b"\n")
            yield (whole + line_feed).decode("ascii")
            self._check_owner()

    def _check_owner(self) -> None:
        """Fails after a fork, in the process that has not begun it: both would read parts of the same results."""
        if self._owner != os.getpid():
            raise StoreError("the look-up was begun before a fork, and goes on in the process that began it")

    def messages(self) -> List[str]:
        """The lines that it has said since the last call, without its name."""
        said = os.pread(self._notes.fileno(), os.fstat(self._notes.fileno()).st_size, self._seen)
        whole = said[: said.rfind(b"\n") + 1]
        self._seen += len(whole)
        return [_unescaped(line).replace("packtool: ", "", 1) for line in whole.decode("utf-8", "replace").split("\n")[:-1]]

    def failure(self) -> Optional[str]:
        """Why it has ended, of what it does not say itself."""
        status = self._child.wait()
        return f"packtool was ended by the signal {-status}" if status < 0 else None


def _warn(texts: List[str]) -> None:
    """Warns of what was skipped, at the first line of the callers that is not in this file."""
    frame, level = sys._getframe(1), 2
    while frame.f_code.co_filename == __file__ and frame.f_back:
        frame, level = frame.f_back, level + 1
    for text in texts:
        warnings.warn(text, SkippedWarning, stacklevel=level)


def _lines(given: List[_D]) -> List[str]:
    """The lines of prefixes, up to the first that is none."""
    if {*map(type, given)} == {str}:
        text = "\n".join([*cast(List[str], given), ""])
        if _are_lines(text) and text.count("\n") == len(given):
            return cast(List[str], given)
    lines: List[str] = []
    with contextlib.suppress(TypeError, Error):
        for prefix in given:
            lines.append(_line(prefix))
    return lines


def _chunks(prefixes: Iterable[_D]) -> Iterator[List[Tuple[_D, str]]]:
    """Prefixes with their lines, in chunks of as many as are looked up at once. At the first prefix that is none comes an empty chunk,
    and then the error."""
    left = iter(prefixes)
    while given := list(itertools.islice(left, _AT_ONCE)):
        lines = _lines(given)
        if min(map(len, lines), default=0) > max(_COSTS):
            yield list(zip(given, lines))
        else:
            yield from _by_cost(zip(given, lines))
        if len(lines) < len(given):
            yield []
            _line(given[len(lines)])


def _by_cost(pairs: Iterable[Tuple[_D, str]]) -> Iterator[List[Tuple[_D, str]]]:
    """Prefixes with their lines, in chunks of as many as may be looked up at once if some are short."""
    chunk, cost = [], 0  # type: List[Tuple[_D, str]], int
    for pair in pairs:
        cost += _COSTS.get(len(pair[1]), 1)
        if cost > _AT_ONCE and chunk:
            yield chunk
            chunk, cost = [], _COSTS.get(len(pair[1]), 1)
        chunk.append(pair)
    yield chunk


def _ids_by_line(results: str) -> Dict[str, List[Id]]:
    """What `find --stdin` prints, by the lines that it was asked."""
    found: Dict[str, List[Id]] = {}
    words, of_key, from_hex = iter(results.split()), Id._of_key, bytes.fromhex
    for line, digits in zip(words, words):
        if digits == "missing":
            found[line] = []
        elif digits != "bad":
            id = of_key(_HEADS[len(digits) >> 1] + from_hex(digits))
            if line in found:
                found[line].append(id)
            else:
                found[line] = [id]
    return found


class Store(contextlib.AbstractContextManager["Store"]):
    """The object store of a repository: which ids begin with a prefix, where their objects are, and how far ids are abbreviated.

    With a path it is the store of the repository there, or in the first directory above it that has one, and Git's variables are
    not read. Without a path it is the store that Git would use here, also by its variables. `kind` is the kind of the repository
    unless another is given. The store keeps the directory, the variables and PACKTOOL of the time when it is opened, and finds
    objects that are added later.

    A prefix has 2 hex digits or more in either case, and is a str, a Prefix or an Id. The error of a wrong prefix is that of
    Prefix, BAD_LENGTH for one digit, or PREFIX_TOO_LONG. If the store cannot be read, the error is a StoreError, and if it is
    closed, or its path has a NUL, a ValueError. If a part of the store is left out, the first look-up that meets it warns once, by
    SkippedWarning.

    Threads may share a store, which does one look-up of each kind at a time. A forked process may go on with it.
    """

    def __init__(self, path: "Union[str, bytes, os.PathLike[Any], None]" = None, kind: "Union[Kind, _KindName, None]" = None) -> None:
        self._closed, self._program = False, _program()
        self._options = [] if kind is None else ["--kind", str(_kind(kind))]
        try:
            self._directory = os.path.abspath(os.fsdecode("." if path is None else path))
        except OSError as error:  # (the current directory was removed)
            raise StoreError(error.errno, error.strerror) from None
        self._name = os.fsencode(self._directory).decode("utf-8", "replace")
        self._environment = {name: text for name, text in os.environ.items() if path is None or name not in _VARIABLES}
        self._skipped: Dict[str, object] = {}
        # (what an exception of a signal handler took from a call, between two steps of it, ends at once)
        self._running: Set["weakref.ref[_Process]"] = set()
        # The processes that are asked in turn, while they are not, and a lock for each, by the process that asks and the command.
        self._idle: Dict[Tuple[int, str], _Process] = {}
        self._locks: Dict[Tuple[int, str], Any] = {}
        # (64 digits are a prefix only in a store of SHA-256)
        self._kind = Kind.SHA1 if self._ask("find", "0" * 64) == [f"{'0' * 64} bad"] else Kind.SHA256

    @property
    def kind(self) -> Kind:
        """The kind of the ids."""
        return self._kind

    @property
    def skipped(self) -> List[str]:
        """The parts of the store that were left out until now: the path of each, and why. What was found since then may lack
        their ids."""
        return list(self._skipped)

    def close(self) -> None:
        """Ends everything that runs for the store, as happens when nothing refers to it any more. Look-ups that are not finished,
        and later ones, raise ValueError. It does not wait for other threads."""
        self._closed = True
        for running in list(self._running):
            if process := running():
                process.kill()
        # (in a forked process those of the other are left as they are)
        for key in [key for key in list(self._idle) if key[0] == os.getpid()]:
            if idle := self._idle.pop(key, None):
                self._end(idle)

    def __exit__(self, *_: object) -> None:
        self.close()

    def __repr__(self) -> str:
        return f"{type(self).__name__}({self._directory!r}, '{self._kind}')"

    def __reduce__(self) -> Tuple[Any, ...]:
        raise TypeError("a Store cannot be pickled: open another one by its path")

    def _begin(self, *words: str, is_bulk: bool) -> _Process:
        if self._closed:
            raise ValueError("the store is closed")
        try:
            process = _Process(self._program, [*words, *self._options], self._directory, self._environment, is_bulk)
        except OSError as error:
            raise StoreError(error.errno, error.strerror, error.filename) from None
        self._running.add(weakref.ref(process))
        if self._closed:  # (by another thread, which may not have seen it)
            self._end(process)
            raise ValueError("the store is closed")
        return process

    def _end(self, process: _Process) -> None:
        process.end()
        self._running.discard(weakref.ref(process))

    def _new_skips(self, process: _Process, has_ended: bool = False) -> List[str]:
        """What a process has skipped that none had before. What else it has said is an error."""
        if self._closed:
            raise ValueError("the store is closed")
        said = process.messages()
        # (setdefault is one step, so only one thread has a text for new)
        new = [text for text in said if text.endswith(", skipped") and self._skipped.setdefault(text, said) is said]
        # (where it says no path, the whole store is meant)
        wrong = [text if text[:1] == "/" else f"{self._name}: {text}" for text in said if not text.endswith(", skipped")]
        if has_ended and not wrong and (failure := process.failure()):
            wrong.append(failure)
        if wrong:
            raise StoreError(wrong[-1])
        return new

    def _receive(self, process: _Process) -> Tuple[str, List[str]]:
        """The next results of a process, and what it has skipped."""
        with contextlib.suppress(EOFError):
            return process.receive(), self._new_skips(process)
        self._new_skips(process, has_ended=True)
        raise StoreError("packtool ended")

    def _ask(self, command: str, line: str) -> List[str]:
        """The lines that a command prints for a line."""
        key = os.getpid(), command
        # (a signal handler may ask within a request: it gets a process of its own)
        with self._locks.setdefault(key, threading.RLock()):
            process = None
            try:
                process = self._idle.pop(key, None) or self._begin(command, "--stdin", is_bulk=False)
                process.send(f"{line}\n")
                results, new = self._receive(process)
                if not results:
                    raise StoreError("packtool printed too few lines")
            except BaseException:  # (the rest of a result would be taken for the next one)
                if process:
                    self._end(process)
                raise
            if self._idle.setdefault(key, process) is not process:
                self._end(process)
        if self._closed:
            self.close()
        _warn(new)
        return results.split("\n")[:-1]

    def _found(self, command: str, prefix: _Digits) -> List[str]:
        """What a command finds for a prefix, without the prefix before it."""
        line = _line(prefix)
        found = [_unescaped(text)[len(line) + 1 :] for text in self._ask(command, line)]
        _check(Code.PREFIX_TOO_LONG if found == ["bad"] else 0, digits=line)
        return [] if found == ["missing"] else found

    def find(self, prefix: _Digits) -> List[Id]:
        """The ids that begin with a prefix, in order."""
        return [_id(digits) for digits in self._found("find", prefix)]

    def resolve(self, prefix: _Digits) -> Id:
        """The one id that begins with a prefix. The error is Missing or Ambiguous, which are both LookupErrors."""
        ids = self.find(prefix)
        if len(ids) > 1:
            raise Ambiguous(f"{len(ids)} ids begin with {prefix}", ids)
        if not ids:
            raise self._missing(prefix)
        return ids[0]

    def _missing(self, prefix: _Digits) -> Missing:
        """That no id was found, and if that is not all that there may be."""
        parts = len(self._skipped)
        left_out = f" ({parts} part{'' if parts == 1 else 's'} of the store left out: see skipped)" if parts else ""
        return Missing(f"no id begins with {prefix}{left_out}")

    def locate(self, prefix: _Digits) -> List[Location]:
        """The locations of the objects whose ids begin with a prefix, in the order of the ids. An object may have several."""
        return [self._location(text) for text in self._found("locate", prefix)]

    def _location(self, text: str) -> Location:
        digits, _, place = text.partition(" ")
        path, _, offset = place.rpartition(" ")
        # (after the last space of a loose object's path there is a slash)
        is_packed = offset.isdigit()
        path = path if is_packed else place
        # (it is relative if that of the directory is not UTF-8)
        path = os.path.join(self._directory, path[2:] if path.startswith("./") else path)
        return Location(_id(digits), path, int(offset) if is_packed else None)

    def _digits(self, least: int) -> int:
        """The number of digits that abbreviations have at least, if that many are asked for."""
        return min(max(4, operator.index(least)), 2 * self._kind.len_in_bytes)

    def abbreviate(self, id: Union[Id, str], least: int = 4) -> str:
        """The shortest prefix of an id of the store, of `least` digits or more, with which no other id begins. If `least` is below
        4, 4 is used, and if it is more than an id has, as many as that. The error is Missing if the store does not have the id."""
        id = Id(id) if isinstance(id, str) else _only(Id, id)
        least = self._digits(least)
        printed = self._ask("abbreviate", str(id))[0] if id.kind is self._kind else " "
        if " " in printed:
            raise self._missing(id)
        return str(id)[: max(len(printed), least)]

    def abbreviations(self, least: int = 4) -> Iterator[Tuple[str, Id]]:
        """All ids of the store in order, each after its abbreviation, which has `least` digits or more as in `abbreviate`."""
        process = self._begin("abbreviate", "--least", str(self._digits(least)), is_bulk=True)
        try:
            for block in process.blocks():
                words = iter(block.split())
                for name, digits in zip(words, words):
                    yield name, _id(digits)
            new = self._new_skips(process, has_ended=True)
        finally:
            self._end(process)
        _warn(new)

    def __iter__(self) -> Iterator[Id]:
        return (id for _, id in self.abbreviations())

    def __contains__(self, id: object) -> bool:
        """Whether an id begins with a prefix, or is in the store. Any other type raises TypeError."""
        if isinstance(id, Id) and id.kind is not self._kind:
            return False
        return bool(self.find(cast(_Digits, id)))

    def find_many(self, prefixes: Iterable[_D]) -> Iterator[Tuple[_D, List[Id]]]:
        """Each of many prefixes with the ids that begin with it, in the order of the prefixes. Some 16,000 prefixes are taken
        ahead, in the thread that asks for the pairs. The error of a prefix is raised after the pairs of those before it."""
        if isinstance(prefixes, (str, bytes)):
            raise TypeError(f"expected prefixes, not {_shown(prefixes)}: put it into a list")
        process, asked = self._begin("find", "--stdin", is_bulk=True), deque()  # type: _Process, Deque[List[Tuple[_D, str]]]
        try:
            for chunk in _chunks(prefixes):
                if chunk:
                    process.send("\n".join([*dict.fromkeys(line for _, line in chunk), ""]))
                    asked.append(chunk)
                while len(asked) > bool(chunk):
                    yield from self._found_many(process, asked.popleft())
            while asked:
                yield from self._found_many(process, asked.popleft())
        finally:
            self._end(process)

    def _found_many(self, process: _Process, chunk: List[Tuple[_D, str]]) -> Iterator[Tuple[_D, List[Id]]]:
        results, new = self._receive(process)
        _warn(new)
        found = _ids_by_line(results)
        for prefix, line in chunk:
            _check(Code.PREFIX_TOO_LONG if len(line) > 2 * self._kind.len_in_bytes else 0, digits=line)
            if line not in found:
                raise StoreError("packtool printed too few lines")
            yield prefix, found[line][:]  # (a prefix may be given twice)


# To users they are of the package, also in tracebacks and pickles.
for _public in (Ambiguous, Location, Missing, SkippedWarning, Store, StoreError):
    _public.__module__ = "gix_hash"
