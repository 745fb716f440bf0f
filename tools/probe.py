"""What the tools share: counts of what passed, how other programs are started, edits of sources, and a program that is
compiled in a copy of this repository's crates."""

import contextlib
import os
import re
import runpy
import shutil
import signal
import struct
import subprocess
import sys
import tempfile
import threading
from concurrent.futures import ThreadPoolExecutor
from pathlib import Path
from subprocess import STDOUT

ROOT = Path(__file__).resolve().parent.parent
PROGRAM = "probe"
# The environment of all that is started: a git hook's own variables would lead git to another repository, a user's
# configuration would change what git does, and a calling make's variables what make does.
CLEAN = {key: value for key, value in os.environ.items() if not key.startswith(("GIT_", "MAKE", "MFLAGS"))}
CLEAN |= {"GIT_CONFIG_GLOBAL": os.devnull, "GIT_CONFIG_NOSYSTEM": "1"}
# Of what a tool tries, only what has this text in its line is tried, if it can be tried alone, and printed.
ONLY = CLEAN.pop("ONLY", "")
# What takes longer than so many seconds has failed: what only compiles or runs, anything else, and what proves. What lets others go first
# has twice as many.
SHORT, LIMIT, PROVING = 600, 1800, 5400
# Takes from root the power to read what has the mode 000.
POWERLESS = ["setpriv", "--bounding-set=-dac_override,-dac_read_search"] if os.geteuid() == 0 else []
# An error of the compiler: /room/crates/x/src/y.rt:5:7: error[private-field]: ..
ERROR = re.compile(r"^([^:\n]+):(\d+):\d+: error\[([^\]\n]+)\]", re.MULTILINE)

# Whether this program is stopped, and the commands that run. They end then, its threads start no other, and temporary directories are
# removed as at any other end.
STOPPED, RUNNING = threading.Event(), set()


def end(child, number=signal.SIGTERM):
    """Ends a command, if it still runs, and all that it started."""
    with contextlib.suppress(ProcessLookupError):
        if child.poll() is None:
            os.killpg(child.pid, number)


def stop(number, _):
    """Ends this program by a signal."""
    STOPPED.set()
    for child in list(RUNNING):
        end(child)
    sys.exit(128 + number)


for ending in (signal.SIGTERM, signal.SIGHUP, signal.SIGINT):
    signal.signal(ending, stop)


@contextlib.contextmanager
def temporary(inside=None):
    """A temporary directory, by its real path; inside a directory, if one is given."""
    with tempfile.TemporaryDirectory(prefix=f"{Path(sys.argv[0]).name}-", dir=inside) as name:
        yield Path(name).resolve()


def read(name):
    """The text of a file, by its path from the top."""
    return (ROOT / name).read_text(encoding="utf-8")


def tool(name):
    """What another tool defines, each by its name."""
    return runpy.run_path(str(ROOT / "tools" / name))


def crate_uses():
    """The crates, each with the libraries that crates.txt names for it, in its order."""
    listed = subprocess.run([ROOT / "tools" / "crates"], stdout=subprocess.PIPE, encoding="utf-8", check=True).stdout
    return {name: libraries for name, _, *libraries in map(str.split, listed.splitlines())}


def difference(got, wanted):
    """How an output, its errors and a status differ from those that are wanted, if they do: a text from its first other byte on."""
    differ = []
    for name, it, want in zip(("standard output", "standard error", "status"), got, wanted):
        at = len(os.path.commonprefix([it, want])) if name != "status" else None
        it, want, where = (it, want, "") if at is None else (it[at : at + 100], want[at : at + 100], f" from byte {at} on")
        differ += [f"{name}{where} is {it!r}, and should be {want!r}"] if it != want else []
    return "; ".join(differ) or None


def outcome(result):
    """The line of a result, and whether it passed. A result is a text, and what is wrong, if anything, or a function that tries it and
    returns that; or a text that says so, and whether it passed."""
    text, wrong = result
    if callable(wrong):
        try:
            wrong = wrong()
        except (OSError, ValueError, LookupError, struct.error, subprocess.SubprocessError) as why:
            wrong = f"{type(why).__name__}: {why}"
    return (text, wrong) if isinstance(wrong, bool) else (f"{text}: {wrong or 'as wanted'}", not wrong)


def at_once(results):
    """The outcomes of results, in their order. As many are tried at once as there are processors."""
    with ThreadPoolExecutor(os.cpu_count()) as pool:
        yield from pool.map(outcome, results)


def count(results):
    """Prints the line of each result, then the beginning of each line that failed once more, and the counts. Returns the status, 1
    if any failed or none passed."""
    passed, failed = 0, []
    for text, holds in (outcome(result) for result in results if ONLY in result[0]):
        print(text, flush=True)
        passed += bool(holds)
        failed += [] if holds else [f"FAILED: {text[:300].partition(chr(10))[0]}"]
    print(*failed, f"{passed} passed, {len(failed)} failed", sep="\n", flush=True)
    return int(bool(failed) or passed == 0)


@contextlib.contextmanager
def started(words, limit=LIMIT, **options):
    """A command that runs in the environment CLEAN, or in that of the options. It and all that it started are killed
    after so many seconds, or twice as many, and end when the block is left."""
    if STOPPED.is_set():
        raise OSError("stopped")
    with subprocess.Popen(words, **{"env": CLEAN, "stdout": subprocess.PIPE, "start_new_session": True, **options}) as child:
        # (where the kernel shares processors by sessions, of which the command is one, nice(1) alone says nothing)
        with contextlib.suppress(OSError):
            Path(f"/proc/{child.pid}/autogroup").write_text(str(os.nice(0)), encoding="ascii")
        # (what lets others go first may have to wait for them)
        timer = threading.Timer(limit * (2 if os.nice(0) > 0 else 1), end, (child, signal.SIGKILL))
        timer.start()
        RUNNING.add(child)
        try:
            yield child
        finally:
            timer.cancel()
            RUNNING.remove(child)
            end(child)


def ran(*words, cwd=None, env=None, given=b"", limits=(), seconds=LIMIT, stderr=subprocess.PIPE):
    """What a command prints, its errors, or with STDOUT none, since they are in what it prints, and its status; with these limits of
    prlimit(1). Bytes that are not UTF-8 are as Python has them in paths."""
    words = ["prlimit", *limits, *words] if limits else words
    options = {"cwd": cwd, "env": CLEAN | (env or {}), "stdin": subprocess.PIPE, "stderr": stderr}
    with started(words, seconds, **options) as child:
        printed, errors = ((it or b"").decode("utf-8", "surrogateescape") for it in child.communicate(given))
    return printed, errors, child.returncode


def answer(child, text):
    """What a packtool that reads standard input prints for a text and an empty line, up to the line for that, or up to its end."""
    with contextlib.suppress(BrokenPipeError):
        child.stdin.write(f"{text}\n\n".encode())
    printed = b"\n"
    while not printed.endswith(b"\n bad\n") and (more := os.read(child.stdout.fileno(), 1 << 16)):
        printed += more
    return os.fsdecode(printed[1:])


def git(directory, *words, **how):
    """What git prints in a directory, as the user n. It packs nothing by itself."""
    words = ["git", "-c", "gc.auto=0", "-c", "user.name=n", "-c", "user.email=e", *words]
    printed, errors, status = ran(*words, cwd=directory, **how)
    if status:
        raise OSError(f"{' '.join(map(str, words))}: {errors}")
    return printed


def changes(edit):
    """What an edit changes: for each pair of its lines 'old' and 'new' the path of the file, and both texts."""
    path, old = None, ""
    for line in read(edit).split("\n"):
        key, _, text = line.partition(":")
        if key == "file":
            path = edit.parent.parent / text.strip()
        elif key == "old":
            old = text.removeprefix(" ")
        elif key == "new":
            yield path, old, text.removeprefix(" ")


def make_edit(edit, texts):
    """Makes an edit in texts, which have the files that were edited before. Returns why it can't be made, if so."""
    for path, old, new in changes(edit):
        if not path or not path.is_file():
            return "it names no file"
        text = texts.get(path) or read(path)
        if (times := text.count(old)) != 1:
            return f"this occurs {times} times in its file, and not once: {old}"
        texts[path] = text.replace(old, new)
    return None


@contextlib.contextmanager
def room_with(crates, sources):
    """A temporary directory with a copy of what the compiler reads, as a repository of its own. Its program depends on the
    crates, and has these sources, each by its name."""
    with temporary() as room:
        shutil.copytree(ROOT / "crates", room / "crates", symlinks=True, ignore=shutil.ignore_patterns("out"))
        shutil.copy(ROOT / "HANDLES", room)
        listed = f"{read('crates.txt')}\n{PROGRAM}: {' '.join(sorted(crates))}\n"
        (room / "crates.txt").write_text(listed, encoding="utf-8")
        directory = room / "crates" / PROGRAM / "src"
        directory.mkdir(parents=True)
        for file, text in sources.items():
            (directory / file).write_text(text, encoding="utf-8")
        git(room, "init", "--quiet")
        yield room


def compiled(room, *words, given=b""):
    """Compiles the program with all crates below it, proves nothing, and runs it. Returns the status, the output, and its
    errors, each with its file and line."""
    output, _, status = ran("rt", "try", "--", *words, cwd=room / "crates" / PROGRAM, given=given, seconds=SHORT, stderr=STDOUT)
    return status, output, [(file, int(line), name) for file, line, name in ERROR.findall(output)]


def print_end(output):
    """Prints the last lines of an output on standard error."""
    print(*(f"    {line}" for line in output.splitlines()[-20:]), sep="\n", file=sys.stderr, flush=True)


def programs_given(number):
    """The paths of the programs that are this program's first words, that many. It ends with status 2 if they are not there, if one is a
    script at the top, which would build the program, or if it has words and takes none."""
    paths = [str(Path(word).resolve()) for word in sys.argv[1 : 1 + number]]
    are_there = all(Path(path).is_file() and os.access(path, os.X_OK) and Path(path).parent != ROOT for path in paths)
    if len(paths) < number or sys.argv[1:] and not number or not are_there:
        about = ": the paths of built programs, such as crates/packtool/out/packtool" if number else ""
        print(f"usage: tools/{Path(sys.argv[0]).name}{' PROGRAM' * number}{about}", file=sys.stderr)
        sys.exit(2)
    return paths


def program(name):
    """The path of a program, which is proved and built first if it has to be."""
    words = ["flock", "crates.txt", "make", "-s", name]
    made = subprocess.run(words, cwd=ROOT, env=CLEAN, stdin=subprocess.DEVNULL, stdout=sys.stderr, check=False)
    if made.returncode:
        sys.exit(f"{name} is not measured, since it was not proved and built")
    return str(ROOT / "crates" / name / "out" / name)
