"""Files, directories and inputs at the edges of what packtool reads, for tools/stores: every length and count in turn, each way
in which a file may be missing, and texts that are longer than a buffer.

A group of `CASES` yields cases: the name, what packtool must print, its errors and status, its words, and how it is run, as by
`ran` of probe.py, and maybe the words `around` it."""

import itertools
import os
import random
import struct

import made
from gitstore import (CONFIGS, DATA, DIGITS, HEAD, SHA256, add_objects, add_pack, add_repository, changed, digest_of, index_of, listed,
                      pack_index, plain_index, sealed, shortest, sorted_ids, write)
from probe import POWERLESS, git, ran

NO_FILE = "No such file or directory (os error 2)"
LOOP = "Too many levels of symbolic links (os error 40)"
IS_DIRECTORY = "Is a directory (os error 21)"
NO_DIRECTORY = "Not a directory (os error 20)"
LOCKED = "Permission denied (os error 13)"
# The errors of a pack index that is cut, and the least length of one.
TOO_FEW, NOT_FILLED = "the bytes are too few for a pack index", "the tables of the pack index do not fill its bytes"
LEAST = 1064
WRONG_CHECKSUM = "FAILED: the checksum of the pack index is wrong"
# What `check` says of a file that Git writes with no digest.
NO_DIGEST = "SKIPPED: it has no digest"
# How many files one call checks: more than 16 bits count.
MANY_FILES = 66_000
# More lines than are looked up at once.
MANY_LINES = 20_000
# How many seconds of a processor a run may take that would take several times as many if each of its items were compared with all.
SECONDS = 2
# How long a gitfile may be, in Git, too, and a config; and how long a sparse file is that no memory holds.
GITFILE, CONFIG, SPARSE = 1 << 20, 1 << 24, 40 << 30


def error_of(text):
    """The line of an error."""
    escaped = text.replace("\\", "\\\\").replace("\n", "\\n").replace("\r", "\\r")
    return f"{chr(92) if escaped != text else ''}packtool: {escaped}\n"


def prints(name, lines, *words, errors="", status=0, **how):
    """A case that prints these lines."""
    return name, ("".join(f"{line}\n" for line in lines), errors, status), words, how


def finds(name, ids, *words, errors="", **how):
    """A case of `abbreviate` that finds these ids."""
    return name, (shortest(sorted(ids)), errors, 2 if errors else 0), ("abbreviate", *words), how


def fails(name, text, *words, **how):
    """A case that ends with an error."""
    return name, ("", error_of(text), 2), words, how


def verdict_of(content, kinds):
    """What `check` says of a file that is no pack index, by its kind, or by both."""
    if any(sealed(content[: -digest_of(kind)[1]], digest_of(kind)[0]) == content for kind in kinds):
        return "OK"
    digest, size = digest_of(kinds[0])
    if len(content) < size:
        return "FAILED: it is shorter than a digest"
    return f"FAILED: it ends in {content[-size:].hex()}, and the digest of the rest is {digest(content[:-size]).hexdigest()}"


def checks(name, verdicts, *words, **how):
    """A case of `check` of files, each by its name and what is said of it."""
    status = int(any(verdict.startswith("FAILED") for verdict in verdicts.values()))
    return prints(name, [": ".join(it) for it in verdicts.items()], "check", *words, *verdicts, status=status, **how)


def endings(room):
    """Files of each length, right and wrong, as files and as standard input."""
    rng = random.Random(1)
    contents = [rng.randbytes(size) for size in range(100)]
    contents += [sealed(rng.randbytes(size), digest_of(kind)[0]) for kind in DIGITS for size in (0, 1, 11, 12, 13, 4096)]
    # (as files whose last bytes were not written)
    contents += [rng.randbytes(100) + bytes(size) for size in (20, 32)]
    files = {f"f{at}": content for at, content in enumerate(contents)}
    for name, content in files.items():
        write(room / name, content)
    for words in ((), ("--kind", "sha1"), ("--kind", "sha256")):
        kinds = words[1:] or tuple(DIGITS)
        verdicts = {name: verdict_of(content, kinds) for name, content in files.items()}
        yield checks(" ".join(("check of files of each length", *words)), verdicts, *words, cwd=room)
        for content in contents[:70:3] + contents[100:]:
            yield checks(" ".join(("check of", str(len(content)), "bytes", *words)), {"-": verdict_of(content, kinds)}, *words, given=content)


def cut(room):
    """Pack indexes that are cut, by a name of one, by another, and as standard input."""
    for kind in DIGITS:
        whole = (DATA / f"{kind}.idx").read_bytes()
        verdicts = {}
        for size in {*range(10), 255, 1031, 1032, LEAST - 1, LEAST, 1071, 1072, len(whole) - 8, len(whole) - 1, len(whole)}:
            content = whole[:size]
            verdict = "OK" if content == whole else f"FAILED: {TOO_FEW if size < LEAST else NOT_FILLED}"
            other = verdict if size >= 4 else verdict_of(content, tuple(DIGITS))
            for name, said in ((f"{size}.idx", verdict), (f"{size}", other)):
                write(room / name, content)
                verdicts[name] = said
            yield checks(f"check of {size} bytes of {kind}.idx", {"-": other}, given=content)
        yield checks(f"check of files with the beginnings of {kind}.idx", verdicts, cwd=room)


def many_files(room):
    """More files in one call than 16 bits count, the last of which is wrong; and what is in Git's directory of a chain, or has its name."""
    wrong = "FAILED: it is shorter than a digest"
    write(room / "f", sealed(b""))
    write(room / "wrong")
    lines = [*["f: OK"] * MANY_FILES, f"wrong: {wrong}"]
    yield prints(f"check of {MANY_FILES + 1} files", lines, "check", *["f"] * MANY_FILES, "wrong", status=1, cwd=room)
    chain = room / "multi-pack-index.d"
    for name in ("right", "wrong", "x-chain", chain.name):
        write(chain / name, sealed(b"") if name == "right" else b"")
    verdicts = {f"{chain.name}/right": "OK", f"{chain.name}/wrong": wrong, f"{chain.name}/x-chain": NO_DIGEST}
    verdicts |= {f"{chain.name}/{chain.name}": wrong, chain.name: NO_DIGEST}
    yield checks("check of files in the directory of a chain", verdicts, cwd=room)
    (room / "locked").mkdir(0)
    for path, why in (f"gone/{chain.name}", NO_FILE), (f"locked/{chain.name}", LOCKED):
        yield fails(f"check of {path}", f"{path}: {why}", "check", path, cwd=room, around=POWERLESS)


def long_files(room):
    """Files and pack indexes of more than a mebibyte, as files and as standard input, right and with one other byte at the end; and an
    input that begins as a pack index and never ends."""
    body = bytes(1 << 20)
    file, index = sealed(body), index_of(sorted_ids(40_000, [20]))
    for name, content in ("a file", file), ("an index", index):
        for way, given in ("right", content), ("wrong", changed(content, len(content) - 1, content[-1] ^ 1)):
            verdict = "OK" if way == "right" else WRONG_CHECKSUM if content is index else verdict_of(given, tuple(DIGITS))
            write(room / "x", given)
            yield checks(f"check of {name} of {len(given)} bytes, {way}", {"x": verdict}, cwd=room)
            yield checks(f"the same, standard input, {name}, {way}", {"-": verdict}, given=given)
    write(room / "head", index[:1032])
    how = {"cwd": room, "around": ("sh", "-c", '{ cat head; cat /dev/zero; } | "$@"', "sh"), "limits": [f"--data={16 << 20}"]}
    yield checks("check of an input without an end in 16 MiB", {"-": f"FAILED: {NOT_FILLED}"}, **how)


def long_offsets(room):
    """Pack indexes of each kind with every number of 8-byte offsets that Git takes, as files and as standard input."""
    for kind, size in itertools.product(DIGITS, (1, 2, 3, 9)):
        for count in range(size):
            rows = [((at < count) << 32 | 12 + at, f"{at:0{DIGITS[kind]}x}", at) for at in range(size)]
            given, name = pack_index(rows), f"{count} of {size} offsets of {kind} with 8 bytes"
            write(room / "x.idx", given)
            yield checks(f"check of {name}", {"x.idx": "OK"}, cwd=room)
            yield checks(f"check of {name}, standard input", {"-": "OK"}, given=given)
            by_git = git(room, "show-index", f"--object-format={kind}", given=given)
            yield f"show of {name}", (by_git, "", 0), ("show", "-"), {"given": given}
            yield f"show of {name}, a file", (by_git, "", 0), ("show", "x.idx"), {"cwd": room}


def packs_beside(room):
    """Packs beside pack indexes, by odd names, of odd types, and too short for an offset."""
    for kind in DIGITS:
        digest, size = digest_of(kind)
        pack, other = sealed(b"PACK" + bytes(28), digest), sealed(b"pack" + bytes(28), digest)
        right, wrong = pack[-size:], f"FAILED: its pack ends in {pack[-size:].hex()}, and the pack beside it ends in {other[-size:].hex()}"
        index = pack_index([(12, "0" * DIGITS[kind], 0)], pack=right)
        names = ["a.idx", "a.idx.idx", "a.b.idx", ".idx", " .idx", "a.pack.idx"]
        for at, name in enumerate(names):
            for other_name in names:
                write(room / f"{kind}{at}" / f"{other_name[:-4]}.pack", other if other_name == name else pack)
            write(room / f"{kind}{at}" / name, index)
            yield checks(f"check of {name}, {kind}", {name: wrong}, cwd=room / f"{kind}{at}")
        for offset in range(len(pack) - size - 2, len(pack) + 2):
            write(room / f"{offset}.pack", pack)
            write(room / f"{offset}.idx", pack_index([(offset, "0" * DIGITS[kind], 0)], pack=right))
            said = "OK" if offset < len(pack) - size else f"FAILED: the offset {offset} is not in the pack beside it"
            yield checks(f"check of the offset {offset}, {kind}", {f"{offset}.idx": said}, cwd=room)
        yield from odd_packs(room / kind, index)


def odd_packs(room, index):
    """A pack index beside what is no pack."""
    write(room / "x.idx", index)
    path = room / "x.pack"
    write(room / "file")
    for way, make, text in [
        ("nothing", lambda: None, None),
        ("a link to nothing", lambda: path.symlink_to("none"), None),
        ("a link to itself", lambda: path.symlink_to("x.pack"), LOOP),
        ("a link below a file", lambda: path.symlink_to("file/x"), NO_DIRECTORY),
        ("a directory", path.mkdir, "not a regular file"),
        ("a pipe", lambda: os.mkfifo(path), "not a regular file"),
    ]:
        make()
        name = f"check of an index beside {way}"
        yield fails(name, f"x.pack: {text}", "check", "x.idx", cwd=room) if text else checks(name, {"x.idx": "OK"}, cwd=room)
        path.rmdir() if path.is_dir() else path.unlink(missing_ok=True)


def names_in_errors(room):
    """Errors about names with what is escaped, and about long ones."""
    long = "a" * 4000
    for name in ("a", "\\", "a\nb", "a\rb", "a\r", "\n", f"{long[:150]}\\\r\n"):
        yield fails(f"an error about {name!r:.20}", f"{name}: {NO_FILE}", "check", name, cwd=room)
    for name in (long, f"{long}\\", f"{long * 2}\r", long * 17, f"{long * 31}\n"):
        text = f"{name}: File name too long (os error 36)"
        yield fails(f"an error about a name of {len(name)} bytes", text, "check", name, cwd=room)
        if len(name) < 10_000:
            yield fails(f"an error about a directory of {len(name)} bytes", text, "abbreviate", "--objects", name, cwd=room)


def names_of_files(room):
    """Files in an object directory whose names have each length up to the longest."""
    objects, ids = room / "objects", [made.PACKED, made.BOTH, made.LOOSE]
    add_objects(objects, ids[2:])
    for size in (*range(1, 42), *range(120, 136), 200, *range(250, 256)):
        for directory in ("4b", "pack"):
            write(objects / directory / ("x" * size))
    for size, id in ((127, ids[0]), (128, ids[0]), (129, ids[0]), (255 - 1, ids[1])):
        name = "p" * (size - len(".idx"))
        add_pack(objects, name, plain_index([id]))
    yield finds("names of files of up to 255 bytes", ids, "--objects", "objects", cwd=room)
    yield prints("the same with find", ids, "find", "4b", "--objects", "objects", cwd=room)


def counts(room):
    """Pack indexes of an id with each first byte, of which each count is once too high and once too low."""
    rows = [(12 + byte, f"{byte:02x}{'0' * 38}", 0) for byte in range(256)]
    whole, texts = pack_index(rows), {}
    add_repository(room)
    for byte, by in itertools.product(range(256), (2, -2)):
        count = byte + 1 + by
        if count < 0:
            continue
        at, name = 8 + 4 * byte, f"pack-{byte:02x}{'+' if by > 0 else '-'}"
        add_pack(room / "objects", name, whole[:at] + count.to_bytes(4, "big") + whole[at + 4 :])
        fall = f"the fan-out entry of the first byte {byte + (by > 0):02x} is below the one before it"
        # (with the last count too low, what is left of the tables is whole 8-byte offsets)
        texts[name] = NOT_FILLED if (byte, by) == (255, 2) else fall
    errors = "".join(error_of(f"objects/pack/{name}.idx: {text}, skipped") for name, text in sorted(texts.items()))
    if by_git := listed(room):
        raise ValueError(f"git lists {len(by_git)} ids of indexes with wrong counts")
    for words in (("abbreviate",), ("find", "00"), ("locate", "ff")):
        yield f"{words[0]} over {len(texts)} wrong counts", ("", errors, 2), (*words, "--objects", "objects"), {"cwd": room}


def last_lines(room):
    """A last line of each length, with and without a line feed."""
    for kind, digits in DIGITS.items():
        id = made.IDS[kind]
        add_repository(room / kind, kind, [id])
        for size, before, end in itertools.product(range(digits + 3), ("", "ff\n"), ("", "\n")):
            line = (id + "00")[:size]
            found = id if 2 <= size <= digits else "bad"
            lines = (["ff missing"] if before else []) + ([f"{line} {found}"] if line or end else [])
            status = 0 if not before and (found == id or not lines) else 1
            name = f"find --stdin of {size} digits of {kind}{', ended' if end else ''}{', after a line' if before else ''}"
            yield prints(name, lines, "find", "--stdin", status=status, cwd=room / kind, given=(before + line + end).encode())


def prefixes(room):
    """A prefix of each length, of an id in capitals and with another last digit; and texts that are no prefixes."""
    for kind, digits in DIGITS.items():
        id = made.IDS[kind]
        add_repository(room / kind, kind, [id])
        for size, last in itertools.product(range(2, digits + 1), "0fF"):
            text = f"{id[: size - 1].upper()}{last}"
            found = [id] if id.startswith(text.lower()) else []
            yield prints(f"find of {size} digits of {kind}, the last {last}", found, "find", text, status=1 - len(found), cwd=room / kind)
        for text in (" 4b", "4b ", "\t4b", "4b\v", "0x4b", "+4b", "4b_0", "", "4", "4g", f"{id}0", "\N{FULLWIDTH DIGIT FOUR}b"):
            yield fails(f"find of {text!r} in {kind}", f"{text}: not 2 to {digits} hex digits", "find", "--", text, cwd=room / kind)


def skipped(room):
    """Up to three things that are skipped, each said once for many lines, and no line is lost."""
    objects, errors = room / "objects", ""
    add_repository(room, loose=[made.LOOSE])
    given = (b"4bff\n" + b"ff\n" * (MANY_LINES - 2) + b"4b\n") * 2
    for count in range(4):
        for word, found in ("find", f" {made.LOOSE}"), ("locate", f" {made.LOOSE} objects/4b/{made.LOOSE[2:]}"), ("abbreviate", ""):
            lines = [f"4bff{found}", *["ff missing"] * (MANY_LINES - 2), f"4b{found or 'ff'}"] * 2
            name, how = f"{word} --stdin of {2 * MANY_LINES} lines, {count} things skipped", {"cwd": room, "given": given}
            yield prints(name, lines, word, "--stdin", "--objects", "objects", errors=errors, status=2 if count else 1, **how)
        add_pack(objects, f"{count}", b"x")
        errors += error_of(f"objects/pack/{count}.idx: {TOO_FEW}, skipped")


def much_found(room):
    """Lines of 2, 3 and 4 digits that find each of many ids, within the memory that packtool(1) names, and that of the pack index."""
    ids = list(sorted_ids(1 << 18, [20]))
    index = index_of(ids)
    add_pack(room / "objects", "pack-0", index)
    listed_lines = (line.split() for line in git(room, "show-index", given=index).splitlines())
    places = {id: f"{id} objects/pack/pack-0.pack {offset}" for offset, id, _ in listed_lines}
    asked = [("find", size, str, 6) for size in (2, 3, 4)] + [("locate", size, places.get, 16) for size in (2, 3)]
    for command, size, printed, most in asked:
        prefixes = [f"{number:0{size}x}" for number in range(16**size)]
        random.Random(size).shuffle(prefixes)
        found = {prefix: [f"{prefix} missing"] for prefix in prefixes}
        for prefix, those in itertools.groupby(ids, lambda id: id[:size]):
            found[prefix] = [f"{prefix} {printed(id)}" for id in those]
        lines = [line for prefix in prefixes for line in found[prefix]]
        how = {"cwd": room, "given": "".join(f"{prefix}\n" for prefix in prefixes).encode(), "limits": [f"--data={(most << 20) + len(index)}"]}
        status = int(any(lines[0].endswith(" missing") for lines in found.values()))
        name = f"{command} --stdin of all prefixes of {size} digits in {most} MiB beside the index"
        yield prints(name, lines, command, "--stdin", "--objects", "objects", status=status, **how)


def damaged_asked(room):
    """Pack indexes that are damaged, for each command, also with --stdin."""
    first, second = made.TWO.values()
    commands = [("find", "4b"), ("locate", "4b"), ("abbreviate",)]
    commands += [(*words, "--stdin") for words in (("find",), ("find", "--one"), ("locate",), ("locate", "--one"), ("abbreviate",))]
    indexes = [(changed(first, at, value), why, True) for at, value, why in made.BAD_HEADS] + [(first[: LEAST - 1], TOO_FEW, True)]
    indexes += [(changed(first, at, value), why, False) for at, value, why in made.DAMAGED]
    add_pack(room, "pack-2", second)
    for index, why, is_skipped in indexes:
        add_pack(room, "pack-1", index)
        error = error_of(f"./pack/pack-1.idx: {why}{', skipped' if is_skipped else ''}")
        for words in commands:
            # (`abbreviate` prints the ids with the bytes before)
            before = f"0000 {'0' * 40}\n" if words == ("abbreviate",) else ""
            wanted = answers_of_second(words) if is_skipped else before, error, 2
            yield f"{' '.join(words)}: {why}", wanted, (*words, "--objects", "."), {"cwd": room, "given": b"4b825d\n"}
    # (the second name of the second index has the third 8-byte offset of two)
    add_pack(room, "pack-1", first)
    add_pack(room, "pack-2", changed(second, 1032 + 3 * (20 + 4) + 4 + 3, 2))
    yield fails("locate: no offset", "./pack/pack-2.idx: the object at position 1 has no offset", "locate", made.PACKED, "--objects", ".", cwd=room)


def answers_of_second(words):
    """What a command prints of the second pack of made.TWO alone."""
    ids = ["0" * 40, made.PACKED, made.BOTH]
    places = [f"{made.PACKED} ./pack/pack-2.pack {made.LAST_OFFSET}", f"{made.BOTH} ./pack/pack-2.pack 3074"]
    lines = {
        ("find", "4b"): ids[1:],
        ("locate", "4b"): places,
        ("abbreviate",): shortest(ids).splitlines(),
        ("find", "--stdin"): [f"4b825d {made.PACKED}"],
        ("find", "--one", "--stdin"): [made.PACKED],
        ("locate", "--stdin"): [f"4b825d {places[0]}"],
        ("locate", "--one", "--stdin"): [places[0]],
        ("abbreviate", "--stdin"): ["4b82"],
    }
    return "".join(f"{line}\n" for line in lines[words])


def by_links(room):
    """An object directory that is a link, with a config beside it, beside what it leads to, beside both and beside none."""
    for at, (link, target) in enumerate(itertools.product((None, *DIGITS), repeat=2)):
        here, there = room / f"link{at}", room / f"target{at}"
        write(there / "objects" / "pack" / "none")
        here.mkdir()
        (here / "objects").symlink_to(f"../{there.name}/objects")
        for directory, kind in ((here, link), (there, target)):
            if kind:
                write(directory / "config", CONFIGS[kind])
        for path in ("objects", "objects/"):
            text = made.NO_PREFIX[target or link or "sha1"]
            yield fails(f"--objects {path}, a link with {link}, of {target}", text, "find", "x", "--objects", path, cwd=here)


def no_stores(room):
    """What --objects names, in each way in which it is none, and directories in place of the files that say that it is one."""
    write(room / "file")
    (room / "loop").symlink_to("loop")
    (room / "link").symlink_to("none")
    for path in ("locked/objects/pack/none", "list/info/alternates/none", "config_directory/objects/pack/none", "config_directory/config/none"):
        write(room / path)
    add_repository(room / "r" / ".git", "sha256")
    for path in ("r/.git/objects/pack/none", "two/objects/pack/none", "two/.git/objects/pack/none", "only_00/00/none", "only_f0/f0/none", "only_ff/ff/none", "only_info/info/alternates"):
        write(room / path)
    for name in ("pack", "4b", "00", "ff", "info"):
        write(room / f"file_{name}" / name)
    reasons = [("none", NO_FILE), ("link", NO_FILE), ("file", "not a directory"), ("file/x", NO_DIRECTORY)]
    for path, why in [*reasons, ("loop/pack", LOOP), ("loop/x/pack", LOOP)]:
        name = path.removesuffix("/pack")
        yield fails(f"--objects {name}", f"{path}: {why}", "abbreviate", "--objects", name, cwd=room)
    for name, better in (("r", "r/.git/objects"), ("r/.git", "r/.git/objects"), ("two", "two/objects")):
        yield fails(f"--objects {name}", f"{name}: no object store: try {better}", "abbreviate", "--objects", name, cwd=room)
    for name in ("only_00", "only_f0", "only_ff", "only_info", "r/.git/objects"):
        yield prints(f"--objects {name}", [], "abbreviate", "--objects", name, status=1, cwd=room)
    yield fails("--objects beside a directory", f"config_directory/objects/../config: {IS_DIRECTORY}", "abbreviate", "--objects", "config_directory/objects", cwd=room)
    for name, path in (("file_22", "file_22/22"), ("file_pack", "file_pack/pack")):
        write(room / path)
        env = {"GIT_OBJECT_DIRECTORY": str(room / name)}
        yield fails(f"$GIT_OBJECT_DIRECTORY {name}", f"{room}/{path}: {NO_DIRECTORY}", "abbreviate", cwd=room / "r", env=env)
    for name in ("list", *(f"file_{name}" for name in ("pack", "4b", "00", "ff", "info"))):
        yield fails(f"--objects {name}", f"{name}: no object store", "abbreviate", "--objects", name, cwd=room)
    (room / "locked").chmod(0)
    words = ("abbreviate", "--objects", "locked/objects")
    yield fails("--objects in a locked directory", f"locked/objects/pack: {LOCKED}", *words, cwd=room, around=POWERLESS)
    (room / "locked").chmod(0o700)


def files_in_each_way(room):
    """Files that a repository may lack, in each way in which they are not there or cannot be read."""
    id = made.IDS["sha1"]
    for name in ("config", "objects/info/alternates", "commondir"):
        for way, why in [("nothing", None), ("a link to nothing", None), ("a link to itself", LOOP), ("a directory", IS_DIRECTORY), ("locked", LOCKED)]:
            if (name, way) == ("commondir", "a link to nothing"):
                # (which git rejects)
                continue
            directory = room / f"{name.rpartition('/')[2]} {way}"
            add_repository(directory, loose=[id])
            path = directory / name
            path.unlink(missing_ok=True)
            if way == "a directory":
                path.mkdir()
            elif way == "locked":
                write(path)
                path.chmod(0)
            elif way != "nothing":
                path.symlink_to("none" if why is None else path.name)
            title, how = f"{name}: {way}", {"cwd": directory}
            if not why:
                if listed(directory) != [id]:
                    raise ValueError(f"git lists other ids with {title}")
                yield finds(title, [id], **how)
                continue
            yield fails(title, f"{directory}/{name}: {why}", "abbreviate", around=POWERLESS if way == "locked" else (), **how)
    directory = room / "locked info"
    add_repository(directory, loose=[id])
    (directory / "objects" / "info").chmod(0)
    yield fails("info: locked", f"{directory}/objects/info/alternates: {LOCKED}", "abbreviate", around=POWERLESS, cwd=directory)
    (directory / "objects" / "info").chmod(0o700)


def links_to_nothing(room):
    """Prefixes of each length over a loose object whose file is a link to nothing, and over one beside it."""
    objects = room / "objects"
    add_objects(objects, [made.LOOSE])
    path = objects / "4b" / made.BOTH[2:]
    path.symlink_to("gone")
    for size in (2, 3, 4, 5, 39, 40):
        how = {"cwd": room, "given": f"ff\n{made.BOTH[:size]}\n".encode()}
        for words in ((made.BOTH[:size],), ("--stdin",)):
            name = f"locate {words[0]:.7} over a link to nothing, {size} digits"
            yield fails(name, f"objects/4b/{path.name}: {NO_FILE}", "locate", *words, "--objects", "objects", **how)
        if size > 2:
            lines = [f"{made.LOOSE} objects/4b/{made.LOOSE[2:]}"]
            yield prints(f"locate of {size} digits beside it", lines, "locate", made.LOOSE[:size], "--objects", "objects", cwd=room)


def links_among_others(room):
    """Links to nothing among many loose objects, in an object directory whose alternate has the object, and after many lines; and links
    that lead to what may not be looked at, and a directory whose files may not be."""
    ids = [f"4b{number:038x}" for number in range(300)]
    for at in (0, 1, 299):
        add_objects(room / f"link{at}", ids[:at] + ids[at + 1 :])
        path = f"link{at}/4b/{ids[at][2:]}"
        (room / path).symlink_to("gone")
        yield fails(f"locate over a link to nothing after {at} others", f"{path}: {NO_FILE}", "locate", "4b", "--objects", f"link{at}", cwd=room)
    (room / "link1" / "info").mkdir()
    write(room / "link1" / "info" / "alternates", b"../lent\n")
    add_objects(room / "lent", ids[1:])
    path = f"link1/4b/{ids[1][2:]}"
    yield fails("locate over a link to nothing whose object an alternate has", f"{path}: {NO_FILE}", "locate", ids[1], "--objects", "link1", cwd=room)
    lent = f"lent/4b/{ids[0][2:]}"
    (room / lent).symlink_to("gone")
    yield fails("locate over a link to nothing in an alternate", f"{room}/{lent}: {NO_FILE}", "locate", ids[0], "--objects", "link1", cwd=room)
    # (a file is read by as many bytes as there is room for, a pipe by as many as were written at once)
    write(room / "lines", b"ff\n" * 2000 + f"{ids[1]}\n".encode())
    how = {"cwd": room, "around": ("sh", "-c", 'exec "$@" < lines', "sh")}
    yield fails("locate --stdin of a link to nothing after 2,000 lines", f"{path}: {NO_FILE}", "locate", "--stdin", "--objects", "link1", **how)
    for way, target, why in [("itself", ids[0][2:], LOOP), ("a locked directory", "../locked/x", LOCKED)]:
        add_objects(room / way, ids[1:])
        write(room / way / "locked" / "x")
        (room / way / "locked").chmod(0)
        path = f"{way}/4b/{ids[0][2:]}"
        (room / path).symlink_to(target)
        yield fails(f"locate over a link to {way}", f"{path}: {why}", "locate", "4b", "--objects", way, cwd=room, around=POWERLESS)
        (room / way / "locked").chmod(0o700)
    add_objects(room / "listed", ids[:1])
    (room / "listed" / "4b").chmod(0o600)
    text = f"listed/4b/{ids[0][2:]}: {LOCKED}"
    yield fails("locate in a directory that may be listed alone", text, "locate", "4b", "--objects", "listed", cwd=room, around=POWERLESS)
    (room / "listed" / "4b").chmod(0o700)


def faulty(room):
    """Repositories in which git finds none either, and the error of each; a directory that was removed; and repositories of which a part
    cannot be read, or names no directory, where git takes the one above."""
    add_repository(room / "r")
    write(room / "r" / "worktrees" / "empty" / "commondir")
    write(room / "r" / "worktrees" / "empty" / "HEAD", HEAD)
    rows = [(b"gitdir:../r", ".git: names no directory"), (b"gitdir: ../gone\n", "../gone: not a git repository")]
    for content, why in rows:
        directory = room / f"work{len(content)}"
        write(directory / ".git", content)
        yield fails(f"a gitfile with {content!r}", f"{directory}/{why}", "find", "4b", cwd=directory)
    directory = room / "r" / "worktrees" / "empty"
    yield fails("an empty commondir", f"{directory}/commondir: empty", "find", "4b", cwd=directory)
    gone = ("sh", "-c", 'mkdir gone && cd gone && rmdir ../gone && "$@"', "sh")
    yield fails("a directory that was removed", f".: {NO_FILE}", "find", "4b", cwd=room, around=gone)
    yield prints("$GIT_DIR in it", [], "find", "4b", status=1, cwd=room, around=gone, env={"GIT_DIR": str(room / "r")})
    add_repository(room / ".git")
    for part, path, why in [("HEAD", "HEAD", LOCKED), ("objects", "objects/info/alternates", LOCKED), (".git", ".git/HEAD", LOCKED), ("commondir", "none", NO_FILE)]:
        directory = room / f"inner {part}"
        add_repository(directory / part if part == ".git" else directory)
        if part == "commondir":
            write(directory / part, b"none\n")
        else:
            (directory / part).chmod(0)
        if ran(*POWERLESS, "git", "rev-parse", "--git-dir", cwd=directory)[0] != f"{room}/.git\n":
            raise ValueError(f"git does not go on where {part} is wrong")
        yield fails(f"a repository in another one, {part}", f"{directory}/{path}: {why}", "find", "4b", cwd=directory, around=POWERLESS)
        (directory / part).chmod(0o700)


def later_configs(room):
    """Configs with extensions that Git knows from a later version on than 2.39, and what its documentation says of them; the first
    is one that packtool does not know."""
    for version, text, wanted in [
        (1, "compatObjectFormat = sha256", "unknown repository extension found: compatobjectformat"),
        (1, "refStorage=reftable\nrelativeWorktrees=true\nobjectFormat=sha256", "sha256"),
        (0, "refStorage = files", "repo version is 0, but v1-only extension found: refstorage"),
        (0, "relativeWorktrees = true", "repo version is 0, but v1-only extension found: relativeworktrees"),
    ]:
        directory = room / f"{version} {text[:9]}"
        add_repository(directory / ".git")
        write(directory / ".git" / "config", f"[core]\nrepositoryformatversion = {version}\n[extensions]\n{text}\n".encode())
        error = made.NO_PREFIX.get(wanted, f"{directory}/.git/config: {wanted}")
        yield fails(f"a config of version {version} with {text!r}", error, "find", "x", cwd=directory)


def equal_beginnings(room):
    """Abbreviations of ids of which all begin with the same six digits, and lines that are ambiguous among them, in a time that does not
    grow with the square of their number."""
    ids = sorted({f"4b825d{id[6:]}" for id in sorted_ids(20_000, [20])})
    add_pack(room / "objects", "pack-0", index_of(ids))
    names = [line.split() for line in shortest(ids).splitlines()][::5]
    how = {"cwd": room, "given": "".join(f"{id}\n" for _, id in names).encode(), "limits": [f"--cpu={SECONDS}"]}
    title, lines = f"abbreviate --stdin of {len(names)} ids in {SECONDS} s", [name for name, _ in names]
    yield prints(title, lines, "abbreviate", "--stdin", "--objects", "objects", **how)
    asked = ["4b825d", "4b82"] * (MANY_LINES // 2)
    lines, how = [f"{line} ambiguous" for line in asked], {**how, "given": "".join(f"{line}\n" for line in asked).encode()}
    for word in ("find", "locate"):
        title = f"{word} --stdin --one of {len(asked)} ambiguous lines in {SECONDS} s"
        yield prints(title, lines, word, "--stdin", "--one", "--objects", "objects", status=1, **how)


def many_names(room):
    """A fan-out directory with more than a mebibyte of names, of which some are ids, and a directory of many packs; and more ids with
    one first byte than are held at a time for several lines, of which the first or the last finds nothing."""
    write(room / "file")
    directory, ids = f"{room}/loose/4b", [f"4b{number:038x}" for number in range(5000)]
    os.makedirs(directory)
    for id in ids:
        for name in (id[2:], id.ljust(250, "x")):
            os.link(room / "file", f"{directory}/{name}")
    yield prints(f"{len(ids)} loose objects", ids, "find", "4b", "--objects", "loose", cwd=room)
    directory, names = f"{room}/packs/pack", [f"pack-{number:04}" for number in range(5000)]
    add_pack(room / "packs", names[0], plain_index([made.BOTH]))
    for name, end in itertools.product(names[1:], (".idx", ".pack")):
        os.link(f"{directory}/{names[0]}{end}", f"{directory}/{name}{end}")
    lines = [f"{made.BOTH} packs/pack/{name}.pack 3072" for name in names]
    yield prints(f"{len(names)} packs", lines, "locate", "4b", "--objects", "packs", cwd=room)
    ids = sorted({f"4b{id[2:]}" for id in sorted_ids(100_000, [20])})
    add_pack(room / "index", "pack-0", index_of(ids))
    yield prints(f"find of {len(ids)} ids", ids, "find", "4b", "--objects", "index", cwd=room)
    found = {"ff": ["ff missing"], "4b": [f"4b {id}" for id in ids]}
    for one, other in itertools.permutations(found):
        how = {"status": 1, "cwd": room, "given": f"{one}\n{other}\n".encode()}
        yield prints(f"find --stdin of {one} and {other}", found[one] + found[other], "find", "--stdin", "--objects", "index", **how)
    # (the lines before an error are printed)
    add_pack(room / "index", "pack-1", changed(plain_index(["f" * 40]), 1032, 0))
    errors = error_of("index/pack/pack-1.idx: an id among those with the first byte ff has another")
    how = {"errors": errors, "status": 2, "cwd": room, "given": b"4b\nff\n"}
    yield prints("find --stdin of 4b and what is damaged", found["4b"], "find", "--stdin", "--objects", "index", **how)


def long_index(room):
    """A pack index with ids and offsets beyond 16 MiB: what is at its beginning, more than 4 MiB of one first byte, and at its end."""
    size, step, each = 900_000, 1 << 6, 1 << 18
    names = b"".join(number.to_bytes(4, "big") + bytes(16) for number in range(0, size * step, step))
    counts = struct.pack(">256I", *(min(size, (byte + 1) * each) for byte in range(256)))
    offsets = struct.pack(f">{size}I", *range(12, 12 + size))
    add_pack(room / "objects", "pack-0", sealed(b"".join([b"\xfftOc\0\0\0\2", counts, names, bytes(4 * size), offsets, bytes(20)])))
    last = (size - 1) // each
    for word, byte in ("find", 0), ("locate", last):
        places = [(f"{number * step:08x}{'0' * 32}", 12 + number) for number in range(byte * each, min(size, (byte + 1) * each))]
        lines = [f"{id} objects/pack/pack-0.pack {offset}" if word == "locate" else id for id, offset in places]
        yield prints(f"{word} {byte:02x} in an index of 24 MiB", lines, word, f"{byte:02x}", "--objects", "objects", cwd=room)


def links(room):
    """Files that are links to nothing or to themselves: loose objects, also the id of zeros and in an alternate, pack indexes, and a pack."""
    objects = ("--objects", "objects")
    add_objects(room / "objects", ["0" * 40])
    write(room / "objects" / "info" / "alternates", b"../lent\n")
    write(room / "lent" / "ff" / "none")
    (room / "lent" / "ff" / ("0" * 38)).symlink_to("gone")
    yield prints("the id of zeros", [f"{'0' * 40} objects/00/{'0' * 38}"], "locate", "00", *objects, cwd=room)
    yield fails("a link to nothing in an alternate", f"{room}/lent/ff/{'0' * 38}: {NO_FILE}", "locate", "ff", *objects, cwd=room)
    names = [f"pack-{number:02}" for number in range(70)]
    for name in names:
        add_pack(room / "many", name, plain_index([made.BOTH]))
    # (after one that is skipped, another error is none the less one)
    add_pack(room / "many", "damaged", b"")
    for path, target, why in [("many/pack/pack-00.pack", "pack-00.pack", LOOP), ("many/pack/pack-69.idx", "gone", NO_FILE)]:
        (room / path).unlink()
        (room / path).symlink_to(target)
        yield fails(f"{path}, a link to {target}", f"{path}: {why}", "find", "4b", "--objects", "many", cwd=room)
        (room / path).unlink()
        write(room / path)


def long_texts(room):
    """Texts that are longer than a buffer, each with what counts at its end."""
    own, good = made.IDS["sha256"], "f" * 64
    add_objects(room / "good", [good])
    for size in (1 << 12, 1 << 16, 1 << 18, 1 << 22):
        repository = room / str(size) / "own"
        fill = b"x" * size
        configs = [("a comment", b"#" + fill), ("a value", b"[a]\nb=" + fill), ("a section", b'[a "' + fill + b'"]')]
        for name, text in [*configs, ("lines", b"\n" * size)]:
            add_repository(repository, "sha256", [own])
            write(repository / "config", text + b"\n" + SHA256)
            yield finds(f"a config with {name} of {size} bytes", [own], cwd=repository)
        lists = [("a comment", b"#" + fill + b"\n"), ("lines", b"\n" * size), ("comments", b"#x\n" * (size // 3))]
        for name, text in lists:
            write(repository / "objects" / "info" / "alternates", text + os.fsencode(room / "good"))
            yield finds(f"alternates with {name} of {size} bytes", [own, good], cwd=repository)
        (repository / "objects" / "info" / "alternates").unlink()
        write(repository / "HEAD", HEAD + fill)
        yield finds(f"HEAD with {size} more bytes", [own], cwd=repository)
        work = room / str(size) / "work"
        write(work / ".git", b"gitdir: ../own/worktrees/w".ljust(min(size, GITFILE), b"\n"))
        write(repository / "worktrees" / "w" / "HEAD", HEAD)
        write(repository / "worktrees" / "w" / "commondir", b"../.." + b"\r\n" * (size // 2))
        yield finds(f"a gitfile and commondir of {size} bytes", [own], cwd=work)
        if size < 1 << 17:
            env = {"GIT_ALTERNATE_OBJECT_DIRECTORIES": ":" * (size - 100) + str(room / "good")}
            yield finds(f"a variable of {size} bytes", [own, good], cwd=repository, env=env)


def endless(room):
    """Files that are too long or have no end, which are errors in little time and memory, as they are to git; and files of which only
    the front counts, and NULs in a config. A config of more than 16 MiB is the one that git reads all the same."""
    id, too_large, too_long = made.IDS["sha256"], "{path}: too large to be a .git file", "{path}: larger than 16 MiB"
    rows = [
        ("HEAD", HEAD, SPARSE, None),
        ("HEAD", b"ref:".ljust(250) + b"refs/heads/main\n", 0, None),
        ("HEAD", b"ref:".ljust(251) + b"refs/heads/main\n", 0, "no git repository in this directory or above it"),
        ("HEAD", b"ref: refs/heads/" + b"x" * 300 + b"\n", 0, None),
        (".git", b"gitdir: ../own\n", SPARSE, too_large),
        (".git", b"gitdir: ../own".ljust(GITFILE + 1, b"\n"), 0, too_large),
        ("config", SHA256, SPARSE, too_long),
        ("config", b"", "/dev/zero", too_long),
        ("config", SHA256 + b"\0", 0, "{path}: bad config line 5"),
        ("config", b"# \0\n[a]\nb=\0c\n[a \"\0\"]\n" + SHA256, 0, None),
        ("config", SHA256.rjust(CONFIG), 0, None),
        ("config", SHA256.rjust(CONFIG + 1), 0, too_long),
    ]
    for at, (name, content, more, error) in enumerate(rows):
        own = room / str(at) / "own"
        add_repository(own, "sha256", [id])
        path = (own.with_name("work") if name == ".git" else own) / name
        write(path, content)
        if more == SPARSE:
            os.truncate(path, SPARSE)
        elif more:
            path.unlink()
            path.symlink_to(more)
        try:
            by_git = listed(path.parent)
        except OSError:
            by_git = None
        if by_git != (None if error and len(content) <= CONFIG else [id]):
            raise ValueError(f"git does not agree about {name}, {at}")
        title, how = f"{name}, {len(content)} bytes and {more} more", {"cwd": path.parent, "limits": [f"--cpu={SECONDS}", f"--data={40 << 20}"]}
        yield fails(title, error.format(path=path), "abbreviate", **how) if error else finds(title, [id], **how)


def pipes(room):
    """Pipes in the place of files, none of which is opened: a pack, .git and a loose object, as git does, and HEAD, at which git waits."""
    own, inner = room / "own", room / "own" / "inner"
    add_repository(own, loose=[made.LOOSE], packs=[[made.PACKED]])
    add_repository(inner, loose=[made.BOTH])
    loose = own / "objects" / made.LOOSE[:2] / made.LOOSE[2:]
    for path in (own / "objects" / "pack" / "pack-0.pack", loose, own / ".git", inner / "HEAD"):
        path.unlink(missing_ok=True)
        os.mkfifo(path)
        where = inner if path.name == "HEAD" else own
        if where == own and listed(own) != [made.LOOSE]:
            raise ValueError(f"git lists other ids with the pipe {path.name}")
        yield finds(f"{path.name}, a pipe", [made.LOOSE], cwd=where, seconds=10 * SECONDS)


def environments(room):
    """--objects with each variable of the environment, which counts for nothing then."""
    ids = [f"{at}{'0' * 39}" for at in range(4)]
    for at, name in enumerate(("own", "other", "third")):
        add_repository(room / name, loose=[ids[at]])
    values = {
        "GIT_DIR": "../other",
        "GIT_COMMON_DIR": "../other",
        "GIT_OBJECT_DIRECTORY": "../other/objects",
        "GIT_ALTERNATE_OBJECT_DIRECTORIES": "../other/objects:../third/objects",
    }
    rows = [{name: text} for name, value in values.items() for text in (value, f"{room}{value[2:]}", "none", "", "\udcff", '"\\377"')]
    for env in [*rows, values]:
        yield finds(f"--objects with {env}", ids[:1], "--objects", "../own/objects", cwd=room / "third", env=env)
    add_repository(room / "work" / ".git", loose=ids[:1])
    yield finds(f"--objects .git/objects with {values}", ids[:1], "--objects", ".git/objects", cwd=room / "work", env=values)
    for name in values:
        yield fails(f"${name} that is not UTF-8", f"{name}: not UTF-8", "abbreviate", cwd=room / "own", env={name: "../other\udcff"})


CASES = [endings, many_files, long_files, cut, long_offsets, packs_beside, names_in_errors, names_of_files, counts, last_lines, prefixes]
CASES += [skipped, much_found, damaged_asked, by_links, no_stores, files_in_each_way, links_to_nothing, links_among_others, links]
CASES += [many_names, long_index, equal_beginnings]
CASES += [faulty, later_configs, long_texts, endless, pipes, environments]
