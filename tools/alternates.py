"""Alternates that packtool reads, for tools/stores: odd lines of a list, chains of lists and of the environment, many of them, and many that
are missing.

A group of `CASES` yields cases, as in tools/edges.py."""

import os
from pathlib import Path

import made
from edges import LOCKED, LOOP, NO_DIRECTORY, NO_FILE, SECONDS, TOO_FEW, error_of, fails, finds, prints
from gitstore import add_objects, add_pack, add_repository, listed, plain_index, write
from probe import POWERLESS

# Lines of a list of alternates, and why each is skipped, if it is an alternate that cannot be used.
NOT_TEXT, RETURN = "{objects}/info/alternates: a path is not UTF-8", "its line ends in a carriage return"
ODD_LINES = [
    (b"", None),
    (b"#", None),
    (b"# x", None),
    (b'""', None),
    (b'"\\000x"', None),
    (b"../../own/objects", None),
    (b"{room}/good", None),
    (b"{room}/directory\r", None),
    (b"\xff", NOT_TEXT),
    (b"../../../\xff/x", NOT_TEXT),
    (b'"\\377"', NOT_TEXT),
    (b'"', f'{{objects}}/": {NO_FILE}'),
    (b'"x', f'{{objects}}/"x: {NO_FILE}'),
    (b" ", f"{{objects}}/ : {NO_FILE}"),
    (b"\r", f"{{objects}}/: {RETURN}"),
    (b"~/x", f"{{objects}}/~/x: {NO_FILE}"),
    (b"{room}/none", f"{{room}}/none: {NO_FILE}"),
    (b"{room}/none\r", f"{{room}}/none: {RETURN}"),
    (b"{room}/file", "{room}/file: not a directory"),
    (b"{room}/file\r", f"{{room}}/file: {RETURN}"),
    (b"{room}/file/x", f"{{room}}/file/x: {NO_DIRECTORY}"),
    (b"{room}/loop", f"{{room}}/loop: {LOOP}"),
    (b"{room}/loop\r", f"{{room}}/loop\r: {LOOP}"),
    (b"{room}/locked/x", f"{{room}}/locked/x: {LOCKED}"),
]


def odd_lines(room):
    """Lists of alternates with an odd line, before and after a good one."""
    own, good = made.IDS["sha1"], made.LOOSE
    write(room / "file")
    (room / "loop").symlink_to("loop")
    (room / "loop\r").symlink_to("loop\r")
    (room / "directory\r").mkdir()
    (room / "locked").mkdir(0)
    add_objects(room / "good", [good])
    for at, (line, why) in enumerate(ODD_LINES):
        for order in (1, -1):
            repository = room / f"{at}{'+' if order > 0 else '-'}" / "own"
            add_repository(repository, loose=[own])
            objects = str(repository / "objects")
            lines = [line.replace(b"{room}", os.fsencode(room)), os.fsencode(room / "good")][::order]
            write(Path(objects, "info", "alternates"), b"\n".join(lines))
            errors = error_of(f"{why}, skipped".format(room=room, objects=objects)) if why else ""
            if listed(repository) != [own, good]:
                raise ValueError(f"git lists other ids with {line!r}")
            how = {"errors": errors, "cwd": repository, "around": POWERLESS}
            yield finds(f"alternates, {line!r} {'first' if order > 0 else 'last'}", [own, good], **how)
    # (what is there, and may not be read, is not skipped)
    write(repository / "objects" / "info" / "alternates", os.fsencode(f"{room}/good\n{room}/locked\n"))
    why = f"{room}/locked/info/alternates: {LOCKED}"
    yield fails("an alternate that may not be read", why, "find", "4b", cwd=repository, around=POWERLESS)


def lent(room):
    """The locations of an object in a store and its alternates, in their order and as their paths are printed."""
    main, quoted, third = (room / name / "objects" for name in ("main", 'a "b"', "third"))
    for objects in (main, quoted, third):
        add_objects(objects, [made.BOTH])
    for objects, offsets in (main, ()), (quoted, (12, 0x1_0000_000C)):
        add_pack(objects, "pack-1", plain_index([made.PACKED, made.BOTH], offsets))
    write(main / "info" / "alternates", rb'"../../a \"b\"/objects"')
    write(quoted / "info" / "alternates", b"# none\n\n../../main/objects\n../../third/objects\n../../third/../third/objects\n")
    packed = [f"{made.BOTH} main/objects/pack/pack-1.pack 3073", f"{made.BOTH} {quoted}/pack/pack-1.pack 4294967308"]
    loose = [f"{made.BOTH} {objects}/4b/{made.BOTH[2:]}" for objects in ("main/objects", quoted, third)]
    yield prints("locate over alternates", packed + loose, "locate", "4b9", "--objects", "main/objects", cwd=room)
    env = {"GIT_OBJECT_DIRECTORY": "main/objects", "GIT_ALTERNATE_OBJECT_DIRECTORIES": "third/objects"}
    yield prints("alternates of the environment first", [*packed, loose[0], loose[2], loose[1]], "locate", "4b9", cwd=room, env=env)
    odd = room / "\udcff"
    add_objects(odd / "objects", [made.BOTH])
    write(odd / "objects" / "info" / "alternates", b".\n../objects\n")
    name, lines = "an alternate that is its own, in a directory that is not UTF-8", [f"{made.BOTH} objects/4b/{made.BOTH[2:]}"]
    yield prints(name, lines, "locate", "4b9", "--objects", "objects", cwd=odd)


def chained(room):
    """Alternates of alternates, of the own directory and of the environment's, each of them once, and one that is nested too deep; two
    errors of one text, which is printed once; and alternates' pack indexes that are none, or whose names are not UTF-8."""
    ids = [f"{level:039x}a" for level in range(8)]
    for level, id in enumerate(ids):
        add_objects(room / str(level), [id])
        write(room / str(level) / "info" / "alternates", f"../{level + 1}\n../{level + 1}\n../0\n../{level}\n".encode())
    write(room / "0" / "info" / "alternates", b"../\xff\n../gone\n../1\n../\xfe\n")
    add_pack(room / "3", "x", b"")
    for level in "34":
        write(room / level / "pack" / "\udcff.idx")
    unnamed = [f"{level}/pack: the name of a pack index is not UTF-8" for level in "34"]
    add_repository(room / "bare")
    for name, deep in ("GIT_OBJECT_DIRECTORY", 7), ("GIT_ALTERNATE_OBJECT_DIRECTORIES", 6):
        env = {name: str(room / "0")}
        texts = ["0/info/alternates: a path is not UTF-8", f"0/../gone: {NO_FILE}", f"{deep - 1}/../{deep}: nested more than 5 deep"]
        errors = "".join(error_of(f"{room}/{text}, skipped") for text in [*texts, *unnamed, f"3/pack/x.idx: {TOO_FEW}"])
        if listed(room / "bare", env) != ids[:deep]:
            raise ValueError(f"git lists other ids with ${name}")
        yield finds(f"alternates of alternates, ${name}", ids[:deep], errors=errors, cwd=room / "bare", env=env)


def many_alternates(room):
    """Alternates of which the paths of some begin those of others, in both orders, in a list and in the environment."""
    bare, ids = room / "bare", [f"4b{number:038x}" for number in range(1100)]
    add_repository(bare)
    for number, id in enumerate(ids):
        add_objects(room / str(number), [id])
    for order in ("first", "last"):
        paths = [f"{room}/{number}" for number in range(len(ids))][:: 1 if order == "first" else -1]
        write(bare / "objects" / "info" / "alternates", "\n".join(paths).encode())
        yield prints(f"{len(ids)} alternates, the {order} one first", ids, "find", "4b", cwd=bare)
        (bare / "objects" / "info" / "alternates").unlink()
        env = {"GIT_ALTERNATE_OBJECT_DIRECTORIES": ":".join(paths)}
        yield prints(f"{len(ids)} alternates of the environment, the {order} one first", ids, "find", "4b", cwd=bare, env=env)


def missing_alternates(room):
    """Many alternates that are missing, the last name first: each is said once, in a time that does not grow with the square of their
    number."""
    add_repository(room, loose=[made.LOOSE])
    names = [f"{number:05}" for number in reversed(range(80_000))]
    write(room / "objects" / "info" / "alternates", "".join(f"{room}/{name}\n" for name in [*names, *names[:9]]).encode())
    errors = "".join(error_of(f"{room}/{name}: {NO_FILE}, skipped") for name in names)
    how = {"cwd": room, "limits": [f"--cpu={SECONDS}"]}
    yield prints(f"{len(names)} missing alternates in {SECONDS} s", [made.LOOSE], "find", "4b", errors=errors, status=2, **how)


CASES = [missing_alternates, odd_lines, lent, chained, many_alternates]
