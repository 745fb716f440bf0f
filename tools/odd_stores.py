"""Odd stores that tools/odd makes at random: repositories, configs, environments, objects directories and alternates, right ones,
some that nobody would make, and broken ones. Loose objects are empty files and pack indexes are made by hand: of both
nothing is read but the names. Git makes multi-pack-indexes of these, some of which are changed then."""

import os
import shutil
from contextlib import suppress

import probe
from edges import SPARSE
from gitstore import DIGITS, SHA256, add_repository, changed, pack_index, version_1
from many_packs import clear, cuts, links, size_of_tables
from multi import multi_of

# Of each kind of ids the other one.
OTHER = {"sha1": "sha256", "sha256": "sha1"}
# The words of a config: each is chosen at random, some oftener.
SECTIONS = ["[core]"] * 6 + ["[extensions]"] * 6
SECTIONS += ["[CORE]", "[Extensions]", "[a]", "[core.x]", '[core "x"]', '[a "b\\"]#"]', '[a\t"\\b"]', "[core]\r"]
SECTIONS += ["[]", "[ core]", "[core", "[core ]", "[core]x=y", '[extensions "noop"]', "[a_b]", "[.]", '[a "b" ]', '[a "b']
SECTIONS += ['[a\r"b"]', '[ "a"]', '[extensions "objectformat\0"]', '[core "\0"]', '[extensions "a"]', '[core "extensions"]']
SECTIONS += ["[core\n]", '[a "b"\n]', '[a "b"\r]', '[a "b\\\n"]', "[ extensions ]"]
VERSIONS = ["0"] * 6 + ["1"] * 6
VERSIONS += ["2", "-1", "0x1", "0X0", "01", "08", "+1", "-0", "1k", "0k", "0g", "1 k", '"1"', '"1 "', '" 1"', "1 ; x", "1#"]
VERSIONS += ["\\t1", "1\\n", "1\\\n", "\\\n1", "0x", "2147483648", "-2147483649", "0xg", "1\0x", "\0", '1"', "1\\x", "1\t", "1.0"]
VERSIONS += ["3m", "9m", "x", "", "1K", "010", "0Xa", "1023m", "-1g", "-2", "+01", "1 2", "2g", "k", "1kb", "+-1", "0x+1", "2147483648"]
VERSIONS += ["-2147483648"]
KINDS = ["sha256"] * 6 + ["sha1"] * 3
KINDS += ["SHA256", "sha512", "", '"sha256"', "sha2\\\n56", "sha256 # x", "sha256\0x", "sha256\\n", 'sha"2"56', '"sha256 "']
KINDS += ["SHA1", '"sha256#"', "\\\n sha2\\\n56"]
BOOLS = ["true", "false", "yes", "on", "", "TRUE", "0", "1k", "no", "refs", "2x", '"off"', "truex", "\0", "ON", "-0x1K"]
KEYS = ["repositoryformatversion", "objectformat", "noop", "noop-v1", "worktreeConfig", "preciousObjects", "partialclone"]
KEYS += ["foo", "bare", "x-1", "a_b", "1"]
JUNK = ["", "\n", "# [x]", "; a=b", "  ", "= x", "x", "x ; y", "x = \\x", 'x = "a\nb"', "x = a\\", "\0", "\ufeff", "\f", "x\f= 1"]
JUNK += ['X9=\\"\\\\\\t', "\r", "x\0 = 1", "name = J\udcf6rg", "b=\\r", '[a]b="\\n\\b;\\\\"', 'b="c\r\n"']
# Texts with which a config ends, within a header, a value or quotation marks.
LAST = ["[a", "[a\r\n", "[a ", "[a \n\n", '[a "b', '[a "b"', '[a "b"\n', '[a "b"\r\n', '[a]\nb="c', '[a]\nb="c\\', '[a]\nb="c\\\n', "x = \\"]
# What lists of alternates are made of, and the letters of names that directories have.
PIECES = ["x", "y", '"', "\\", "#", " ", ":", "\n", "\r", "\0", '"x', 'y"', '"x"\n', '"y" ', '\\"', "\\\\", "\\170", "\\x", "\\n", "\\r", "\\400", "\\08"]
PIECES += ["\\a", "\\b", "\\t", "\\v", "\\f", "\\e", "\\000", '"\\000"', "\n#", "\n\n", ":#", "::"]
LETTERS = 'xy"\\# :\n\r\t\a\b\v\f'
# Names of what is no loose object, beside those of the other kind.
NO_OBJECTS = ["tmp_obj_f0K1Cz", "x", ".", "g" * 38, "0" * 37, "0" * 39, "0" * 37 + "G", "0" * 37 + ".", " " + "0" * 37]
NO_DIRECTORIES = ["0", "000", "4", "4g", "4B", "AA", "FF", "4b ", "-1", "\u00e9"]
PACK_FILES = ["x.keep", "x.promisor", "x.rev", "x.bitmap", "x.mtimes", "tmp_idx_x", "tmp_pack_x", "x.idx.lock", "x.IDX", "idx"]
PACK_FILES += ["multi-pack-index~", "pack-1.idx~"]
# What becomes of a multi-pack-index that git has written, and of its packs; after the first ones git finds all of their objects by it.
SOUND = ["kept", "a link", "a relative link", "a pack more"]
FORMS = ["kept"] * 4 + SOUND + ["a pack more", "a pack less", "a pack less", "a byte changed", "a byte changed", "cut", "of the other kind"]
FORMS += ["a directory", "a dangling link", "a link to itself", "a pipe", "a sparse file that goes on", "a sparse file of zeros"]
# Those of which all that packtool reads may be as git wrote it.
PARTLY = ["a byte changed", "cut", "a sparse file that goes on"]


def chance(rng, share):
    """Whether something happens that does so this often."""
    return rng.randrange(1000) >= 1000 - 1000 * share


def config(rng, plain=0.5):
    """The text of a config, this often a plain one."""
    if chance(rng, plain):
        kind, version = rng.choice(["sha1", "sha256"]), rng.choice("11110")
        text = f"[core]\n\trepositoryformatversion = {version}\n"
        return text + (f"[extensions]\n\tobjectformat = {kind}\n" if version == "1" else "")
    if chance(rng, 0.5):
        version = rng.choice(VERSIONS if chance(rng, 0.5) else "1110")
        section = rng.choice(["[extensions]"] * 8 + ['[extensions "a"]', "[core]"])
        variables = [f"objectformat={rng.choice(KINDS)}"] if chance(rng, 0.7) else []
        variables += [variable(rng, KEYS) for _ in range(rng.choice([0, 0, 1, 2]))]
        return "\n".join([f"[core]\nrepositoryformatversion={version}", section, *variables, ""])
    lines = ["\ufeff"] if chance(rng, 0.1) else []
    for _ in range(rng.randrange(6)):
        lines.append(rng.choice(SECTIONS[:12] if chance(rng, 0.7) else SECTIONS))
        lines += [variable(rng) if chance(rng, 0.9) else rng.choice(JUNK) for _ in range(rng.randrange(4))]
    ends = ["\n", "\r\n", "\n\n", " ", "\n\t", "\r"] if chance(rng, 0.2) else ["\n"]
    text = "".join(line + rng.choice(ends) for line in lines)
    return text + rng.choice(LAST) if chance(rng, 0.2) else text.rstrip("\n") if chance(rng, 0.1) else text


def variable(rng, keys=KEYS[:2] * 4 + KEYS):
    """A line of a config."""
    key = rng.choice(keys)
    values = {"repositoryformatversion": VERSIONS, "objectformat": KINDS, "bare": BOOLS}
    values |= {"worktreeConfig": BOOLS, "preciousObjects": BOOLS}
    value = rng.choice(values.get(key, ["x", "", '"a;b"', "a # b"]))
    spelled = rng.choice([key, key, key.upper(), key.title()])
    # (Git 2.39 crashes of `partialclone` without a value)
    if chance(rng, 0.05) and key != "partialclone":
        return spelled
    return f"{spelled}{rng.choice(['=', ' = ', chr(9) + '=', ' ='])}{value}"


def quoted(rng, path):
    """A path in quotation marks, with some bytes as octal digits."""
    letters = {7: "\\a", 9: "\\t", 10: "\\n", 34: '\\"', 92: "\\\\"}
    spell = lambda byte: f"\\{byte:03o}" if byte > 126 or chance(rng, 0.1) else letters.get(byte, chr(byte))  # noqa: E731
    return '"' + "".join(spell(byte) for byte in os.fsencode(path)) + '"' + ("x" if chance(rng, 0.05) else "")


def spelled(rng, path, start):
    """A way of writing the path of a directory, from another directory."""
    text = str(path) if chance(rng, 0.4) else os.path.relpath(path, start)
    for old, new in [("/", "//"), ("/", "/./"), ("/objects", "/info/../objects")]:
        text = text.replace(old, new, 1) if chance(rng, 0.1) and not text.startswith("/") else text
    return text + ("/" if chance(rng, 0.1) else "")


def list_of_alternates(rng, end):
    """A list of alternates by short names, each before this end but the last. (The environment has no NUL.)"""
    parts = ["".join(rng.choices(PIECES, k=rng.randrange(1, 4))) for _ in range(rng.randrange(1, 4))]
    return end.join(parts) if end == "\n" else end.join(parts).replace("\0", "")


class Oddity:
    """A store in a directory, where a program looks for it, and in which environment."""

    def __init__(self, rng, room):
        self.rng, self.room = rng, room
        # Where the program runs, what its environment has, what nobody may read, and in which directories nobody may look at
        # files.
        self.cwd, self.env, self.locked, self.unsearched = room, {}, [], []
        # The top of its worktree, or of the repository, if that is bare.
        self.top = room
        # The directories of objects that were made, and the ids that may be in them.
        self.objects, self.ids = [], []
        # The multi-pack-indexes that git has written, by their directories of objects; whether git is told to read none of them, since it
        # would miss objects; and whether packtool may open few files.
        self.multis, self.is_unsound, self.has_few = {}, False, False
        # Whether nothing leads to it from outside, since its path is not UTF-8, as paths of packtool are.
        self.is_alone = False

    def write(self, path, content=b""):
        """Writes a file, unless there is something of this name, or a file in place of its directory."""
        with suppress(FileExistsError, NotADirectoryError):
            path.parent.mkdir(parents=True, exist_ok=True)
            if not path.is_symlink() and not path.exists():
                path.write_bytes(os.fsencode(content) if isinstance(content, str) else content)

    def head(self):
        """The text of a `HEAD`, mostly a right one."""
        rng = self.rng
        right = ["ref: refs/heads/main\n", "ref:refs/x", "ref: \t\n refs/", "0123456789abcdefABCD" * 2, "f" * 64 + "\n", "f" * 41]
        wrong = ["ref: heads/main\n", "f" * 39, "", "x", "ref:", "ref: \frefs/x", " ref: refs/x", "g" * 40, "REF: refs/x"]
        wrong += ["ref: Refs/x", "ref:" + " " * 300 + "refs/x"]
        return rng.choice(wrong if chance(rng, 0.15) else right)

    def repository(self, directory, text=None, lacks=0.03):
        """Makes a directory a repository, or something like it, which lacks each of its parts this often."""
        rng = self.rng
        if chance(rng, 0.1):
            self.write(directory / "x")
            (directory / "HEAD").symlink_to(rng.choice(["refs/heads/main", "refs/", "main", "/refs/x", "../HEAD"]))
        elif not chance(rng, lacks):
            self.write(directory / "HEAD", self.head())
        if chance(rng, 0.04) and not (directory / "objects").exists():
            (self.room / "far").mkdir(exist_ok=True)
            directory.mkdir(parents=True, exist_ok=True)
            (directory / "objects").symlink_to(self.room / "far")
        elif not chance(rng, lacks):
            (directory / "objects").mkdir(parents=True, exist_ok=True)
        for name in ("refs", "objects"):
            if chance(rng, 0.03):
                self.write(directory / name)
        if not chance(rng, lacks):
            self.write(directory / "refs" / "none")
        if not chance(rng, 0.1):
            self.write(directory / "config", config(rng) if text is None else text)
        if chance(rng, 0.05):
            self.write(directory / "config.worktree", SHA256)
        self.objects.append(directory / "objects")

    def link(self, at, target):
        """Makes a file `.git` that names a repository."""
        rng = self.rng
        begin = rng.choice(["gitdir: "] * 12 + ["gitdir:", "gitdir:\t", "Gitdir: ", " gitdir: ", ""])
        end = rng.choice(["\n", "", "\r\n", "\n\n", "\r\r\n\n"] * 3 + [" \n", "\nx"])
        self.write(at, begin + spelled(rng, target, at.parent) + end)

    def make(self):
        """Makes the repository, in one of many ways, and chooses where the program runs, and in which environment."""
        rng = self.rng
        top = self.room / rng.choice(["r", "r s", "r\u00e9", "a\\b", 'q"', "c:d", "r\udcff"])
        self.top, self.is_alone = top, "\udcff" in top.name
        form = rng.choice(["worktree", "bare"] if self.is_alone else ["worktree", "bare", "linked", "file", "symlink", "nested"])
        inner = top if form == "bare" else top / ".git"
        if form in ("file", "linked", "symlink"):
            inner = self.room / "elsewhere" / rng.choice(["x.git", ".git"])
        top.mkdir()
        self.repository(inner)
        gitdir = inner
        if form == "linked":
            gitdir = inner / "worktrees" / "w"
            self.write(gitdir / "HEAD", self.head())
            end = rng.choice(["\n", "", "\r\n", "\n\n", " \n"])
            common = rng.choice([spelled(rng, inner, gitdir) + end] * 8 + ["\n", ""])
            self.write(gitdir / "commondir", common)
            self.write(gitdir / "config", config(rng)) if chance(rng, 0.3) else None
        if form == "symlink":
            (top / ".git").symlink_to(spelled(rng, inner, top).rstrip("/"))
        elif form in ("file", "linked"):
            self.link(top / ".git", gitdir)
        if form == "worktree" and chance(rng, 0.15):
            self.repository(top)
        below = [top / "d", top / "d/e/f/g/h/i"] + ([inner, inner / "refs", inner / "info", top, top, top] if form != "nested" else [])
        self.cwd = rng.choice(below)
        with suppress(FileExistsError):
            self.cwd.mkdir(parents=True, exist_ok=True)
        self.cwd = self.cwd if self.cwd.is_dir() else top
        if form == "nested":
            self.repository(rng.choice([top / "d", top / "d/.git", top / "d/e/.git"]), lacks=0.15)
        # Where a bare repository is found above, Git reads its config by a relative $GIT_COMMON_DIR from the top, and its
        # objects from the current directory.
        is_bare = form == "nested" or top / "objects" in self.objects
        is_worktree = not is_bare and inner not in [self.cwd, *self.cwd.parents]
        if not self.is_alone:
            self.environment(gitdir, is_worktree)

    def environment(self, gitdir, is_worktree):
        """Sets variables of the environment."""
        rng = self.rng
        cwd = self.cwd
        if chance(rng, 0.2):
            self.env["GIT_DIR"] = rng.choice([spelled(rng, gitdir, cwd)] * 6 + ["", "none", ".git", "."])
        if chance(rng, 0.2):
            other = self.room / "common"
            self.repository(other)
            path = spelled(rng, other, rng.choice([cwd, self.top])) if is_worktree else str(other)
            self.env["GIT_COMMON_DIR"] = rng.choice([path] * 4 + ["", "none", str(gitdir)])
        if chance(rng, 0.15):
            other = self.room / "other" / rng.choice(["objects", "o"])
            other.mkdir(parents=True)
            self.objects.append(other)
            paths = [spelled(rng, other, start) for start in (cwd, self.top)]
            self.env["GIT_OBJECT_DIRECTORY"] = rng.choice([str(other)] * 4 + paths * 2 + ["", "none"])
            # (the repository then needs no objects of its own)
            shutil.rmtree(gitdir / "objects", ignore_errors=True) if chance(rng, 0.3) else None
        others = {"GIT_CEILING_DIRECTORIES": "/none", "GIT_DEFAULT_HASH": "sha256", "GIT_NAMESPACE": "x"}
        self.env |= {name: value for name, value in others.items() if chance(rng, 0.03)}

    def clustered(self, kind):
        """Ids of a kind, many of which share their first digits, and of one first byte."""
        rng, ids = self.rng, []
        for _ in range(rng.randrange(1, 40) if chance(rng, 0.98) else 600):
            begin = rng.choice(ids)[: rng.choice([2, 2, 4, 5, 8, 20, 39])] if ids and (chance(rng, 0.6) or len(ids) > 40) else ""
            ids.append(begin + "".join(rng.choices("0123456789abcdef", k=DIGITS[kind] - len(begin))))
        ids += rng.choices(["0" * DIGITS[kind], "f" * DIGITS[kind]], k=rng.randrange(2))
        return list(dict.fromkeys(ids))

    def fill(self, kind):
        """Puts objects into all directories of objects, and links them to each other."""
        rng = self.rng
        self.ids = self.clustered(kind)
        chain = [self.room / "lent" / str(number) for number in range(0 if self.is_alone else rng.choice([0, 0, 1, 2, 3, 9]))]
        self.objects += [path / "objects" for path in chain]
        for path in chain:
            (path / "objects").mkdir(parents=True)
        # (two paths may lead to one directory)
        for directory in dict.fromkeys(path.resolve() for path in self.objects if path.is_dir()):
            self.loose(directory, kind)
            self.packs(directory, kind)
            self.multi(directory, kind)
        self.has_few = chance(rng, 0.1)
        for at, directory in enumerate(self.objects):
            if directory.is_dir() and not self.is_alone and chance(rng, 0.9 if directory.parent in chain else 0.4):
                later = [path for path in self.objects[at + 1 :] if path.parent in chain][:1] if chance(rng, 0.8) else []
                self.write(directory / "info" / "alternates", self.alternates(directory, later))
        if chance(rng, 0.1):
            listed = rng.choice(self.objects) / "info" / "alternates"
            if listed.is_file():
                listed.unlink()
                file = lambda: (listed.parent.rmdir(), listed.parent.write_bytes(b""))  # noqa: E731
                rng.choice([listed.mkdir, lambda: listed.symlink_to("none"), file])()
        if not self.is_alone and chance(rng, 0.4):
            start = rng.choice([self.cwd, self.top])
            paths = [self.alternate(start, rng.choice(self.objects)) for _ in range(rng.choice([1, 2, 12]))]
            # (which no variable of the environment can have)
            self.env["GIT_ALTERNATE_OBJECT_DIRECTORIES"] = ":".join(paths).replace("\0", "")
        self.lock()

    def loose(self, directory, kind):
        """Makes loose objects in a directory, and what looks like them."""
        rng = self.rng
        for id in rng.sample(self.ids, rng.randrange(len(self.ids) + 1)):
            self.write(directory / id[:2] / id[2:])
        for _ in range(rng.choice([0, 0, 1, 3])):
            id = rng.choice(self.ids)
            part = directory / id[:2]
            part.mkdir(exist_ok=True)
            others = [id[2:] + "0", id[2:-1], id[2:].upper(), id, rng.choice("0f") * (DIGITS[OTHER[kind]] - 2)]
            other = rng.choice([*NO_OBJECTS, *others])
            if chance(rng, 0.1):
                with suppress(FileExistsError):
                    (part / id[2:]).mkdir()
            elif chance(rng, 0.2) and not os.path.lexists(part / other):
                (part / other).symlink_to(rng.choice(["none", "../info", id[2:]]))
            else:
                self.write(part / other) if other != "." else None
        for name in rng.sample(NO_DIRECTORIES, rng.choice([0, 0, 1, 2])):
            self.write(directory / name / rng.choice(self.ids)[2:])
        file, link = rng.sample([path for path in (directory / f"{byte:02x}" for byte in range(256)) if not os.path.lexists(path)], 2)
        if chance(rng, 0.04):
            self.write(file)
        if chance(rng, 0.1):
            link.symlink_to(rng.choice(["none", "info", rng.choice(self.ids)[:2]]))

    def packs(self, directory, kind):
        """Makes packs in a directory, and what looks like them."""
        rng, pack = self.rng, directory / "pack"
        if chance(rng, 0.02):
            self.write(pack)
            return
        for number in range(rng.choice([0, 0, 1, 1, 2, 3])):
            names = [f"pack-{number}", f"pack-{rng.choice(self.ids)}", f"x{number}", "", " ", "pack-1.idx", "a\\b", "\u00e9"]
            name = rng.choice(names)
            ids = sorted(rng.sample(self.ids, rng.randrange(1, len(self.ids) + 1)))
            self.write(pack / f"{name}.idx", self.index(ids, kind))
            way = rng.choice(["pack"] * 9 + ["none", "directory", "link", "dangling"])
            target = pack / f"{name}.pack"
            if way == "pack":
                self.write(target)
            with suppress(FileExistsError):
                if way == "directory":
                    target.mkdir()
                elif way in ("link", "dangling"):
                    target.symlink_to("../../HEAD" if way == "link" else "none")
        for name in rng.sample(PACK_FILES, rng.choice([0, 0, 1, 3])):
            self.write(pack / name)
        if chance(rng, 0.03):
            self.write(pack / "lone.pack")
            (pack / "lone.idx").symlink_to("none")

    def multi(self, directory, kind):
        """Mostly lets git write a multi-pack-index, if a directory has several packs, and then changes it or its packs."""
        rng, place = self.rng, directory / "pack" / "multi-pack-index"
        indexes = [path for path in sorted(place.parent.glob("*.idx")) if path.is_file()]
        packs = [path for path in indexes if path.with_name(f"{path.name[:-4]}.pack").is_file()]
        if len(packs) < 2 or chance(rng, 0.1):
            return
        writer = self.room / "writer"
        add_repository(writer, kind)
        env = {"GIT_DIR": str(writer), "GIT_OBJECT_DIRECTORY": str(directory)}
        probe.ran("git", "-c", "core.fsync=none", "multi-pack-index", "write", cwd=writer, env=env)
        # (it writes none if it reads none of the pack indexes)
        if not place.is_file():
            return
        whole, form = place.read_bytes(), rng.choice(FORMS)
        # (of what is changed packtool may read what it needs, and then it reads no pack index that git alone reads. Tables have whole words)
        if form in PARTLY and any(len(path.read_bytes()) % 4 or path.read_bytes()[:1] == b"\0" for path in packs):
            form = "kept"
        self.multis[directory], self.is_unsound = whole, self.is_unsound or form not in SOUND
        kept = self.room / "kept" / f"{len(self.multis)}"
        self.write(kept, whole)
        if form == "a pack more":
            self.write(place.with_name("more.idx"), self.index(sorted(rng.sample(self.ids, 1)), kind))
            self.write(place.with_name("more.pack"))
        elif form == "a pack less":
            index = rng.choice([path for path in packs if path.name.encode() in whole])
            for path in rng.choice([[index], [index.with_name(f"{index.name[:-4]}.pack")]]):
                path.unlink()
        elif form != "kept":
            clear(place)
            self.put(place, form, whole, kept, kind, packs)

    def put(self, place, form, whole, kept, kind, packs):
        """Puts an odd form of a multi-pack-index of packs, which is kept elsewhere, into its place."""
        rng = self.rng
        if form.endswith("link") or form == "a link to itself":
            place.symlink_to(links(place, kept)[form])
        elif form == "a directory":
            place.mkdir()
        elif form == "a pipe":
            os.mkfifo(place)
        elif form == "a byte changed":
            at = rng.randrange(size_of_tables(whole))
            place.write_bytes(changed(whole, at, whole[at] ^ rng.choice([1, 128, 255])))
        elif form == "cut":
            place.write_bytes(whole[: rng.choice(cuts(whole))])
        elif form == "of the other kind":
            ids = sorted(bytes.fromhex(id.ljust(64, "0")[: DIGITS[OTHER[kind]]]) for id in self.ids)
            place.write_bytes(multi_of(OTHER[kind], ids, [os.fsencode(path.name) for path in packs]))
        else:
            place.write_bytes(whole if form.endswith("goes on") else b"")
            os.truncate(place, SPARSE)

    def index(self, ids, kind):
        """A pack index of ids, sometimes a bad one."""
        rng = self.rng
        rows = [(rng.randrange(12, 1 << 31), id, rng.getrandbits(32)) for id in ids]
        if chance(rng, 0.1) and len(rows) > 1:
            rows[0] = (rng.choice([1 << 32, 1 << 31, (1 << 63) - 1]), *rows[0][1:])
        whole = pack_index(rows)
        if not chance(rng, 0.15):
            return whole
        counts = [int.from_bytes(whole[at : at + 4], "big") for at in range(8, 1032, 4)]
        falls = [at for at in range(1, 256) if counts[at - 1]]
        ways = [whole[: rng.randrange(len(whole))], whole + b"\0", b"\0" + whole[1:], whole[:7] + b"\3" + whole[8:]]
        ways += [b"", pack_index([(*row[:1], row[1][:8].ljust(DIGITS[OTHER[kind]], "0"), 0) for row in rows])]
        if falls:
            at = 8 + 4 * rng.choice(falls)
            ways += [whole[:at] + bytes(4) + whole[at + 4 :]] * 2
        if kind == "sha1":
            ways += [version_1([(12, *row[1:]) for row in rows], bytes(20))]
        return rng.choice(ways)

    def alternate(self, directory, target):
        """A line of a list of alternates, of a directory that has it."""
        rng = self.rng
        path = spelled(rng, target, directory)
        odd = ["none", "/none/a", "../none/../none", "HEAD", ".", "", "#x", " ", f"{path}\r", f" {path}", '"x', "/", str(directory)]
        odd += ["../../HEAD", "info", f"{path}\0", f"{path}\0x", "\0", '"\\000x"', quoted(rng, path)[:-1] + '\\000x"']
        if chance(rng, 0.25):
            return rng.choice(odd)
        return quoted(rng, path) if chance(rng, 0.2) else path

    def alternates(self, directory, later):
        """A list of alternates of a directory, which has these."""
        rng = self.rng
        chosen = [*later, *rng.choices(self.objects, k=rng.choice([0, 0, 1, 2]))]
        rng.shuffle(chosen)
        lines = [str(target) if target in later and chance(rng, 0.7) else self.alternate(directory, target) for target in chosen]
        return "\n".join(lines) + rng.choice(["\n", "\n", "", "\n\n", "\n#"])

    def lock(self):
        """Takes from all the leave to read a directory or file, if anything."""
        rng = self.rng
        if not chance(rng, 0.1):
            return
        directory = rng.choice(self.objects)
        names = ("pack", "info/alternates", "[0-9a-f][0-9a-f]")
        found = [path for name in names for path in directory.glob(name)] if directory.is_dir() else []
        if found := [path for path in found if not path.is_symlink()]:
            self.locked.append(rng.choice(found).resolve())
            self.locked[0].chmod(0)
            # (a directory may be listed, and yet no file in it be looked at)
            if len(self.locked[0].name) == 2 and chance(rng, 0.5):
                self.unsearched.append(self.locked.pop())
                self.unsearched[0].chmod(0o400)

    def remove(self):
        """Removes the store."""
        for path in [*self.locked, *self.unsearched]:
            path.chmod(0o700)
        shutil.rmtree(self.room)
