"""Uses of gix_hash by a program with types, which `mypy --strict` checks. A line with `type: ignore` is a use that it must reject."""

import hashlib
import mmap
from functools import partial
from pathlib import Path
from typing import Dict, List, Optional, Tuple

from gix_hash import (
    Ambiguous, Code, Entry, Error, Hasher, Id, Kind, Location, Missing, ObjectType, PackIndex, Prefix, SortedDigests, Store,
)  # fmt: skip


def read(text: str) -> Tuple[Optional[Id], Optional[Code], int]:
    try:
        return Id(text), None, 0
    except Error as error:
        return None, error.code, error.detail


def digests(path: Path) -> List[Id]:
    hasher = Hasher.for_object("sha1", ObjectType.BLOB, path.stat().st_size)
    with path.open("rb") as file, mmap.mmap(file.fileno(), 0, access=mmap.ACCESS_READ) as mapped:
        hasher.update(mapped)
        ids = [hasher.copy().id(), Id.of_object(Kind.SHA1, "blob", mapped), Id.digest("sha256", memoryview(mapped))]
    Id.digest("sha1", "a text")  # type: ignore[arg-type]
    Id.digest("md5", b"")  # type: ignore[arg-type]
    Id(b"a digest")  # type: ignore[arg-type]
    make = partial(Hasher, Kind.SHA1)
    return [*ids, Id.from_bytes(make(b"").digest()), Id.from_bytes(hashlib.sha1(b"").digest()), Id.null("sha256")]


def tables(index: PackIndex, table: SortedDigests) -> Dict[Id, int]:
    first: Entry = index[0]
    some: List[Entry] = index[1:3]
    id: Id = table[0]
    prefix = Prefix(f"{id:.7}")
    index.find(7)  # type: ignore[arg-type]
    found = {index[at].id: index[at].offset for at in index.find(prefix)}
    return found if prefix.cmp(id) == 0 and id in index and "4b" in index and "4b" in table else {it.id: it.crc for it in [first, *some]}


def stores(path: Path, prefixes: List[str]) -> Dict[str, List[Location]]:
    with Store(path, "sha1") as store:
        ids: List[Id] = sorted(store)
        names: Dict[Id, str] = {id: name for name, id in store.abbreviations(least=7)}
        found = {prefix: store.locate(ids[0]) for prefix, ids in store.find_many(prefixes) if ids}
        try:
            names[store.resolve("4b82")] = store.abbreviate(str(ids[0]), least=7)
        except Ambiguous as error:
            ids += error.ids
        except Missing as error:
            print(error, store.skipped, store.kind is Kind.SHA1)
        offset: Optional[int] = found["4b82"][0].offset
        store.abbreviate(0x4B82)  # type: ignore[arg-type]
        return found if offset is None else {}
