import argparse
import pathlib
import sys

from gix_hash import Error, PackIndex, Prefix

words = argparse.ArgumentParser(description="Prints the offset and the abbreviation of each id that begins with a prefix.")
words.add_argument("index", type=pathlib.Path)
words.add_argument("prefix")
given = words.parse_args()
try:
    index = PackIndex.of_any_kind(given.index.read_bytes())
    found = index.find(Prefix(given.prefix))
    for at in found:
        print(index[at].offset, str(index[at].id)[: index.abbreviate(at)])
except (OSError, Error) as error:
    words.error(str(error))
sys.exit(0 if found else 1)
