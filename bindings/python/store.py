import sys

from gix_hash import Store

path, *prefixes = sys.argv[1:]
with Store(path) as store:
    for prefix, ids in store.find_many(prefixes):
        for id in ids:
            short = store.abbreviate(id, least=7)
            for place in store.locate(id):
                print(prefix, short, place.path, "" if place.offset is None else place.offset)
