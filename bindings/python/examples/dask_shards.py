"""Queries of documents on a Dask cluster. The workers map the shards, so a query sends only file names and a path.

    apt-get install python3-distributed
    python3 dask_shards.py [DOCUMENTS] [SHARDS] [WORKERS..]     prints rows per second for each number of workers
"""

import collections
import functools
import heapq
import random
import sys
import tempfile
import time

from jsonb_paths import Column, dumps
from jsonb_paths.shards import read_shard, write_shards


@functools.lru_cache(maxsize=None)
def column_of(file):
    """The column of a file, which a worker maps once."""
    return read_shard(file)


def count(file, path):
    """The number of rows of a shard for which a predicate is true. Rows that are errors do not count."""
    return column_of(file).match(path, errors={}).true_count


def filtered(file, path):
    """The rows of a shard for which a predicate is true."""
    column = column_of(file)
    return column.filter(column.match(path, errors={}))


def in_order(file, path, by):
    """The rows of a shard for which a predicate is true, sorted by the sortable key of an item, and these keys: two columns."""
    found = filtered(file, path)
    keys = [key or b"" for key in found.get(by).sort_keys(errors={})]
    order = sorted(range(len(keys)), key=keys.__getitem__)
    return Column(keys[it] for it in order), Column(found[it] for it in order)


def groups(file, by):
    """The number of rows of a shard by the value of an item: by its equality key, since 1 and 1.0 are equal."""
    return collections.Counter(column_of(file).get(by).equality_keys(errors={}))


def count_all(client, files, path):
    return sum(client.gather(client.map(count, files, path=path, pure=False)))


def filter_all(client, files, path):
    return client.gather(client.map(filtered, files, path=path, pure=False))


def sort_all(client, files, path, by):
    """All documents for which a predicate is true, sorted by the value at a key path."""
    parts = client.gather(client.map(in_order, files, path=path, by=by, pure=False))
    return [document for _, document in heapq.merge(*(zip(*it) for it in parts), key=lambda pair: pair[0])]


def group_all(client, files, by):
    return sum(client.gather(client.map(groups, files, by=by, pure=False)), collections.Counter())


def some_documents(count):
    source = random.Random(1)
    return [dumps({"age": source.randrange(100), "name": f"n{it}", "note": "x" * 120}) for it in range(count)]


def rows_per_second(call, rows, times=5):
    call()
    took = []
    for _ in range(times):
        start = time.perf_counter()
        call()
        took.append(time.perf_counter() - start)
    return rows / min(took)


def main():
    from distributed import Client, LocalCluster

    rows, shards, *workers = [int(it) for it in sys.argv[1:]] or [100_000, 8, 1, 2, 4]
    with tempfile.TemporaryDirectory() as folder:
        files = write_shards(Column(some_documents(rows)), folder, shards)
        for number in workers:
            with LocalCluster(n_workers=number, threads_per_worker=1, dashboard_address=None) as cluster, Client(cluster) as client:
                for name, call in {
                    "counts": lambda: count_all(client, files, "$.age < 50"),
                    "rows back": lambda: filter_all(client, files, "$.age < 50"),
                    "sorted": lambda: sort_all(client, files, "$.age < 50", "{age}"),
                    "groups": lambda: group_all(client, files, "{age}"),
                }.items():
                    print(f"{number} workers, {name}: {rows_per_second(call, rows):,.0f} rows per second")


if __name__ == "__main__":
    main()
