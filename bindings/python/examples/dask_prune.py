# SPDX-License-Identifier: Apache-2.0
"""Partitions on several processes of Dask: statistics where the rows are, merged by a tree, and partitions that are not read.

It needs `distributed` (Debian: python3-distributed), and says so where that is missing.
"""

import logging
import random
import sys
import tempfile
from array import array
from pathlib import Path

from doqallin import Filter, columns, statistics

PARTITIONS, ROWS, PROCESSES = 32, 10_000, 4
SCHEMA = {"time": "i64", "fare": "u16"}
WANTED = "time between 12000 and 20000 and fare >= 4990"


def write(folder, number):
    """A partition's file: its times, which rise from one to the next, and then its fares."""
    source = random.Random(number)
    with open(Path(folder) / f"{number}.bin", "wb") as file:
        array("q", (number * 1_000 + source.randrange(2_000) for _ in range(ROWS))).tofile(file)
        array("H", (source.randrange(300, 5_000) for _ in range(ROWS))).tofile(file)


def partition(folder, number):
    data = memoryview((Path(folder) / f"{number}.bin").read_bytes())
    return columns({"time": data[: 8 * ROWS].cast("q"), "fare": data[8 * ROWS :].cast("H")})


def known(folder, number):
    """The statistics of a partition, which go back in place of its rows."""
    return statistics(partition(folder, number))


def merged(one, other):
    return {name: one[name] | other[name] for name in one}


def count(folder, number):
    """How many rows of a partition match."""
    return sum(Filter(WANTED, SCHEMA).mask(partition(folder, number)))


def tree(client, parts):
    """All parts merged, two by two: as many steps as the parts have halves."""
    while len(parts) > 1:
        pairs = [client.submit(merged, one, other) for one, other in zip(parts[::2], parts[1::2])]
        parts = pairs + parts[len(parts) - len(parts) % 2 :]
    return parts[0].result()


def run(client, folder):
    client.gather(client.map(lambda number: write(folder, number), range(PARTITIONS)))
    each = client.map(lambda number: known(folder, number), range(PARTITIONS))
    for name, whole in tree(client, each).items():
        print(f"{name}: {whole}")
    left = Filter(WANTED, SCHEMA).prune(client.gather(each))
    print(f"{len(left)} of {PARTITIONS} partitions are read")
    rows = sum(client.gather(client.map(lambda number: count(folder, number), left)))
    everywhere = sum(client.gather(client.map(lambda number: count(folder, number), range(PARTITIONS))))
    assert rows == everywhere
    print(f"{rows} rows match, with all partitions too")


def main():
    try:
        from distributed import Client, LocalCluster
    except ImportError:
        print("this example needs distributed, which is not installed", file=sys.stderr)
        return 2
    with tempfile.TemporaryDirectory() as folder:
        processes = LocalCluster(n_workers=PROCESSES, threads_per_worker=1, processes=True, dashboard_address=":0", silence_logs=logging.CRITICAL)
        with processes as cluster, Client(cluster) as client:
            run(client, folder)
    return 0


if __name__ == "__main__":
    sys.exit(main())
