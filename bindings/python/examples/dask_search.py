# SPDX-License-Identifier: Apache-2.0
"""A folder of 64 CSV files, each with an index beside it: Dask's workers look into the files by a filter, read the zones that may
match, and sum by town. pandas, over all rows, gets the same sums.

The indexes are made by the program `zone_map`: its path is the script's argument, or the one of a clone.
"""

import random
import subprocess
import sys
import tempfile
from pathlib import Path

import pandas
from distributed import Client, LocalCluster

import doqallin

FILES, ROWS, WANTED = 64, 5_000, "fare >= 95 and day between '2026-02-01' and '2026-02-07'"
TOWNS = ["Oslo", "Bergen", "Moss", "Hamar"]
HERE = Path(__file__).resolve()


def write_files(folder: Path) -> None:
    """Trips by day, so that each file has some days."""
    chance = random.Random(64)
    for number in range(FILES):
        days = [f"2026-{1 + number * 3 // FILES:02}-{1 + (number * ROWS + row) * 28 * 3 // (FILES * ROWS) % 28:02}" for row in range(ROWS)]
        rows = [f"{day},{chance.choice(TOWNS)},{chance.randrange(10000) / 100}\n" for day in days]
        (folder / f"trips{number:02}.csv").write_text("".join(rows), encoding="utf-8")


def sums(path: str) -> dict[str, float]:
    """The fares by town of the rows that match in one file, and how many zones were read."""
    with doqallin.open(path) as trips:
        found = trips.find(WANTED, columns=["town", "fare"]).to_pydict()
        sums: dict[str, float] = {"zones": sum(zone.way != "skip" for zone in trips.plan(WANTED))}
    for town, fare in zip(found["town"], found["fare"]):
        sums[town] = sums.get(town, 0.0) + fare
    return sums


def main() -> None:
    program = sys.argv[1] if len(sys.argv) > 1 else str(HERE.parents[3] / "zone_map")
    with tempfile.TemporaryDirectory() as name, LocalCluster(n_workers=2, threads_per_worker=1, dashboard_address=None) as cluster, Client(cluster) as client:
        folder = Path(name)
        write_files(folder)
        paths = sorted(str(path) for path in folder.glob("*.csv"))
        for path in paths:
            subprocess.run([program, "index", path, "--columns", "day date, town utf8, fare f64", "--rows", "500"], check=True, stdout=subprocess.DEVNULL)
        parts = client.gather(client.map(sums, paths))
        zones = sum(part.pop("zones") for part in parts)
        print(f"{zones:.0f} of {FILES * ROWS // 500} zones are read")
        found = {town: round(sum(part.get(town, 0.0) for part in parts), 2) for town in TOWNS}
        whole = pandas.concat(pandas.read_csv(path, names=["day", "town", "fare"]) for path in paths)
        wanted = whole[(whole.fare >= 95) & (whole.day >= "2026-02-01") & (whole.day <= "2026-02-07")]
        assert found == {town: round(float(wanted[wanted.town == town].fare.sum()), 2) for town in TOWNS}
        print("the sums by town are those of pandas, too")


if __name__ == "__main__":
    main()
