# SPDX-License-Identifier: Apache-2.0
"""A million rows in a file, and what a filter need not read of them. It takes the folder to write to, or one of its own.

It goes step by step, as a notebook does. The plot needs matplotlib; without it there is none.
"""

import random
import sys
import tempfile
import time
from array import array
from pathlib import Path

from doqallin import Filter, Statistics, Zones, columns, statistics

ROWS, ZONE = 1_000_000, 10_000
folder = Path(sys.argv[1] if len(sys.argv) > 1 else tempfile.mkdtemp())
folder.mkdir(parents=True, exist_ok=True)
rides, index = folder / "rides.bin", folder / "rides.statistics"

# %% The file: zone after zone, the times of 10,000 rides and then their fares. Rides come by time; fares rise in the evenings.
source = random.Random(1)
times = array("q", (1_700_000_000 + row // 10 + source.randrange(60) for row in range(ROWS)))
fares = array("H", (source.randrange(300, 5_000) + 2_000 * (row // 40_000 % 5 == 4) for row in range(ROWS)))
with rides.open("wb") as file:
    for start in range(0, ROWS, ZONE):
        times[start : start + ZONE].tofile(file)
        fares[start : start + ZONE].tofile(file)
print(f"{rides.name} has {rides.stat().st_size:,} bytes in {ROWS // ZONE} zones")


# %% A zone is read back as two columns, where they lie in its bytes.
def zone_of(place):
    with rides.open("rb") as file:
        file.seek(10 * ZONE * place)
        data = memoryview(file.read(10 * ZONE))
    return columns({"time": data[: 8 * ZONE].cast("q"), "fare": data[8 * ZONE :].cast("H")})


# %% The statistics of each zone and column, in a file of their own: a length, and then the bytes.
with index.open("wb") as file:
    for place in range(ROWS // ZONE):
        for known in statistics(zone_of(place)).values():
            file.write(len(bytes(known)).to_bytes(2, "little") + bytes(known))
print(f"{index.name} has {index.stat().st_size:,} bytes")


# %% Read back. From here on the rides are closed until a filter asks for them.
def read_index():
    data, place, found = index.read_bytes(), 0, []
    while place < len(data):
        zone = {}
        for name, kind in (("time", "i64"), ("fare", "u16")):
            length = int.from_bytes(data[place : place + 2], "little")
            zone[name] = Statistics.from_bytes(data[place + 2 : place + 2 + length], kind)
            place += 2 + length
        found.append(zone)
    return Zones(found)


zones = read_index()
print("the first zone:", zones[0]["time"])

# %% What is asked for, and the zones that may have it.
wanted = Filter("time between 1700020000 and 1700060000 and fare > 6900", {"time": "i64", "fare": "u16"})
left = wanted.prune(zones)
print(f"{len(left)} of {len(zones)} zones are read")


# %% The rows that match, with the zones that are left and with all.
def matching(places):
    start = time.perf_counter()
    count = sum(sum(wanted.mask(zone_of(place))) for place in places)
    return count, time.perf_counter() - start


few, of_few = matching(left)
all_, of_all = matching(range(len(zones)))
assert few == all_
print(f"{few} rows match, with all zones too")
print(f"{of_few:.2f} seconds in place of {of_all:.2f}", file=sys.stderr)

# %% The zones: their fares, and which were skipped.
try:
    import matplotlib

    matplotlib.use("Agg")
    from matplotlib import pyplot
except ImportError:
    print("no plot: matplotlib is not installed", file=sys.stderr)
else:
    _, axes = pyplot.subplots(figsize=(10, 4))
    for place, zone in enumerate(zones):
        fare = zone["fare"]
        axes.bar(place, fare.upper - fare.lower, bottom=fare.lower, width=0.8, color="tab:orange" if place in left else "lightgrey")
    axes.set(xlabel="zone", ylabel="fares from the least to the greatest", title=f"{wanted.text}\n{len(zones) - len(left)} zones are skipped (grey)")
    axes.axhline(6900, linewidth=0.8, color="black")
    pyplot.tight_layout()
    pyplot.savefig(folder / "zones.png", dpi=120)
    print(f"the plot is {folder / 'zones.png'}", file=sys.stderr)
