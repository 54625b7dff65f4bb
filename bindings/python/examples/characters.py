# SPDX-License-Identifier: Apache-2.0
"""The characters of Unicode: which zones of a file a filter need not read, and that SQLite finds the same rows by the same words.

The file is the one of Debian's package unicode-data; another path may follow the script's name. It has a character on a line,
in the order of their numbers, with semicolons between its fields.
"""

import sqlite3
import sys

from doqallin import Filter, Zones, column, columns, statistics

ZONE = 256
path = sys.argv[1] if len(sys.argv) > 1 else "/usr/share/unicode/UnicodeData.txt"
with open(path, encoding="utf-8") as file:
    fields = [line.rstrip("\n").split(";") for line in file]
rows = [(int(row[0], 16), row[1], row[2], int(row[6]) if row[6] else None) for row in fields]


# %% Zones of so many rows, each with four columns. Where all digits are null, the column needs its kind.
def zone_of(some):
    code, name, category, digit = map(list, zip(*some))
    return columns({"code": code, "name": name, "category": category, "digit": column(digit, "i64")})


zones = [zone_of(rows[start : start + ZONE]) for start in range(0, len(rows), ZONE)]

# %% Their statistics are all that is needed to choose zones.
known = Zones([statistics(zone) for zone in zones])
print(f"{len(rows)} characters in {len(zones)} zones")

# %% The same rows in SQLite.
store = sqlite3.connect(":memory:")
store.execute("create table characters (code, name, category, digit)")
store.executemany("insert into characters values (?, ?, ?, ?)", rows)

# %% What is asked for: the zones that may have it, and the rows of these that match.
TYPES = {"code": "i64?", "name": "utf8?", "category": "utf8?", "digit": "i64?"}
for text in [
    "code between 9728 and 9983 and name like 'SNOWMAN%'",
    "name like 'TIBETAN%' and digit = 7",
    "category = 'Sc' and code between 8000 and 9000 and name like 'EURO%'",
]:
    wanted = Filter(text, TYPES)
    left = wanted.prune(known)
    found = []
    for place in left:
        zone = rows[place * ZONE : (place + 1) * ZONE]
        found += [row for row, is_match in zip(zone, wanted.mask(zones[place])) if is_match]
    print(f"{text}: {len(left)} zones read")
    for code, name, *_ in found:
        print(f"    {code:04X} {name}")
    assert found == store.execute(f"select * from characters where {text} order by code").fetchall()
