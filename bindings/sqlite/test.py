# SPDX-License-Identifier: Apache-2.0
"""Compares the tables of the extension with ordinary tables of the same rows: random queries over random files, with an index and
without. Each query's words must give the same rows in both, and what was pushed must show in `explain query plan`.

    test.py ZONE_MAP_SO ZONE_MAP_PROGRAM

The last line is 'N passed, M failed'.
"""

import math
import os
import random
import sqlite3
import subprocess
import sys
import tempfile

SO, PROGRAM = sys.argv[1:3]
QUERIES = int(os.environ.get("QUERIES") or 2000)
WITHOUT_INDEX = 200
ROWS = 3000
COLUMNS = (
    "id i64, town utf8?, fare decimal(12,2)?, score f64?, small f32?, many u64?, day date?, at timestamp(us)?, raw binary?, "
    "seen timestamp(ms,UTC)?, clock time(us)?, tiny i8?, wide decimal(38,20)?, as_is bytes"
)
TYPES = "id integer, town text, fare real, score real, small real, many integer, day text, at text, raw blob, seen text, clock text, tiny integer, wide real, as_is blob"
TOWNS = ["Oslo", "oslo", "Bergen", "bergen", "Ås", "", "O'Hara", 'say "so"', "a,b", "two\nlines", "%", "_x", "zzz", "Oslofjord", "\U0010ffff"]
counts = {True: 0, False: 0}


def judge(name, is_right, said=""):
    counts[bool(is_right)] += 1
    if not is_right:
        print(f"{name}: {said}"[:800], flush=True)


def maybe(chance, value, share=0.1):
    return None if chance.random() < share else value


def nearest_small(value):
    import struct

    return struct.unpack("<f", struct.pack("<f", value))[0]


def random_row(chance, number):
    """A row as SQLite has it, and the words of the file."""
    fare = maybe(chance, f"{chance.randrange(-50, 100000)}.{chance.randrange(100):02}")
    score = maybe(chance, chance.choice([repr(chance.uniform(-1e6, 1e6)), "0.1", "-0.0", "NaN", "inf", "-inf", "1e-310", repr(float(chance.randrange(10)))]))
    small = maybe(chance, chance.choice(["0.1", "0.7", "16777216", repr(chance.uniform(-10, 10))]))
    many = maybe(chance, str(chance.choice([chance.randrange(100), 2**63 - 1, 2**63, 2**64 - 1])))
    day = maybe(chance, f"{chance.choice([1, 1999, 2024, 2026, 9999]):04}-{chance.randrange(1, 13):02}-{chance.randrange(1, 29):02}")
    at = maybe(chance, f"2026-03-{chance.randrange(1, 29):02}{chance.choice('T ')}{chance.randrange(24):02}:{chance.randrange(60):02}" + chance.choice(["", ":07", ":07.25"]))
    raw = maybe(chance, bytes(chance.choices((0, 1, 97, 255), k=chance.choice((1, 2, 3)))))
    seen = maybe(chance, f"2026-03-{chance.randrange(1, 29):02}{chance.choice('T ')}{chance.choice((0, 12, 23)):02}:30" + chance.choice(["Z", ":59+05:30", "-25:59", "+25:59:59"]))
    clock = maybe(chance, f"{chance.randrange(24):02}:{chance.randrange(60):02}" + chance.choice(["", ":59.999999", ":00"]))
    tiny = maybe(chance, str(chance.randrange(-128, 128)))
    wide = maybe(chance, f"{chance.randrange(-(10**17), 10**17)}.{chance.randrange(10**20):020}")
    as_is = chance.choice(["", "plain", "with,comma", 'a "quote"'])
    town = chance.choice(TOWNS)
    floats = [None if word is None else float(word) for word in (fare, score, small)]
    if floats[2] is not None:
        floats[2] = nearest_small(floats[2])
    whole = None if many is None else int(many) if int(many) < 2**63 else float(int(many))
    numbers = [None if value is None or math.isnan(value) else value for value in floats]
    rest = [seen, clock, None if tiny is None else int(tiny), None if wide is None else float(wide), as_is.encode()]
    values = [number // 3, town, *numbers, whole, day, at, raw, *rest]
    words = [str(number // 3), town, fare, score, small, many, day, at, None if raw is None else raw.hex(), seen, clock, tiny, wide, as_is]
    return values, words


def write_file(path, chance, count):
    """A file of random rows, and the rows."""
    rows = [random_row(chance, number) for number in range(count)]
    with open(path, "w", encoding="utf-8", newline="") as file:
        for _, words in rows:
            # An empty string is in quotes, and a null is not.
            texts = ["" if word is None else f'"{word.replace(chr(34), chr(34) * 2)}"' if place in (1, 13) else word for place, word in enumerate(words)]
            file.write(",".join(texts) + chance.choice(["\n", "\r\n"]))
    return [values for values, _ in rows]


def quoted(value):
    if isinstance(value, bytes):
        return f"x'{value.hex()}'"
    if isinstance(value, str):
        return "'" + value.replace("'", "''") + "'"
    if isinstance(value, float):
        return "9e999" if value == math.inf else "-9e999" if value == -math.inf else repr(value)
    return "null" if value is None else str(value)


NAMES = ["id", "town", "fare", "score", "small", "many", "day", "at", "raw", "seen", "clock", "tiny", "wide", "as_is"]


def random_operand(chance, rows, column):
    value = chance.choice(rows)[column]
    if isinstance(value, (int, float)) and math.isfinite(value) and chance.random() < 0.4:
        value = chance.choice([value + 1, value - 0.5, value + 0.005, value + 2**31, -value, int(value) if abs(value) < 2**62 else value])
    if isinstance(value, str) and chance.random() < 0.3:
        value = chance.choice([value[:5], value + "x", value[:10], value.upper(), value.replace("T", " ")])
    if chance.random() < 0.05:
        value = chance.choice([None, "10", 10, 1.5, b"a", "2026-02-31"])
    return quoted(value)


def random_condition(chance, rows):
    column = chance.randrange(len(NAMES))
    name = NAMES[column]
    kind = chance.random()
    if kind < 0.55:
        return f"{name} {chance.choice(['=', '<', '<=', '>', '>=', '<>', 'is'])} {random_operand(chance, rows, column)}"
    if kind < 0.65:
        return f"{name} between {random_operand(chance, rows, column)} and {random_operand(chance, rows, column)}"
    if kind < 0.8:
        return f"{name} in ({', '.join(random_operand(chance, rows, column) for _ in range(chance.randrange(1, 5)))})"
    if kind < 0.9:
        return f"{name} is {chance.choice(['', 'not '])}null"
    town = chance.choice(TOWNS)
    if chance.random() < 0.5:
        return f"town like {quoted(town[: chance.randrange(5)] + chance.choice(['', '%', '_%', '%o']))}"
    return f"town glob {quoted(town[: chance.randrange(5)] + chance.choice(['', '*', '?*']))}"


def random_query(chance, rows):
    conditions = [random_condition(chance, rows) for _ in range(chance.choice((1, 1, 2, 3)))]
    where = chance.choice([" and ", " and ", " or "]).join(conditions)
    some = ", ".join(chance.sample(NAMES, chance.randrange(1, 5)))
    what = chance.choice(["*", some, "count(*), round(sum(fare), 2), min(day), max(at)", "town, count(*)", "count(*)"])
    group = " group by town" if what == "town, count(*)" else ""
    return f"select {what} from {{}} where {where}{group}"


def answer(store, query):
    return sorted(map(repr, store.execute(query)))


def tables_agree(chance, folder, store, has_index, count):
    path = f"{folder}/{'indexed' if has_index else 'plain'}.csv"
    rows = write_file(path, chance, ROWS)
    if has_index:
        subprocess.run([PROGRAM, "index", path, "--columns", COLUMNS, "--rows", "50"], check=True, stdout=subprocess.DEVNULL)
    name, options = ("indexed", "") if has_index else ("plain", f", columns='{COLUMNS}'")
    store.execute(f"create virtual table {name} using zone_map('{path}'{options})")
    store.execute(f"create table {name}_rows ({TYPES})")
    store.executemany(f"insert into {name}_rows values ({', '.join('?' * len(NAMES))})", rows)
    for _ in range(count):
        query = random_query(chance, rows)
        try:
            wanted, found = answer(store, query.format(f"{name}_rows")), answer(store, query.format(name))
        except sqlite3.Error as error:
            judge(query.format(name), False, error)
            continue
        judge(query.format(name), found == wanted, f"{len(found)} rows, not {len(wanted)}; first {[row for row in found if row not in wanted][:2]}, {[row for row in wanted if row not in found][:2]}")


def plan(store, where):
    return " ".join(row[3] for row in store.execute(f"explain query plan select * from indexed where {where}"))


def see_plans(store):
    for where, words in [("id = 7 and town > 'x'", '"id" = ? and "town" > ?'), ("id in (1, 2)", '"id" in (?)'), ("fare is null", '"fare" is null'),
                         ("town like 'Os%'", '"town" like ?'), ("id between 3 and 5", '"id" >= ? and "id" <= ?'), ("fare in (1, 2)", '"fare" in (?)'),
                         ("seen >= '2026-03-02'", '"seen" >= ?'), ("clock < '10:00'", '"clock" < ?')]:
        judge(f"the plan of {where}", words in plan(store, where), plan(store, where))
    judge("a comparison of other letters", '"town"' not in plan(store, "town = 'x' collate nocase"), plan(store, "town = 'x' collate nocase"))


def see_refusals(folder, store):
    def refused(words, told):
        try:
            store.execute(words).fetchall()
            judge(words, False, "is not refused")
        except sqlite3.Error as error:
            judge(words, told in str(error), error)

    make = "create virtual table other using zone_map"
    refused(f"{make}('{folder}/none.csv')", "No such file")
    refused(f"{make}()", "name of a file")
    refused(f"{make}('{folder}/indexed.csv', colour=3)", "no option")
    with open(f"{folder}/ragged.csv", "w", encoding="utf-8") as file:
        file.write("1,a\n2,b\n3\n")
    store.execute("create virtual table ragged using zone_map('%s/ragged.csv', columns='n i64, word utf8')" % folder)
    refused("select * from ragged", "fewer fields")
    with open(f"{folder}/damaged.csv", "w", encoding="utf-8") as file, open(f"{folder}/damaged.csv.zones", "wb") as index:
        file.write("1\n")
        index.write(b"no index of a file at all")
    refused(f"{make}('{folder}/damaged.csv')", "zone_map index")
    os.rename(f"{folder}/damaged.csv.zones", f"{folder}/other")
    os.symlink("other", f"{folder}/damaged.csv.zones")
    refused(f"{make}('{folder}/damaged.csv')", "damaged.csv.zones is a link")
    with open(f"{folder}/indexed.csv", "a", encoding="utf-8") as file:
        file.write("\n")
    refused("select * from indexed", "not as it was")
    refused(f"{make}('{folder}/indexed.csv')", "not as it was")
    with open(f"{folder}/head.csv", "w", encoding="utf-8") as file:
        file.write("id;name\n1;a\n2;NA\n")
    store.execute("create virtual table head using zone_map('%s/head.csv', header=1, delimiter=';', null='NA')" % folder)
    judge("options", store.execute("select id, name from head order by id").fetchall() == [(1, "a"), (2, None)], "other rows")


def see_what_is_skipped(folder, store):
    """A zone whose bytes were changed behind the index's back is refused by a query that reads it, and by no other."""
    path = f"{folder}/sorted.csv"
    with open(path, "w", encoding="utf-8") as file:
        file.writelines(f"{n},{n}.5,2026-03-{n // 10 + 1:02} 10:{n % 60:02},2026-03-{3 * (n // 10) + 1:02}T10:00+02:00,{n // 10:02}:30\n" for n in range(100))
    columns = "id i64, fare decimal(9,1), at timestamp(us), seen timestamp(s,UTC), clock time(s)"
    subprocess.run([PROGRAM, "index", path, "--columns", columns, "--rows", "10"], check=True, stdout=subprocess.DEVNULL)
    changed = os.stat(path)
    with open(path, "r+b") as file:
        file.write(b"x")
    os.utime(path, ns=(changed.st_atime_ns, changed.st_mtime_ns))
    store.execute(f"create virtual table sorted using zone_map('{path}')")
    for where, wanted in [("id > 50", 49), ("fare in (90.5, 95.5, 12.25)", 2), (f"fare in ({', '.join(f'{50 + n / 20}' for n in range(900))})", 45), ("fare > 50", 50), ("at > '2026-03-05 10:45'", 54), ("at in ('2026-03-09 10:20', '2026-03-10 10:39')", 2),
                          ("at between '2026-03-03' and '2026-03-04'", 10), ("seen >= '2026-03-10'", 70), ("seen in ('2026-03-28T10:00+02:00', '2026-03-10T10:00+02:00')", 20),
                          ("clock >= '08:30'", 20), ("clock in ('04:30', '05:30:00')", 10), ("clock = '04:30' or fare > 98", 12), ("id >= 0", None), ("seen <= '2026-03-02'", None), ("clock < '01:00'", None)]:
        try:
            found = store.execute(f"select count(*) from sorted where {where}").fetchone()[0]
        except sqlite3.Error as error:
            found = None if "column id does not take its field" in str(error) else error
        judge(f"zones of {where}", found == wanted, found)


def see_cells(folder, store):
    """Cells of columns that few queries have: beyond the 63rd, years with a sign, and rows that two ways of an `or` find."""
    with open(f"{folder}/broad.csv", "w", encoding="utf-8") as file:
        file.writelines(",".join(str(n + place) for place in range(70)) + "\n" for n in range(600))
    store.execute(f"create virtual table broad using zone_map('{folder}/broad.csv', columns='{', '.join(f'c{place} i64' for place in range(70))}')")
    judge("a column beyond the 63rd", store.execute("select c69, c0, c62, c63 from broad where c64 = 600").fetchall() == [(605, 536, 598, 599)], "other cells")
    judge("rows that are found twice", store.execute("select rowid, c1 from broad where c0 = 3 or c2 = 5 or c69 = 599").fetchall() == [(4, 4), (531, 531)], "other rows")
    judge("no column", store.execute("select count(*) from broad").fetchone() == (600,), "another count")
    judge("a join", store.execute("select count(*) from broad a join broad b on a.c0 = b.c1").fetchone() == (599,), "another count")
    with open(f"{folder}/years.csv", "w", encoding="utf-8") as file:
        file.write("1,2026-03-01,+002026-03-01 10:00\n2,2025-03-01,2025-03-01 10:00\n3,-000001-03-01,-000001-03-01 10:00\n")
    store.execute(f"create virtual table years using zone_map('{folder}/years.csv', columns='id i64, day date, at timestamp(us)')")
    judge("years with a sign", store.execute("select day, at from years where id = 1").fetchall() == [("2026-03-01", "2026-03-01 10:00")], "another text")
    for name in ("day", "at"):
        judge(f"years with a sign by {name}", store.execute(f"select id from years where {name} <= '2025-12-31'").fetchall() == [(2,), (3,)], "other rows")


def main():
    store = sqlite3.connect(":memory:")
    store.enable_load_extension(True)
    store.execute("select load_extension(?)", (SO,))
    chance = random.Random(70)
    with tempfile.TemporaryDirectory() as folder:
        tables_agree(chance, folder, store, True, QUERIES)
        tables_agree(chance, folder, store, False, min(WITHOUT_INDEX, QUERIES))
        see_plans(store)
        see_what_is_skipped(folder, store)
        see_cells(folder, store)
        see_refusals(folder, store)
    print(f"{counts[True]} passed, {counts[False]} failed")
    return 1 if counts[False] else 0


if __name__ == "__main__":
    sys.exit(main())
