# SPDX-License-Identifier: Apache-2.0
"""Files as tables: what is found beside plain Python, with an index and without, in memory and over HTTP.

Indexes are made by the program `zone_map`, of crates/zone_map/out or of the environment's ZONE_MAP.
"""

import csv
import http.server
import io
import os
import pickle
import random
import re
import subprocess
import sys
import tempfile
import threading
import unittest
import unittest.mock
import urllib.request
from datetime import date, datetime, time, timezone
from decimal import Decimal
from pathlib import Path

import doqallin
import doqallin._files
import doqallin._indexes
from doqallin import BadFilter, BadIndex, BadRecord, KindsDiffer, NoColumn, StaleIndex

PROGRAM = os.environ.get("ZONE_MAP") or str(Path(__file__).resolve().parents[2] / "crates/zone_map/out/zone_map")
COLUMNS = "id i64, town utf8?, fare decimal(10,2)?, day date?"
TOWNS = ["Oslo", "Bergen", "Ås", "O'Hara", "a,b", 'say "so"', "two\nlines", ""]
ROWS = 3000


def random_rows(chance, count=ROWS):
    maybe = lambda value: None if chance.random() < 0.1 else value
    return [
        (number // 2, maybe(chance.choice(TOWNS)), maybe(Decimal(chance.randrange(-500, 10000)).scaleb(-2)), maybe(date(2026, 1 + number * 11 // count, chance.randrange(1, 29))))
        for number in range(count)
    ]


def text_of(rows, end="\n"):
    """Rows as CSV: a null is an empty field, and an empty string is in quotes."""
    word = lambda value: "" if value is None else '"' + value.replace('"', '""') + '"' if isinstance(value, str) else str(value)
    return "".join(",".join(map(word, row)) + end for row in rows).encode()


def dicts(rows, names=("id", "town", "fare", "day")):
    return {name: [row[place] for row in rows] for place, name in enumerate(names)}


# A filter, and the same of a row in Python.
FILTERS = [
    ("id between 100 and 120", lambda row: 100 <= row[0] <= 120),
    ("town = 'Oslo' and fare >= 10.5", lambda row: row[1] == "Oslo" and row[2] is not None and row[2] >= Decimal("10.5")),
    ("town like '%l%' or town ilike 'o''h%'", lambda row: row[1] is not None and ("l" in row[1] or row[1].lower().startswith("o'h"))),
    ("day < '2026-03-01' and not fare > 5", lambda row: row[3] is not None and row[3] < date(2026, 3, 1) and row[2] is not None and row[2] <= 5),
    ("fare is null", lambda row: row[2] is None),
    ("town in ('a,b', 'two\nlines', '') and id > 1400", lambda row: row[1] in ("a,b", "two\nlines", "") and row[0] > 1400),
    ("id < 0", lambda row: False),
    ("true", lambda row: True),
]


class InAFolder(unittest.TestCase):
    def setUp(self):
        folder = tempfile.TemporaryDirectory()
        self.addCleanup(folder.cleanup)
        self.folder = Path(folder.name)

    def written(self, name, rows, *, rows_of_zone=100, has_index=True, end="\n"):
        path = self.folder / name
        path.write_bytes(text_of(rows, end))
        if has_index:
            subprocess.run([PROGRAM, "index", path, "--columns", COLUMNS, "--rows", str(rows_of_zone)], check=True, stdout=subprocess.DEVNULL)
        return path


class OfOneFile(InAFolder):
    def see(self, files, rows):
        for text, matches in FILTERS:
            wanted = [row for row in rows if matches(row)]
            with self.subTest(text):
                found = files.find(text)
                self.assertEqual(found.to_pydict(), dicts(wanted))
                self.assertEqual(found.num_rows, len(wanted))
                self.assertEqual(files.count(text), len(wanted))
                self.assertEqual(files.find(text, columns=["fare"]).to_pydict(), {"fare": [row[2] for row in wanted]})

    def test_with_an_index(self):
        rows = random_rows(random.Random(1))
        for end in ("\n", "\r\n"):
            self.see(doqallin.open(self.written("trips.csv", rows, end=end)), rows)

    def test_without_an_index(self):
        rows = random_rows(random.Random(2))
        path = self.written("trips.csv", rows, has_index=False)
        kinds = {"id": "i64", "town": "utf8?", "fare": "decimal(10,2)?", "day": "date?"}
        self.see(doqallin.open(path, columns=kinds), rows)
        self.see(doqallin.open(io.BytesIO(text_of(rows)), columns=kinds), rows)

    def test_guessed(self):
        text = b"id,name,price,at,seen\n1,a,9.5,14:05,2026-03-01T14:05Z\n2,,10.25,,\n"
        files = doqallin.open(io.BytesIO(text), header=True)
        self.assertEqual(files.columns, {"id": "i64?", "name": "utf8?", "price": "decimal(18,2)?", "at": "utf8?", "seen": "timestamp(us,UTC)?"})
        self.assertEqual(
            files.find("price > 9").to_pylist(),
            [
                {"id": 1, "name": "a", "price": Decimal("9.50"), "at": "14:05", "seen": datetime(2026, 3, 1, 14, 5, tzinfo=timezone.utc)},
                {"id": 2, "name": None, "price": Decimal("10.25"), "at": None, "seen": None},
            ],
        )

    def test_each_kind(self):
        kinds = {"a": "u8", "b": "f32?", "c": "f64", "d": "time(ms)?", "e": "timestamp(s)", "f": "binary?", "g": "bytes", "h": "timestamp(us,UTC)"}
        text = b"7,0.5,NaN,14:05:57.25,2026-03-01 14:05:57,00ff,\xff,2026-03-01T14:05:57.000001+01:30\n255,,-inf,,2026-03-01,,,2026-03-01T00:00Z\n"
        found = doqallin.open(io.BytesIO(text), columns=kinds).find()
        self.assertEqual(found["a"].to_list(), [7, 255])
        self.assertEqual(found["b"].to_list(), [0.5, None])
        self.assertEqual(str(found["c"].to_list()), "[nan, -inf]")
        self.assertEqual(found["d"].to_list(), [time(14, 5, 57, 250000), None])
        self.assertEqual(found["e"].to_list(), [datetime(2026, 3, 1, 14, 5, 57), datetime(2026, 3, 1)])
        self.assertEqual(found["f"].to_list(), [b"\x00\xff", None])
        self.assertEqual(found["g"].to_list(), [b"\xff", b""])
        self.assertEqual(found["h"].to_list(), [datetime(2026, 3, 1, 12, 35, 57, 1, timezone.utc), datetime(2026, 3, 1, tzinfo=timezone.utc)])

    def test_options(self):
        files = doqallin.open(io.BytesIO(b"1;NA\n2;x\n"), columns={"n": "i64", "word": "utf8?"}, delimiter=";", nulls=["NA"])
        self.assertEqual(files.find("word is null").to_pydict(), {"n": [1], "word": [None]})
        lenient = doqallin.open(io.BytesIO(b"1,x\n1_0,y\n,z\n3\n4,a,b\n"), columns={"n": "i64?", "word": "utf8?"}, lenient=True)
        self.assertEqual(lenient.find().to_pydict(), {"n": [1, None, None, 3, 4], "word": ["x", "y", "z", None, "a"]})
        lines = doqallin.open(io.BytesIO(b"a,b\nc\n"), delimiter="none")
        self.assertEqual(lines.find("line like '%,%'").to_pydict(), {"line": ["a,b"]})

    def test_batches_and_head(self):
        rows = random_rows(random.Random(3))
        files = doqallin.open(self.written("trips.csv", rows))
        batches = list(files.batches(rows=700))
        self.assertEqual([batch.num_rows for batch in batches], [700, 700, 700, 700, 200])
        self.assertEqual([row for batch in batches for row in batch["id"]], [row[0] for row in rows])
        self.assertEqual(files.head(3, "id >= 50", columns=["id"]).to_pydict(), {"id": [50, 50, 51]})
        self.assertEqual(files.head(0).num_rows, 0)
        self.assertEqual(sum(batch.num_rows for batch in files), ROWS)
        self.assertEqual(b"".join(files.records()), text_of(rows))

    def test_zones_and_what_is_read(self):
        rows = random_rows(random.Random(4))
        files = doqallin.open(self.written("trips.csv", rows))
        self.assertEqual(len(files.zones), ROWS // 100)
        self.assertEqual(sum(zone.rows for zone in files.zones), ROWS)
        planned = files.plan("id between 100 and 120")
        read = [zone for zone in planned if zone.way != "skip"]
        before = files.fetched
        files.find("id between 100 and 120")
        self.assertEqual(files.fetched - before, sum(zone.length for zone in read))
        self.assertLess(len(read), 3)
        before = files.fetched
        self.assertEqual(files.count("id >= 0"), ROWS)
        self.assertEqual(files.fetched, before)

    def test_what_goes_wrong(self):
        rows = random_rows(random.Random(5), 300)
        path = self.written("trips.csv", rows)
        files = doqallin.open(path)
        with self.assertRaises(BadFilter) as raised:
            files.find("town = 3 and")
        self.assertEqual(raised.exception.place, 7)
        with self.assertRaises(NoColumn):
            files.find(columns=["fares"])
        with self.assertRaises(BadRecord) as bad:
            doqallin.open(io.BytesIO(b"1,a\n2,b\nx,c\n"), columns={"n": "i64", "word": "utf8"}).find()
        self.assertEqual((bad.exception.place, bad.exception.column), (8, "n"))
        with self.assertRaises(BadRecord):
            doqallin.open(io.BytesIO(b"1,a\n2\n"), columns={"n": "i64", "word": "utf8"}).count()
        # The records before one that is refused are given.
        for many in (3, 5000):
            found, given = [], doqallin.open(io.BytesIO(b"1,a\n" + b"2,b\n" * many + b"x,c\n3,d\n"), columns={"n": "i64", "word": "utf8"})
            with self.assertRaises(BadRecord) as bad:
                for record in given.records("n > 1"):
                    found.append(record)
            self.assertEqual((found, bad.exception.place), ([b"2,b\n"] * many, 4 + 4 * many))
        index = self.folder / "trips.csv.zones"
        whole = index.read_bytes()
        for damaged in (b"", whole[:20], b"x" + whole[1:], whole[:100] + bytes([whole[100] ^ 1]) + whole[101:]):
            index.write_bytes(damaged)
            with self.assertRaises(BadIndex):
                doqallin.open(path).count("id > 3")
        index.write_bytes(whole)
        path.write_bytes(path.read_bytes() + b"1,a,2,\n")
        with self.assertRaises(StaleIndex):
            doqallin.open(path)
        self.assertEqual(doqallin.open(path, index=False).count(), 301)


class OfManyFiles(InAFolder):
    def test_a_folder_a_pattern_and_a_list(self):
        chance = random.Random(6)
        parts = [random_rows(chance, 500) for _ in range(4)]
        paths = [self.written(f"part{n}.csv", rows, has_index=n != 2) for n, rows in enumerate(parts)]
        kinds = dict(id="i64", town="utf8?", fare="decimal(10,2)?", day="date?")
        rows = [row for part in parts for row in part]
        for source in (self.folder, str(self.folder / "part*.csv"), paths):
            with doqallin.open(source, columns=kinds) as files:
                self.assertEqual(len(files.names), 4)
                for text, matches in FILTERS:
                    self.assertEqual(files.find(text).to_pydict(), dicts([row for row in rows if matches(row)]))
        with self.assertRaises(KindsDiffer):
            doqallin.open(paths).find()
        with self.assertRaises(NoColumn):
            doqallin.open(str(self.folder / "*.tsv"))
        with self.assertRaises(FileNotFoundError):
            doqallin.open(self.folder / "none.csv")


class Ranges(http.server.SimpleHTTPRequestHandler):
    """Serves files, and of each as many bytes as are asked for; it counts them."""

    served = 0

    def do_GET(self):
        data = Path(self.translate_path(self.path)).read_bytes()
        first, last = map(int, re.fullmatch(r"bytes=(\d+)-(\d+)", self.headers["Range"]).groups())
        part = data[first : last + 1]
        Ranges.served += len(part)
        self.send_response(206)
        self.send_header("Content-Length", str(len(part)))
        self.end_headers()
        self.wfile.write(part)

    def do_HEAD(self):
        self.send_response(200)
        self.send_header("Content-Length", str(Path(self.translate_path(self.path)).stat().st_size))
        self.end_headers()

    def log_message(self, *words):
        pass


class Remote(io.RawIOBase):
    """A file over HTTP, read by ranges, with `seek` and `read` as fsspec's files have them."""

    def __init__(self, url):
        self.url, self.place = url, 0
        with urllib.request.urlopen(urllib.request.Request(url, method="HEAD")) as answer:
            self.size = int(answer.headers["Content-Length"])

    def seek(self, offset, whence=os.SEEK_SET):
        self.place = offset + {os.SEEK_SET: 0, os.SEEK_CUR: self.place, os.SEEK_END: self.size}[whence]
        return self.place

    def read(self, length=-1):
        end = self.size if length < 0 else min(self.size, self.place + length)
        if end <= self.place:
            return b""
        with urllib.request.urlopen(urllib.request.Request(self.url, headers={"Range": f"bytes={self.place}-{end - 1}"})) as answer:
            data = answer.read()
        self.place += len(data)
        return data


class OverHttp(InAFolder):
    def test_only_what_is_needed_is_fetched(self):
        rows = random_rows(random.Random(7))
        path = self.written("trips.csv", rows)
        server = http.server.ThreadingHTTPServer(("127.0.0.1", 0), lambda *words: Ranges(*words, directory=str(self.folder)))
        threading.Thread(target=server.serve_forever, daemon=True).start()
        self.addCleanup(server.server_close)
        self.addCleanup(server.shutdown)
        url = f"http://127.0.0.1:{server.server_port}/trips.csv"
        files = doqallin.open(Remote(url), index=Remote(f"{url}.zones"))
        before = Ranges.served
        found = files.find("id between 100 and 120")
        self.assertEqual(found.to_pydict(), dicts([row for row in rows if 100 <= row[0] <= 120]))
        read = sum(zone.length for zone in files.plan("id between 100 and 120") if zone.way != "skip")
        index = (self.folder / "trips.csv.zones").stat().st_size
        self.assertLessEqual(Ranges.served - before, read + 2 * index)
        self.assertLess(Ranges.served - before, path.stat().st_size // 4)


class OfIndexes(InAFolder):
    """Indexes that the package makes: to the byte those of the program."""

    # A name, the file, options of the package, and the same of the program.
    FILES = [
        ("trips", text_of(random_rows(random.Random(10))), {"columns": {"id": "i64", "town": "utf8?", "fare": "decimal(10,2)?", "day": "date?"}}, ["--columns", COLUMNS]),
        ("guessed", text_of(random_rows(random.Random(11)), "\r\n"), {}, []),
        ("few", text_of(random_rows(random.Random(12), 1000)), {"rows": 64, "bounds": 5}, ["--rows", "64", "--bytes", "5"]),
        ("each", text_of(random_rows(random.Random(13), 200)), {"rows": 1}, ["--rows", "1"]),
        ("a header", b"n,word\n1,a\n2,\n3,\"x\n\ny\"\n", {"header": True}, ["--header"]),
        ("a header alone", b"n,word\n", {"header": True}, ["--header"]),
        ("nothing", b"", {}, []),
        ("one", b"1,a\n", {}, []),
        ("one without its end", b"1,a", {}, []),
        ("an open quote", b'1,a\n2,"b\nc', {}, []),
        ("no end", b"1,a\n2,b\n3,c", {"rows": 2}, ["--rows", "2"]),
        ("full zones", b"1,a\n2,b\n3,c\n4,d\n", {"rows": 2}, ["--rows", "2"]),
        ("empty lines", b"1,a\n\n\n2,b\n\n", {"rows": 2}, ["--rows", "2"]),
        ("nulls", b"1;NA\n-;x\n", {"delimiter": ";", "nulls": ["NA", "-"]}, ["--delimiter", ";", "--null", "NA", "--null", "-"]),
        ("wide", b"12345678901234567890123456789.5\n1.5\n", {"bounds": 3}, ["--bytes", "3"]),
        ("lines", b"a,b\nc\n", {"delimiter": "none"}, ["--delimiter", "none"]),
        ("lenient", b"1,x\n1_0,y\n,z\n3\n4,a,b\n", {"columns": {"n": "i64?", "word": "utf8?"}, "lenient": True}, ["--columns", "n i64?, word utf8?", "--lenient"]),
        ("long", b"".join(b'%d,"%s"\n' % (n, b"x\n" * 300) for n in range(50)), {"rows": 7}, ["--rows", "7"]),
    ]

    def by_the_program(self, path, words):
        subprocess.run([PROGRAM, "index", path, *words], check=True, stdout=subprocess.DEVNULL, stderr=subprocess.DEVNULL)
        index = Path(f"{path}.zones")
        made = index.read_bytes()
        index.unlink()
        return made

    def test_the_bytes_are_those_of_the_program(self):
        for name, text, options, words in self.FILES:
            path = self.folder / f"{name}.csv"
            path.write_bytes(text)
            wanted = self.by_the_program(path, words)
            for piece in (1 << 22, 1, 7, 64, 1000):
                if len(text) > 1000 * piece:
                    continue
                with self.subTest(name, piece=piece), unittest.mock.patch.object(doqallin._files, "_PIECE", piece):
                    with doqallin.index(path, **options) as files:
                        self.assertEqual(Path(f"{path}.zones").read_bytes(), wanted)
                        self.assertEqual([zone.offset + zone.length for zone in files.zones][-1:], [len(text)] if files.zones else [])
            self.assertEqual(sorted(self.folder.glob(f"{name}.csv.zones*")), [Path(f"{path}.zones")])

    def test_with_little_room_at_first(self):
        path = self.folder / "trips.csv"
        path.write_bytes(text_of(random_rows(random.Random(14))))
        wanted = self.by_the_program(path, ["--rows", "10"])
        with unittest.mock.patch.object(doqallin._indexes, "_MOST", 1), unittest.mock.patch.object(doqallin._indexes, "_ROOM", 1):
            doqallin.index(path, rows=10).close()
        self.assertEqual(Path(f"{path}.zones").read_bytes(), wanted)

    def test_what_it_gives(self):
        rows = random_rows(random.Random(15))
        path = self.folder / "trips.csv"
        path.write_bytes(text_of(rows))
        told = []
        with doqallin.open(path) as plain, plain.index(lambda done, total: told.append((done, total)), rows=100) as files:
            self.assertEqual(len(files.zones), ROWS // 100)
            self.assertEqual(files.columns, plain.columns)
            self.assertEqual(files.find("$1 between 100 and 120").to_pydict(), plain.find("$1 between 100 and 120").to_pydict())
            self.assertLess(sum(zone.way != "skip" for zone in files.plan("$1 between 100 and 120")), 3)
        size = path.stat().st_size
        self.assertEqual(told[-1], (size, size))
        with doqallin.open(path) as files, files.index(rows=50) as again:
            self.assertEqual(len(again.zones), ROWS // 50)
        with doqallin.index([path, path], progress=False) as both:
            self.assertEqual(both.count("$1 = 100"), 4)
        lenient = self.folder / "lenient.csv"
        lenient.write_bytes(b"1,x\ny,z\n2\n3,a,b\n")
        with doqallin.index(lenient, columns={"n": "i64?", "word": "utf8?"}, lenient=True) as files:
            self.assertEqual((files.nulled, files.longer), (1, 1))

    def test_nothing_is_told_but_on_a_terminal(self):
        path = self.folder / "trips.csv"
        path.write_bytes(b"1,a\n2,b\n")
        for progress, is_terminal, wanted in [(None, False, ""), (None, True, "\r8 of 8 bytes\n"), (True, False, "\r8 of 8 bytes\n"), (False, True, "")]:
            told = io.StringIO()
            told.isatty = lambda: is_terminal
            with unittest.mock.patch.object(sys, "stderr", told):
                doqallin.index(path, progress=progress).close()
            self.assertEqual(told.getvalue(), wanted)

    def test_a_record_that_is_refused(self):
        path, kinds = self.folder / "bad.csv", {"n": "i64", "word": "utf8"}
        index = Path(f"{path}.zones")
        for text, place, line, column, word in [
            (b"1,a\n2,\"b\nb\"\nx,c\n", 12, 4, "n", b"x"),
            (b"1,a\n" * 100 + b'"1,""2",c\n3,d\n', 400, 101, "n", b'1,"2'),
            (b"1,a\n2\n", 4, 2, None, None),
            (b"1,a\n2,b,c", 4, 2, None, None),
        ]:
            path.write_bytes(b"1,a\n")
            doqallin.index(path, columns=kinds).close()
            before = index.read_bytes()
            path.write_bytes(text)
            for piece in (1 << 22, 3):
                with self.subTest(text, piece=piece), unittest.mock.patch.object(doqallin._files, "_PIECE", piece):
                    with self.assertRaises(BadRecord) as raised:
                        doqallin.index(path, columns=kinds, rows=2)
                    error = raised.exception
                    self.assertEqual((error.place, error.line, error.column, error.word), (place, line, column, word))
                    self.assertIn(f"bad.csv:{line}: ", str(error))
                    self.assertEqual(index.read_bytes(), before)
                    self.assertEqual(sorted(self.folder.glob("*.zones*")), [index])

    def test_what_stands_there(self):
        path = self.folder / "trips.csv"
        path.write_bytes(b"1,a\n")
        index, other = Path(f"{path}.zones"), self.folder / "other"
        other.write_bytes(b"other")
        # Links are not followed. They are passed over, and replaced.
        index.symlink_to(other)
        with self.assertRaisesRegex(BadIndex, "trips.csv.zones is a link"):
            doqallin.open(path)
        with doqallin.open(path, index=False) as files:
            self.assertEqual(files.count(), 1)
        (self.folder / "trips.csv.zones.new1").symlink_to(other)
        doqallin.index(path).close()
        self.assertEqual(other.read_bytes(), b"other")
        self.assertFalse(index.is_symlink())
        with doqallin.open(path) as files:
            self.assertEqual(files.count(), 1)
        self.assertFalse((self.folder / "trips.csv.zones.new2").exists())
        # What cannot be renamed leaves nothing.
        index.unlink()
        index.mkdir()
        with self.assertRaises(OSError):
            doqallin.index(path)
        self.assertFalse((self.folder / "trips.csv.zones.new2").exists())

    def test_a_file_that_changes(self):
        path = self.folder / "trips.csv"
        path.write_bytes(b"1,a\n")
        with self.assertRaises(StaleIndex):
            doqallin.index(path, progress=lambda done, total: path.write_bytes(b"1,a\n2,b\n"))
        self.assertFalse(Path(f"{path}.zones").exists())

    def test_what_is_no_file(self):
        with self.assertRaises(TypeError):
            doqallin.index(io.BytesIO(b"1,a\n"))
        with self.assertRaises(FileNotFoundError):
            doqallin.index(self.folder / "none.csv")
        empty = self.folder / "empty.csv"
        empty.write_bytes(b"")
        with self.assertRaises(NoColumn):
            doqallin.index(empty, header=True)
        with self.assertRaises(ValueError):
            doqallin.index(empty, rows=0)


class OfTheModule(InAFolder):
    """`python -m doqallin`: it answers as the program does, with the same words, rows and status."""

    def run_module(self, *words, text=b"", output=subprocess.PIPE):
        here = {**os.environ, "PYTHONPATH": str(Path(__file__).resolve().parent)}
        ran = subprocess.run([sys.executable, "-m", "doqallin", *map(str, words)], input=text, stdout=output, stderr=subprocess.PIPE, cwd=self.folder, env=here)
        return ran.returncode, ran.stdout, ran.stderr.decode()

    def see_the_same(self, *words, text=b""):
        ran = subprocess.run([PROGRAM, *words], input=text, capture_output=True, cwd=self.folder)
        status, output, told = self.run_module(*words, text=text)
        with self.subTest(words):
            told = told.replace("`python -m doqallin index`", "`zone_map index`")
            self.assertEqual((status, output, told), (ran.returncode, ran.stdout, ran.stderr.decode()))

    def write_several(self):
        for name, text in [("good.csv", b'1,Oslo\n2,"a\nb"'), ("bad.csv", b"3,Bern\nx,Rome\n"), ("other.csv", b"7\n"), ("head.csv", b"id,the city\n1,Oslo\n2,\n")]:
            (self.folder / name).write_bytes(text)

    def test_find_and_count(self):
        rows = random_rows(random.Random(8), 500)
        path = self.written("trips.csv", rows)
        wanted = [row for row in rows if row[1] == "Oslo"]
        self.assertEqual(self.run_module("find", path, "town = 'Oslo'"), (0, text_of(wanted), ""))
        self.assertEqual(self.run_module("count", path, "town = 'Oslo'"), (0, b"%d\n" % len(wanted), ""))
        self.assertEqual(self.run_module("find", path, "id < 0"), (1, b"", ""))
        for words in ["town = 'Oslo'", "id between 100 and 120", "id >= 0", "id < 0", "fare is null and id < 40"]:
            for more in [[], ["--numbers"], ["-H", "--tell"], ["--whole", "--columns", COLUMNS, "--numbers"]]:
                self.see_the_same("find", "trips.csv", *more, words)
            self.see_the_same("count", "--tell", "trips.csv", words)

    def test_several_files(self):
        self.write_several()
        files, columns = ["good.csv", "bad.csv", "good.csv"], ["--columns", "id i64, city utf8"]
        for words in [
            ["find", *files, "id = 2", *columns],
            ["find", *files, "id = 2", *columns, "--no-filename"],
            ["count", *files, "id = 2", *columns],
            ["count", "--where", "id = 2", "--columns", "id i64?, city utf8", *files],
            ["find", "good.csv", "id = 2", *columns],
            ["find", "good.csv", *columns, "-H", "id = 2", "--numbers"],
            ["find", "good.csv", "id = 1", *columns, "--no-filename", "-H"],
            ["find", "good.csv", "id = 1", *columns, "-H", "--no-filename"],
            ["find", "*.csv", "$1 = '1'"],
            ["find", "none.csv", "good.csv", "$1 = 2"],
            ["count", "p*.csv", "$1 = 2"],
            ["find", "other.csv", "good.csv", "city = 'Oslo'"],
            ["find", "head.csv", "id = 2", "--header", "--numbers"],
            ["find", "head.csv", "id = 2", "--header", "--columns", '"the city" utf8?'],
            ["find", "good.csv", "line = '1,Oslo'", "--numbers"],
            ["count", "good.csv", "good.csv", "$1 = 9"],
        ]:
            self.see_the_same(*words)
        text = b"10.0.0.7\n10.0.0.9\n"
        self.see_the_same("find", "-", "line = '10.0.0.9'", "--numbers", text=text)
        self.see_the_same("count", "-", "-H", "$1 = '10.0.0.9'", "--delimiter", "none", "--columns", "$1 utf8", text=text)
        self.see_the_same("find", "-", "good.csv", "id = 1", *columns, text=b"x,y\n")

    def test_what_is_wrong(self):
        self.write_several()
        columns = ["--columns", "id i64, city utf8"]
        for words in [
            ["find", "good.csv", "bad.csv", "city = "],
            ["find", "good.csv", "$1 = 'ä' or $2 = 1"],
            ["find", "good.csv", "$1 = 1 or\n\t$2 + 1"],
            ["find", "bad.csv", "id = 4", *columns],
            ["find", "other.csv", "id = 3", *columns],
            ["find", "none.csv", "id = 3"],
            *(["find", "good.csv", "id = 3", "--columns", text] for text in ("id", "", "id i64,", '"id i64', '"id" i64, "', '"" i64', "i64", "id i64, id utf8")),
            *(["find", "good.csv", "id = 3", "--delimiter", text] for text in ('"', "\n", "ab", "", "é")),
            ["find", "good.csv", "id = 3", "--null", "a\nb"],
        ]:
            self.see_the_same(*words)
        for words in (["find", "good.csv"], ["count", "--where", "id = 1"], ["find", "-e"], ["index"], ["show"], ["none"], []):
            status, output, told = self.run_module(*words)
            self.assertEqual((status, output), (2, b""), words)
            self.assertIn("error: ", told)
        self.assertEqual(self.run_module("find", "good.csv", "id = 3", "--columns", "id i65")[0], 2)
        with open("/dev/full", "wb") as full:
            for names in (["good.csv"], ["good.csv", "none.csv", "good.csv"]):
                status, _, told = self.run_module("find", *names, "id = 1", *columns, output=full)
                self.assertEqual((status, told.splitlines()[-1]), (2, "write failed"))

    def test_index_and_show(self):
        self.write_several()
        words = ["index", "good.csv", "bad.csv", "none.csv", "-", "other.csv", "head.csv"]
        for more in [["--columns", "id i64, city utf8"], ["--rows", "1"], ["--columns", "id i64?, city utf8?", "--lenient", "--bytes", "2"]]:
            self.see_the_same(*words, *more)
            ran = subprocess.run([PROGRAM, *words, *more], capture_output=True, cwd=self.folder)
            wanted = {path.name: path.read_bytes() for path in self.folder.glob("*.zones")}
            self.assertEqual(self.run_module(*words, *more)[0], ran.returncode)
            self.assertEqual({path.name: path.read_bytes() for path in self.folder.glob("*.zones")}, wanted)
        self.see_the_same("index", "head.csv", "--header", "--rows", "1")
        self.see_the_same("find", "*.csv", "good.csv.zones", "id is null", "--tell", "--numbers")
        for name in ("good.csv", "head.csv"):
            shown = subprocess.run([PROGRAM, "show", name], capture_output=True, cwd=self.folder, check=True).stdout
            wanted = b"".join(line for line in shown.splitlines(True) if not line.startswith(b"  "))
            self.assertEqual(self.run_module("show", name), (0, wanted, ""))
        status, _, told = self.run_module("show", "none.csv")
        self.assertEqual((status, told), (2, "none.csv: there is no index; `python -m doqallin index` makes one\n"))
        (self.folder / "good.csv").write_bytes(b"1,Oslo\n")
        status, _, told = self.run_module("find", "good.csv", "id = 1")
        self.assertEqual((status, told), (2, "good.csv: the file has changed since it was indexed; index it again, or say --grown or --append if it was only appended to\n"))
        (self.folder / "good.csv.zones").write_bytes(b"no index at all")
        self.assertEqual(self.run_module("find", "good.csv", "id = 1")[0], 2)


    def test_files_that_grew(self):
        """Rows and indexes of a file that was appended to, and refusals of one that was changed otherwise."""
        path, index = self.folder / "grown.csv", self.folder / "grown.csv.zones"
        first, more = b'id,city\n1,Oslo\n2,"a\nb"\n3,\n', b"4,Oslo\n5,Moss\n6,Oslo\n7,"
        for rows in ("1", "2", "3", "1000"):
            path.write_bytes(first)
            subprocess.run([PROGRAM, "index", path, "--header", "--rows", rows], check=True, stderr=subprocess.DEVNULL)
            before = index.read_bytes()
            self.see_the_same("find", "grown.csv", "id > 1", "--grown", "--numbers")
            path.write_bytes(first + more)
            self.see_the_same("find", "grown.csv", "id > 1")
            for words in [["find", "grown.csv", "city = 'Oslo'", "--numbers"], ["find", "grown.csv", "id > 2", "-H"], ["count", "grown.csv", "id >= 1"], ["count", "grown.csv", "id = 5"]]:
                self.see_the_same(*words, "--grown")
            with doqallin.open(path, grown=True) as files:
                self.assertEqual(files.find("id > 2").to_pydict(), {"id": [3, 4, 5, 6, 7], "city": [None, "Oslo", "Moss", "Oslo", None]})
                self.assertEqual((files.count("id > 2"), files.zones[-1].way), (5, "search"))
            self.see_the_same("index", "grown.csv", "--append")
            wanted = index.read_bytes()
            for piece in (4 << 20, 3):
                index.write_bytes(before)
                with unittest.mock.patch.object(doqallin._files, "_PIECE", piece), doqallin.open(path, grown=True) as files:
                    files.index(progress=False).close()
                self.assertEqual(index.read_bytes(), wanted)
            index.write_bytes(before)
            self.assertEqual(self.run_module("index", "grown.csv", "--append"), (0, b"", ""))
            self.assertEqual(index.read_bytes(), wanted)
            for text in (first[:-3] + b"4,\n" + more, first[:-1] + b"7\n" + more, first[:-1], b""):
                index.write_bytes(before)
                path.write_bytes(text)
                self.see_the_same("find", "grown.csv", "id > 1", "--grown")
                self.see_the_same("index", "grown.csv", "--append")
                with self.assertRaises(StaleIndex):
                    doqallin.open(path, grown=True)
        # An index that ends inside of a record.
        for text, rest in [(b"1,a\n2,b", b"c\n"), (b'1,a\n2,"b', b'"\n'), (b"", b"1,a\n")]:
            path.write_bytes(text)
            subprocess.run([PROGRAM, "index", path, "--columns", "n i64, word utf8"], check=True, stderr=subprocess.DEVNULL)
            path.write_bytes(text + rest)
            self.see_the_same("find", "grown.csv", "n >= 1", "--grown")
            self.see_the_same("index", "grown.csv", "--append")
        self.see_the_same("index", "none.csv", "--append")
        index.unlink()
        self.see_the_same("index", "grown.csv", "--append")
        self.assertEqual(self.run_module("index", "grown.csv", "--append", "--header")[0], 2)


class OfTables(unittest.TestCase):
    def test_names_of_pyarrow(self):
        found = doqallin.table({"n": [1, 2], "word": ["a", None]})
        self.assertEqual((found.num_rows, found.num_columns, found.column_names), (2, 2, ["n", "word"]))
        self.assertEqual(found.column("n"), found.column(0))
        self.assertEqual(found.to_pylist(), [{"n": 1, "word": "a"}, {"n": 2, "word": None}])
        self.assertEqual(pickle.loads(pickle.dumps(found)).to_pydict(), found.to_pydict())

    def test_csv_reads_the_same_fields(self):
        chance = random.Random(9)
        for _ in range(500):
            line = "".join(chance.choices('ab",', k=chance.randrange(1, 8)))
            fields = next(csv.reader([line]))
            if line.count('"') % 2 == 0:
                found = doqallin.open(io.BytesIO(line.encode()), columns={str(place): "utf8" for place in range(len(fields))}).find()
                self.assertEqual([found[name][0] for name in found], fields, line)


if __name__ == "__main__":
    unittest.main()
