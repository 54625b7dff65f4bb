# SPDX-License-Identifier: Apache-2.0
"""Columns: a cast of all rows or none, and keys that sort as the rows do, in a table of SQLite."""

import sqlite3

from doqallin import cast, row_keys

cities, fares = ["oslo", "oslo", "skien"], [40, None, 3]
print("as u8:", *cast(fares, "u8"))

# Cities first, and then fares, the greatest first and nulls before them.
keys = row_keys([cities, fares], descending=[False, True], nulls_first=[False, True])
for row, key in enumerate(keys):
    print(f"key {row}:", key.hex())

store = sqlite3.connect(":memory:")
store.execute("create table rides (key blob primary key, city text, fare integer) without rowid")
store.executemany("insert into rides values (?, ?, ?)", zip(keys, cities, fares))
for city, fare in store.execute("select city, fare from rides order by key"):
    print(city, fare)
