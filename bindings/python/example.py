# SPDX-License-Identifier: Apache-2.0
"""Two casts, and the statistics of a column of strings with the filters that they rule out."""

import doqallin
from doqallin import Filter, Kind, statistics

print(doqallin.cast(1000, Kind.I32, Kind.I16), doqallin.cast(1000, Kind.I32, Kind.I8))

known = statistics(["banana", "apple", None, "cherry pie with cream"], max_bytes=16)
print(known.lower, "to", known.upper)
for literal in ["cherry", "zucchini"]:
    wanted = Filter(f"fruit = '{literal}'", {"fruit": "utf8?"})
    print(f"{literal}:", "maybe" if wanted.may_match({"fruit": known}) else "no")
