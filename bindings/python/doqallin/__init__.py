# SPDX-License-Identifier: Apache-2.0
# SPDX-FileCopyrightText: Copyright the Vortex contributors; ported to Rattle and changed
"""Columns and scalars: statistics, filters that skip what cannot match, keys that sort, and casts that never change a value.

A column is what has Arrow data (`__arrow_c_array__` or `__arrow_c_stream__`), a buffer of numbers (as an array of numpy is), a
Series of pandas, or a list. Arrow data and buffers are read where they lie. Columns have integers, floats, decimals, dates, times,
timestamps, bools, strings or bytes.

Statistics of a column are its counts of rows and nulls, and bounds. Those of parts give those of the whole, in any grouping:

>>> first, second = statistics(["Bergen", "Moss"]), statistics(["Oslo", None])
>>> first | second
Statistics('utf8', rows=4, nulls=1, lower='Bergen', upper='Oslo')

Floats sort as in PostgreSQL, and not as in Python: NaN is equal to itself and above infinity, and -0.0 equals 0.0.

A filter, in SQL's words, says by statistics which parts of a table need not be read, and tests the rows of the others:

>>> wanted = Filter("city = 'Oslo'", {"city": "utf8?"})
>>> wanted.prune([{"city": first}, {"city": second}])
[1]
>>> wanted.mask({"city": ["Oslo", None]})
Column('bool', [True, False])

`open` searches CSV files by such a filter, and reads of them only what may match where they have an index:

>>> import io
>>> open(io.BytesIO(b"id,city\\n1,Oslo\\n2,Bergen\\n"), header=True).find("city like '%o'").to_pydict()
{'id': [1], 'city': ['Oslo']}

Keys of rows sort by their bytes as the rows do, so a store or an index needs no types:

>>> [key.hex() for key in row_keys([["b", "a"], [1, None]])]
['1562000d01', '15610001']
>>> sort_rows([["b", "a"], [1, None]])
Column('i64', [1, 0])
>>> cast([200, None, 7], "u8")
Column('u8', [200, None, 7])

What comes out is Arrow data too: whatever takes Arrow's C interface has a `Column`, and a `table` of columns, uncopied.

A scalar is a type and a value, with casts, an order and a key:

>>> scalar([1, 2, None], "list(u8?)").cast("fsl(i64?, 3)").as_py()
[1, 2, None]

Bounds of values are as short as is asked, and never exclude the value:

>>> lower_bound_text("apple", 3), upper_bound_text("banana", 3)
('app', 'bao')

What goes wrong is a DoqallinError whose class has the refusal's name. The work is done by functions that are proved against
their contracts, in Rattle. This package is their face: it is plain Python, and not proved. It loads `libdoqallin.so`, which is
in an installed package. In the repository `tools/build_bindings` puts it into bindings/out. If `DOQALLIN_LIB` is set, it names
the folder. Scalars and `call` load a second library when they are first used, `libdoqallin_call.so`, which
`tools/build_bindings --call` makes.
"""

from ._bounds import ZoneBounds, column_bounds, column_bounds_text, lower_bound, lower_bound_text, upper_bound, upper_bound_text
from ._casts import cast
from ._columns import Column
from ._errors import (
    BadBytes,
    BadFilter,
    BadIndex,
    BadKey,
    BadOffsets,
    BadRecord,
    BadText,
    BadType,
    CannotCast,
    DoqallinError,
    HasVariant,
    Invalid,
    KindsDiffer,
    LibraryMissing,
    NegativeLength,
    NoColumn,
    NoField,
    NoOrder,
    NotANumber,
    NotAValue,
    NotUtf8,
    OutOfMemory,
    Refused,
    StaleIndex,
    StreamFailed,
    TooDeep,
    TooManyRows,
    TooShort,
    UnknownKind,
    WrongLength,
)
from ._files import Files, FileZone, index, open
from ._filters import Filter, Outcomes, Zones
from ._keys import from_row_keys, row_keys
from ._kinds import Kind
from ._library import call, library_version
from ._literals import literal
from ._reading import column, columns, table
from ._scalars import Scalar, scalar
from ._sorting import sort_rows
from ._statistics import Statistics, TableStatistics, statistics
from ._tables import Table
from ._types import DType, dtype

__all__ = [
    "BadBytes",
    "BadFilter",
    "BadIndex",
    "BadKey",
    "BadOffsets",
    "BadRecord",
    "BadText",
    "BadType",
    "CannotCast",
    "Column",
    "DType",
    "DoqallinError",
    "FileZone",
    "Files",
    "Filter",
    "HasVariant",
    "Invalid",
    "Kind",
    "KindsDiffer",
    "LibraryMissing",
    "NegativeLength",
    "NoColumn",
    "NoField",
    "NoOrder",
    "NotANumber",
    "NotAValue",
    "NotUtf8",
    "OutOfMemory",
    "Outcomes",
    "Refused",
    "Scalar",
    "StaleIndex",
    "Statistics",
    "StreamFailed",
    "Table",
    "TableStatistics",
    "TooDeep",
    "TooManyRows",
    "TooShort",
    "UnknownKind",
    "WrongLength",
    "ZoneBounds",
    "Zones",
    "call",
    "cast",
    "column",
    "column_bounds",
    "column_bounds_text",
    "columns",
    "dtype",
    "from_row_keys",
    "index",
    "library_version",
    "literal",
    "lower_bound",
    "lower_bound_text",
    "open",
    "row_keys",
    "scalar",
    "sort_rows",
    "statistics",
    "table",
    "upper_bound",
    "upper_bound_text",
]

__version__ = "0.1.0"

# Help and pickles name all of these as the package's own.
for _name in __all__:
    globals()[_name].__module__ = "doqallin"
