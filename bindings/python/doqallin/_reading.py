# SPDX-License-Identifier: Apache-2.0
# SPDX-FileCopyrightText: Copyright the Vortex contributors; ported to Rattle and changed
"""What a caller has, as columns."""

from __future__ import annotations

from collections.abc import Callable, Generator, Iterable, Mapping, Sequence, Sized
from typing import Any

from ._arrays import is_frame, is_masked, is_series, is_time_array, of_frame, of_masked, of_series, of_times
from ._arrow import is_arrow, reading
from ._columns import Column, fitted, joined, of_list, of_view
from ._errors import NoColumn, UnknownKind, WrongLength
from ._library import RawColumn
from ._tables import Batch, Table, of_columns
from ._types import DType

__all__ = ["column", "columns", "table"]


def table_of_parts(parts: Mapping[str, Any], of: Callable[[str], str | DType | None]) -> Table:
    """The table of parts by name. Each is a column of the kind that its name has."""

    def maker(name: str) -> Callable[[], Column]:
        return lambda: column(parts[name], of(name))

    first = next(iter(parts.values()), ())
    return Table({name: maker(name) for name in parts}, len(first) if isinstance(first, Sized) else None)


def _plain(values: Any, of: str | DType | None) -> Batch:
    """The column or the table of what is no Arrow data."""
    if isinstance(values, Column):
        return fitted(values, of)
    if isinstance(values, Mapping):
        return table_of_parts(values, lambda name: of)
    if isinstance(values, (list, tuple, range)):
        return of_list(values, of)
    if is_frame(values):
        return of_frame(values, of)
    if is_series(values):
        return fitted(of_series(values, of), of)
    if is_masked(values):
        return fitted(of_masked(values), of)
    if is_time_array(values):
        return fitted(of_times(values), of)
    try:
        view = memoryview(values)
    except (TypeError, ValueError, BufferError):
        raise UnknownKind(f"a {type(values).__name__} is no column: it has no Arrow data, no buffer of numbers, and is no list") from None
    return fitted(of_view(view), of)


def each_batch(values: Any, of: str | DType | None = None) -> Generator[Batch, None, None]:
    """The batches of what a caller has, at least one. What the caller lets go is released before the next one comes."""
    if not is_arrow(values):
        yield _plain(values, of)
        return
    with reading(values) as reader:
        for batch in reader.batches():
            yield fitted(batch, of) if isinstance(batch, Column) else batch
            del batch


def column(values: Any, of: str | DType | None = None) -> Column:
    """A column of Arrow data, of a buffer of numbers, of a Series of pandas, or of a list.

    Arrow data is what has `__arrow_c_array__` or `__arrow_c_stream__`. It is not copied, and nor is a buffer, unless its items lie
    apart, or a stream has several chunks. What a caller changes in a buffer changes the column.

    A list has `int`, `float`, `bool`, `str`, `bytes`, `Decimal`, `date`, `time` or `datetime`, and None. Without a kind, integers
    are `i64`, or `u64` if one is above it, and decimals have the fewest digits that hold all. Times and timestamps are in
    microseconds, and a `datetime` with a zone makes a timestamp with one.

    Arrays of numpy may be of `datetime64`, and NaT is null; a NaN is a value. In a Series both are null, as pandas means them,
    and so are None and NA; strings may be objects, and categories of strings are decoded.

    Raises UnknownKind for other kinds, KindsDiffer if `of` is another kind than that of the data, and NotAValue if the kind does
    not have a value of a list.

    >>> column(["Oslo", None])
    Column('utf8', ['Oslo', None])
    >>> import array
    >>> column(array.array("H", [1, 2]))
    Column('u16', [1, 2])
    >>> column([0.5, None])
    Column('f64', [0.5, None])
    >>> from decimal import Decimal
    >>> column([Decimal("9.5"), Decimal("10.25")], of="decimal(10,2)")
    Column('decimal(10,2)', [Decimal('9.50'), Decimal('10.25')])
    """
    chunks = list(each_batch(values, of))
    found = [chunk for chunk in chunks if isinstance(chunk, Column)]
    if len(found) < len(chunks):
        raise UnknownKind("a struct has many columns: doqallin.columns gives them")
    return joined(found)


def columns(table: Any, names: Iterable[str] | None = None) -> dict[str, Column]:
    """The columns of an Arrow table or record batch, of a DataFrame of pandas, or of a dict, by their names.

    Without `names` they are all columns. With them the others are not looked at: a table may have some that cannot be read.

    >>> columns({"fare": [12, 7], "city": ["Oslo", "Bergen"]})["city"]
    Column('utf8', ['Oslo', 'Bergen'])
    """
    wanted = None if names is None else list(names)
    chunks = list(each_batch(table))
    tables = [chunk for chunk in chunks if isinstance(chunk, Table)]
    if len(tables) < len(chunks):
        raise UnknownKind("this is one column, and no table")
    return {name: joined([named(part, name) for part in tables]) for name in (tables[0] if wanted is None else wanted)}


def table(data: Any, names: Iterable[str] | None = None) -> Table:
    """The same columns as a `Table`, which goes on uncopied into what takes Arrow data.

    Raises WrongLength if the columns are not equally long.

    >>> cities = column(["Oslo", "Bergen", None])
    >>> found = table({"city": cities, "known": [True, True, False]})
    >>> found
    Table({'city': Column('utf8', ['Oslo', 'Bergen', None]), 'known': Column('bool', [True, True, False])})
    >>> hasattr(found, "__arrow_c_stream__")
    True
    """
    return of_columns(columns(data, names))


def named(table: Mapping[str, Column], name: str) -> Column:
    if name not in table:
        raise NoColumn(f"there is no column {name!r}")
    return table[name]


def raw_columns(each: Sequence[Column]) -> Any:
    """Columns as C takes them, behind one another. There is memory for one even if there is none."""
    if any(len(one) != len(each[0]) for one in each):
        raise WrongLength("the columns are not equally long")
    return (RawColumn * max(1, len(each)))(*[one._raw() for one in each])
