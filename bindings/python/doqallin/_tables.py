# SPDX-License-Identifier: Apache-2.0
# SPDX-FileCopyrightText: Copyright the Vortex contributors; ported to Rattle and changed
"""Tables, whose columns are made when they are asked for, or lie there."""

from __future__ import annotations

import importlib
from collections.abc import Callable, Iterable, Iterator, Mapping
from typing import Any

from ._columns import Column
from ._errors import NoColumn, WrongLength
from ._export import schema_of_table, stream_of_table
from ._numpy import is_plain

__all__ = ["Table"]


class Table(Mapping[str, Column]):
    """Columns by name. `doqallin.table` makes one, which is Arrow data itself: others take it uncopied."""

    def __init__(self, makers: Mapping[str, Callable[[], Column]], row_count: int | None) -> None:
        # A column that nobody asks for is not looked at, whatever it holds.
        self._makers, self._row_count = makers, row_count

    def __getitem__(self, name: str) -> Column:
        return self._makers[name]()

    def __iter__(self) -> Iterator[str]:
        return iter(self._makers)

    def __len__(self) -> int:
        return len(self._makers)

    def __contains__(self, name: object) -> bool:
        return name in self._makers

    @property
    def row_count(self) -> int:
        """How many rows there are; if that was not said, as many as the first column has."""
        if self._row_count is None:
            self._row_count = next((len(self[name]) for name in self), 0)
        return self._row_count

    @property
    def num_rows(self) -> int:
        """How many rows there are, by pyarrow's name."""
        return self.row_count

    @property
    def num_columns(self) -> int:
        return len(self)

    @property
    def column_names(self) -> list[str]:
        return list(self)

    def column(self, name: str | int) -> Column:
        """The column of this name, or at this place."""
        return self[list(self)[name] if isinstance(name, int) else name]

    def to_pydict(self) -> dict[str, list[Any]]:
        """The values of each column by its name, with None for a null."""
        return {name: self[name].to_list() for name in self}

    def to_pylist(self) -> list[dict[str, Any]]:
        """A dict for each row."""
        columns = self.to_pydict()
        return [dict(zip(columns, row)) for row in zip(*columns.values())]

    def to_pandas(self) -> Any:
        """A DataFrame of pandas, which has to be installed. Numbers without nulls are arrays, and others lists of values."""
        pandas: Any = importlib.import_module("pandas")
        return pandas.DataFrame({name: one.__array__() if is_plain(one) else one.to_list() for name, one in self.items()})

    def __arrow_c_schema__(self) -> object:
        """The columns' names and formats, in a capsule of Arrow's C data interface."""
        return schema_of_table(dict(self))

    def __arrow_c_stream__(self, requested_schema: object = None) -> object:
        """The columns as a stream of one batch, in a capsule of Arrow's C stream interface. The formats are their own."""
        return stream_of_table(dict(self), self.row_count)

    def __reduce__(self) -> tuple[Any, ...]:
        return of_columns, (dict(self),)

    def __repr__(self) -> str:
        return f"Table({dict(self)!r})"


Batch = Column | Table


def of_columns(columns: Mapping[str, Column]) -> Table:
    """The table of columns that are there."""
    lengths = {len(one) for one in columns.values()}
    if len(lengths) > 1:
        raise WrongLength("the columns are not equally long")
    return table_of(columns, list(columns.values()).__getitem__, next(iter(lengths), 0))


def table_of(names: Iterable[str], make: Callable[[int], Column], row_count: int) -> Table:
    """The table of columns of these names, each made by its place. Of two that have one name, neither can be asked for."""

    def maker(place: int) -> Callable[[], Column]:
        return lambda: make(place)

    def twice(name: str) -> Callable[[], Column]:
        def refuse() -> Column:
            raise NoColumn(f"two columns have the name {name!r}")

        return refuse

    makers: dict[str, Callable[[], Column]] = {}
    for place, name in enumerate(names):
        makers[name] = twice(name) if name in makers else maker(place)
    return Table(makers, row_count)
