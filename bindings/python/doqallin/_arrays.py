# SPDX-License-Identifier: Apache-2.0
# SPDX-FileCopyrightText: Copyright the Vortex contributors; ported to Rattle and changed
"""Arrays of numpy, and Series and DataFrames of pandas, where these are loaded. Nothing here loads them."""

from __future__ import annotations

import sys
from typing import Any

from ._columns import EMPTY, Column, buffer_of, fitted, of_list, of_view
from ._errors import NotAValue, UnknownKind, at
from ._kinds import DATE, TIMESTAMP, UNITS, ZONED, ColumnKind
from ._tables import Table, table_of
from ._types import DType

__all__: list[str] = []

_DURATIONS = "durations are not taken: give the integers"


def _is_a(values: Any, module: str, *names: str) -> bool:
    """Whether the values are of a class of a module that is loaded."""
    loaded = sys.modules.get(module)
    return loaded is not None and any(isinstance(values, getattr(loaded, name, ())) for name in names)


def is_frame(values: Any) -> bool:
    return _is_a(values, "pandas", "DataFrame")


def is_series(values: Any) -> bool:
    return _is_a(values, "pandas", "Series", "Index")


def is_time_array(values: Any) -> bool:
    return _is_a(values, "numpy", "ndarray") and values.dtype.kind in "mM"


def is_masked(values: Any) -> bool:
    return _is_a(values, "numpy.ma", "MaskedArray")


def _numpy() -> Any:
    return sys.modules["numpy"]


def _with_nulls(one: Column, missing: Any) -> Column:
    """The column, null where `missing` has a truth."""
    validity = buffer_of(_numpy().packbits(~missing, bitorder="little").tobytes()) if missing.any() else EMPTY
    return Column._of(one._kind, len(one), one._values, validity=validity)


def _as_kind(one: Column, kind: ColumnKind) -> Column:
    return Column._of(kind, len(one), one._values, validity=one._validity)


def of_times(values: Any, is_zoned: bool = False) -> Column:
    """The column of an array of datetime64: timestamps, or dates if its unit is a day. NaT is null."""
    unit, count = _numpy().datetime_data(values.dtype)
    if values.dtype.kind == "m":
        raise UnknownKind(f"{values.dtype}: {_DURATIONS}, as by .astype('i8')")
    if count != 1 or unit not in (*UNITS, "D"):
        raise UnknownKind(f"{values.dtype} has another unit than {', '.join(UNITS)} and D: cast it to datetime64[s]")
    if not values.dtype.isnative:
        raise UnknownKind("the items of the array have their bytes in another order")
    missing, numbers = _numpy().isnat(values), values.view("i8")
    if unit == "D":
        return _with_nulls(_dates(_numpy().where(missing, 0, numbers)), missing)
    kind = ColumnKind((ZONED if is_zoned else TIMESTAMP) + list(UNITS).index(unit))
    return _with_nulls(_as_kind(of_view(memoryview(numbers)), kind), missing)


def of_masked(values: Any) -> Column:
    """The column of a masked array, null where it is masked."""
    if values.dtype.kind in "mM":
        return of_times(_numpy().asarray(values.filled(_numpy().datetime64("NaT"))))
    return _with_nulls(of_view(memoryview(values.data)), _numpy().ma.getmaskarray(values))


def _dates(numbers: Any) -> Column:
    """The column of days, which numpy has in 64 bits, and Arrow in 32."""
    days = numbers.astype("i4")
    wrong = _numpy().flatnonzero(days != numbers)
    if len(wrong):
        row = int(wrong[0])
        raise at(NotAValue(f"date does not have day {numbers[row]} at index {row}: 32 bits do not hold it"), row)
    return _as_kind(of_view(memoryview(days)), ColumnKind(DATE))


def of_series(series: Any, of: str | DType | None) -> Column:
    """The column of a Series. What pandas means by NaN, NaT, NA and None is null."""
    pandas = sys.modules["pandas"]
    dtype = series.dtype
    if isinstance(dtype, getattr(pandas, "CategoricalDtype")):
        if dtype.categories.dtype != object:
            raise UnknownKind(f"categories of {dtype.categories.dtype} are not decoded: .astype({str(dtype.categories.dtype)!r}) does so")
        return _of_objects(series, of)
    if isinstance(dtype, getattr(pandas, "DatetimeTZDtype")):
        return of_times(_moments(series), is_zoned=True)
    if isinstance(dtype, _numpy().dtype):
        return _of_objects(series, of) if dtype == object else _of_numbers(series.to_numpy(), dtype)
    if hasattr(dtype, "numpy_dtype") and dtype.kind in "iufb":
        # The numbers and the nulls are apart in such a Series.
        one = of_view(memoryview(series.to_numpy(dtype.numpy_dtype, na_value=0)))
        return _with_nulls(one, _numpy().asarray(series.isna()))
    if str(dtype) in ("string", "str"):
        return _of_objects(series, of)
    raise UnknownKind(f"a Series of {dtype} is no column")


def _moments(series: Any) -> Any:
    """The array of a Series with a zone, in UTC."""
    stamps = getattr(series, "dt", series)
    utc = stamps.tz_convert("UTC")
    return getattr(utc, "dt", utc).tz_localize(None).to_numpy()


def _of_numbers(values: Any, dtype: Any) -> Column:
    """The column of a Series with an array of numpy."""
    if dtype.kind in "mM":
        return of_times(values)
    one = of_view(memoryview(values))
    return _with_nulls(one, _numpy().isnan(values)) if dtype.kind == "f" else one


def _of_objects(series: Any, of: str | DType | None) -> Column:
    """The column of a Series of Python's objects."""
    values, missing = series.tolist(), series.isna().tolist()
    return of_list([None if is_missing else value for value, is_missing in zip(values, missing)], of)


def of_frame(frame: Any, of: str | DType | None) -> Table:
    """The table of a DataFrame. Its index is no column."""
    return table_of(map(str, frame.columns), lambda place: fitted(of_series(frame.iloc[:, place], of), of), len(frame))
