# SPDX-License-Identifier: Apache-2.0
# SPDX-FileCopyrightText: Copyright the Vortex contributors; ported to Rattle and changed
"""Values of logical types as Python has them, and as the items of a column that store them."""

from __future__ import annotations

import struct
from collections.abc import Callable, Iterable, Sequence
from datetime import date, datetime, time, timedelta, timezone
from decimal import Decimal
from typing import Any

from ._errors import NotAValue, UnknownKind, at
from ._kinds import DATE, DECIMAL32, F32, F64, TIME, TIMESTAMP, UNITS, ZONED, ColumnKind, decimal_kind

__all__: list[str] = []

_EPOCH = datetime(1970, 1, 1)
_EPOCH_DAY = _EPOCH.toordinal()
_DAY = timedelta(days=1)
_MICROSECOND = timedelta(microseconds=1)


def _same(item: Any) -> Any:
    return item


def _date_of(day: int) -> date:
    return date.fromordinal(_EPOCH_DAY + day)


def _moment_of(number: int, unit: str) -> datetime:
    """So many of the unit after 1970-01-01. Python has microseconds, and the years 1 to 9999."""
    microseconds, rest = divmod(number * 10**6, UNITS[unit])
    if rest:
        raise ValueError(f"{number} nanoseconds are no whole number of microseconds")
    return _EPOCH + microseconds * _MICROSECOND


def _time_of(number: int, unit: str) -> time:
    moment = _moment_of(number, unit)
    if not _EPOCH <= moment < _EPOCH + _DAY:
        raise ValueError("a day has no such time")
    return moment.time()


def _decimal_of(number: int, scale: int) -> Decimal:
    return Decimal((number < 0, tuple(map(int, str(abs(number)))), -scale))


def _reader(kind: ColumnKind) -> Callable[[Any], Any]:
    if kind.code >= DECIMAL32:
        return lambda number: _decimal_of(number, kind.scale)
    if kind.code >= ZONED:
        return lambda number: _moment_of(number, kind.unit).replace(tzinfo=timezone.utc)
    if kind.code >= TIMESTAMP:
        return lambda number: _moment_of(number, kind.unit)
    if kind.code >= TIME:
        return lambda number: _time_of(number, kind.unit)
    return _date_of if kind.code == DATE else _same


def _none(words: str, place: int, item: Any) -> NotAValue:
    error = at(NotAValue(words), place)
    error.item = item
    return error


def values_of(kind: ColumnKind, items: Iterable[Any], first: int = 0) -> list[Any]:
    """The values that the items of a column store, from this row on. Those of nulls are None.

    Raises NotAValue with the row of the first that stores none, or one that Python does not have.
    """
    read, found = _reader(kind), []
    if read is _same:
        return list(items)
    for row, item in enumerate(items, first):
        try:
            found.append(None if item is None else read(item))
        except (ValueError, OverflowError) as error:
            raise _none(f"Python has no {kind} for {item} at row {row}: {error}", row, item) from None
    return found


def value_of(kind: ColumnKind, item: bytes) -> Any:
    """The value that one item stores, by its bytes."""
    if kind.code in (F32, F64):
        return struct.unpack("<f" if kind.code == F32 else "<d", item)[0]
    return values_of(kind, [int.from_bytes(item, "little", signed=kind.is_logical or str(kind)[0] == "i")])[0]


# Which Python types a kind takes. A datetime is no date here, and a bool no number.
_FLOATS, _DECIMALS = (float, int), (Decimal, int)


def _types_of(kind: ColumnKind) -> tuple[type, ...]:
    if kind.code >= DECIMAL32:
        return _DECIMALS
    if kind.code >= TIMESTAMP:
        return (datetime,)
    if kind.code >= TIME:
        return (time,)
    return (date,) if kind.code == DATE else _FLOATS


def takes(kind: ColumnKind, types: set[type]) -> bool:
    """Whether values of these types are of this logical type."""
    allowed = _types_of(kind)
    return all(of in allowed or (float in allowed and of is not bool and issubclass(of, (float, int))) for of in types)


def _items_after_epoch(moment: datetime, unit: str) -> int:
    number, rest = divmod((moment - _EPOCH) // _MICROSECOND * UNITS[unit], 10**6)
    if rest:
        raise ValueError(f"its unit is {unit}")
    return number


def _timestamp(kind: ColumnKind, value: datetime) -> int:
    if (value.tzinfo is None) == (kind.code >= ZONED):
        raise ValueError("it has a zone" if value.tzinfo else "it has no zone")
    if value.tzinfo:
        value = value.replace(tzinfo=None) - (value.utcoffset() or timedelta())
    return _items_after_epoch(value, kind.unit)


def _time(kind: ColumnKind, value: time) -> int:
    if value.tzinfo is not None:
        raise ValueError("it has a zone")
    return _items_after_epoch(datetime.combine(_EPOCH, value), kind.unit)


def _decimal(kind: ColumnKind, value: Decimal | int) -> int:
    sign, digits, exponent = Decimal(value).as_tuple()
    if not isinstance(exponent, int):
        raise ValueError("it is no number")
    number, shift = int("".join(map(str, digits))), exponent + kind.scale
    if number and shift > 38:
        raise ValueError("it has too many digits")
    number, rest = (number * 10 ** min(shift, 38), 0) if shift >= 0 else divmod(number, 10 ** min(-shift, len(digits) + 1))
    if rest or number >= 10**kind.precision:
        raise ValueError("it has digits behind the last place" if rest else "it has too many digits")
    return -number if sign else number


def _float(kind: ColumnKind, value: float) -> float:
    """A float as it is, or the nearest one of 32 bits; an integer only if it is one of the kind."""
    found = float(value)
    nearest: float = struct.unpack("<f", struct.pack("<f", found))[0] if kind.code == F32 else found
    if isinstance(value, int) and nearest != value:
        raise ValueError("it is no float")
    return nearest


def _writer(kind: ColumnKind) -> Callable[[Any], Any]:
    if kind.code >= DECIMAL32:
        return lambda value: _decimal(kind, value)
    if kind.code >= TIMESTAMP:
        return lambda value: _timestamp(kind, value)
    if kind.code >= TIME:
        return lambda value: _time(kind, value)
    if kind.code == DATE:
        return lambda value: value.toordinal() - _EPOCH_DAY
    return lambda value: _float(kind, value)


_LETTERS = {4: "i", 8: "q"}


def items_of(kind: ColumnKind, values: Sequence[Any]) -> bytes:
    """The items of a column that store these values, 0 for a None.

    Raises NotAValue with the place of the first value that the kind does not have, as it is.
    """
    write, found = _writer(kind), []
    for place, value in enumerate(values):
        try:
            found.append(0 if value is None else write(value))
        except (ValueError, OverflowError) as error:
            raise _none(f"{kind} does not have {value!r} at index {place}: {error}", place, value) from None
    if kind.width == 16:
        return b"".join(number.to_bytes(16, "little", signed=True) for number in found)
    letter = {F32: "f", F64: "d"}.get(kind.code, _LETTERS[kind.width])
    try:
        return struct.pack(f"<{len(found)}{letter}", *found)
    except struct.error:
        place = next(place for place, number in enumerate(found) if not -(2**63) <= number < 2**63)
        raise _none(f"{kind} does not have {values[place]!r} at index {place}: 64 bits do not hold it", place, values[place]) from None


def _decimals_of(values: Sequence[Any]) -> ColumnKind:
    """The decimals of the fewest digits that have each of the values."""
    whole = behind = 0
    for value in values:
        if value is not None:
            _, digits, exponent = Decimal(value).as_tuple()
            places = exponent if isinstance(exponent, int) else 0
            whole, behind = max(whole, len(digits) + places), max(behind, -places)
    kind = decimal_kind(max(1, whole + behind), behind)
    if kind is None:
        raise NotAValue(f"decimals have at most 38 digits, and the values take {whole + behind}")
    return kind


def logical_kind_of(values: Sequence[Any], types: set[type]) -> ColumnKind | None:
    """The logical type of a list's values, if they have one."""
    if any(issubclass(of, float) for of in types):
        return ColumnKind(F64) if takes(ColumnKind(F64), types) else None
    if Decimal in types:
        return _decimals_of(values) if types <= {Decimal, int} else None
    if types == {date}:
        return ColumnKind(DATE)
    microseconds = list(UNITS).index("us")
    if types == {time}:
        return ColumnKind(TIME + microseconds)
    if types == {datetime}:
        zones = {value.tzinfo is not None for value in values if value is not None}
        if len(zones) > 1:
            raise UnknownKind("some of the datetimes have a zone, and some have none")
        return ColumnKind((ZONED if zones.pop() else TIMESTAMP) + microseconds)
    return None
