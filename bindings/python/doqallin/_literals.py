# SPDX-License-Identifier: Apache-2.0
# SPDX-FileCopyrightText: Copyright the Vortex contributors; ported to Rattle and changed
"""Literals of filters."""

from __future__ import annotations

import math
from datetime import date, time
from decimal import Decimal

from ._errors import NotAValue

__all__ = ["literal"]


def literal(value: object) -> str:
    """The value as the text of a filter has it.

    It takes None, `bool`, `int`, `float`, `str`, `bytes`, `Decimal`, `date`, `time` and `datetime`. Quotes in strings are doubled,
    so that no string ends early. What a literal means, its column says: of `decimal(10,2)` 10.5 is 10.50, of `f32` it is a float,
    and of timestamps with a zone a `datetime` without one is in UTC.
    Raises NotAValue of a decimal that is no number.

    >>> from datetime import date
    >>> from decimal import Decimal
    >>> from doqallin import Filter
    >>> literal("O'Hara"), literal(1.5), literal(date(2026, 3, 1)), literal(float("nan"))
    ("'O''Hara'", '1.5', "'2026-03-01'", "'NaN'")
    >>> list(Filter(f"fare >= {literal(Decimal('12.30'))}", {"fare": "decimal(10,2)"}).mask({"fare": [Decimal("12.3"), None]}))
    [True, False]
    """
    if value is None:
        return "null"
    if isinstance(value, bool):
        return "true" if value else "false"
    if isinstance(value, int):
        return int.__repr__(value)
    if isinstance(value, float):
        return float.__repr__(value) if math.isfinite(value) else "'NaN'" if value != value else "'inf'" if value > 0 else "'-inf'"
    if isinstance(value, Decimal):
        if not value.is_finite():
            raise NotAValue(f"{value} is no number, and decimals have no other values")
        return f"{value:f}"
    if isinstance(value, str):
        return "'" + value.replace("'", "''") + "'"
    if isinstance(value, (bytes, bytearray, memoryview)):
        return f"x'{bytes(value).hex()}'"
    if isinstance(value, (date, time)):
        return f"'{value.isoformat()}'"
    raise TypeError(f"a {type(value).__name__} is no literal of a filter")
