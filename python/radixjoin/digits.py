"""Whole numbers as digits, by numpy: records that are written of them, and the row numbers of records that are read.

A row's number is written with as many digits as that of each other row of its table, so that it is found again by its place.
"""
from __future__ import annotations

from typing import Any, Optional, Sequence, Tuple

_FEW, _MANY = 10**7, 10**10
_COMMA, _QUOTE, _END, _MINUS, _ZERO = b',"\n-0'


def base_of(rows: int) -> int:
    """What is added to the numbers of so many rows, which count from 0, so that all have as many digits as this has."""
    return _FEW if rows <= 9 * _FEW else _MANY


def _fields_of(numbers: Any, are_null: Any, end: int) -> Any:
    """Fields of one width, as rows of bytes: digits, zeros before others among them, and a byte behind them. A byte that is none is 0."""
    import numpy

    ten, sizes, are_negative = numpy.uint64(10), numpy.abs(numbers).view(numpy.uint64), numbers < 0
    first = int(are_negative.any())
    width = first + len(str(int(sizes.max(initial=0))))
    made = numpy.zeros((len(numbers), width + 1), dtype=numpy.uint8)
    made[are_negative, 0] = _MINUS
    for place in range(width - 1, first - 1, -1):
        tenth = sizes // ten
        made[:, place] = sizes - tenth * ten + numpy.uint64(_ZERO)
        sizes = tenth
    if are_null is not None:
        made[are_null, :-1] = 0
    made[:, -1] = end
    return made


def records_of(columns: Sequence[Tuple[Any, Any]]) -> bytes:
    """The records of columns of whole numbers, each with which of them are null, None where none is: a null is nothing."""
    import numpy

    ends = [_COMMA] * (len(columns) - 1) + [_END]
    made = numpy.concatenate([_fields_of(*column, end) for column, end in zip(columns, ends)], axis=1).ravel()
    written: bytes = (made if made.all() else made[made != 0]).tobytes()
    return written


def ends_of(records: Any) -> Any:
    """Where the line feeds stand that end records, of bytes that are whole records: those outside quotes."""
    import numpy

    ends = numpy.flatnonzero(records == _END)
    quotes = numpy.flatnonzero(records == _QUOTE)
    return ends[numpy.searchsorted(quotes, ends) % 2 == 0] if len(quotes) else ends


def numbers_at(records: Any, starts: Any, base: int) -> Tuple[Any, Any]:
    """The row numbers that begin at some bytes of records, and -1 where something else does; and which of them are numbers."""
    import numpy

    width = len(str(base))
    are = _is_digit(records.take(starts, mode="clip"))
    at, found = starts[are], numpy.zeros(int(are.sum()), dtype=numpy.int64)
    for place in range(width):
        found = found * 10 + (records[at + place] - numpy.uint8(_ZERO))
    numbers = numpy.full(len(starts), -1, dtype=numpy.int64)
    numbers[are] = found - base
    return numbers, are


def numbers_before(records: Any, ends: Any, base: int, null: int) -> Tuple[Any, Any]:
    """The row numbers that end before some bytes of records, -1 where a null stands there, whose text has so many bytes and no digit;
    and where the field before each of them ends."""
    import numpy

    width = len(str(base))
    are = _is_digit(records[ends - 1])
    starts = ends - numpy.where(are, width, null)
    return numpy.where(are, numbers_at(records, numpy.maximum(starts, 0), base)[0], -1), starts - 1


def _is_digit(some: Any) -> Any:
    return some - _ZERO < 10
