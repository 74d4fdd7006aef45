"""Results as frames: columns of frames by the numbers of their rows, which the program wrote, and the others of the fields that it wrote.

That a row of these numbers is in the joined table is proved. That the cells are taken from there is tested.
"""
from __future__ import annotations

import decimal
from typing import Any, Dict, Iterable, Iterator, List, Mapping, NamedTuple, Optional, Protocol, Sequence, Tuple

from .clauses import Places, result_places
from .columns import Column, reader_of
from .digits import ends_of, numbers_at, numbers_before
from .dtypes import Builder, common, with_nulls
from .frames import FrameTable
from .tables import Table

# Texts of a result's column that are made one object where they are equal: no more different ones than these.
_SHARED = 65_536
_MERGED = ("left_only", "right_only", "both")
# Room for the digits of any number in any scale.
_EXACT = decimal.Context(prec=64)


# The place of the number of a frame's row, among the places of its columns.
_ROW = -1


class Pieces(Protocol):
    """What the program writes behind its header."""

    pieces: Iterable[bytes]

    def fields(self) -> Iterator[List[str]]:
        """Its fields, some at a time."""


class Written(NamedTuple):
    """What the program wrote: the tables of the join, the columns that it was given of them and that stand once, of which table it wrote
    the columns, and its null text."""

    tables: Sequence[Table]
    once: Sequence[Tuple[int, int]]
    which: str
    null: str

    def origins(self) -> List[Places]:
        """Where each column that was written comes from: its places in the tables."""
        places = [[_ROW if at is None else at for at in it.places()] if isinstance(it, FrameTable) else list(range(len(it.words()))) for it in self.tables]
        given = result_places(self.once, len(places[0]), len(places[1]), self.which)
        return [(None if i is None else places[0][i], None if j is None else places[1][j]) for i, j in given]

    def are_frames(self) -> bool:
        return all(isinstance(it, FrameTable) for it in self.tables)


def row_numbers(written: Written, pieces: Iterable[bytes]) -> List[Any]:
    """The numbers of the left and right rows of two frames that the rows of the result are made of, -1 for none; None for a side of
    which nothing was written."""
    import numpy

    # (from the end of a record on)
    sides = [0] if written.which == "left" else [1, 0]
    found: List[List[Any]] = [[numpy.zeros(0, dtype=numpy.int32)], [numpy.zeros(0, dtype=numpy.int32)]]
    for piece in pieces:
        records = numpy.frombuffer(piece, dtype=numpy.uint8)
        ends = ends_of(records)
        starts = numpy.concatenate([[0], ends[:-1] + 1])
        for at in sides:
            frame: Any = written.tables[at]
            if frame.is_row_first:
                numbers = numbers_at(records, starts, frame.base)[0]
            else:
                numbers, ends = numbers_before(records, ends, frame.base, len(written.null))
            found[at].append(numbers.astype(numpy.int32))
    return [numpy.concatenate(found[at]) if at in sides else None for at in (0, 1)]


class _Shared:
    """Makes equal texts of a column one object, as long as that leaves out at least half of them."""

    def __init__(self) -> None:
        self.known: Optional[Dict[Any, Any]] = {}

    def of(self, cells: List[Any]) -> List[Any]:
        if self.known is None:
            return cells
        before = len(self.known)
        shared = list(map(self.known.setdefault, cells, cells))
        if len(self.known) > _SHARED or len(self.known) - before > len(cells) / 2:
            self.known = None
        return shared


def built(columns: Sequence[Column], wanted: Sequence[int], null: str, fields: Iterator[List[str]]) -> List[Any]:
    """Some columns of a result as arrays, of all its fields, some rows at a time; None for the others."""
    width = len(columns)
    made = [(at, reader_of(columns[at], null), Builder(columns[at]), _Shared() if columns[at].kind == "text" else None) for at in wanted]
    for some in fields:
        for at, read, builder, shared in made:
            cells = read(some[at::width])
            builder.add(cells if shared is None else shared.of(cells))
    arrays: List[Any] = [None] * width
    for at, _, builder, _ in made:
        arrays[at] = builder.made()
    return arrays


def taken(series: Any, rows: Any) -> Any:
    """The cells of some rows of a column, as an array; a null for -1. A column of plain numbers or truth values gets a dtype that has nulls."""
    import numpy
    import pandas

    are_none = rows < 0
    if not are_none.any():
        return series.array.take(rows)
    is_plain = isinstance(series.dtype, numpy.dtype) and series.dtype.kind in "iub"
    if not is_plain and series.dtype != object:
        made = series.array.take(rows, allow_fill=True)
        if isinstance(series.dtype, numpy.dtype) or made.dtype == series.dtype:
            return made
        # (sparse integers would become floats)
    values = numpy.asarray(series, dtype=series.dtype if is_plain else object)
    values = values.take(rows, mode="clip") if len(values) else numpy.zeros(len(rows), dtype=values.dtype)
    if is_plain:
        return type(pandas.array([], dtype=with_nulls(series.dtype)))(values, are_none)
    values[are_none] = pandas.NA
    return values


def taken_once(left: Tuple[Any, Column], right: Tuple[Any, Column], rows: Sequence[Any]) -> Any:
    """The cells of a column that stands once for two, each from the left row, or where there is none from the right one."""
    import numpy
    import pandas

    made = left[1].coalesced(right[1])
    dtype = object if made.kind == "num" else common(left[1], right[1])
    columns = [it if it.dtype == dtype else it.astype(dtype) for it, _ in (left, right)]
    if (rows[0] >= 0).all():
        cells = columns[0].array.take(rows[0])
    else:
        both = pandas.concat(columns, ignore_index=True)
        cells = both.array.take(numpy.where(rows[0] >= 0, rows[0], rows[1] + numpy.int64(len(left[0]))))
    if made.kind != "num":
        return cells
    unit = decimal.Decimal(1).scaleb(-made.scale)
    exact = [pandas.NA if cell is pandas.NA or cell is None or cell != cell else decimal.Decimal(cell).quantize(unit, context=_EXACT) for cell in cells]
    return numpy.array([*exact, None], dtype=object)[:-1]


def merged(rows: Sequence[Any]) -> Any:
    """Of which tables each row is made, as `indicator=` of pandas tells it."""
    import numpy
    import pandas

    is_left, is_right = (numpy.ones(len(rows[0]), dtype=bool) if it is None else it >= 0 for it in rows)
    return pandas.Categorical.from_codes(numpy.where(is_left, numpy.where(is_right, 2, 0), 1), categories=_MERGED)


def frame_of_rows(written: Written, places: Sequence[Places], rows: Sequence[Any], arrays: Mapping[Places, Any]) -> Any:
    """The frame of a result, whose columns come from these places: those of frames are taken by the rows' numbers, and the others are there."""
    import pandas

    made = {at: arrays[origin] if origin in arrays else _of_frames(written, origin, rows) for at, origin in enumerate(places)}
    # (objects that are times would become a column of times)
    kept = {at: pandas.Series(it, dtype=object, copy=False) if str(it.dtype) == "object" else it for at, it in made.items()}
    return pandas.DataFrame(kept, copy=False)


def _of_frames(written: Written, origin: Places, rows: Sequence[Any]) -> Any:
    """A column that comes from one frame, or from two."""
    frames: Any = written.tables
    at = 0 if origin[1] is None else 1
    if None in origin:
        return taken(frames[at].series[origin[at]], rows[at])
    both = [(frame.sent[place].series, frame.sent[place].column()) for frame, place in zip(frames, origin)]
    return taken_once(both[0], both[1], rows)


def rows_and_arrays(written: Written, places: Sequence[Places], columns: Sequence[Column], result: "Pieces") -> Tuple[List[Any], Dict[Places, Any]]:
    """The row numbers of frames of each row of a result, whose columns come from these places; and those columns, by their places, that aren't
    taken from frames by them: of another table, or of it and a frame."""
    if written.are_frames():
        return row_numbers(written, result.pieces), {}
    origins = written.origins()
    is_frame = [isinstance(it, FrameTable) for it in written.tables]
    others = [it for it in places if None not in it or not is_frame[0 if it[1] is None else 1]]
    numbered = [it for it in origins if _ROW in it]
    arrays = built(columns, [origins.index(it) for it in [*others, *numbered]], written.null, result.fields())
    rows: List[Any] = [None, None]
    for it in numbered:
        frame: Any = written.tables[it.index(_ROW)]
        rows[it.index(_ROW)] = arrays[origins.index(it)].to_numpy(dtype="int64", na_value=frame.base - 1) - frame.base
    return rows, {it: arrays[origins.index(it)] for it in others}
