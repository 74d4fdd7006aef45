"""Tables of pandas' DataFrames, and their text: of all columns, or of those that a clause compares, with the numbers of the rows."""
from __future__ import annotations

from typing import Any, Collection, Dict, FrozenSet, Iterator, List, Optional, Sequence, Tuple

from . import text
from .columns import Column, Types, declared_of
from .digits import base_of, records_of
from .dtypes import declared_series, refuse_without_text
from .keys import ROWS, KeyColumn
from .tables import Table


def is_frame(table: Any) -> bool:
    """Whether a table is a DataFrame; pandas is not imported for that."""
    return any(it.__name__ == "DataFrame" and it.__module__.partition(".")[0] == "pandas" for it in type(table).__mro__)


class FrameTable(Table):
    """A frame, whose index is left out. Its text is made piece by piece, while the program reads it."""

    def __init__(self, side: str, frame: Any, types: Types) -> None:
        self.side = side
        self.rows = len(frame)
        self._names: List[str] = list(frame.columns)
        for name in self._names:
            if not isinstance(name, str):
                raise TypeError(f"the {side} column {name!r} has a name that is no str: rename it, as by frame.columns = frame.columns.map(str)")
        self.declared = declared_of(side, types, self._names)
        self.series = [declared_series(frame.iloc[:, at], word) for at, word in enumerate(self.declared)]
        # The columns that the program is given, by their places, and the name of the one of row numbers, if there is one.
        self.sent: Dict[int, KeyColumn] = {}
        self.row: Optional[str] = None
        self.is_row_first = False
        self.base = base_of(self.rows)

    def names(self) -> List[str]:
        return self._names

    def send_all(self) -> None:
        """Has the program given all columns."""
        self._send(range(len(self._names)))
        for column in self.sent.values():
            refuse_without_text(column.where, column.kind)

    def send_keys(self, places: Collection[int], row: str, is_row_first: bool) -> None:
        """Has the program given the columns of some places, and the row's number as a column of this name, before or behind them."""
        self.row, self.is_row_first = row, is_row_first
        self._send(places)

    def _send(self, places: Collection[int]) -> None:
        self.sent = {at: KeyColumn(self.side, self._names[at], self.series[at], self.declared[at]) for at in sorted(places)}

    def _with_row(self, of_row: Any, others: Sequence[Any]) -> List[Any]:
        """What is known of each column that the program is given, with that of the row's number in its place."""
        return [*others] if self.row is None else [of_row, *others] if self.is_row_first else [*others, of_row]

    def words(self) -> List[str]:
        return self._with_row("int", [column.word for column in self.sent.values()])

    def columns(self) -> List[Column]:
        return self._with_row(Column(self.row, "int"), [it.column() for it in self.sent.values()])

    def places(self) -> List[Optional[int]]:
        """The place in the frame of each column that the program is given, None of the row's number."""
        return self._with_row(None, list(self.sent))

    def seen(self, texts: FrozenSet[str]) -> Dict[str, str]:
        found: Dict[str, str] = {}
        for column in self.sent.values():
            if column.kind == "text":
                for some in column.pieces():
                    found.update(dict.fromkeys(texts.intersection(some), column.name))
        return found

    def chunks(self, null: str) -> Iterator[bytes]:
        names = self._with_row(self.row, [column.name for column in self.sent.values()])
        yield text.header(names)
        for start in range(0, self.rows if names else 0, ROWS):
            yield self._whole(start) if self._is_whole(null) else text.with_nulls(self._lines(start), null, len(names) == 1)

    def _is_whole(self, null: str) -> bool:
        """Whether all fields are whole numbers, or nothing."""
        return not null and self.row is not None and all(column.is_whole for column in self.sent.values())

    def _numbers(self, start: int) -> Tuple[Any, Any]:
        """The numbers of rows from one on, as `whole` has numbers."""
        import numpy

        return numpy.arange(start, min(start + ROWS, self.rows), dtype=numpy.int64) + self.base, None

    def _whole(self, start: int) -> bytes:
        return records_of(self._with_row(self._numbers(start), [column.whole(start) for column in self.sent.values()]))

    def _lines(self, start: int) -> bytes:
        numbers = [] if self.row is None else list(map(str, self._numbers(start)[0].tolist()))
        return text.encoded(text.records(self._with_row(numbers, [column.fields(start) for column in self.sent.values()])))
