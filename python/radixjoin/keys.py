"""The columns of frames as the program is given them: as texts, or as whole numbers where these say all that the cells do."""
from __future__ import annotations

from typing import Any, Iterator, List, Optional, Sequence, Tuple, Union, cast

from . import text
from .columns import Column
from .dtypes import domain_of, kind_of_series, type_of_kind, with_nulls
from .given_rows import Digits

ROWS = 65_536
_MOST = 2**63 - 1
# The kinds of cells that have a text of their own; those of all others become whole numbers.
_TEXTS = ("text", "num", "null")


class KeyColumn:
    """A column of a frame, the kind of its cells, and the type that it has for the program."""

    def __init__(self, side: str, name: str, series: Any, declared: Optional[str]) -> None:
        self.name = name
        self.where = f"{side} column {name!r}"
        self.series = series
        self.kind = kind_of_series(self.where, self.series)
        self.is_whole = self.kind not in _TEXTS
        if self.kind == "int" and self.series.dtype.kind in "uO" and not self.series.dropna().between(-_MOST - 1, _MOST).all():
            raise ValueError(f"{self.where} has numbers beyond 64 bits with a sign, as {self.series.max()}: convert it to texts")
        self.word = self._word(declared)
        # Where nothing says what nulls alone are: the column with which they are compared.
        self.is_open, self.like = declared is None and self.kind == "null", Column(name, "text")

    def column(self) -> Column:
        """The column, as the program is given it."""
        if self.is_open:
            return Column(self.name, self.word, self.series.dtype if self.word == "text" else with_nulls(self.like.dtype), self.like.of)
        keeps = self.word == "text" or (self.word == "int" and self.kind != "null")
        return Column(self.name, self.word, self.series.dtype if keeps else None, domain_of(self.kind))

    def adopt(self, like: Column) -> None:
        """Has nulls alone the type of the column with which they are compared."""
        if self.is_open and self.word == "text":
            self.like, self.word = like, like.word

    def _word(self, declared: Optional[str]) -> str:
        """The type for the program: the one declared, where the cells can have it, else the least that they all have."""
        wanted, kind = "num" if (declared or "").startswith("num") else declared, type_of_kind(self.kind)
        if wanted in ("int", "text", "num") and not (wanted == kind == self.kind or self.kind == "null" or (wanted, self.kind) == ("num", "int")):
            raise TypeError(f"{self.where} is declared {declared}, and its dtype is {self.series.dtype}: convert it first")
        if declared is not None or kind != "num":
            return declared or kind.replace("null", "text")
        digits = Digits()
        for some in self.pieces():
            digits.add([cell for cell in some if cell is not None], self.where)
        return digits.word(self.where)

    def pieces(self) -> Iterator[List[Any]]:
        """The cells, some at a time; a null is None."""
        for start in range(0, len(self.series), ROWS):
            yield self._cells(start)

    def _cells(self, start: int) -> List[Any]:
        """Cells from a row on."""
        some = self.series.iloc[start : start + ROWS]
        cells: List[Any] = some.astype(object).to_list()
        are_null = some.isna()
        return [None if is_null else cell for cell, is_null in zip(cells, are_null)] if are_null.any() else cells

    def whole(self, start: int) -> Tuple[Any, Any]:
        """The cells from a row on as an array of whole numbers, where the column is whole, and which of them are null, None for none of them.

        Of times these are the units since 1970, of dates the days since the year 1, and of truth values 0 and 1."""
        import numpy

        some = self.series.iloc[start : start + ROWS]
        are_null = some.isna().to_numpy()
        if some.dtype.kind in "iub":
            numbers = some.to_numpy(dtype=numpy.int64, na_value=0)
        elif self.kind in ("int", "bool", "date"):
            numbers = numpy.array([0 if is_null else _number(cell) for cell, is_null in zip(some, are_null)], dtype=numpy.int64)
        else:
            unit = getattr(some.dtype, "unit", None) or numpy.datetime_data(some.dtype)[0]
            numbers = numpy.asarray(some.array, dtype=f"{some.dtype.kind}8[{unit}]").view(numpy.int64)
        return numbers, are_null if are_null.any() else None

    def fields(self, start: int) -> List[str]:
        """The fields of rows from one on."""
        if self.is_whole:
            numbers, are_null = self.whole(start)
            fields = list(map(str, numbers.tolist()))
            return fields if are_null is None else [text.NULL if is_null else field for field, is_null in zip(fields, are_null)]
        cells = self._cells(start)
        if self.kind == "null":
            return [text.NULL] * len(cells)
        if self.kind == "num":
            return [text.NULL if cell is None else format(cell, "f") for cell in cells]
        if None not in cells:
            return text.fields_of(cells)
        fields = text.fields_of(["" if cell is None else cell for cell in cells])
        return [text.NULL if cell is None else field for cell, field in zip(cells, fields)]


def _number(cell: Any) -> int:
    """The whole number of a number, a truth value or a date."""
    return int(cell.toordinal() if hasattr(cell, "toordinal") else cell)


def agree(operands: Sequence[Tuple[str, Union[KeyColumn, Column]]], literals: Sequence[str]) -> None:
    """Gives columns of nulls alone the type of what they are compared with. Refuses to compare dates, times and truth values, which the program
    is given as whole numbers, with anything else than their kind."""
    columns = [it.column() if isinstance(it, KeyColumn) else it for _, it in operands]
    like = next((column for column, (_, it) in zip(columns, operands) if not (isinstance(it, KeyColumn) and it.is_open)), None)
    for key in (it for _, it in operands if isinstance(it, KeyColumn) and like is not None):
        key.adopt(cast(Column, like))
    whole = next((at for at, column in enumerate(columns) if column.of), None)
    if whole is None:
        return
    of = columns[whole].of
    others = [f"{where}, which is {column.domain}" for column, (where, it) in zip(columns, operands) if column.of != of and not getattr(it, "is_open", False)]
    others += [it for it in literals if of != "bool" or it not in ("0", "1")]
    if others:
        raise TypeError(f"{operands[whole][0]} is {of}, and is compared with {others[0]}: convert one of them, so that both are of one kind and unit")
