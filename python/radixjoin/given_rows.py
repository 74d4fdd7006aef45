"""Tables of rows, which are read once."""
from __future__ import annotations

import numbers
import os
import sys
import tempfile
from collections.abc import Mapping, Sequence
from decimal import Decimal
from itertools import chain, islice
from operator import itemgetter
from typing import IO, Any, Dict, FrozenSet, Iterable, Iterator, List, Optional, Set

from . import text
from .columns import Column, Types, declared_of
from .tables import Table

_ROWS = 8_192


def _anonymous() -> IO[bytes]:
    """A file without a name."""
    if hasattr(os, "memfd_create"):
        return open(os.memfd_create("radixjoin"), "w+b")
    return tempfile.TemporaryFile()


def kind_of(of: type) -> Optional[str]:
    """The kind of cells of a class: `int`, `num`, `text`, or `null`; None for what no cell is."""
    if of is type(None) or ("pandas" in sys.modules and of is type(getattr(sys.modules["pandas"], "NA", None))):
        return "null"
    if issubclass(of, numbers.Integral) and not issubclass(of, bool):
        return "int"
    return "num" if issubclass(of, Decimal) else "text" if issubclass(of, str) else None


def number_text(cell: Any) -> str:
    """A whole number or decimal without an exponent."""
    return str(int(cell)) if not isinstance(cell, Decimal) else format(cell, "f")


class Digits:
    """The most digits that the decimals of a column have before and behind the point."""

    def __init__(self) -> None:
        self.before = 0
        self.behind = 0

    def add(self, cells: Iterable[Decimal], where: str) -> None:
        for cell in cells:
            if not cell.is_finite():
                raise ValueError(f"{where} has {cell}, which is no number of any type: make it a null")
            _, digits, exponent = cell.as_tuple()
            exponent = int(exponent)
            self.behind = max(self.behind, -exponent)
            self.before = max(self.before, len(digits) + exponent if cell else 0)

    def add_integers(self, cells: Sequence[Any]) -> None:
        most = max(int(max(cells)), -int(min(cells))) if cells else 0
        self.before = max(self.before, len(str(most)) if most else 0)

    def word(self, where: str) -> str:
        """The type `num(p,s)` that has room for all."""
        most = max(1, self.before + self.behind)
        if most > 18:
            digits = f"{self.before} digits before the point and {self.behind} behind it"
            raise ValueError(f"{where} needs {digits}, and no type has more than 18: round it by quantize()")
        return f"num({most},{self.behind})"


class _RowColumn:
    """What is known of a column of rows: its declared type, else what its cells have been so far."""

    def __init__(self, side: str, name: str, declared: Optional[str], watched: FrozenSet[str]) -> None:
        self.where = f"{side} column {name!r}"
        self.name = name
        self.declared = declared
        self.watched = watched
        # Which of the texts that are watched the column has.
        self.seen: Set[str] = set()
        self.kinds: Set[str] = set()
        self.digits = Digits()

    def fields(self, cells: Sequence[Any]) -> List[str]:
        """The fields of some cells. What they are is noted."""
        classes = set(map(type, cells))
        kinds = {of: kind_of(of) for of in classes}
        self.kinds |= {self._allowed(of, kind) for of, kind in kinds.items()} - {"null"}
        if self.declared is None and "text" in self.kinds and len(self.kinds) > 1:
            raise TypeError(f"{self.where} has texts and numbers: convert them to one type, or declare that of the numbers")
        if classes == {int}:
            self.digits.add_integers(cells)
            return list(map(str, cells))
        if classes == {str}:
            self.seen |= self.watched.intersection(cells)
            return text.fields_of(list(cells))
        of = {kind: [cell for cell in cells if kinds[type(cell)] == kind] for kind in set(kinds.values())}
        self.digits.add_integers(of.get("int", ()))
        if self.declared is None:
            self.digits.add(of.get("num", ()), self.where)
        self.seen |= self.watched.intersection(of.get("text", ()))
        return [self._field(cell, kinds[type(cell)]) for cell in cells]

    def _allowed(self, of: type, kind: Optional[str]) -> str:
        """The kind of cells of a class, if this column may have them. Texts may stand for numbers where those are declared."""
        wanted = "num" if (self.declared or "").startswith("num") else self.declared
        if kind is None or (wanted == "text" and kind in ("int", "num")) or (wanted == "int" and kind == "num"):
            to = {None: "int, decimal.Decimal or str", "text": "str", "int": "int"}.get(wanted, "int or decimal.Decimal")
            raise TypeError(f"{self.where} has a cell of type {of.__name__}: convert it to {to}")
        return kind

    def _field(self, cell: Any, kind: Optional[str]) -> str:
        if kind == "null":
            return text.NULL
        return text.fields_of([cell])[0] if kind == "text" else number_text(cell)

    def word(self) -> str:
        if self.declared is not None:
            return self.declared
        return self.digits.word(self.where) if "num" in self.kinds else "int" if "int" in self.kinds else "text"


class RowsTable(Table):
    """Rows: mappings by column name, or sequences with the columns' names given. They are read once, into an anonymous file."""

    def __init__(self, side: str, rows: Iterable[Any], names: Optional[Sequence[str]], types: Types, watched: FrozenSet[str]) -> None:
        self.side = side
        self.watched = watched
        self.rows = rows
        self.types = types
        self.are_mappings = False
        self.has_names = names is not None
        self._names = self._checked(names or ())
        self.made: List[_RowColumn] = []
        self.file = _anonymous()
        self.sizes: List[int] = []

    def _checked(self, names: Sequence[str]) -> List[str]:
        for name in names:
            if not isinstance(name, str):
                raise TypeError(f"the {self.side} column {name!r} has a name that is no str")
        return list(names)

    def names(self) -> List[str]:
        return self._names

    def read(self) -> None:
        """Reads the rows into the file."""
        rows, self.rows = iter(self.rows), ()
        first = list(islice(rows, 1))
        self.are_mappings = bool(first) and isinstance(first[0], Mapping)
        if not self.has_names:
            if not self.are_mappings:
                raise ValueError(f"the columns of the {self.side} rows have to be given: columns=, or {self.side}_columns=")
            self._names = self._checked(list(first[0]))
        self.made = [_RowColumn(self.side, name, word, self.watched) for name, word in zip(self._names, declared_of(self.side, self.types, self._names))]
        self.file.write(text.header(self._names))
        self.sizes.append(self.file.tell())
        every, number = chain(first, rows), 0
        while some := list(islice(every, _ROWS)):
            self._write(some, number)
            number += len(some)

    def _columns(self, rows: List[Any]) -> Optional[List[Sequence[Any]]]:
        """The cells of some rows column by column, where all rows are of the classes that rows mostly have, and as long as the header."""
        usual: Set[type] = {dict} if self.are_mappings else {tuple, list}
        if not usual.issuperset(map(type, rows)) or set(map(len, rows)) != {len(self._names)}:
            return None
        try:
            return [list(map(itemgetter(name), rows)) for name in self._names] if self.are_mappings else list(zip(*rows))
        except KeyError:
            return None

    def _cells(self, row: Any, number: int) -> Sequence[Any]:
        """The cells of a row, in the order of the columns."""
        if isinstance(row, Mapping) != self.are_mappings or isinstance(row, (str, bytes)) or not isinstance(row, (Mapping, Sequence)):
            raise TypeError(f"{self.side} row {number} is {type(row).__name__}: rows are all mappings, or all sequences")
        if not isinstance(row, Mapping):
            return row
        if len(row) != len(self._names) or any(name not in row for name in self._names):
            raise ValueError(f"{self.side} row {number} has other keys than the columns {', '.join(map(repr, self._names))}")
        return [row[name] for name in self._names]

    def _write(self, rows: List[Any], number: int) -> None:
        """Writes some rows, before which so many stand. Those of another length than the header go as they are: the program tells the first."""
        columns = self._columns(rows)
        lists = [self._cells(row, number + at) for at, row in enumerate(rows, 1)] if columns is None else []
        if set(map(len, lists)) == {len(self._names)}:
            columns = list(zip(*lists))
        if columns is None:
            lines = [self._line(row) for row in lists]
        else:
            lines = text.records([column.fields(cells) for column, cells in zip(self.made, columns)]) if columns else []
        written = text.encoded(lines)
        self.file.write(written)
        self.sizes.append(len(written))

    def _line(self, row: Sequence[Any]) -> str:
        """A row of any length, which never looks like an empty line or a right one where it has the wrong length."""
        fields = [column.fields([cell])[0] for column, cell in zip(self.made, row)]
        if len(row) == len(self._names):
            return text.records([[field] for field in fields])[0]
        return ",".join((fields + ['""'] * len(row))[: len(row)]) or ('"",""' if len(self._names) == 1 else '""')

    def words(self) -> List[str]:
        return [column.word() for column in self.made]

    def columns(self) -> List[Column]:
        return [Column(column.name, column.word()) for column in self.made]

    def seen(self, texts: FrozenSet[str]) -> Dict[str, str]:
        seen = {found: column.name for column in self.made for found in texts & column.seen}
        unwatched = texts - self.watched
        return {**seen, **{found: "?" for chunk in self.chunks("") for found in unwatched if found.encode() in chunk}} if unwatched else seen

    def chunks(self, null: str) -> Iterator[bytes]:
        self.file.seek(0)
        for size in self.sizes:
            yield text.with_nulls(self.file.read(size), null, len(self._names) == 1)

    def close(self) -> None:
        self.file.close()
