"""A join as it was asked for: its tables, what the program is told of them, and the words of its command line."""
from __future__ import annotations

import contextlib
import os
import re
import subprocess
from typing import Any, Dict, FrozenSet, Iterator, List, Mapping, Optional, Sequence, Tuple, Union

from . import programs, text
from .arguments import Arguments
from .clauses import given, needs_names
from .columns import Column, Types
from .conditions import compared, comparisons
from .delimiters import Delimiters
from .faults import ClauseFault, Fault, InputFault, fault_of
from .foreign import is_foreign
from .frames import FrameTable, is_frame
from .given_rows import RowsTable
from .keys import KeyColumn, agree
from .nulls import Nulls
from .process import Run
from .tables import FileTable, HeaderTable, Table, table_of_path


def is_path(table: Any) -> bool:
    return isinstance(table, (str, bytes, os.PathLike))


def are_rows(table: Any) -> bool:
    """Whether a table is neither a frame nor a file, and so rows, if anything."""
    return not (is_frame(table) or is_foreign(table) or is_path(table) or hasattr(table, "read"))


def _table(side: str, table: Any, types: Types, names: Any, delimiter: str, watched: FrozenSet[str]) -> Table:
    """One side of a join, of whatever was given."""
    if is_frame(table):
        return FrameTable(side, table, types)
    if is_path(table):
        return table_of_path(side, table, types, delimiter)
    if not are_rows(table):
        return FileTable(side, table, types, delimiter)
    if isinstance(table, Mapping) or not hasattr(table, "__iter__") or hasattr(table, "dtypes"):
        # (a frame of a library that isn't known here gives its columns one by one)
        raise TypeError(f"{side} is {type(table).__module__}.{type(table).__qualname__}, and neither a path, an open file, a frame nor rows")
    return RowsTable(side, table, names, types, watched)


def _free_name(name: str, taken: Sequence[str]) -> str:
    """A name that begins with this one and stands in none of some texts: no table has it, and no clause means it."""
    while any(name in it for it in taken):
        name += "_"
    return name


class Asked:
    """A join as it was asked for. `close` gives back what its tables hold."""

    def __init__(self, left: Any, right: Any, arguments: Arguments) -> None:
        self.arguments = arguments
        self.clause = arguments.text_of_clause()
        self.nulls = Nulls(arguments.null, arguments.left_null, arguments.right_null, arguments.out_null)
        self.delimiters = Delimiters(arguments.delimiter, arguments.left_delimiter, arguments.right_delimiter, arguments.out_delimiter)
        watched = self.nulls.watched()
        self.tables: List[Table] = []
        try:
            for side, table in (("left", left), ("right", right)):
                types, names = (getattr(arguments, f"{side}_{of}") for of in ("types", "columns"))
                self.tables.append(_table(side, table, types, names, self.delimiters.of(side), watched))
            self.delimiters.refuse(self.tables, arguments.output is not None)
            if arguments.indicator and not (self.makes_frame() and all(isinstance(it, FrameTable) for it in self.tables)):
                raise ValueError("indicator= is for two frames whose result is a frame: radixjoin.stats counts the rows of each kind, and rows= chooses them")
            is_known = not any(isinstance(it, RowsTable) for it in self.tables)
            if is_known:
                self._choose_columns()
            self.program = programs.find(arguments.program)
            self.known = programs.options(self.program)
            self.words = self._words(self.which_written(), None if self.makes_frame() else arguments.repeated)
            for it in self.tables:
                it.read()
            if not is_known:
                self._choose_columns()
            self.nulls.choose(self.tables, arguments.output is None, bool(arguments.strict) and "strict" in self.known)
        except BaseException:
            self.close()
            raise

    def makes_frame(self) -> bool:
        """Whether a frame is one of the tables, and the result is no file: then the program is given what the clause compares, and the
        numbers of the frame's rows."""
        return self.arguments.output is None and any(isinstance(it, FrameTable) for it in self.tables)

    def which_written(self) -> str:
        """The table whose columns the program writes, or `all`: where a frame is made of row numbers, those of both, if that can be."""
        is_left = "matched-left" in str(self.arguments.rows).split(",")
        return self.arguments.which if not self.makes_frame() or is_left else "all"

    def _words(self, columns: str, repeated: Optional[str]) -> List[Union[str, bytes]]:
        """The words of the command line that stand on no table."""
        chosen: Dict[str, Any] = {**self.arguments.options(), "columns": None if columns == "all" else columns, "repeated": repeated}
        chosen["explain"] = self.arguments.explain and "explain" in self.known
        words = [word for name, value in chosen.items() for word in programs.words_of(self.known, name, value)]
        return [*words, *self._strict(), b"--join=" + given(self.clause)]

    def _strict(self) -> List[str]:
        """The words for strict reading. What this package writes is strict already."""
        strict = self.arguments.strict
        if not strict:
            return []
        if "strict" in self.known:
            return ["--strict" if strict is True else f"--strict={strict}"]
        if not all(table.is_written for table in self.tables):
            raise NotImplementedError("this radixjoin has no option --strict: with strict=False files are read as it reads them")
        return []

    def names(self) -> Tuple[List[str], List[str]]:
        """The names of the columns of both tables. Those of a file are read."""
        return self.tables[0].names(), self.tables[1].names()

    def _choose_columns(self) -> None:
        """Chooses the columns of frames that the program is given: all where a file gets them, else those that the clause compares."""
        frames = [it for it in self.tables if isinstance(it, FrameTable)]
        if self.arguments.output is not None:
            for frame in frames:
                frame.send_all()
            return
        if not frames:
            return
        has_names = needs_names(self.clause)
        names = [it.names() if has_names or isinstance(it, FrameTable) else [] for it in self.tables]
        taken = [self.clause.lower(), *map(str.lower, (*names[0], *names[1]))]
        for frame, places in ((it, at) for it, at in zip(self.tables, compared(self.clause, *names)) if isinstance(it, FrameTable)):
            frame.send_keys(places, _free_name(f"{frame.side}_row", taken), frame.side == "left" and not has_names)
        if any(key.is_open or key.column().of for frame in frames for key in frame.sent.values()):
            self._compare()

    def _compare(self) -> None:
        """Has columns that are compared be of one kind."""
        names = self.names()
        for comparison in comparisons(self.clause, *names):
            operands = [(f"{self.tables[at].side} column {names[at][place]!r}", self._operand(self.tables[at], place)) for at, place in comparison.columns]
            agree(operands, comparison.literals)

    @staticmethod
    def _operand(table: Table, place: int) -> Union[KeyColumn, Column]:
        return table.sent[place] if isinstance(table, FrameTable) else table.columns()[place]

    def run(self, output: Any = subprocess.PIPE, more: Sequence[str] = ()) -> Run:
        nulls = {table.side: self.nulls.of(table.side)[0] for table in self.tables}
        return Run(self.program, self._line([*self.words, *more], self.tables), self.tables, nulls, output)

    def _line(self, words: Sequence[Union[str, bytes]], tables: Sequence[Table]) -> List[Union[str, bytes]]:
        """The words of the command line, for some tables."""
        delimiters = self.delimiters.words(self.known, tables, self.arguments.output is not None)
        return [*words, *(f"--{it.side}-types={it.types_given()}" for it in tables), *self.nulls.words(self.known), *delimiters]

    def header(self) -> List[str]:
        """The names of the result's columns, as the program writes them of the tables' columns alone.

        Raises:
            Fault: what it tells of these.
        """
        tables: List[Table] = [HeaderTable(it.side, it.names(), {str(column.name): column.word for column in it.columns()}) for it in self.tables]
        words = self._line(self._words(self.arguments.which, self.arguments.repeated), tables)
        run = Run(self.program, words, tables, {it.side: "" for it in tables}, subprocess.PIPE)
        try:
            written = run.stdout.read()
            run.end()
        finally:
            run.close()
        return text.split_header(written)[0]

    @contextlib.contextmanager
    def told_of_frames(self) -> Iterator[None]:
        """Tells the faults of the block as those of the frames, of which the program was given some columns alone."""
        try:
            yield
        except ClauseFault as fault:
            raise self._of_all_names(fault) from None
        except InputFault as fault:
            raise self._placed(fault) from None

    def _of_all_names(self, fault: ClauseFault) -> Fault:
        """A fault of the clause, as it is told of all names that there are."""
        try:
            self.header()
        except ClauseFault as told:
            return told
        except InputFault:
            # (of a name that the clause doesn't need)
            pass
        return fault

    def _placed(self, fault: InputFault) -> Fault:
        """A fault with the column's place in the frame."""
        table = next((it for it in self.tables if it.side == fault.side), None)
        if not isinstance(table, FrameTable) or fault.column is None:
            return fault
        at = table.places()[fault.column - 1]
        line = re.sub(r"(?<=\bcolumn )\d+", str(fault.column if at is None else at + 1), fault.line, count=1)
        return fault_of(f"{line}\n{fault.explanation}", fault.status)

    def close(self) -> None:
        for table in self.tables:
            table.close()
