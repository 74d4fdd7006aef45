"""The arguments of `join` and `stats`, by the names that they have, and what is refused of them before anything is read or started."""
from __future__ import annotations

import difflib
import os
from dataclasses import dataclass, fields, replace
from typing import TYPE_CHECKING, Any, Dict, Mapping, NoReturn, Optional, Sequence, Tuple, Union

from .clauses import clause_of, quoted, refuse_rows
from .columns import Types

if TYPE_CHECKING:
    from .nulls import Texts

Path = Union[str, bytes, "os.PathLike[str]", "os.PathLike[bytes]"]
Program = Union[str, "os.PathLike[str]"]
Names = Union[str, Sequence[str], None]

# The options of the program that are arguments as they are.
_OPTIONS = ("rows", "order", "columns", "repeated", "expect", "max_rows", "workers", "bits1", "bits2", "hash", "piece", "block", "capacity", "lanes", "retries", "report")
# The words that an argument may have.
_WORDS: Mapping[str, Tuple[Any, ...]] = {
    "how": ("inner", "left", "right", "outer", "full", "cross", "semi", "anti"),
    "order": ("pairs", "left", None),
    "expect": ("one-to-one", "one-to-many", "many-to-one", "matched", "one-to-one,matched", "one-to-many,matched", "many-to-one,matched", None),
    "hash": ("plain", "mixed", None),
    "strict": (True, False, "full"),
    "validate": ("one_to_one", "1:1", "one_to_many", "1:m", "many_to_one", "m:1", "many_to_many", "m:m", None),
}
_EXPECTED = {"1:1": "one-to-one", "1:m": "one-to-many", "m:1": "many-to-one", "m:m": None, "many_to_many": None}
# What stands in the place of arguments that others have.
_INSTEAD = {
    "left_index": "an index is no column here: reset_index() first",
    "right_index": "an index is no column here: reset_index() first",
    "sep": "delimiter=",
    "sort": "order='left' keeps the order of the left rows; else sort_values() afterwards",
    "copy": "a result is always made anew",
    "type": "how=",
    "stats": "radixjoin.stats gives statistics",
    "count": "radixjoin.stats counts",
    "report": "radixjoin.stats(.., report=True) gives the report",
}
# Of a join that keeps left rows alone: how it is asked for, and the rows that are written.
_FILTERS = {"semi": ("inner", "matched-left"), "anti": ("left", "lone-left")}


@dataclass(frozen=True)
class Arguments:
    """The arguments of a join beside its tables."""

    clause: Optional[str] = None
    using: Names = None
    on: Optional[str] = None
    left_on: Names = None
    right_on: Names = None
    natural: bool = False
    how: str = "inner"
    left_types: Types = None
    right_types: Types = None
    columns: Any = None
    left_columns: Optional[Sequence[str]] = None
    right_columns: Optional[Sequence[str]] = None
    rows: Optional[str] = None
    order: Optional[str] = None
    repeated: Optional[str] = None
    suffixes: Optional[Sequence[Optional[str]]] = None
    indicator: Union[bool, str] = False
    expect: Optional[str] = None
    validate: Optional[str] = None
    max_rows: Optional[int] = None
    null: Optional[str] = None
    left_null: "Texts" = None
    right_null: "Texts" = None
    out_null: Optional[str] = None
    delimiter: Optional[str] = None
    left_delimiter: Optional[str] = None
    right_delimiter: Optional[str] = None
    out_delimiter: Optional[str] = None
    strict: Union[bool, str] = True
    explain: bool = True
    output: Optional[Path] = None
    program: Optional[Program] = None
    workers: Optional[int] = None
    bits1: Optional[int] = None
    bits2: Optional[int] = None
    hash: Optional[str] = None
    piece: Optional[int] = None
    block: Optional[int] = None
    capacity: Optional[int] = None
    lanes: Optional[int] = None
    retries: Optional[int] = None
    report: bool = False

    def options(self) -> Dict[str, Any]:
        """The options of the program, each with its value."""
        return {name: getattr(self, name) for name in _OPTIONS}

    @property
    def which(self) -> str:
        """The table whose columns are the result's, or `all`."""
        return self.columns or "all"

    def text_of_clause(self) -> str:
        return clause_of(self.clause, self.using, self.on, self.natural, self.how)


def arguments_of(call: str, clause: Optional[str], given: Mapping[str, Any], has_rows: bool) -> Arguments:
    """What is asked for by the named arguments of `join` or `stats`, those that stand for others replaced, where a table is rows or none is.

    Raises:
        TypeError: there is no such argument, or not here.
        ValueError: a value is none of those that there are, or some don't go together.
    """
    known = [it.name for it in fields(Arguments)]
    for name in given:
        if name not in known or name in _not_of(call):
            _refuse(call, name, [it for it in known if it not in _not_of(call)])
    refuse_values(given)
    asked = Arguments(clause=clause, **given)
    asked = _filtered(_by_names(_expecting(_with_names(asked, has_rows))))
    refuse_rows(asked.rows, asked.text_of_clause())
    is_pair = asked.suffixes is None or (not isinstance(asked.suffixes, str) and len(asked.suffixes) == 2)
    if not is_pair or (asked.suffixes is not None and (asked.repeated is not None or asked.output is not None)):
        raise ValueError("suffixes= is a pair, as ('_left', '_right'), of a result that isn't written to a file, and without repeated=")
    return asked


def refuse_values(given: Mapping[str, Any]) -> None:
    """Refuses a value that an argument never has."""
    for name, words in _WORDS.items():
        if name in given and given[name] not in words:
            known = [repr(word) for word in words if word is not None]
            raise ValueError(f"{name}={given[name]!r} is none of {', '.join(known[:-1])} and {known[-1]}")


def _not_of(call: str) -> Tuple[str, ...]:
    return ("report",) if call == "join" else ("output", "out_delimiter", "suffixes", "indicator")


def _refuse(call: str, name: str, known: Sequence[str]) -> NoReturn:
    """Refuses an argument that there isn't, and says what stands in its place."""
    near = difflib.get_close_matches(name, known, 1)
    instead = _INSTEAD.get(name) or (f"did you mean {near[0]}=?" if near else "")
    raise TypeError(f"{call} has no {name}=" + (f": {instead}" if instead else ""))


def _with_names(asked: Arguments, has_rows: bool) -> Arguments:
    """With the names of the columns of rows by side: `columns` may be a list for both, or a pair of lists."""
    if asked.columns in (None, "all", "left", "right"):
        return asked
    if isinstance(asked.columns, str):
        raise ValueError(f"columns={asked.columns!r} is none of 'all', 'left', 'right', and no list of the names of rows' columns")
    if not has_rows:
        raise ValueError(f"columns={asked.columns!r} names the columns of rows, and neither table is rows: which columns are written columns='all', 'left' or 'right' says")
    columns = list(asked.columns)
    both = columns if len(columns) == 2 and not any(isinstance(it, str) for it in columns) else [columns, columns]
    return replace(asked, columns=None, left_columns=asked.left_columns or both[0], right_columns=asked.right_columns or both[1])


def _expecting(asked: Arguments) -> Arguments:
    """With `expect=` in the place of `validate=`."""
    if asked.validate is None:
        return asked
    if asked.expect is not None:
        raise ValueError("validate= says what expect= says: give one of them")
    return replace(asked, validate=None, expect=_EXPECTED.get(asked.validate, asked.validate.replace("_", "-")))


def _by_names(asked: Arguments) -> Arguments:
    """With `using=` or `on=` in the place of `left_on=` and `right_on=`."""
    sides = [[it] if isinstance(it, str) else it for it in (asked.left_on, asked.right_on)]
    if sides == [None, None]:
        return asked
    left, right = (list(it or ()) for it in sides)
    if not left or len(left) != len(right) or not all(isinstance(it, str) for it in left + right):
        raise ValueError("left_on= and right_on= are a name each, or lists of as many names")
    if asked.using is not None or asked.on is not None:
        raise ValueError("left_on= and right_on= say what using= or on= would: give one of them")
    is_one = left == right
    return replace(asked, left_on=None, right_on=None, using=left if is_one else None, on=None if is_one else _equal(left, right))


def _equal(left: Sequence[str], right: Sequence[str]) -> str:
    """The condition that columns of these names are equal."""
    return " AND ".join(f"L.{quoted(one)} = R.{quoted(other)}" for one, other in zip(left, right))


def _filtered(asked: Arguments) -> Arguments:
    """With the options that a join has which keeps left rows alone. Its columns are those of the left table, in their order."""
    if asked.how not in _FILTERS:
        return asked
    if asked.clause is not None or asked.rows is not None or asked.columns is not None:
        raise ValueError(f"how={asked.how!r} says which rows and columns there are: it has no clause=, rows= or columns=")
    how, rows = _FILTERS[asked.how]
    using = [asked.using] if isinstance(asked.using, str) else asked.using
    on = asked.on if using is None else _equal(using, using)
    return replace(asked, how=how, rows=rows, columns="left", using=None, on=on)
