"""Columns and their types: what the program is told of a table, and what the result's cells become."""
from __future__ import annotations

import re
from dataclasses import dataclass, replace
from decimal import Decimal
from typing import Any, Callable, List, Mapping, Optional, Sequence, Union

from .lists import entries_of, given_list, is_by_name, means, types_under

Types = Union[str, Sequence[Any], Mapping[str, Any], None]
# More words than the most columns of a table make no difference: the program tells too many columns first.
_MOST = 256


@dataclass(frozen=True)
class Column:
    """A column: its name, where it is known, its type as the program is told it, the dtype that a frame's column had, and with what its
    cells are compared, where these are no numbers or texts."""

    name: Optional[str]
    word: str
    dtype: Any = None
    of: str = ""

    @property
    def domain(self) -> str:
        """What its cells are compared with: `number`, `text`, or one of those words of `dtypes`."""
        return self.of or ("text" if self.kind == "text" else "number")

    @property
    def kind(self) -> str:
        """`int`, `num` or `text`."""
        return self.word if self.word in ("int", "text") else "num"

    @property
    def scale(self) -> int:
        """The digits behind the point."""
        found = re.fullmatch(r"num(?:\(\d+,(\d+)\)|:\d+:(\d+))", self.word)
        return int(found[1] or found[2]) if found else 0

    def coalesced(self, other: "Column") -> "Column":
        """The column of the result in which this left one and the right one stand once."""
        if "text" in (self.kind, other.kind) or self.kind == other.kind == "int":
            from .dtypes import common

            return replace(self, dtype=common(self, other))
        return Column(self.name, f"num(18,{max(self.scale, other.scale)})")


def word_of(declared: Any) -> str:
    """The program's word for a type that is declared: a word already, or Python's int or str."""
    if declared is int:
        return "int"
    if declared is str:
        return "text"
    if isinstance(declared, str):
        return declared.strip()
    raise TypeError(f"the type {declared!r} is none of 'int', 'text', 'num(p,s)', int and str")


def listed(types: str) -> List[str]:
    """The words of a list of types in one text."""
    return re.findall(r"(?:[^,(]|\([^)]*\)?)+|(?<=,)(?=,|$)|^(?=,)", types)


def text_of(side: str, types: Union[str, Sequence[Any]]) -> str:
    """The list that is declared, as the program has it: a text, that of a file (`@FILE`), or the words of a list."""
    return given_list(types, side) if isinstance(types, str) else ",".join(map(word_of, types))


def words_under(text: str, names: Sequence[str]) -> List[str]:
    """The words of a list, by position or by name, for columns of these names. Where a list by name is none that the program
    would take, or lacks a column's type, that is a text: the program tells why."""
    return [word or "text" for word in types_under(text, names)] if is_by_name(text) else listed(text)


def declared_of(side: str, types: Types, names: Sequence[Any]) -> List[Optional[str]]:
    """The words that are declared for columns that are there, None where there is none. What doesn't fit them is a ValueError."""
    if types is None:
        return [None] * len(names)
    if isinstance(types, Mapping):
        return some_by_name(side, types, names)
    text = text_of(side, types)
    if is_by_name(text):
        return _fitting(side, text, names)
    words = listed(text)
    if len(words) != len(names):
        raise ValueError(f"{side}_types has {len(words)} types, and the {side} table has {len(names)} columns")
    return [*words]


def _fitting(side: str, text: str, names: Sequence[Any]) -> List[Optional[str]]:
    """The words of a list by name, each of whose names means one of these columns, and another one than those before it."""
    entries = entries_of(text)
    if entries is None:
        raise ValueError(f"{side}_types is no list of types by name: {text!r}")
    taken: List[str] = []
    for written in (it for it, _ in entries):
        meant = ["*"] if written == "*" else [f'"{name}"' for name in names if means(written, str(name))]
        if not meant or meant[0] in taken:
            raise ValueError(f"{side}_types names {written}, which is no column of the {side} table" if not meant else f"{side}_types names {written} twice")
        taken.append(meant[0])
    return types_under(text, list(map(str, names)))


def some_by_name(side: str, types: Mapping[str, Any], names: Sequence[str]) -> List[Optional[str]]:
    """The words of types that are declared by name, in the order of the names, None where there is none; `*` stands for all
    others. A name that is no column is a ValueError that names it."""
    unknown = [name for name in types if name not in names and name != "*"]
    if unknown:
        raise ValueError(f"{side}_types names {unknown[0]!r}, which is no column of the {side} table")
    declared = [types.get(name, types.get("*")) for name in names]
    return [None if it is None else word_of(it) for it in declared]


def by_name(side: str, types: Mapping[str, Any], names: Sequence[str]) -> List[str]:
    """As `some_by_name`, where each column needs a type."""
    words = some_by_name(side, types, names)
    if None in words:
        raise ValueError(f"{side}_types has no type for the column {names[words.index(None)]!r}")
    return [word for word in words if word is not None]


def list_of_types(words: Sequence[str]) -> str:
    """The words as the program's option has them."""
    return ",".join(words[:_MOST]) or "text"


def reader_of(column: Column, null: str) -> Callable[[List[str]], List[Any]]:
    """What makes the cells of a result's column of its fields: a null is None."""
    make: Optional[Callable[[str], Any]] = {"int": int, "num": Decimal}.get(column.kind)

    def read(fields: List[str]) -> List[Any]:
        if null in fields:
            return [None if field == null else make(field) if make else field for field in fields]
        return list(map(make, fields)) if make else fields

    return read
