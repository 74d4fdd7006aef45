"""Which columns a clause compares, and with which: those that the program has to be given, since all others only go through.

Any text is read, and never refused: what is no clause is the program's to tell.
"""
from __future__ import annotations

import re
from dataclasses import dataclass, field
from typing import List, Optional, Sequence, Set, Tuple

from .clauses import join_names, partners
from .lists import lower, means

# The words of a condition that are no names.
_WORDS = frozenset("AND BETWEEN FALSE FULL IN INNER IS JOIN LEFT NATURAL NOT NULL ON OR OUTER RIGHT TRUE UNKNOWN USING".split())
_NAME = r'[A-Za-z][A-Za-z0-9_]*|"(?:[^"]|"")*"'
_BLANKS = r"[ \t\n\r]*"
_TOKEN = re.compile(rf"{_BLANKS}(?:(?P<literal>'(?:[^']|'')*'|[+-]?[0-9]+(?:\.[0-9]+)?)|(?:(?P<side>{_NAME}){_BLANKS}\.{_BLANKS})?(?P<name>{_NAME})|.)", re.DOTALL)
_SIDES = (("l", '"L"'), ("r", '"R"'))


@dataclass
class Comparison:
    """Operands that are compared with one another: columns, each by its table (0 for the left one) and its place, and literals."""

    columns: List[Tuple[int, int]] = field(default_factory=list)
    literals: List[str] = field(default_factory=list)


def _meant(side: Optional[str], written: str, tables: Sequence[Sequence[str]]) -> List[Tuple[int, int]]:
    """The columns that a name in a condition may mean."""
    of = [at for at, words in enumerate(_SIDES) if side is None or side in words or side.lower() == words[0]] or [0, 1]
    return [(at, place) for at in of for place, name in enumerate(tables[at]) if means(written, name)]


def _of_condition(clause: str, tables: Sequence[Sequence[str]]) -> List[Comparison]:
    """The comparisons of a condition: each ends at an OR, or at an AND that is none of BETWEEN."""
    found, is_between = [Comparison()], False
    for token in _TOKEN.finditer(clause):
        word = (token["name"] or "").upper() if token["side"] is None else ""
        if word == "OR" or (word == "AND" and not is_between):
            found.append(Comparison())
        elif word in _WORDS:
            is_between = word == "BETWEEN" or (is_between and word != "AND")
        elif token["literal"]:
            found[-1].literals.append(token["literal"])
        elif token["name"]:
            found[-1].columns += _meant(token["side"], token["name"], tables)
    return found


def comparisons(clause: str, left: Sequence[str], right: Sequence[str]) -> List[Comparison]:
    """What a clause compares, of tables whose columns have these names."""
    if join_names(clause) is None:
        return _of_condition(clause, (left, right))
    return [Comparison([(0, i), (1, j)]) for i, j in partners(clause, left, right)]


def compared(clause: str, left: Sequence[str], right: Sequence[str]) -> Tuple[Set[int], Set[int]]:
    """The places of the columns that a clause names, in the left and in the right table: all that a name may mean, so that it means the
    same where the others aren't there."""
    names = join_names(clause)
    if names is None:
        columns = [it for comparison in comparisons(clause, left, right) for it in comparison.columns]
    else:
        common = set(map(lower, left)).intersection(map(lower, right)) if names is True else names
        columns = [it for written in common for it in _meant(None, written, (left, right))]
    return {place for at, place in columns if at == 0}, {place for at, place in columns if at == 1}
