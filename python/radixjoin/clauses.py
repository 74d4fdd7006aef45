"""The clause of a join: made of arguments, and read as far as the columns of its result depend on it."""
from __future__ import annotations

import re
from typing import List, Literal, Optional, Sequence, Tuple, Union

from .lists import lower, means

_HOW = {"inner": "", "left": "LEFT ", "right": "RIGHT ", "outer": "FULL ", "full": "FULL "}
# What a clause begins with up to its names or condition: blanks, words, delimited names and signs.
_TOKEN = re.compile(r'[ \t\n\r]*([A-Za-z][A-Za-z0-9_]*|"(?:[^"]|"")*"|.)', re.DOTALL)
_MOST = 65_536
_NAME_ALONE = re.compile(r"\s*\w+\s*")
# The word of a clause that says which rows it keeps.
_KIND = re.compile(r"[ \t\n\r]*(?:NATURAL[ \t\n\r]+)?(?:(INNER|LEFT|RIGHT|FULL)(?:[ \t\n\r]+OUTER)?[ \t\n\r]+|CROSS[ \t\n\r]+)?JOIN\b", re.ASCII | re.IGNORECASE)
# The kinds of rows that an option may ask for: those of pairs, which every join keeps, and lone ones, with the words that keep them.
_OF_PAIRS = ("pairs", "matched-left")
LONE_RIGHT = "lone-right"
_LONE = {"lone-left": ("LEFT", "FULL"), LONE_RIGHT: ("RIGHT", "FULL")}
# What `radixjoin` tells of unmatched rows of a side that are asked for and that a clause doesn't keep.
_UNKEPT = "radixjoin: the join keeps no unmatched {} rows; a {} or FULL JOIN keeps them\n"


def quoted(name: str) -> str:
    """A name as a clause has it between double quotes, where it matches exactly."""
    return '"' + name.replace('"', '""') + '"'


def clause_of(clause: Optional[str], using: Union[str, Sequence[str], None], on: Optional[str], natural: bool, how: str) -> str:
    """The text of the clause that the arguments of `join` ask for."""
    ways = [clause is not None, using is not None, on is not None, natural, how == "cross"]
    if sum(ways) != 1:
        raise ValueError('one of using=, left_on= with right_on=, on=, natural=True, how="cross" and clause= has to be given, and no two of them')
    if how != "cross" and how not in _HOW:
        raise ValueError(f"how={how!r} is none of {', '.join(_HOW)}, cross")
    if clause is not None:
        if how != "inner":
            raise ValueError("how= is said by the clause itself, as in clause='LEFT JOIN USING (id)'")
        return clause
    if how == "cross":
        return "CROSS JOIN"
    if natural:
        return f"NATURAL {_HOW[how]}JOIN"
    if on is not None:
        if not isinstance(on, str):
            raise TypeError("on= is a condition, as 'L.id = R.id'; names of columns that both tables have are given by using=")
        if _NAME_ALONE.fullmatch(on):
            raise ValueError(f"on={on!r} is a name alone, and no condition: using={on.strip()!r} joins by a column that both tables have")
        return f"{_HOW[how]}JOIN ON {on}"
    names = [using] if isinstance(using, str) else list(using or ())
    if not names or not all(isinstance(name, str) for name in names):
        raise ValueError("using= is a name, or a list of names")
    return f"{_HOW[how]}JOIN USING ({', '.join(map(quoted, names))})"


def _kept(found: "re.Match[str]") -> List[str]:
    """The kinds of rows that a clause keeps, by what says it there."""
    return [*_OF_PAIRS, *(kind for kind, words in _LONE.items() if (found[1] or "").upper() in words)]


def kinds_of(clause: str, rows: Optional[str]) -> List[str]:
    """The kinds of rows that are written of a clause that the grammar derives: all that it keeps, or those of them that `--rows` names."""
    found = _KIND.match(clause)
    kept = _kept(found) if found else [*_OF_PAIRS, *_LONE]
    return [kind for kind in kept if rows is None or kind in rows.split(",")]


def told_of_rows(clause: str, rows: Optional[str]) -> str:
    """The line that `radixjoin` tells behind the rows of a join where `--rows` asks for unmatched rows by themselves that the clause doesn't
    keep, or nothing. The left ones come first."""
    found, asked = _KIND.match(clause), (rows or "").split(",")
    if found and {*asked} != {"pairs", *_LONE}:
        for kind, words in _LONE.items():
            if kind in asked and kind not in _kept(found):
                return _UNKEPT.format(kind.partition("-")[2], words[0])
    return ""


def refuse_rows(rows: object, clause: str) -> None:
    """Refuses to write rows of some kinds alone of which a clause keeps none. What is no kind, or no clause, is the program's to tell."""
    found = _KIND.match(clause)
    if not isinstance(rows, str) or not found:
        return
    kept = _kept(found)
    if all(kind in _LONE and kind not in kept for kind in rows.split(",")):
        kinds = ", ".join(map(repr, kept))
        raise ValueError(f"rows={rows!r} asks for rows that {found[0].strip()!r} doesn't keep: it has {kinds}; how='left' or 'outer' keeps lone left rows, and how='right' or 'outer' lone right ones")


def given(clause: str) -> bytes:
    """A clause as the program is given it. One that is too long, which a command line could lack the room for, is told as too
    long in any case."""
    text = clause.encode("utf-8", "surrogatepass")
    return text if len(text) <= _MOST else b" " * (_MOST + 1)


# The places of the columns that one column of a result comes from, in the left and in the right table: both for one of USING and NATURAL.
Places = Tuple[Optional[int], Optional[int]]


def _tokens(clause: str) -> List[str]:
    return _TOKEN.findall(clause)


def join_names(clause: str) -> Union[None, Literal[True], List[str]]:
    """Of a clause that the grammar derives: True for NATURAL, the names of USING as they stand, None for the others."""
    tokens = _tokens(clause)
    words = [token.upper() for token in tokens]
    if words[:1] == ["NATURAL"]:
        return True
    behind = words.index("JOIN") + 1 if "JOIN" in words else len(words)
    if words[behind : behind + 1] != ["USING"]:
        return None
    return [token for token in tokens[behind + 1 :] if token not in ("(", ",", ")")]


def partners(clause: str, left: Sequence[str], right: Sequence[str]) -> List[Tuple[int, int]]:
    """The places of the columns that stand once in the result, by their names, in the order of the left table."""
    names = join_names(clause)
    if names is None:
        return []
    if names is True:
        places = {lower(name): at for at, name in enumerate(right)}
        return [(at, places[lower(name)]) for at, name in enumerate(left) if lower(name) in places]
    meant = [[[at for at, name in enumerate(side) if means(written, name)] for side in (left, right)] for written in names]
    return sorted((found[0][0], found[1][0]) for found in meant if found[0] and found[1])


def by_condition(clause: str, left: Sequence[str], right: Sequence[str]) -> str:
    """A clause that leaves the same right rows unmatched, of tables with columns of these names, and by which each right column stands in the
    result as it is: one with ON in the place of NATURAL and USING."""
    if join_names(clause) is None:
        return clause
    pairs = partners(clause, left, right)
    return "RIGHT JOIN ON " + " AND ".join(f"L.{quoted(left[i])} = R.{quoted(right[j])}" for i, j in pairs)


def needs_names(clause: str) -> bool:
    """Whether the columns of the result depend on the names of the tables' columns."""
    tokens = [token.upper() for token in _tokens(clause)[:5]]
    return "NATURAL" in tokens or "USING" in tokens


def result_places(pairs: Sequence[Tuple[int, int]], left: int, right: int, which: str = "all") -> List[Places]:
    """Where the columns of a result come from, of tables of so many columns each: those that stand once come first, then the other left
    ones, then the other right ones. Where `which` names a side, those of the other side alone are left out, as by `--columns`."""
    lefts, rights = {i for i, _ in pairs}, {j for _, j in pairs}
    found: List[Places] = [*pairs]
    found += [(i, None) for i in range(left) if i not in lefts and which != "right"]
    return found + [(None, j) for j in range(right) if j not in rights and which != "left"]
