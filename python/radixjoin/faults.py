"""The faults that the programs tell, as exceptions: a class for each exit status."""
from __future__ import annotations

import re
from typing import Any, Dict, Optional, Type


class Fault(Exception):
    """A fault that a program told.

    `line` is the line that the program printed, `status` its exit status, and `explanation` what it printed below the line.
    Where the line has them, and else None: `code` (`E6`), `name` (`BadInteger`), `side` (`left` or `right`), `row` and `column`
    (both counted from 1; row 1 is the first one behind the header, of a frame the first one), and `byte` (of the clause's
    UTF-8 text, counted from 0).

    >>> try:
    ...     radixjoin.join([{"id": 1}], [{"id": "x"}], using="id")
    ... except radixjoin.Fault as fault:
    ...     fault.code, fault.name, fault.status
    ('E15', 'TypeMismatch', 4)
    """

    def __init__(self, line: str, status: int, explanation: str = "") -> None:
        super().__init__(line, status, explanation)
        self.line = line
        self.status = status
        self.explanation = explanation
        told = re.match(r"[\w-]+: (E\d+) (\w+)", line)
        self.code: Optional[str] = told[1] if told else None
        self.name: Optional[str] = told[2] if told else None
        side = re.match(r"[\w-]+: (?:E\d+ \w+|bad type list|more than four null texts|the) (left|right)\b", line)
        self.side: Optional[str] = side[1] if side else None
        # (a name of a list of types, or of a folder, stands between double quotes, and may have any words)
        place = line.partition('"')[0]
        self.row = _number(place, "row")
        self.column = _number(place, "column")
        self.byte = _number(place, "byte")

    def __str__(self) -> str:
        return f"{self.line}\n{self.explanation}" if self.explanation else self.line

    def __reduce__(self) -> Any:
        return _made, (type(self), self.line, self.status, self.explanation)


class LineFault(Fault):
    """The command line was refused (status 2): an option, its value, or a list of types."""


class InputFault(Fault):
    """A table's content, a null text, or a cell or a name of the result was refused (status 3)."""


class ClauseFault(Fault):
    """The clause was refused (status 4)."""


class MemoryFault(Fault):
    """The system refused memory or a thread (status 5)."""


class DeviceFault(Fault):
    """A file couldn't be read, or the result not be written (status 6)."""


class ExpectationFault(Fault):
    """The joined table isn't as `expect=` or `max_rows=` says (status 7)."""


_CLASSES: Dict[int, Type[Fault]] = {2: LineFault, 3: InputFault, 4: ClauseFault, 5: MemoryFault, 6: DeviceFault, 7: ExpectationFault}


def _made(of: Type[Fault], line: str, status: int, explanation: str) -> Fault:
    return of(line, status, explanation)


def _number(line: str, word: str) -> Optional[int]:
    """The number behind a word of a line."""
    found = re.search(rf"\b{word} (\d+)\b", line)
    return int(found[1]) if found else None


def fault_of(told: str, status: int) -> Fault:
    """The fault that a program told by such a text, and ended with this status."""
    line, _, explanation = told.rstrip("\n").partition("\n")
    return _CLASSES.get(status, Fault)(line, status, explanation)
