"""Lists of types as texts: by position, as `int,text`; by name, as `id=int,*=text`; and in files, as `@FILE`.

docs/user/specification.md has the grammar. That a list is one is the program's to tell."""
from __future__ import annotations

import re
from typing import List, Optional, Sequence, Tuple

from .faults import fault_of

# An entry of a list by name, and the comma behind it.
_ENTRY = re.compile(r'("(?:[^"]|"")+"|[A-Za-z_][A-Za-z0-9_]*|\*)=((?:[^,()"=]|\([^()]*\))+)(,(?!$)|$)')


def lower(name: str) -> str:
    """A name without regard to case, as the grammar has it: of ASCII alone."""
    return re.sub("[A-Z]", lambda found: found[0].lower(), name)


def list_in(content: bytes) -> bytes:
    """The list that a file has: each of its line ends is a comma, but for the one of the last line, which is nothing, and those
    between double quotes, which stay."""
    pieces = content.split(b'"')
    outside = [piece.replace(b"\r\n", b"\n").replace(b"\n", b",") for piece in pieces[::2]]
    if len(pieces) % 2 == 1 and content.endswith(b"\n"):
        outside[-1] = outside[-1][:-1]
    pieces[::2] = outside
    return b'"'.join(pieces)


def read_list(file: str, side: str) -> str:
    """The list of a side's types that a file has."""
    try:
        with open(file, "rb") as opened:
            content = opened.read()
    except OSError:
        raise fault_of(f"radixjoin: E19 ReadDevice {side}", 6) from None
    try:
        return list_in(content).decode()
    except UnicodeDecodeError:
        raise fault_of(f"radixjoin: bad type list {side}", 2) from None


def given_list(types: str, side: str) -> str:
    """The list that a text says: that of a file where it is `@FILE`."""
    return read_list(types[1:], side) if types.startswith("@") else types


def is_by_name(types: str) -> bool:
    """Whether a list gives its types by name: no type has the sign."""
    return "=" in types


def with_place(types: str, name: str) -> str:
    """A list of the same types, and of one whole number more, in a last column of this name."""
    return f"{types},{name}=int" if is_by_name(types) else f"{types},int"


def entries_of(types: str) -> Optional[List[Tuple[str, str]]]:
    """The names, as they are written, and the types of a list by name; None where it is none."""
    found, at = [], 0
    while at < len(types):
        entry = _ENTRY.match(types, at)
        if entry is None:
            return None
        found.append((entry[1], entry[2]))
        at = entry.end()
    return found or None


def means(written: str, name: str) -> bool:
    """Whether a name that is written in a list means a column of this name."""
    return written[1:-1].replace('""', '"') == name if written.startswith('"') else lower(written) == lower(name)


def types_under(types: str, names: Sequence[str]) -> List[Optional[str]]:
    """The type that a list by name gives each of these columns, None where it gives none."""
    entries = entries_of(types) or []
    rest = next((word for written, word in entries if written == "*"), None)
    return [next((word for written, word in entries if written != "*" and means(written, name)), rest) for name in names]
