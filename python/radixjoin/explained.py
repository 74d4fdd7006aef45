"""What `radixjoin-cluster --explain` adds where no program that it runs knows enough to say more: of a fault of a file's rows, which are
divided range by range, of a file that can't be read, and of a cell of the result, whose rows stand in several shards."""
from __future__ import annotations

import re
from typing import Optional, Sequence

# How many bytes are shown of a text.
_MOST = 60


def shown(text: str) -> str:
    """A text as the programs show it: between double quotes, control characters as `\\xNN`, and of more than 60 bytes the first ones."""
    whole = text.encode("utf-8", "surrogateescape")
    part = whole[:_MOST].decode("utf-8", "ignore")
    more = len(whole) - len(part.encode())
    escaped = re.sub("[\x00-\x1f\x7f]", lambda found: f"\\x{ord(found[0]):02X}", part)
    return f'"{escaped}"' + (f" and {more} more bytes" if more else "")


def of_row(line: str, names: Sequence[str], start: int, end: Optional[int]) -> str:
    """What is told of a fault whose row, by its line, is one of the range of a file from one byte to another, or to the file's end: the
    range, and the name of its column. It is nothing where the line tells no row."""
    place = line.partition('"')[0]
    row = re.search(r"\brow (\d+)", place)
    if row is None:
        return ""
    if row[1] == "0":
        return "  in the header"
    upto = "on" if end is None else f"to {end}"
    column = re.search(r"\bcolumn (\d+)", place)
    at = int(column[1]) if column else 0
    name = f", column {shown(names[at - 1])}" if 0 < at <= len(names) else ""
    return f"  row {row[1]} of those in the file's bytes from {start} {upto}{name}"


def of_unread(file: str) -> str:
    """What is told of a file that can't be read: its name, and why the system says so, if it does again."""
    try:
        with open(file, "rb") as opened:
            opened.read(1)
    except OSError as error:
        return f"  {file}: {error.strerror}"
    return f"  {file}"


def of_cell(row: int, name: str, null: str) -> str:
    """What is told of a cell of the result, in the column of this name, that isn't null and is written as null is."""
    return f"  row {row} of the result, column {shown(name)}: {shown(null)} is a text, and null is written so too"
