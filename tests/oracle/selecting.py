"""Lists of columns: what `--select` says, read and looked up in two tables."""
import re

from .faults import Fault
from .reading import lowered

# A name of a list: a regular one, or one between double quotes.
NAME = r'(?:[A-Za-z_][A-Za-z0-9_]*|"(?:[^"]|"")+")'
ENTRY = re.compile(rf"(?:({NAME})\.)?({NAME})(?:=({NAME}))?(,|\Z)")
LONGEST_NAME = 128
MOST_ENTRIES = 256
SIDES = {b"L": 0, b"R": 1}


def name_of(word):
    """Whether a name is between quotes, and its bytes."""
    is_delimited = word.startswith('"')
    return is_delimited, (word[1:-1].replace('""', '"') if is_delimited else word).encode()


def side_of(word):
    """0 for L, 1 for R, 2 for the joined table, whose columns have no qualifier; None for another one."""
    if word is None:
        return 2
    is_delimited, spelled = name_of(word)
    return SIDES.get(spelled if is_delimited else spelled.upper())


def entries(text):
    """The entries of a list: of each its side, its name and the bytes of its new name or None. None if the text is no list."""
    found, at = [], 0
    while True:
        entry = ENTRY.match(text, at)
        if not entry:
            return None
        side, new = side_of(entry[1]), entry[3] and name_of(entry[3])[1]
        if side is None or (new and len(new) > LONGEST_NAME):
            return None
        found.append((side, name_of(entry[2]), new))
        if not entry[4]:
            return found if len(found) <= MOST_ENTRIES else None
        at = entry.end()


def matches(name, called):
    is_delimited, spelled = name
    return called == spelled if is_delimited else lowered(called) == lowered(spelled)


def chosen(listed, names):
    """The columns that a list means, each by its side and its number, and the names under which they are written. `names` has those
    of the left, of the right and of the joined table."""
    columns, written = [], []
    for number, (side, name, new) in enumerate(listed, 1):
        found = [column for column, called in enumerate(names[side]) if matches(name, called)]
        called = new or (names[side][found[0]] if len(found) == 1 else b"")
        if len(found) != 1 or lowered(called) in map(lowered, written):
            raise Fault(35, "SelectedName", "column", number)
        columns.append((side, found[0]))
        written.append(called)
    return columns, written
