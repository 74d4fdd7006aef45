"""Joined shards: where their rows stand by the places of these, and the bytes at which they begin.

The rows of a joined shard rise by their places. So those from one place up to another are one run of the file's bytes. An index
that one scan makes has an entry for each piece of the file, of some KiB: a place is found by the entries, and in one piece of the
file by its rows.
"""
from __future__ import annotations

from bisect import bisect_left
from codecs import BOM_UTF8
from typing import BinaryIO, Iterable, Iterator, List, Tuple

from .ending import go_on
from .text import end_of_record, end_of_records, fields_in, records_in

# The names of the columns of places.
LEFT, RIGHT = "left_place", "right_place"
# Where a row stands: its kind, and its places. Pairs come first, by their left, then their right place, then lone left and
# lone right rows. In the order of the left rows lone ones stand among the pairs.
Place = Tuple[int, int, int]
# A piece of whole rows: the byte at which it begins, how many rows stand before it where they were counted, and the place of its first
# row.
Entry = Tuple[int, int, Place]
# The entries of a file, and how many bytes it has.
Index = Tuple[List[Entry], int]
# The bytes of a piece, but for one of a longer row.
PIECE = 1 << 16
# So many pieces of a shard, or fewer, tell how its bytes are spread.
SAMPLES = 256
_HEADER = 1 << 17


def place_of(left: str, right: str, order: str) -> Place:
    """Where the row with these fields stands in this order. A null is no number."""
    if left.isdigit():
        return (0, int(left), int(right)) if right.isdigit() else (0 if order == "left" else 1, int(left), 0)
    return 2, int(right), 0


def _header_of(file: BinaryIO) -> Tuple[List[str], int]:
    """The names of a file's columns, and the byte behind its header."""
    text = b""
    while True:
        read = file.read(_HEADER)
        text += read
        begin = len(BOM_UTF8) if text.startswith(BOM_UTF8) else 0
        end = end_of_record(text, begin)
        if end < len(text) or not read:
            return fields_in(text[begin:end].decode()), end


class Shard:
    """The file of a joined shard, whose rows stand in this order."""

    def __init__(self, path: str, order: str) -> None:
        self.path = path
        self.order = order
        with open(path, "rb") as file:
            # (and the byte at which the rows begin)
            self.names, self.begin = _header_of(file)
        self.left, self.right = self.names.index(LEFT), self.names.index(RIGHT)

    def column_in_whole(self, column: int) -> int:
        """The number in the joined table of a column of the shard, both counted from 1."""
        return column - sum(place + 1 < column for place in (self.left, self.right))

    def names_in_whole(self) -> List[str]:
        """The names of the columns of the joined table."""
        return [name for name in self.names if name not in (LEFT, RIGHT)]

    def scanned(self, counts_rows: bool = True) -> Index:
        """The index of the file. Where rows needn't be counted, none is told to stand before a piece: to count them takes most of the
        time."""
        entries: List[Entry] = []
        at, before, size = self.begin, 0, PIECE
        with open(self.path, "rb") as file:
            while True:
                go_on()
                file.seek(at)
                piece = file.read(size)
                end = end_of_records(piece)
                if not end and len(piece) == size:
                    # (a longer row)
                    size *= 2
                    continue
                if not piece:
                    return entries, at
                rows = piece[: end or len(piece)]
                entries.append((at, before, self._place_of(rows[: end_of_record(rows)])))
                at, size = at + len(rows), PIECE
                before += records_in(rows) if counts_rows else 0

    def find(self, index: Index, place: Place) -> Tuple[int, int]:
        """The byte at which the first row that isn't below a place begins, or the file's end where there is none; and how many rows
        stand before it."""
        entries, end = index
        number = bisect_left([first for _, _, first in entries], place)
        if number == 0:
            return self.begin, 0
        at, before, _ = entries[number - 1]
        for begin, found in self._rows(at, entries[number][0] if number < len(entries) else end):
            if found >= place:
                return begin, before
            before += 1
        return entries[number][0] if number < len(entries) else end, before

    def place_of_row(self, index: Index, row: int) -> Place:
        """Where a row stands, counted from 1."""
        entries, end = index
        number = bisect_left([before for _, before, _ in entries], row) - 1
        at, before, _ = entries[number]
        found = [place for _, place in self._rows(at, entries[number + 1][0] if number + 1 < len(entries) else end)]
        return found[row - 1 - before]

    def _place_of(self, row: bytes) -> Place:
        fields = fields_in(row.decode())
        return place_of(fields[self.left], fields[self.right], self.order)

    def _rows(self, begin: int, end: int) -> Iterator[Tuple[int, Place]]:
        """The rows of some bytes of the file: the byte at which each begins, and where it stands."""
        with open(self.path, "rb") as file:
            file.seek(begin)
            piece = file.read(end - begin)
        at = 0
        while at < len(piece):
            behind = end_of_record(piece, at)
            yield begin + at, self._place_of(piece[at:behind])
            at = behind


def sampled(index: Index, most: int = SAMPLES) -> List[Tuple[Place, int]]:
    """How the bytes of a shard are spread: places of some of its rows, which rise, and how many bytes follow each up to the next."""
    entries, end = index
    some = entries[:: len(entries) // most + 1]
    ends = [at for at, _, _ in some[1:]] + [end]
    return [(place, behind - at) for (at, _, place), behind in zip(some, ends)]


def cut_places(samples: Iterable[Tuple[Place, int]], count: int) -> List[Place]:
    """The places at which the rows of all shards are cut into so many ranges of about as many bytes, or fewer. They rise, and are
    those of rows."""
    ordered = sorted(samples)
    total, before, cuts = sum(size for _, size in ordered), 0, ordered[:1]
    for place, size in ordered:
        if before * count >= total * len(cuts) and place > cuts[-1][0]:
            cuts.append((place, size))
        before += size
    return [place for place, _ in cuts[1:]]
