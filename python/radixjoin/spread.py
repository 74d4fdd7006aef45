"""Shards that are joined in pieces: the rows of each side of a large shard are cut into runs, and each left run is joined with each
right one.

So each pair of the shard stands in one of these joins, and a row in no pair of the shard is in no pair of any join that has it: a
left one stands in as many joined tables as there are right runs, and a right one in as many as there are left runs. `merges` is
told these numbers (`--copies`), and leaves out the rows that stand in fewer, which are in a pair elsewhere.
"""
from __future__ import annotations

import resource
import zlib
from typing import Iterator, List, Optional, Sequence, Tuple

from .packed import Run, opened, sizes_of
from .text import end_of_record, end_of_records, pieces

# The least that both tables of a join have to have together before their shard is cut, where no limit is given.
LEAST = 16 << 20
# How many joins of one shard there may be. Runs are made longer where there would be more.
MOST_JOINS = 4_096
# How many joined tables there may be where shards are cut: one command line names them all.
MOST_TABLES = 16_384
# The files that a process has open beside those of joined tables, or fewer.
_OTHER_FILES = 64
# The name of a joined table in its folder.
TABLE = "table.csv"


class Join:
    """One of the joins of a shard: which left run meets which right one, and of how many."""

    def __init__(self, part: int, numbers: Tuple[int, int] = (0, 0), counts: Tuple[int, int] = (1, 1), runs: Optional[Tuple[Run, Run]] = None) -> None:
        self.part = part
        self.numbers = numbers
        self.counts = counts
        # Both runs, where the shard is cut.
        self.runs = runs

    def name(self) -> str:
        """The name of what it gives."""
        left, right = self.numbers
        return f"joined-{self.part:04}-{left:04}-{right:04}"

    def table(self) -> str:
        """The joined table, by its place in the scratch folder."""
        return f"{self.name()}/{TABLE}"

    def copies(self) -> str:
        """In how many joined tables a left and a right row in no pair stand, as `merges` is told."""
        lefts, rights = self.counts
        return "1" if lefts == rights == 1 else f"{rights}x{lefts}"

    def without_runs(self) -> Join:
        """The same without its runs."""
        return Join(self.part, self.numbers, self.counts)

    def share_of(self, number: int) -> int:
        """About its share of a number that the joins of the shard have together, and no less than 1."""
        lefts, rights = self.counts
        return max(1, number // (lefts * rights))

    def of_shard(self) -> Iterator[Join]:
        """All joins of the shard, the last one first."""
        lefts, rights = self.counts
        for left in reversed(range(lefts)):
            for right in reversed(range(rights)):
                yield Join(self.part, (left, right), self.counts)


def limit_of(sizes: Sequence[int], asked: Optional[int]) -> int:
    """How many bytes both tables of a join may have together: as many as are asked for, or twice the mean of these shards."""
    return asked or max(LEAST, 2 * sum(sizes) // len(sizes))


def next_length(length: int) -> int:
    """The length to be tried where runs of another one are too many."""
    return length + length // 8 + 1


def are_many(lefts: int, rights: int) -> bool:
    """Whether so many left and right runs of a shard are too many."""
    return max(1, lefts) * max(1, rights) > MOST_JOINS


def length_of(left: int, right: int, limit: int) -> int:
    """The length of the runs of two sides of so many bytes: half of the limit, or more where there would be too many joins."""
    length = max(1, limit // 2)
    while are_many(-(-left // length), -(-right // length)):
        length = next_length(length)
    return length


def most_tables(files: int) -> int:
    """How many joined tables can be merged by a process that has so many files open for each, as far as this system says."""
    most = resource.getrlimit(resource.RLIMIT_NOFILE)[1]
    return MOST_TABLES if most == resource.RLIM_INFINITY else min(MOST_TABLES, (most - _OTHER_FILES) // files)


class Cutting:
    """Rows cut into runs of about as many bytes each, and of no more than a length. A longer row is a run of its own."""

    def __init__(self, header: Tuple[str, int, int], text: bytes, size: int, length: int) -> None:
        """Begins with the header, where it stands and its bytes, for rows of so many bytes in all."""
        self.header, self.text, self.rest, self.length = header, text, size, length
        self.runs: List[Run] = []
        self._begin()

    def _begin(self) -> None:
        """Begins a run: what is left is cut evenly."""
        self.room = -(-self.rest // max(1, -(-self.rest // self.length)))
        self.size, self.stretches, self.total = 0, [self.header], zlib.crc32(self.text)

    def end(self) -> List[Run]:
        """Ends a run, and gives all runs."""
        self.runs.append((self.stretches, self.total))
        self.rest -= self.size
        self._begin()
        return self.runs

    def add(self, path: str, at: int, piece: bytes) -> None:
        """Adds whole rows, which stand at a byte of a file."""
        begin = 0
        while begin < len(piece):
            end = self._end_in(piece, begin)
            if begin < end:
                self._put(path, at + begin, piece[begin:end])
            else:
                self.end()
            begin = end

    def _end_in(self, piece: bytes, begin: int) -> int:
        """Behind the last row of a piece, from one of its rows on, that the run has room for."""
        room = self.room - self.size
        if len(piece) - begin <= room:
            return len(piece)
        end = begin + end_of_records(piece[begin : begin + max(room, 0)])
        return end_of_record(piece, begin) if end == begin and self.size == 0 else end

    def _put(self, path: str, at: int, rows: bytes) -> None:
        """Puts rows into the run."""
        name, begin, end = self.stretches[-1]
        if (name, end) == (path, at):
            self.stretches[-1] = (path, begin, at + len(rows))
        else:
            self.stretches.append((path, at, at + len(rows)))
        self.size += len(rows)
        self.total = zlib.crc32(rows, self.total)


def runs_of(paths: Sequence[str], count: int, part: int, length: int) -> List[Run]:
    """The runs of the rows of a part, of so many, from all ranges of a file, none of more bytes than a length.

    Raises:
        FileNotFoundError: the part isn't as it was written.
    """
    size = sum(sizes_of(path, count)[part] for path in paths)
    cutting: Optional[Cutting] = None
    for path in paths:
        with opened(path, count, part) as rows:
            header, at = rows.header(), rows.rows
            cutting = cutting or Cutting((path, rows.begin, at), header, size, length)
            for piece in pieces(rows):
                cutting.add(path, at, piece)
                at += len(piece)
    assert cutting
    return cutting.end()


def joins_of(part: int, lefts: Sequence[Run], rights: Sequence[Run]) -> Iterator[Join]:
    """The joins of a shard that is cut into these runs."""
    for left, run in enumerate(lefts):
        for right, other in enumerate(rights):
            yield Join(part, (left, right), (len(lefts), len(rights)), (run, other))
