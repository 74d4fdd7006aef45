"""How two files are joined: by one run of `radixjoin` where that fits into memory, by several of them that have the whole right file
each where that does with a part of the left one (on a cluster side by side, and no fewer than it does at once), and else in so many
shards."""
from __future__ import annotations

import argparse
import os
from typing import Any, NamedTuple, Optional, Tuple

from .clauses import LONE_RIGHT, kinds_of
from .spread import most_tables

# A run of `radixjoin` takes about so many times the bytes of its two tables (docs/user/speed.md).
MEASURE = 3
# The parts where they aren't given. Shards are half as large as they may be in the mean, so that few have to be cut.
LEAST_PARTS, MOST_PARTS = 16, 1024
# The least bytes of both tables above which a shard is cut so that its joins take less memory: a program takes more by itself.
LEAST_SPREAD = 1 << 20
# The least bytes of a run of left rows, which are also no fewer than this part of the right file, since each run reads that anew, or than
# twice as much where unmatched right rows are written, for which it does so twice.
LEAST_RUN, PART_OF_RIGHT = 1 << 20, 2
# How many runs there may be, as `shards --cuts` has it, and of those that list right rows side by side: `merges` gets all lists by one
# command line.
MOST_RUNS, MOST_LISTS = 100_000, 10_000
# Who gives one of these wants shards.
OF_SHARDS = ("parts", "spread", "ranges", "merges")
MOST_WORKERS = 64
# The address space that isn't memory of the tables: of a program, and of the stacks of each worker's threads.
_OF_PROGRAM, _OF_WORKER = 32 << 20, 20 << 20


class Plan(NamedTuple):
    """How files are joined."""

    # How many runs of `radixjoin` are tried first, each with a part of the left file and with the whole right one, and by how many workers
    # each. There is none where it is done in shards at once.
    runs: int
    workers: int
    # What shards are made of them: as many parts, and the bytes of both tables above which a shard is cut, where they are known.
    parts: int
    spread: Optional[int]
    # The memory that may be taken, where it was looked at: by all programs on this machine, or by those of each process of a cluster.
    memory: Optional[int]
    # How many runs share it, since they are done at the same time.
    sharing: int = 1

    def space(self) -> int:
        """The address space that a run may take: one that takes more memory is given up."""
        return (self.memory or 0) // self.sharing + _OF_PROGRAM + self.workers * _OF_WORKER

    def told(self, sizes: Tuple[int, int], on: Any) -> str:
        """What is told of it for a left and a right file of so many bytes, by those who do tasks."""
        if self.memory is None:
            return f"the plan is {self.parts} shards, {on.tasks_at_once()} at a time"
        of = f"{_mebibytes(self.memory)} MiB of memory{'' if on.is_here else ' of each process'}"
        if self.runs:
            runs = "one run" if self.runs == 1 else f"{self.runs} left runs"
            how = f" by {self.workers} workers" if on.is_here or self.runs == 1 else f", {min(self.runs, on.tasks_at_once())} at a time"
            return f"the plan is {runs}{how}, in about {_mebibytes(self._measure(*sizes))} of {of}"
        return f"the plan is {self.parts} shards, {on.tasks_at_once()} at a time, in {of}"

    def _measure(self, left: int, right: int) -> int:
        """About how many bytes the runs take that share the memory."""
        return MEASURE * (-(-left // self.runs) + right) * min(self.runs, self.sharing)


def _mebibytes(size: int) -> int:
    return -(-size >> 20)


def _runs(left: int, right: int, room: int, has_lone_right: bool, on: Any) -> int:
    """By how many runs of `radixjoin` files of so many bytes are joined, if the two tables of each have room for so many: by one, or by
    several; on a cluster by no fewer than it does tasks at once, unless the least runs are fewer. There is none where these would have too
    few left rows, or be too many."""
    if on.is_here and left + right <= room:
        return 1
    even: int = max(LEAST_RUN, -(-left // on.tasks_at_once()))
    length = room - right if on.is_here else min(room - right, even)
    if length < max(LEAST_RUN, (2 if has_lone_right else 1) * right // PART_OF_RIGHT):
        return 0
    count = max(1, -(-left // length))
    return count if count <= (min(MOST_LISTS, most_tables(1)) if has_lone_right and not on.is_here else MOST_RUNS) else 0


def plan_of(asked: argparse.Namespace, sizes: Tuple[int, int], on: Any) -> Plan:
    """How a left and a right file of so many bytes are joined as asked, by those who do tasks. Where the parts are given, memory isn't
    looked at."""
    if asked.parts is not None:
        return Plan(0, 0, asked.parts, asked.spread, None)
    # (a task of a cluster has one of the threads of its process)
    threads = asked.processes or len(os.sched_getaffinity(0)) if on.is_here else 1
    workers = min(MOST_WORKERS, int(asked.workers or threads))
    memory = asked.memory or on.free() // 2
    spread = max(LEAST_SPREAD, memory // on.tasks_in_process() // MEASURE)
    parts = min(MOST_PARTS, max(LEAST_PARTS, -(-2 * sum(sizes) // spread)))
    sharing = 1 if on.is_here else on.tasks_in_process()
    # (of a cluster without processes it isn't known how much memory there will be)
    is_whole = all(getattr(asked, name) is None for name in OF_SHARDS) and (on.is_here or on.has_processes())
    has_lone_right = LONE_RIGHT in kinds_of(asked.join, asked.rows)
    runs = _runs(*sizes, memory // sharing // MEASURE, has_lone_right, on) if is_whole else 0
    return Plan(runs, workers, parts, asked.spread or spread, memory, sharing)
