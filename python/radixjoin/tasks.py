"""Tasks of a join in shards: what each gives or tells, and how it is shown how many are done."""
from __future__ import annotations

import contextlib
import errno
import itertools
import sys
from typing import Any, Callable, Iterable, Iterator, Sequence, Tuple

# What the system tells where there is no room, which no second try changes.
FULL = (errno.ENOSPC, errno.EDQUOT, errno.EROFS)
# The statuses of a program for which memory was short, and of one that a device failed.
OUT_OF_MEMORY, DEVICE = 5, 6
# How often a task runs again whose program was killed.
AGAIN = 2
# What is shown of a step, by the name of its tasks' function.
STEPS = {
    "join_whole": "joining",
    "join_run": "joining",
    "join_part": "joining",
    "add_right": "putting the result together",
    "number_right": "dividing",
    "cuts_of": "looking for cuts",
    "divide": "dividing",
    "cut_side": "cutting large shards",
    "join_shard": "joining",
    "ambiguous_cell": "looking for a cell",
    "count_before": "counting rows",
    "cut_tables": "cutting the joined shards",
    "merge_shards": "merging",
    "merge_range": "merging",
    "put_together": "putting the result together",
    "put_parts": "putting the result together",
}
# What is written in the place of a line that is shown.
_CLEARED = f"\r{' ' * 72}\r"


class Told(Exception):
    """A fault that a program told: the line that it printed, its exit status, and what it told below the line."""

    def __init__(self, line: str, status: int, more: str = "") -> None:
        super().__init__(line, status, more)
        self.line = line
        self.status = status
        self.more = more

    def __str__(self) -> str:
        return f"{self.line}\n{self.more}" if self.more else self.line


def unwritten(path: str, why: str = "it can't be written, or there is no room") -> Told:
    """The fault of a folder, or of the result, that can't be written."""
    return Told(f'radixjoin-cluster: E20 WriteDevice "{path}": {why}', 6)


def answer(task: Callable[..., Any], job: Any, *words: Any) -> Any:
    """What a task gives, or the fault that it told: a fault is an answer too, which no second try changes. So is a folder for what
    is half made that is full."""
    try:
        return task(job, *words)
    except Told as fault:
        return fault
    except OSError as error:
        if error.errno not in FULL:
            raise
        return unwritten(job.folder())


@contextlib.contextmanager
def in_one_line() -> Iterator[None]:
    """Has what goes wrong be an OSError or a RuntimeError, which the script tells in a line."""
    try:
        yield
    except (OSError, RuntimeError):
        raise
    except Exception as error:
        raise RuntimeError(f"{type(error).__name__}: {error}") from error


def step_of(tasks: Sequence[Tuple[Any, ...]]) -> str:
    """The step of some tasks, of one or more."""
    return STEPS[tasks[0][0].__name__]


def are_shown(is_asked: bool) -> bool:
    """Whether steps are shown: where that is asked for, on a terminal."""
    return is_asked and sys.stderr is not None and sys.stderr.isatty()


def show(tasks: Sequence[Tuple[Any, ...]], done: Iterable[Any]) -> None:
    """Shows on the terminal how many tasks of a step are done, until all are."""
    try:
        for number, _ in enumerate(itertools.chain([None], done)):
            put(f"{_CLEARED}radixjoin-cluster: {step_of(tasks)}, {number} of {len(tasks)} tasks")
    finally:
        put(_CLEARED)


def tell(is_asked: bool, text: str) -> None:
    """Tells something in a line of the terminal that stays, where steps are shown."""
    if are_shown(is_asked):
        put(f"radixjoin-cluster: {text}\n")


def put(text: str) -> None:
    """Writes on standard error, which may be a terminal that is gone."""
    with contextlib.suppress(OSError):
        print(text, end="", file=sys.stderr, flush=True)


def first_fault(answers: Sequence[Any]) -> None:
    """Raises the first fault among answers."""
    for it in answers:
        if isinstance(it, Told):
            raise it
