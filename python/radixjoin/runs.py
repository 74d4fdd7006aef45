"""Runs of `radixjoin` that join the two files themselves: one alone; or left runs, for which the left file is cut at ends of records into
runs of rows, and each of them is joined with the whole right file: one after another, into the joined table itself, or side by side as
tasks of a cluster, each into a folder of its own.

A match, or an unmatched left row, is in what the run gives that has its left row, and in nothing else. So what these give, one behind
another and under one header, is the joined table of the whole but for its unmatched right rows. In the order of pairs it is divided:
the last rows of each are its unmatched left ones, which stand behind the matches of all.

A right row is unmatched if it is so beside each run. Where such rows are written each run is joined once more, for these alone. One after
another they make a right table shorter: each leaves of it the rows that are unmatched beside it too. Side by side each lists such rows of
the whole right file with their places, and `merges` writes those that all lists have. What is left, as rows of the joined table, stands
behind all others. It becomes such rows where it is joined with a left table that has none.
"""
from __future__ import annotations

import contextlib
import copy
import os
import re
from codecs import BOM_UTF8
from pathlib import Path
from typing import TYPE_CHECKING, Any, BinaryIO, Callable, Generator, NamedTuple, Optional, Sequence, Tuple

from .clauses import LONE_RIGHT, by_condition, given
from .feeding import Input, bytes_of
from .lists import with_place
from .making import append, folder_beside, made, result_of
from .packed import part_in
from .placed import LEFT, RIGHT
from .spread import TABLE
from .tables import SIGN, sign_of
from .tasks import AGAIN, DEVICE, OUT_OF_MEMORY, Told, first_fault
from .text import begin_of_last, end_of_record

if TYPE_CHECKING:
    from .cluster import Job
    from .plans import Plan

# Why runs are given up, as it is told.
IS_SHORT, IS_REFUSED = "memory was short, so ", "a run was refused, so "
# How the rows of the joined table are told by `radixjoin --stats`, and the number of unmatched left ones in it.
_STATS = re.compile(rb"^pairs \d+ lone-left (\d+) lone-right \d+$", re.MULTILINE)
_HEADER = 1 << 17
# The file of the unmatched left rows that stand behind all matches, and that of why runs side by side are given up.
LONE, _OVER = "lone", "run-over"
# The file of the right rows that are unmatched beside all runs so far, or of all right rows with their places; and in the folder of a run
# side by side what it lists of these.
_RIGHT, _LISTED = "run-right", "right.csv"


class GivenUp(Exception):
    """It can't be done by runs, for the reason that is told."""


def _why(told: Told) -> str:
    """Why runs are given up by what a program told. Of a run that is refused it isn't known whether its fault is the first one of both files,
    so that this is left to shards.

    Raises:
        Told: a device failed.
    """
    if told.status == DEVICE:
        raise told
    return IS_SHORT if told.status == OUT_OF_MEMORY else IS_REFUSED


class LeftRun(NamedTuple):
    """A run of left rows: the header of their file, the byte from which on they stand, and the one up to which, where there is one."""

    header: bytes
    start: int
    end: Optional[int]

    def table(self, job: Job) -> Input:
        """Its table, as `radixjoin` reads it."""
        return "--left=", self._rows(job)

    def _rows(self, job: Job) -> Generator[bytes, None, None]:
        """The bytes of the table. Rows that begin behind the first byte of the file have no header, and get this one."""
        file = job.files["left"]
        if self.start:
            yield self.header
        try:
            yield from bytes_of(file, [(self.start, os.path.getsize(file) if self.end is None else self.end)])
        except OSError:
            raise job.unread("left") from None

    def without_rows(self) -> LeftRun:
        """A run of the same file that has no rows."""
        return LeftRun(self.header, 1, 1)


def _lone_in(told: bytes) -> int:
    """How many unmatched left rows there are, by what `radixjoin --stats` told."""
    found = _STATS.search(told)
    if found is None:
        raise RuntimeError(f"radixjoin --stats told {told[-200:]!r}")
    return int(found[1])


def _header_in(number: int) -> bytes:
    """The header of a table that a program wrote into an open file."""
    size = _HEADER
    while True:
        text = os.pread(number, size, 0)
        end = end_of_record(text)
        if end < len(text) or len(text) < size:
            return text[:end]
        size *= 2


def _header_of(path: str) -> bytes:
    """The same of a file."""
    with open(path, "rb") as file:
        return _header_in(file.fileno())


class Joined:
    """The joined table while it is made: the matches of the runs that are joined, or all of their rows; and in a file of their own the
    unmatched left rows that are to stand behind those of all runs."""

    def __init__(self, output: BinaryIO, lone: Optional[str], told: Optional[str]) -> None:
        """Begins with an empty file. Without a path for the other one nothing is divided. What can't be written is told as what is told
        of, as `Job.run` does."""
        self._output, self.told = output, told
        self._stack = contextlib.ExitStack()
        self._file = self._stack.enter_context(open(output.name, "r+b", buffering=0))
        self._lone = self._stack.enter_context(open(lone, "wb")) if lone else None
        self._header = b""
        # The bytes of both.
        self._end, self._lone_end = 0, 0
        # The table of the right rows that are unmatched beside all runs so far, once there is one.
        self.right: Optional[str] = None
        # Why no further run is joined.
        self.why = ""

    def __enter__(self) -> Joined:
        return self

    def __exit__(self, *_: object) -> None:
        self._stack.close()

    def is_divided(self) -> bool:
        """Whether unmatched left rows are put into their own file."""
        return self._lone is not None

    def attempt(self, step: Callable[[], None]) -> None:
        """Does something for a run, unless one was given up; or tells why that isn't done. It is tried again as often as a task where a program
        is killed."""
        tries = 0 if self.why else AGAIN + 1
        while tries:
            try:
                step()
                tries, self.why = 0, ""
            except RuntimeError:
                tries, self.why = tries - 1, IS_SHORT
            except Told as told:
                tries, self.why = 0, _why(told)

    def add(self, join: Callable[[BinaryIO], bytes]) -> None:
        """Adds the rows of a run, which `join` has a program write behind their header: it gives what that told. The header is written over
        as many of the last bytes, which are put back. Where it fails what was there before is as it was, and what is behind it is
        overwritten by the next one."""
        number, begin = self._file.fileno(), self._end - len(self._header)
        before = os.pread(number, len(self._header), begin)
        os.ftruncate(number, self._end)
        os.lseek(number, begin, os.SEEK_SET)
        try:
            told = join(self._file)
            header = os.pread(number, len(self._header), begin)
        finally:
            os.pwrite(number, before, begin)
        if header != self._header:
            raise RuntimeError(f"radixjoin wrote the header {header!r} behind {self._header!r}")
        header, end = self._header or _header_in(number), os.fstat(number).st_size
        if self._lone:
            end = self._divide(max(self._end, len(header)), end, _lone_in(told), self._lone)
        self._header, self._end = header, end

    def _divide(self, begin: int, end: int, count: int, lone: BinaryIO) -> int:
        """Moves the last rows of those between two bytes, so many, into the other file. It gives the byte at which they began."""
        at = begin_of_last(self._file.fileno(), begin, end, count)
        lone.seek(self._lone_end)
        append(self._output.name, lone, at)
        os.ftruncate(self._file.fileno(), at)
        self._lone_end += end - at
        return at

    def refuse(self) -> None:
        """Tells where a run isn't joined.

        Raises:
            GivenUp: one isn't.
        """
        if self.why:
            raise GivenUp(self.why)

    def finish(self) -> None:
        """Puts the unmatched left rows behind the matches, once all runs are joined. What is added then stands behind them.

        Raises:
            GivenUp: they aren't.
        """
        self.refuse()
        if self._lone:
            self._output.seek(self._end)
            self._lone.close()
            append(self._lone.name, self._output)
            self._output.flush()
            self._lone, self._end = None, os.fstat(self._file.fileno()).st_size


def join_whole(job: Job, plan: Plan) -> str:
    """Joins the two files by one run of `radixjoin`. It gives why that isn't done, or nothing: memory is short, too, where it is killed."""
    words = [f"--left={job.files['left']}", *job.joining_files(plan.workers)]
    try:
        with result_of(job) as output:
            job.limited(plan).run("radixjoin", words, output, job.out)
    except (Told, RuntimeError) as error:
        if isinstance(error, Told) and error.status != OUT_OF_MEMORY:
            raise
        return IS_SHORT
    return ""


def clause_beside(job: Job, left: Sequence[str], right: Sequence[str]) -> str:
    """The clause by which the right rows are found that are unmatched beside a run, of files with columns of these names; none where no
    such rows are written.

    Raises:
        GivenUp: no program can be given it.
    """
    if LONE_RIGHT not in job.kinds:
        return ""
    text = given(by_condition(os.fsencode(job.clause).decode(), left, right))
    if b"\0" in text:
        raise GivenUp(IS_REFUSED)
    return os.fsdecode(text)


def _of_kinds(job: Job, kinds: Sequence[str]) -> Job:
    """The same where rows of these kinds alone are written."""
    it = copy.copy(job)
    it.one_join = [*(word for word in job.one_join if not word.startswith("--rows=")), f"--rows={','.join(kinds)}"]
    return it


def _of_right(job: Job, right: str) -> Job:
    """The same where the unmatched rows of this right table alone are written."""
    it = _of_kinds(job, [LONE_RIGHT])
    it.files = {**job.files, "right": right}
    return it


def _left_over(job: Job, right: str, clause: str) -> Job:
    """The same where they are written as a right table again: with its own columns and delimiter, and with a text for null that is read as
    null, and that no other cell has, since that would have been read so."""
    it = _of_right(job, right)
    it.clause, it.out_null = clause, job.right_null
    it.delimiters = {**job.delimiters, "out": job.delimiters["right"]}
    it.one_join.append("--columns=right")
    return it


def _by_run(job: Job) -> Optional[Job]:
    """The same where the rows are written that a run can tell by itself; None where unmatched right rows alone are to be written."""
    if LONE_RIGHT not in job.kinds:
        return job
    kinds = [kind for kind in job.kinds if kind != LONE_RIGHT]
    return _of_kinds(job, kinds) if kinds else None


def _add(job: Job, joined: Joined, plan: Plan, run: LeftRun) -> None:
    """Joins a run with the right table, and adds what that gives to the joined table."""
    words = [*job.joining_files(plan.workers), *(["--stats"] if joined.is_divided() else [])]
    joined.attempt(lambda: joined.add(lambda output: job.limited(plan).printed("radixjoin", words, output, joined.told, [run.table(job)])[1]))


def _add_run(job: Job, joined: Joined, plan: Plan, run: LeftRun) -> None:
    """Adds the rows that a run can tell by itself, where any of them are written."""
    by_run = _by_run(job)
    if by_run:
        _add(by_run, joined, plan, run)


def _write(job: Job, plan: Plan, run: LeftRun, path: str) -> None:
    """Joins a run with the right table, and writes what that gives to a file."""
    with open(path, "wb") as output:
        # (dropped by what reads it, and so not a mark that a name begins with)
        output.write(BOM_UTF8)
        output.flush()
        job.limited(plan).run("radixjoin", job.joining_files(plan.workers), output, inputs=[run.table(job)])


def _has_rows(path: str) -> bool:
    """Whether a table that a program wrote has any rows."""
    return os.path.getsize(path) > len(_header_of(path))


def _narrow(job: Job, joined: Joined, plan: Plan, clause: str, run: LeftRun) -> None:
    """Leaves of the right rows that are unmatched so far those that are unmatched beside a run too. (Where none is left there is nothing to
    do, unless the run is read for this alone: a fault in its rows is to be told.)"""
    path = job.place(_RIGHT)
    if joined.right is None or _by_run(job) is None or _has_rows(joined.right):
        _write(_left_over(job, joined.right or job.files["right"], clause), plan, run, f"{path}.new")
        os.replace(f"{path}.new", path)
        joined.right = path


def join_run(job: Job, joined: Joined, plan: Plan, clause: str, run: LeftRun) -> None:
    """Joins a run with the whole right file, and where there is a clause for that finds which right rows are unmatched so far; or tells why
    that isn't done."""
    _add_run(job, joined, plan, run)
    if clause:
        joined.attempt(lambda: _narrow(job, joined, plan, clause, run))


def add_right(job: Job, joined: Joined, plan: Plan, run: LeftRun) -> None:
    """Adds the right rows that are unmatched beside all runs, by a run without rows; or tells why that isn't done."""
    _add(_of_right(job, joined.right or job.files["right"]), joined, plan, run)


def number_right(job: Job) -> str:
    """Writes the right file with the places of its rows, for runs side by side. It gives why that can't be done, or nothing."""
    path = job.place(_RIGHT)
    try:
        if not os.path.exists(path):
            with made(path) as new, folder_beside(new) as folder, open(new, "wb") as output:
                job.run("shards", [*job.division("right", 1), "--from=0", f"--out={os.path.basename(folder)}"])
                output.write(BOM_UTF8)
                append(part_in(folder, 0), output)
    except Told as told:
        return _why(told)
    return ""


def _list_right(job: Job, plan: Plan, clause: str, run: LeftRun, folder: str) -> None:
    """Writes the right rows that are unmatched beside a run into its folder, as rows of the joined table with their places."""
    left, right = with_place(job.types["left"], LEFT), with_place(job.types["right"], RIGHT)
    rows = os.path.join(folder, _RIGHT)
    # (what `shards` writes and `merges` reads has commas)
    listing = copy.copy(job)
    listing.delimiters = {**job.delimiters, "right": SIGN, "out": SIGN}
    of_run = _left_over(listing, job.place(_RIGHT), clause)
    of_run.types = {"left": job.types["left"], "right": right}
    _write(of_run, plan, run, rows)
    of_whole = _of_right(listing, rows)
    of_whole.types = {"left": left, "right": right}
    header = run.header[:-1] + f'{sign_of(job.delimiters["left"])}"{LEFT}"\n'.encode()
    _write(of_whole, plan, LeftRun(header, 1, 1), os.path.join(folder, _LISTED))
    os.remove(rows)


def join_part(job: Job, plan: Plan, clause: str, number: int, run: LeftRun) -> str:
    """Joins a run with the whole right file, while others are joined, into a folder of its own, and lists the right rows that are unmatched
    beside it where there is a clause for that. It gives why that isn't done, or nothing. Where some runs aren't joined, those that would
    be behind them aren't either."""
    path, over = job.run_of(number), job.place(_OVER)
    if os.path.exists(over):
        return Path(over).read_text()
    if os.path.isdir(path):
        return ""
    try:
        with made(path) as new:
            os.mkdir(new)
            lone = os.path.join(new, LONE) if job.is_divided else None
            with open(os.path.join(new, TABLE), "wb") as output, Joined(output, lone, None) as joined:
                _add_run(job, joined, plan, run)
                if clause:
                    joined.attempt(lambda: _list_right(job, plan, clause, run, new))
                joined.refuse()
    except GivenUp as given_up:
        with made(over) as new:
            Path(new).write_text(str(given_up))
        return str(given_up)
    return ""


def _put_rows(job: Job, folders: Sequence[str], output: BinaryIO) -> None:
    """Puts the rows that runs told by themselves one behind another into the joined table: all matches, behind one header, and then all
    unmatched left rows, where these are divided."""
    header = _header_of(os.path.join(folders[0], TABLE))
    for it in folders:
        path = os.path.join(it, TABLE)
        if _header_of(path) != header:
            raise RuntimeError(f"radixjoin wrote another header than {header!r}")
        append(path, output, 0 if it == folders[0] else len(header))
    for it in folders if job.is_divided else ():
        append(os.path.join(it, LONE), output)


def _put_right(job: Job, folders: Sequence[str], is_first: bool, output: BinaryIO) -> None:
    """Puts the right rows that all runs listed behind them, or first behind a header. (No row stands before left row 0, and so `--from=0`
    leaves out the header alone.)"""
    output.flush()
    words = [f"--null={job.out_null}", *job.separated("out"), f"--copies={','.join([f'1x{len(folders)}'] * len(folders))}", *([] if is_first else ["--from=0"])]
    job.run("merges", [*words, *(os.path.join(os.path.basename(it), _LISTED) for it in folders)], output, job.out)


def put_parts(job: Job, count: int) -> str:
    """Puts what so many of these tasks gave together into the joined table. It gives why that can't be done, or nothing."""
    folders, has_rows = [job.run_of(number) for number in range(count)], _by_run(job) is not None
    try:
        with result_of(job) as output:
            if has_rows:
                _put_rows(job, folders, output)
            if LONE_RIGHT in job.kinds:
                _put_right(job, folders, not has_rows, output)
    except Told as told:
        return _why(told)
    return ""


def done_in_runs(cluster: Any, tasks: Sequence[Tuple[Any, ...]]) -> None:
    """Has tasks done that give why they can't be, or nothing.

    Raises:
        GivenUp: one of them can't, or ends the process of a cluster that does it, each time.
    """
    try:
        found = cluster.answers(tasks)
    except RuntimeError:
        raise GivenUp(IS_SHORT) from None
    first_fault(found)
    if any(found):
        raise GivenUp(next(filter(None, found)))


def join_in_turn(job: Job, cluster: Any, plan: Plan, clause: str, runs: Sequence[LeftRun]) -> None:
    """Joins them one after another, and then, where a clause tells of these, the right rows that are unmatched beside all."""
    with result_of(job) as output, Joined(output, job.place(LONE) if job.is_divided else None, job.out) as joined:
        first_fault(cluster.in_turn([(join_run, job, joined, plan, clause, run) for run in runs]))
        joined.finish()
        if clause:
            first_fault(cluster.in_turn([(add_right, job, joined, plan, runs[0].without_rows())]))
            joined.refuse()


def join_side_by_side(job: Job, cluster: Any, plan: Plan, clause: str, runs: Sequence[LeftRun]) -> None:
    """Joins them side by side, behind what the right rows need for that where a clause tells of unmatched ones."""
    if clause:
        done_in_runs(cluster, [(number_right, job)])
    done_in_runs(cluster, [(join_part, job, plan, clause, number, run) for number, run in enumerate(runs)])
    done_in_runs(cluster, [(put_parts, job, len(runs))])
