"""Joins two CSV files that may be larger than one machine's memory, on this machine or in the processes of a Dask cluster.

Where memory has room for the whole, one run of `radixjoin` does it, and where it has for the right file and a part of the left one,
several that have such a part each, on a cluster side by side. Else both files are divided by the hash of their rows' keys (the program
`shards`, one task for each range of a file), the two parts of each shard are joined (`radixjoin`, one task a shard, or several where it
is too large), and what these joins give is merged (`merges`, one task for each range of the joined table). The bytes written are those
that `radixjoin` would write. docs/user/cluster.md says what of this is proved, and how to run it.

Every task writes under a new name and renames at its end, so that a task may run twice. The parts of a range stand in one file. What
a step made is removed when the next one is done, and all that is half made at the end, whether it is a good one or not. With
--scheduler it needs Dask (Debian's python3-dask and python3-distributed).
"""
from __future__ import annotations

import argparse
import codecs
import contextlib
import copy
import errno
import glob
import itertools
import json
import logging
import os
import re
import signal
import stat
import subprocess
import sys
import tempfile
import warnings
from pathlib import Path
from typing import TYPE_CHECKING, Any, Dict, Iterator, List, Mapping, Optional, Sequence, Tuple, Union

from .arguments import refuse_values
from .clauses import clause_of, given, kinds_of, refuse_rows, told_of_rows
from .columns import Types
from .delimiters import Delimiters
from .explained import of_cell, of_row, of_unread
from .faults import Fault, fault_of
from .feeding import FILES_OF_INPUT, Input, bytes_of, run_program
from .line import MOST_MERGES, OF_ONE_JOIN, SIDES, beyond, read_line
from .lists import lower, with_place
from .local import Machine
from .making import append, beginning, folder_beside, made, remove, result_of
from .memory import size_in
from .nulls import Texts, texts_of
from .outputs import refuse_input
from .packed import Run, give_back, pack, part_in, rows_of_part, rows_of_run, sizes_of, told_of
from .pipes import open_streams
from .placed import LEFT, RIGHT, SAMPLES, Index, Place, Shard, cut_places, sampled
from .plans import Plan, plan_of
from .programs import ProgramNotFound, encoded, find_all
from .runs import LONE, GivenUp, LeftRun, clause_beside, done_in_runs, join_in_turn, join_side_by_side, join_whole
from .spread import TABLE, Join, are_many, joins_of, length_of, limit_of, most_tables, next_length, runs_of
from .tables import SIGN, PathTable, sign_of
from .tasks import Told, answer, first_fault, put, tell, unwritten
from .text import header, header_in, split_header

if TYPE_CHECKING:
    from distributed import Client

    from .sending import Cluster

# The signals that end the script.
ENDS = (signal.SIGTERM, signal.SIGINT, signal.SIGHUP)
PLACES = {"left": LEFT, "right": RIGHT}
# The bytes of the joined tables that each range of a merge has at least where it isn't given how many there are to be: a smaller one
# isn't worth a task.
LEAST_MERGED = 16 << 20
PROGRAMS = ("radixjoin", "shards", "merges")
AMBIGUOUS = re.compile(r"radixjoin: E28 AmbiguousNull row (\d+) column (\d+)")


class Job:
    """What every task has to know: the programs, the options, and the folder for what is half made."""

    def __init__(self, asked: argparse.Namespace, scratch: str) -> None:
        self.programs = find_all(PROGRAMS, asked.programs or None)
        self.files = {side: str(Path(getattr(asked, side)).resolve()) for side in SIDES}
        self.types = {side: getattr(asked, f"{side}_types") for side in SIDES}
        self.clause = asked.join
        null = asked.null or ""
        nulls = {side: getattr(asked, f"{side}_null") or [] for side in SIDES}
        # The words for the texts that are null in the files, and the text that is written for null.
        self.null = [f"--null={null}", *(f"--{side}-null={text}" for side in SIDES for text in nulls[side])]
        self.out_null = null if asked.out_null is None else asked.out_null
        self.right_null: str = (nulls["right"] or [null])[0]
        # Whether a cell that isn't null may be written as null is, which has to be told.
        self.is_apart = bool(asked.strict) and any(self.out_null not in (nulls[side] or [null]) for side in SIDES)
        delimiters = Delimiters(asked.delimiter, asked.left_delimiter, asked.right_delimiter, asked.out_delimiter)
        # Those of the files, and of the one that is written (`out`).
        self.delimiters = {what: delimiters.of(what) for what in (*SIDES, "out")}
        self.strict = [f"--strict={asked.strict}"] if asked.strict else []
        self.explain = ["--explain"] if asked.explain else []
        # (these are known when the join is planned)
        self.parts, self.spread = 1, asked.spread
        self.order = asked.order or "pairs"
        # The kinds of rows that are written, and whether unmatched left ones stand behind the matches of all left rows.
        self.kinds = [kind for kind in kinds_of(self.clause, asked.rows) if kind != "matched-left"]
        self.is_divided = self.order == "pairs" and {"pairs", "lone-left"} <= {*self.kinds}
        self.one_join = [f"--{option}={getattr(asked, option)}" for option in OF_ONE_JOIN if getattr(asked, option) is not None]
        # The address space that each program may take.
        self.space: Optional[int] = asked.address_space
        self.scratch = scratch
        self.out = str(Path(asked.out).resolve())
        # The first letters of the names of results that are half made.
        self.half = os.path.join(os.path.dirname(self.out), f".{os.path.basename(scratch)}")

    def run(self, name: str, words: Sequence[str], output: Any = subprocess.PIPE, writes: Optional[str] = None, inputs: Sequence[Input] = ()) -> bytes:
        """Runs a program, on these inputs beside the files that its words name, and gives what it printed. What it refuses is told; that
        it was killed is an error, so that the task runs again. What can't be written is told as what the program writes, or as the folder
        for what is half made."""
        return self.printed(name, words, output, writes, inputs)[0]

    def printed(self, name: str, words: Sequence[str], output: Any, writes: Optional[str], inputs: Sequence[Input]) -> Tuple[bytes, bytes]:
        """The same with what it told on standard error."""
        how = {"cwd": self.scratch, "stdin": subprocess.DEVNULL, "stdout": output, "preexec_fn": beginning(self.space)}
        ran = run_program([self.programs[name], *words], inputs, **how)
        if ran.returncode < 0:
            raise RuntimeError(f"{name} was ended by signal {-ran.returncode}")
        if ran.returncode:
            line, _, more = ran.stderr.decode(errors="replace").rstrip("\n").partition("\n")
            if line.endswith(": E20 WriteDevice"):
                raise unwritten(writes or self.folder())
            side = re.fullmatch(r"radixjoin: E19 ReadDevice (left|right)", line) if self.explain and name == "shards" else None
            raise Told(line, ran.returncode, of_unread(self.files[side[1]]) if side else more)
        return ran.stdout, ran.stderr

    def unread(self, side: str) -> Told:
        """The fault of a side's file that can't be read."""
        return Told(f"radixjoin: E19 ReadDevice {side}", 6, of_unread(self.files[side]) if self.explain else "")

    def folder(self) -> str:
        """The folder that was given for what is half made."""
        return os.path.dirname(self.scratch)

    def separated(self, *files: str) -> List[str]:
        """The words that name the delimiters of these files, where they aren't commas."""
        return [f"--{what}-delimiter={self.delimiters[what]}" for what in files if self.delimiters[what] != SIGN]

    def joining(self, types: Dict[str, str]) -> List[str]:
        """The words for `radixjoin` that join two tables of these types, but for those that name the tables and their delimiters."""
        words = [f"--{side}-types={types[side]}" for side in SIDES]
        return [*words, f"--join={self.clause}", *self.null, f"--out-null={self.out_null}", *self.one_join]

    def joining_files(self, workers: int) -> List[str]:
        """The words for `radixjoin` that join the two files themselves, but for those that name the left one."""
        words = [f"--right={self.files['right']}", *self.joining(self.types), *self.separated(*SIDES, "out"), *self.strict, *self.explain]
        return words if any(word.startswith("--workers=") for word in words) else [*words, f"--workers={workers}"]

    def limited(self, plan: Plan) -> Job:
        """The same where programs may take no more than the planned memory."""
        it = copy.copy(self)
        it.space = min(plan.space(), self.space or plan.space())
        return it

    def division(self, side: str, parts: int) -> List[str]:
        """The words for `shards` that don't depend on the range, for so many parts."""
        tables = [word for it in SIDES for word in (f"--{it}={self.files[it]}", f"--{it}-types={self.types[it]}")]
        return [f"--side={side}", *tables, f"--join={self.clause}", *self.null, *self.separated(*SIDES), *self.strict, *self.explain, f"--parts={parts}"]

    def place(self, name: str) -> str:
        """The path of something that is made in the scratch folder."""
        return os.path.join(self.scratch, name)

    def parts_of(self, side: str, number: int) -> str:
        """The path of the parts of a range of a file."""
        return self.place(f"{side}-{number}")

    def all_parts_of(self, side: str, count: int) -> List[str]:
        """The paths of the parts of all ranges of a file, of which there are so many."""
        return [self.parts_of(side, number) for number in range(count)]

    def joined(self, one: Join) -> str:
        """The path of the folder of a joined table."""
        return self.place(one.name())

    def table(self, one: Join) -> Tuple[Shard, Index, Optional[List[int]]]:
        """A joined table, its index, and the row and column of its first cell that isn't null and is written as null is, if that has to
        be told and there is one."""
        told = json.loads(Path(self.joined(one), "told").read_text())
        entries: List[Tuple[int, int, Place]] = [(at, before, (first, second, third)) for at, before, (first, second, third) in told["entries"]]
        return Shard(self.place(one.table()), self.order), (entries, told["end"]), told["cell"]

    def run_of(self, number: int) -> str:
        """The path of the folder of what a run of left rows gave."""
        return self.place(f"run-{number:05}")

    def merged(self, number: int) -> str:
        """The path of a merged range."""
        return self.place(f"merged-{number:04}")

    def clear(self, *patterns: str) -> None:
        """Removes what isn't needed any more in the scratch folder."""
        for pattern in patterns:
            for path in glob.glob(os.path.join(glob.escape(self.scratch), pattern)):
                remove(path)


@contextlib.contextmanager
def scratch_in(folder: str) -> Iterator[str]:
    """A new folder for what is half made, in another one. It is removed at the end."""
    try:
        scratch = tempfile.mkdtemp(prefix="radixjoin-", dir=folder)
    except OSError as error:
        raise unwritten(folder, error.strerror) from None
    try:
        yield scratch
    finally:
        remove(scratch)


@contextlib.contextmanager
def output_of(job: Job) -> Iterator[Job]:
    """Sees that the result can be written, before anything is done for it. At the end what is half made of it is removed."""
    try:
        if os.path.isdir(job.out):
            raise IsADirectoryError(errno.EISDIR, os.strerror(errno.EISDIR))
        if os.path.exists(job.out) and not os.path.isfile(job.out):
            # (a device would be gone behind the rename)
            raise unwritten(job.out, "it is no regular file")
        with open(job.half, "xb"):
            pass
    except OSError as error:
        raise unwritten(job.out, error.strerror) from None
    try:
        yield job
    finally:
        for name in glob.glob(f"{glob.escape(job.half)}*"):
            remove(name)


def cuts_of(job: Job, side: str, count: int) -> List[Tuple[int, Optional[int]]]:
    """The ranges of a side's file: so many or fewer, each from one byte to another, cut where records end."""
    printed = job.run("shards", [*job.division(side, job.parts), "--cuts", str(count)]).decode().split()
    places = [0, *map(int, printed)]
    return list(zip(places, [*places[1:], None]))


def counts_in(printed: bytes) -> Tuple[int, int]:
    """How many rows a range has, and how many bytes the header of a part, as `shards` prints them."""
    told = re.fullmatch(rb"rows (\d+) header (\d+)\n", printed)
    if told is None:
        raise RuntimeError(f"shards printed {printed!r}")
    return int(told[1]), int(told[2])


def divide(job: Job, side: str, number: int, start: int, end: Optional[int]) -> Tuple[int, List[int]]:
    """Divides a range of a file into parts, which then stand in one file. It gives how many rows it has, and how many bytes the rows
    of each part have."""
    path = job.parts_of(side, number)
    if not os.path.exists(path):
        with made(path) as new, folder_beside(new) as folder:
            upto = ["--to", str(end)] if end is not None else []
            # (by its name in the scratch folder, where the program runs: by its path that folder would be made anew when all is over)
            told = counts_in(job.run("shards", [*job.division(side, job.parts), "--from", str(start), *upto, "--out", os.path.basename(folder)]))
            pack(folder, job.parts, told, new)
    return told_of(path, job.parts)[0], sizes_of(path, job.parts)


def cut_side(job: Job, side: str, part: int, count: int, length: int) -> List[Run]:
    """Cuts the rows that a side has in a shard, in so many ranges, into runs that are no longer than a length."""
    return runs_of(job.all_parts_of(side, count), job.parts, part, length)


def tables_of(job: Job, one: Join, ranges: Dict[str, int]) -> List[Input]:
    """The two tables of a join, as `radixjoin` reads them."""
    if one.runs:
        return [(f"--{side}=", rows_of_run(run)) for side, run in zip(SIDES, one.runs)]
    return [(f"--{side}=", rows_of_part(job.all_parts_of(side, ranges[side]), job.parts, one.part)) for side in SIDES]


def join_tables(job: Job, one: Join, ranges: Dict[str, int], path: str) -> Optional[List[int]]:
    """Joins two tables of a shard into a file. It gives the row and the column of the first cell that isn't null and is written as
    null is, if that has to be told and there is one."""
    with open(path, "wb") as output:
        # (dropped by `merges`, and so not a mark that a name begins with)
        output.write(codecs.BOM_UTF8)
        output.flush()
        words = job.joining({side: with_place(job.types[side], PLACES[side]) for side in SIDES})
        try:
            job.run("radixjoin", [*words, *(job.strict if job.is_apart else [])], output, inputs=tables_of(job, one, ranges))
        except Told as told:
            cell = AMBIGUOUS.fullmatch(told.line)
            if cell is None:
                raise
            job.run("radixjoin", words, output, inputs=tables_of(job, one, ranges))
            return [int(cell[1]), int(cell[2])]
    return None


def join_into(job: Job, one: Join, ranges: Dict[str, int], folder: str) -> None:
    """Joins two tables of a shard into a folder: the joined table, and what `Job.table` gives of it."""
    path = os.path.join(folder, TABLE)
    cell = join_tables(job, one, ranges, path)
    # (only a cell that has to be told is told with the number of its row)
    entries, end = Shard(path, job.order).scanned(counts_rows=job.is_apart)
    Path(folder, "told").write_text(json.dumps({"cell": cell, "entries": entries, "end": end}))


def join_shard(job: Job, one: Join, ranges: Dict[str, int]) -> Tuple[bool, List[Tuple[Place, int]]]:
    """Joins two tables of a shard, and gives back the room of its parts once all its joins are done. It gives whether there is a cell
    in the joined table that isn't null and has to be told, since it is written as null is; and how its bytes are spread."""
    path = job.joined(one)
    if not os.path.isdir(path):
        try:
            with made(path) as new:
                os.mkdir(new)
                join_into(job, one, ranges, new)
        except FileNotFoundError:
            # (another try that was faster has given the parts back)
            if not os.path.isdir(path):
                raise
    if all(os.path.isdir(job.joined(it)) for it in one.of_shard()):
        for side in SIDES:
            for it in job.all_parts_of(side, ranges[side]):
                give_back(it, job.parts, one.part)
    _, index, cell = job.table(one)
    return cell is not None, sampled(index, one.share_of(SAMPLES))


def ambiguous_cell(job: Job, one: Join) -> Tuple[Place, int]:
    """Where the first cell of a joined shard that isn't null and is written as null is stands: the place of its row, and its column in
    the joined table."""
    shard, index, cell = job.table(one)
    row, column = cell or (0, 0)
    return shard.place_of_row(index, row), shard.column_in_whole(column)


def count_before(job: Job, one: Join, place: Place) -> int:
    """How many rows of a joined shard stand before a place."""
    shard, index, _ = job.table(one)
    return shard.find(index, place)[1]


def cut_table(job: Job, one: Join, cuts: Sequence[Place]) -> List[int]:
    """The bytes of a joined table at which the ranges between places begin, and that behind the last one."""
    shard, index, _ = job.table(one)
    return [shard.begin, *(shard.find(index, place)[0] for place in cuts), index[1]]


def cut_tables(job: Job, joins: Sequence[Join], cuts: Sequence[Place]) -> List[List[int]]:
    """These bytes of each of some joined tables."""
    return [cut_table(job, one, cuts) for one in joins]


def merging(job: Job, joins: Sequence[Join]) -> List[str]:
    """The words for `merges` that merge these joined tables."""
    copies = [one.copies() for one in joins]
    return [f"--null={job.out_null}", *job.separated("out"), f"--order={job.order}", *([f"--copies={','.join(copies)}"] if {*copies} != {"1"} else [])]


def merge_shards(job: Job, joins: Sequence[Join]) -> None:
    """Merges the joined tables into the one of the whole. They are named by their places in the scratch folder: there may be many."""
    with result_of(job) as output:
        job.run("merges", [*merging(job, joins), *(one.table() for one in joins)], output, job.out)


def merge_range(job: Job, number: int, runs: Sequence[Tuple[Join, Tuple[int, int, int]]]) -> None:
    """Merges a range of the joined table of the whole: of each of these joined tables the bytes of its rows in the range, behind its
    header, which ends at the first of the three numbers. No row stands before left row 0, and so `--from=0` leaves out the header
    alone."""
    path = job.merged(number)
    if not os.path.exists(path):
        words = [*merging(job, [one for one, _ in runs]), *(["--from=0"] if number else [])]
        inputs = [("", bytes_of(job.place(one.table()), [(0, header), (begin, end)])) for one, (header, begin, end) in runs]
        with made(path) as new, open(new, "wb") as output:
            job.run("merges", words, output, inputs=inputs)


def put_together(job: Job, count: int) -> None:
    """Puts the merged ranges one after another into the joined table."""
    with result_of(job) as output:
        for number in range(count):
            append(job.merged(number), output)


def counted_on(line: str, before: int) -> str:
    """The line of a fault with its row counted on from so many rows. A name in it stands between double quotes, and stays."""
    told, quote, name = line.partition('"')
    return re.sub(r"\brow (\d+)", lambda found: f"row {before + int(found[1])}", told) + quote + name


def first_fault_of_file(job: Job, side: str, ranges: Sequence[Tuple[int, Optional[int]]], answers: Sequence[Any]) -> None:
    """Raises the first fault of a side's file among the answers of its ranges, its row counted through the whole file."""
    before = 0
    for it, (start, end) in zip(answers, ranges):
        if isinstance(it, Told):
            more = of_row(it.line, names_in(job, side), start, end) if job.explain and not it.more else it.more
            raise Told(counted_on(it.line, before), it.status, more)
        before += it[0]


def names_in(job: Job, side: str) -> List[str]:
    """The names of the columns of a side's file."""
    with open(job.files[side], "rb") as opened:
        return header_in(opened.read(1 << 20), sign_of(job.delimiters[side]))


def refuse_taken_names(job: Job) -> None:
    """Refuses files of which a column has the name of a column of places."""
    for side in SIDES:
        for name in names_in(job, side):
            if lower(name) in PLACES.values():
                raise Told(f"radixjoin-cluster: the {side} file has a column {name}, which is the name of a column of places: rename it", 3)


def refuse_line(job: Job) -> Optional[Told]:
    """Tells what `radixjoin` does of the command line, by a run on empty files. A null text that isn't lawful is given back:
    files that can't be read are told before it."""
    try:
        job.run("radixjoin", [*(f"--{side}={os.devnull}" for side in SIDES), *job.joining(job.types), *job.separated(*SIDES, "out"), *job.strict, *job.explain])
    except Told as told:
        if told.status != 3:
            raise
        return told if told.line == "radixjoin: E10 BadNull" else None
    return None


def refuse_files(job: Job) -> None:
    """Refuses files that can't be read, or once only."""
    for side in SIDES:
        try:
            if stat.S_ISFIFO(os.stat(job.files[side]).st_mode):
                raise Told(f"radixjoin-cluster: the {side} file is a pipe, which can't be divided: give a file", 2)
            names_in(job, side)
        except OSError:
            raise job.unread(side) from None


def names_read(job: Job, side: str) -> List[str]:
    """The names of the columns of a side's file, as a program reads them. They are those of a part, without the name of the places behind
    its own ones, and no byte of the file is divided for it."""
    job.run("shards", [*job.division(side, 1), "--from=1", "--to=1", "--out=."])
    names, _ = split_header(Path(part_in(job.scratch, 0)).read_bytes())
    job.clear("*.csv")
    return names[:-1]


def refuse(job: Job) -> None:
    """Tells what is wrong beside the rows, before these are read: what `radixjoin` tells of two files of these headers that
    have no rows, and what keeps a join from being done in shards. It is told by `shards`, which divides no bytes of each file."""
    bad_null = refuse_line(job)
    refuse_files(job)
    first_fault([bad_null])
    try:
        for side in SIDES:
            names_read(job, side)
    except Told as told:
        repeated = re.fullmatch(r"radixjoin: E3 RepeatedName (left|right) column (\d+)", told.line)
        if repeated and int(repeated[2]) > len(names_in(job, repeated[1])):
            # (the column of places, which stands behind all of the file)
            refuse_taken_names(job)
        if job.explain:
            told.more = told.more or of_row(told.line, [], 0, None)
        raise
    refuse_taken_names(job)


def divided(job: Job, cluster: Any, count: int) -> Tuple[Dict[str, int], Dict[str, List[int]]]:
    """Divides both files. It gives how many ranges each has, and how many bytes its rows have in each shard."""
    cuts = cluster.answers([(cuts_of, job, side, count) for side in SIDES])
    first_fault(cuts)
    ranges = dict(zip(SIDES, cuts))
    tasks = {side: [(divide, job, side, number, *it) for number, it in enumerate(ranges[side])] for side in SIDES}
    answers = cluster.answers([*tasks["left"], *tasks["right"]])
    of_side = {"left": answers[: len(ranges["left"])], "right": answers[len(ranges["left"]) :]}
    for side in SIDES:
        first_fault_of_file(job, side, ranges[side], of_side[side])
    sizes = {side: [sum(of_part) for of_part in zip(*(sizes for _, sizes in of_side[side]))] for side in SIDES}
    return {side: len(ranges[side]) for side in SIDES}, sizes


def joins_of_shards(job: Job, cluster: Any, ranges: Dict[str, int], sizes: Dict[str, List[int]]) -> List[Join]:
    """The joins of all shards, whose sides have so many bytes: of those that are too large each left run with each right one. A cell
    that has to be told is looked for in the joined table of a whole shard, so that none is cut where there may be one."""
    totals = list(map(sum, zip(*sizes.values())))
    limit = limit_of(totals, job.spread)
    large = [part for part, total in enumerate(totals) if total > limit and not job.is_apart]
    lengths = {part: length_of(sizes["left"][part], sizes["right"][part], limit) for part in large}
    joins = {part: [Join(part)] for part in range(job.parts)}
    while lengths:
        runs = cluster.answers([(cut_side, job, side, part, ranges[side], length) for part, length in lengths.items() for side in SIDES])
        first_fault(runs)
        for part, lefts, rights in zip(list(lengths), runs[::2], runs[1::2]):
            if are_many(len(lefts), len(rights)):
                lengths[part] = next_length(lengths[part])
            else:
                joins[part] = list(joins_of(part, lefts, rights))
                del lengths[part]
    return [one for part in range(job.parts) for one in joins[part]]


def refuse_many(joins: Sequence[Join], parts: int, files: int) -> None:
    """Refuses to cut shards into so many pieces that what they give can't be merged by one process, which has so many files open for
    each."""
    most = most_tables(files)
    if len(joins) > max(parts, most):
        raise Told(f"radixjoin-cluster: {len(joins)} joins are more than the {most} that can be merged here: give --spread more bytes", 2)


def refuse_ambiguous(job: Job, cluster: Any, joins: Sequence[Join], ambiguous: Sequence[Join]) -> None:
    """Tells the first cell of the joined table that isn't null and is written as null is, which these of the joined shards have."""
    cells = cluster.answers([(ambiguous_cell, job, one) for one in ambiguous])
    first_fault(cells)
    place, column = min(cells)
    before = cluster.answers([(count_before, job, one, place) for one in joins])
    first_fault(before)
    name = job.table(joins[0])[0].names_in_whole()[column - 1]
    more = of_cell(sum(before) + 1, name, job.out_null) if job.explain else ""
    raise Told(f"radixjoin: E28 AmbiguousNull row {sum(before) + 1} column {column}", 3, more=more)


def rows_in_range(bytes_of_tables: Sequence[Sequence[int]], number: int) -> Dict[int, Tuple[int, int, int]]:
    """Of each joined table that has rows in a range where its header ends, and from which byte up to which one these rows stand. The
    first table is among them in any case, for its header."""
    runs = {table: (at[0], at[number], at[number + 1]) for table, at in enumerate(bytes_of_tables)}
    return {table: run for table, run in runs.items() if table == 0 or run[1] < run[2]}


def merge_all(job: Job, cluster: Any, joins: Sequence[Join], cuts: Sequence[Place]) -> None:
    """Merges the joined tables, in ranges that are cut at these places where there are any."""
    if not cuts:
        first_fault(cluster.answers([(merge_shards, job, joins)]))
        return
    of_shards = [list(them) for _, them in itertools.groupby(joins, lambda one: one.part)]
    found = cluster.answers([(cut_tables, job, them, cuts) for them in of_shards])
    first_fault(found)
    cut = [at for them in found for at in them]
    runs = [[(joins[table], run) for table, run in rows_in_range(cut, number).items()] for number in range(len(cuts) + 1)]
    first_fault(cluster.answers([(merge_range, job, number, run) for number, run in enumerate(runs)]))
    job.clear("joined-*")
    first_fault(cluster.answers([(put_together, job, len(cuts) + 1)]))


def ranges_of_merge(cluster: Any, joins: int, size: int) -> int:
    """How many ranges of so many joined tables, of so many bytes in all, are merged side by side where that isn't given: one for each
    task that is done at once, but none of few bytes. It is one alone where a process can't have open what a range needs of each table:
    to merge all it needs one file of each."""
    if joins > most_tables(FILES_OF_INPUT * cluster.tasks_in_process()):
        return 1
    tasks: int = cluster.tasks_at_once()
    return max(1, min(tasks, size // LEAST_MERGED, MOST_MERGES))


def run(job: Job, cluster: Any, count: int, merges: Optional[int]) -> None:
    """Divides, joins and merges, in as many ranges as are given."""
    ranges, sizes = divided(job, cluster, count)
    joins = joins_of_shards(job, cluster, ranges, sizes)
    refuse_many(joins, job.parts, FILES_OF_INPUT * min(merges, cluster.tasks_in_process()) if merges and merges > 1 else 1)
    joined = cluster.answers([(join_shard, job, one, ranges) for one in joins])
    first_fault(joined)
    job.clear("left-*", "right-*")
    joins = [one.without_runs() for one in joins]
    ambiguous = [one for one, (has_cell, _) in zip(joins, joined) if has_cell]
    if ambiguous:
        refuse_ambiguous(job, cluster, joins, ambiguous)
    samples = [it for _, samples in joined for it in samples]
    merges = merges or ranges_of_merge(cluster, len(joins), sum(size for _, size in samples))
    merge_all(job, cluster, joins, cut_places(samples, merges))


@contextlib.contextmanager
def cluster_of(asked: argparse.Namespace) -> Iterator[Union[Machine, Cluster]]:
    """The cluster that is asked for, or this machine."""
    if not asked.scheduler:
        yield Machine(asked.processes or 1, asked.progress)
        return
    from distributed import Client

    # (what ends late or is called off at the end is no fault of the join)
    for name in ("asyncio", "tornado", "distributed"):
        logging.getLogger(name).setLevel(logging.CRITICAL)
    with Client(asked.scheduler) as client:
        yield cluster_by(client, asked.progress)


def cluster_by(client: Client, progress: bool) -> Cluster:
    """The cluster of a Dask client. (What is needed for it alone is loaded here.)"""
    from .sending import Cluster

    return Cluster(client, progress)


def join_in_runs(job: Job, cluster: Any, plan: Plan) -> None:
    """Joins runs of left rows with the whole right file: one after another, or side by side on a cluster.

    Raises:
        GivenUp: one of them is refused or killed, or there is no memory for it.
    """
    found = cluster.answers([(cuts_of, job, "left", plan.runs)])
    first_fault(found)
    names = [names_read(job, side) for side in SIDES]
    above = header(names[0], sign_of(job.delimiters["left"]))
    runs, clause = [LeftRun(above, *it) for it in found[0]], clause_beside(job, *names)
    try:
        (join_in_turn if cluster.is_here else join_side_by_side)(job, cluster, plan, clause, runs)
    finally:
        job.clear("run-*", LONE)


def why_not_by(job: Job, cluster: Any, plan: Plan) -> str:
    """Joins by the runs of `radixjoin` that are planned. It gives why that can't be done, or nothing."""
    try:
        if plan.runs == 1:
            done_in_runs(cluster, [(join_whole, job, plan)])
        else:
            join_in_runs(job, cluster, plan)
    except GivenUp as given_up:
        return str(given_up)
    return ""


def run_as_planned(asked: argparse.Namespace, job: Job, cluster: Any) -> None:
    """Joins by runs of `radixjoin` where these fit into memory, and else in shards. The plan is shown where that is asked for."""
    left, right = (os.path.getsize(job.files[side]) for side in SIDES)
    plan, why = plan_of(asked, (left, right), cluster), ""
    # (before a cluster has what all tasks have to know)
    job.parts, job.spread = plan.parts, plan.spread
    if plan.runs:
        tell(asked.progress, plan.told((left, right), cluster))
        why = why_not_by(job, cluster, plan)
        if not why:
            return
        plan = plan._replace(runs=0)
    tell(asked.progress, why + plan.told((left, right), cluster))
    run(job, cluster, asked.ranges or cluster.tasks_at_once(), asked.merges)


def run_in(asked: argparse.Namespace, cluster: contextlib.AbstractContextManager[Any]) -> None:
    """Joins as asked on this machine or a cluster, in a scratch folder that is removed at the end. What can be refused without the rows is
    refused before the cluster is there."""
    refuse_input(asked.out, asked.left, asked.right)
    folder = str(Path(asked.scratch or Path(asked.out).resolve().parent).resolve())
    with scratch_in(folder) as scratch, output_of(Job(asked, scratch)) as job:
        first_fault([answer(refuse, job)])
        with cluster as it:
            run_as_planned(asked, job, it)


def join(
    left: Union[str, os.PathLike[str]],
    right: Union[str, os.PathLike[str]],
    clause: str,
    *,
    client: Optional[Client] = None,
    processes: Optional[int] = None,
    left_types: Types,
    right_types: Types,
    output: Union[str, os.PathLike[str]],
    null: Optional[str] = None,
    left_null: Texts = None,
    right_null: Texts = None,
    out_null: Optional[str] = None,
    delimiter: Optional[str] = None,
    left_delimiter: Optional[str] = None,
    right_delimiter: Optional[str] = None,
    out_delimiter: Optional[str] = None,
    strict: Union[bool, str] = False,
    parts: Optional[int] = None,
    ranges: Optional[int] = None,
    spread: Optional[int] = None,
    merges: Optional[int] = None,
    scratch: Union[str, os.PathLike[str], None] = None,
    programs: Union[str, os.PathLike[str], None] = None,
    memory: Union[int, str, None] = None,
    address_space: Union[int, str, None] = None,
    progress: bool = False,
    explain: bool = False,
    **of_one_join: Any,
) -> Any:
    """Joins two files that may be larger than memory, and gives the path of the result, `output`: on this machine, where no more than
    `processes` programs run side by side (1, where it isn't given), or by the processes of a Dask client. These have to see the files, the programs and the scratch folder under the same names.

    `memory`, a number of bytes or a text as "8G", decides how (half of what is free, where it isn't given): on this machine by one run of
    `radixjoin` where about three times the bytes of both files fit into it, by `processes` threads or, where that isn't given, as many as there are
    processors; by several where three times the right file does with a part of the left one, one after another, or on a cluster side by side
    where that fits into the memory of each process; else in shards, as many as it takes for those that are joined at the same time to fit, on
    a cluster in each process. With `parts`, `spread`, `ranges` or `merges` it is done in shards.

    The arguments are the options of the command line `radixjoin-cluster` (docs/user/cluster.md): `left_null` and `right_null`, a text or
    up to four, and `out_null`, in place of `null`; `delimiter`, what stands between the fields of both files and of the result, or
    `left_delimiter`, `right_delimiter` and `out_delimiter` in its place; `strict`, True or "full", has files refused that aren't of RFC 4180's grammar; with `explain`, a `Fault` has an `explanation`;
    `parts` that the tables are divided into (1 to 1,024), `ranges` of a file that are divided side by side, `spread`, the bytes of
    both tables above which a shard is joined in pieces, `merges`, the ranges of the joined table that are merged side by side, `address_space` that each program may take, as `memory`; `workers` and other options of each join go to `radixjoin`. Types are a list, a text as the program
    has it (`"int,text"`, `"id=int,*=text"`, `"@FILE"`), or a mapping by name, in which `*` stands for all other columns.

    Raises:
        Fault: a program told a fault, as `radixjoin.join` raises it, or the result or the scratch folder can't be written
            (`DeviceFault`). There is no result then, and nothing is left behind.
        TypeError, ValueError: as `radixjoin.join` raises them.
        ProgramNotFound: there is no program, in `programs`, of the environment variable RADIXJOIN (beside which the others may
            stand), in this tree or on the PATH.
        RuntimeError: a program was ended by a signal, or a process of the cluster ended, each time that a task was tried.
    """
    if client is not None and processes is not None:
        raise TypeError("processes= is of this machine, and client= of a cluster")
    unknown = next((name for name in of_one_join if name not in OF_ONE_JOIN), None)
    if unknown is not None:
        raise TypeError(f"{unknown}= is no option of the join of a shard")
    refuse_values(of_one_join)
    refuse_rows(of_one_join.get("rows"), clause_of(clause, None, None, False, "inner"))
    refuse_input(output, left, right)
    each = {name: None if of_one_join.get(name) is None else str(of_one_join[name]) for name in OF_ONE_JOIN}
    files = {"left": os.fsdecode(left), "right": os.fsdecode(right), "out": os.fsdecode(output)}
    folders = {"scratch": scratch and os.fsdecode(scratch), "programs": programs and os.fsdecode(programs)}
    delimiters = {"delimiter": delimiter, "left_delimiter": left_delimiter, "right_delimiter": right_delimiter, "out_delimiter": out_delimiter}
    signs = Delimiters(*delimiters.values())
    types = {f"{side}_types": _types(side, files[side], declared, signs.of(side)) for side, declared in zip(SIDES, (left_types, right_types))}
    nulls = {"null": null, "left_null": texts_of("left_null", left_null), "right_null": texts_of("right_null", right_null), "out_null": out_null}
    if strict and strict not in (True, "full"):
        raise ValueError(f"strict={strict!r} is none of True, False and 'full'")
    sizes = {"memory": _size("memory", memory), "address_space": _size("address_space", address_space)}
    how = {"strict": "full" if strict == "full" else "on" if strict else None, "parts": parts, "ranges": ranges, "spread": spread, "merges": merges, "progress": progress, "explain": explain}
    asked = argparse.Namespace(join=os.fsdecode(encoded(given(clause))), processes=processes, **how, **sizes, **files, **folders, **types, **nulls, **delimiters, **each)
    for name, least, most in beyond(asked):
        raise ValueError(f"{name}= is from {least} to {most}")
    try:
        run_in(asked, contextlib.nullcontext(Machine(processes or 1, progress) if client is None else cluster_by(client, progress)))
    except Told as told:
        raise fault_of(str(told), told.status) from None
    return output


def _size(name: str, given: Union[int, str, None]) -> Optional[int]:
    """The bytes of a size, if it is given."""
    try:
        return None if given is None else size_in(given)
    except (TypeError, ValueError) as error:
        raise type(error)(f"{name}={error}") from None


def _types(side: str, path: str, types: Types, delimiter: str) -> str:
    """Types as an option has them. Of a mapping they are those of the columns of the file with this delimiter, whose names are read for
    that; what is no file is told later."""
    is_unread = isinstance(types, Mapping) and not os.path.isfile(path)
    return PathTable(side, path, "text" if is_unread else types, delimiter).types_given()


def ended_by(number: int, _: Any) -> None:
    """Ends the script where a signal asks for it: what is half made is removed, and goes on being so where one asks again."""
    for it in ENDS:
        signal.signal(it, signal.SIG_IGN)
    # (Dask's own timers may end before they began, of which Python would tell a line on standard error)
    warnings.filterwarnings("ignore", "coroutine .* was never awaited", RuntimeWarning)
    sys.exit(128 + number)


def main() -> int:
    """The command line."""
    open_streams()
    for number in ENDS:
        # (what nohup starts goes on when its terminal is gone)
        if number != signal.SIGHUP or signal.getsignal(number) != signal.SIG_IGN:
            signal.signal(number, ended_by)
    try:
        asked = read_line(sys.argv[1:])
        run_in(asked, cluster_of(asked))
        put(told_of_rows(asked.join, asked.rows))
    except (Told, Fault) as fault:
        print(fault, file=sys.stderr)
        return fault.status
    except ProgramNotFound as error:
        print(f"radixjoin-cluster: {error}", file=sys.stderr)
        return 2
    except (OSError, RuntimeError, ImportError) as error:
        # (of a module it is Dask that isn't there, which a scheduler needs)
        print(f"radixjoin-cluster: {error}", file=sys.stderr)
        return 6 if isinstance(error, OSError) else 1
    return 0


if __name__ == "__main__":
    # (as a module of the package, by whose name its code is packed)
    from radixjoin.cluster import main as main_of_package

    sys.exit(main_of_package())
