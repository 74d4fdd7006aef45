"""Counts the threads that the built program starts, by a small library that is preloaded: with `--workers N` there are never
more at once than N that scan and N that join beside the starting one, however many columns a table has.

Reading, putting the parts of a table together, and drawing pieces are done by N threads of which the starting one is one."""
import functools
import os
import pathlib
import struct
import subprocess

import harness

# Enough rows that each of four workers reads a part of the table, and that two write.
COLUMNS, ROWS = 100, 9000
WORKERS = (1, 2, 3, 4)
WORDS = ["--left=left.csv", "--left-types=" + ",".join(["int"] * COLUMNS), "--right=right.csv", "--right-types=int", "--join=LEFT JOIN USING (c0)"]


def library(folder):
    """Compiles the library that counts."""
    made = folder / "threads.so"
    source = harness.ROOT / "tests" / "threads.c"
    subprocess.run(["gcc", "-O2", "-shared", "-fPIC", "-o", made, source, "-ldl", "-pthread"], check=True)
    return made


def wide_table():
    """A table whose left join with no matching row is its own text."""
    rows = [",".join(f"c{column}" for column in range(COLUMNS))]
    rows += [",".join(str(row if column == 0 else (row + column) % 97) for column in range(COLUMNS)) for row in range(ROWS)]
    return "\n".join(rows).encode() + b"\n"


def most_starts(workers):
    """How many threads a run starts at most: those that read and that put together each of two tables, that scan, that join,
    that draw pieces, and that write."""
    return 2 * 2 * (workers - 1) + workers + workers + (workers - 1) + workers


def counted(tally, counter, workers):
    """A join by so many workers, whose threads are counted."""
    wide = wide_table()
    with harness.folder() as at:
        folder = pathlib.Path(at)
        (folder / "left.csv").write_bytes(wide)
        (folder / "right.csv").write_bytes(b"c0\n-1\n")
        report = folder / "report"
        report.write_bytes(bytes(16))
        environment = {**os.environ, "LD_PRELOAD": str(counter), "THREADS_REPORT": str(report)}
        words = [harness.program("radixjoin"), *WORDS, f"--workers={workers}"]
        ran = harness.run(words, folder, environment=environment)
        starts, most = struct.unpack("=qq", report.read_bytes())
    tally.check(f"{COLUMNS} columns, {workers} workers", harness.differences(ran, wide))
    tally.check(f"{workers} workers: threads are started", [] if starts >= 2 * workers else [f"only {starts}"])
    tally.check(f"{workers} workers: threads at once", [] if most <= 2 * workers else [f"{most}, and {2 * workers} are allowed"])
    allowed = most_starts(workers)
    tally.check(f"{workers} workers: starts of threads", [] if starts <= allowed else [f"{starts}, and {allowed} are allowed"])
    return f"{workers} workers {starts}, {most} at once"


def run_all(tally):
    """Counts the threads of joins by several numbers of workers."""
    with harness.folder() as at:
        counter = library(pathlib.Path(at))
        told = harness.side_by_side(tally, [functools.partial(counted, counter=counter, workers=workers) for workers in WORKERS])
    print("threads started:", "; ".join(told))
