"""Refuses each allocation and each start of a thread of the built programs in turn, by a small library that is preloaded.

Each run ends as if nothing had been refused, or with `E18 Memory`, status 5 and nothing on standard output; none hangs."""
import functools
import os
import pathlib
import struct
import subprocess

import harness

# Past this many a run without a refusal is not to be expected any more.
MOST = 20_000
# A run ends within so many seconds, or hangs.
SECONDS = 30

TABLES = {
    "left.csv": b"id,name\n1,ann\n2,bob\n3,cy\n",
    "right.csv": b"id,city\n4,rome\n2,oslo\n5,lima\n",
}
WORDS = ["--left", "left.csv", "--left-types", "int,text", "--right", "right.csv", "--right-types", "int,text", "--join", "JOIN USING (id)"]
NULLS = {"left.csv": b"id,a\n1,x\n,y\n", "right.csv": b"id,b\n,p\n1,q\n3,r\n"}
NULLS_WORDS = [*WORDS[:-1], "FULL JOIN USING (id)"]
NUMBERS = {"left.csv": b"k\n-1\n0\n5\n", "right.csv": b"k\n5\n"}
NUMBERS_WORDS = ["--left", "left.csv", "--left-types", "int", "--right", "right.csv", "--right-types", "int", "--join", "JOIN USING (k)", "--bits1", "2"]

KINDS = {"REFUSE_ALLOCATION": "allocations", "REFUSE_THREAD": "starts of threads"}

# Name, program, its files, its words, its standard input, what it prints, and perhaps what it tells beside that.
JOINS = [
    ("basic_inner", "radixjoin", TABLES, WORDS, b"", b"id,name,city\n2,bob,oslo\n"),
    ("full_null_keys", "radixjoin", NULLS, NULLS_WORDS, b"", b"id,a,b\n1,x,q\n,y,\n,,p\n3,,r\n"),
    ("repeated_names", "radixjoin", TABLES, [*WORDS[:-1], "JOIN ON L.id = R.id", "--repeated", "qualify"], b"", b"id,name,R.id,city\n2,bob,2,oslo\n"),
    ("partition_statistics", "radixjoin", NUMBERS, NUMBERS_WORDS, b"", b"k\n5\n"),
]
ARRIVALS = (
    "arrivals_basic",
    "arrivals",
    {},
    ["--partition", "0", "--senders", "1", "--block", "4"],
    b"0 0 1 rows 5 7\n0 0 0 rows 1 2 3 4\n0 0 2 close\n",
    b"held\naccepted 2\naccepted 1\nsender 0 complete rows 1 2 3 4 5 7\ncomplete\n",
)


def library(folder):
    """Compiles the library that refuses."""
    made = folder / "refuse.so"
    source = harness.ROOT / "tests" / "refuse.c"
    subprocess.run(["gcc", "-O2", "-shared", "-fPIC", "-o", made, source, "-ldl"], check=True)
    return made


def totals_of(file):
    """How many allocations and how many starts of threads the library counted into a file."""
    return struct.unpack("ll", file.read_bytes())


def faults_of(ran, name, stdout, told=b""):
    """What isn't as wanted of a run in which something was refused."""
    if ran.status == 0:
        return harness.differences(ran, stdout, told)
    stderr = f"{name}: E18 Memory\n".encode()
    # Where the line itself can't be told for want of memory, nothing else is told in its place.
    return harness.differences(ran, None if name == "arrivals" else b"", stderr, 5)


def sweep(tally, refuse, kind, run):
    """Refuses the first, the second, .. until a run meets no refusal. Returns how many it met."""
    label, name, files, words, stdin, stdout, *more = run
    told = more[0] if more else b""
    for n in range(1, MOST):
        with harness.folder() as at:
            folder = pathlib.Path(at)
            for file, content in files.items():
                (folder / file).write_bytes(content)
            report = folder / "report"
            environment = {**os.environ, "LD_PRELOAD": str(refuse), kind: str(n), "REFUSE_REPORT": str(report)}
            ran = harness.run([harness.program(name), *words], folder, stdin, environment=environment, seconds=SECONDS)
            if not report.exists():
                tally.check(f"{label}: no refusal", harness.differences(ran, stdout, told))
                return n - 1
        tally.check(f"{label}: {kind}={n}", faults_of(ran, name, stdout, told))
    tally.check(f"{label}: {kind}", [f"{MOST} refusals, and no end"])
    return MOST


def by_workers(run, workers, retries):
    """A join by so many workers, which scan a stripe again so often."""
    label, name, files, words, stdin, stdout = run
    return (f"{label}, {workers} workers, {retries} retries", name, files, [*words, f"--workers={workers}", f"--retries={retries}"], stdin, stdout)


def run_all(tally):
    """Sweeps each run, joins by one and by four workers with no retry and with three."""
    with harness.folder() as at:
        refuse = library(pathlib.Path(at))
        runs = [by_workers(run, workers, retries) for run in JOINS for workers in (1, 4) for retries in (0, 3)]
        swept = [(run, "REFUSE_ALLOCATION") for run in [ARRIVALS, *runs]] + [(run, "REFUSE_THREAD") for run in runs]
        counts = harness.side_by_side(tally, [functools.partial(sweep, refuse=refuse, kind=kind, run=run) for run, kind in swept])
        for (run, kind), count in zip(swept, counts):
            if kind == "REFUSE_THREAD":
                tally.check(f"{run[0]}: threads are started", [] if count >= 2 else [f"only {count}"])
            print(f"{run[0]}: {count} {KINDS[kind]} refused in turn")
