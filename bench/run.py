"""Times radixjoin, with one worker and with more, beside a plain single-threaded Rust join, and checks that all write
the same rows.

usage: run.py [--scale F] [--runs N] [--sizes] [NAME ..]

Makes the workloads under bench/data (once), builds both programs, runs each several times in turn, and prints a table
of the least wall time, CPU time and peak memory of each, and of one worker their ratios. With --sizes it runs foreign_key
with 1 to 16 million left rows instead, and with --beside, as --beside sqlite3, the workloads that are named beside other
programs (bench/rivals.py). It judges nothing: it ends with status 0 unless the rows differ or a program can't be run."""
import argparse
import hashlib
import os
import pathlib
import subprocess
import sys
import time

import rivals
import workloads

BENCH = pathlib.Path(__file__).resolve().parent
ROOT = BENCH.parent
sys.path.insert(0, str(ROOT / "python"))

from radixjoin import programs  # noqa: E402

DATA = BENCH / "data"
# With how many workers radixjoin runs beside its one.
WORKERS = (2, 4)
# All threads share one heap, as where `./radixjoin` starts the program. (The plain join has one thread, to which this is nothing.)
ENVIRONMENT = programs.environment()
# The parts and multiples of a workload's rows that --sizes runs.
SCALES = (0.25, 0.5, 1.0, 2.0, 4.0)


class Measured:
    """One run: seconds of wall time and of CPU time, peak memory in bytes, and a digest of what was written."""

    def __init__(self, wall, cpu, memory, digest):
        self.wall = wall
        self.cpu = cpu
        self.memory = memory
        self.digest = digest


def measure(words):
    """Runs a program with its output into a file, which it then reads for the digest."""
    out = DATA / "out.csv"
    with open(out, "wb") as file:
        start = time.monotonic()
        child = subprocess.Popen([str(word) for word in words], stdout=file, env=ENVIRONMENT)
        _, status, usage = os.wait4(child.pid, 0)
        wall = time.monotonic() - start
    if status != 0:
        sys.exit(f"run.py: {words[0]} ended with status {os.waitstatus_to_exitcode(status)}")
    with open(out, "rb") as file:
        digest = hashlib.file_digest(file, "sha256").hexdigest()
    out.unlink()
    return Measured(wall, usage.ru_utime + usage.ru_stime, usage.ru_maxrss * 1024, digest)


def least(runs):
    """The least of each figure of several runs of one program."""
    return Measured(min(run.wall for run in runs), min(run.cpu for run in runs), min(run.memory for run in runs), runs[0].digest)


def build():
    """Builds both programs; returns their files."""
    plain = DATA / "plain_join"
    subprocess.run(["rustc", "--edition", "2021", "-O", "-o", plain, BENCH / "plain_join.rs"], check=True)
    subprocess.run([ROOT / "tools" / "run-program", "radixjoin", "--help"], check=True, stdout=subprocess.DEVNULL)
    return ROOT / "crates" / "radixjoin" / "out" / "radixjoin", plain


def words_of(workload, proved):
    """The command line of a workload."""
    left, right = workload.file(DATA, "left"), workload.file(DATA, "right")
    files = ["--left", left, "--left-types", workload.types(), "--right", right, "--right-types", workload.types()]
    return [proved, *files, "--join", workload.clause(), *workload.options()]


def compare(workload, proved, plain, runs, options):
    """Runs one workload on both programs in turn, radixjoin with one worker and with each of `WORKERS`."""
    left, right = workload.file(DATA, "left"), workload.file(DATA, "right")
    proved_words = [*words_of(workload, proved), *options]
    # (the plain join knows no clause but USING)
    kind = "full" if workload.kind == "full" else "inner"
    lines = [[plain, left, right, workload.keys, kind]] if workload.kind != "hot" else []
    lines += [proved_words, *([*proved_words, f"--workers={workers}"] for workers in WORKERS)]
    found = [[measure(words) for words in lines] for _ in range(runs)]
    *theirs, ours, second, third = [least(of_one) for of_one in zip(*found)]
    size = left.stat().st_size + right.stat().st_size
    walls = [f"{it.wall:.2f} s | {ours.wall / it.wall:.2f}" for it in theirs] or ["- | -"]
    cpus = [f"{it.cpu:.2f} s | {ours.cpu / it.cpu:.2f}" for it in theirs] or ["- | -"]
    peaks = [f"{it.memory / 1e6:.0f} MB" for it in theirs] or ["-"]
    more = "".join(f" {it.wall:.2f} s | {it.cpu:.2f} s | {it.memory / 1e6:.0f} MB |" for it in (second, third))
    print(
        f"| {workload.name} | {size / 1e6:.0f} MB | {ours.wall:.2f} s | {walls[0]} | {ours.cpu:.2f} s | {cpus[0]} "
        f"| {ours.memory / 1e6:.0f} MB | {peaks[0]} | {ours.memory / size:.1f} |{more}",
        flush=True,
    )
    return {run.digest for turn in found for run in turn} == {ours.digest}


def beside(rivals_named, workload, proved, runs):
    """Runs one workload by radixjoin with one worker and by other programs, in turn."""
    lines = [words_of(workload, proved), *(rivals.RIVALS[name](workload, DATA) for name in rivals_named)]
    found = [[measure(words) for words in lines] for _ in range(runs)]
    all_least = [least(of_one) for of_one in zip(*found)]
    for name, it in zip(["radixjoin", *rivals_named], all_least):
        print(f"| {workload.name} | {name} | {it.wall:.2f} s | {it.cpu:.2f} s | {it.memory / 1e6:.0f} MB |", flush=True)
    return {it.digest for it in all_least} == {all_least[0].digest}


def make(workload, scale):
    """Makes a workload's files, where they aren't there."""
    made = DATA / f"{workload.name}.{scale}.made"
    if not made.exists():
        workloads.make(workload, DATA, scale)
        for old in DATA.glob(f"{workload.name}.*.made"):
            old.unlink()
        made.touch()


def sizes(proved, runs, options):
    """Runs foreign_key with ever more rows, by one and by the most workers."""
    workload = next(it for it in workloads.WORKLOADS if it.name == "foreign_key")
    heads = ["left rows", "input", *(f"{workers} workers: {it}" for workers in (1, WORKERS[-1]) for it in ("wall", "CPU", "CPU by million rows", "peak"))]
    print(f"| {' | '.join(heads)} |")
    print("|---" * len(heads) + "|")
    for scale in SCALES:
        make(workload, scale)
        millions = workload.left * scale / 1e6
        size = sum(workload.file(DATA, side).stat().st_size for side in ("left", "right"))
        row = [f"{millions:.0f}M", f"{size / 1e6:.0f} MB"]
        for workers in (1, WORKERS[-1]):
            it = least([measure([*words_of(workload, proved), f"--workers={workers}", *options]) for _ in range(runs)])
            row += [f"{it.wall:.2f} s", f"{it.cpu:.2f} s", f"{it.cpu / millions:.3f} s", f"{it.memory / 1e6:.0f} MB"]
        print(f"| {' | '.join(row)} |", flush=True)


def main():
    words = argparse.ArgumentParser(description=__doc__, formatter_class=argparse.RawDescriptionHelpFormatter)
    words.add_argument("names", nargs="*")
    words.add_argument("--scale", type=float, default=1.0)
    words.add_argument("--runs", type=int, default=3)
    words.add_argument("--option", action="append", default=[], help="one more word for radixjoin, as --option=--bits1=6")
    words.add_argument("--sizes", action="store_true", help="run foreign_key with ever more rows")
    words.add_argument("--beside", action="append", choices=rivals.RIVALS, help="run these workloads, inner joins by one key, beside this program")
    given = words.parse_args()
    DATA.mkdir(exist_ok=True)
    proved, plain = build()
    if given.sizes:
        sizes(proved, given.runs, given.option)
        return
    heads = ["workload", "input", "radixjoin wall", "plain wall", "ratio", "radixjoin CPU", "plain CPU", "ratio"]
    heads += ["radixjoin peak", "plain peak", "peak by input"]
    heads += [f"{workers} workers {figure}" for workers in WORKERS for figure in ("wall", "CPU", "peak")]
    if given.beside:
        heads = ["workload", "program", "wall", "CPU", "peak"]
    print(f"| {' | '.join(heads)} |")
    print("|---" * len(heads) + "|")
    differing = []
    for workload in workloads.WORKLOADS:
        if given.names and workload.name not in given.names:
            continue
        make(workload, given.scale)
        is_same = beside(given.beside, workload, proved, given.runs) if given.beside else compare(workload, proved, plain, given.runs, given.option)
        if not is_same:
            differing.append(workload.name)
    if differing:
        sys.exit(f"run.py: the rows differ: {', '.join(differing)}")


if __name__ == "__main__":
    main()
