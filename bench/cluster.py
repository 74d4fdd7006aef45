#!/usr/bin/env python3
"""Times cluster/radixjoin-cluster on this machine beside radixjoin alone, on a workload: the time of each run, the time that all its
processes had of the processors (which says more on a machine that does something else too), and the peak of memory of the largest
process of each program, Python's own among them. The bytes of all runs are compared.

usage: cluster.py FOLDER [--workload NAME] [--exchanged] [--scale F] [--parts N] [--processes N ..] [--merges N ..] [--spread BYTES ..] [--limit]
    FOLDER      where the tables are made, if they aren't there, and the results
    --workload  foreign_key, hot_left, in which half of all left rows have one key, or zipf_1.25
    --exchanged the left table as the right one, and the right as the left
    --spread    each run is done with each of these limits of a shard's bytes
    --processes each of these numbers of programs that run side by side
    --merges    each number of processes joins with each of these numbers of ranges of the merge, and not with the script's own
    --limit     also joins with a quarter of the address space that radixjoin alone needs"""
import argparse
import filecmp
import os
import pathlib
import resource
import subprocess
import sys
import threading
import time

import workloads

ROOT = pathlib.Path(__file__).resolve().parent.parent
sys.path.insert(0, str(ROOT / "python"))

from radixjoin import programs  # noqa: E402

PROGRAMS = ("radixjoin", "shards", "merges")
WORKLOADS = [it for it in (*workloads.WORKLOADS, *workloads.OF_SHARDS) if it.name in ("foreign_key", "hot_left", "zipf_1.25")]


def peak_of(number, field, session):
    """A peak of a process by its number, in MiB, and the name of its program; nothing where it has ended, or isn't of this session."""
    try:
        with open(f"/proc/{number}/stat") as stat:
            # (behind the name, which may have anything in it)
            if int(stat.read().rpartition(")")[2].split()[3]) != session:
                return 0, ""
        with open(f"/proc/{number}/status") as status:
            found = dict(line.split(":", 1) for line in status if ":" in line)
        return int(found[field].split()[0]) / 1024, found["Name"].strip()
    except (OSError, KeyError, ValueError):
        return 0, ""


class Watch:
    """Looks at all processes of a session every few milliseconds, for the greatest peak of each program."""

    def __init__(self, field, session):
        self.field = field
        self.session = session
        self.peaks = {}
        self.is_over = False
        self.thread = threading.Thread(target=self.look)

    def look(self):
        while not self.is_over:
            for number in filter(str.isdigit, os.listdir("/proc")):
                peak, name = peak_of(number, self.field, self.session)
                if name:
                    self.peaks[name] = max(self.peaks.get(name, 0), peak)
            time.sleep(0.01)

    def __enter__(self):
        self.thread.start()
        return self

    def __exit__(self, *_):
        self.is_over = True
        self.thread.join()


def used():
    """The time of processors that ended children of this process had, with theirs."""
    children = resource.getrusage(resource.RUSAGE_CHILDREN)
    return children.ru_utime + children.ru_stime


def timed(words, field="VmHWM", **how):
    """Runs a command; how long it took, how much of the processors, and the peaks of the programs that it started."""
    start, before = time.monotonic(), used()
    ran = subprocess.Popen([str(word) for word in words], start_new_session=True, **how)
    with Watch(field, ran.pid) as watch:
        status = ran.wait()
    if status:
        sys.exit(f"cluster.py: {words[0]} ended with status {status}")
    return time.monotonic() - start, used() - before, watch.peaks


def told(name, seconds, processors, peaks):
    largest = max((peaks[it] for it in PROGRAMS if it in peaks), default=0)
    every = ", ".join(f"{it} {peak:.0f}" for it, peak in sorted(peaks.items()))
    print(f"{name}: {seconds:.1f} s, {processors:.1f} s of processors, {largest:.0f} MiB ({every})", flush=True)


def linked(folder):
    """The folder of the three programs, as the tree has built them: so no run asks whether they are those of the sources."""
    folder.mkdir(exist_ok=True)
    for name in PROGRAMS:
        link = folder / name
        link.unlink(missing_ok=True)
        link.symlink_to(programs.built(name))
    return folder


def compare(one, other):
    if not filecmp.cmp(one, other, shallow=False):
        sys.exit(f"{other} has other bytes than {one}")


def main():
    line = argparse.ArgumentParser(description=__doc__, formatter_class=argparse.RawDescriptionHelpFormatter)
    line.add_argument("folder", type=pathlib.Path)
    line.add_argument("--workload", choices=[it.name for it in WORKLOADS], default="foreign_key")
    line.add_argument("--exchanged", action="store_true")
    line.add_argument("--scale", type=float, default=1.0)
    line.add_argument("--parts", type=int, default=16)
    line.add_argument("--processes", type=int, nargs="*", default=[1, 2, 4])
    line.add_argument("--merges", type=int, nargs="*", default=[])
    line.add_argument("--spread", type=int, nargs="*", default=[])
    line.add_argument("--limit", action="store_true")
    asked = line.parse_args()
    workload = next(it for it in WORKLOADS if it.name == asked.workload)
    left, right = (workload.file(asked.folder, side) for side in ("left", "right"))
    if not left.exists() or not right.exists():
        words = [sys.executable, ROOT / "bench" / "workloads.py", asked.folder, workload.name, "--scale", asked.scale]
        subprocess.run([str(word) for word in words], check=True)
    if asked.exchanged:
        left, right = right, left
    types = ["--left-types", workload.types(), "--right-types", workload.types()]
    words = ["--left", left, "--right", right, *types, "--join", workload.clause()]
    alone, sharded = asked.folder / "alone.csv", asked.folder / "sharded.csv"
    built = linked(asked.folder / "programs")
    with open(alone, "wb") as out:
        # (as `./radixjoin` and the processes of the cluster start it)
        told("radixjoin alone", *timed([built / "radixjoin", *words], stdout=out, env=programs.environment()))
    script = ["/usr/bin/python3", ROOT / "cluster" / "radixjoin-cluster", *words, "--out", sharded, "--parts", asked.parts, "--programs", built]
    merges = [["--merges", count] for count in asked.merges] or [[]]
    spreads = [["--spread", size] for size in asked.spread] or [[]]
    for processes in asked.processes:
        for more in ([*one, *other] for one in merges for other in spreads):
            told(" ".join(map(str, [processes, "processes", *more])), *timed([*script, "--processes", processes, *more]))
            compare(alone, sharded)
    if asked.limit:
        with open(alone, "wb") as out:
            *_, peaks = timed([built / "radixjoin", *words], "VmPeak", stdout=out, env=programs.environment())
        quarter = int(peaks["radixjoin"] / 4)
        told(f"1 process, each program in {quarter} MiB of address space", *timed([*script, "--address-space", f"{quarter}M", "--processes", 1], "VmPeak"))
        compare(alone, sharded)


if __name__ == "__main__":
    main()
