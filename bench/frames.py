"""Times joins of frames by the package `radixjoin` beside pandas.merge: the least of some runs of each, by the clock and by the processors, and
what this process takes beside the frames and the result. RADIXJOIN names the program.

usage: frames.py [--left ROWS] [--right ROWS] [--runs N]"""
import argparse
import gc
import os
import pathlib
import sys
import tempfile
import time

import numpy
import pandas

sys.path[:0] = [str(pathlib.Path(__file__).resolve().parent.parent / "python")]
import radixjoin

MIB = 1 << 20


def frames(left, right):
    """Foreign keys: each left row meets one right row. Each side has a text, and the left one a float too."""
    pick = numpy.random.default_rng(7)
    texts = [[f"{name} {number}" for number in range(rows)] for name, rows in (("text", left), ("name of", right))]
    one = pandas.DataFrame({"id": pick.integers(0, right, left), "text": texts[0], "x": pick.random(left)})
    return one, pandas.DataFrame({"id": pick.permutation(right), "name": texts[1]})


def memory(name):
    """What the system tells of this process's memory, in MiB."""
    with open("/proc/self/status") as file:
        return next(int(line.split()[1]) / 1024 for line in file if line.startswith(name))


def timed(call, runs):
    """The least time of some runs, by the clock and by the processors, of this process and of those that it starts; and what this process
    takes at most beside the result."""
    found = []
    for _ in range(runs):
        gc.collect()
        with open("/proc/self/clear_refs", "w") as file:
            file.write("5")
        before, clock, used = memory("VmRSS"), time.perf_counter(), os.times()
        result = call()
        clock, now = time.perf_counter() - clock, os.times()
        own, other = (now.user + now.system - used.user - used.system, now.children_user + now.children_system - used.children_user - used.children_system)
        beside = memory("VmHWM") - before - (result.memory_usage().sum() / MIB if isinstance(result, pandas.DataFrame) else 0)
        found.append((clock, own, other, beside))
        del result
    return [min(it) for it in zip(*found)]


def ways(left, right, folder):
    """What is timed, each with its name."""
    yield "pandas.merge", lambda: pandas.merge(left, right, on="id")
    for workers in (1, 4):
        yield f"radixjoin, {workers} workers", lambda workers=workers: radixjoin.join(left, right, using="id", workers=workers)
    texts = left.assign(text=left["text"].where(left.index % 2 == 0, left["text"] + "!"))
    yield "pandas.merge by the text", lambda: pandas.merge(left, texts[["text"]], on="text")
    yield "radixjoin by the text, 4 workers", lambda: radixjoin.join(left, texts[["text"]], using="text", workers=4)
    for name, frame in (("left", left), ("right", right)):
        frame.drop(columns="x", errors="ignore").to_csv(folder / f"{name}.csv", index=False)
    read = lambda name: pandas.read_csv(folder / f"{name}.csv")
    yield "pandas.merge of files into a file", lambda: pandas.merge(read("left"), read("right"), on="id").to_csv(folder / "out.csv", index=False)
    types = {"left_types": "int,text", "right_types": "int,text", "output": folder / "out.csv"}
    for workers in (1, 4):
        yield f"radixjoin of files into a file, {workers} workers", lambda workers=workers: radixjoin.join(folder / "left.csv", folder / "right.csv", using="id", workers=workers, **types)


def main():
    line = argparse.ArgumentParser(description=__doc__, formatter_class=argparse.RawDescriptionHelpFormatter)
    for name, rows in (("left", 2_000_000), ("right", 500_000), ("runs", 3)):
        line.add_argument(f"--{name}", type=int, default=rows)
    asked = line.parse_args()
    left, right = frames(asked.left, asked.right)
    print(f"{asked.left} by {asked.right} rows, least of {asked.runs} runs")
    print(f"{'':44} {'clock':>8} {'own CPU':>8} {'program':>8} {'beside, MiB':>12}")
    with tempfile.TemporaryDirectory(prefix="radixjoin-bench-") as folder:
        for name, call in ways(left, right, pathlib.Path(folder)):
            clock, own, other, beside = timed(call, asked.runs)
            print(f"{name:44} {clock:8.2f} {own:8.2f} {other:8.2f} {beside:12.0f}", flush=True)


if __name__ == "__main__":
    main()
