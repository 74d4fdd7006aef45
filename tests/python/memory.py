"""Large frames: what this process takes beside the frames and the result, in terms of the text of their keys. And what the program is told
of its own memory."""
import os
import pathlib
import random
import resource
import tempfile

import pandas
import telling

import radixjoin
from radixjoin import programs

ROWS = 400_000
# What may be taken beside the frames and the result, in terms of the text that the program is given of both frames, and beside that for what
# is read and written at once.
MOST, PAGE = 1, 16 << 20


def resident():
    """The bytes that this process has in memory now."""
    with open("/proc/self/statm") as file:
        return int(file.read().split()[1]) * resource.getpagesize()


def peak():
    """The most that it ever had since it was asked to forget."""
    with open("/proc/self/status") as file:
        return next(int(line.split()[1]) * 1024 for line in file if line.startswith("VmHWM"))


def frames():
    pick = random.Random(7)
    left = pandas.DataFrame({"id": range(ROWS), "key": [pick.randrange(ROWS) for _ in range(ROWS)], "text": [f"text {number}" for number in range(ROWS)]})
    right = pandas.DataFrame({"key": range(ROWS), "name": [f"name of {number}" for number in range(ROWS)]})
    return left, right


def given(frame):
    """The bytes of the text that the program is given of a frame: its key, and the row's number of eight digits."""
    return len(frame[["key"]].assign(row=10_000_000).to_csv(index=False))


def large(named, rows):
    left, right = frames()
    size = sum(map(given, (left, right)))
    with open("/proc/self/clear_refs", "w") as file:
        file.write("5")
    before = resident()
    joined = radixjoin.join(left, right, **named)
    most = peak() - before
    yield from telling.differs("rows", len(joined), rows)
    # (texts are the frames' own)
    result = int(joined.memory_usage().sum())
    if most - result > MOST * size + PAGE:
        yield f"{most / 1e6:.0f} MB beside the frames, {result / 1e6:.0f} of them for the result, for {size / 1e6:.0f} MB of text"


def variables():
    """One heap for all threads of the program, where this process says nothing of it, and else what it says."""
    frame = pandas.DataFrame({"k": [1]})
    with tempfile.TemporaryDirectory() as at:
        script, told = pathlib.Path(at, "radixjoin"), pathlib.Path(at, "told")
        script.write_text(f'#!/bin/sh\necho "$GLIBC_TUNABLES" > {told}\nexec {programs.find()} "$@"\n')
        script.chmod(0o755)
        os.environ.pop("GLIBC_TUNABLES", None)
        radixjoin.join(frame, frame, using="k", program=script)
        yield from telling.differs("where nothing is said", told.read_text(), "glibc.malloc.arena_max=1\n")
        os.environ["GLIBC_TUNABLES"] = "glibc.malloc.arena_max=2"
        radixjoin.join(frame, frame, using="k", program=script)
        yield from telling.differs("where it is", told.read_text(), "glibc.malloc.arena_max=2\n")


if __name__ == "__main__":
    telling.attempt("memory for large frames", large, {"using": "key"}, ROWS)
    telling.attempt("memory for large frames by a condition", large, {"on": "L.key = R.key", "how": "left", "suffixes": ("", "_r")}, ROWS)
    telling.attempt("one heap", variables)
