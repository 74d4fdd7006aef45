"""A column whose texts have more than 4 GiB, in a file that is mostly a hole: its texts' ends then take 8 bytes each. Run where
the machine has the memory for it."""
import os
import pathlib

import harness

# Cells of this many NUL bytes, and how many of them: more than 4 GiB in all.
LONG, COUNT = 900 << 20, 5
# What the run takes of memory, in bytes: the file and the table at once.
NEEDED = 12 << 30
SECONDS = 300


def available():
    """How much memory is free to be taken, in bytes."""
    with open("/proc/meminfo", encoding="ascii") as it:
        return next(int(line.split()[1]) * 1024 for line in it if line.startswith("MemAvailable"))


def write_left(path):
    """Rows of a number, a long text and a short one; the last row has a short text alone, which stands behind the others."""
    with open(path, "wb") as it:
        it.write(b"k,t\n")
        for at in range(COUNT):
            it.write(b"%d," % at)
            it.seek(LONG, os.SEEK_CUR)
            it.write(b"%d\n" % at)
        it.write(b"%d,the last\n" % COUNT)


def run_all(tally):
    if available() < NEEDED:
        print(f"beyond_4_gib: skipped: it takes {NEEDED >> 30} GiB of memory")
        return
    with harness.folder() as name:
        folder = pathlib.Path(name)
        write_left(folder / "left.csv")
        (folder / "right.csv").write_bytes(b"k\n%d\n" % COUNT)
        words = ["--left", "left.csv", "--left-types", "int,text", "--right", "right.csv", "--right-types", "int"]
        ran = harness.run([harness.program("radixjoin"), *words, "--join", "JOIN USING (k)"], folder, seconds=SECONDS)
        tally.check("a column of more than 4 GiB", harness.differences(ran, b"k,t\n%d,the last\n" % COUNT))
