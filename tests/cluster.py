"""Runs cluster/radixjoin-cluster on this machine, three programs side by side or one run of `radixjoin`, and compares what it writes with
what `radixjoin` does: on the examples, and on some hundred thousand rows. And all of this once more on a Dask cluster of three processes of this machine, of which
one is killed in the middle.

The latter needs Dask, which `./test` installs (Debian's python3-dask and python3-distributed). Where it can't be had, that is left out
and said."""
import os
import pathlib
import random
import signal
import subprocess
import sys
import time
import tomllib

import examples
import harness
import shards

SCRIPT = harness.ROOT / "cluster" / "radixjoin-cluster"
PROCESSES = 3
SECONDS = 120
# Options by which small files are joined in shards, and on this machine by one run.
SHARDS, ONE_RUN = ["--parts", "3"], ["--memory", "1G"]
NO_KEY = b"shards: the clause has no key, so that its tables can't be divided\n"


class Machine:
    """This machine, where so many programs run side by side, and a folder with links to the built ones."""

    python, title = sys.executable, "on this machine"
    # The words for where tasks are done.
    where = ("--processes", PROCESSES)

    def __init__(self, programs):
        self.programs = programs
        for name in ("radixjoin", "shards", "merges"):
            pathlib.Path(programs, name).symlink_to(harness.program(name))

    def words(self, words, *more):
        """The command that joins there."""
        return [self.python, SCRIPT, *self.where, "--programs", self.programs, *words, "--out", "out.csv", *more]


class Cluster(Machine):
    """Processes that wait for tasks."""

    title = "on a cluster"

    def __init__(self, python, programs):
        super().__init__(programs)
        self.python = python
        words = [python, harness.ROOT / "tests" / "cluster_processes.py", str(PROCESSES)]
        self.running = subprocess.Popen(words, stdin=subprocess.PIPE, stdout=subprocess.PIPE, stderr=subprocess.DEVNULL)
        self.where = ("--scheduler", self.running.stdout.readline().decode().strip())

    def numbers(self):
        """The numbers of the processes."""
        self.running.stdin.write(b"\n")
        self.running.stdin.flush()
        return [int(word) for word in self.running.stdout.readline().split()]

    def close(self):
        self.running.stdin.close()
        self.running.wait(SECONDS)


def left_behind(folder, known):
    """What a run left in a folder beside what was there and its result."""
    return sorted(it.name for it in folder.iterdir() if it.name not in {*known, "out.csv"})


def faults_of_run(ran, folder, known, wanted):
    """How a run, which ended so, differs from `radixjoin`'s own."""
    faults = harness.differences(harness.Ran(ran.returncode, b"", ran.stderr), b"", wanted.stderr, wanted.status)
    out = folder / "out.csv"
    if wanted.status == 0:
        got = out.read_bytes() if out.exists() else None
        if got != wanted.stdout:
            faults.append(f"out.csv: {harness.shorten(got)}, and not {harness.shorten(wanted.stdout)}")
    elif out.exists():
        faults.append("there is an out.csv in spite of the fault")
    return faults + [f"{name} was left behind" for name in left_behind(folder, known)]


def started(on, words, folder, *more):
    return subprocess.Popen([str(word) for word in on.words(words, *more)], cwd=folder, stdin=subprocess.DEVNULL, stdout=subprocess.DEVNULL, stderr=subprocess.PIPE)


def ended(process):
    """How a started process ended."""
    _, stderr = process.communicate(timeout=SECONDS)
    return subprocess.CompletedProcess(process.args, process.returncode, None, stderr)


def run_example(on, case, files, more, tally):
    """Runs one example by `radixjoin` and by the script: they tell the same. A clause without a key is refused in a line of its own."""
    with harness.folder() as name:
        folder = pathlib.Path(name)
        words = examples.words_of(case, files, folder)
        known = {it.name for it in folder.iterdir()}
        wanted = harness.run([harness.program("radixjoin"), *words], folder)
        ran = ended(started(on, words, folder, *more))
        wanted = harness.Ran(4, b"", NO_KEY) if ran.stderr == NO_KEY else shards.told_first(words, folder, wanted)
        tally.check(f"cluster: {case['name']} {' '.join(more)} {on.title}", faults_of_run(ran, folder, known, wanted))
    return ran.stderr == NO_KEY


def run_examples(on, more, tally):
    with open(harness.ROOT / "tests" / "examples.toml", "rb") as text:
        table = tomllib.load(text)
    cases = [case for case in table["case"] if shards.is_example(case)]
    tasks = [lambda own, case=case: run_example(on, case, table["file"], more, own) for case in cases]
    without_key = sum(harness.side_by_side(tally, tasks))
    tally.check(f"cluster: most examples have a key {on.title}", [] if 0 < without_key < len(cases) / 2 else [f"{without_key} of {len(cases)} have none"])


def write_table(path, name, rows, seed):
    """Writes a table of so many rows: a key out of some thousands, null now and then, and a text with what has to be quoted."""
    pick = random.Random(seed)
    texts = ("plain", '"a, b"', '"two\nlines"', '""')
    with open(path, "w", newline="") as file:
        file.write(f"k,{name}\n")
        for at in range(rows):
            key = "" if pick.random() < 0.01 else pick.randrange(40_000)
            file.write(f"{key},{pick.choice(texts)}\n")


def write_tables(folder):
    write_table(folder / "left.csv", "a", 200_000, 19)
    write_table(folder / "right.csv", "b", 50_000, 20)
    return ["--left", "left.csv", "--right", "right.csv", "--left-types", "int,text", "--right-types", "int,text", "--join", "FULL JOIN USING (k)"]


def kill_one(cluster, folder):
    """Kills one of the processes as soon as a run has begun to divide the files. It gives whether there was one to kill."""
    until = time.monotonic() + SECONDS
    while time.monotonic() < until:
        if list(folder.glob("radixjoin-*/*/*.csv")):
            os.kill(cluster.numbers()[0], signal.SIGKILL)
            return True
        time.sleep(0.001)
    return False


def run_large(on, tally):
    """Joins 200,000 by 50,000 rows, and checks a fault's row through the whole file."""
    with harness.folder() as name:
        folder = pathlib.Path(name)
        words = write_tables(folder)
        known = {it.name for it in folder.iterdir()}
        wanted = harness.run([harness.program("radixjoin"), *words], folder)
        for more in ([], ["--memory", "2M"], ["--parts", "5"], ["--parts", "16", "--ranges", "7", "--workers", "2", "--merges", "3"], ["--parts", "1", "--address-space", "700M"], ["--parts", "4", "--spread", "400000", "--merges", "3"]):
            ran = ended(started(on, words, folder, *more))
            tally.check(f"cluster: 200,000 by 50,000 rows {on.title}, {' '.join(more)}", faults_of_run(ran, folder, known, wanted))
            (folder / "out.csv").unlink(missing_ok=True)
        by_left = [*words, "--order", "left"]
        ran = ended(started(on, by_left, folder, "--parts", "8", "--merges", "5"))
        tally.check(f"cluster: 200,000 by 50,000 rows {on.title}, each left row at its place", faults_of_run(ran, folder, known, harness.run([harness.program("radixjoin"), *by_left], folder)))
        (folder / "out.csv").unlink(missing_ok=True)
        for row in (3, 150_000, 199_999):
            run_with_fault(on, folder, words, row, tally)


def run_killed(cluster, tally):
    """Joins 200,000 by 50,000 rows, while a process is killed."""
    with harness.folder() as name:
        folder = pathlib.Path(name)
        words = write_tables(folder)
        known = {it.name for it in folder.iterdir()}
        wanted = harness.run([harness.program("radixjoin"), *words], folder)
        running = started(cluster, words, folder, "--parts", "64", "--ranges", "12")
        was_killed = kill_one(cluster, folder)
        faults = faults_of_run(ended(running), folder, known, wanted)
        tally.check("cluster: a process is killed", faults + ([] if was_killed else ["there was none to kill"]))


def run_with_fault(on, folder, words, row, tally):
    """Joins with a left file whose row of this number has a key that is none."""
    path = folder / "faulty.csv"
    path.write_text("k,a\n" + "7,x\n" * (row - 1) + "seven,x\n" + "7,x\n" * 10 + "eight,x\n")
    words = ["faulty.csv" if word == "left.csv" else word for word in words]
    wanted = harness.Ran(3, b"", b"radixjoin: E6 BadInteger left row %d column 1\n" % row)
    ran = ended(started(on, words, folder, "--ranges", "6"))
    tally.check(f"cluster: a fault in row {row} {on.title}", faults_of_run(ran, folder, {*[it.name for it in folder.iterdir() if it.suffix == ".csv"]}, wanted))
    path.unlink()


def run_all(tally):
    with harness.folder() as programs:
        on = Machine(programs)
        run_examples(on, SHARDS, tally)
        run_examples(on, ONE_RUN, tally)
        run_large(on, tally)
    python = harness.python_with_dask("cluster")
    if python is None:
        return
    with harness.folder() as programs:
        cluster = Cluster(python, programs)
        try:
            tally.check("cluster: its processes", [] if len(cluster.numbers()) == PROCESSES else [f"they are {cluster.numbers()}"])
            run_examples(cluster, SHARDS, tally)
            run_large(cluster, tally)
            run_killed(cluster, tally)
        finally:
            cluster.close()
