"""Joins in shards on one machine: whole ones load nothing of Dask, and it takes little to start them; tasks give in their order, run again
where they fail, and no more than their number at once; whatever takes long in a task ends when it is to end; and where a script is
interrupted or killed its programs end, and in the former case nothing is left."""
import os
import pathlib
import resource
import signal
import subprocess
import sys
import threading
import time

import cluster
import cluster_ends
import harness

from radixjoin import ending, feeding, local, making, packed, placed, spread, tasks

# Runs the script, and tells what of Dask it has loaded.
LOADS = "import sys; sys.path[:0] = [{!r}]; from radixjoin import cluster; status = cluster.main(); print(sorted({{'dask', 'distributed', 'pickle'}} & {{*sys.modules}})); sys.exit(status)"
# Joins by two programs side by side, and tells an interruption, and how many threads there are then.
JOINS = """
import sys, threading
sys.path[:0] = [{!r}]
from radixjoin import cluster
try:
    cluster.join("left.csv", "right.csv", "FULL JOIN USING (k)", processes=2, parts=3, left_types="int,text", right_types="int,text", output="out.csv", programs="programs")
except KeyboardInterrupt:
    print("interrupted", threading.active_count())
"""
PACKAGE = str(harness.ROOT / "python")
# The seconds of the processors that it takes at most to start, in one of so many runs. It took 0.25 on processors of 2.5 GHz that did other
# work too, which makes it longer.
SOON, RUNS = 0.5, 10
# The seconds that a task waits for others that are to run with it.
PATIENCE = 20


def run_without_dask(tally):
    """Whole joins, in shards and by one run, by which nothing of Dask is loaded."""
    with harness.folder() as place:
        folder = pathlib.Path(place)
        words = cluster_ends.write_tables(folder, 600)
        programs = cluster_ends.programs_in(folder / "programs", "radixjoin", ":")
        wanted = harness.run([harness.program("radixjoin"), *words], folder)
        line = [harness.python_with("distributed") or sys.executable, "-c", LOADS.format(PACKAGE), *words, "--programs", programs, "--processes", "2", "--out", "out.csv"]
        for more in (["--parts", "16"], ["--memory", "1G"]):
            ran = harness.run([*line, *more], folder)
            faults = harness.differences(ran, b"[]\n") + ([] if (folder / "out.csv").read_bytes() == wanted.stdout else ["out.csv is another one"])
            tally.check(f"cluster_machine: without Dask {more}", faults)
            (folder / "out.csv").unlink(missing_ok=True)


def used():
    """The time of processors that ended children of this process had."""
    children = resource.getrusage(resource.RUSAGE_CHILDREN)
    return children.ru_utime + children.ru_stime


def run_start(tally):
    """The time of the processors up to the script's first task, which looks for cuts and ends the run: the least of some runs."""
    with harness.folder() as place:
        folder = pathlib.Path(place)
        words = cluster_ends.write_tables(folder, 60)
        programs = cluster_ends.programs_in(folder / "programs", "shards", "echo over >&2; exit 3", is_once=False, step="--cuts ")
        found = []
        while not found or min(found) > SOON and len(found) < RUNS:
            before = used()
            ran = cluster.ended(cluster_ends.begun(sys.executable, words, folder, "--programs", programs))
            found.append(used() - before)
        faults = harness.differences(harness.Ran(ran.returncode, b"", ran.stderr), b"", b"over\n", 3)
        tally.check("cluster_machine: up to the first task", faults + ([f"{min(found):.2f} s of the processors"] if min(found) > SOON else []))


class Counts:
    """Tasks that fail so often each, and how many were done at once. The first ones wait until as many are."""

    def __init__(self, fails, at_once, error=RuntimeError):
        self.fails, self.at_once, self.error = fails, at_once, error
        self.changed = threading.Condition()
        self.tried, self.now, self.most = {}, 0, 0

    def join_shard(self, number):
        with self.changed:
            self.tried[number] = self.tried.get(number, 0) + 1
            self.now += 1
            self.most = max(self.most, self.now)
            self.changed.notify_all()
            self.changed.wait_for(lambda: self.most >= self.at_once, PATIENCE)
        time.sleep(0.02 if number % 2 else 0.05)
        with self.changed:
            self.now -= 1
        if self.tried[number] <= self.fails:
            raise self.error(f"task {number}")
        return number * 10

    def answers(self, count, machine):
        """What so many tasks give, or the error that is told."""

        def join_shard(job, number):
            return job.join_shard(number)

        try:
            return machine.answers([(join_shard, self, number) for number in range(count)])
        except (OSError, RuntimeError) as error:
            return repr(error)


def run_answers(tally):
    """What tasks give, by how often they fail and how."""
    given = [number * 10 for number in range(7)]
    told = tasks.Told("line", 3)
    cases = (
        (0, RuntimeError, 3, given, 1),
        (tasks.AGAIN, RuntimeError, 3, given, 3),
        (tasks.AGAIN, OSError, 1, given, 3),
        (tasks.AGAIN + 1, RuntimeError, 3, "RuntimeError('task 0')", 3),
        (tasks.AGAIN + 1, OSError, 3, "OSError('task 0')", 3),
        (tasks.AGAIN + 1, MemoryError, 9, "RuntimeError('MemoryError: task 0')", 3),
        (9, lambda _: told, 2, [told] * 7, 1),
    )
    for fails, error, threads, wanted, tries in cases:
        counts = Counts(fails, min(threads, 7), error)
        got = counts.answers(7, local.Machine(threads, False))
        faults = [f"{got}, and not {wanted}"] if got != wanted else []
        faults += [f"{counts.tried} tries"] if {*counts.tried.values()} != {tries} or len(counts.tried) != 7 else []
        faults += [] if counts.most == min(threads, 7) else [f"{counts.most} at once"]
        tally.check(f"cluster_machine: {wanted} by {threads} after {fails} errors", faults)


def ends(call):
    """Whether a call in a thread that is to end does."""
    found = []

    def run():
        is_over = threading.Event()
        is_over.set()
        ending.end_with(is_over)
        try:
            call()
            found.append("it goes on")
        except SystemExit:
            found.append(None)
        except Exception as error:
            found.append(repr(error))

    thread = threading.Thread(target=run)
    thread.start()
    thread.join(cluster.SECONDS)
    return [it for it in found or ["no end"] if it]


def run_ends(tally):
    """Whatever takes long in a task ends when it is to end."""
    with harness.folder() as place:
        folder = pathlib.Path(place)
        (folder / "0000.csv").write_text("k,a\n" + "1,x\n" * 9)
        packed.pack(str(folder), 1, (9, 4), str(folder / "whole"))
        (folder / "0000.csv").write_text("k,a\n" + "1,x\n" * 9)
        (folder / "shard.csv").write_text("left_place,right_place\n" + "1,2\n" * 9)
        whole, shard = str(folder / "whole"), placed.Shard(str(folder / "shard.csv"), "pairs")
        run = ([(whole, 0, 4), (whole, 4, 40)], 0)
        with open(folder / "out", "wb") as out:
            for name, call in {
                "pack": lambda: packed.pack(str(folder), 1, (9, 4), str(folder / "again")),
                "rows_of_part": lambda: list(packed.rows_of_part([whole], 1, 0)),
                "rows_of_run": lambda: list(packed.rows_of_run(run)),
                "runs_of": lambda: spread.runs_of([whole], 1, 0, 8),
                "scanned": shard.scanned,
                "append": lambda: making.append(whole, out),
                "a program": lambda: feeding.run_program(["sleep", "60"], [], stdin=subprocess.DEVNULL),
                "a program that reads": lambda: feeding.run_program(["sleep", "60"], [("", feeding.bytes_of(whole, [(0, 40)]))], stdin=subprocess.DEVNULL),
            }.items():
                tally.check(f"cluster_machine: {name} is to end", ends(call))


def run_interrupted(tally):
    """A script that joins is interrupted by the keyboard, or killed, while a program runs: that ends."""
    for name in cluster_ends.STEPS:
        for way, told in ((signal.SIGINT, b"interrupted 1\n"), (signal.SIGKILL, b"")):
            with harness.folder() as place:
                folder = pathlib.Path(place)
                cluster_ends.write_tables(folder)
                programs = cluster_ends.programs_in(folder / "programs", name, cluster_ends.WAITS.format("$$"))
                known = {it.name for it in folder.iterdir()}
                # (these tests may be run in the background, where what a shell starts doesn't heed the keyboard)
                how = {"cwd": folder, "stdout": subprocess.PIPE, "preexec_fn": lambda: signal.signal(signal.SIGINT, signal.SIG_DFL), "start_new_session": True}
                with subprocess.Popen([sys.executable, "-c", JOINS.format(PACKAGE)], **how) as running:
                    runs = cluster_ends.number_in(programs, name)
                    os.kill(running.pid, way)
                    got, _ = running.communicate(timeout=cluster.SECONDS)
                faults = [f"{got}, and not {told}"] if got != told else []
                faults += [] if runs else [f"{name} didn't run"]
                faults += [f"{it} goes on" for it in cluster_ends.goes_on(running.pid)]
                faults += [f"{it} was left behind" for it in cluster.left_behind(folder, known)] if way == signal.SIGINT else []
                tally.check(f"cluster_machine: {way.name} while {name} runs", faults)


def run_all(tally):
    run_without_dask(tally)
    run_start(tally)
    run_answers(tally)
    run_ends(tally)
    run_interrupted(tally)
