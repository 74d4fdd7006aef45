"""A process of a Dask cluster is killed in each kind of task in which tests/cluster_ends.py kills none: while `shards --cuts` runs, a side of a
large shard is cut into runs, joined tables are cut, ranges are put together, and a cell that is written as null is is looked for; and in
the others where no program runs, or when the task is done and nobody knows it yet. The task runs again in another process, the bytes
are those of `radixjoin`, and nothing is left behind.

It needs Dask, as tests/cluster.py does; without arguments it runs by a Python that has it, and with one by its own. The last line is
'N passed, M failed'."""
import contextlib
import functools
import logging
import os
import pathlib
import sys
import tempfile
from unittest import mock

import cluster_ends
import cluster_processes
import cluster_sent
import harness
import shards

from radixjoin import sending

SECONDS = 600
PROCESSES = 3
# The kinds of tasks in which a process is killed by tests/cluster_ends.py.
KILLED_THERE = {"divide", "join_shard", "merge_range", "merge_shards"}
# Has the first process that comes so often behind a call of a function kill itself there.
DIES = """

def _dies_behind(otherwise):
    import os
    import signal

    calls = []

    def once(*words, **named):
        gave = otherwise(*words, **named)
        calls.append(None)
        if len(calls) != {count}:
            return gave
        try:
            os.mkdir({flag!r})
        except FileExistsError:
            return gave
        return os.kill(os.getpid(), signal.SIGKILL)

    return once


{name} = _dies_behind({name})
"""
# The options of the script alone, and those of `radixjoin` too, by which a shard is joined in pieces and the result merged in ranges, and
# by which a cell is looked for.
PLAIN, LARGE, STRICT = ([], []), (cluster_sent.WAYS[1], []), ([], cluster_sent.WAYS[2])
# Kinds of tasks, the file of the package and the function behind a call of which the process is killed, and which call, and options.
STEPS = (
    ("cut_side", "spread.py", "Cutting.add", 1, LARGE),
    ("cut_tables", "cluster.py", "cut_table", 2, LARGE),
    ("put_together", "making.py", "append", 2, LARGE),
    ("ambiguous_cell", "placed.py", "Shard.place_of_row", 1, STRICT),
    ("count_before", "placed.py", "Shard.find", 1, STRICT),
    ("divide", "packed.py", "_append", 1, PLAIN),
    ("join_shard", "placed.py", "Shard.scanned", 1, PLAIN),
    ("join_shard", "packed.py", "give_back", 1, LARGE),
    ("divide", "cluster.py", "divide", 1, PLAIN),
    ("merge_range", "cluster.py", "merge_range", 1, LARGE),
    ("merge_shards", "cluster.py", "merge_shards", 1, PLAIN),
)


@contextlib.contextmanager
def client_of(count, config=None, threads=1):
    """A client of so many processes of this machine, of so many threads each, which are forked with Dask loaded, since to load it takes most of their time. What
    they leave behind where they are killed is found by no other test."""
    os.environ.setdefault("DASK_DISTRIBUTED__WORKER__MULTIPROCESSING_METHOD", "forkserver")
    import dask
    from distributed import Client

    for name in ("asyncio", "tornado", "distributed"):
        logging.getLogger(name).setLevel(logging.CRITICAL)
    with tempfile.TemporaryDirectory(prefix="radixjoin-test-", ignore_cleanup_errors=True) as space:
        with dask.config.set({"temporary-directory": space, **cluster_processes.LATE, **(config or {})}), cluster_sent.processes(count, threads) as local, Client(local) as client:
            yield client


class Notes(sending.Cluster):
    """A cluster that notes among which kinds of tasks a flag came, which tells that a process is killed."""

    def __init__(self, client, flag):
        super().__init__(client, False)
        self.flag = flag
        self.kinds = set()

    def answers(self, words):
        words, was_there = list(words), self.flag.exists()
        try:
            return super().answers(words)
        finally:
            if self.flag.exists() and not was_there:
                self.kinds = {task.__name__ for task, *_ in words}


def joined(words, folder, on):
    """A join in a cluster: how it ended, or the error of a task that failed as often as it was tried."""
    try:
        return shards.joined(words, folder, PROCESSES, cluster=lambda _: on)
    except (OSError, RuntimeError) as error:
        return harness.Ran(None, b"", repr(error).encode())


def dying(file, name, count, flag, otherwise=sending.sources):
    """The package with a function behind a call of which a process is killed, where there is no flag yet."""
    code = otherwise()
    return {**code, file: code[file] + DIES.format(name=name, count=count, flag=str(flag)).encode()}


def faults_of(client, folder, kind, flag, of_script, of_both):
    """How a join in which a process is killed once differs from `radixjoin`'s own, and whether that was in such a task."""
    words = cluster_sent.write_tables(folder)
    wanted = harness.run([harness.program("radixjoin"), *words[:-2], *of_both], folder)
    on = Notes(client, flag)
    ran = joined([*words, *of_both, *of_script], folder, on)
    faults = harness.differences(ran, wanted.stdout, wanted.stderr, wanted.status)
    return faults + ([] if on.kinds == {kind} else [f"a process is killed in {on.kinds}"])


def run_cuts(client, folder, flags, tally):
    """A process is killed while it looks for cuts."""
    programs = cluster_ends.programs_in(flags / "programs", "shards", cluster_ends.KILLS, step="--cuts ")
    faults = faults_of(client, folder, "cuts_of", programs / "shards.once", ["--programs", programs], [])
    tally.check("cluster_killed: cuts_of, while shards --cuts runs", faults)


def run_step(client, folder, flag, step, tally):
    """A process is killed behind a call of a function."""
    kind, file, name, count, (of_script, of_both) = step
    with mock.patch.object(sending, "sources", functools.partial(dying, file, name, count, flag)):
        faults = faults_of(client, folder, kind, flag, of_script, of_both)
    tally.check(f"cluster_killed: {kind}, behind call {count} of {name} {of_script + of_both}", faults)


def run_by(tally):
    """The tests, one after another in one cluster."""
    kinds = KILLED_THERE | {"cuts_of"} | {kind for kind, *_ in STEPS}
    tally.check("cluster_killed: kinds of tasks", [f"{it} is in one list alone" for it in sorted(kinds ^ cluster_sent.KINDS)])
    with harness.folder() as place, harness.folder() as flags, client_of(PROCESSES) as client:
        run_cuts(client, pathlib.Path(place), pathlib.Path(flags), tally)
        for number, step in enumerate(STEPS):
            run_step(client, pathlib.Path(place), pathlib.Path(flags, str(number)), step, tally)


def run_all(tally):
    if python := harness.python_with_dask("cluster_killed", "tomllib"):
        harness.run_script(tally, python, [__file__, "here"], SECONDS)


if __name__ == "__main__":
    sys.exit(harness.end_of_script(sys.argv[1:], run_by, run_all))
