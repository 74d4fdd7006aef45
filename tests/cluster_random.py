"""Random joins by programs of this machine that run side by side, and through one running Dask cluster of processes, which is kept for all of
them, beside `radixjoin` alone, byte for byte: each with and without `--spread`, so that its shards are joined in pieces and as they are,
and as it is planned by little memory and by much. The tables are those of tests/cluster_pieces.py, which joins them one task after another.

usage: cluster_random.py [RUNS [FIRST [PROCESSES]]]

RUNS random joins through a cluster from the seed FIRST on, by so many processes (20 from 0 by 2, where they aren't given). It needs
Dask, as tests/cluster.py does. The last line is 'N passed, M failed'."""
import logging
import pathlib
import random
import sys
import time
from unittest import mock

import cluster_pieces
import harness
import shards

from radixjoin import local, plans, sending, tasks

SCRIPT = shards.SCRIPT
RUNS, FIRST, PROCESSES = 20, 0, 2
SECONDS = 600


class Counts:
    """Counts joins of what does tasks, of so many ranges, and finds the cuts of small files here, since `shards --cuts` leaves these whole."""

    def __init__(self, otherwise, ranges):
        self.otherwise, self.ranges, self.is_here = otherwise, ranges, otherwise.is_here
        # (of shards, and of the whole by one run)
        self.joins, self.runs = 0, 0

    def has_processes(self):
        return True

    def tasks_at_once(self):
        return self.ranges

    def tasks_in_process(self):
        return self.otherwise.tasks_in_process()

    def answers(self, words):
        words = list(words)
        names = [task.__name__ for task, *_ in words]
        self.joins += names.count("join_shard")
        self.runs += names.count("join_whole")
        return [tasks.answer(*it) for it in words] if "cuts_of" in names else self.otherwise.answers(words)


def sources(otherwise=sending.sources):
    """The package with pieces of joined shards that are as small as in the other tests."""
    code = otherwise()
    small = code["placed.py"].replace(b"\nPIECE = 1 << 16\n", b"\nPIECE = 200\n")
    assert small != code["placed.py"]
    return {**code, "placed.py": small}


def faults_of_plan(on, memory, size, is_whole):
    """How the joins that were made differ from those that this memory has to plan for files of so many bytes."""
    limit = max(1, memory // on.tasks_in_process() // plans.MEASURE)
    parts = min(plans.MOST_PARTS, max(1, -(-2 * size // limit)))
    if plans.MEASURE * size <= memory:
        return [] if (on.runs, on.joins) == (1, 0) else [f"{on.runs} runs and {on.joins} joins of shards, and not one run"]
    return [] if on.runs == 0 and (on.joins >= parts or not is_whole) else [f"{on.runs} runs and {on.joins} joins of {parts} shards"]


def run_one(does, seed, tally):
    """One random join, in four ways, by what does tasks: two numbers of bytes for a shard, and little memory and much. It gives how many
    joins there were beside those of whole shards where the parts are given, and how it ended."""
    pick = random.Random(f"radixjoin: shards in a cluster {seed}")
    with harness.folder() as name:
        folder = pathlib.Path(name)
        words = cluster_pieces.words_of(pick, folder)
        wanted = harness.run([harness.program("radixjoin"), *words], folder)
        size = sum((folder / f"{side}.csv").stat().st_size for side in SCRIPT.SIDES)
        parts, ranges = pick.choice((1, 2, 3)), pick.choice((1, 2, 4))
        more = [f"--parts={parts}", f"--merges={pick.choice((1, 3))}"]
        further = 0
        little = 6 * size * does().tasks_in_process() // pick.choice((7, 12))
        for memory, given in ((None, more), (None, [*more, f"--spread={pick.choice((100, 150, 400))}"]), (little, []), (1 << 30, [])):
            on = Counts(does(), ranges)
            given = [*given, f"--memory={memory}"] if memory else given
            ran = shards.joined([*words, *given], folder, ranges, cluster=lambda _, on=on: on)
            faults = harness.differences(ran, wanted.stdout, wanted.stderr, wanted.status)
            faults += faults_of_plan(on, memory, size, wanted.status == 0) if memory else []
            tally.check(f"cluster_random: {seed}: {words} {given} of {ranges} ranges", faults)
            further += 0 if memory else max(0, on.joins - parts)
        return further, wanted.status


def run_random(does, seeds, tally):
    """Such joins. Where they are many shards were cut in more than a third of them."""
    least = mock.patch.multiple(plans, LEAST_PARTS=1, LEAST_SPREAD=1)
    with mock.patch.object(SCRIPT, "cuts_of", cluster_pieces.cuts_of), mock.patch.object(sending, "sources", sources), least:
        ran = harness.side_by_side(tally, [lambda own, seed=seed: run_one(does, seed, own) for seed in seeds])
    if len(ran) >= RUNS:
        cut = sum(further > 0 for further, _ in ran)
        tally.check("cluster_random: shards that are cut", [] if cut > len(ran) / 3 else [f"in {cut} of {len(ran)} runs"])
    return sum(further for further, _ in ran)


def run_all(tally):
    run_random(lambda: local.Machine(3, False), range(RUNS), tally)
    if python := harness.python_with_dask("cluster_random", "tomllib"):
        harness.run_script(tally, python, [__file__], SECONDS)


def main(words):
    from distributed import Client, LocalCluster

    for name in ("asyncio", "tornado", "distributed"):
        logging.getLogger(name).setLevel(logging.CRITICAL)
    tally, start = harness.Tally(), time.monotonic()
    runs, first, processes = [*map(int, words), *(RUNS, FIRST, PROCESSES)[len(words) :]]
    with LocalCluster(n_workers=processes, threads_per_worker=1, memory_limit=0, dashboard_address=":0", silence_logs=50) as cluster, Client(cluster) as client:
        further = run_random(lambda: sending.Cluster(client, False), range(first, first + runs), tally)
    print(f"cluster_random: {runs} joins, {further} joins beside those of whole shards, {time.monotonic() - start:.0f} s")
    print(f"{tally.passed} passed, {tally.failed} failed")
    return 1 if tally.failed else 0


if __name__ == "__main__":
    sys.exit(main(sys.argv[1:]))
