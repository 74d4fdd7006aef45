"""In how many ranges a joined table is merged, by as many tasks, where --merges isn't given: by the tasks that are done at once, by the
bytes of the joined shards, and by the files that a process may have open. One task after another, by programs of this machine, and, where
there is Dask, by the processes of a cluster."""
import collections
import pathlib
import subprocess
import types
from unittest import mock

import cluster
import cluster_ends
import cluster_pieces
import harness
import shards

from radixjoin import local, sending

SCRIPT = shards.SCRIPT
MIB = 1 << 20
# Tasks at once, joined tables and their bytes, and the ranges that they are merged in.
CASES = (
    (1, 16, 1 << 40, 1),
    (4, 16, 0, 1),
    (4, 16, 1_000, 1),
    (4, 16, 32 * MIB - 1, 1),
    (4, 16, 32 * MIB, 2),
    (4, 16, 64 * MIB, 4),
    (4, 1, 1 << 40, 4),
    (1_024, 16, 1 << 40, 1_024),
    (5_000, 16, 1 << 40, 1_024),
    (4, 33, 1 << 40, 4),
    (4, 34, 1 << 40, 1),
)
# Options, the tasks at once, and how many ranges there are where few bytes are worth one.
WAYS = (([], 1, 1), ([], 2, 2), ([], 3, 3), (["--order=left"], 3, 3), (["--merges=1"], 3, 1), (["--merges=2"], 3, 2), (["--spread=6000"], 3, 3))
# Runs the script where few bytes are worth a range.
SMALL = "import sys; sys.path[:0] = [{!r}]; from radixjoin import cluster; cluster.LEAST_MERGED = 1000; sys.exit(cluster.main())".format(str(harness.ROOT / "python"))


class Counts(shards.OneByOne):
    """Counts tasks by the names of their functions."""

    def __init__(self, processes):
        super().__init__(processes)
        self.counts = collections.Counter()

    def answers(self, words):
        words = list(words)
        self.counts.update(task.__name__ for task, *_ in words)
        return super().answers(words)


def ranges_in(counts):
    """How many ranges were merged, by the tasks that there were."""
    return counts["merge_range"] if counts["put_together"] and not counts["merge_shards"] else counts["merge_shards"]


def run_numbers(tally):
    """The number itself, where a process may have 100 files open."""
    with mock.patch.object(SCRIPT, "most_tables", lambda files: 100 // files):
        for tasks, joins, size, wanted in CASES:
            got = SCRIPT.ranges_of_merge(shards.OneByOne(tasks), joins, size)
            tally.check(f"cluster_merges: {tasks} tasks, {joins} tables of {size} bytes", [] if got == wanted else [f"{got}, and not {wanted}"])
        # (whose tasks have their files open in one process, or in one of several, by its threads)
        machine, uneven = local.Machine(4, False), sending.Cluster(types.SimpleNamespace(nthreads=lambda: {"a": 1, "b": 4, "c": 2}), False)
        for title, on, joins, wanted in (("one machine", machine, 8, 4), ("one machine", machine, 9, 1), ("threads", uneven, 8, 7), ("threads", uneven, 9, 1)):
            got = SCRIPT.ranges_of_merge(on, joins, 1 << 40)
            tally.check(f"cluster_merges: {joins} tables, {title}", [] if got == wanted else [f"{got}, and not {wanted}"])


def run_ways(tally):
    """Whole joins, of which the bytes are those of `radixjoin`."""
    with harness.folder() as name:
        folder = pathlib.Path(name)
        words = cluster_ends.write_tables(folder, 600)
        for least, ways in ((1_000, WAYS), (SCRIPT.LEAST_MERGED, (([], 3, 1),))):
            for more, tasks, wanted in ways:
                alone = harness.run([harness.program("radixjoin"), *words, *(it for it in more if "order" in it)], folder)
                counts = Counts(tasks)
                with mock.patch.object(SCRIPT, "LEAST_MERGED", least):
                    ran = shards.joined([*words, *more, "--parts=4"], folder, 2, cluster=lambda _, on=counts: on)
                faults = harness.differences(ran, alone.stdout, alone.stderr, alone.status)
                got = ranges_in(counts.counts)
                tally.check(f"cluster_merges: {more} by {tasks}, ranges of {least} bytes", faults + ([] if got == wanted else [f"{got} ranges, and not {wanted}"]))


def run_many(tally):
    """Where a process can't have three files open for each joined table, one merges all; by `--merges` it is refused."""
    with harness.folder() as name, mock.patch.object(SCRIPT, "most_tables", lambda files: 20 // files), mock.patch.object(SCRIPT, "LEAST_MERGED", 100):
        folder = pathlib.Path(name)
        words = cluster_pieces.hot_tables(folder)
        wanted = harness.run([harness.program("radixjoin"), *words[:-2]], folder)
        counts = Counts(3)
        ran = shards.joined([*words, "--spread=200"], folder, 1, cluster=lambda _: counts)
        faults = harness.differences(ran, wanted.stdout, wanted.stderr, wanted.status)
        faults += [] if counts.counts["join_shard"] == 16 and ranges_in(counts.counts) == 1 else [f"{counts.counts}"]
        tally.check("cluster_merges: too many files for ranges", faults)
        ran = shards.joined([*words, "--spread=200", "--merges=2"], folder, 1)
        line = b"radixjoin-cluster: 16 joins are more than the 6 that can be merged here: give --spread more bytes\n"
        tally.check("cluster_merges: too many files for the ranges that are asked for", harness.differences(ran, b"", line, 2))


def run_by(on, tally):
    """By three programs side by side, or three processes of a cluster: `merges` runs as often."""
    with harness.folder() as place:
        folder = pathlib.Path(place)
        words = cluster_ends.write_tables(folder, 600)
        programs = cluster_ends.programs_in(folder / "counts", "merges", f'mktemp -d "{folder}/merged.XXXXXX" >/dev/null', is_once=False)
        wanted = harness.run([harness.program("radixjoin"), *words], folder)
        line = [on.python, "-c", SMALL, *words, *on.where, "--programs", programs, "--parts", "8", "--out", "out.csv"]
        ran = subprocess.run([str(word) for word in line], cwd=folder, stdin=subprocess.DEVNULL, capture_output=True, timeout=cluster.SECONDS, check=False)
        merged = list(folder.glob("merged.*"))
        faults = cluster.faults_of_run(ran, folder, {it.name for it in (*merged, programs)} | {"left.csv", "right.csv"}, wanted)
        tally.check(f"cluster_merges: {on.title}", faults + ([] if len(merged) == cluster.PROCESSES else [f"{len(merged)} ranges, and not {cluster.PROCESSES}"]))


def run_all(tally):
    run_numbers(tally)
    run_ways(tally)
    run_many(tally)
    with harness.folder() as programs:
        run_by(cluster.Machine(programs), tally)
    python = harness.python_with_dask("cluster_merges: by processes")
    if python is None:
        return
    with harness.folder() as programs:
        on = cluster.Cluster(python, programs)
        try:
            run_by(on, tally)
        finally:
            on.close()
