"""What is sent to the processes of a Dask cluster: each kind of task as the script submits it is small, whatever the package's size, and has
the name of its step; the package's code is read once by each process, by one that takes the place of another one too; and processes
that work for two versions of it don't mix them.

It needs Dask, as tests/cluster.py does; without arguments it runs by a Python that has it, and with one by its own. The last line is
'N passed, M failed'."""
import logging
import os
import pathlib
import signal
import sys
from unittest import mock

import harness
import shards

from radixjoin import sending, tasks

SCRIPT = shards.SCRIPT
SECONDS = 600
# The bytes of a task beside its own words: what a process does with it, and the paths of the run.
MOST = 2_048
KINDS = {"ambiguous_cell", "count_before", "cut_side", "cut_tables", "cuts_of", "divide", "join_shard", "merge_range", "merge_shards", "put_together"}


class Notes:
    """A client that notes how many bytes each task has that it sends."""

    def __init__(self, client):
        self.client = client
        self.sizes = []
        self.names = []

    def __getattr__(self, name):
        return getattr(self.client, name)

    def submit(self, function, *words, **how):
        from distributed.protocol import pickle

        self.sizes.append(len(pickle.dumps(function)) + len(pickle.dumps(words)))
        self.names.append(how["key"])
        return self.client.submit(function, *words, **how)


class Cluster(sending.Cluster):
    """Notes for each kind of task how many bytes it has, and how many of these are of its own words. Something may be done before
    the first tasks of a kind."""

    def __init__(self, client, before=None, shows_progress=False):
        super().__init__(Notes(client), False)
        # (also where standard error is no terminal)
        self.shows_progress = shows_progress
        self.before = before or {}
        self.kinds = {}
        # By which names Dask shows tasks of a kind.
        self.steps = {}

    def answers(self, words):
        from dask.utils import key_split

        words = list(words)
        for kind in {task.__name__ for task, *_ in words}:
            self.before.pop(kind, lambda _: None)(words[0][1])
        self.client.sizes.clear()
        self.client.names.clear()
        found = super().answers(words)
        self.steps[words[0][0].__name__] = {key_split(name) for name in self.client.names}
        for (task, _, *own), size in zip(words, self.client.sizes):
            self.kinds.setdefault(task.__name__, []).append((size, len(sending.packed(own))))
        return found


def write_tables(folder):
    """Writes two tables of which many rows have one key, and one a text that may be a null text, and gives the words that join them."""
    for side, name in (("left", "a"), ("right", "b")):
        (folder / f"{side}.csv").write_text(f"k,{name}\n" + "".join(f"{max(0, number - 40)},{name}{number}\n" for number in range(90)) + "7,~\n")
    tables = ["--left", "left.csv", "--right", "right.csv", "--left-types", "int,text", "--right-types", "int,text"]
    return shards.placed_in([*tables, "--join", "FULL JOIN USING (k)", "--parts", "2"], folder)


# Options by which each kind of task is sent.
WAYS = ([], ["--spread", "400", "--merges", "3"], ["--strict", "--left-null", "none", "--out-null", "~"])


def alone(words):
    """Those of the words that `radixjoin` takes too."""
    return [word for word in words if word not in ("--parts", "2", "--spread", "400", "--merges", "3")]


def joined(client, folder, words, before=None, shows_progress=False):
    """A join on a cluster of processes: how it differs from `radixjoin`'s own, and what was noted."""
    wanted = harness.run([harness.program("radixjoin"), *alone(words)], folder)
    on = Cluster(client, before, shows_progress)
    ran = shards.joined(words, folder, 2, cluster=lambda _: on)
    faults = [f"{kind} is shown as {names}" for kind, names in on.steps.items() if names != {tasks.STEPS[kind].replace(" ", "-")}]
    return faults + harness.differences(ran, wanted.stdout, wanted.stderr, wanted.status), on.kinds


def sizes_of(client, folder, tally, title):
    """Joins in all ways. It gives the tasks of each kind."""
    words, kinds = write_tables(folder), {}
    for more in WAYS:
        faults, noted = joined(client, folder, [*words, *more])
        tally.check(f"cluster_sent: {title} {more}", faults)
        for kind, sizes in noted.items():
            kinds.setdefault(kind, []).extend(sizes)
    return kinds


def larger(otherwise=sending.sources):
    """The package with a further file of a megabyte that can't be made smaller."""
    return {**otherwise(), "more.py": b"#" + os.urandom(1 << 20).hex().encode()}


def changed(otherwise=sending.sources):
    """Another version of the package."""
    return {**otherwise(), "rows.py": otherwise()["rows.py"] + b"# Another version.\n"}


def run_sizes(client, folder, tally):
    """Each kind of task is small, and no larger where the package is."""
    kinds = sizes_of(client, folder, tally, "a join")
    with mock.patch.object(sending, "sources", larger):
        others = sizes_of(client, folder, tally, "by a larger package")
    tally.check("cluster_sent: kinds of tasks", [] if {*kinds} == {*others} == KINDS else [f"{sorted(kinds)}"])
    for kind, sizes in kinds.items():
        beside = max(size - own for size, own in sizes)
        grown = max(size - own for size, own in others.get(kind, [(0, 0)])) - beside
        faults = [f"{beside} bytes beside its own words"] if beside > MOST else []
        tally.check(f"cluster_sent: bytes of {kind}", faults + ([f"{grown} bytes more by a larger package"] if grown > 8 else []))
    print(f"cluster_sent: a task has {max(size - own for sizes in kinds.values() for size, own in sizes)} bytes beside its own words")


def loaded():
    """The packages that a process has of this one's code."""
    return sorted(name for name in sys.modules if name.startswith("radixjoin_") and "." not in name)


def run_once(client, folder, tally):
    """A process reads the code once: the file may be gone when it has. Two versions of the package are two."""
    words = write_tables(folder)
    faults, _ = joined(client, folder, words, {"join_shard": lambda job: os.remove(job.place(sending.FILE))})
    tally.check("cluster_sent: a join that goes on without the file", faults)
    with mock.patch.object(sending, "sources", changed):
        faults, _ = joined(client, folder, words)
    tally.check("cluster_sent: another version", faults)
    faults, _ = joined(client, folder, words)
    faults += [f"it has {names}" for names in client.run(loaded).values() if len(names) != 2]
    tally.check("cluster_sent: two versions in one process", faults)


def replace(client):
    """Adds a process, and kills those that were there."""
    numbers = [*client.run(os.getpid).values()]
    client.cluster.scale(len(numbers) + 1)
    client.wait_for_workers(len(numbers) + 1, SECONDS)
    for number in numbers:
        os.kill(number, signal.SIGKILL)


def run_replaced(client, folder, tally):
    """Processes are killed between two steps: one that came just before that gets the code, and does what is left."""
    words = [*write_tables(folder), "--spread", "400", "--merges", "3"]
    for kind in ("join_shard", "put_together"):
        before = {*client.run(os.getpid).values()}
        faults, _ = joined(client, folder, words, {kind: lambda _: replace(client)})
        faults += [] if before.isdisjoint(client.run(os.getpid).values()) else ["none was killed"]
        tally.check(f"cluster_sent: processes are killed before {kind}", faults)


def processes(count, threads=1):
    """So many processes of this machine, of so many threads each."""
    from distributed import LocalCluster

    return LocalCluster(n_workers=count, threads_per_worker=threads, memory_limit=0, dashboard_address=":0", silence_logs=50)


def run_by_one_of_two(client, folder, tally):
    """A join by the processes of one client, while Dask asks another one where it isn't told which: that of a cluster without any."""
    from distributed import Client, default_client

    words = write_tables(folder)
    with processes(0) as none, Client(none) as other:
        faults, _ = joined(client, folder, words, shows_progress=True)
        faults += [] if default_client() is other else ["the other one isn't asked"]
    tally.check("cluster_sent: a client beside another one", faults)


def run_by(tally):
    """The tests, each in processes of its own."""
    from distributed import Client

    for name in ("asyncio", "tornado", "distributed"):
        logging.getLogger(name).setLevel(logging.CRITICAL)
    for count, test in ((2, run_sizes), (1, run_once), (1, run_replaced), (1, run_by_one_of_two)):
        with harness.folder() as folder, processes(count) as cluster, Client(cluster) as client:
            test(client, pathlib.Path(folder), tally)


def run_all(tally):
    if python := harness.python_with_dask("cluster_sent", "tomllib"):
        harness.run_script(tally, python, [__file__, "here"], SECONDS)


if __name__ == "__main__":
    sys.exit(harness.end_of_script(sys.argv[1:], run_by, run_all))
