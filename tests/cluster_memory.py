"""How joins are planned by memory: sizes as they are given, what is free, and the plan of each; that shards of such a plan have no join of more
bytes than it says; one run of `radixjoin` where all fits, its faults beside those of `radixjoin` alone, and what is done where memory is
short for it after all, where it is killed or told to end, and where the result can't be written; and what is told of a plan.

Each plan is also made of the random joins of tests/cluster_random.py. What is done on a cluster needs Dask, as tests/cluster.py does."""
import pathlib
import signal
import sys
import time
import types
from unittest import mock

import cluster
import cluster_ends
import cluster_manners
import cluster_pieces
import cluster_sent
import harness
import progress
import shards

from radixjoin import local, memory, plans, sending

SCRIPT = shards.SCRIPT
SECONDS = 300
KIB, MIB, GIB = 1 << 10, 1 << 20, 1 << 30
MUCH = ["--memory", "1G"]
SIZES = {"0": 0, "7": 7, "1k": KIB, "64K": 64 * KIB, "500M": 500 * MIB, "08g": 8 * GIB, 5: 5, "9" * 18: 10**18 - 1}
NO_SIZES = ("", "K", "x", "1T", "-1", "+1", "1.5G", " 1", "1 ", "1\n", "1KK", "\N{FULLWIDTH DIGIT ONE}", "1\N{KELVIN SIGN}", "9" * 19, "1_0", 1.5, b"1G")
# What a machine tells: KiB that are available, the lines of its control groups, the files of these, and what is free.
SECOND, FIRST = ("memory.max", "memory.current", "inactive_file"), ("memory.limit_in_bytes", "memory.usage_in_bytes", "total_inactive_file")
MACHINES = (
    ("no groups", None, {}, 1_000 * KIB),
    ("no memory's groups", "9:name=systemd:/\n3:cpuset:/a\n", {}, 1_000 * KIB),
    ("a group", "0::/a/b\n", {"a/b": (SECOND, "5000", "1000", "300")}, 4_300),
    ("a group of one that has less", "0::/a/b\n", {"a/b": (SECOND, "5000", "1000", "0"), "a": (SECOND, "6000", "5500", "100")}, 600),
    ("a group of one that isn't limited", "0::/a/b\n", {"a/b": (SECOND, "5000", "1000", "0"), "a": (SECOND, "max", "5500", "100")}, 4_000),
    ("the outermost group", "0::/\n", {"": (SECOND, "5000", "1000", "0")}, 4_000),
    ("a group that has more than the machine", "0::/a\n", {"a": (SECOND, "9000000", "1000", "0")}, 1_000 * KIB),
    ("a group that is full", "0::/a\n", {"a": (SECOND, "5000", "6000", "0")}, 0),
    ("groups of the first kind", "5:cpu,memory:/a\n0::/\n", {"memory/a": (FIRST, "7000", "1000", "10")}, 6_010),
    ("groups of the first kind, of a name that isn't seen", "5:memory:/outer/a\n", {"memory": (FIRST, "7000", "1000", "0")}, 6_000),
)


def run_sizes(tally):
    for given, wanted in SIZES.items():
        tally.check(f"cluster_memory: {given!r}", [] if memory.size_in(given) == wanted else [f"{memory.size_in(given)}"])
    for given in NO_SIZES:
        try:
            faults = [f"it is {memory.size_in(given)}"]
        except (ValueError, TypeError) as error:
            faults = [] if repr(given) in str(error) and isinstance(error, ValueError) == isinstance(given, str) else [repr(error)]
        tally.check(f"cluster_memory: {given!r} is none", faults)


def run_free(tally):
    """What is free on machines with control groups of both kinds; and of this one no more than the address space."""
    for name, groups, files, wanted in MACHINES:
        with harness.folder() as place:
            folder = pathlib.Path(place)
            (folder / "proc" / "self").mkdir(parents=True)
            (folder / "proc" / "meminfo").write_text("MemTotal:    9999 kB\nMemFree:      10 kB\nMemAvailable:    1000 kB\nHugePages_Total:       0\n")
            if groups is not None:
                (folder / "proc" / "self" / "cgroup").write_text(groups)
            for group, (names, *numbers, returned) in files.items():
                own = folder / "sys" / "fs" / "cgroup" / group
                own.mkdir(parents=True, exist_ok=True)
                for it, number in zip(names, numbers):
                    (own / it).write_text(f"{number}\n")
                (own / "memory.stat").write_text(f"anon 7\n{names[2]} {returned}\n")
            got = memory.free(place)
        tally.check(f"cluster_memory: free with {name}", [] if got == wanted else [f"{got}, and not {wanted}"])
    code = f"import sys; sys.path[:0] = [{str(harness.ROOT / 'python')!r}]; from radixjoin import memory; print(0 < memory.free() <= 400000 << 10)"
    ran = harness.run(["/bin/sh", "-c", f'ulimit -v 400000 && exec "{sys.executable}" -c "$0"', code], harness.ROOT)
    tally.check("cluster_memory: free in some address space", harness.differences(ran, b"True\n"))


class On:
    """Does so many tasks at once, of which one process does some, on a machine with so many bytes free."""

    def __init__(self, in_process, free=None, is_here=True, processes=1):
        self.in_process, self.bytes, self.is_here, self.processes = in_process, free, is_here, processes

    def has_processes(self):
        return self.processes > 0

    def tasks_in_process(self):
        return self.in_process

    def tasks_at_once(self):
        return self.in_process * self.processes

    def free(self):
        return self.bytes


def on_cluster(in_process, processes):
    """So many processes of a cluster, each of which does so many tasks at once."""
    return On(in_process, None, False, processes)


def asked(**given):
    options = ("memory", "parts", "spread", "ranges", "merges", "workers", "processes", "rows")
    return types.SimpleNamespace(**{**dict.fromkeys(options), "join": "FULL JOIN USING (k)", **given})


# What is asked for, the bytes of both files, who does it, and the plan: how many runs there are, the parts, a shard's bytes, and the memory.
LEFT_JOIN = {"join": "LEFT JOIN USING (k)"}
PLANS = (
    ({}, 100 * MIB, On(1, 600 * MIB), (1, 16, 100 * MIB, 300 * MIB)),
    ({}, 104 * MIB, On(1, 600 * MIB), (0, 16, 100 * MIB, 300 * MIB)),
    ({}, 104 * MIB, On(1, 600 * MIB, is_here=False), (0, 16, 100 * MIB, 300 * MIB)),
    ({"memory": 300 * MIB}, 100 * MIB, On(1), (1, 16, 100 * MIB, 300 * MIB)),
    ({"memory": 240 * MIB}, 10 * GIB, On(1), (0, 256, 80 * MIB, 240 * MIB)),
    ({"memory": 240 * MIB}, 10 * GIB, On(4), (0, 1_024, 20 * MIB, 240 * MIB)),
    ({"memory": 240 * MIB}, 10 * GIB + 1, On(1), (0, 257, 80 * MIB, 240 * MIB)),
    ({"memory": 240 * MIB}, 1_000 * GIB, On(1), (0, 1_024, 80 * MIB, 240 * MIB)),
    ({"memory": 1}, 100 * MIB, On(3), (0, 200, MIB, 1)),
    ({"memory": 1}, 0, On(3), (1, 16, MIB, 1)),
    ({"memory": GIB, "ranges": 2}, 100, On(1), (0, 16, GIB // 3, GIB)),
    ({"memory": GIB, "merges": 2}, 100, On(1), (0, 16, GIB // 3, GIB)),
    ({"memory": GIB, "spread": 50}, 100, On(1), (0, 16, 50, GIB)),
    ({"memory": 3 * MIB, "spread": 50}, 100 * MIB, On(1), (0, 200, 50, 3 * MIB)),
    ({"memory": GIB, "parts": 3}, 100, On(1), (0, 3, None, None)),
    ({"parts": 3, "spread": 50}, 100, On(1), (0, 3, 50, None)),
    # by a right file that fits, with a left one that doesn't
    ({**LEFT_JOIN, "memory": 300 * MIB}, (100 * MIB + 1, 40 * MIB), On(1), (2, 16, 100 * MIB, 300 * MIB)),
    ({**LEFT_JOIN, "memory": 300 * MIB}, (121 * MIB, 40 * MIB), On(4), (3, 16, 25 * MIB, 300 * MIB)),
    ({**LEFT_JOIN, "memory": 300 * MIB}, (60 * MIB, 40 * MIB), On(1), (1, 16, 100 * MIB, 300 * MIB)),
    ({**LEFT_JOIN, "memory": 300 * MIB}, (990 * GIB, 100 * MIB - 9), On(1), (0, 1_024, 100 * MIB, 300 * MIB)),
    ({**LEFT_JOIN, "memory": 300 * MIB}, (990 * MIB, 66 * MIB), On(1), (30, 22, 100 * MIB, 300 * MIB)),
    ({**LEFT_JOIN, "memory": 300 * MIB}, (990 * MIB, 67 * MIB), On(1), (0, 22, 100 * MIB, 300 * MIB)),
    ({**LEFT_JOIN, "memory": 300 * MIB}, (50 * MIB, 100 * MIB), On(1), (0, 16, 100 * MIB, 300 * MIB)),
    ({**LEFT_JOIN, "memory": 3 * MIB}, (50 * MIB, 0), On(1), (50, 100, MIB, 3 * MIB)),
    ({**LEFT_JOIN, "memory": 3 * MIB}, (50 * MIB, 1), On(1), (0, 101, MIB, 3 * MIB)),
    ({**LEFT_JOIN, "memory": 3 * MIB}, (100_000 * MIB, 0), On(1), (100_000, 1_024, MIB, 3 * MIB)),
    ({**LEFT_JOIN, "memory": 3 * MIB}, (100_001 * MIB, 0), On(1), (0, 1_024, MIB, 3 * MIB)),
    ({**LEFT_JOIN, "memory": 300 * MIB}, (121 * MIB, 40 * MIB), On(4, is_here=False), (0, 16, 25 * MIB, 300 * MIB)),
    ({**LEFT_JOIN, "memory": 300 * MIB, "ranges": 1}, (121 * MIB, 40 * MIB), On(1), (0, 16, 100 * MIB, 300 * MIB)),
    ({**LEFT_JOIN, "memory": 300 * MIB, "parts": 16}, (121 * MIB, 40 * MIB), On(1), (0, 16, None, None)),
    ({"join": "JOIN USING (k)", "memory": 300 * MIB}, (121 * MIB, 40 * MIB), On(1), (3, 16, 100 * MIB, 300 * MIB)),
    # the same where unmatched right rows are written: a run has as many bytes as the right file
    ({"memory": 300 * MIB}, (121 * MIB, 40 * MIB), On(1), (3, 16, 100 * MIB, 300 * MIB)),
    ({"join": "RIGHT JOIN USING (k)", "memory": 300 * MIB}, (121 * MIB, 50 * MIB), On(1), (3, 16, 100 * MIB, 300 * MIB)),
    ({"join": "RIGHT JOIN USING (k)", "memory": 300 * MIB}, (121 * MIB, 51 * MIB), On(1), (0, 16, 100 * MIB, 300 * MIB)),
    ({"memory": 300 * MIB, "rows": "lone-right"}, (121 * MIB, 51 * MIB), On(1), (0, 16, 100 * MIB, 300 * MIB)),
    ({"memory": 300 * MIB, "rows": "lone-left,pairs"}, (121 * MIB, 51 * MIB), On(1), (3, 16, 100 * MIB, 300 * MIB)),
    ({"memory": 3 * MIB}, (100_000 * MIB, 0), On(1), (100_000, 1_024, MIB, 3 * MIB)),
    # by the processes of a cluster: no fewer runs than these do at once, if such a run has half of the bytes of the right file
    ({**LEFT_JOIN, "memory": 300 * MIB}, (121 * MIB, 40 * MIB), on_cluster(1, 1), (3, 16, 100 * MIB, 300 * MIB)),
    ({**LEFT_JOIN, "memory": 300 * MIB}, (121 * MIB, 30 * MIB), on_cluster(1, 8), (8, 16, 100 * MIB, 300 * MIB)),
    ({**LEFT_JOIN, "memory": 300 * MIB}, (121 * MIB, 31 * MIB), on_cluster(1, 8), (0, 16, 100 * MIB, 300 * MIB)),
    ({**LEFT_JOIN, "memory": 300 * MIB}, (1210 * MIB, 40 * MIB), on_cluster(1, 8), (21, 25, 100 * MIB, 300 * MIB)),
    ({**LEFT_JOIN, "memory": 1200 * MIB}, (1210 * MIB, 40 * MIB), on_cluster(4, 2), (21, 25, 100 * MIB, 1200 * MIB)),
    ({**LEFT_JOIN, "memory": 300 * MIB}, (4 * MIB, 2 * MIB), on_cluster(1, 8), (4, 16, 100 * MIB, 300 * MIB)),
    ({**LEFT_JOIN, "memory": 300 * MIB}, (7, 2 * MIB), on_cluster(1, 8), (1, 16, 100 * MIB, 300 * MIB)),
    ({**LEFT_JOIN, "memory": 300 * MIB}, (7, 3 * MIB), on_cluster(1, 8), (0, 16, 100 * MIB, 300 * MIB)),
    ({**LEFT_JOIN, "memory": 300 * MIB}, (121 * MIB, 30 * MIB), on_cluster(1, 0), (0, 16, 100 * MIB, 300 * MIB)),
    ({**LEFT_JOIN, "memory": 300 * MIB, "ranges": 2}, (121 * MIB, 30 * MIB), on_cluster(1, 8), (0, 16, 100 * MIB, 300 * MIB)),
    ({"join": "RIGHT JOIN USING (k)", "memory": 300 * MIB}, (121 * MIB, 15 * MIB), on_cluster(1, 8), (8, 16, 100 * MIB, 300 * MIB)),
    ({"join": "RIGHT JOIN USING (k)", "memory": 300 * MIB}, (121 * MIB, 16 * MIB), on_cluster(1, 8), (0, 16, 100 * MIB, 300 * MIB)),
    ({**LEFT_JOIN, "memory": 3 * MIB}, (10_001 * MIB, 0), on_cluster(1, 8), (10_001, 1_024, MIB, 3 * MIB)),
    ({"memory": 3 * MIB}, (10_001 * MIB, 0), on_cluster(1, 8), (0, 1_024, MIB, 3 * MIB)),
    ({"memory": 3 * MIB}, (1_000 * MIB, 0), on_cluster(1, 8), (1_000, 1_024, MIB, 3 * MIB)),
)


def both(size):
    """The bytes of a left and a right file."""
    return size if isinstance(size, tuple) else (size - size // 2, size // 2)


def run_plans(tally):
    for given, size, on, wanted in PLANS:
        plan = plans.plan_of(asked(**given), both(size), on)
        got = (plan.runs, plan.parts, plan.spread, plan.memory)
        tally.check(f"cluster_memory: {given} of {size} bytes", [] if got == wanted else [f"{got}, and not {wanted}"])
    for given, processors, wanted in (({}, 4, 4), ({}, 99, 64), ({"processes": 2}, 4, 2), ({"processes": 99}, 4, 64), ({"workers": "3", "processes": 2}, 4, 3)):
        with mock.patch.object(plans.os, "sched_getaffinity", lambda _, count=processors: range(count)):
            got = plans.plan_of(asked(memory=GIB, **given), both(100), On(1)).workers
        tally.check(f"cluster_memory: workers by {given} of {processors} processors", [] if got == wanted else [f"{got}, and not {wanted}"])
    limits = {"a": 3 * GIB, "b": 2 * GIB, "c": 0}
    for title, given, wanted in (("limits of processes", limits, 2 * GIB), ("processes without limits", {"a": 0, "b": None}, 5 * GIB), ("no process", {}, 10 * GIB)):
        told = {"workers": {name: {"memory_limit": limit} for name, limit in given.items()}}
        with mock.patch.object(memory, "free", lambda: 10 * GIB):
            client = types.SimpleNamespace(scheduler_info=lambda told=told: told, nthreads=lambda given=given: given)
            got = sending.Cluster(client, False).free()
        tally.check(f"cluster_memory: free by {title}", [] if got == wanted else [f"{got}, and not {wanted}"])


class Machine(local.Machine):
    """Notes which tasks are done."""

    def __init__(self, count):
        super().__init__(count, False)
        self.names = []

    def answers(self, words):
        self.names += [task.__name__ for task, *_ in words]
        return super().answers(words)


def run_bound(tally):
    """No join is handed more bytes than memory allows for, whatever the keys, and there are as many shards as planned."""
    with cluster_pieces.patched(), mock.patch.multiple(plans, LEAST_PARTS=2, LEAST_SPREAD=1):
        for count, share, hot, are_cut in ((1, 2, 3_000, False), (2, 8, 3_000, True), (3, 5, 0, False), (3, 20, 40, False)):
            with harness.folder() as place:
                folder = pathlib.Path(place)
                words = cluster_ends.write_tables(folder, 3_000)
                with open(folder / "left.csv", "a") as left:
                    left.write("7,hot\n" * hot)
                size = sum((folder / f"{side}.csv").stat().st_size for side in SCRIPT.SIDES)
                wanted = harness.run([harness.program("radixjoin"), *words], folder)
                on, limit = Machine(count), size // share
                ran = shards.joined([*words, f"--memory={plans.MEASURE * count * limit}"], folder, count, cluster=lambda _, on=on: on)
                tables = cluster_pieces.TABLES.of(folder)
                faults = harness.differences(ran, wanted.stdout, wanted.stderr, wanted.status) + list(cluster_pieces.faults_of_tables(tables, limit))
                parts = len({name.split("-")[1] for name in tables})
                faults += [] if parts == -(-2 * size // limit) and (len(tables) > parts or not are_cut) else [f"{len(tables)} joins of {parts} shards"]
                tally.check(f"cluster_memory: {count} at a time, a {share}th of the files each, {hot} rows of one key", faults)


def programs_of_one_run(folder, does, is_once=False):
    """The programs, of which `radixjoin` does something where it joins the whole files. `merges`, which shards need, tells that it ran."""
    programs = cluster_ends.programs_in(folder, "radixjoin", does, is_once, step="/left.csv")
    (programs / "merges").unlink()
    (programs / "merges").write_text(f'#!/bin/sh\ntouch "$0.ran"\nexec "{harness.program("merges")}" "$@"\n')
    (programs / "merges").chmod(0o755)
    return programs


def run_short(tally):
    """One run for which memory is short, or that is killed, is followed by shards. What is told of both plans is shown."""
    for title, does, is_short in (("enough", ":", False), ("short", "echo 'radixjoin: E18 Memory' >&2; exit 5", True), ("short, and it is killed", cluster_ends.IS_KILLED, True)):
        with harness.folder() as place:
            folder = pathlib.Path(place)
            words = cluster_ends.write_tables(folder)
            wanted = harness.run([harness.program("radixjoin"), *words], folder)
            programs = programs_of_one_run(folder / "programs", does)
            known = {it.name for it in folder.iterdir()} | {"stdout"}
            line = [sys.executable, cluster.SCRIPT, *words, "--programs", programs, "--processes", "2", "--out", "out.csv", "--progress", *MUCH]
            shown = cluster_manners.on_terminal(line, folder)
            first, rest = cluster_manners.plan_in(shown.stderr)
            plan = b"radixjoin-cluster: memory was short, so the plan is 16 shards, 2 at a time, in 1024 MiB of memory\n"
            faults = [] if first == "one run by 2 workers, in about 1 of 1024 MiB of memory" else [f"the plan is {first}"]
            faults += [] if (plan in rest, (programs / "merges.ran").exists()) == (is_short, is_short) else [harness.shorten(rest)]
            lines, last = progress.lines_of(rest.replace(plan, b""))
            faults += cluster_manners.faults_of_lines(lines) + ([harness.shorten(last)] if last else [])
            ran = types.SimpleNamespace(returncode=shown.status, stderr=b"")
            tally.check(f"cluster_memory: memory is {title}", faults + cluster.faults_of_run(ran, folder, known, wanted))


def run_many_matches(tally):
    """Small files of which the result is a hundred times as large as the memory: one run gives up before that is taken."""
    with harness.folder() as place:
        folder = pathlib.Path(place)
        for side in SCRIPT.SIDES:
            (folder / f"{side}.csv").write_text(f"k,{side}\n" + "".join(f"1,{side * 10}{number}\n" for number in range(1_500)))
        words = [word for side in SCRIPT.SIDES for word in (f"--{side}={folder}/{side}.csv", f"--{side}-types=int,text")] + ["--join=JOIN USING (k)"]
        wanted = harness.run([harness.program("radixjoin"), *words], folder)
        for given, are_shards in (("1M", True), ("2G", False)):
            on = Machine(1)
            ran = shards.joined([*words, "--memory", given, "--workers", "1"], folder, 1, cluster=lambda _, on=on: on)
            faults = harness.differences(ran, wanted.stdout, wanted.stderr, wanted.status)
            faults += [] if (on.names[0], "merge_shards" in on.names) == ("join_whole", are_shards) else [f"{on.names}"]
            tally.check(f"cluster_memory: {len(wanted.stdout) >> 20} MiB in {given} of memory", faults)


# What stands in the left file behind its header and some rows, and options.
FAULTY = (
    ("x,a\n", []),
    ("1,a\n2\n", []),
    ('1,"a\n', ["--strict"]),
    ("1,~\n", ["--strict", "--out-null=~"]),
    ("1,\xff\n", []),
    ("1,a\n", ["--rows=lone-left,pairs", "--order=left", "--out-null=~", "--bits1=2"]),
)


def run_faults(tally):
    """What is wrong in the rows is told as `radixjoin` tells it, and explained as it does."""
    for (rows, more), explain in ((case, explain) for case in FAULTY for explain in ([], ["--explain"])):
        with harness.folder() as place:
            folder = pathlib.Path(place)
            words = [*cluster_ends.write_tables(folder, 60), *more, *explain]
            with open(folder / "left.csv", "a", encoding="latin-1", newline="") as left:
                left.write(rows)
            wanted = harness.run([harness.program("radixjoin"), *words], folder)
            on = Machine(2)
            ran = shards.joined([*words, *MUCH], folder, 1, cluster=lambda _, on=on: on)
            faults = harness.differences(ran, wanted.stdout, wanted.stderr, wanted.status) + ([] if on.names == ["join_whole"] else [f"{on.names}"])
            tally.check(f"cluster_memory: {rows!r} {more} {explain}", faults)


def run_told_to_end(number, tally):
    """The script is told to end while the one run goes on: that ends, what stood at the result's place stays, and nothing is left."""
    with harness.folder() as place:
        folder = pathlib.Path(place)
        words = cluster_ends.write_tables(folder)
        programs = programs_of_one_run(folder / "programs", cluster_ends.WAITS.format("$$"))
        (folder / "out.csv").write_text("before")
        known = {it.name for it in folder.iterdir()}
        running = cluster_ends.begun(sys.executable, words, folder, "--programs", programs, *MUCH)
        runs = cluster_ends.number_in(programs, "radixjoin")
        running.send_signal(number)
        time.sleep(0.05)
        running.send_signal(signal.SIGTERM)
        ran = cluster.ended(running)
        faults = harness.differences(harness.Ran(ran.returncode, b"", ran.stderr), b"", b"", 128 + number)
        faults += [] if runs else ["it didn't run"]
        faults += [f"{it} goes on" for it in cluster_ends.goes_on(running.pid)]
        faults += [] if (folder / "out.csv").read_text() == "before" else ["out.csv is another one"]
        tally.check(f"cluster_memory: one run is told to end by {number.name}", faults + [f"{it} was left behind" for it in cluster.left_behind(folder, known)])


def run_full(tally):
    """The result of one run on disks that are full, and not: it is told as that of shards."""
    with harness.folder() as name:
        folder, place = pathlib.Path(name), pathlib.Path(name, "disk")
        words = cluster_ends.write_tables(folder, 20_000)
        wanted = harness.run([harness.program("radixjoin"), *words], folder)
        for size, is_full in ((64, True), (600, True), (4_096, False)):
            with harness.disk(place, size) as is_mounted:
                if not is_mounted:
                    print("cluster_memory: full disks are left out, since no small file system can be mounted")
                    return
                told = harness.Ran(6, b"", f'radixjoin-cluster: E20 WriteDevice "{place.resolve()}/out.csv": {cluster_ends.NO_ROOM}\n'.encode()) if is_full else wanted
                on = Machine(1)
                ran = shards.joined([*words, *MUCH, "--scratch", folder], folder, 1, place / "out.csv", cluster=lambda _, on=on: on)
                faults = harness.differences(ran, told.stdout, told.stderr, told.status) + ([] if on.names == ["join_whole"] else [f"{on.names}"])
                tally.check(f"cluster_memory: the result on a disk of {size} KiB", faults + [f"{it} was left behind" for it in place.iterdir() if it.name != "out.csv"])


def run_by(tally):
    """On a cluster small tables are joined by one run, unless memory is short for that: then in shards, as many as the memory of each process
    needs."""
    from distributed import Client, LocalCluster

    with LocalCluster(n_workers=2, threads_per_worker=2, memory_limit=3 * GIB, dashboard_address=":0", silence_logs=50) as processes, Client(processes) as client:
        got = sending.Cluster(client, False).free()
        tally.check("cluster_memory: free by processes", [] if got == 3 * GIB else [f"{got}"])
        for more, least, kind, wanted in (([], 16, "join_whole", 1), (["--memory", "60K"], 3, "join_shard", 14)):
            with harness.folder() as place, mock.patch.multiple(plans, LEAST_PARTS=least, LEAST_SPREAD=1):
                folder = pathlib.Path(place)
                words = cluster_ends.write_tables(folder, 2_000)
                size = sum((folder / f"{side}.csv").stat().st_size for side in SCRIPT.SIDES)
                alone = harness.run([harness.program("radixjoin"), *words], folder)
                on = cluster_sent.Cluster(client)
                ran = shards.joined([*words, *more], folder, 2, cluster=lambda _, on=on: on)
                joins = len(on.kinds.get(kind, []))
                faults = harness.differences(ran, alone.stdout, alone.stderr, alone.status)
                tally.check(f"cluster_memory: {size} bytes by processes {more}", faults + ([] if joins >= wanted else [f"{joins} joins"]))


def run_all(tally):
    run_sizes(tally)
    run_free(tally)
    run_plans(tally)
    run_bound(tally)
    run_short(tally)
    run_many_matches(tally)
    run_faults(tally)
    for number in (signal.SIGTERM, signal.SIGINT):
        run_told_to_end(number, tally)
    run_full(tally)
    if python := harness.python_with_dask("cluster_memory", "tomllib"):
        harness.run_script(tally, python, [__file__, "here"], SECONDS)


if __name__ == "__main__":
    sys.exit(harness.end_of_script(sys.argv[1:], run_by, run_all))
