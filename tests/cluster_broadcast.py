"""Left runs that the processes of a Dask cluster join side by side with the whole right file, beside `radixjoin` alone: the random tables of
tests/cluster_runs.py, and the headers and unmatched right rows of that, also by tasks that run twice; programs that are killed, refuse, or
are short of memory, and processes that are killed, once or each time; faults in the rows, of which the first one is told; a folder that
is full; what is sent for it, and what is shown.

usage: cluster_broadcast.py [RUNS [FIRST]]

RUNS random joins through a cluster from the seed FIRST on (30 from 0, where they aren't given). It needs Dask, as tests/cluster.py does;
more random joins and what else needs none of it come before. The last line is 'N passed, M failed'."""
import functools
import pathlib
import random
import sys
import types
from unittest import mock

import cluster
import cluster_ends
import cluster_killed
import cluster_manners
import cluster_memory
import cluster_pieces
import cluster_runs
import cluster_sent
import harness
import progress
import shards

from radixjoin import sending, tasks, text

SCRIPT = shards.SCRIPT
RUNS, PROCESSES, THREADS = 30, 2, 2
SECONDS = 600
# The bytes of a task's own words, or fewer.
MOST = 400
# The step of a program that is a left run's.
STEP = cluster_runs.STEP
# The file of the package and a function in it behind a call of which the process is killed, which call, and the kind of tasks.
DIES = (
    ("runs.py", "_header_in", 1, "join_part"),
    ("runs.py", "Joined._divide", 1, "join_part"),
    ("runs.py", "join_part", 1, "join_part"),
    ("making.py", "append", 6, "put_parts"),
    ("runs.py", "put_parts", 1, "put_parts"),
    ("making.py", "append", 1, "number_right"),
    ("runs.py", "number_right", 1, "number_right"),
    ("runs.py", "_list_right", 1, "join_part"),
    ("runs.py", "_put_right", 1, "put_parts"),
)
# Of these steps those that a join without unmatched right rows has.
WITHOUT_RIGHT = DIES[:5]


# The memory of a process by which the large tables of tests/cluster_runs.py are cut into runs.
LARGE = ["--memory", "48M"]


class Noted:
    """Notes which tasks are done, and finds the cuts of small files here, since `shards --cuts` leaves these whole."""

    def __init__(self, *words):
        super().__init__(*words)
        self.names = []

    def answers(self, words):
        words = list(words)
        self.names += [task.__name__ for task, *_ in words]
        return [tasks.answer(*it) for it in words] if words[0][0] is cluster_pieces.cuts_of else super().answers(words)

    def runs(self):
        """How many left runs there were, and whether it was done in shards."""
        return self.names.count("join_part") or self.names.count("join_whole"), "divide" in self.names


class Tasks(Noted, shards.OneByOne):
    """A cluster of so many processes without Dask, which does one task after another."""

    is_here = False

    def has_processes(self):
        return self.number > 0


class Twice(Noted, cluster_pieces.Twice):
    """It does each of them twice, as Dask may."""

    is_here = False

    def has_processes(self):
        return True


class Cluster(Noted, sending.Cluster):
    """A cluster of Dask's."""


def small(otherwise=sending.sources):
    """The package with last records that are looked for in small pieces, as in tests/cluster_runs.py."""
    code = otherwise()
    changed = code["text.py"].replace(b"\n_LAST = 1 << 16\n", b"\n_LAST = 37\n")
    assert changed != code["text.py"]
    return {**code, "text.py": changed}


def joined(on, words, folder, runs, *more):
    """A join with memory for so many runs, or for one by each task that is done at once: how it ended, how many left runs there were,
    and whether it was done in shards."""
    memory = cluster_runs.memory_for(folder, runs) * on.tasks_in_process()
    # (a run of two workers may have some more address space, which little memory leaves scarce)
    workers = [] if any(word.startswith("--workers") for word in words) else ["--workers=2"]
    ran = shards.joined([*words, f"--memory={memory}", *workers, *more], folder, 1, cluster=lambda _: on)
    return ran, *on.runs()


def run_one(does, seed, tally):
    """One random join. It gives how many left runs there were, how it ended, and whether it was done in shards."""
    pick = random.Random(f"radixjoin: a broadcast join {seed}")
    with harness.folder() as name:
        folder = pathlib.Path(name)
        words = cluster_runs.random_words(pick, folder)
        wanted = harness.run([harness.program("radixjoin"), *words], folder)
        on, count = does(), pick.choice((1, 2, 3, 7))
        ran, runs, are_shards = joined(on, words, folder, count)
        faults = harness.differences(ran, wanted.stdout, wanted.stderr, wanted.status)
        if wanted.status == 0:
            faults += [] if (runs > 0, are_shards) == (True, False) else [f"{runs} left runs, and shards: {are_shards}"]
        tally.check(f"cluster_broadcast: {seed}: {words} by {count} runs, {on.tasks_at_once()} at a time", faults)
        return runs, wanted.status, are_shards


def run_random(does, seeds, tally):
    """Such joins. Where they are many most are done by some runs, and some are refused."""
    ran = harness.side_by_side(tally, [lambda own, seed=seed: run_one(does, seed, own) for seed in seeds])
    if len(ran) >= RUNS:
        many = sum(runs > 1 and not are_shards for runs, _, are_shards in ran)
        faults = [] if many > len(ran) / 4 and {0, 3} <= {status for _, status, _ in ran} else [f"{many} of {len(ran)}: {ran}"]
        tally.check("cluster_broadcast: joins by runs", faults)


def run_table(does, name, left, right, more, tally):
    """Tables whose text has to be as it stands, in one way."""
    with harness.folder() as place:
        folder = pathlib.Path(place)
        kind, *options = more
        words = [*cluster_runs.write(folder, left, right), f"--join={cluster_runs.clause_by(kind, left, right)}", *options]
        wanted = harness.run([harness.program("radixjoin"), *words], folder)
        ran, runs, are_shards = joined(does(), words, folder, 2)
        faults = harness.differences(ran, wanted.stdout, wanted.stderr, wanted.status)
        faults += [f"{runs} left runs, and shards: {are_shards}"] if (are_shards or not runs) and wanted.status == 0 else []
        tally.check(f"cluster_broadcast: {name}, {words}", faults)


def run_tables(does, tally):
    """Each of the tables as a LEFT join in the order of pairs, and in two other ways, by one of which unmatched right rows are written."""
    ways, others = cluster_runs.WAYS, cluster_runs.RIGHT_WAYS
    cases = [(*table, ways[way % len(ways)]) for number, table in enumerate(cluster_runs.TABLES) for way in (0, number + 1)]
    cases += [(*table, others[number % len(others)]) for number, table in enumerate(cluster_runs.TABLES)]
    harness.side_by_side(tally, [lambda own, it=it: run_table(does, *it, own) for it in cases])


def run_unmatched(does, name, left, right, types_given, clause, more, are_wanted, tally):
    """Tables with right rows that are in no match. (That a text is written as null is may be told of such a row of one run alone: shards
    follow then too.)"""
    with harness.folder() as place:
        folder = pathlib.Path(place)
        own = [word.partition("=")[0] for word in more]
        words = [word.replace("int,text", types_given) for word in cluster_runs.write(folder, left, right) if word.partition("=")[0] not in own]
        words += [f"--join={clause}", *more]
        wanted = harness.run([harness.program("radixjoin"), *words], folder)
        ran, runs, are_shards = joined(does(), words, folder, 3)
        faults = harness.differences(ran, wanted.stdout, wanted.stderr, wanted.status)
        may_be = are_wanted or name == "such a text in a match alone"
        faults += [] if are_shards in (are_wanted, may_be) and (runs > 1 or are_wanted) else [f"{runs} left runs, and shards: {are_shards}"]
        tally.check(f"cluster_broadcast: {name}", faults)


def run_all_unmatched(does, tally):
    harness.side_by_side(tally, [lambda own, it=it: run_unmatched(does, *it, own) for it in cluster_runs.UNMATCHED])


# What a program does in the place of those that have to do with unmatched right rows, the program and a text in its words, how often, and
# whether shards follow.
NUMBERS, LISTS, MERGES = "--parts=1 --from=0", "--left-types=int,text,int", "--copies="
RIGHT_ENDS = (
    ("shards", NUMBERS, "is killed twice", cluster_ends.IS_KILLED_TWICE, False, False),
    ("shards", NUMBERS, "is killed each time", cluster_ends.IS_KILLED, False, True),
    ("shards", NUMBERS, "refuses", "echo 'radixjoin: E6 BadInteger right row 1 column 1' >&2; exit 3", True, True),
    ("radixjoin", cluster_runs.FINDS, "is killed twice", cluster_ends.IS_KILLED_TWICE, False, False),
    ("radixjoin", cluster_runs.FINDS, "is killed each time", cluster_ends.IS_KILLED, False, True),
    ("radixjoin", cluster_runs.FINDS, "is short of memory", "echo 'radixjoin: E18 Memory' >&2; exit 5", True, True),
    ("radixjoin", LISTS, "refuses", "echo 'radixjoin: E6 BadInteger left row 1 column 1' >&2; exit 3", True, True),
    ("merges", MERGES, "is killed twice", cluster_ends.IS_KILLED_TWICE, False, False),
    ("merges", MERGES, "is killed each time", cluster_ends.IS_KILLED, False, True),
    ("merges", MERGES, "is short of memory", "echo 'merges: E18 Memory' >&2; exit 5", True, True),
)


def run_right_end(does, name, step, title, program_does, is_once, are_wanted, tally):
    """A program that has to do with unmatched right rows does something else, once or each time."""
    with harness.folder() as place:
        folder = pathlib.Path(place)
        words = cluster_runs.right_tables(folder)
        wanted = harness.run([harness.program("radixjoin"), *words], folder)
        programs = cluster_ends.programs_in(folder / "programs", name, program_does, is_once=is_once, step=step)
        ran, _, are_shards = joined(does(), words, folder, 4, f"--programs={programs}")
        faults = harness.differences(ran, wanted.stdout, wanted.stderr, wanted.status)
        faults += [] if are_shards == are_wanted else [f"shards: {are_shards}"]
        tally.check(f"cluster_broadcast: {name} {title} with {step}", faults)


def run_right_ends(does, tally):
    harness.side_by_side(tally, [lambda own, it=it: run_right_end(does, *it, own) for it in RIGHT_ENDS])


def run_end(does, title, program_does, is_once, are_wanted, is_later, tally):
    """A program does something in the place of all runs, or of all but the first one to begin, once or each time."""
    with harness.folder() as place:
        folder = pathlib.Path(place)
        left, right = "".join(f'{number % 40},"{number}\n"\n' for number in range(90)), "".join(f"{number},b\n" for number in range(30))
        words = [*cluster_runs.write(folder, f"k,a\n{left}", f"k,b\n{right}"), "--join=LEFT JOIN USING (k)"]
        wanted = harness.run([harness.program("radixjoin"), *words], folder)
        programs = cluster_runs.program_that(folder / "programs", program_does, is_once, is_later)
        ran, runs, are_shards = joined(does(), words, folder, 4, f"--programs={programs}")
        faults = harness.differences(ran, wanted.stdout, wanted.stderr, wanted.status)
        faults += [] if (runs, are_shards) == (4, are_wanted) else [f"{runs} left runs, and shards: {are_shards}"]
        tally.check(f"cluster_broadcast: a program {title} in {'a later' if is_later else 'the first'} run", faults)


def run_ends(does, tally):
    cases = [(*case, is_later) for case in cluster_runs.ENDS for is_later in (False, True) if is_later or case[0] != "writes another header"]
    harness.side_by_side(tally, [lambda own, it=it: run_end(does, *it, own) for it in cases])


def run_given_up(tally):
    """Where memory is short for one run, those that are to be joined behind it aren't begun."""
    with harness.folder() as place:
        folder = pathlib.Path(place)
        words = [*cluster_runs.write(folder, "k,a\n" + "1,x\n" * 50, "k,b\n1,y\n"), "--join=JOIN USING (k)"]
        wanted = harness.run([harness.program("radixjoin"), *words], folder)
        does = "echo >> \"$0.calls\"; echo 'radixjoin: E18 Memory' >&2; exit 5"
        programs = cluster_ends.programs_in(folder / "programs", "radixjoin", does, is_once=False, step=STEP)
        ran, runs, are_shards = joined(Tasks(5), words, folder, 1, f"--programs={programs}")
        calls = (programs / "radixjoin.calls").read_text()
        faults = harness.differences(ran, wanted.stdout, wanted.stderr, wanted.status)
        faults += [] if (runs, are_shards, calls) == (5, True, "\n") else [f"{runs} left runs, shards: {are_shards}, and {calls!r}"]
        tally.check("cluster_broadcast: runs behind one that is given up", faults)


def run_faulty(does, left, last, right, behind, more, tally):
    """A fault in the rows is told as `radixjoin` tells it."""
    with harness.folder() as place:
        folder = pathlib.Path(place)
        rows = "".join(f'{number % 7},"a\n{number}"\n' for number in range(20))
        words = cluster_runs.write(folder, f"k,a\n{rows}{left}{rows}{last}", f"k,b\n1,x\n{right}2,y\n{behind}")
        words += cluster_runs.with_join(more)
        wanted = harness.run([harness.program("radixjoin"), *words], folder)
        ran, runs, are_shards = joined(does(), words, folder, 4)
        faults = harness.differences(ran, wanted.stdout, wanted.stderr, wanted.status)
        # (where unmatched right rows are written all right rows are looked at before a run begins)
        are_begun = runs > 1 or cluster_runs.FULL_JOIN in more and bool(right)
        faults += [] if are_begun and are_shards and wanted.status == 3 else [f"{runs} left runs, and shards: {are_shards}"]
        tally.check(f"cluster_broadcast: {left!r}, {last!r}, {right!r}, {behind!r} {more}", faults)


def run_faults(does, cases, tally):
    harness.side_by_side(tally, [lambda own, it=it: run_faulty(does, *it, own) for it in cases])


def run_without_processes(tally):
    """What a cluster without processes will have of memory isn't known, so that it is done in shards."""
    with harness.folder() as place:
        folder = pathlib.Path(place)
        words = [*cluster_runs.write(folder, "k,a\n1,x\n2,z\n", "k,b\n1,y\n"), "--join=LEFT JOIN USING (k)"]
        wanted = harness.run([harness.program("radixjoin"), *words], folder)
        for number, means in ((0, (0, True)), (1, (1, False))):
            on = Tasks(number)
            with mock.patch.object(on, "tasks_at_once", lambda: 1):
                ran, *got = joined(on, words, folder, 1)
            faults = harness.differences(ran, wanted.stdout, wanted.stderr, wanted.status) + ([] if tuple(got) == means else [f"{got}"])
            tally.check(f"cluster_broadcast: by {number} processes", faults)


def run_full(tally):
    """The folder for what is half made, or the result, on disks that are full, and not."""
    with harness.folder() as name:
        folder, place = pathlib.Path(name), pathlib.Path(name, "disk")
        rows = [f"{number},{'x' * 30}\n" for number in range(20_000)]
        words = [*cluster_runs.write(folder, "k,a\n" + "".join(rows), "k,b\n" + "".join(rows[::3])), "--join=LEFT JOIN USING (k)"]
        wanted = harness.run([harness.program("radixjoin"), *words], folder)
        for size, option, is_full in ((64, "result", True), (900, "result", True), (4_096, "result", False), (128, "scratch", True), (900, "scratch", True), (4_096, "scratch", False)):
            with harness.disk(place, size) as is_mounted:
                if not is_mounted:
                    print("cluster_broadcast: full disks are left out, since no small file system can be mounted")
                    return
                out, scratch = (place / "out.csv", folder) if option == "result" else (folder / "out.csv", place)
                unwritten = out.resolve() if option == "result" else place.resolve()
                told = harness.Ran(6, b"", f'radixjoin-cluster: E20 WriteDevice "{unwritten}": {cluster_ends.NO_ROOM}\n'.encode()) if is_full else wanted
                on = Tasks(4)
                memory = cluster_runs.memory_for(folder, 4)
                ran = shards.joined([*words, f"--memory={memory}", "--workers=2", "--scratch", scratch], folder, 1, out, cluster=lambda _, on=on: on)
                faults = harness.differences(ran, told.stdout, told.stderr, told.status) + ([] if on.runs() == (4, False) else [f"{on.runs()}"])
                tally.check(f"cluster_broadcast: {option} on a disk of {size} KiB", faults + [f"{it} was left behind" for it in place.iterdir() if it.name != "out.csv"])
                out.unlink(missing_ok=True)


def large_tables(folder):
    """Two small tables for several runs, with rows that are in no match, and the words that name them."""
    left = "".join(f'{number % 60},"{number}\n"\n' for number in range(120))
    return cluster_runs.write(folder, f"k,a\n{left}", "k,b\n" + "".join(f"{number},b\n" for number in range(30, 70)))


class Dying(Noted, cluster_killed.Notes):
    """A cluster that notes in which kind of tasks a process is killed."""


def run_dying(client, file, name, count, kind, tally):
    """A process is killed behind a call of a function, once."""
    with harness.folder() as place, harness.folder() as flags:
        folder, flag = pathlib.Path(place), pathlib.Path(flags, "flag")
        is_without = (file, name, count, kind) in WITHOUT_RIGHT
        words = [*large_tables(folder), f"--join={'LEFT' if is_without else 'FULL'} JOIN USING (k)"]
        wanted = harness.run([harness.program("radixjoin"), *words], folder)
        with mock.patch.object(sending, "sources", functools.partial(cluster_killed.dying, file, name, count, flag)):
            on = Dying(client, flag)
            ran, runs, are_shards = joined(on, words, folder, 4)
        faults = harness.differences(ran, wanted.stdout, wanted.stderr, wanted.status)
        faults += [] if (on.kinds, runs, are_shards) == ({kind}, 4, False) else [f"killed in {on.kinds}, {runs} left runs, and shards: {are_shards}"]
        tally.check(f"cluster_broadcast: a process is killed behind call {count} of {name}", faults)


def run_killed_each_time(client, tally):
    """The process of each left run is killed each time, until Dask bears it no more: shards follow."""
    with harness.folder() as place:
        folder = pathlib.Path(place)
        words = [*large_tables(folder), "--join=LEFT JOIN USING (k)"]
        wanted = harness.run([harness.program("radixjoin"), *words], folder)
        programs = cluster_ends.programs_in(folder / "programs", "radixjoin", cluster_ends.KILLS, is_once=False, step=STEP)
        ran, runs, are_shards = joined(Cluster(client, False), words, folder, 4, f"--programs={programs}")
        faults = harness.differences(ran, wanted.stdout, wanted.stderr, wanted.status)
        faults += [] if (runs, are_shards) == (4, True) else [f"{runs} left runs, and shards: {are_shards}"]
        tally.check("cluster_broadcast: the processes of runs are killed each time", faults)


def run_script(address, tally):
    """The script joins by the processes of a cluster, as `shards` cuts the file: it shows the plan and each run on a terminal."""
    with harness.folder() as place:
        folder = pathlib.Path(place)
        words = cluster_runs.write_large(folder)
        wanted = harness.run([harness.program("radixjoin"), *words], folder)
        programs = cluster_memory.programs_of_one_run(folder / "programs", ":")
        known = {it.name for it in folder.iterdir()} | {"stdout"}
        line = [sys.executable, cluster.SCRIPT, *words, "--programs", programs, "--out", "out.csv", "--progress", "--scheduler", address, *LARGE]
        shown = cluster_manners.on_terminal(line, folder)
        _, told = cluster_manners.dashboard_in(shown.stderr)
        plan, rest = cluster_manners.plan_in(told)
        lines, last = progress.lines_of(rest)
        faults = [] if plan == "4 left runs, 4 at a time, in about 5 of 48 MiB of memory of each process" else [f"the plan is {plan}"]
        faults += cluster_manners.faults_of_lines(lines) + ([harness.shorten(last)] if last else [])
        faults += [f"there is no {it}" for it in (b"joining, 2 of 4", b"putting the result together, 0 of 1") if b"radixjoin-cluster: %b tasks" % it not in lines]
        faults += ["it is done in shards"] if (programs / "merges.ran").exists() else []
        ran = types.SimpleNamespace(returncode=shown.status, stderr=b"")
        tally.check("cluster_broadcast: the script", faults + cluster.faults_of_run(ran, folder, known, wanted))


def run_sent(client, tally):
    """What is sent for a run, for all right rows, and to put all together, is small."""
    with harness.folder() as place:
        folder = pathlib.Path(place)
        large = cluster_runs.write_large(folder)
        for kind, further in (("LEFT", set()), ("FULL", {"number_right"})):
            words = [word.replace("LEFT", kind) for word in large]
            wanted = harness.run([harness.program("radixjoin"), *words], folder)
            on = cluster_sent.Cluster(client)
            ran = shards.joined([*words, *LARGE], folder, 1, cluster=lambda _, on=on: on)
            faults = harness.differences(ran, wanted.stdout, wanted.stderr, wanted.status)
            faults += [] if {*on.kinds} == {"cuts_of", "join_part", "put_parts", *further} else [f"{[*on.kinds]}"]
            faults += [f"{kind} has {size} bytes, {own} of its own words" for kind, sizes in on.kinds.items() for size, own in sizes if own > MOST or size - own > cluster_sent.MOST]
            faults += [f"{kind} is shown as {names}" for kind, names in on.steps.items() if names != {tasks.STEPS[kind].replace(" ", "-")}]
            tally.check(f"cluster_broadcast: what is sent for a {kind} JOIN", faults)


def run_here(tally):
    """What needs no Dask."""
    with cluster_runs.patched():
        for seeds, does in ((range(1_000, 1_030), lambda: Tasks(4)), (range(2_000, 2_010), lambda: Twice(3)), (range(3_000, 3_005), lambda: Tasks(1))):
            run_random(does, seeds, tally)
        run_tables(lambda: Twice(2), tally)
        run_all_unmatched(lambda: Twice(3), tally)
        run_faults(lambda: Tasks(4), cluster_runs.FAULTY[::2], tally)
        run_given_up(tally)
        run_without_processes(tally)
    with cluster_runs.patched(), mock.patch.object(text, "_LAST", 1 << 16):
        run_full(tally)


def run_by(client, seeds, tally):
    """What is done by Dask."""
    with cluster_runs.patched(), mock.patch.object(sending, "sources", small):
        run_random(lambda: Cluster(client, False), seeds, tally)
        run_ends(lambda: Cluster(client, False), tally)
        run_right_ends(lambda: Cluster(client, False), tally)
        run_faults(lambda: Cluster(client, False), cluster_runs.FAULTY[1::4], tally)
        for case in DIES:
            run_dying(client, *case, tally)
        run_killed_each_time(client, tally)
    run_sent(client, tally)
    run_script(client.scheduler_info()["address"], tally)


def run_all(tally):
    run_here(tally)
    if python := harness.python_with_dask("cluster_broadcast", "tomllib"):
        harness.run_script(tally, python, [__file__], SECONDS)


def main(words):
    tally = harness.Tally()
    runs, first = [*map(int, words), *(RUNS, 0)[len(words) :]]
    with cluster_killed.client_of(PROCESSES, threads=THREADS) as client:
        run_by(client, range(first, first + runs), tally)
    print(f"{tally.passed} passed, {tally.failed} failed")
    return 1 if tally.failed else 0


if __name__ == "__main__":
    sys.exit(main(sys.argv[1:]))
