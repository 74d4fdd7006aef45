"""A process of a Dask cluster that is much slower than the others while it looks for cuts, divides, joins or merges: its program sleeps, or
it is stopped (SIGSTOP) and goes on two seconds later. And one that is stopped for so long that Dask takes it for lost and has another
one do its task: it goes on while that is done, or when the whole join is over, which doesn't wait for it. The bytes are those of
`radixjoin`, the join is over soon after the slow process went on, and nothing is left behind, then and when its task has ended.

It needs Dask, as tests/cluster.py does; without arguments it runs by a Python that has it, and with one by its own. The last line is
'N passed, M failed'."""
import os
import pathlib
import sys
import time

import cluster
import cluster_ends
import cluster_killed
import harness
import shards

from radixjoin import sending

SECONDS = 600
PROCESSES = 5
# The seconds that a process is slow, and those within which all has to be over then.
PAUSE, SOON = 2, 20
WAYS = {
    "a program that sleeps": f'sleep {PAUSE}; touch "$0.on"',
    "a process that is stopped": f'kill -STOP $PPID; sleep {PAUSE}; kill -CONT $PPID; touch "$0.on"',
}
# A program, a text that its words have in a task that may be slow, and further options.
STEPS = (
    ("shards", "--cuts ", []),
    ("shards", "--out ", []),
    ("radixjoin", "=/dev/fd/", []),
    ("merges", "--order=", []),
    ("merges", "--order=", ["--merges", "3"]),
)
# The file that a process waits for before it goes on, a program, a text that its words have in one task alone, whoever does it, and further
# options.
TWICE = (
    ("again", "shards", "left-0.", []),
    ("over", "shards", "left-0.", []),
    ("again", "radixjoin", "=/dev/fd/", ["--parts", "1"]),
    ("over", "radixjoin", "=/dev/fd/", ["--parts", "1"]),
    ("again", "merges", "--from=0", ["--merges", "2"]),
    ("over", "merges", "--order=", ["--merges", "1"]),
)
# A process tells its number and is stopped until a file is there; the second one to do its task tells that it has begun, and waits.
STOPS = 'echo $PPID > "$0.number"; kill -STOP $PPID; for n in $(seq 600); do [ -e "$0.{until}" ] && break; sleep 0.1; done; kill -CONT $PPID; touch "$0.on"'
AGAIN = 'touch "$0.again"; sleep 0.4'
# Dask takes a process for lost that it hasn't heard of for so long and as long as ten of its messages take, which is five seconds.
LOST = {"distributed.scheduler.worker-ttl": "200ms"}


def ran(client, words, folder, programs, more):
    """A join by the processes of a client, and how it ended."""
    parts = [] if "--parts" in more else ["--parts", "3"]
    words = [*words, *parts, "--ranges", "2", *more, "--programs", programs]
    return cluster_killed.joined(words, folder, sending.Cluster(client, False))


def run_slow(client, way, name, text, more, tally):
    """A process that is slow once, for some seconds."""
    with harness.folder() as place:
        folder = pathlib.Path(place)
        words = cluster_ends.write_tables(folder)
        programs = cluster_ends.programs_in(folder / "slow", name, WAYS[way], step=text)
        wanted = harness.run([harness.program("radixjoin"), *words], folder)
        ended = ran(client, words, folder, programs, more)
        on = programs / f"{name}.on"
        faults = harness.differences(ended, wanted.stdout, wanted.stderr, wanted.status)
        faults += [] if on.exists() and time.time() - on.stat().st_mtime < SOON else ["it isn't over soon after the process goes on"]
        tally.check(f"cluster_slow: {way}, {name} {text}.. {more}", faults)


def is_gone(path):
    """Whether the process ends whose number stands in a file, as one does that Dask took for lost, when its task is done."""
    until = time.monotonic() + cluster.SECONDS
    while path.exists() and time.monotonic() < until:
        if not os.path.exists(f"/proc/{int(path.read_text())}"):
            return True
        time.sleep(0.05)
    return False


def run_twice(client, until, name, text, more, tally):
    """A process is stopped until another one has begun with its task, or until the join is over."""
    with harness.folder() as place:
        folder = pathlib.Path(place)
        words = cluster_ends.write_tables(folder)
        programs = cluster_ends.programs_in(folder / "slow", name, STOPS.format(until=until), step=text, again=AGAIN)
        known = {it.name for it in folder.iterdir()}
        wanted = harness.run([harness.program("radixjoin"), *words], folder)
        ended = ran(client, words, folder, programs, more)
        faults = harness.differences(ended, wanted.stdout, wanted.stderr, wanted.status)
        faults += [] if (programs / f"{name}.again").exists() else ["no other process does the task"]
        faults += ["the join waits for the process"] if until == "over" and (programs / f"{name}.on").exists() else []
        (programs / f"{name}.over").touch()
        faults += [] if is_gone(programs / f"{name}.number") else ["the process doesn't end"]
        last = (folder / "out.csv").read_bytes() if (folder / "out.csv").exists() else None
        faults += [f"{it} was left behind at last" for it in cluster.left_behind(folder, known)] + ([] if last == ended.stdout else ["out.csv was changed at last"])
        tally.check(f"cluster_slow: a process is taken for lost, until {until}, {name} {text}.. {more}", faults)


def run_by(tally):
    """The tests, those of either kind side by side in one cluster."""
    slow = [(way, *step) for way in WAYS for step in STEPS]
    with cluster_killed.client_of(PROCESSES) as client:
        harness.side_by_side(tally, [lambda own, it=it: run_slow(client, *it, own) for it in slow], PROCESSES - 1)
    # (each of these takes a process away)
    with cluster_killed.client_of(len(TWICE) + 2, LOST) as client:
        harness.side_by_side(tally, [lambda own, it=it: run_twice(client, *it, own) for it in TWICE], len(TWICE))


def run_all(tally):
    if python := harness.python_with_dask("cluster_slow", "tomllib"):
        harness.run_script(tally, python, [__file__, "here"], SECONDS)


if __name__ == "__main__":
    sys.exit(harness.end_of_script(sys.argv[1:], run_by, run_all))
