"""The manners of cluster/radixjoin-cluster: its version, the two names of the result's option, and faults of the command line in one line;
what it tells before Dask is loaded, of the command line, the result's place, the headers and the clause; and how a join is planned and how
far it is, which is shown on a terminal and nowhere else.

The last needs Dask for a cluster, as tests/cluster.py does."""
import os
import pathlib
import re
import subprocess
import sys

import cluster
import cluster_sent
import harness
import progress
import shards

from radixjoin import tasks

# Two files, and the options that join them.
FILES = {"left.csv": b"k,a\n1,x\n", "right.csv": b"k,b\n1,y\n", "wide.csv": b",".join(b"c%d" % number for number in range(256)), "taken.csv": b"k,Left_Place\n"}
GOOD = {"left": "left.csv", "right": "right.csv", "left-types": "k=int,*=text", "right-types": "k=int,*=text", "join": "FULL JOIN USING (k)", "output": "out.csv"}
# What stands in Dask's place.
NO_DASK = "raise ImportError(\"No module named 'distributed'\")\n"
# What is wrong in a command line: options, words behind them, and what is told of it.
LINES = (
    ({}, [], "the following arguments are required: --left, --right, --left-types, --right-types, --join, --output/--out"),
    (GOOD, ["--nul=x"], "unrecognized arguments: --nul=x"),
    (GOOD, ["--parts=many"], "argument --parts: invalid int value: 'many'"),
    (GOOD, ["--parts=0"], "--parts is from 1 to 1024"),
    (GOOD, ["--memory=many"], "argument --memory: 'many' is no size, as 500M or 8G"),
    (GOOD, ["--memory=1T"], "argument --memory: '1T' is no size, as 500M or 8G"),
    (GOOD, ["--memory=-1"], "argument --memory: '-1' is no size, as 500M or 8G"),
    (GOOD, ["--memory="], "argument --memory: '' is no size, as 500M or 8G"),
    (GOOD, ["--memory=0G"], "--memory is from 1 to 1152921504606846976"),
    (GOOD, ["--memory=1073741825G"], "--memory is from 1 to 1152921504606846976"),
    (GOOD, ["--memory=1G", "--memory=2G"], "--memory can be given once"),
    (GOOD, ["--address-space=1.5G"], "argument --address-space: '1.5G' is no size, as 500M or 8G"),
    (GOOD, ["--address-space=0"], "--address-space is from 1 to 1152921504606846976"),
    (GOOD, ["--output=out.csv"], "--output can be given once"),
    (GOOD, ["--out=other.csv"], "--out is --output, which can be given once"),
    (GOOD, ["-d", "tab", "--delimiter=;"], "--delimiter can be given once"),
    (GOOD, ["-d;", "-d;"], "--delimiter can be given once"),
    (GOOD, ["--out-delimiter=;", "--out-delimiter", ";"], "--out-delimiter can be given once"),
    ({**GOOD, "output": "-"}, [], "--output: the result can't be standard output, give a file"),
)
# What is told as `radixjoin` tells it: options, and the content of a file.
AS_ALONE = (
    ({"join": "JOIN USING (q)"}, {}),
    ({"join": "JOIN USING (q)", "explain": ""}, {}),
    ({"join": "LEFT JOIN ON L.k = R.k AND", "explain": ""}, {}),
    ({"join": "JOIN ON L.k = R.b", "explain": ""}, {}),
    ({"left-types": "int", "explain": ""}, {}),
    ({"right-types": "k=int,q=text,*=text"}, {}),
    ({"right-types": "int,string"}, {}),
    ({"bits1": "99"}, {}),
    ({"out-null": "1"}, {}),
    ({"right": "none.csv"}, {"left.csv": b"k,k\n"}),
    ({"strict": ""}, {"right.csv": b'k,"b"x\n1,y\n'}),
    ({}, {"right.csv": b""}),
    ({"delimiter": "ab"}, {}),
    ({"left-delimiter": "7", "delimiter": ";", "left": "none.csv", "explain": ""}, {}),
    ({"out-delimiter": '"', "explain": ""}, {}),
    ({"explain": ""}, {"left.csv": b"k;a\n1;x\n"}),
    ({"right-delimiter": "tab", "explain": ""}, {}),
)
# What the script tells itself, or before what `radixjoin` tells of the rows: options, the content of a file, the status and the line.
ITS_OWN = (
    ({"join": "JOIN USING (q)"}, {"left.csv": b"k,a\nno number,x\n"}, 4, "radixjoin: E13 UnknownColumn"),
    ({"join": "CROSS JOIN"}, {}, 4, shards.NO_KEY),
    ({"right": "wide.csv", "right-types": "*=text", "join": "JOIN ON a = c7"}, {}, 3, "radixjoin: E9 TooManyColumns right"),
    ({"left": "taken.csv"}, {}, 3, "radixjoin-cluster: the left file has a column Left_Place, which is the name of a column of places: rename it"),
    ({"left": "none.csv", "explain": ""}, {}, 6, "radixjoin: E19 ReadDevice left\n  FOLDER/none.csv: No such file or directory"),
    ({"strict": "", "explain": ""}, {"left.csv": b'k,"a"x\n1,y\n'}, 3, "radixjoin: E22 AfterQuote left row 0 column 2\n  in the header"),
    ({"output": "none/out.csv", "scratch": "."}, {}, 6, 'radixjoin-cluster: E20 WriteDevice "FOLDER/none/out.csv": No such file or directory'),
    ({"scheduler": "tcp://127.0.0.1:9"}, {}, 1, "radixjoin-cluster: No module named 'distributed'"),
)


def words_of(options):
    """The words that give options these values, or none."""
    return [f"--{name}={value}" if value else f"--{name}" for name, value in options.items()]


def run_lines(tally):
    """The version, and faults of the command line."""
    wanted = harness.run([harness.program("radixjoin"), "--version"], harness.ROOT)
    for option in ("--version", "-V"):
        ran = harness.run([sys.executable, cluster.SCRIPT, option], harness.ROOT)
        tally.check(f"cluster_manners: {option}", harness.differences(ran, wanted.stdout.replace(b"radixjoin", b"radixjoin-cluster"), wanted.stderr, wanted.status))
    for options, more, told in LINES:
        ran = harness.run([sys.executable, cluster.SCRIPT, *words_of(options), *more], harness.ROOT)
        tally.check(f"cluster_manners: {told}", harness.differences(ran, b"", f"radixjoin-cluster: {told}\n".encode(), 2))


def run_early(own, options, contents, told=None):
    """What is told where there is no Dask: a status and a line, or else what `radixjoin` tells. Nothing is left behind."""
    with harness.folder() as place:
        folder = pathlib.Path(place).resolve()
        for name, content in {**FILES, **contents}.items():
            (folder / name).write_bytes(content)
        (folder / "distributed.py").write_text(NO_DASK)
        for name in ("radixjoin", "shards", "merges"):
            (folder / name).symlink_to(harness.program(name))
        known, words = {it.name for it in folder.iterdir()}, words_of({**GOOD, **options})
        wanted = harness.Ran(told[0], b"", f"{told[1]}\n".replace("FOLDER", str(folder)).encode()) if told else harness.run([harness.program("radixjoin"), *words], folder)
        how = {**os.environ, "PYTHONPATH": str(folder), "PYTHONDONTWRITEBYTECODE": "1"}
        ran = harness.run([sys.executable, cluster.SCRIPT, *words, "--programs", folder], folder, environment=how)
        faults = harness.differences(ran, b"", wanted.stderr, wanted.status) + ([] if wanted.status else ["there is no fault"])
        left = sorted(it.name for it in folder.iterdir() if it.name not in known)
        own.check(f"cluster_manners: before Dask, {options} {contents}", faults + [f"{name} was left behind" for name in left])


def on_terminal(words, folder):
    """A run whose standard error is a terminal."""
    terminal = progress.Terminal()
    with open(folder / "stdout", "wb") as stdout:
        running = subprocess.Popen([str(word) for word in words], cwd=folder, stdin=subprocess.DEVNULL, stdout=stdout, stderr=terminal.far)
    terminal.begin()
    status = running.wait(cluster.SECONDS)
    return harness.Ran(status, (folder / "stdout").read_bytes(), terminal.end())


def faults_of_lines(lines):
    """What isn't as it has to be of lines that were shown: each step begins with none of its tasks, and goes on one by one to all."""
    found = [re.fullmatch(r"radixjoin-cluster: (.+), (\d+) of (\d+) tasks", line.decode()) for line in lines]
    faults = [f"no such line: {line}" for line, it in zip(lines, found) if it is None]
    steps = [(it[1], int(it[2]), int(it[3])) for it in found if it]
    for (name, done, count), behind in zip(steps, [*steps[1:], ("", 0, 0)]):
        goes_on = behind[1] == 0 if done == count else behind == (name, done + 1, count)
        faults += [] if goes_on else [f"{behind} behind {name}, {done} of {count}"]
    return faults


def dashboard_in(told):
    """The address of Dask's dashboard that is told first on a terminal, if one is, and what is told behind it."""
    found = re.match(rb"radixjoin-cluster: the dashboard is at (http://\S+:\d+/status)\r?\n", told)
    return (found[1], told[found.end() :]) if found else (None, told)


def plan_in(told):
    """What is told of the plan at the beginning, and what behind it."""
    found = re.match(rb"radixjoin-cluster: the plan is ([^\r\n]+)\r?\n", told)
    return (found[1].decode(), told[found.end() :]) if found else (None, told)


def run_steps(on, tally):
    """Each step is shown, whoever does its tasks."""
    shown = harness.side_by_side(tally, [lambda own, more=more: run_shown(on, more, own) for more in cluster_sent.WAYS])
    lacking = {*tasks.STEPS.values()} - {name for names in shown for name in names}
    tally.check(f"cluster_manners: each step is shown {on.title}", [f"no line of {name}" for name in lacking])


def run_shown(on, more, tally):
    """A join in a pipe, and on a terminal, where it is shown and taken away. It gives the steps that are shown."""
    with harness.folder() as place:
        folder = pathlib.Path(place)
        words = [*cluster_sent.write_tables(folder), *more]
        wanted = harness.run([harness.program("radixjoin"), *cluster_sent.alone(words)], folder)
        line = on.words(words, "--progress")
        piped = harness.run(line, folder)
        tally.check(f"cluster_manners: in a pipe {more} {on.title}", harness.differences(piped, b"", wanted.stderr, wanted.status))
        shown = on_terminal(line, folder)
        dashboard, told = dashboard_in(shown.stderr)
        plan, told = plan_in(told)
        lines, rest = progress.lines_of(told)
        result = (folder / "out.csv").read_bytes() if shown.status == 0 else b""
        faults = harness.differences(harness.Ran(shown.status, result, rest), wanted.stdout, wanted.stderr, wanted.status) + faults_of_lines(lines)
        faults += [] if plan == "2 shards, 3 at a time" else [f"the plan is {plan}"]
        faults += [] if bool(dashboard) == (on.title == cluster.Cluster.title) else [f"the dashboard is {dashboard}"]
        tally.check(f"cluster_manners: on a terminal {more} {on.title}", faults + ([shown.stdout] if shown.stdout else []))
        return {line.decode().removeprefix("radixjoin-cluster: ").rpartition(",")[0] for line in lines}


def run_all(tally):
    run_lines(tally)
    cases = [*AS_ALONE, *((options, contents, told) for options, contents, *told in ITS_OWN)]
    harness.side_by_side(tally, [lambda own, it=it: run_early(own, *it) for it in cases])
    tally.check("cluster_manners: kinds of tasks", [] if {*tasks.STEPS} == {*cluster_sent.KINDS, "add_right", "join_part", "join_run", "join_whole", "number_right", "put_parts"} else [f"{sorted(tasks.STEPS)}"])
    with harness.folder() as programs:
        run_steps(cluster.Machine(programs), tally)
    python = harness.python_with_dask("cluster_manners")
    if python is None:
        return
    with harness.folder() as programs:
        on = cluster.Cluster(python, programs)
        try:
            run_steps(on, tally)
        finally:
            on.close()
