"""How runs of cluster/radixjoin-cluster end where something goes wrong beside the tables: a program, or a process of a cluster, is killed
while it divides, joins or merges; the script is told to end; the folder for what is half made, or that of the result, is full; the
result can't be renamed. The result is there whole or not at all, what stood there before stays, and nothing is left.

What is done on a cluster needs Dask, as tests/cluster.py does."""
import os
import pathlib
import signal
import subprocess
import sys
import time

import cluster
import harness
import shards

# For each program a text that its words have where a task runs it, and not before.
STEPS = {"shards": "--out ", "radixjoin": "=/dev/fd/", "merges": "--order="}
# What a program does in place of its work: it tells its process's number, or that of the process that began it, and waits for a signal;
# or it is ended by one.
WAITS = 'echo {} > "$0.number.new" && mv "$0.number.new" "$0.number"; exec sleep 60'
IS_KILLED = "kill -9 $$"
# The process that runs the program is killed: each time, or three times, which Dask bears.
KILLS = "kill -9 $PPID; exec sleep 60"
KILLS_THREE = 'for n in 1 2 3; do mkdir "$0.$n" 2>/dev/null && { kill -9 $PPID; exec sleep 60; }; done; true'
# The program is killed twice.
IS_KILLED_TWICE = f'for n in once twice; do mkdir "$0.$n" 2>/dev/null && {IS_KILLED}; done; true'
# The tasks in which programs are killed, by further options.
KILLED = (*((name, []) for name in STEPS), ("merges", ["--merges", "3"]), ("radixjoin", ["--spread", "40000"]))
ROWS = 4_000
CLAUSE = ["--join", "FULL JOIN USING (k)"]
NO_ROOM = "it can't be written, or there is no room"


def write_tables(folder, rows=ROWS):
    """Writes two tables, and gives the words that name them."""
    words = []
    for side, name in (("left", "a"), ("right", "b")):
        lines = (f"{at * 7919 % rows},{'x' * (at % 40)}\n" for at in range(rows))
        (folder / f"{side}.csv").write_text(f"k,{name}\n" + "".join(lines))
        words += [f"--{side}", f"{folder}/{side}.csv", f"--{side}-types", "int,text"]
    return [*words, *CLAUSE]


def programs_in(folder, name, does, is_once=True, step=None, again=":"):
    """A folder of the programs, of which one does something else, the first time that a task runs it, or each time: with words that have a
    text, where one is given. Each further time it may do something too."""
    folder.mkdir()
    for it in STEPS:
        (folder / it).symlink_to(harness.program(it))
    (folder / name).unlink()
    once = 'mkdir "$0.once" 2>/dev/null' if is_once else "true"
    script = f'#!/bin/sh\ncase "$*" in *"{step or STEPS[name]}"*) if {once}; then {does}; else {again}; fi;; esac\nexec "{harness.program(name)}" "$@"\n'
    # (Another process writes it. A program that a thread of this one starts meanwhile would hold it open, and it couldn't be run.)
    subprocess.run(["sh", "-c", 'cat > "$0" && chmod 755 "$0"', folder / name], input=script.encode(), check=True)
    return folder


def begun(python, words, folder, *more, environment=None):
    """Starts the script."""
    words = [python, cluster.SCRIPT, *words, *([] if {"--parts", "--memory"} & {*more} else ["--parts", "3"]), *([] if "--out" in more else ["--out", "out.csv"]), *more]
    # (these tests may be run by nohup, which has the script go on when its terminal is gone)
    how = {"stdin": subprocess.DEVNULL, "stdout": subprocess.DEVNULL, "stderr": subprocess.PIPE, "env": environment, "preexec_fn": lambda: signal.signal(signal.SIGHUP, signal.SIG_DFL), "start_new_session": True}
    return subprocess.Popen([str(word) for word in words], cwd=folder, **how)


def number_in(programs, name):
    """The number that a program tells, once it waits; None where it never does."""
    path, until = programs / f"{name}.number", time.monotonic() + cluster.SECONDS
    while time.monotonic() < until:
        if path.exists():
            return int(path.read_text())
        time.sleep(0.01)
    return None


def state_and_session(process):
    """The state of a process and the number of its session, by its folder in /proc; of none if it has gone."""
    try:
        it = (process / "stat").read_text().rpartition(")")[2].split()
    except (FileNotFoundError, ProcessLookupError):
        return "Z", 0
    return it[0], int(it[3])


def goes_on(session):
    """The processes of a session that don't end soon. (What a shell has begun goes on for a moment where the shell is killed: its mkdir still
    makes a folder.)"""
    until = time.monotonic() + cluster.SECONDS
    while True:
        states = {it.name: state_and_session(it) for it in pathlib.Path("/proc").glob("[0-9]*")}
        found = [number for number, (state, its) in states.items() if its == session and state != "Z"]
        if not found or time.monotonic() > until:
            return found
        time.sleep(0.05)


def run_process_killed(on, name, more, tally):
    """A process of the cluster is killed while one of its programs runs."""
    with harness.folder() as place:
        folder = pathlib.Path(place)
        words = write_tables(folder)
        wanted = harness.run([harness.program("radixjoin"), *words], folder)
        programs = programs_in(folder / "waits", name, WAITS.format("$PPID"))
        known = {it.name for it in folder.iterdir()}
        running = begun(on.python, words, folder, *on.where, *more, "--programs", programs)
        number = number_in(programs, name)
        if number is not None:
            os.kill(number, signal.SIGKILL)
        faults = cluster.faults_of_run(cluster.ended(running), folder, known, wanted)
        tally.check(f"cluster_ends: a process that runs {name} {more} is killed", faults + ([] if number else ["there was none to kill"]))


def run_process_killed_three_times(on, name, tally):
    """The process that does a task is killed three times, which Dask bears: the join goes on each time."""
    with harness.folder() as place:
        folder = pathlib.Path(place)
        words = write_tables(folder)
        wanted = harness.run([harness.program("radixjoin"), *words], folder)
        programs = programs_in(folder / "kills", name, KILLS_THREE, is_once=False)
        known = {it.name for it in folder.iterdir()}
        ran = cluster.ended(begun(on.python, words, folder, *on.where, "--programs", programs))
        faults = cluster.faults_of_run(ran, folder, known, wanted) + ([] if (programs / f"{name}.3").exists() else ["it isn't killed three times"])
        tally.check(f"cluster_ends: the process that runs {name} is killed three times", faults)


def run_process_killed_each_time(on, tally):
    """The process that does a task is killed each time: Dask tells it when it has borne it often enough."""
    with harness.folder() as place:
        folder = pathlib.Path(place)
        words = write_tables(folder)
        programs = programs_in(folder / "kills", "radixjoin", KILLS, is_once=False)
        known = {it.name for it in folder.iterdir()}
        ran = cluster.ended(begun(on.python, words, folder, *on.where, "--programs", programs))
        faults = cluster.faults_of_run(ran, folder, known, harness.Ran(1, b"", ran.stderr))
        is_told = ran.stderr.startswith(b"radixjoin-cluster: KilledWorker: ")
        tally.check("cluster_ends: the process is killed each time", faults + ([] if is_told else [harness.shorten(ran.stderr)]))


def run_killed(on, name, more, tally):
    """A program is killed: once, so that its task runs again, as often as that is done, and each time."""
    with harness.folder() as place:
        folder = pathlib.Path(place)
        words = write_tables(folder)
        wanted = harness.run([harness.program("radixjoin"), *words], folder)
        told = harness.Ran(1, b"", f"radixjoin-cluster: {name} was ended by signal 9\n".encode())
        known = {it.name for it in folder.iterdir()} | {"once", "twice", "always"}
        for title, does, is_once, end in (("once", IS_KILLED, True, wanted), ("twice", IS_KILLED_TWICE, False, wanted), ("always", IS_KILLED, False, told)):
            programs = programs_in(folder / title, name, does, is_once)
            ran = cluster.ended(begun(on.python, words, folder, *on.where, *more, "--programs", programs))
            faults = cluster.faults_of_run(ran, folder, known, end)
            faults += [] if title == "always" or list(programs.glob(f"{name}.{title}")) else ["it wasn't"]
            tally.check(f"cluster_ends: {name} {more} is killed {title}, {on.title}", faults)
            (folder / "out.csv").unlink(missing_ok=True)


def run_told_to_end(python, name, number, again, tally):
    """The script is told to end while a program runs, and once more while it ends, by the same signal or another one: what stood at the
    result's place stays, and no program goes on."""
    with harness.folder() as place:
        folder = pathlib.Path(place)
        words = write_tables(folder)
        programs = programs_in(folder / "waits", name, WAITS.format("$$"))
        (folder / "out.csv").write_text("before")
        known = {it.name for it in folder.iterdir()}
        running = begun(python, words, folder, "--processes", "2", "--programs", programs)
        runs = number_in(programs, name)
        running.send_signal(number)
        time.sleep(0.05)
        running.send_signal(again)
        ran = cluster.ended(running)
        faults = [] if runs else [f"{name} didn't run"]
        faults += [f"{it} goes on" for it in goes_on(running.pid)]
        faults += harness.differences(harness.Ran(ran.returncode, b"", ran.stderr), b"", b"", 128 + number)
        faults += [] if (folder / "out.csv").read_text() == "before" else ["out.csv is another one"]
        faults += [f"{it} was left behind" for it in cluster.left_behind(folder, known)]
        tally.check(f"cluster_ends: told to end by {number.name} while {name} runs, and by {again.name}", faults)


def run_output(on, tally):
    """A result that can't be written: it is told before anything is done, or, where it shows later, at the end."""
    with harness.folder() as place:
        folder = pathlib.Path(place)
        words = write_tables(folder)
        how = [*on.where, "--programs"]
        late = programs_in(folder / "late", "merges", "mkdir out.csv")
        (folder / "late" / "merges").write_text((folder / "late" / "merges").read_text().replace("mkdir out.csv", f"mkdir {folder}/out.csv"))
        known = {it.name for it in folder.iterdir()} | {"out.csv"}
        line = f'radixjoin-cluster: E20 WriteDevice "{folder.resolve()}/out.csv": Is a directory\n'
        for name, programs in (("while it is merged", late), ("before", on.programs)):
            ran = cluster.ended(begun(on.python, words, folder, *how, programs))
            faults = harness.differences(harness.Ran(ran.returncode, b"", ran.stderr), b"", line.encode(), 6)
            faults += [f"{it} was left behind" for it in cluster.left_behind(folder, known)]
            tally.check(f"cluster_ends: the result is a folder {name}, {on.title}", faults + [f"{it} is in it" for it in (folder / "out.csv").iterdir()])
        for option in ("--out", "--scratch"):
            missing = folder / "missing" / "out.csv" if option == "--out" else folder / "missing"
            ran = cluster.ended(begun(on.python, words, folder, *how, on.programs, *(["--out", missing, "--scratch", folder] if option == "--out" else ["--out", "new.csv", "--scratch", missing])))
            line = f'radixjoin-cluster: E20 WriteDevice "{missing.resolve()}": No such file or directory\n'
            faults = harness.differences(harness.Ran(ran.returncode, b"", ran.stderr), b"", line.encode(), 6)
            tally.check(f"cluster_ends: {option} in no folder, {on.title}", faults + [f"{it} was left behind" for it in cluster.left_behind(folder, known)])
        os.mkfifo(folder / "pipe")
        ran = cluster.ended(begun(on.python, words, folder, *how, on.programs, "--out", "pipe"))
        line = f'radixjoin-cluster: E20 WriteDevice "{folder.resolve()}/pipe": it is no regular file\n'
        faults = harness.differences(harness.Ran(ran.returncode, b"", ran.stderr), b"", line.encode(), 6)
        faults += [] if (folder / "pipe").is_fifo() else ["the pipe is gone"]
        tally.check(f"cluster_ends: the result is a pipe, {on.title}", faults + [f"{it} was left behind" for it in cluster.left_behind(folder, known | {"pipe"})])


def run_output_is_input(tally):
    """A result in the file of a table is refused, by whatever name, before a scheduler is looked for, of which there is none."""
    with harness.folder() as place:
        folder = pathlib.Path(place)
        words = write_tables(folder)
        os.link(folder / "left.csv", folder / "linked.csv")
        os.symlink("right.csv", folder / "symbolic.csv")
        known = {it.name: (it.read_bytes(), it.is_symlink(), it.stat().st_ino) for it in folder.iterdir()}
        by_links = [word.replace("/left.csv", "/linked.csv").replace("/right.csv", "/symbolic.csv") for word in words]
        of_one = [word.replace("/right.csv", "/left.csv") for word in words]
        cases = [("left", words, "left.csv"), ("left", words, folder / "linked.csv"), ("right", words, "./right.csv"), ("right", words, "symbolic.csv")]
        cases += [("left", by_links, "left.csv"), ("right", by_links, "right.csv"), ("left", of_one, "left.csv")]
        for number, (side, asked, output) in enumerate(cases):
            ran = cluster.ended(begun(sys.executable, asked, folder, "--scheduler", "tcp://127.0.0.1:9", "--out", output))
            faults = harness.differences(harness.Ran(ran.returncode, b"", ran.stderr), b"", f"radixjoin: E29 OutputIsInput {side}\n".encode(), 6)
            found = {it.name: (it.read_bytes(), it.is_symlink(), it.stat().st_ino) for it in folder.iterdir()}
            faults += [f"{it} is another one" for it in sorted({*known, *found}) if known.get(it) != found.get(it)]
            tally.check(f"cluster_ends: the result is a table, {number}: {side} {output}", faults)


# Joins a shard, and notes in the folder LOG how many do meanwhile.
COUNTS = """#!/bin/sh
case "$*" in *"=/dev/fd/"*) ;; *) exec "PROGRAM" "$@";; esac
touch "LOG/$$.runs"
ls LOG | grep -c runs > "LOG/$$.counted"
sleep 0.3
ls LOG | grep -c runs >> "LOG/$$.counted"
"PROGRAM" "$@"
status=$?
rm "LOG/$$.runs"
exit $status
"""


def run_processes(python, count, tally):
    """As many programs run side by side as there may."""
    with harness.folder() as place:
        folder = pathlib.Path(place)
        words = write_tables(folder)
        log = folder / "log"
        log.mkdir()
        programs = programs_in(folder / "counts", "radixjoin", "")
        (programs / "radixjoin").write_text(COUNTS.replace("PROGRAM", str(harness.program("radixjoin"))).replace("LOG", str(log)))
        known = {it.name for it in folder.iterdir()}
        wanted = harness.run([harness.program("radixjoin"), *words], folder)
        ran = cluster.ended(begun(python, [*words, "--processes", count], folder, "--programs", programs, "--parts", "12"))
        counts = [int(line) for it in log.glob("*.counted") for line in it.read_text().split()]
        faults = cluster.faults_of_run(ran, folder, known, wanted)
        tally.check(f"cluster_ends: {count} programs side by side", faults + ([] if max(counts, default=0) == count else [f"{max(counts, default=0)} shards at once"]))


def run_without_dask(tally):
    """Where Dask isn't installed that is told in a line if there is a scheduler, and nothing is left."""
    with harness.folder() as place:
        folder = pathlib.Path(place)
        words = write_tables(folder)
        (folder / "none").mkdir()
        (folder / "none" / "distributed.py").write_text("raise ImportError(\"No module named 'distributed'\")\n")
        known = {it.name for it in folder.iterdir()} | {"programs"}
        how = {**os.environ, "PYTHONPATH": str(folder / "none"), "PYTHONDONTWRITEBYTECODE": "1"}
        programs = programs_in(folder / "programs", "radixjoin", ":")
        line = [sys.executable, cluster.SCRIPT, *words, "--out", "out.csv", "--programs", programs]
        ran = harness.run([*line, "--scheduler", "tcp://127.0.0.1:9"], folder, environment=how)
        faults = harness.differences(ran, b"", b"radixjoin-cluster: No module named 'distributed'\n", 1)
        tally.check("cluster_ends: no Dask for a scheduler", faults + [f"{it} was left behind" for it in cluster.left_behind(folder, known)])


def run_without_programs(on, tally):
    """Where the programs aren't in the folder that is given, or the variable names none, it is told by what they can be named."""
    with harness.folder() as place:
        folder = pathlib.Path(place).resolve()
        words = write_tables(folder)
        known = {it.name for it in folder.iterdir()}
        for more, named in (["--programs", folder / "none"], f"{folder}/none/radixjoin"), ([], f"{folder}/nowhere"):
            running = begun(on.python, words, folder, *on.where, *more, environment={**os.environ, "RADIXJOIN": f"{folder}/nowhere"})
            ran = cluster.ended(running)
            faults = [] if ran.returncode == 2 and ran.stderr.startswith(f"radixjoin-cluster: {named} is no program; ".encode()) else [f"{ran.returncode} {ran.stderr}"]
            faults += [f"{it!r} isn't told" for it in (b"program=", b"--programs", b"RADIXJOIN") if it not in ran.stderr]
            tally.check(f"cluster_ends: no program {named}, {on.title}", faults + [f"{it} was left behind" for it in cluster.left_behind(folder, known)])


def run_on_disk(folder, words, size, option, merges, tally):
    """Joins with what is half made, or the result, on a disk of some KiB, merged in so many ranges. It gives how it ended."""
    place = folder / "disk"
    with harness.disk(place, size) as is_mounted:
        if not is_mounted:
            return None
        out, scratch = (folder / "out.csv", place) if option == "scratch" else (place / "out.csv", folder)
        wanted = harness.run([harness.program("radixjoin"), *words], folder)
        ran = shards.joined([*words, "--parts", "3", "--merges", merges, "--scratch", scratch], folder, 2, out)
        if ran.status == 6:
            told = place.resolve() if option == "scratch" else f"{place.resolve()}/out.csv"
            wanted = harness.Ran(6, b"", f'radixjoin-cluster: E20 WriteDevice "{told}": {NO_ROOM}\n'.encode())
        faults = harness.differences(ran, wanted.stdout, wanted.stderr, wanted.status)
        tally.check(f"cluster_ends: {option} on a disk of {size} KiB, {merges} merges", faults + [f"{it} was left behind" for it in place.iterdir() if it != out])
        return ran.status


def run_full(tally):
    """Disks of many sizes, so that each step meets a full one."""
    with harness.folder() as name:
        folder = pathlib.Path(name)
        words = write_tables(folder, 20_000)
        for option, sizes in (("scratch", range(64, 4_096, 192)), ("result", range(64, 1_600, 384))):
            ends = [run_on_disk(folder, words, size, option, number % 2 * 2 + 1, tally) for number, size in enumerate(sizes)]
            if None in ends:
                print("cluster_ends: full disks are left out, since no small file system can be mounted")
                return
            tally.check(f"cluster_ends: {option} on disks that are full, and not", [] if {*ends} == {0, 6} else [f"they end by {ends}"])


def run_full_by(on, size, tally):
    """Joins by the script with what is half made on a disk of some KiB."""
    with harness.folder() as name, harness.disk(pathlib.Path(name, "disk"), size) as is_mounted:
        if not is_mounted:
            return
        folder, place = pathlib.Path(name), pathlib.Path(name, "disk")
        words = write_tables(folder, 20_000)
        known = {it.name for it in folder.iterdir()}
        ran = cluster.ended(begun(on.python, words, folder, *on.where, "--programs", on.programs, "--scratch", place))
        told = harness.Ran(6, b"", f'radixjoin-cluster: E20 WriteDevice "{place.resolve()}": {NO_ROOM}\n'.encode())
        faults = cluster.faults_of_run(ran, folder, known, told)
        tally.check(f"cluster_ends: a full disk of {size} KiB {on.title}", faults + [f"{it} was left behind" for it in place.iterdir()])


def run_on_machine(tally):
    """What is done on this machine."""
    with harness.folder() as programs:
        on = cluster.Machine(programs)
        harness.side_by_side(tally, [lambda own, it=it: run_killed(on, *it, own) for it in KILLED])
        run_output(on, tally)
        run_full_by(on, 1_024, tally)
        run_without_programs(on, tally)
    for count in (1, 2, 3):
        run_processes(on.python, count, tally)
    term, interrupt, hang_up = signal.SIGTERM, signal.SIGINT, signal.SIGHUP
    tasks = [(name, *them) for name in STEPS for them in ((term, term), (interrupt, interrupt), (interrupt, term))]
    tasks += [("merges", hang_up, hang_up), ("merges", hang_up, term), ("merges", term, hang_up)]
    harness.side_by_side(tally, [lambda own, it=it: run_told_to_end(on.python, *it, own) for it in tasks])


def run_on_cluster(on, tally):
    """What is done by the processes of a cluster."""
    for name, more in KILLED:
        run_process_killed(on, name, more, tally)
        run_killed(on, name, more, tally)
    for name in STEPS:
        run_process_killed_three_times(on, name, tally)
    run_process_killed_each_time(on, tally)
    run_output(on, tally)
    # (the first one has no room for what is sent to the processes)
    for size in (16, 1_024):
        run_full_by(on, size, tally)
    run_without_programs(on, tally)


def run_all(tally):
    run_on_machine(tally)
    run_full(tally)
    run_without_dask(tally)
    run_output_is_input(tally)
    python = harness.python_with_dask("cluster_ends")
    if python is None:
        return
    with harness.folder() as programs:
        on = cluster.Cluster(python, programs)
        try:
            run_on_cluster(on, tally)
        finally:
            on.close()
