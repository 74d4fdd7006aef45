"""How far a run is, as a terminal shows it: which lines there are, and that they are taken away before anything else is told."""
import functools
import os
import pathlib
import pty
import re
import subprocess
import threading
import time
import tty

import ends
import harness

CITIES, JOINED, PEOPLE, WORDS, two_files = ends.CITIES, ends.JOINED, ends.PEOPLE, ends.WORDS, ends.two_files
# What is written in the place of a line, with the cursor at its beginning then.
CLEARED = b"\r" + b" " * 72 + b"\r"
# The steps in their order, and what their lines look like.
NUMBER = r"\d{1,3}(?:,\d{3})*"
STEPS = {
    "left file": rf"reading left file, ({NUMBER})(?: of ({NUMBER}))? MB",
    "right file": rf"reading right file, ({NUMBER})(?: of ({NUMBER}))? MB",
    "left table": rf"reading left table of {NUMBER} MB",
    "right table": rf"reading right table of {NUMBER} MB",
    "partitioning": rf"partitioning, about ({NUMBER}) of ({NUMBER}) rows",
    "joining": rf"joining, about ({NUMBER}) of ({NUMBER}) rows",
    "writing": rf"writing {NUMBER} rows(?:, {NUMBER} MB so far)?|making text, about ({NUMBER}) of ({NUMBER}) rows",
}
ROWS = 300_000
SECONDS = 60
# After how many seconds it is shown unasked.
PATIENCE = 2


class Terminal:
    """A terminal, and what is written on it."""

    def __init__(self, is_raw=True):
        self.near, self.far = pty.openpty()
        if is_raw:
            tty.setraw(self.far)
        self.told = b""
        self.reader = threading.Thread(target=self.read, daemon=True)

    def read(self):
        """Reads what is written, until nobody has the terminal any more."""
        while True:
            try:
                got = os.read(self.near, 65536)
            except OSError:
                return
            if not got:
                return
            self.told += got

    def begin(self):
        """Begins to read; the program has the other end then."""
        os.close(self.far)
        self.reader.start()

    def end(self):
        """All that was written."""
        self.reader.join(SECONDS)
        os.close(self.near)
        return self.told


def on_terminal(words, folder, stdin=subprocess.DEVNULL, feed=None, shares=False):
    """A run whose standard error is a terminal, and with `shares` standard output, too; `feed` writes to its standard input."""
    terminal = Terminal()
    with open(folder / "stdout", "wb") as stdout:
        output = terminal.far if shares else stdout
        ran = subprocess.Popen([harness.program("radixjoin"), *words], cwd=folder, stdin=stdin, stdout=output, stderr=terminal.far)
    terminal.begin()
    if feed:
        with ran.stdin:
            feed(ran.stdin, terminal)
    try:
        status = ran.wait(SECONDS)
    except subprocess.TimeoutExpired:
        ran.kill()
        status = None
    return harness.Ran(status, (folder / "stdout").read_bytes(), terminal.end())


def lines_of(told):
    """The lines that a terminal showed, each in the place of the one before it or where that was taken away, and what stands behind the
    last one."""
    before, *lines = told.split(CLEARED)
    return ([line for line in lines[:-1] if line], lines[-1]) if lines else ([], before)


def step_of(line):
    """The name of a line's step and its numbers; none where it has no such form."""
    text = line.decode(errors="replace").removeprefix("radixjoin: ")
    for name, form in STEPS.items():
        if found := re.fullmatch(form, text):
            return name, [int(number.replace(",", "")) for number in found.groups() if number]
    return None


def line_faults(lines, told):
    """What of the lines isn't as it has to be: their form, their order, and that none is told to be beyond the whole."""
    faults, steps = [], list(STEPS)
    if lines and not told.startswith(CLEARED):
        faults.append(f"the first line begins in {harness.shorten(told[:80])}")
    found = [step_of(line) for line in lines]
    faults += [f"no such line: {harness.shorten(line)}" for line, step in zip(lines, found) if step is None or not line.startswith(b"radixjoin: ")]
    places = [steps.index(step[0]) for step in found if step]
    if places != sorted(places):
        faults.append(f"the steps stand in the order {places}")
    faults += [f"{harness.shorten(line)}: more than all" for line, step in zip(lines, found) if step and len(step[1]) == 2 and step[1][0] > step[1][1]]
    return faults + [f"{harness.shorten(line)} is a long line" for line in lines if len(line) > 72]


def lacking(lines, names):
    """The steps of which no line is shown."""
    found = {step[0] for step in map(step_of, lines) if step}
    return [f"no line of {name}" for name in names if name not in found]


def run_faults(ran, stdout, behind=b"", status=0, steps=()):
    """What isn't as wanted of a run on a terminal: its end, its output, its lines and what stands behind them."""
    lines, rest = lines_of(ran.stderr)
    ended = harness.differences(harness.Ran(ran.status, ran.stdout, rest), stdout, behind, status)
    return ended + line_faults(lines, ran.stderr) + lacking(lines, steps)


def large_files(folder):
    """Two larger files, and the words that join them by their keys."""
    rows = "".join(f"{n},name {n}\n" for n in range(ROWS))
    (folder / "left.csv").write_text(f"id,name\n{rows}")
    rows = "".join(f"{n * 7 % ROWS},city {n}\n" for n in range(ROWS))
    (folder / "right.csv").write_text(f"id,city\n{rows}")
    return ["--left", "left.csv", "--right", "right.csv", *WORDS]


def large_joins(folder):
    """Each step of a larger join is shown, and what is written is the same as in a pipe."""
    words = large_files(folder)
    plain = ends.run("radixjoin", words, folder, timeout=SECONDS)
    yield "in a pipe", harness.differences(plain, None)
    piped = ends.run("radixjoin", [*words, "--progress"], folder, timeout=SECONDS)
    yield "in a pipe, asked for", harness.differences(piped, plain.stdout)
    for options in ([], ["--workers=4"], ["--bits1=0", "--block=1"], ["--bits1=10", "--piece=100", "--workers=2"], ["--strict", "--order=left"]):
        ran = on_terminal([*words, "--progress", *options], folder)
        wanted = ends.run("radixjoin", [*words, *options], folder, timeout=SECONDS).stdout if "--order=left" in options else plain.stdout
        yield f"on a terminal {options}", run_faults(ran, wanted, steps=STEPS)
    ran = on_terminal([*words, "--progress", "--output=out.csv"], folder)
    same = [] if (folder / "out.csv").read_bytes() == plain.stdout else ["another result"]
    yield "with an output", run_faults(ran, b"", steps=STEPS) + same
    counted = f"pairs {ROWS} lone-left 0 lone-right 0\n".encode()
    # (equalities alone are counted without a join, in which no rows are passed)
    ran = on_terminal([*words, "--progress", "--count"], folder)
    yield "counted early", run_faults(ran, counted, steps=[it for it in list(STEPS)[:-1] if it != "joining"])
    ran = on_terminal([*words, "--progress", "--count", "--expect=matched"], folder)
    yield "counted", run_faults(ran, counted, steps=list(STEPS)[:-1])
    ran = on_terminal([*words, "--progress"], folder, shares=True)
    yield "rows on the same terminal", run_faults(ran, b"", plain.stdout, steps=list(STEPS)[:-1])


def every_pair(folder):
    """A join without a key is shown piece by piece, and goes on."""
    words = two_files(folder)
    for name in ("left", "right"):
        (folder / f"{name}.csv").write_text("id,{}\n{}".format("name" if name == "left" else "city", "".join(f"{n},x\n" for n in range(8_000))))
    clause = ["--join", "JOIN ON L.id <> R.id AND L.name <> R.city"]
    ran = on_terminal([*words[:-2], *clause, "--piece=100", "--progress"], folder)
    lines, _ = lines_of(ran.stderr)
    done = [step[1][0] for step in map(step_of, lines) if step and step[0] == "joining"]
    goes_on = [] if len(set(done)) > 2 and done == sorted(done) and 0 < done[-1] <= 8_000 else [f"it goes on as {done}"]
    yield "every pair", run_faults(ran, b"id,name,id,city\n", steps=["joining"]) + goes_on


def short_joins(folder):
    """Nothing of a short join is shown unasked, and nothing of it where standard error is no terminal."""
    words = two_files(folder)
    yield "unasked", harness.differences(on_terminal(words, folder), JOINED)
    yield "asked for", run_faults(on_terminal([*words, "--progress"], folder), JOINED, steps=STEPS)
    for option in ([], ["--progress"]):
        yield f"in a pipe {option}", harness.differences(ends.run("radixjoin", [*words, *option], folder), JOINED)
    suggested = on_terminal(["--suggest-types", "left.csv"], folder)
    yield "suggested types", harness.differences(suggested, b"id=int\nname=text\n")


def what_stands_behind(folder):
    """Faults and statistics stand alone, behind the lines."""
    words = two_files(folder)
    statistics = b"partition 0 left 3 right 3\npairs 1 lone-left 0 lone-right 0\n"
    ran = on_terminal([*words, "--progress", "--stats", "--bits1=0"], folder)
    yield "statistics", run_faults(ran, JOINED, statistics, steps=STEPS)
    (folder / "bad.csv").write_bytes(b"id,name\n1,ann\nx,bob\n")
    bad = ["--left", "bad.csv", *words[2:], "--progress"]
    line = b"radixjoin: E6 BadInteger left row 2 column 1\n"
    yield "a fault", run_faults(on_terminal(bad, folder), b"", line, 3, ["left table"])
    ran = on_terminal([*bad, "--explain"], folder)
    lines, rest = lines_of(ran.stderr)
    yield "a fault explained", line_faults(lines, ran.stderr) + ([] if rest.startswith(line + b"  ") else [f"behind the lines stands {rest!r}"])
    missing = ["--left", "left.csv", "--right", "missing", *WORDS, "--progress"]
    yield "a missing file", run_faults(on_terminal(missing, folder), b"", b"radixjoin: E19 ReadDevice right\n", 6)
    full = [*words, "--progress", "--output=/dev/full"]
    yield "a full device", run_faults(on_terminal(full, folder), b"", b"radixjoin: E20 WriteDevice\n", 6, STEPS)
    expected = [*words[:-1], "CROSS JOIN", "--expect=one-to-one", "--explain", "--progress"]
    ran = on_terminal(expected, folder)
    lines, rest = lines_of(ran.stderr)
    yield "a joined table that isn't as expected", line_faults(lines, ran.stderr) + ([] if rest.startswith(b"radixjoin: E30 NotAsExpected\n  ") and ran.status == 7 else [f"behind the lines stands {rest!r}"])


def until_shown():
    """What writes a left table row by row until something is shown, and after how many seconds that was."""
    after = []

    def feed(stdin, terminal):
        stdin.write(b"id,name\n")
        start = time.monotonic()
        while not terminal.told and time.monotonic() < start + ends.SECONDS:
            stdin.write(b"1,ann\n")
            stdin.flush()
            time.sleep(0.05)
        after.append(time.monotonic() - start)
        stdin.write(b"2,bob\n")

    return after, feed


def when_shown():
    """What writes a left table once something is shown, and after how many seconds that was."""
    after = []

    def feed(stdin, terminal):
        start = time.monotonic()
        while not terminal.told and time.monotonic() < start + ends.SECONDS:
            time.sleep(0.05)
        after.append(time.monotonic() - start)
        stdin.write(PEOPLE)

    return after, feed


def slow_joins(folder):
    """A line is shown from the beginning where that is asked for, and else after two seconds, also while nothing comes."""
    words = ["--left", "-", *two_files(folder)[2:]]
    after, feed = until_shown()
    ran = on_terminal([*words, "--progress"], folder, subprocess.PIPE, feed)
    yield "from the beginning", run_faults(ran, JOINED, steps=STEPS)
    after, feed = until_shown()
    ran = on_terminal(words, folder, subprocess.PIPE, feed)
    early = [] if after[0] > PATIENCE - 0.2 else [f"shown after {after[0]} seconds"]
    yield "after two seconds", run_faults(ran, JOINED, steps=["left file", "left table", "writing"]) + early
    after, feed = when_shown()
    ran = on_terminal(words, folder, subprocess.PIPE, feed)
    late = [] if PATIENCE - 0.2 < after[0] < PATIENCE + 20 else [f"shown after {after[0]} seconds"]
    yield "while nothing comes", run_faults(ran, JOINED, steps=["left file", "left table", "writing"]) + late


def tables_written_by_hand(folder):
    """Nothing is shown while a table is written at a terminal."""
    words = ["--left", "left.csv", "--right", "-", *WORDS, "--progress"]
    two_files(folder)
    hand = Terminal(is_raw=False)
    os.write(hand.near, CITIES + b"\x04")
    ran = on_terminal(words, folder, hand.far)
    hand.begin()
    hand.end()
    lines, _ = lines_of(ran.stderr)
    shown = [line for line in lines if b"right file" in line]
    yield "a table that is written by hand", run_faults(ran, JOINED, steps=["left file", "right table"]) + shown


def run_all(tally):
    """Each group in a folder of its own, side by side."""

    def ran(group, own):
        with harness.folder() as place:
            for name, faults in group(pathlib.Path(place)):
                own.check(f"progress: {name}", faults)

    groups = (large_joins, every_pair, short_joins, what_stands_behind, slow_joins, tables_written_by_hand)
    harness.side_by_side(tally, [functools.partial(ran, group) for group in groups])
