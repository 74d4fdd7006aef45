"""`--unnamed`: the names that random headers get, beside those that a plain loop gives them, and what is told of them."""
import csv
import io
import pathlib
import random

import harness

PARTS = ["", "", "a", "A", "b", "a_2", "A_2", "b_3", "column_1", "column_2", "COLUMN_2", "column_2_2", "x,y", 'q"', "l\nf", "é", "x" * 100, "x" * 101, "X" * 101]
CASES = 150
MOST = 8


def folded(name):
    """A name without the case of ASCII letters."""
    return "".join(c.lower() if c.isascii() else c for c in name)


def named(fields):
    """The names of a header's columns, and which of them were given, by the numbers of their columns."""
    taken, names, given = {folded(field) for field in fields}, [], []
    for at, field in enumerate(fields):
        if field and folded(field) not in map(folded, fields[:at]):
            names.append(field)
            continue
        stem = field if 0 < len(field.encode()) <= 100 else f"column_{at + 1}"
        number, name = 1, stem
        while folded(name) in taken:
            number += 1
            name = f"{stem}_{number}"
        taken.add(folded(name))
        names.append(name)
        given.append((at + 1, name))
    return names, given


def record(fields, end):
    """A record as CSV."""
    text = io.StringIO()
    csv.writer(text, lineterminator="\n").writerow(fields)
    return text.getvalue().removesuffix("\n") + end


def check_header(folder, tally, fields, end, mark, lenient):
    """One header with a row below it, on the left or on the right."""
    names, given = named(fields)
    row = [str(at) for at in range(len(fields))]
    (folder / "table.csv").write_bytes(mark + (record(fields, end) + record(row, end)).encode())
    (folder / "other.csv").write_bytes(b"zz\n1\n")
    side = random.choice(("left", "right"))
    files = ["table.csv", "other.csv"] if side == "left" else ["other.csv", "table.csv"]
    words = [harness.program("radixjoin"), *files, "CROSS JOIN", "--unnamed", f"--columns={side}", "--workers=1", "--repeated=keep", *(["--lenient"] if lenient else [])]
    told = "".join(f"radixjoin: {side} column {column} has no name of its own, and is called {name}\n" for column, name in given)
    wanted = (record(names, "\n") + record(row, "\n")).encode()
    tally.check(f"names of {fields}, {side}, {end!r}", harness.differences(harness.run(words, folder), wanted, told.encode()))


def run_all(tally):
    """Random headers, with both line ends, with and without a byte order mark, read strictly and leniently."""
    random.seed(20261130)
    with harness.folder() as folder:
        for _ in range(CASES):
            fields = [random.choice(PARTS) for _ in range(random.randint(2, MOST))]
            check_header(pathlib.Path(folder), tally, fields, random.choice(("\n", "\r\n")), random.choice((b"", b"\xef\xbb\xbf")), random.random() < 0.5)
