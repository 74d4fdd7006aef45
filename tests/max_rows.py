"""`--max-rows` at the number of rows of a joined table, and one below it: for each kind of join, whichever table is the larger,
and however often a key is in either."""
import functools
import itertools
import pathlib

import ends
import harness

# Keys of small tables, None for NULL: all in one row, some in several, all in several, NULL alone, and none.
TABLES = ([1, 2, 3, 4, 5, 6], [1, 2, None], [1, 1, 2, 3, None, 9, 2, 1], [1, 1, 1], [None, None], [7, 7, 8], [])
KINDS = ("JOIN", "LEFT JOIN", "RIGHT JOIN", "FULL JOIN")


def text_of(name, keys):
    """A table of keys as CSV; a row of NULL alone needs a second column."""
    return f"k,{name}\n" + "".join(f"{'' if key is None else key},{at}\n" for at, key in enumerate(keys))


def counts(kind, left, right):
    """How many matches and unmatched rows of each table a join has, row by row."""
    matched = [(i, j) for i, x in enumerate(left) for j, y in enumerate(right) if x == y is not None]
    lone_left = len(left) - len({i for i, _ in matched}) if kind in ("LEFT JOIN", "FULL JOIN") else 0
    lone_right = len(right) - len({j for _, j in matched}) if kind in ("RIGHT JOIN", "FULL JOIN") else 0
    return len(matched), lone_left, lone_right


def limit_faults(words, folder, numbers):
    """What isn't as wanted of a join of these numbers of rows: counted, at its limit, past it, and one below it."""
    rows = sum(numbers)
    line = b"pairs %d lone-left %d lone-right %d\n" % numbers
    faults = []
    for most in (rows, rows + 1, 1000):
        faults += harness.differences(ends.run("radixjoin", [*words, "--count", f"--max-rows={most}"], folder), line)
        ran = ends.run("radixjoin", [*words, f"--max-rows={most}"], folder)
        faults += harness.differences(ran, None) + ([] if ran.stdout.count(b"\n") == rows + 1 else [f"{harness.shorten(ran.stdout)} has not {rows} rows"])
    told = f"radixjoin: E30 NotAsExpected\n  the joined table has {rows} rows\n".encode()
    for most in {rows - 1, rows // 2} if rows else ():
        faults += harness.differences(ends.run("radixjoin", [*words, "--explain", f"--max-rows={most}"], folder), b"", told, 7)
    return faults


def run_pair(left, right, tally):
    """Every kind of join of two tables."""
    with harness.folder() as name:
        folder = pathlib.Path(name)
        (folder / "left.csv").write_text(text_of("a", left))
        (folder / "right.csv").write_text(text_of("b", right))
        words = ["--left=left.csv", "--left-types=int,int", "--right=right.csv", "--right-types=int,int"]
        for kind in KINDS:
            faults = limit_faults([*words, f"--join={kind} USING (k)"], folder, counts(kind, left, right))
            tally.check(f"max_rows: {left} {kind} {right}", faults)
        faults = limit_faults([*words, "--join=CROSS JOIN"], folder, (len(left) * len(right), 0, 0))
        tally.check(f"max_rows: {left} CROSS JOIN {right}", faults)


def run_all(tally):
    """Every two of the tables."""
    pairs = itertools.product(TABLES, TABLES)
    harness.side_by_side(tally, [functools.partial(run_pair, left, right) for left, right in pairs])
