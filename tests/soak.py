"""Random joins by many workers beside the plain nested loop, and one larger join again and again.

usage: soak.py [JOINS [RUNS]]

JOINS random joins with random settings, 2 to 16 workers (2,000 where it is not given), and RUNS runs of one join of
100,000 rows with 8 workers (200). A difference or a run without an end is told. The last line is 'N passed, M failed'."""
import csv
import hashlib
import io
import pathlib
import random
import sys

import comparisons
import harness
import reference

# A run ends within so many seconds, or hangs.
SECONDS = 60


def random_settings(source):
    """Words for random settings of 2 to 16 workers."""
    settings = {
        "workers": source.randint(2, 16),
        "bits1": source.randint(0, 10),
        "bits2": source.randint(0, 10),
        "hash": source.choice(["plain", "mixed"]),
        "block": source.choice([1, 2, 3, 7, 100, 1024, 65536]),
        "capacity": source.choice([1, 2, 3, 64, 4096]),
        "lanes": source.randint(1, 4),
        "retries": source.randint(0, 3),
        "piece": source.choice([1, 2, 3, 7, 100, 65536, 1_048_576]),
    }
    return [f"--{name}={value}" for name, value in settings.items()]


def random_joins(tally, count):
    """Random tables and clauses with random settings, beside the plain nested loop."""
    source = random.Random("radixjoin: random settings")
    for n in range(count):
        rows = source.choice([8, 8, 8, 60])
        left = reference.random_table(source, ["a", "t", "b"], ["int", "text", "int"], rows)
        right = reference.random_table(source, ["b", "c", "t"], ["int", "int", "text"], rows)
        join = reference.random_join(source, left, right)
        options = random_settings(source)
        wanted = [join.header(left, right), *comparisons.as_text(reference.joined(left, right, join))]
        with harness.folder() as name:
            ran = comparisons.run_join(left, right, join, pathlib.Path(name), options)
        faults = harness.differences(ran, None)
        if not faults and comparisons.rows_of(ran.stdout.decode()) != wanted:
            faults.append(f"not the rows of the plain nested loop, over {left.csv()!r} and {right.csv()!r}")
        tally.check(f"random settings {n}: {join.clause} {' '.join(options)}", [harness.shorten(fault) for fault in faults])


def full_join(left, right):
    """The text of FULL JOIN USING the first column of both tables, by a dictionary."""
    rows_by_key = {}
    for at, row in enumerate(right.rows):
        if row[0] is not None:
            rows_by_key.setdefault(row[0], []).append(at)
    met, lone = set(), []
    text = io.StringIO()
    writer = csv.writer(text, lineterminator="\n")
    shown = lambda row: ["" if cell is None else cell for cell in row]
    writer.writerow([left.names[0], left.names[1], right.names[1]])
    for row in left.rows:
        found = rows_by_key.get(row[0], []) if row[0] is not None else []
        for at in found:
            met.add(at)
            writer.writerow(shown([*row, right.rows[at][1]]))
        if not found:
            lone.append(row)
    for row in lone:
        writer.writerow(shown([*row, None]))
    for at, row in enumerate(right.rows):
        if at not in met:
            writer.writerow(shown([row[0], None, row[1]]))
    return text.getvalue().encode()


def large_join(tally, runs):
    """One join of 100,000 rows with 8 workers: the same bytes each time, in whatever order the threads run."""
    source = random.Random("radixjoin: 100,000 rows")
    key = lambda most: None if source.random() < 0.03 else source.randrange(most)
    left = reference.Table(["k", "a"], ["int", "int"], [[key(70_000), at] for at in range(60_000)])
    right = reference.Table(["k", "b"], ["int", "int"], [[key(70_000), at] for at in range(40_000)])
    wanted = hashlib.sha256(full_join(left, right)).digest()
    words = ["--left", "left.csv", "--left-types", "int,int", "--right", "right.csv", "--right-types", "int,int"]
    words += ["--join", "FULL JOIN USING (k)", "--workers=8"]
    with harness.folder() as name:
        folder = pathlib.Path(name)
        (folder / "left.csv").write_bytes(left.csv())
        (folder / "right.csv").write_bytes(right.csv())
        for n in range(runs):
            options = [] if n % 2 else random_settings(source)[1:]
            ran = harness.run([harness.program("radixjoin"), *words, *options], folder, seconds=SECONDS)
            faults = harness.differences(ran, None)
            if not faults and hashlib.sha256(ran.stdout).digest() != wanted:
                faults.append("not the bytes wanted")
            tally.check(f"100,000 rows with 8 workers, run {n}: {' '.join(options)}", faults)


def run_all(tally, joins=150, runs=10):
    """A short form, where nothing else is asked."""
    random_joins(tally, joins)
    large_join(tally, runs)
    print(f"{joins} random joins with random settings, and {runs} runs of one with 8 workers")


def main():
    tally = harness.Tally()
    given = [int(word) for word in sys.argv[1:]]
    run_all(tally, *given, *[2000, 200][len(given) :])
    print(f"{tally.passed} passed, {tally.failed} failed")
    return 1 if tally.failed or not tally.passed else 0


if __name__ == "__main__":
    sys.exit(main())
