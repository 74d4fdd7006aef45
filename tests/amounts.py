"""Joins and replays of amounts that no other test comes to: more than 100,000 rows in the second pass of one partition, as many
keys in one chained table, literals of some thousand bytes, and more than 4,096 parcels held back.

A run has to end within some seconds: one that walks over each row, or takes memory again and again, doesn't."""
import pathlib

import harness
import reference
import soak

# Each of these runs ends within a second or so; a walk over each row of a partition takes minutes.
SECONDS = 30


class Join:
    """A join of two tables in a folder."""

    def __init__(self, folder, left, right, types):
        self.folder = folder
        (folder / "left.csv").write_bytes(left)
        (folder / "right.csv").write_bytes(right)
        self.words = ["--left", "left.csv", "--left-types", types[0], "--right", "right.csv", "--right-types", types[1]]

    def check(self, tally, name, clause, options, stdout):
        words = [*self.words, "--join", clause, *options]
        ran = harness.run([harness.program("radixjoin"), *words], self.folder, seconds=SECONDS)
        tally.check(f"amounts: {name}", harness.differences(ran, stdout))


def check_second_pass(folder, tally):
    """Tables of 150,000 and 120,000 rows in one partition, which the second pass parts or doesn't."""
    left = reference.Table(["k", "a"], ["int", "int"], [[at * 7_919 % 150_001, at] for at in range(150_000)])
    right = reference.Table(["k", "b"], ["int", "int"], [[at * 104_729 % 150_001, at] for at in range(120_000)])
    wanted = soak.full_join(left, right)
    join = Join(folder, left.csv(), right.csv(), ("int,int", "int,int"))
    for bits1, bits2, form in ((0, 4, "plain"), (0, 10, "mixed"), (0, 0, "plain"), (0, 0, "mixed"), (4, 0, "plain")):
        for workers in (1, 4):
            options = [f"--bits1={bits1}", f"--bits2={bits2}", f"--hash={form}", f"--workers={workers}"]
            join.check(tally, f"120,000 rows in the second pass, {' '.join(options)}", "FULL JOIN USING (k)", options, wanted)


def check_distinct_keys(folder, tally):
    """400,000 distinct keys on both sides, in one partition without a second pass, are found one by one."""
    count = 400_000
    left = b"k\n" + b"".join(b"%d\n" % at for at in range(count))
    right = b"k,b\n" + b"".join(b"%d,%d\n" % (at, at) for at in reversed(range(count)))
    wanted = b"k,b\n" + b"".join(b"%d,%d\n" % (at, at) for at in range(count))
    join = Join(folder, left, right, ("int", "int,int"))
    for workers in (1, 4):
        join.check(tally, f"distinct keys, {workers} workers", "JOIN USING (k)", ["--bits1=0", f"--workers={workers}"], wanted)


def check_literals(folder, tally):
    """Text literals of up to some ten thousand bytes, doubled quotes among them, compared with texts that are hardly others."""
    for length in (4_096, 4_097, 5_000, 50_000):
        text = ("it's " * length)[:length]
        literal = "'" + text.replace("'", "''") + "'"
        others = [text, text + "x", text[:-1], "y" + text[1:], text]
        left = "".join(f"{at},{other}\n" for at, other in enumerate(others))
        join = Join(folder, f"k,t\n{left}".encode(), b"k\n0\n1\n2\n3\n4\n", ("int,text", "int"))
        equal = "".join(f"{at},{other},{at}\n" for at, other in enumerate(others) if other == text)
        differing = "".join(f"{at},{other},{at}\n" for at, other in enumerate(others) if other != text)
        join.check(tally, f"a literal of {length} bytes", f"JOIN ON L.k = R.k AND L.t = {literal}", [], f"k,t,k\n{equal}".encode())
        join.check(tally, f"a list with one of {length} bytes", f"JOIN ON L.k = R.k AND NOT L.t IN ('z', {literal})", [], f"k,t,k\n{differing}".encode())


def check_held_back(folder, tally):
    """Parcels from the last to the second are held back, whatever their number; the first one delivers them all."""
    for count in (4_096, 4_097, 20_000):
        numbers = [*range(count, 0, -1), 0]
        script = "".join(f"0 5 {number} rows {number} 7\n" for number in numbers) + f"0 5 {count + 1} close\n"
        rows = "".join(f" {number} 7" for number in sorted(numbers))
        wanted = "held\n" * count + f"accepted {count + 1}\naccepted 1\nsender 0 complete rows{rows}\ncomplete\n"
        words = [harness.program("arrivals"), "--partition=5", "--senders=1", "--block=2"]
        ran = harness.run(words, folder, script.encode(), seconds=SECONDS)
        tally.check(f"amounts: {count} parcels held back", harness.differences(ran, wanted.encode()))


def run_all(tally):
    """Every part in one folder."""
    with harness.folder() as name:
        folder = pathlib.Path(name)
        for check in (check_second_pass, check_distinct_keys, check_literals, check_held_back):
            check(folder, tally)
