"""Tables of several segments: a left table of 600,000 rows, which is given back segment by segment as the result is made. Each kind
of join and each order, by one worker, by two and by five, beside what is worked out here; and by little memory either the whole result or
`E18 Memory` and nothing."""
import functools
import pathlib
import random
import resource
import subprocess

import harness
from oracle import command

LEFT, RIGHT = 600_000, 1_100
KEYS = LEFT // 2
STEP = 300
# In the table of which each row but the last is in many matches.
FEW = 3
# How many random joins of such tables are run.
JOINS = 60
# The address spaces that are tried, in MiB.
LEAST, MOST, BY = 20, 185, 10
# Those that are tried in small steps, in KiB, while tables are read: a page of the stack is refused in none.
FINE_LEAST, FINE_MOST, FINE_BY = 16_000, 26_000, 60


def key_of(row):
    """The key of a left row: each stands in two rows, far from each other."""
    return row * 37 % KEYS


def partner_of(row):
    """The right row of a left row, if it has one."""
    at, rest = divmod(key_of(row), STEP)
    return None if rest or at >= RIGHT else at


def of_few():
    """A file of few rows, each in many matches but the last, and the rows of a full join with it."""
    few = "".join(f"{at},\"{at},\",{-at}\n" for at in [*range(FEW), KEYS])
    found = [(key_of(row), row) for row in range(LEFT)]
    pairs = "".join(f"{key % 7},t{row},\"{key % 7},\",{-(key % 7)}\n" for key, row in found if key % 7 < FEW)
    lone = "".join(f"{key % 7},t{row},,\n" for key, row in found if key % 7 >= FEW)
    left = "".join(f"{key % 7},t{row}\n" for key, row in found)
    return f"k,a\n{left}".encode(), f"k,b,c\n{few}".encode(), f"k,a,b,c\n{pairs}{lone}{KEYS},,\"{KEYS},\",{-KEYS}\n".encode()


@functools.cache
def tables():
    """The two files."""
    left = "".join(f"{key_of(row)},t{row}\n" for row in range(LEFT))
    right = "".join(f"{row * STEP},{-row}\n" for row in range(RIGHT))
    return f"k,a\n{left}".encode(), f"k,b\n{right}".encode()


def lines(kinds, in_left_order):
    """The result's rows of these kinds: pairs, lone left rows and lone right ones."""
    found = [(row, partner_of(row)) for row in range(LEFT)]
    pairs = [(row, f"{key_of(row)},t{row},{-at}\n") for row, at in found if at is not None] if "pairs" in kinds else []
    lone = [(row, f"{key_of(row)},t{row},\n") for row, at in found if at is None] if "lone-left" in kinds else []
    rights = [f"{row * STEP},,{-row}\n" for row in range(RIGHT) if row * STEP >= KEYS] if "lone-right" in kinds else []
    rows = sorted(pairs + lone) if in_left_order else pairs + lone
    return "".join([*(line for _, line in rows), *rights])


ALL = ("pairs", "lone-left", "lone-right")
CASES = [
    ("JOIN USING (k)", ("pairs",), []),
    ("LEFT JOIN USING (k)", ("pairs", "lone-left"), []),
    ("RIGHT JOIN USING (k)", ("pairs", "lone-right"), []),
    ("FULL JOIN USING (k)", ALL, []),
    ("FULL JOIN USING (k)", ALL, ["--order=left"]),
    ("FULL JOIN USING (k)", ("lone-left", "lone-right"), ["--rows=lone-left,lone-right"]),
    ("FULL JOIN USING (k)", ("lone-right",), ["--rows=lone-right"]),
]


def run(folder, clause, options, most=None, types="int,int"):
    """A run of radixjoin in a folder, with no more than so many bytes of address space."""

    def limited():
        if most:
            resource.setrlimit(resource.RLIMIT_AS, (most, most))

    words = ["--left=left.csv", "--right=right.csv", "--left-types=int,text", f"--right-types={types}", f"--join={clause}", *options]
    ran = subprocess.run([harness.program("radixjoin"), *words], cwd=folder, capture_output=True, preexec_fn=limited, timeout=harness.SECONDS)
    return harness.Ran(ran.returncode, ran.stdout, ran.stderr)


def run_cases(tally, folder):
    for clause, kinds, options in CASES:
        wanted = f"k,a,b\n{lines(kinds, '--order=left' in options)}".encode()
        for workers in (1, 2, 5):
            ran = run(folder, clause, [*options, f"--workers={workers}"])
            tally.check(f"segments: {clause} {' '.join(options)} by {workers}", harness.differences(ran, wanted))


def run_of_few(tally):
    """Right rows whose texts are made once, since each is in many matches."""
    left, few, wanted = of_few()
    with harness.folder() as name:
        (pathlib.Path(name) / "left.csv").write_bytes(left)
        (pathlib.Path(name) / "right.csv").write_bytes(few)
        for workers in (1, 2, 5):
            ran = run(name, "FULL JOIN USING (k)", [f"--workers={workers}"], types="int,text,int")
            tally.check(f"segments: right rows in many matches by {workers}", harness.differences(ran, wanted))


def random_tables(source):
    """A left file of some rows and a right one of few, most of which are in many matches, with odd texts and empty cells."""
    texts = ["", "x", "NULL", "-", '"p,q"', '"p;q"', '"say ""so"""', '"two\nlines"', "é", " "]
    key = lambda: source.choice(["", "1", "1", "2", "3"])
    left = [f"{key()},{source.choice(texts)}" for _ in range(source.randrange(60))]
    right = [f"{source.choice(texts)},{source.choice(texts)},{key()},{source.choice(['', '7', '-1.50'])}" for _ in range(source.randrange(6))]
    return {name: "\n".join([header, *rows, ""]).encode() for name, header, rows in (("left.csv", "k,a", left), ("right.csv", "b,c,k,n", right))}


def run_at_random(tally, seed="ends"):
    """Random joins of small tables by one worker, which makes the texts of right rows once, and by four, which don't."""
    source = random.Random(seed)
    clauses = [f"{kind}JOIN USING (k)" for kind in ("", "LEFT ", "RIGHT ", "FULL ")] + ["FULL JOIN ON L.k = R.k", "CROSS JOIN", "LEFT JOIN ON L.k <= R.k"]
    options = [[], ["--order=left"], ["--rows=pairs"], ["--rows=lone-left,lone-right"], ["--anti"], ["--semi"], ["--columns=right"]]
    options += [[f"--select={names}"] for names in ("a,n,b", "L.k,a,c,b", "b,c,a,L.k", "a,L.k,c", "L.k,a,R.k,R.k=r")]
    for number in range(JOINS):
        files = random_tables(source)
        words = ["--left=left.csv", "--right=right.csv", "--left-types=int,text", "--right-types=text,text,int,num(4,2)", f"--join={source.choice(clauses)}"]
        words += source.choice(options) + source.choice([[], ["--out-null=NULL"], ["--out-delimiter=;"], ["--out-null=-", "--out-delimiter=tab"]])
        wanted = command.ended("radixjoin", [word.encode() for word in words], files)
        with harness.folder() as name:
            for file, content in files.items():
                (pathlib.Path(name) / file).write_bytes(content)
            for workers in (1, 4):
                ran = harness.run([harness.program("radixjoin"), *words, f"--workers={workers}"], name)
                tally.check(f"segments: random join {number} by {workers}: {' '.join(words)}", harness.differences(ran, wanted.stdout, wanted.stderr, wanted.status))


def run_in_little_room(tally, folder):
    """By each of many limits the whole result, or nothing of it; both are seen."""
    clause, kinds, options = CASES[3]
    wanted = f"k,a,b\n{lines(kinds, False)}".encode()
    for workers in (1, 2):
        ends = []
        for room in range(LEAST, MOST, BY):
            ran = run(folder, clause, [*options, f"--workers={workers}"], room << 20)
            ends.append(ran.status)
            expected = (wanted, b"", 0) if ran.status == 0 else (b"", b"radixjoin: E18 Memory\n", 5)
            tally.check(f"segments: {clause} in {room} MiB by {workers}", harness.differences(ran, *expected))
        tally.check(f"segments: both ends by {workers}", [] if {0, 5} == set(ends) else [f"statuses {ends}"])


def run_in_small_steps(tally, folder):
    """By none of many limits that lie close together a run ends by a signal."""
    clause, _, options = CASES[3]
    for workers in (1, 2):
        others = []
        for room in range(FINE_LEAST, FINE_MOST, FINE_BY):
            ran = run(folder, clause, [*options, f"--workers={workers}"], room << 10)
            others += [f"{room} KiB: status {ran.status}, {ran.stderr!r}"] if (ran.status, ran.stderr) != (5, b"radixjoin: E18 Memory\n") else []
        tally.check(f"segments: {clause} in small steps of room by {workers}", others)


def run_all(tally):
    with harness.folder() as name:
        for side, content in zip(("left", "right"), tables()):
            (pathlib.Path(name) / f"{side}.csv").write_bytes(content)
        run_cases(tally, name)
        run_in_little_room(tally, name)
        run_in_small_steps(tally, name)
    run_of_few(tally)
    run_at_random(tally)
