"""The order of faults in shards: random runs in which several things are wrong at once (files, null texts of either side and of the
result, types by position, by name and from files, the clause, strict reading) tell the fault that `radixjoin` tells of the headers alone,
or else of the whole, or write what it writes.

usage: shards_order.py [RUNS [FIRST]]

RUNS runs from the seed FIRST on (240 from 0, where they aren't given). The last line is 'N passed, M failed'."""
import pathlib
import random
import sys

import harness
import shards

RUNS = 240
# What may be wrong in a run.
KINDS = ("left file", "right file", "left header", "right header", "left rows", "right rows", "nulls", "left types", "right types", "clause", "strict", "cells")
HEADERS = (b"", b"\n", b"k,k\n", b"k\n", b"k,9\n", b'k,"a\n', b'k,a"\n', b"\nk,a\n", b"\xef\xbb\xbfk,a\n", b"k,\xff\n", b'k,"row 007"\n', b"K,a")
BODIES = (b"", b"1\n", b"1,x\nz,y\n", b"1,\xff\n", b'1,"x\n', b"1,x\n\n2,y\n", b"1,x\n2,y", b'1,"x"y\n', b"1,x\r2,y\n", b"-,x\n1,-\n")
CLAUSES = ("-1", "--", "JOIN USING (q)", "JOIN ON L.k = R.k AND", "JOIN ON a = 1", "JOIN ON L.k = R.a", "JOIN USING (k, K)", "JOIN ON k < 1")
GOOD_CLAUSES = ("JOIN USING (k)", "FULL JOIN USING (k)", "LEFT JOIN ON L.k = R.k", "RIGHT JOIN ON R.k = L.k AND L.a <> 'q'", "NATURAL JOIN", "FULL JOIN ON L.a = R.a")
TEXTS = ("-", "NULL", "~", "", "--", "NULL")
BAD_TEXTS = ("no null", "1", "a,b", '"', "a text of seventeen", "\u00e4")
TYPES = ("int,text", "k=int,*=text", "*=text,K=num(9,2)", '"k"=int,a=text', "a=text,k=num:9:2", "num(9,2),text", "*=text")
BAD_TYPES = ("int", "int,int", "int,txt", "-1", "", "k=int", "k=int,text", "k=int,q=text,*=text", '"K"=int,*=text', "k=int,k=int,*=text", '"row 007"=int,*=text', "*=int", "@none")
# Cells that null texts are told from, or not.
CELLS = (b"1,-\n2,NULL\n,~\n3,\n", b"1,x\n2,-\n-,y\n", b"NULL,x\n1,NULL\n4,\n", b"1,x\n2,y\n")


def nulls_of(pick, is_bad):
    """Options for the null texts: of both files and the result, or by side."""
    words = []
    for name, most in (("null", 1), ("left-null", 4), ("right-null", 4), ("out-null", 1)):
        if pick.random() < (0.6 if is_bad else 0.4):
            count = 5 if is_bad and most > 1 and pick.random() < 0.15 else pick.randrange(1, most + 1)
            words += [f"--{name}={pick.choice(BAD_TEXTS if is_bad and pick.random() < 0.4 else TEXTS)}" for _ in range(count)]
    pick.shuffle(words)
    return words


def types_of(pick, is_bad, side, folder):
    """A list of types, or a file that has it."""
    types = pick.choice(BAD_TYPES if is_bad else TYPES)
    if types == "@none" or pick.random() > 0.25:
        return types.replace("@", f"@{folder}/")
    end = pick.choice(("\n", "\r\n"))
    text = types.replace(",", end) + pick.choice(("", end))
    (folder / f"{side}.types").write_bytes(text.encode() + (b"\xff" if is_bad and pick.random() < 0.2 else b""))
    return f"@{folder}/{side}.types"


def table_of(pick, wrong, side, is_long):
    """The bytes of a side's file. One side alone has many rows: with no name in both NATURAL JOIN keeps every pair."""
    head = pick.choice(HEADERS) if f"{side} header" in wrong else pick.choice((b"k,a\n", b"k,a\n", b"K,a\r\n"))
    body = pick.choice(BODIES) if f"{side} rows" in wrong else pick.choice(CELLS if "cells" in wrong else CELLS[-1:])
    many = (b"7,x\n" if side == "left" else b"8,y\n") * min(pick.choice((0, 0, 25_000)), 25_000 * is_long)
    return head + (many + body if pick.random() < 0.8 else body + many)


def words_of(pick, folder):
    """The words of a run in which up to three things are wrong."""
    wrong = set(pick.sample(KINDS, pick.choice((0, 1, 2, 2, 2, 3))))
    words, is_long = [], True
    for side in ("left", "right"):
        path = folder / f"{side}.csv"
        if f"{side} file" not in wrong:
            path.write_bytes(table_of(pick, wrong, side, is_long))
            is_long = path.stat().st_size < 10_000
        elif pick.random() < 0.5:
            path.mkdir()
        words += [f"--{side}={path}", f"--{side}-types={types_of(pick, f'{side} types' in wrong, side, folder)}"]
    strict = pick.choice((["--strict"], ["--strict=full"])) if "strict" in wrong or "cells" in wrong else pick.choice(([], [], ["--strict"]))
    order = pick.choice(([], [], ["--order=left"]))
    return [*words, f"--join={pick.choice(CLAUSES if 'clause' in wrong else GOOD_CLAUSES)}", *nulls_of(pick, "nulls" in wrong), *strict, *order]


def run_order(seed, tally):
    """One run beside `radixjoin`. It gives what that told."""
    pick = random.Random(f"radixjoin: the order of faults {seed}")
    with harness.folder() as name:
        folder = pathlib.Path(name)
        words = words_of(pick, folder)
        wanted = harness.run([harness.program("radixjoin"), *words], folder)
        tally.check(f"shards_order: {seed}: {words}", shards.faults_of(words, folder, 2, pick.choice((1, 3)), wanted))
        return wanted


def run_orders(tally, seeds):
    """Such runs. Where they are many all ends, and many faults, are among them."""
    ran = harness.side_by_side(tally, [lambda own, seed=seed: run_order(seed, own) for seed in seeds])
    codes = {b" ".join(it.stderr.split()[1:3])[:24] for it in ran if it.status}
    if len(ran) >= RUNS:
        missing = [f"none ended by {status}" for status in (0, 2, 3, 4, 6) if status not in {it.status for it in ran}]
        tally.check("shards_order: every end", missing + ([] if len(codes) > 15 else [f"no more than {sorted(codes)}"]))
    return codes


def run_all(tally):
    run_orders(tally, range(RUNS))


def main(words):
    tally = harness.Tally()
    count, first = [*map(int, words), *(RUNS, 0)[len(words) :]]
    codes = run_orders(tally, range(first, first + count))
    print(b", ".join(sorted(codes)).decode())
    print(f"{tally.passed} passed, {tally.failed} failed")
    return 1 if tally.failed else 0


if __name__ == "__main__":
    sys.exit(main(sys.argv[1:]))
