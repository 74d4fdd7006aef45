"""Joins in shards whose files are read strictly, beside `radixjoin --strict`: the files of tests/strict.py, alone and with rows
before what is wrong so that they are cut into ranges, and random broken files, some by other delimiters."""
import pathlib
import random

import harness
import shards
import strict

ON, FULL = ["--strict"], ["--strict=full"]
ROWS = 12_000


def both(folder, words, tally, name, ways):
    """Compares joins in shards, in several numbers of parts and ranges, with what `radixjoin` writes or tells."""
    wanted = harness.run([harness.program("radixjoin"), *words], folder)
    for parts, ranges in ways:
        tally.check(f"shards_strict: {name}, {parts} parts of {ranges} ranges", shards.faults_of(words, folder, parts, ranges, wanted))
    return wanted


def words_of(folder, text, types, side, options, null=None):
    """The words that join a file on its first column, named b, with a table of one cell."""
    kind = types.split(",", maxsplit=1)[0]
    other = "right" if side == "left" else "left"
    (folder / f"{side}.csv").write_bytes(text)
    (folder / f"{other}.csv").write_bytes(b"a\n1\n")
    tables = [f"--{side}", f"{side}.csv", f"--{side}-types", types, f"--{other}", f"{other}.csv", f"--{other}-types", kind]
    nulls = [f"--null={null}"] if null is not None else []
    return shards.placed_in([*tables, "--join", "FULL JOIN ON b = a", *options, *nulls], folder)


def with_rows(text, types):
    """A text with many rows behind its first line, so that it is cut, or None where it has one line alone."""
    head, end, rest = text.partition(b"\n")
    if not end or b'"' in head or b"\r" in head[:-1]:
        return None
    row = {1: b"7\n", 2: b"7,a\n"}.get(types.count(",") + 1)
    return head + end + row * ROWS + rest


def check_text(folder, text, types, null, tally):
    """One text at each side, read strictly in both ways."""
    for side in ("left", "right"):
        for options in (ON, FULL):
            both(folder, words_of(folder, text, types, side, options, null), tally, f"{text} {side} {options}", ((1, 1), (3, 4)))
    longer = with_rows(text, types)
    if longer is not None:
        both(folder, words_of(folder, longer, types, "left", ON, null), tally, f"{text} behind many rows", ((2, 5),))


def run_texts(tally):
    """The files of tests/strict.py."""
    texts = [(text, types, None) for text, types, _ in strict.TEXTS + strict.CUT] + [(text, types, null) for text, types, null, _ in strict.READ]

    def ran(own, text, types, null):
        with harness.folder() as name:
            check_text(pathlib.Path(name), text, types, null, own)

    harness.side_by_side(tally, [lambda own, it=it: ran(own, *it) for it in texts])


PIECES = [b"1", b"a", b"-", b",", b"\n", b"\r\n", b'"', b'""', b'"x"', b'"\n"', b"\r", b" "]
WEIGHTS = [6, 6, 2, 12, 9, 4, 1, 1, 3, 1, 0.3, 1]


def random_text(pick, columns):
    """A text with many rows that are good and, here and there among them, random bytes."""
    good = b"7,a\n" if columns == 2 else b"7\n"
    text = [b"b,c\n" if columns == 2 else b"b\n"]
    for _ in range(pick.randrange(1, 4)):
        text.append(good * pick.choice((0, 3, 9_000, 30_000)))
        text.append(b"".join(pick.choices(PIECES, WEIGHTS, k=pick.randrange(12))) if pick.random() < 0.7 else b"\n" * (columns == 1))
        text.append(b"\n" if pick.random() < 0.8 else b"")
    return b"".join([*text, good * pick.choice((0, 1, 20_000))])


def run_random(seed, tally):
    """A random text of one or two columns beside a table of one cell. It gives the status."""
    pick = random.Random(seed)
    columns = pick.choice((1, 2, 2))
    types = "text" if columns == 1 else "text,text"
    with harness.folder() as name:
        folder = pathlib.Path(name)
        text = random_text(pick, columns)
        options = pick.choice((ON, ON, FULL))
        words = words_of(folder, text, types, pick.choice(("left", "right")), options, pick.choice((None, "-")))
        words = words if pick.random() < 0.6 else shards.delimited(pick, words, folder)
        return both(folder, words, tally, f"random text {seed}", ((pick.choice((1, 3)), pick.choice((1, 2, 7))),)).status


def run_all_random(tally):
    """300 random texts, some of which are of the grammar and some not."""
    statuses = harness.side_by_side(tally, [lambda own, seed=seed: run_random(seed, own) for seed in range(300)])
    tally.check("shards_strict: random texts of both kinds", [] if 30 < statuses.count(3) < 290 else [f"{statuses.count(3)} of 300 have a fault"])


def run_all(tally):
    run_texts(tally)
    run_all_random(tally)
