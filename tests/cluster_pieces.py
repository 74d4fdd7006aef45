"""Shards that are joined in pieces, one task after another and without Dask, beside `radixjoin`: random joins with keys that many rows
have, of files that are cut into ranges, where no table that a join is handed may be longer than its share of the limit; rows that
are longer; shards with rows on one side alone; parts that were changed on the disk; and how rows are cut into runs.

usage: cluster_pieces.py [RUNS [FIRST]]

RUNS random joins from the seed FIRST on (200 from 0, where they aren't given). The last line is 'N passed, M failed'."""
import contextlib
import itertools
import pathlib
import random
import sys
import zlib
from unittest import mock

import harness
import shards
import shards_scratch

from radixjoin import spread, text

SCRIPT = shards.SCRIPT
RUNS = 200
KINDS = ("JOIN", "LEFT JOIN", "RIGHT JOIN", "FULL JOIN", "FULL JOIN")
# (by the latter ones rows of the key that many have are in no pair, or in few)
CONDITIONS = ("USING (k)", "ON L.k = R.k", "USING (k, n)", "ON L.k = R.k AND L.n > R.n", "ON L.k = R.k AND L.n = 3 AND R.n < 1", "ON L.k = R.k AND (L.a <> R.b AND R.n = 0)", "ON L.a = R.b", "ON L.n = R.k AND L.k = R.n")
ROWS = ("pairs", "lone-left", "lone-right")
TEXTS = ("plain", '"a, b"', '"two\nlines"', '"say ""x"""', "", '"\n"', "-")
WIDE = f'"{"wide " * 40}\n"'


class Twice(shards.OneByOne):
    """Runs each task twice, as Dask may."""

    def answers(self, words):
        words = list(words)
        return [late for _, late in zip(super().answers(words), super().answers(words))]


class Tables:
    """The tables that the joins of runs were handed: of each join's left and right one how many bytes its rows have, and how many rows
    there are."""

    def __init__(self):
        self.of_runs = {}

    def of_join(self, job, one, ranges, otherwise=SCRIPT.tables_of):
        """The tables of a join, the sizes of which are noted as they are read."""
        sizes = self.of_runs.setdefault(job.folder(), {})[one.name()] = [(0, 0), (0, 0)]
        return [(word, self.noted(rows, sizes, number)) for number, (word, rows) in enumerate(otherwise(job, one, ranges))]

    def noted(self, chunks, sizes, number):
        """The bytes of a table, the sizes of which are noted at the end."""
        with contextlib.closing(chunks):
            whole = b""
            for chunk in chunks:
                whole += chunk
                yield chunk
        rows = text.split_header(whole)[1]
        sizes[number] = (len(rows), text.records_in(rows))

    def of(self, folder):
        """The tables of a run with its scratch folder in this one."""
        return self.of_runs.get(str(folder.resolve()), {})


TABLES = Tables()


@contextlib.contextmanager
def patched():
    """While this goes on small files are cut into ranges, and tables of joins are noted. It isn't begun in a thread."""
    with mock.patch.object(SCRIPT, "cuts_of", cuts_of), mock.patch.object(SCRIPT, "tables_of", TABLES.of_join):
        yield


def faults_of_tables(tables, limit):
    """The joins that were handed more bytes than the limit, of tables of more rows than one."""
    for name, sizes in tables.items():
        if sum(size for size, _ in sizes) > limit and any(size > limit / 2 and rows > 1 for size, rows in sizes):
            yield f"{name} has {sizes} bytes and rows"


def cuts_of(job, side, count):
    """So many ranges of a small file, in place of those of `shards --cuts`, which leaves it whole."""
    whole = pathlib.Path(job.files[side]).read_bytes()
    # (from behind the header on, before which empty lines may stand)
    ends, at = [], text.end_of_record(whole, len(whole) - len(whole.lstrip(b"\r\n")))
    while at < len(whole):
        ends.append(at)
        at = text.end_of_record(whole, at)
    places = [0, *sorted({ends[number * len(ends) // count] for number in range(1, count)} if ends else ())]
    return list(zip(places, [*places[1:], None]))


def joined(words, folder, ranges, limit, cluster=shards.OneByOne):
    """A run with so many bytes as the limit: how it ended, and the tables that its joins were handed."""
    ran = shards.joined([*words, f"--spread={limit}"], folder, ranges, cluster=cluster)
    return ran, TABLES.of(folder)


def rows_of(pick, count, hot):
    """Rows of a key, which many have where it is a hot one, a number and a text; some are null."""
    lines = []
    for number in range(count):
        key = 1 if pick.random() < hot else pick.choice(("", *range(9)))
        lines.append(f"{key},{pick.choice(('', *range(5)))},{pick.choice(TEXTS)}\n")
    if pick.random() < 0.1 and count:
        lines[pick.randrange(count)] = f"1,2,{WIDE}\n"
    return "".join(lines)


def words_of(pick, folder):
    """Two tables, and the words that join them."""
    hots = pick.choice(((0.9, 0.1), (0.1, 0.9), (0.6, 0.6), (0, 0)))
    words = []
    for side, names, hot in zip(SCRIPT.SIDES, ("k,n,a", "k,n,b"), hots):
        (folder / f"{side}.csv").write_text(f"{names}\n" + rows_of(pick, pick.choice((0, 1, 12, 25, 25)), hot), newline="")
        words += [f"--{side}={folder}/{side}.csv", f"--{side}-types=int,num(3,1),text"]
    condition = pick.choice(CONDITIONS)
    kind = pick.choice(KINDS)
    rows = [] if pick.random() < 0.5 else [f"--rows={','.join(pick.sample(ROWS, pick.randrange(1, 4)))}"]
    order, strict = pick.choice(([], ["--order=left"])), pick.choice(([], [], ["--strict"]))
    nulls = pick.choice(([], [], ["--null=-"], ["--left-null=-", "--left-null=", "--out-null=~"]))
    words += [f"--join={pick.choice((f'NATURAL {kind}', *[f'{kind} {condition}'] * 5))}", *rows, *order, *strict, *nulls]
    return words if pick.random() < 0.6 else shards.delimited(pick, words, folder)


def run_random(seed, tally):
    """One random join beside `radixjoin`. It gives how many joins there were beside those of whole shards, and how it ended."""
    pick = random.Random(f"radixjoin: shards in pieces {seed}")
    with harness.folder() as name:
        folder = pathlib.Path(name)
        words = words_of(pick, folder)
        wanted = harness.run([harness.program("radixjoin"), *words], folder)
        parts, limit = pick.choice((1, 2, 3)), pick.choice((60, 100, 150, 400))
        more = [f"--parts={parts}", f"--merges={pick.choice((1, 3))}"]
        ran, tables = joined([*words, *more], folder, pick.choice((1, 2, 4)), limit, pick.choice((shards.OneByOne, Twice)))
        faults = harness.differences(ran, wanted.stdout, wanted.stderr, wanted.status)
        if "--strict" in words and "--out-null=~" in words:
            # (a cell is looked for that is written as null is)
            faults += [f"{len(tables)} joins of {parts} shards"] if len(tables) > parts else []
        else:
            faults += faults_of_tables(tables, limit)
        tally.check(f"cluster_pieces: {seed}: {words} {more} --spread={limit}", faults)
        return len(tables) - parts, wanted.status


def run_randoms(tally, seeds):
    """Such joins. Where they are many shards were cut in more than a third of them."""
    with patched():
        ran = harness.side_by_side(tally, [lambda own, seed=seed: run_random(seed, own) for seed in seeds])
    if len(ran) >= RUNS:
        cut = sum(joins > 0 for joins, _ in ran)
        tally.check("cluster_pieces: shards that are cut", [] if cut > len(ran) / 3 else [f"in {cut} of {len(ran)} runs"])
        tally.check("cluster_pieces: cells that are written as null is", [] if 3 in {status for _, status in ran} else ["there are none"])
    return ran


# Two tables, the limit, the clause, and how many joins there are of one shard.
CASES = (
    ("a row that is longer", f"1,x\n1,{WIDE}\n1,z\n", "1,y\n", 50, "LEFT JOIN USING (k)", 3),
    ("rows that are longer, and nothing else", f"1,{WIDE}\n1,{WIDE}\n", f"1,{WIDE}\n", 50, "FULL JOIN USING (k)", 2),
    ("one row that is longer", f"1,{WIDE}\n", "", 50, "FULL JOIN USING (k)", 1),
    ("rows on the left alone", "1,abcdefgh\n" * 12, "", 50, "FULL JOIN USING (k)", 12),
    ("rows on the right alone", "", "1,abcdefgh\n" * 12, 50, "FULL JOIN USING (k)", 12),
    ("rows on the left alone, of which none is written", "1,abcdefgh\n" * 12, "", 50, "RIGHT JOIN USING (k)", 12),
    ("rows with a null in their key", ",abcdefgh\n" * 6, ",ijklmnop\n" * 6, 50, "FULL JOIN USING (k)", 9),
    ("rows that just fit", "1,ab\n" * 4, "1,cd\n" * 3, 52, "FULL JOIN USING (k)", 1),
    ("a row too many", "1,ab\n" * 4, "1,cd\n" * 4, 51, "FULL JOIN USING (k)", 4),
)


def run_case(tally, name, left, right, limit, clause, count):
    with harness.folder() as place:
        folder = pathlib.Path(place)
        (folder / "left.csv").write_text(f"k,a\n{left}", newline="")
        (folder / "right.csv").write_text(f"k,b\n{right}", newline="")
        words = shards.placed_in(["--left", "left.csv", "--right", "right.csv", "--left-types", "int,text", "--right-types", "int,text", f"--join={clause}"], folder)
        for order, merges in (("pairs", 1), ("left", 3)):
            more = [f"--order={order}"]
            wanted = harness.run([harness.program("radixjoin"), *words, *more], folder)
            ran, tables = joined([*words, *more, "--parts=1", f"--merges={merges}"], folder, 1, limit)
            faults = harness.differences(ran, wanted.stdout, wanted.stderr, wanted.status) + list(faults_of_tables(tables, limit))
            faults += [] if len(tables) == count else [f"{len(tables)} joins, and not {count}"]
            tally.check(f"cluster_pieces: {name}, {order}, {merges} merges", faults)


def hot_tables(folder, rows=40, condition="L.k = R.k"):
    """Two tables of which all rows have one key, and the words that join them."""
    for side, name in (("left", "a"), ("right", "b")):
        (folder / f"{side}.csv").write_text(f"k,{name}\n" + "".join(f"1,{name}{number}\n" for number in range(rows)))
    tables = ["--left", "left.csv", "--right", "right.csv", "--left-types", "int,text", "--right-types", "int,text"]
    return shards.placed_in([*tables, "--join", f"FULL JOIN ON {condition}", "--parts", "1"], folder)


class Changes(shards.OneByOne):
    """Changes a byte of the rows of a part before the first task of a function begins."""

    def __init__(self, processes, task):
        super().__init__(processes)
        self.task = task

    def answers(self, words):
        words = list(words)
        if words and words[0][0].__name__ == self.task:
            with open(words[0][1].parts_of("right", 0), "r+b") as file:
                file.seek(30)
                file.write(b"x")
        return super().answers(words)


def run_changed(tally):
    """A part that was changed before it is cut, between that and the joins, or before a whole shard is joined, is told."""
    for task, limit in (("cut_side", 200), ("join_shard", 200), ("join_shard", 100_000)):
        with harness.folder() as name:
            folder = pathlib.Path(name)
            words = hot_tables(folder)
            known = {it.name for it in folder.iterdir()}
            try:
                joined(words, folder, 1, limit, lambda count, task=task: Changes(count, task))
                faults = ["it is joined"]
            except FileNotFoundError as error:
                faults = [] if "aren't there as they were written" in str(error) and "right-0" in str(error) else [repr(error)]
            faults += [f"{it.name} was left behind" for it in folder.iterdir() if it.name not in known]
            tally.check(f"cluster_pieces: a part is changed before {task} with a limit of {limit}", faults)


class Looks(shards.OneByOne):
    """Looks how many bytes the parts take before and after shards are joined."""

    taken = ()

    def answers(self, words):
        words = list(words)
        found = super().answers(words[:-1])
        if words[-1][0].__name__ != "join_shard":
            return found + super().answers(words[-1:])
        parts = [pathlib.Path(words[-1][1].parts_of(side, 0)) for side in SCRIPT.SIDES]
        before = sum(path.stat().st_blocks for path in parts)
        found += super().answers(words[-1:])
        self.taken = (before, sum(path.stat().st_blocks for path in parts))
        return found


def run_given_back(tally):
    """The room of a shard's parts is given back by the last of its joins, and not before."""
    with harness.folder() as name:
        folder = pathlib.Path(name)
        if not shards_scratch.can_give_back(folder):
            print("cluster_pieces: no room is given back within a file here")
            return
        looks = Looks(1)
        ran, _ = joined(hot_tables(folder, 3_000, "L.k = R.k AND L.a = R.b"), folder, 1, 40_000, lambda _: looks)
        faults = harness.differences(ran, None) + ([] if looks.taken[0] > 100 > 3 * looks.taken[1] else [f"{looks.taken} blocks of 512 bytes"])
        tally.check("cluster_pieces: room is given back", faults)


def run_many(tally):
    """Runs are made longer where there would be too many joins of a shard; and more joined tables than can be merged are refused
    before they are made."""
    with harness.folder() as name, mock.patch.object(spread, "MOST_JOINS", 10):
        folder = pathlib.Path(name)
        words = hot_tables(folder)
        wanted = harness.run([harness.program("radixjoin"), *words[:-2]], folder)
        ran, tables = joined(words, folder, 1, 50)
        faults = harness.differences(ran, wanted.stdout, wanted.stderr, wanted.status)
        tally.check("cluster_pieces: too many joins of a shard", faults + ([] if 4 <= len(tables) <= 10 else [f"{len(tables)} joins"]))
    with harness.folder() as name, mock.patch.object(spread, "MOST_TABLES", 8):
        folder = pathlib.Path(name)
        ran, tables = joined(hot_tables(folder), folder, 1, 200)
        line = b"radixjoin-cluster: 16 joins are more than the 8 that can be merged here: give --spread more bytes\n"
        tally.check("cluster_pieces: too many joined tables", harness.differences(ran, b"", line, 2) + ([] if not tables else ["they are made"]))


def faults_of_runs(rows, runs, header, files, length):
    """How runs differ from those that rows have to be cut into."""
    found = []
    for stretches, total in runs:
        whole = b"".join(files[path][begin:end] for path, begin, end in stretches)
        if not whole.startswith(header) or zlib.crc32(whole) != total:
            yield f"{harness.shorten(whole)} has another header or sum"
        found.append(whole[len(header) :])
    if b"".join(found) != b"".join(rows):
        yield f"{found} has other rows"
    yield from (f"{harness.shorten(run)} has more than {length} bytes" for run in found if len(run) > length and text.records_in(run) > 1)
    # (two runs that stand beside each other would not have been one)
    if len(found) > 2 * -(-sum(map(len, rows)) // length) + 1 or b"" in found[1:]:
        yield f"{len(found)} runs"
    if max(map(len, rows), default=0) * 20 < length and len(found) > -(-sum(map(len, rows)) // length) + 1 + len(rows) // 400:
        yield f"{len(found)} runs of short rows"


def run_cutting(seed, tally):
    """Random rows in several pieces and files, cut into runs."""
    pick = random.Random(f"radixjoin: runs of rows {seed}")
    header = pick.choice((b"a\n", b'"a\nb",c\n', b"\xef\xbb\xbfk\n"))
    longest, length = pick.choice((3, 40, 200)), pick.choice((1, 7, 50, 900))
    rows = [b'"%s\n""",%d\n' % (b"x" * pick.randrange(longest), number) if pick.random() < 0.3 else b"y" * pick.randrange(longest) + b"\n" for number in range(pick.choice((0, 1, 5, 60, 400)))]
    files, at = {}, 0
    cutting = spread.Cutting(("0", 0, len(header)), header, sum(map(len, rows)), length)
    for number in range(pick.randrange(1, 5)):
        upto = min(len(rows), at + pick.randrange(len(rows) + 1)) if number < 4 else len(rows)
        files[str(number)] = header
        for some in itertools.zip_longest(*[iter(rows[at:upto])] * pick.choice((1, 3, 100)), fillvalue=b""):
            cutting.add(str(number), len(files[str(number)]), b"".join(some))
            files[str(number)] += b"".join(some)
        at = upto
    files["last"] = b"".join(rows[at:])
    cutting.add("last", 0, files["last"])
    tally.check(f"cluster_pieces: runs of rows {seed}", list(faults_of_runs(rows, cutting.end(), header, files, length)))


# The bytes of rows, the length of runs, and the bytes of these.
EVEN = (
    ([10] * 10, 50, [50, 50]),
    ([10] * 11, 50, [30, 40, 40]),
    ([10] * 100, 999, [500, 500]),
    ([14] * 7 + [3], 50, [28, 28, 45]),
    ([3, 60, 60, 3, 3], 50, [3, 60, 60, 6]),
    ([60], 50, [60]),
    ([], 50, [0]),
)


def run_even(tally):
    """Runs have about as many bytes each."""
    for sizes, length, wanted in EVEN:
        cutting = spread.Cutting(("file", 0, 2), b"a\n", sum(sizes), length)
        cutting.add("file", 2, b"".join(b"x" * (size - 1) + b"\n" for size in sizes))
        got = [sum(end - begin for _, begin, end in stretches) - 2 for stretches, _ in cutting.end()]
        tally.check(f"cluster_pieces: rows of {sizes} bytes by {length}", [] if got == wanted else [f"{got}, and not {wanted}"])


def run_limits(tally):
    """The limit, and how long runs are for it."""
    for sizes, asked, wanted in (([1, 2], None, spread.LEAST), ([100 << 20, 0, 0, 0], None, 50 << 20), ([1], 7, 7)):
        got = spread.limit_of(sizes, asked)
        tally.check(f"cluster_pieces: the limit of {sizes}, {asked}", [] if got == wanted else [got])
    for left, right, limit in ((0, 0, 1), (100, 0, 10), (10**9, 10**9, 10**8), (10**9, 10**9, 1), (10**12, 5, 4), (0, 10**6, 3)):
        length = spread.length_of(left, right, limit)
        counts = [max(1, -(-size // length)) for size in (left, right)]
        faults = [f"{counts} runs"] if counts[0] * counts[1] > 4_096 else []
        faults += [f"runs of {length}"] if length < max(1, limit // 2) or length > max(1, limit // 2) and counts[0] * counts[1] < 2_000 else []
        tally.check(f"cluster_pieces: runs of {left} and {right} bytes by {limit}", faults)


def run_all(tally):
    for seed in range(300):
        run_cutting(seed, tally)
    run_even(tally)
    run_limits(tally)
    run_given_back(tally)
    with patched():
        for it in CASES:
            run_case(tally, *it)
        run_changed(tally)
        run_many(tally)
    run_randoms(tally, range(RUNS))


def main(words):
    tally = harness.Tally()
    count, first = [*map(int, words), *(RUNS, 0)[len(words) :]]
    ran = run_randoms(tally, range(first, first + count))
    print(f"{sum(joins for joins, _ in ran)} joins beside those of whole shards")
    print(f"{tally.passed} passed, {tally.failed} failed")
    return 1 if tally.failed else 0


if __name__ == "__main__":
    sys.exit(main(sys.argv[1:]))
