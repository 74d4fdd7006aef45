"""The bound on skew. Where keys come by Zipf's law with exponent 1.25, or one key has half of all rows of a side, on the left, on the right or
on both sides, no join is handed more bytes of both tables than twice the mean of all shards, by the rule or by `--spread`: the bytes
of the rows with their places, as each join reads them, without headers. The bytes of the result are those of `radixjoin`. The only
joins that are handed more are those of a row that is longer than half of that, which stands alone in its run, and those of a shard that
would have more than 4,096 joins: it has fewer, of longer runs.

By programs of this machine that run side by side."""
import argparse
import collections
import pathlib
import random
from unittest import mock

import cluster_pieces
import harness
import shards

from radixjoin import local, spread

SCRIPT = shards.SCRIPT
PARTS, RANGES, MOST_JOINS = 16, 3, 4_096
KEYS, EXPONENT = 5_000, 1.25
# The letters of a long row.
LONG = 4_000


def zipf(pick, rows):
    """Keys by Zipf's law: the key of rank r comes in proportion to 1 / r ** 1.25. A key has one rank in all tables."""
    names = random.Random("radixjoin: names of keys").sample(range(KEYS), KEYS)
    return pick.choices(names, [(rank + 1) ** -EXPONENT for rank in range(KEYS)], k=rows)


def hot(key, share):
    """A share of all rows has one key, or none, and each of the others any."""

    def draw(pick, rows):
        count = int(rows * share)
        return pick.sample([key] * count + [pick.randrange(KEYS) for _ in range(rows - count)], rows)

    return draw


def each(pick, rows):
    """Each key as often as any other one."""
    return pick.sample([row % KEYS for row in range(rows)], rows)


HALF = hot(7, 1 / 2)
# The keys and the rows of both tables, and further options. Where both have keys of many rows these are few, since pairs multiply. (Of
# a tenth of all rows a shard has more bytes than the bound, and neither of its sides alone has.)
CASES = (
    ("Zipf's law on the left", (zipf, 20_000), (each, 5_000), []),
    ("Zipf's law on the right", (each, 5_000), (zipf, 20_000), ["--order=left", "--merges=3"]),
    ("Zipf's law on both sides", (zipf, 1_000), (zipf, 600), ["--merges=2"]),
    ("half of the left rows of one key", (HALF, 20_000), (each, 5_000), ["--merges=3"]),
    ("half of the right rows of one key", (each, 5_000), (HALF, 20_000), []),
    ("half of both tables' rows of one key", (HALF, 600), (HALF, 400), ["--order=left"]),
    ("a tenth of both tables' rows of one key", (hot(7, 1 / 10), 2_000), (hot(7, 1 / 10), 1_800), []),
    ("half of both tables' rows without a key", (hot("", 1 / 2), 10_000), (hot("", 1 / 2), 5_000), []),
)


def write_tables(folder, left, right, long=()):
    """Writes two tables with such keys, of which these sides have a long row of the key 7, and gives the words that join them."""
    words = []
    for side, name, (draw, rows) in zip(SCRIPT.SIDES, "ab", (left, right)):
        lines = [f"{key},{name}{row}\n" for row, key in enumerate(draw(random.Random(f"radixjoin: skew {side}"), rows))]
        lines += [f"7,{name * LONG}\n"] * (side in long)
        (folder / f"{side}.csv").write_text(f"k,{name}\n" + "".join(lines))
        words += [f"--{side}={folder}/{side}.csv", f"--{side}-types=int,text"]
    return [*words, "--join=FULL JOIN USING (k)"]


def bytes_and_rows(folder, side):
    """The bytes that a side's rows have with their places, which in each range count on from the byte where it begins; and the rows."""
    path, total, rows = folder / f"{side}.csv", 0, 0
    whole = path.read_bytes()
    for begin, end in cluster_pieces.cuts_of(argparse.Namespace(files={side: path}), side, RANGES):
        lines = whole[begin:end].splitlines(keepends=True)[begin == 0 :]
        total += sum(len(f"{begin + number},") + len(line) for number, line in enumerate(lines))
        rows += len(lines)
    return total, rows


def joined(words, folder, more):
    """A run: how it ended, and for each of its joins how many bytes and rows of both tables it was handed."""
    cluster_pieces.TABLES.of(folder).clear()
    ran = shards.joined([*words, *more], folder, RANGES, cluster=lambda count: local.Machine(count, False))
    return ran, dict(cluster_pieces.TABLES.of(folder))


def added(sizes):
    """The bytes and the rows of several tables together."""
    return tuple(map(sum, zip(*sizes)))


def sizes_of_shards(tables):
    """The bytes and the rows of both sides of each shard. Each run of one side is in a join with each of the other, and counted in the first
    of these."""
    found = collections.defaultdict(lambda: ([], []))
    for name, (left, right) in tables.items():
        _, part, left_run, right_run = name.split("-")
        found[part][0].extend([left] if int(right_run) == 0 else [])
        found[part][1].extend([right] if int(left_run) == 0 else [])
    return [(added(lefts), added(rights)) for lefts, rights in found.values()]


def faults_of_bound(tables, wanted, bound, is_long):
    """Joins that were handed more bytes than they may, and shards that have too many joins; and where not all rows were counted, or no shard
    has more bytes than the bound. A row may be longer than half of it where there is such a one."""
    sizes = sizes_of_shards(tables)
    counted = [added(of_side) for of_side in zip(*sizes)]
    if counted != wanted:
        yield f"{counted} bytes and rows, and not {wanted}"
    if max(left + right for (left, _), (right, _) in sizes) <= bound:
        yield f"no shard has more than {bound} bytes"
    over = {name: them for name, them in tables.items() if added(them)[0] > bound}
    if bool(over) != is_long:
        yield f"{len(over)} joins have more than {bound} bytes: {harness.shorten(over)}"
    yield from (f"{name} has {them} bytes and rows" for name, them in over.items() if any(size > bound / 2 and rows > 1 for size, rows in them))
    counts = collections.Counter(name.split("-")[1] for name in tables)
    yield from (f"{count} joins of shard {part}" for part, count in counts.items() if count > MOST_JOINS)


def run_case(name, left, right, more, tally, long=()):
    """One of the cases, by the rule and by `--spread`."""
    with harness.folder() as place:
        folder = pathlib.Path(place)
        words = write_tables(folder, left, right, long)
        alone = harness.run([harness.program("radixjoin"), *words, *(it for it in more if "order" in it)], folder)
        wanted = [bytes_and_rows(folder, side) for side in SCRIPT.SIDES]
        bound = 2 * sum(size for size, _ in wanted) / PARTS
        for given in ([], [f"--spread={int(bound)}"]):
            ran, tables = joined(words, folder, [*more, f"--parts={PARTS}", *given])
            faults = harness.differences(ran, alone.stdout, alone.stderr, alone.status)
            tally.check(f"cluster_skew: {name} {more} {given}", [*faults, *faults_of_bound(tables, wanted, bound, bool(long))])


class Planned(Exception):
    """The joins that there are to be."""


class Plans(shards.OneByOne):
    """Joins nothing, and tells the joins that there are to be."""

    def answers(self, words):
        words = list(words)
        if words[0][0].__name__ == "join_shard":
            raise Planned([one for _, _, one, *_ in words])
        return super().answers(words)


def run_most(tally):
    """A shard of all rows of both sides, of which joins of twice the mean would be 128 times 128: they are made larger, and no more than
    4,096."""
    with harness.folder() as place, mock.patch.object(SCRIPT, "most_tables", lambda files: 16_384):
        folder = pathlib.Path(place)
        words = write_tables(folder, (hot(7, 1), 2_000), (hot(7, 1), 2_000))
        count = 0
        try:
            shards.joined([*words, "--parts=256"], folder, RANGES, cluster=Plans)
        except Planned as planned:
            (joins,) = planned.args
            count = max(collections.Counter(it.part for it in joins).values())
        tally.check("cluster_skew: the most joins of a shard", [] if MOST_JOINS / 2 < count <= MOST_JOINS else [f"{count} joins"])


def run_all(tally):
    with cluster_pieces.patched(), mock.patch.object(spread, "LEAST", 1):
        tasks = [lambda own, it=it: run_case(*it, own) for it in CASES]
        few = ((HALF, 600), (HALF, 400), [])
        tasks += [lambda own, it=it: run_case(f"a row that is longer on {it}", *few, own, it) for it in (("left",), ("right",), SCRIPT.SIDES)]
        harness.side_by_side(tally, [*tasks, run_most])
