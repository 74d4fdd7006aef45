"""Makes the workloads of the benchmark: pairs of CSV files of two columns, the key `k` first, of `wide` of twenty, and of `columns_40` of forty.

usage: workloads.py FOLDER [--scale F] [NAME ..]"""
import argparse
import bisect
import itertools
import pathlib
import random

LEFT_ROWS = 4_000_000
RIGHT_ROWS = 1_000_000
SMALL_ROWS = 10_000
# Of twenty columns.
WIDE_LEFT_ROWS = 400_000
WIDE_RIGHT_ROWS = 100_000
WIDE_TEXTS, WIDE_INTS = 10, 7
# Of forty columns, with a key of one of them.
FORTY_LEFT_ROWS = 200_000
FORTY_RIGHT_ROWS = 50_000
FORTY_TEXTS, FORTY_INTS = 24, 15
# How many left rows each right row of `pairs_16` has.
PAIRS = 16
# The words that fill the second column are drawn from this many, so that a file is made quickly.
WORDS = 50_000


# (of `hot` no pair is kept, so that the join is all that it does: each left text is before each right one)
CLAUSES = {"inner": "JOIN USING (k)", "full": "FULL JOIN USING (k)", "hot": "JOIN ON L.k = R.k AND L.a > R.b", "wide": "JOIN USING (k1, k2, k3)", "forty": "JOIN USING (k)"}
# How many texts and whole numbers stand beside the key, where it isn't one text.
OTHERS = {"wide": (WIDE_TEXTS, WIDE_INTS), "forty": (FORTY_TEXTS, FORTY_INTS)}


class Workload:
    """Two files, how many rows they have, and what is asked of them."""

    def __init__(self, name, keys, kind, left, right, draw):
        self.name = name
        self.keys = keys
        self.kind = kind
        self.left = left
        self.right = right
        self.draw = draw

    def clause(self):
        return CLAUSES[self.kind]

    def types(self):
        """The types of both tables' columns."""
        texts, numbers = OTHERS.get(self.kind, (1, 0))
        others = ["text"] * texts + ["int"] * numbers
        return ",".join([self.keys, *others])

    def options(self):
        """A table of so few rows is one piece, unless pieces are asked to be small."""
        return ["--piece=1024"] if self.kind == "hot" else []

    def file(self, folder, side):
        return pathlib.Path(folder) / f"{self.name}.{side}.csv"


def uniform(source, rows, keys):
    """Each row's key is any of the keys."""
    return (int(source.random() * keys) for _ in range(rows))


def zipf(exponent):
    """Keys by Zipf's law: the key of rank r comes in proportion to 1 / r ** exponent."""

    def draw(source, rows, keys):
        names = list(range(keys))
        source.shuffle(names)
        sums = list(itertools.accumulate((rank + 1) ** -exponent for rank in range(keys)))
        return (names[min(bisect.bisect(sums, source.random() * sums[-1]), keys - 1)] for _ in range(rows))

    return draw


def half(source, rows, keys):
    """Half of the rows have a key that the other table has."""
    return (int(source.random() * keys * 2) for _ in range(rows))


def hot(source, rows, keys):
    """Half of the rows have one key, the others one each."""
    return (0 if row % 2 else 1 + row for row in range(rows))


def hot_left(source, rows, keys):
    """Half of the rows have one key, the others any of the keys."""
    return (7 if row % 2 else int(source.random() * keys) for row in range(rows))


WORKLOADS = [
    Workload("foreign_key", "int", "inner", LEFT_ROWS, RIGHT_ROWS, uniform),
    Workload("zipf_1.00", "int", "inner", LEFT_ROWS, RIGHT_ROWS, zipf(1.0)),
    Workload("zipf_1.25", "int", "inner", LEFT_ROWS, RIGHT_ROWS, zipf(1.25)),
    Workload("text_key", "text", "inner", LEFT_ROWS, RIGHT_ROWS, uniform),
    Workload("numeric_key", "num(12,2)", "inner", LEFT_ROWS, RIGHT_ROWS, uniform),
    Workload("full_half", "int", "full", LEFT_ROWS, RIGHT_ROWS, half),
    Workload("wide", "int,text,int", "wide", WIDE_LEFT_ROWS, WIDE_RIGHT_ROWS, uniform),
    Workload("columns_40", "int", "forty", FORTY_LEFT_ROWS, FORTY_RIGHT_ROWS, uniform),
    Workload("pairs_16", "int", "inner", LEFT_ROWS, LEFT_ROWS // PAIRS, uniform),
    Workload("small", "int", "inner", SMALL_ROWS, SMALL_ROWS, uniform),
    Workload("hot_key", "int", "hot", 2 * SMALL_ROWS, 2 * SMALL_ROWS, hot),
]

# Those of joins in shards alone.
OF_SHARDS = [Workload("hot_left", "int", "inner", LEFT_ROWS, RIGHT_ROWS, hot_left)]


def spelled(workload, key):
    """A key as it stands in the file; a text key has 16 bytes, a numeric one two digits after the point."""
    if workload.keys == "num(12,2)":
        return f"{key // 100}.{key % 100:02}"
    return str(key) if workload.keys == "int" else f"{key * 0x9E3779B97F4A7C15 % 2**64:016x}"


def write(path, header, keys, source):
    words = [f"{header[-2]}{source.getrandbits(60):015x}" for _ in range(WORDS)]
    with open(path, "w", newline="", buffering=1 << 20) as file:
        file.write(header)
        for key in keys:
            file.write(f"{key},{words[int(source.random() * WORDS)]}\n")


def spelled_wide(key):
    """A key of three columns."""
    return f"{key % 1000},{key * 0x9E3779B97F4A7C15 % 2**32:08x},{key // 1000}"


def write_wide(path, letter, kind, keys, source):
    """Rows of a key, texts of which one in four has commas and quotes, and whole numbers."""
    texts, numbers = OTHERS[kind]
    words = [f"{letter}{source.getrandbits(40):010x}" for _ in range(WORDS)]
    words[::4] = [f'"{word[:5]}, ""{word[5:]}"" x"' for word in words[::4]]
    names = ["k1,k2,k3" if kind == "wide" else "k", *(f"{letter}{i}" for i in range(texts + numbers))]
    with open(path, "w", newline="", buffering=1 << 20) as file:
        file.write(",".join(names) + "\n")
        for key in keys:
            cells = [*source.choices(words, k=texts), *(str(source.getrandbits(20)) for _ in range(numbers))]
            file.write(",".join([spelled_wide(key) if kind == "wide" else str(key), *cells]) + "\n")


def make(workload, folder, scale):
    """Writes both files of a workload: the right table has each key once, in any order, but of `hot`."""
    left, right = max(1, int(workload.left * scale)), max(1, int(workload.right * scale))
    source = random.Random(f"radixjoin benchmark {workload.name}")
    numbers = list(range(right))
    source.shuffle(numbers)
    drawn = workload.draw(source, left, right)
    if workload.kind in OTHERS:
        write_wide(workload.file(folder, "left"), "a", workload.kind, drawn, source)
        write_wide(workload.file(folder, "right"), "b", workload.kind, numbers, source)
        return
    write(workload.file(folder, "left"), "k,a\n", (spelled(workload, key) for key in drawn), source)
    others = workload.draw(source, right, left) if workload.kind == "hot" else numbers
    write(workload.file(folder, "right"), "k,b\n", (spelled(workload, key) for key in others), source)


def main():
    words = argparse.ArgumentParser(description=__doc__)
    words.add_argument("folder", type=pathlib.Path)
    words.add_argument("names", nargs="*")
    words.add_argument("--scale", type=float, default=1.0)
    given = words.parse_args()
    given.folder.mkdir(parents=True, exist_ok=True)
    for workload in [*WORKLOADS, *OF_SHARDS]:
        if workload.name in given.names or not given.names and workload in WORKLOADS:
            make(workload, given.folder, given.scale)
            print(workload.name)


if __name__ == "__main__":
    main()
