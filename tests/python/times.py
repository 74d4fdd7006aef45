"""How much of the processor this process takes for many rows, and for large frames, in terms of what Python's `csv` and pandas take for as
many: of what the program takes nothing is counted."""
import csv
import gc
import io
import time

import telling

import radixjoin

try:
    import pandas
except ImportError:
    pandas = None

ROWS = 100_000
# Times of what the other way takes.
MOST_OF_ROWS, MOST_OF_FRAMES = 2, 5


def taken_by(call):
    """The least time of the processor that two calls take."""

    def once():
        gc.collect()
        before = time.process_time()
        call()
        return time.process_time() - before

    return min(once(), once())


def by_csv(left, right, result):
    """Writes two tables, and reads a result, by Python's own `csv`."""
    for rows in (left, right):
        writer = csv.DictWriter(io.StringIO(), list(rows[0]))
        writer.writerows(rows)
    text = io.StringIO()
    writer = csv.DictWriter(text, list(result[0]))
    writer.writerows(result)
    text.seek(0)
    return sum(1 for _ in csv.DictReader(text))


def rows():
    """Rows that are dicts."""
    left = [{"id": number, "key": number * 7919 % ROWS, "text": f"text {number}"} for number in range(ROWS)]
    right = [{"key": number, "name": f"name of {number}"} for number in range(ROWS)]
    result = [{**row, "name": f"name of {row['key']}"} for row in left]
    own = taken_by(lambda: sum(1 for _ in radixjoin.join(left, right, using="key")))
    other = taken_by(lambda: by_csv(left, right, result))
    yield from [] if own < MOST_OF_ROWS * other else [f"{own:.2f} s, and {other:.2f} s by csv"]


def frames():
    """Frames of a whole number, a float and a text, joined by the number."""
    left = pandas.DataFrame({"id": [number * 7919 % ROWS for number in range(4 * ROWS)], "x": 0.5, "text": [f"text {number}" for number in range(4 * ROWS)]})
    right = pandas.DataFrame({"id": range(ROWS), "name": [f"name of {number}" for number in range(ROWS)]})
    own = taken_by(lambda: radixjoin.join(left, right, using="id"))
    other = taken_by(lambda: pandas.merge(left, right, on="id"))
    yield from [] if own < MOST_OF_FRAMES * other else [f"{own:.2f} s, and {other:.2f} s by pandas"]


if __name__ == "__main__":
    telling.attempt("the time of many rows", rows)
    if pandas is not None:
        telling.attempt("the time of large frames", frames)
