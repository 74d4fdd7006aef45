"""What is chosen of a joined table (`columns=`, `rows=`, `order=`), how repeated names are written, and what is expected: of rows and
of frames, worked out by hand."""
import decimal

import telling

import radixjoin

try:
    import pandas
except ImportError:
    pandas = None

D = decimal.Decimal
# The join column is the last one of both tables, and its types differ.
LEFT = [("x", 1), ("y", 2), ("z", 4)]
RIGHT = [("oslo", D("2.0")), ("rome", D("2.0")), ("lima", D("5.0"))]
NAMES = {"left_columns": ["name", "id"], "right_columns": ["city", "id"]}
BY_ID = {"using": "id", **NAMES}


def of_columns():
    """The columns of one table, with the one that stands once for both, and their types."""
    cases = (
        ({**BY_ID, "how": "outer", "columns": "left"}, ("id", "name"), [(2, "y"), (2, "y"), (1, "x"), (4, "z"), (5, None)]),
        ({**BY_ID, "how": "outer", "columns": "right"}, ("id", "city"), [(2, "oslo"), (2, "rome"), (1, None), (4, None), (5, "lima")]),
        ({"natural": True, **NAMES, "columns": "right"}, ("id", "city"), [(2, "oslo"), (2, "rome")]),
        ({"on": "L.id = R.id", **NAMES, "columns": "right"}, ("city", "id"), [("oslo", 2), ("rome", 2)]),
        ({"how": "cross", **NAMES, "columns": "left"}, ("name", "id"), [row for row in LEFT for _ in RIGHT]),
    )
    for named, names, wanted in cases:
        rows = radixjoin.join(LEFT, RIGHT, **named)
        yield from telling.differs(f"{named}", (rows.columns, list(rows)), (names, wanted))
    rows = radixjoin.join(LEFT, RIGHT, **BY_ID, how="outer", columns="right")
    yield from telling.differs("their types", rows.types, ("num(18,1)", "text"))
    yield from telling.differs("their scale", [str(row[0]) for row in rows], ["2.0", "2.0", "1.0", "4.0", "5.0"])


def of_rows():
    """Some kinds of rows, and each left row at its place."""
    cases = (
        ({"how": "left", "rows": "lone-left", "columns": "left"}, [(1, "x"), (4, "z")]),
        ({"rows": "matched-left", "columns": "left"}, [(2, "y")]),
        ({"how": "outer", "rows": "lone-left,lone-right"}, [(1, "x", None), (4, "z", None), (5, None, "lima")]),
        ({"how": "left", "order": "left"}, [(1, "x", None), (2, "y", "oslo"), (2, "y", "rome"), (4, "z", None)]),
        ({"how": "outer", "order": "left"}, [(1, "x", None), (2, "y", "oslo"), (2, "y", "rome"), (4, "z", None), (5, None, "lima")]),
    )
    for named, wanted in cases:
        yield from telling.differs(f"{named}", list(radixjoin.join(LEFT, RIGHT, **BY_ID, **named)), wanted)
    counts = radixjoin.stats(LEFT, RIGHT, **BY_ID, how="left", rows="lone-left", columns="left")
    yield from telling.differs("counts are of all rows", (counts.pairs, counts.lone_left, counts.rows), (2, 2, 4))


def of_names():
    """Names that stand twice."""
    for repeated, name in (("qualify", "R.id"), ("_right", "id_right"), ("keep", "id"), (None, "id")):
        rows = radixjoin.join(LEFT, RIGHT, on="L.id = R.id", repeated=repeated, **NAMES)
        yield from telling.differs(f"{repeated}", (rows.columns, next(rows)), (("name", "id", "city", name), ("y", 2, "oslo", 2)))
        rows.close()
    rows = radixjoin.join([{"id": 1, "x": "a"}], [{"ID": 1, "x": "b"}], on="L.id = R.ID", repeated="qualify")
    yield from telling.differs("of mappings", list(rows), [{"id": 1, "x": "a", "R.ID": 1, "R.x": "b"}])
    error = telling.raised(radixjoin.join, [{"id": 1}], [{"id": 1}], on="L.id = R.id")
    yield from [] if isinstance(error, ValueError) and "repeated=" in str(error) else [f"of mappings, kept: {error!r}"]


def of_expectations():
    """A joined table that isn't as expected is a fault of its own class; a key that stands twice and meets nothing is none."""
    for named in ({"expect": "many-to-one"}, {"expect": "one-to-one"}, {"max_rows": 1}, {"how": "outer", "max_rows": 4}):
        for call in (radixjoin.join, radixjoin.stats):
            fault = telling.raised(call, LEFT, RIGHT, **BY_ID, **named)
            got = (type(fault).__name__, getattr(fault, "status", None), getattr(fault, "line", fault))
            yield from telling.differs(f"{call.__name__} {named}", got, ("ExpectationFault", 7, "radixjoin: E30 NotAsExpected"))
    for named in ({"expect": "one-to-many"}, {"how": "outer", "max_rows": 5}, {"how": "outer", "expect": "one-to-many", "max_rows": 5}):
        yield from telling.differs(f"{named}", radixjoin.stats(LEFT, RIGHT, **BY_ID, **named).pairs, 2)
    twice = [("x", 7), ("y", 7), ("z", None), ("z", None)]
    yield from telling.differs("keys without a partner", radixjoin.stats(twice, RIGHT, **BY_ID, how="left", expect="one-to-one").rows, 4)


def of_frames():
    """The columns of one table keep their dtypes; one that stands once has a dtype for the cells of both."""
    left = pandas.DataFrame({"name": pandas.Series(["x", "y"], dtype="category"), "id": [1, 2]})
    right = pandas.DataFrame({"city": pandas.Series(["oslo", "lima"], dtype="string"), "id": pandas.Series([2, 5], dtype="Int16")})
    for which, names, dtypes, cells in (
        ("left", ["id", "name"], ["Int64", "category"], [[2, "y"], [1, "x"], [5, None]]),
        ("right", ["id", "city"], ["Int64", "string"], [[2, "oslo"], [1, None], [5, "lima"]]),
        ("all", ["id", "name", "city"], ["Int64", "category", "string"], [[2, "y", "oslo"], [1, "x", None], [5, None, "lima"]]),
    ):
        got = radixjoin.join(left, right, using="id", how="outer", columns=which)
        rows = [[None if pandas.isna(cell) else cell for cell in row] for row in got.itertuples(index=False, name=None)]
        yield from telling.differs(which, (list(got.columns), list(map(str, got.dtypes)), rows), (names, dtypes, cells))
    got = radixjoin.join(left, right, using="id", how="left", rows="lone-left", columns="left")
    yield from telling.differs("rows without a partner", (got.values.tolist(), list(got.index)), ([[1, "x"]], [0]))


def main():
    for test in [of_columns, of_rows, of_names, of_expectations, *([of_frames] if pandas is not None else [])]:
        telling.attempt(f"what is chosen {test.__name__.replace('_', ' ')}", test)


if __name__ == "__main__":
    main()
