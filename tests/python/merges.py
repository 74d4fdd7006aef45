"""Each row of the table "From pandas.merge" of docs/user/python.md: what its two sides give beside each other.

usage: merges.py FILE"""
import pathlib
import sys

import pandas
import telling

import radixjoin

LEFT = pandas.DataFrame({"id": [3, 1, 2], "day": [1, 1, 2], "name": ["c", "a", "b"]})
RIGHT = pandas.DataFrame({"id": [2, 2, 4, 1], "day": [2, 9, 1, 8], "city": ["oslo", "bergen", "lima", "bonn"]})
NUMBERED = RIGHT.rename(columns={"id": "nr", "day": "first day"})


def rows(frame):
    """The rows of a frame, in an order that stands on them alone: a null as None, and numbers as such."""
    cells = ([None if pandas.isna(cell) else cell for cell in row] for row in frame.itertuples(index=False, name=None))
    return sorted(cells, key=lambda row: [(cell is None, str(type(cell)), str(cell)) for cell in row])


def same(here, there):
    """Where two frames don't have the same rows, under the same names."""
    names = list(map(str, there.columns))
    yield from telling.differs("columns", sorted(here.columns), sorted(names))
    if sorted(set(names)) == sorted(here.columns):
        yield from telling.differs("rows", rows(here[names]), rows(there))


def kinds():
    for how in ("inner", "left", "right", "outer"):
        yield from same(radixjoin.join(LEFT, RIGHT, using=["id", "day"], how=how), pandas.merge(LEFT, RIGHT, on=["id", "day"], how=how))
    yield from same(radixjoin.join(LEFT, NUMBERED, how="cross"), pandas.merge(LEFT, NUMBERED, how="cross"))


def names():
    left, right = LEFT.drop(columns="day"), RIGHT.drop(columns="day")
    yield from same(radixjoin.join(left, right, using="id"), pandas.merge(left, right, on="id"))
    yield from same(radixjoin.join(LEFT, RIGHT, using=["id", "day"]), pandas.merge(LEFT, RIGHT, on=["id", "day"]))


def no_names():
    yield from same(radixjoin.join(LEFT, RIGHT, natural=True), pandas.merge(LEFT, RIGHT))
    yield from same(radixjoin.join(LEFT, RIGHT.rename(columns={"day": "DAY"}), natural=True), pandas.merge(LEFT, RIGHT))
    yield from telling.differs("no common column", len(radixjoin.join(LEFT, NUMBERED, natural=True)), len(LEFT) * len(RIGHT))


def two_names():
    for how in ("inner", "left", "right", "outer"):
        for left_on, right_on in (("id", "nr"), (["id", "day"], ["nr", "first day"])):
            yield from same(radixjoin.join(LEFT, NUMBERED, left_on=left_on, right_on=right_on, how=how), pandas.merge(LEFT, NUMBERED, left_on=left_on, right_on=right_on, how=how))


def partly_two_names():
    named = {"left_on": ["id", "day"], "right_on": ["id", "first day"]}
    right = RIGHT.rename(columns={"day": "first day"})
    here, there = radixjoin.join(LEFT, right, **named), pandas.merge(LEFT, right, **named)
    yield from telling.differs("columns", (list(here.columns), list(there.columns)), (["id", "day", "name", "id", "first day", "city"], ["id", "day", "name", "first day", "city"]))
    yield from telling.differs("rows", rows(here.loc[:, ~here.columns.duplicated()]), rows(there))


def an_index():
    left, right = LEFT.drop(columns="day").set_index("id"), RIGHT.drop(columns="day").set_index("id")
    there = pandas.merge(left, right, left_index=True, right_index=True).reset_index()
    yield from same(radixjoin.join(left.reset_index(), right.reset_index(), using="id"), there)
    error = telling.raised(radixjoin.join, left, right, left_index=True, right_index=True)
    yield from [] if isinstance(error, TypeError) and "reset_index()" in str(error) else [repr(error)]


def suffixes():
    for pair in (("_x", "_y"), (None, "_right")):
        yield from same(radixjoin.join(LEFT, RIGHT, using="id", suffixes=pair), pandas.merge(LEFT, RIGHT, on="id", suffixes=pair))
    for named, wanted in (({}, ["day", "day"]), ({"repeated": "_right"}, ["day", "day_right"]), ({"repeated": "qualify"}, ["day", "R.day"])):
        yield from telling.differs(f"{named}", [name for name in radixjoin.join(LEFT, RIGHT, using="id", **named).columns if "day" in name], wanted)


def sorting():
    left, right = LEFT.drop(columns="day"), RIGHT.drop(columns="day")
    here, there = radixjoin.join(left, right, using="id").sort_values(["id", "city"]), pandas.merge(left, right, on="id", sort=True).sort_values(["id", "city"])
    yield from telling.differs("rows", here.values.tolist(), there.values.tolist())
    yield from [] if "sort_values" in str(telling.raised(radixjoin.join, left, right, using="id", sort=True)) else ["nothing is said"]


def indicator():
    left, right = LEFT.drop(columns="day"), RIGHT.drop(columns="day")
    yield from same(radixjoin.join(left, right, using="id", how="outer", indicator=True), pandas.merge(left, right, on="id", how="outer", indicator=True))
    counts = radixjoin.stats(left, right, using="id", how="outer")
    kinds_of_rows = pandas.merge(left, right, on="id", how="outer", indicator=True)["_merge"].value_counts()
    yield from telling.differs("counts", [counts.pairs, counts.lone_left, counts.lone_right], [kinds_of_rows[it] for it in ("both", "left_only", "right_only")])


def anti():
    there = pandas.merge(LEFT, RIGHT[["id"]], on="id", how="left", indicator=True).query("_merge == 'left_only'")[list(LEFT.columns)]
    yield from same(radixjoin.join(LEFT, RIGHT, using="id", how="anti"), there)
    yield from same(radixjoin.join(LEFT, RIGHT, using="id", how="left", rows="lone-left", columns="left"), there)


def semi():
    there = LEFT[LEFT["id"].isin(RIGHT["id"])]
    yield from same(radixjoin.join(LEFT, RIGHT, using="id", how="semi"), there)
    yield from telling.differs("columns and rows", radixjoin.join(LEFT, RIGHT, using="id", how="semi").values.tolist(), there.values.tolist())


def validate():
    for validate_, expect, right, is_so in (
        ("one_to_one", "one-to-one", RIGHT[1:], True),
        ("one_to_one", "one-to-one", RIGHT, False),
        ("one_to_many", "one-to-many", RIGHT, True),
        ("many_to_one", "many-to-one", RIGHT, False),
    ):
        there = telling.raised(pandas.merge, LEFT, right, on="id", validate=validate_)
        for named in ({"validate": validate_}, {"expect": expect}):
            here = telling.raised(radixjoin.join, LEFT, right, using="id", **named)
            yield from [] if isinstance(here, radixjoin.ExpectationFault) == isinstance(there, pandas.errors.MergeError) == (not is_so) else [f"{named}: {here!r}, {there!r}"]


def copy():
    here = radixjoin.join(LEFT, RIGHT, using="id", columns="left")
    here.loc[:, "name"] = "changed"
    yield from telling.differs("what came in", LEFT["name"].to_list(), ["c", "a", "b"])
    yield from [] if "made anew" in str(telling.raised(radixjoin.join, LEFT, RIGHT, using="id", copy=False)) else ["nothing is said"]


def a_condition():
    right = pandas.DataFrame({"id": [1, 1, 2], "first": [0, 5, 3], "last": [1, 9, 4]})
    condition = "L.id = R.id AND L.day BETWEEN R.first AND R.last"
    there = pandas.merge(LEFT, right, on="id").query("first <= day <= last")
    yield from telling.differs("inner", rows(radixjoin.join(LEFT, right, on=condition)[["name", "first"]]), rows(there[["name", "first"]]))
    here = radixjoin.join(LEFT, right, on=condition, how="left")
    yield from telling.differs("left", rows(here[["name", "first"]]), [["a", 0], ["b", None], ["c", None]])


TESTS = (kinds, names, no_names, two_names, partly_two_names, an_index, suffixes, sorting, indicator, anti, semi, validate, copy, a_condition)


def main(page):
    lines = pathlib.Path(page).read_text().partition("## From pandas.merge")[2].splitlines()
    table = [line for line in lines[: lines.index("What differs, and why:")] if line.startswith("| ")][1:]
    telling.tell("rows of the table from pandas.merge", telling.differs("rows", len(table), len(TESTS)))
    for line, test in zip(table, TESTS):
        telling.attempt(f"from pandas.merge: {line[2:].partition(' | ')[0]}, {test.__name__}", test)


if __name__ == "__main__":
    main(sys.argv[1])
