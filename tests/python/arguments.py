"""What fingers know from pandas.merge and elsewhere: each argument that stands for another one, and what is said where there is none."""
import ast
import dataclasses
import pathlib
import sys
import tempfile

import telling

import radixjoin
from radixjoin import joining
from radixjoin.arguments import Arguments

try:
    import pandas
except ImportError:
    pandas = None

LEFT = [{"a": 1, "x": "one"}, {"a": 2, "x": "two"}, {"a": 3, "x": "three"}]
RIGHT = [{"b": 2, "x": "zwei"}, {"b": 2, "x": "deux"}, {"b": 4, "x": "vier"}]
BY_NAMES = {"left_on": "a", "right_on": "b", "repeated": "_r"}


def unread():
    """Rows that nobody may read."""
    raise AssertionError("rows were read")
    yield


def values(result):
    """The cells of rows, or of a frame, a null as None."""
    if isinstance(result, radixjoin.Rows):
        return [tuple(row.values()) for row in result]
    return [tuple(None if pandas.isna(cell) else cell for cell in row) for row in result.itertuples(index=False, name=None)]


def tables():
    """The tables as rows, and as frames where pandas is there."""
    yield LEFT, RIGHT
    if pandas is not None:
        yield pandas.DataFrame(LEFT), pandas.DataFrame(RIGHT)
        yield pandas.DataFrame(LEFT), RIGHT
        yield LEFT, pandas.DataFrame(RIGHT)


PAIRS = [(2, "two", 2, "zwei"), (2, "two", 2, "deux")]
LONE, LONE_RIGHT = [(1, "one", None, None), (3, "three", None, None)], [(None, None, 4, "vier")]
WAYS = [
    ({}, PAIRS),
    ({"how": "left"}, PAIRS + LONE),
    ({"how": "right"}, PAIRS + LONE_RIGHT),
    ({"how": "full"}, PAIRS + LONE + LONE_RIGHT),
    ({"how": "outer"}, PAIRS + LONE + LONE_RIGHT),
    ({"how": "semi"}, [(2, "two")]),
    ({"how": "anti"}, [(1, "one"), (3, "three")]),
    ({"how": "left", "columns": "right"}, [row[2:] for row in PAIRS + LONE]),
    ({"how": "left", "order": "left"}, [LONE[0], *PAIRS, LONE[1]]),
    ({"how": "outer", "rows": "lone-left,lone-right"}, LONE + LONE_RIGHT),
    ({"rows": "matched-left", "columns": "left"}, [(2, "two")]),
    ({"validate": "one_to_many"}, PAIRS),
    ({"validate": "1:m"}, PAIRS),
    ({"validate": "m:m"}, PAIRS),
]


def by_names(left, right):
    """Tables by `left_on` and `right_on`, in each way that there is."""
    for named, wanted in WAYS:
        yield from telling.differs(f"{named}", values(radixjoin.join(left, right, **BY_NAMES, **named)), wanted)
    for validate in ("one_to_one", "1:1", "many_to_one", "m:1"):
        fault = telling.raised(radixjoin.join, left, right, **BY_NAMES, validate=validate)
        yield from [] if isinstance(fault, radixjoin.ExpectationFault) else [f"{validate}: {fault!r}"]
    got = radixjoin.join(left, right, left_on=["a", "x"], right_on=["b", "x"], how="left", repeated="_r")
    yield from telling.differs("two names each", values(got), [(row["a"], row["x"], None, None) for row in LEFT])
    got = radixjoin.join(left, right, left_on="x", right_on="x", how="outer")
    yield from telling.differs("one name for both", list(got.columns), ["x", "a", "b"])
    got.close() if hasattr(got, "close") else None
    for how, wanted in (("semi", [("x", 2)]), ("anti", [("y", 1)])):
        rows = radixjoin.join([("y", 1), ("x", 2)], [(2, 5), (2, 6)], using="id", how=how, columns=(["name", "id"], ["id", "n"]))
        yield from telling.differs(f"the columns of {how} stand as they did", (rows.columns, list(rows)), (("name", "id"), wanted))


def names_of_both(left, right):
    """Names that both tables have, with a suffix for each."""
    for suffixes, wanted in ((("_x", "_y"), ["a", "x_x", "b", "x_y"]), ((None, "_r"), ["a", "x", "b", "x_r"]), (("_l", ""), ["a", "x_l", "b", "x"])):
        got = radixjoin.join(left, right, left_on="a", right_on="b", suffixes=suffixes)
        yield from telling.differs(f"{suffixes}", (list(got.columns), values(got)), (wanted, PAIRS))
    for suffixes in ((None, None), ("", ""), ("_x", "_x")):
        error = telling.raised(radixjoin.join, left, right, left_on="a", right_on="b", suffixes=suffixes)
        yield from [] if isinstance(error, ValueError) and "two columns 'x" in str(error) else [f"{suffixes}: {error!r}"]


def of_which_tables():
    """A column of the tables that a row is of."""
    left, right = pandas.DataFrame(LEFT), pandas.DataFrame(RIGHT)
    for indicator, name in ((True, "_merge"), ("of", "of")):
        got = radixjoin.join(left, right, left_on="a", right_on="b", how="outer", repeated="_r", indicator=indicator)
        wanted = pandas.merge(left, right, left_on="a", right_on="b", how="outer", suffixes=("", "_r"), indicator=indicator)
        yield from telling.differs(f"{indicator}", (list(got.columns), got[name].dtype, sorted(got[name])), (list(wanted.columns), wanted[name].dtype, sorted(wanted[name])))
        yield from telling.differs(f"{indicator}: rows", got[name].to_list(), ["both"] * 2 + ["left_only"] * 2 + ["right_only"])
    yield from telling.differs("none", "_merge" in radixjoin.join(left, right, left_on="a", right_on="b", repeated="_r").columns, False)
    cases = ((left, RIGHT, True, "two frames"), (LEFT, RIGHT, True, "two frames"), (left, right, "a", "'a'"))
    for one, other, indicator, word in cases:
        error = telling.raised(radixjoin.join, one, other, left_on="a", right_on="b", repeated="_r", indicator=indicator)
        yield from [] if isinstance(error, ValueError) and word in str(error) else [f"{indicator} of {type(other)}: {error!r}"]


# What is refused before a row is read or a program is looked for: the class and what is said of each, and the arguments.
REFUSED = [
    (TypeError, "join has no hwo=: did you mean how=?", {"hwo": "left"}),
    (TypeError, "join has no sufixes=: did you mean suffixes=?", {"sufixes": ("a", "b")}),
    (TypeError, "join has no left_index=: an index is no column here: reset_index() first", {"left_index": True}),
    (TypeError, "join has no sort=: order='left' keeps", {"sort": True}),
    (TypeError, "join has no copy=: a result is always made anew", {"copy": False}),
    (TypeError, "join has no report=: radixjoin.stats(.., report=True)", {"report": True}),
    (ValueError, "how='lefft' is none of 'inner', 'left', 'right', 'outer', 'full', 'cross', 'semi' and 'anti'", {"how": "lefft"}),
    (ValueError, "order='right' is none of", {"order": "right"}),
    (ValueError, "columns='lefft' is none of", {"columns": "lefft"}),
    (ValueError, "expect='one_to_one' is none of", {"expect": "one_to_one"}),
    (ValueError, "validate='one-to-one' is none of", {"validate": "one-to-one"}),
    (ValueError, "validate= says what expect= says", {"validate": "1:1", "expect": "one-to-one"}),
    (ValueError, "hash='md5' is none of", {"hash": "md5"}),
    (ValueError, "strict='yes' is none of", {"strict": "yes"}),
    (ValueError, "on='id' is a name alone, and no condition: using='id' joins", {"using": None, "on": "id"}),
    (TypeError, "using=", {"using": None, "on": ["id"]}),
    (ValueError, "left_on= and right_on= are", {"using": None, "left_on": "id"}),
    (ValueError, "left_on= and right_on= are", {"using": None, "left_on": ["id", "x"], "right_on": ["id"]}),
    (ValueError, "left_on= and right_on= say what", {"left_on": "id", "right_on": "id"}),
    (ValueError, "how='semi' says which rows", {"how": "semi", "columns": "left"}),
    (ValueError, "how='anti' says which rows", {"how": "anti", "rows": "pairs"}),
    (ValueError, "how='semi' says which rows", {"using": None, "how": "semi", "clause": "JOIN USING (id)"}),
    (ValueError, "suffixes= is a pair", {"suffixes": ("_x", "_y"), "repeated": "_r"}),
    (ValueError, "suffixes= is a pair", {"suffixes": ("_x", "_y"), "output": "out.csv"}),
    (ValueError, "suffixes= is a pair", {"suffixes": "_x"}),
    (ValueError, "indicator= is for two frames", {"indicator": True, "output": "out.csv"}),
    (TypeError, "join has no sep=: delimiter=", {"sep": ";"}),
    (TypeError, "join has no delimeter=: did you mean delimiter=?", {"delimeter": ";"}),
    (ValueError, "left_delimiter= is of a file, and the left table is none", {"left_delimiter": ";"}),
    (ValueError, "right_delimiter= is of a file, and the right table is none", {"right_delimiter": ";", "output": "out.csv"}),
    (ValueError, "out_delimiter= is of the file that output= names", {"out_delimiter": ";"}),
    (ValueError, "delimiter= is of files, and neither table is one", {"delimiter": ";"}),
]


def refused(folder):
    """Arguments that there aren't, and that don't go together."""
    for kind, told, named in REFUSED:
        error = telling.raised(radixjoin.join, unread(), unread(), **{"using": "id", "program": "nowhere", **named})
        yield from [] if type(error) is kind and told in str(error) else [f"{named}: {error!r}"]
    error = telling.raised(radixjoin.stats, unread(), unread(), using="id", program="nowhere", output="out.csv")
    yield from telling.differs("statistics", repr(error), repr(TypeError("stats has no output=")))
    error = telling.raised(radixjoin.stats, unread(), unread(), using="id", program="nowhere", out_delimiter=";")
    yield from [] if type(error) is TypeError and "stats has no out_delimiter=" in str(error) else [f"statistics with a delimiter: {error!r}"]
    path = folder / "a.csv"
    path.write_text("id\n1\n")
    for left, named, kind in ((path, {}, ValueError), (path, {"left_types": [7]}, TypeError), (unread(), {"left_types": "int"}, ValueError)):
        error = telling.raised(radixjoin.join, left, path, using="id", program="nowhere", **named)
        yield from [] if type(error) is kind and "type" in str(error) else [f"types {named}: {error!r}"]
    if pandas is not None:
        frame = pandas.DataFrame({"id": [1.5], "day": pandas.to_datetime(["2026-01-01"]), "n": [1]})
        for named, word in (({"using": "id"}, "Decimal"), ({"on": "L.day = R.n"}, "is compared with right column 'n', which is number"), ({"on": "L.day > 5"}, "is compared with 5")):
            error = telling.raised(radixjoin.join, frame, frame, program="nowhere", **named)
            yield from [] if type(error) is TypeError and word in str(error) else [f"frames {named}: {error!r}"]
        for table, more in ((path, {"program": "nowhere", "right_types": "int"}), ([{"id": 1}], {}), (frame.assign(id=7), {"program": "nowhere"})):
            error = telling.raised(radixjoin.join, frame, table, on="L.day = R.id", **more)
            yield from [] if type(error) is TypeError and "left column 'day' is datetime64[ns]" in str(error) and "right column 'id', which is number" in str(error) else [f"times and numbers: {error!r}"]
        for condition in ("L.day = R.day AND L.n = 1", "L.day BETWEEN R.day AND L.day AND 2 > L.n OR L.n = R.n", "NOT (L.day <> R.day) OR L.n IN (5, R.n)"):
            error = telling.raised(radixjoin.join, frame, frame, on=condition)
            yield from telling.differs(condition, repr(error), "None")


def suggested(folder):
    """Types that the cells of a file suggest, which can be given for it."""
    path = folder / "-items.csv"
    path.write_text('id,price,"a ""name"", and more",none\n1,1.50,x,~\n~,12,007,~\n')
    types = radixjoin.suggest_types(path, null="~")
    yield from telling.differs("types", types, {"id": "int", "price": "num(6,2)", 'a "name", and more': "text", "none": "text"})
    got = list(radixjoin.join(path, [(1,)], using="id", left_types=types, right_columns=["id"], null="~"))
    yield from telling.differs("a join with them", [tuple(map(str, row)) for row in got], [("1", "1.50", "x", "None")])
    path.write_text('id;"a;b"\n1;1,5\n')
    yield from telling.differs("types by semicolons", radixjoin.suggest_types(path, delimiter=";"), {"id": "int", "a;b": "text"})
    fault = telling.raised(radixjoin.suggest_types, path, delimiter=";;")
    yield from telling.differs("no delimiter", (type(fault), getattr(fault, "line", None)), (radixjoin.LineFault, "radixjoin: E34 BadDelimiter"))
    fault = telling.raised(radixjoin.suggest_types, folder / "nowhere")
    yield from telling.differs("no file", (type(fault), getattr(fault, "code", None)), (radixjoin.DeviceFault, "E19"))


def declared():
    """Each way in which `join` is declared has the arguments that there are, and no other."""
    tree = ast.parse(pathlib.Path(joining.__file__).read_text())
    ways = [[it.arg for it in node.args.kwonlyargs] for node in tree.body if isinstance(node, ast.FunctionDef) and node.name == "join" and node.decorator_list]
    names = sorted({it.name for it in dataclasses.fields(Arguments)} - {"clause", "report"})
    yield from telling.differs("ways", len(ways), 4)
    for way in ways:
        yield from telling.differs("names", sorted(way), names)


def main():
    telling.attempt("declared arguments", declared)
    for left, right in tables():
        of = f"{type(left).__name__} and {type(right).__name__}"
        telling.attempt(f"arguments by names of {of}", by_names, left, right)
        telling.attempt(f"names of both of {of}", names_of_both, left, right)
    with tempfile.TemporaryDirectory(prefix="radixjoin-test-") as name:
        telling.attempt("refused arguments, before anything starts", refused, pathlib.Path(name))
        telling.attempt("suggested types", suggested, pathlib.Path(name))
    if pandas is not None:
        telling.attempt("of which tables a row is", of_which_tables)


if __name__ == "__main__":
    sys.exit(main())
