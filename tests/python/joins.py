"""Random joins by the package `radixjoin`, over frames, rows and files, beside the plain joined table of tests/reference.py.

usage: joins.py FROM TO      the joins with these numbers, told by hundreds

Cells, their classes and the dtypes of frames have to come out exactly. Without pandas frames are left out."""
import csv
import decimal
import io
import os
import pathlib
import random
import sys
import tempfile

import telling

sys.path[:0] = [str(pathlib.Path(__file__).resolve().parent.parent)]
import reference

import radixjoin

try:
    import pandas
except ImportError:
    pandas = None

FEW_TEXTS = ["", "x", "y", "it's"]
# What has to be quoted, what can be read as something else, and what stands for a null somewhere.
TEXTS = FEW_TEXTS + ['a"b', '"', "p,q", "é", "\ufeffz", "line\nbreak", "\r\n", "\r", "nul\0", " ", "\\N", "NULL", "null", "~", "-", "?", "None", "~a"]
TYPES = ("int", "text", "num(5,2)", "num(3,0)", "num(4,1)")
FEW = 100
DELIMITERS = (",", ",", ";", "\t", "|")
FORMS = ("frames", "frames", "sequences", "mappings", "paths", "files", "mixed")


def cell_of(pick, kind):
    if kind == "text":
        return pick.choice(TEXTS if pick.random() < 0.5 else FEW_TEXTS)
    return reference.random_cell(pick, kind)


def table_of(pick, names):
    """A table of few different values, with nulls in some columns."""
    types = [pick.choice(TYPES) for _ in names]
    nulls = [pick.choice([0, 0.2, 0.2, 1 if pick.random() < 0.1 else 0]) for _ in names]
    rows = [[None if pick.random() < null else cell_of(pick, kind) for kind, null in zip(types, nulls)] for _ in range(pick.randrange(8))]
    return reference.Table(list(names), types, rows)


def case_of(number):
    """Two tables and a join of them. Joins of texts with numbers are left out."""
    pick = random.Random(number)
    while True:
        names = pick.sample(["id", "k", "n", "first_name", "z1"], pick.randrange(1, 4)), pick.sample(["id", "k", "m", "city", "z1"], pick.randrange(1, 4))
        left, right = (table_of(pick, some) for some in names)
        join = reference.random_join(pick, left, right)
        if all((left.types[i] == "text") == (right.types[j] == "text") for i, j in join.partners or []):
            return pick, left, right, join


def series_of(pick, kind, cells):
    """A column of a frame, of one of the dtypes that its cells can have."""
    if kind == "text":
        dtype = pick.choice(["object", "string", "category"] if any(cell is not None for cell in cells) else ["object", "string"])
    elif kind == "int":
        dtype = pick.choice(["Int64", "Int16"] if None in cells else ["int64", "Int64", "int32", "Int8"])
    else:
        dtype = "object"
    return pandas.Series(cells, dtype="object").astype(dtype)


def frame_of(pick, table):
    columns = {at: series_of(pick, kind, [row[at] for row in table.rows]) for at, kind in enumerate(table.types)}
    return pandas.DataFrame(columns).set_axis(table.names, axis=1)


def types_of(pick, table, is_declared):
    """The types to declare, in one of their forms; of rows and frames only those that no cell tells."""
    if is_declared:
        return pick.choice([table.types, ",".join(table.types), dict(zip(table.names, table.types))])
    lacking = [at for at in range(len(table.names)) if all(row[at] is None for row in table.rows)]
    return {table.names[at]: table.types[at] for at in lacking} or None


def text_of(table, null, delimiter):
    """The table as CSV, with this null text and this delimiter."""
    text = io.StringIO(newline="")
    writer = csv.writer(text, delimiter=delimiter, lineterminator="\n", quoting=csv.QUOTE_ALL)
    for row in [table.names, *table.rows]:
        writer.writerow([null if cell is None else cell for cell in row])
    return text.getvalue().encode()


def given(pick, form, table, place, delimiter):
    """A table in a form, and the types that are declared for it."""
    if form == "frames":
        return frame_of(pick, table), types_of(pick, table, False)
    if form == "sequences":
        return iter([tuple(row) for row in table.rows]), types_of(pick, table, False)
    if form == "mappings":
        return [dict(zip(table.names, row)) for row in table.rows], types_of(pick, table, False)
    place.write_bytes(text_of(table, "~~", delimiter))
    types = types_of(pick, table, True)
    if form == "paths":
        return pick.choice([str(place), place]), types
    return pick.choice([io.BytesIO(place.read_bytes()), open(place, "rb")]), types


def arguments_of(pick, join):
    """The arguments that ask for a join: its clause, or what makes it."""
    kind, _, using = join.clause.partition("JOIN USING (")
    if using and pick.random() < 0.5:
        how = {"INNER": "inner", "LEFT": "left", "RIGHT": "right", "FULL": "outer"}[kind.strip()]
        return {"using": using[:-1].split(", "), "how": how}
    return {"clause": join.clause}


def plain(cell):
    """A cell of a result, without the classes of pandas and numpy. (A category's null is NaN.)"""
    if pandas is not None and pandas.isna(cell):
        return None
    return int(cell) if not isinstance(cell, (str, decimal.Decimal, type(None))) else cell


def exact(rows):
    """Rows such that two of them are equal where their cells are, with class and scale."""
    return [[(type(cell).__name__, str(cell)) for cell in row] for row in rows]


def in_classes(left, right, join, rows):
    """Rows of the reference, in which a column that an int and an exact decimal share has decimals."""
    shared = [at for at, (i, j) in enumerate(join.partners or []) if "num" in left.types[i] + right.types[j]]
    return [[decimal.Decimal(cell) if at in shared and cell is not None else cell for at, cell in enumerate(row)] for row in rows]


def of_columns(left, join, row, which):
    """Those of a result's names or cells that are of one table, with those that stand once for both, or all."""
    both, end = len(join.partners or []), len(left.names)
    return {"all": row, "left": row[:end], "right": row[:both] + row[end:]}[which]


def dtype_faults(result, sources):
    """Where a column of a result that came from one column of a frame has another dtype than that."""
    for at, (name, dtype) in enumerate(sources):
        got, has_nulls = result.dtypes.iloc[at], result.iloc[:, at].isna().any()
        plain_integers = str(dtype).startswith("int")
        wanted = str(dtype).replace("int", "Int") if plain_integers and has_nulls else str(dtype)
        yield from telling.differs(f"the dtype of {name}", str(got), wanted)


def run_join(number, folder):
    """One random join in one form, and what of it isn't as the reference has it."""
    pick, left, right, join = case_of(number)
    form = pick.choice(FORMS)
    forms = [pick.choice(FORMS[:-1]) for _ in range(2)] if form == "mixed" else [form, form]
    if pandas is None:
        forms = ["sequences" if it == "frames" else it for it in forms]
    which = pick.choice(["all", "all", "left", "right"])
    header, wanted = join.header(left, right), in_classes(left, right, join, reference.joined(left, right, join))
    header, wanted = of_columns(left, join, header, which), [of_columns(left, join, row, which) for row in wanted]
    options = {} if pick.random() < 0.7 else {"bits1": pick.randrange(4), "workers": pick.choice([1, 2]), "hash": pick.choice(["plain", "mixed"])}
    delimiters = {side: pick.choice(DELIMITERS) if form in ("paths", "files") else None for side, form in zip(("left", "right"), forms)}
    tables = [given(pick, it, table, folder / f"{side}.csv", delimiters[side]) for it, table, side in zip(forms, (left, right), delimiters)]
    named = {"left_types": tables[0][1], "right_types": tables[1][1], "left_columns": left.names, "right_columns": right.names}
    if {"paths", "files"} & set(forms):
        options.update(null="~~", strict=False)
    options.update({} if which == "all" else {"columns": which})
    options.update({f"{side}_delimiter": delimiter for side, delimiter in delimiters.items() if delimiter not in (None, ",")})
    got = radixjoin.join(tables[0][0], tables[1][0], **arguments_of(pick, join), **named, **options)
    if "frames" in forms:
        rows, columns = got.itertuples(index=False, name=None), list(got.columns)
    else:
        columns = list(got.columns)
        rows = [list(row.values()) if isinstance(row, dict) else row for row in got]
    faults = telling.differs("the header", columns, header)
    faults += telling.differs("the rows", exact(map(plain, row) for row in rows), exact(wanted))
    if forms == ["frames", "frames"] and not join.partners:
        sources = [(name, dtype) for side, (frame, _) in zip(("left", "right"), tables) if which in ("all", side) for name, dtype in zip(frame.columns, frame.dtypes)]
        faults += dtype_faults(got, sources)
    return [f"join {number}, {join.clause!r} of {' and '.join(forms)}: {fault}" for fault in faults]


def without_repeats(number, folder):
    """As `run_join`; mappings can't have a result with a column twice, which is told."""
    try:
        return run_join(number, folder)
    except ValueError as error:
        return [] if "and a dict one" in str(error) else [f"join {number}: {error!r}"]


def run_joins(numbers, folder):
    for number in numbers:
        yield from without_repeats(number, folder)


def main(first, last):
    with tempfile.TemporaryDirectory(prefix="radixjoin-test-") as name:
        before = sorted(os.listdir("/proc/self/fd"))
        for start in range(first, last, FEW):
            numbers = range(start, min(start + FEW, last))
            telling.attempt(f"random joins {start} to {numbers[-1]}", run_joins, numbers, pathlib.Path(name))
        telling.tell(f"files open after joins {first} to {last}", telling.differs("open files", len(os.listdir("/proc/self/fd")), len(before)))


if __name__ == "__main__":
    main(*map(int, sys.argv[1:]))
