"""Null texts by side, and types by name as texts and in files: values as they are, the bytes that the program writes, and faults."""
import pathlib
import random
import tempfile

import telling

import radixjoin

try:
    import pandas
except ImportError:
    pandas = None

LEFT = b"id,x\n1,NULL\n2,\n3,-\n,y\n"
RIGHT = b"id,y\n1,-\n4,?\n?,z\n"
FILES = {"left_types": "int,text", "right_types": "int,text"}
NULLS = {"left_null": ["NULL", ""], "right_null": ("-", "?")}


def files_in(folder):
    """The two files."""
    left, right = folder / "left.csv", folder / "right.csv"
    left.write_bytes(LEFT)
    right.write_bytes(RIGHT)
    return left, right


def by_side(folder):
    """Texts of each side, of what is read and of what is written."""
    left, right = files_in(folder)
    how = {"using": "id", "how": "outer", **FILES}
    wanted = [(1, None, None), (2, None, None), (3, "-", None), (None, "y", None), (4, None, None), (None, None, "z")]
    for more in ({}, {"out_null": "~"}, {"strict": False}, {"strict": "full"}):
        yield from telling.differs(f"rows {more}", list(radixjoin.join(left, right, **how, **NULLS, **more)), wanted)
    for null in ("-", "?", "y"):
        rows = list(radixjoin.join(left, right, **how, **NULLS, out_null=null, strict=False))
        yield from telling.differs(f"rows that are told apart though {null} is to be written", rows, wanted)
    alone = {"left_null": "NULL", "right_null": "?"}
    wanted = [(2, ""), (1, None), (3, "-")]
    rows = radixjoin.join(left, [{"id": 2, "n": ""}], using="id", how="left", left_types="int,text", left_null=["NULL", "~", ""], right_null="~")
    yield from telling.differs("a file and rows", [tuple(it.values())[:2] for it in rows], [(2, None), (1, None), (3, "-"), (None, "y")])
    left.write_bytes(b"id,x\n1,NULL\n2,\n3,-\n")
    rows = radixjoin.join(left, [{"id": 2}], using="id", how="left", left_types="int,text", **alone)
    yield from telling.differs("an empty text that is none", [tuple(it.values()) for it in rows], wanted)
    out = folder / "out.csv"
    files_in(folder)
    radixjoin.join(left, right, **how, **NULLS, null="~", out_null="?", output=out)
    yield from telling.differs("what is written", out.read_bytes(), b"id,x,y\n1,?,?\n2,?,?\n3,-,?\n?,y,?\n4,?,?\n?,?,z\n")
    counts = radixjoin.stats(left, right, using="id", how="outer", **FILES, **NULLS)
    yield from telling.differs("counts", (counts.pairs, counts.lone_left, counts.lone_right), (1, 3, 2))


def faults(folder):
    """What is told, and what is refused."""
    left, right = files_in(folder)
    how = {"using": "id", "how": "outer", **FILES}
    out = folder / "out.csv"
    cases = [
        ("E28", {**NULLS, "out_null": "-", "output": out}, radixjoin.InputFault, "E28 AmbiguousNull row 3 column 2"),
        ("E10", {**NULLS, "left_null": "a b"}, radixjoin.InputFault, "E10 BadNull"),
        ("E28 of rows", {**NULLS, "out_null": "-"}, radixjoin.InputFault, "E28 AmbiguousNull row 3 column 2"),
        ("E10 of the result", {**NULLS, "out_null": "1"}, radixjoin.InputFault, "E10 BadNull"),
        ("five", {**NULLS, "right_null": list("~-?*+")}, radixjoin.LineFault, "more than four null texts right"),
        ("a name", {**NULLS, "left_types": 'id=int,"y"=text,*=text'}, radixjoin.InputFault, 'E27 TypeName left "y"'),
        ("a bad list", {**NULLS, "right_types": "id=int,text"}, radixjoin.LineFault, "bad type list right"),
        ("no file of a list", {**NULLS, "right_types": f"@{folder}/none"}, radixjoin.DeviceFault, "E19 ReadDevice right"),
    ]
    for name, more, kind, line in cases:
        fault = telling.raised(radixjoin.join, left, right, **{**how, **more})
        yield from telling.differs(name, (type(fault), getattr(fault, "line", fault)), (kind, f"radixjoin: {line}"))
    refused = [
        ("no text", left, {"left_null": []}, "left_null"),
        ("a number", left, {"left_null": [1]}, "left_null"),
        ("a cell of rows", [{"id": 1, "x": "-"}], {"left_null": ["~", "-"]}, "'x'"),
        ("a cell of rows, and what is written", [{"id": 1, "x": "-"}], {"out_null": "-"}, "'x'"),
        ("a name of rows", [{"id": 1, "x": "-"}], {"left_types": "id=int,z=text,*=text"}, "z"),
        ("a name of rows twice", [{"id": 1, "x": "-"}], {"left_types": 'id=int,"id"=int,*=text'}, "twice"),
        ("a bad list of rows", [{"id": 1, "x": "-"}], {"left_types": "id=int,text"}, "left_types"),
    ]
    for name, table, more, word in refused:
        error = telling.raised(radixjoin.join, table, right, **{**how, **more, **({} if table is left or "left_types" in more else {"left_types": None})})
        yield from [] if isinstance(error, ValueError) and word in str(error) else [f"{name}: {error!r}"]
    yield from telling.differs("files", sorted(it.name for it in folder.iterdir()), ["left.csv", "right.csv"])


def by_name(folder):
    """Lists by name as texts, in a list and in files, of files, rows and frames; columns have the classes of their types."""
    left, right = files_in(folder)
    (folder / "right.types").write_bytes(b"id=int\r\n*=text\r\n")
    wanted = [(1, None, 1, None), (2, "", None, None), (3, "-", None, None), (None, "y", None, None), (None, None, 4, None), (None, None, None, "z")]
    more = {"left_null": ["NULL"], "right_null": ["-", "?"], "right_types": f"@{folder}/right.types", "on": "L.id = R.id", "how": "outer"}
    left.write_bytes(LEFT.replace(b"\n,y", b"\nNULL,y"))
    for types in ("id=int,*=text", 'x=text,"id"=int', ["ID=int", "*=text"], {"id": int, "*": "text"}):
        yield from telling.differs(f"{types}", list(radixjoin.join(left, right, left_types=types, **more)), wanted)
    with open(left, "rb") as file:
        file.seek(0)
        yield from telling.differs("an open file", list(radixjoin.join(file, right, left_types="*=text,ID=int", **more)), wanted)
    rows = radixjoin.join([{"id": "1", "x": "a"}], [{"id": 1}], using="id", left_types="*=text,ID=num:9:2", right_types=f"@{folder}/right.types")
    yield from telling.differs("rows", rows.types, ("num(18,2)", "text"))
    yield from telling.differs("their cells", [tuple(map(str, row.values())) for row in rows], [("1.00", "a")])
    if pandas is not None:
        frame = pandas.DataFrame({"id": [1, 3], "n": [None, None]})
        found = radixjoin.join(left, frame, using="id", left_types="id=int,*=text", left_null="NULL", right_types="n=int,ID=int")
        yield from telling.differs("a frame", (found.values.tolist()[:2], list(map(str, found.dtypes))), ([[1, pandas.NA, pandas.NA], [3, "-", pandas.NA]], ["Int64", "string", "Int64"]))


TEXTS = ("", "NULL", "-", "~", "x", "null")


def read(text, nulls):
    """A cell of a file."""
    return None if text in nulls else text


def random_nulls(folder, seed):
    """A random join of two files whose null texts are random, beside a plain one: as rows, and as what is written."""
    pick = random.Random(seed)
    rows = {side: [(pick.choice("12345"), pick.choice(TEXTS)) for _ in range(pick.randrange(7))] for side in ("left", "right")}
    nulls = {side: pick.sample(TEXTS, pick.randrange(1, 5)) for side in rows}
    for side, cells in rows.items():
        (folder / f"{side}.csv").write_text("k,a\n" + "".join(f"{key},{text}\n" for key, text in cells))
    more = {f"{side}_null": nulls[side] if len(nulls[side]) > 1 or pick.random() < 0.5 else nulls[side][0] for side in rows}
    cells = {side: [(int(key), read(text, nulls[side])) for key, text in rows[side]] for side in rows}
    wanted = [(*one, *other) for one in cells["left"] for other in cells["right"] if one[1] is not None and one[1] == other[1]]
    wanted += [(*one, None, None) for one in cells["left"] if one[1] is None or all(one[1] != other[1] for other in cells["right"])]
    how = {"on": "L.a = R.a", "how": "left", **FILES}
    found = list(radixjoin.join(folder / "left.csv", folder / "right.csv", **how, **more, strict=pick.choice((True, False))))
    yield from telling.differs(f"{seed}: {rows} {more}", found, wanted)
    out = pick.choice(TEXTS)
    fault = telling.raised(radixjoin.join, folder / "left.csv", folder / "right.csv", **how, **more, out_null=out, output=folder / "out.csv")
    places = [(row, column) for row, it in enumerate(wanted, 1) for column, cell in enumerate(it, 1) if cell == out]
    line = f"radixjoin: E28 AmbiguousNull row {places[0][0]} column {places[0][1]}" if places else "None"
    yield from telling.differs(f"{seed}: {rows} {more} {out!r}", getattr(fault, "line", str(fault)), line)


def main():
    with tempfile.TemporaryDirectory(prefix="radixjoin-test-") as name:
        for test in (by_side, faults, by_name):
            folder = pathlib.Path(name, test.__name__)
            folder.mkdir()
            telling.attempt(test.__name__, test, folder)
        for seed in range(60):
            telling.attempt(f"random null texts {seed}", random_nulls, pathlib.Path(name), seed)


if __name__ == "__main__":
    main()
