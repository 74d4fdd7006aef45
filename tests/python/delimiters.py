"""Files by other delimiters than the comma: as rows, as frames, and in the bytes of the file that is written, beside Python's csv."""
import csv
import io
import pathlib
import random
import sys
import tempfile

import telling

import radixjoin

try:
    import pandas
except ImportError:
    pandas = None

LEFT = b'id;name;amount\n1;"a;b";1,50\n2;c,d;\n3;"say ""hi""";7\n'
RIGHT = b'id\tcity\n1\t"p\tq"\n1\toslo; york\n'
TYPES = {"left_types": "int,text,text", "right_types": "int,text"}
EACH = {"left_delimiter": ";", "right_delimiter": "tab"}
ROWS = [(1, "a;b", "1,50", "p\tq"), (1, "a;b", "1,50", "oslo; york"), (2, "c,d", None, None), (3, 'say "hi"', "7", None)]
SIGNS = (",", ";", "\t", "|", ":", " ", "-", ".")


def files_in(folder):
    """The two files."""
    left, right = folder / "left.csv", folder / "right.tsv"
    left.write_bytes(LEFT)
    right.write_bytes(RIGHT)
    return left, right


def by_side(folder):
    """Each side by its own delimiter, or both by one, in each way in which a file and its types can be given."""
    left, right = files_in(folder)
    how = {"using": "id", "how": "left"}
    for tab in ("tab", "\\t", "\t"):
        yield from telling.differs(f"rows, {tab!r}", list(radixjoin.join(left, right, **how, **TYPES, left_delimiter=";", right_delimiter=tab)), ROWS)
    for more in ({"strict": False}, {"strict": "full"}, {"workers": 2}, {"delimiter": ";", "left_delimiter": None}, {"delimiter": "tab", "right_delimiter": None}, {"delimiter": "ab"}):
        yield from telling.differs(f"rows {more}", list(radixjoin.join(left, right, **{**how, **TYPES, **EACH, **more})), ROWS)
    by_name = {"left_types": "id=int,*=text", "right_types": {"id": int, "city": str}}
    yield from telling.differs("types by name", list(radixjoin.join(left, right, **how, **by_name, **EACH)), ROWS)
    with open(left, "rb") as file:
        yield from telling.differs("an open file, and bytes", list(radixjoin.join(file, io.BytesIO(RIGHT), **how, **by_name, **EACH)), ROWS)
    got = radixjoin.join(left, [(2, "x,;\t")], **how, left_types="int,text,text", delimiter=";", right_columns=["id", "city"])
    yield from telling.differs("a file and rows", list(got), [(2, "c,d", None, "x,;\t"), (1, "a;b", "1,50", None), (3, 'say "hi"', "7", None)])
    counts = radixjoin.stats(left, right, **how, **TYPES, **EACH)
    yield from telling.differs("counts", (counts.pairs, counts.lone_left), (2, 2))


def frames(folder):
    """A file and a frame: the frame that comes out has the cells of both."""
    left, _ = files_in(folder)
    frame = pandas.DataFrame({"id": [3, 1], "kg": [0.5, float("nan")]})
    got = radixjoin.join(left, frame, using="id", left_types="id=int,*=text", left_delimiter=";")
    yield from telling.differs("names", list(got.columns), ["id", "name", "amount", "kg"])
    yield from telling.differs("cells", [[str(cell) for cell in row] for row in got.values.tolist()], [["1", "a;b", "1,50", "nan"], ["3", 'say "hi"', "7", "0.5"]])
    got = radixjoin.join(frame, left, on="L.id = R.id AND R.name <> 'x'", right_types="int,text,text", delimiter=";", repeated="qualify")
    yield from telling.differs("names with a mark", list(got.columns), ["id", "kg", "R.id", "name", "amount"])


def written(folder):
    """The bytes of the file that is written."""
    left, right = files_in(folder)
    out, how = folder / "out.csv", {"using": "id", "how": "left", **TYPES, "output": folder / "out.csv"}
    of_bars = b'id|name|amount|city\n1|a;b|1,50|p\tq\n1|a;b|1,50|oslo; york\n2|c,d||\n3|"say ""hi"""|7|\n'
    radixjoin.join(left, right, **how, **EACH, out_delimiter="|")
    yield from telling.differs("bars", out.read_bytes(), of_bars)
    radixjoin.join(left, right, **how, right_delimiter="\t", delimiter=";")
    yield from telling.differs("the one of all", out.read_bytes(), b'id;name;amount;city\n1;"a;b";1,50;p\tq\n1;"a;b";1,50;"oslo; york"\n2;c,d;;\n3;"say ""hi""";7;\n')
    radixjoin.join(left, right, **how, **EACH)
    yield from telling.differs("commas", out.read_bytes(), b'id,name,amount,city\n1,a;b,"1,50",p\tq\n1,a;b,"1,50",oslo; york\n2,"c,d",,\n3,"say ""hi""",7,\n')
    rows = {"left_columns": ["id", "x"], "right_columns": ["id"], "using": "id", "output": out}
    radixjoin.join([(1, "a;b"), (2, "c,d")], [(1,), (2,)], **rows, delimiter=";")
    yield from telling.differs("rows that are written", out.read_bytes(), b'id;x\n1;"a;b"\n2;c,d\n')


def refused(folder):
    """What is no delimiter, and what has none."""
    left, right = files_in(folder)
    for word in ("", ";;", "a", "7", '"', "\n", "\r", "\u00e9", "Tab"):
        for more in ({"delimiter": word}, {**EACH, "left_delimiter": word}, {**EACH, "left_delimiter": word, "left_types": {"id": int, "*": str}}):
            fault = telling.raised(radixjoin.join, left, right, using="id", **{**TYPES, **more})
            got = type(fault), getattr(fault, "line", fault), getattr(fault, "code", None), getattr(fault, "name", None), getattr(fault, "status", None)
            yield from telling.differs(f"{more}", got, (radixjoin.LineFault, "radixjoin: E34 BadDelimiter", "E34", "BadDelimiter", 2))
    out = telling.raised(radixjoin.join, left, right, using="id", **TYPES, **EACH, output=folder / "out.csv", out_delimiter="ab")
    yield from telling.differs("of the result", (getattr(out, "code", out), (folder / "out.csv").exists()), ("E34", False))
    for named, told in (({"out_delimiter": ";"}, "out_delimiter= is of the file that output= names"), ({"right_delimiter": ";"}, "right_delimiter= is of a file")):
        error = telling.raised(radixjoin.join, left, [(1,)], using="id", left_types="int,text,text", left_delimiter=";", right_columns=["id"], **named)
        yield from [] if type(error) is ValueError and told in str(error) else [f"{named}: {error!r}"]


def random_files(folder, seed):
    """Two random files by random delimiters, which Python's csv writes, and the one that it reads of the result."""
    pick = random.Random(seed)
    cell = lambda: pick.choice(["x", "", "a,b", "p;q", "\t", "|", "-1", 'q"q', "line\nbreak", "1.5"])
    signs = dict(zip(("left", "right", "out"), pick.choices(SIGNS, k=3)))
    rows = {side: [[str(pick.randrange(4)), cell()] for _ in range(pick.randrange(6))] for side in ("left", "right")}
    for side, names in (("left", ["id", "a"]), ("right", ["id", "b"])):
        with open(folder / f"{side}.csv", "w", newline="", encoding="utf-8") as file:
            csv.writer(file, delimiter=signs[side], lineterminator="\n").writerows([names, *rows[side]])
    wanted = [[*one, other[1]] for one in rows["left"] for other in rows["right"] if one[0] == other[0]]
    how = {"using": "id", "left_types": "int,text", "right_types": "int,text", "left_delimiter": signs["left"], "right_delimiter": signs["right"]}
    found = radixjoin.join(folder / "left.csv", folder / "right.csv", **how)
    yield from telling.differs(f"{seed}: {signs} {rows}", [["" if it is None else str(it) for it in row] for row in found], wanted)
    radixjoin.join(folder / "left.csv", folder / "right.csv", **how, out_delimiter=signs["out"], output=folder / "out.csv")
    with open(folder / "out.csv", newline="", encoding="utf-8") as file:
        yield from telling.differs(f"{seed}, written: {signs} {rows}", list(csv.reader(file, delimiter=signs["out"])), [["id", "a", "b"], *wanted])


def main():
    with tempfile.TemporaryDirectory(prefix="radixjoin-test-") as name:
        for test in (by_side, *([frames] if pandas is not None else []), written, refused):
            folder = pathlib.Path(name, test.__name__)
            folder.mkdir()
            telling.attempt(f"delimiters: {test.__name__}", test, folder)
        for seed in range(60):
            telling.attempt(f"random delimiters {seed}", random_files, pathlib.Path(name), seed)


if __name__ == "__main__":
    sys.exit(main())
