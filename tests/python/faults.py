"""Faults of each status as exceptions, refused arguments, and runs that are broken off: no process, open file or file is left."""
import contextlib
import datetime
import decimal
import gc
import io
import os
import pathlib
import pickle
import re
import shutil
import signal
import subprocess
import sys
import tempfile
import threading
import time

import telling

import radixjoin

try:
    import pandas
except ImportError:
    pandas = None

D = decimal.Decimal
SECONDS = 30
ROWS = [{"id": 1, "name": "ann"}, {"id": 2, "name": None}]
LOOSE = {"strict": False, "null": "~"}
PLACES = ("side", "row", "column", "byte")


def limited(folder):
    """The program, in a folder, where it may take no more than 20 MiB of address space. Its options are asked before."""
    program = folder / "limited"
    program.write_text(f'#!/bin/sh\n[ "$1" = --help ] || ulimit -v 20480\nexec "{os.environ["RADIXJOIN"]}" "$@"\n')
    program.chmod(0o755)
    return program


def cases_of_status(folder):
    """For each fault its class, its line, the places that it tells, the two tables, and the other arguments."""
    bad, good, none = folder / "bad.csv", folder / "good.csv", folder / "none.csv"
    bad.write_bytes(b"id,name\n1,ann\nx,bob\n")
    good.write_bytes(b"id,name\n1,ann\n")
    by_id, cross = {"using": "id"}, {"how": "cross"}
    of_left, of_right = {**by_id, **LOOSE, "left_types": "int,text"}, {**by_id, **LOOSE, "right_types": "int,text"}
    many = [(number, "x" * 100) for number in range(200_000)]
    left, right = {"side": "left"}, {"side": "right"}
    line, table, clause = radixjoin.LineFault, radixjoin.InputFault, radixjoin.ClauseFault
    memory, device, expectation = radixjoin.MemoryFault, radixjoin.DeviceFault, radixjoin.ExpectationFault
    yield line, "bad type list left", left, bad, ROWS, {**of_left, "left_types": "int,texts"}
    yield table, "E6 BadInteger left row 2 column 1", {**left, "row": 2, "column": 1}, bad, ROWS, of_left
    yield table, "E4 TypeCount left", left, good, ROWS, {**of_left, "left_types": "int"}
    yield table, "E6 BadInteger right row 1 column 1", {**right, "row": 1, "column": 1}, ROWS, [(2**63,)], {**by_id, "right_columns": ["id"]}
    yield table, "E5 RaggedRow right row 2", {**right, "row": 2}, ROWS, [(1, 2), (1,)], {**by_id, "right_columns": ["id", "m"]}
    yield table, "E5 RaggedRow right row 2", {**right, "row": 2}, ROWS, [(1,), ()], {**by_id, "right_columns": ["id"]}
    yield table, "E5 RaggedRow right row 1", {**right, "row": 1}, ROWS, [("", "x", 1)], {**cross, "right_columns": ["a", "b"]}
    yield table, "E7 BadText right row 1 column 1", {**right, "row": 1, "column": 1}, ROWS, [("a\ud800",)], {**cross, "right_columns": ["a"]}
    yield table, "E10 BadNull", {}, ROWS, ROWS, {**by_id, "null": "a b"}
    yield clause, "E11 Syntax byte 14", {"byte": 14}, ROWS, ROWS, {"on": "L.id == R.id"}
    yield clause, "E13 UnknownColumn", {}, ROWS, ROWS, {"using": "nmae"}
    yield clause, "E15 TypeMismatch", {}, ROWS, ROWS, {"on": "L.id = R.name"}
    yield clause, "E16 RepeatedUsing", {}, ROWS, ROWS, {"using": ["id", "id"]}
    yield clause, "E17 ClauseTooLong", {}, ROWS, ROWS, {"on": f"L.id IN ({'1, ' * 100_000}1)"}
    yield memory, "E18 Memory", {}, many, many, {**by_id, "columns": ["id", "x"], "program": limited(folder)}
    yield device, "E19 ReadDevice right", right, ROWS, none, of_right
    yield device, "E19 ReadDevice left", left, folder, ROWS, of_left
    yield device, "E20 WriteDevice", {}, ROWS, ROWS, {**by_id, "output": "/dev/full"}
    yield device, "E20 WriteDevice", {}, ROWS, ROWS, {**by_id, "output": folder / "none" / "out.csv"}
    yield expectation, "E30 NotAsExpected", {}, ROWS, ROWS, {**cross, "expect": "many-to-one"}
    yield expectation, "E30 NotAsExpected", {}, ROWS, ROWS, {**cross, "max_rows": 3, "output": folder / "out.csv"}


STATUSES = {"LineFault": 2, "InputFault": 3, "ClauseFault": 4, "MemoryFault": 5, "DeviceFault": 6, "ExpectationFault": 7}


def faults_of_each_status(folder):
    """Each fault with its class, line and places, also where it was packed."""
    for kind, line, places, left, right, named in cases_of_status(folder):
        fault = telling.raised(radixjoin.join, left, right, **named)
        if not isinstance(fault, radixjoin.Fault):
            yield f"{line}: {fault!r}"
            continue
        code, name = line.split()[:2] if line.startswith("E") else (None, None)
        wanted = [kind, f"radixjoin: {line}", STATUSES[kind.__name__], code, name, *map(places.get, PLACES)]
        for it in (fault, pickle.loads(pickle.dumps(fault))):
            got = [type(it), it.line, it.status, it.code, it.name, *(getattr(it, place) for place in PLACES)]
            yield from telling.differs(line, got, wanted)
    yield from telling.differs("files", sorted(it.name for it in folder.iterdir()), ["bad.csv", "good.csv", "limited"])
    number = telling.raised(radixjoin.join, ROWS, ROWS, using="id", bits1=11)
    yield from telling.differs("a number that is too large", (type(number).__name__, number.code), ("LineFault", None))
    rows = telling.raised(radixjoin.join, ROWS, ROWS, using="id", rows="matched-left")
    yield from telling.differs("a line that names an option of a side", (type(rows).__name__, rows.side), ("LineFault", None))
    for line, side in (("radixjoin: more than four null texts right", "right"), ("radixjoin-cluster: the left file has a column x", "left"), ('radixjoin: E27 TypeName left "right"', "left")):
        yield from telling.differs(line, radixjoin.Fault(line, 2).side, side)
    explained = radixjoin.faults.fault_of("radixjoin: E13 UnknownColumn\n  one\n  two\n", 4)
    yield from telling.differs("an explanation", (explained.line, explained.explanation), ("radixjoin: E13 UnknownColumn", "  one\n  two"))


class OtherFrame:
    """A frame of another library than pandas, which gives the names of its columns one by one."""

    dtypes = ("int64",)

    def __iter__(self):
        return iter(["id"])


def unread():
    """Rows that nobody may read."""
    raise AssertionError("rows were read")
    yield


FRAME = pandas.DataFrame({"id": [1]}) if pandas is not None else None
# Rows that are asked for, the arguments that keep none of them, and the clause that these are and the lone rows that it keeps.
LONE = [
    ("lone-left", {}, "JOIN"),
    ("lone-right", {"how": "inner"}, "JOIN"),
    ("lone-left,lone-right", {"how": "inner"}, "JOIN"),
    ("lone-right", {"how": "left"}, "LEFT_JOIN lone-left"),
    ("lone-left", {"how": "right"}, "RIGHT_JOIN lone-right"),
    ("lone-left", {"using": None, "how": "cross"}, "CROSS_JOIN"),
    ("lone-right", {"using": None, "natural": True, "how": "left"}, "NATURAL_LEFT_JOIN lone-left"),
    ("lone-left", {"using": None, "on": "L.id = R.id"}, "JOIN"),
    ("lone-left", {"using": None, "clause": "inner JOIN USING (id)"}, "inner_JOIN"),
    ("lone-right", {"using": None, "clause": "LEFT OUTER JOIN USING (id)"}, "LEFT_OUTER_JOIN lone-left"),
]


def cases_that_are_refused(folder):
    """What isn't for the program to judge: the class and a word of each error, the two tables, and the other arguments."""
    path = folder / "a.csv"
    path.write_bytes(b"id\n1\n")
    by_id = {"using": "id"}
    yield TypeError, "'id'", [{"id": 1.5}], ROWS, by_id
    yield TypeError, "'id'", [{"id": True}], ROWS, by_id
    yield TypeError, "'id'", [{"id": 1}, {"id": "x"}], ROWS, by_id
    yield ValueError, "'id'", [{"id": D("NaN")}], ROWS, by_id
    yield ValueError, "'id'", [{"id": D("1e18")}], ROWS, by_id
    yield ValueError, "row 2", [{"id": 1}, {"ID": 2}], ROWS, by_id
    yield TypeError, "row 2", [{"id": 1}, (2,)], ROWS, by_id
    yield ValueError, "columns", [(1,)], ROWS, by_id
    yield ValueError, "left_types", path, ROWS, {**by_id, "strict": False}
    yield ValueError, "'ID'", path, ROWS, {**by_id, "left_types": {"ID": "int"}, "strict": False}
    yield ValueError, "'id'", path, ROWS, {**by_id, "left_types": {}, "strict": False}
    yield ValueError, "'x'", path, [{"id": 1, "x": ""}], {**by_id, "left_types": "int", "strict": False}
    yield ValueError, "clause", ROWS, ROWS, {}
    yield ValueError, "clause", ROWS, ROWS, {"clause": "CROSS JOIN", **by_id}
    yield ValueError, "how", ROWS, ROWS, {**by_id, "how": "lefft"}
    yield TypeError, "using=", ROWS, ROWS, {"on": ["id"]}
    yield ValueError, "'id'", ROWS, ROWS, {"on": "L.id = R.id"}
    yield TypeError, "no_such_option=", ROWS, ROWS, {**by_id, "no_such_option": 1}
    yield TypeError, "stats", ROWS, ROWS, {**by_id, "stats": True}
    yield TypeError, "radixjoin.stats counts", ROWS, ROWS, {**by_id, "count": True}
    yield TypeError, "radixjoin.stats(.., report=True)", ROWS, ROWS, {**by_id, "report": True}
    yield TypeError, "rb", io.StringIO("id\n1\n"), ROWS, {**by_id, **LOOSE, "left_types": "int"}
    yield TypeError, "neither", 7, ROWS, by_id
    yield TypeError, "OtherFrame", OtherFrame(), ROWS, {**by_id, "left_columns": ["id"]}
    yield FileNotFoundError, "nowhere", ROWS, ROWS, {**by_id, "program": "nowhere"}
    yield ValueError, "null", [{"id": 1, "x": ""}], ROWS, {**by_id, "output": folder / "out.csv"}
    # (of a program that isn't there nothing would be told before it is looked for, nor of rows before they are read)
    none, of_files = {**by_id, "program": "nowhere"}, {"left_types": "int", "right_types": "int"}
    tables = [(path, path, of_files), (path, io.BytesIO(b"id\n1\n"), of_files), *([(FRAME, FRAME, {}), (FRAME, path, of_files)] if pandas is not None else [])]
    for left, right, types in tables:
        for columns in (["id"], ("id",), (["id"], ["id"]), ["left"]):
            yield ValueError, f"columns={columns!r} names the columns of rows, and neither table is rows: which columns are written columns='all', 'left' or 'right' says", left, right, {**none, **types, "columns": columns}
    for rows, more, told in LONE:
        kept = "".join(f", '{kind}'" for kind in told.split()[1:])
        yield ValueError, f"rows={rows!r} asks for rows that {told.split()[0].replace('_', ' ')!r} doesn't keep: it has 'pairs', 'matched-left'{kept}; how=", unread(), unread(), {**none, **more, "rows": rows}
    if "strict" not in radixjoin.programs.options(os.environ["RADIXJOIN"]):
        yield NotImplementedError, "--strict", path, ROWS, {**by_id, "left_types": "int"}


def refused_arguments(folder):
    for kind, word, left, right, named in cases_that_are_refused(folder):
        error = telling.raised(radixjoin.join, left, right, **named)
        yield from [] if isinstance(error, kind) and word in str(error) else [f"{error!r}, and no {kind.__name__} that names {word}"]
    for rows, more, _ in LONE:
        error = telling.raised(radixjoin.stats, unread(), unread(), **{"using": "id", "program": "nowhere", **more, "rows": rows})
        yield from [] if isinstance(error, ValueError) and f"rows={rows!r}" in str(error) else [f"statistics of {rows} {more}: {error!r}"]
    for rows, more in (("lone-left", {"how": "left"}), ("lone-right,lone-left", {"how": "left"}), ("pairs,lone-right", {}), ("lone-right", {"how": "outer"})):
        got = telling.raised(radixjoin.join, ROWS, ROWS, using="id", rows=rows, output=folder / "out.csv", null="~", **more)
        yield from telling.differs(f"rows of which some are kept: {rows} {more}", repr(got), "None")
        (folder / "out.csv").unlink(missing_ok=True)
    for rows, clause, kind in (("lone-lefts", "JOIN USING (id)", radixjoin.LineFault), ("lone-left", "LEF JOIN USING (id)", radixjoin.ClauseFault)):
        error = telling.raised(radixjoin.join, ROWS, ROWS, clause, rows=rows)
        yield from [] if isinstance(error, kind) else [f"what the program tells of {rows} {clause}: {error!r}"]
    yield from telling.differs("files", sorted(it.name for it in folder.iterdir()), ["a.csv"])


# Columns of frames whose cells can't be compared exactly: by name the error's class and a word of what it says to do, and the column.
UNCOMPARED = {
    "floats": (TypeError, "Decimal", lambda: pandas.Series([1.5, None])),
    "mixed": (TypeError, "Int64", lambda: pandas.Series([1, "x"], dtype="object")),
    "bytes": (TypeError, "str", lambda: pandas.Series([b"x"], dtype="object")),
    "categories": (TypeError, "Int64", lambda: pandas.Series([1.5], dtype="category")),
    "large": (ValueError, "texts", lambda: pandas.Series([2**63], dtype="uint64")),
    "large objects": (ValueError, "texts", lambda: pandas.Series([2**63, None], dtype="object")),
    "digits": (ValueError, "quantize", lambda: pandas.Series([D("1e20")], dtype="object")),
    "infinite": (ValueError, "null", lambda: pandas.Series([D("inf")], dtype="object")),
}
# Those that are compared as whole numbers, and have no text for a file.
UNWRITTEN = {
    "truths": lambda: pandas.Series([True]),
    "dates": lambda: pandas.Series(pandas.to_datetime(["2026-01-01"])),
    "spans": lambda: pandas.Series(pandas.to_timedelta(["1s"])),
    "days": lambda: pandas.Series([datetime.date(2026, 1, 1)]),
}


def dtypes_that_have_no_type(folder):
    """Columns of frames: each error names the column, and says what to convert it to. Where the clause doesn't compare it, and no file has to
    have it, there is none."""
    for name, (kind, word, column) in {**UNCOMPARED, **{name: (TypeError, "astype('string')", column) for name, column in UNWRITTEN.items()}}.items():
        frame = pandas.DataFrame({name: column()}).assign(id=1)
        if name in UNCOMPARED:
            error = telling.raised(radixjoin.join, frame, [{name: 1}], using=name)
            yield from [] if isinstance(error, kind) and repr(name) in str(error) and word in str(error) else [f"{name}: {error!r}"]
        error = telling.raised(radixjoin.join, frame, ROWS, using="id", null="~", output=folder / "out.csv")
        yield from [] if isinstance(error, kind) and repr(name) in str(error) and word in str(error) else [f"{name} in a file: {error!r}"]
        got = radixjoin.join(frame, ROWS, using="id")
        yield from telling.differs(f"{name} that goes through", (got[name].dtype, repr(got[name][0])), (frame[name].dtype, repr(frame[name][0])))
    error = telling.raised(radixjoin.join, pandas.DataFrame({"id": [1], 7: [1]}), ROWS, using="id")
    yield from [] if isinstance(error, TypeError) and "column 7 " in str(error) else [f"a name that is no text: {error!r}"]
    yield from telling.differs("files", os.listdir(folder), [])


def hinted(error, number, frame):
    """A frame whose column `x` is what an error says to make of it, by the hint of this number."""
    hints = re.findall(r"as by (frame\[column\].*?\))(?=, else|$)", str(error))
    return frame.assign(x=eval(hints[number], {"frame": frame, "column": "x", "decimal": decimal}))


def hints(folder):
    """What is said to be made of a column joins as it should: equal cells meet, others don't, and nulls meet nothing."""
    for cells, number in (([1.0, None, 3.0, -2.0], 0), ([0.1, None, 1e-7, 123456.75], 1)):
        frame = pandas.DataFrame({"x": cells})
        made = hinted(telling.raised(radixjoin.join, frame, frame, using="x"), number, frame)
        got = radixjoin.join(made, made.assign(place=range(4)), using="x")
        yield from telling.differs(f"{cells}", ([float(cell) for cell in got["x"]], got["place"].to_list()), ([cell for cell in cells if cell is not None], [0, 2, 3]))
    times = pandas.to_datetime(["2026-01-01 08:00", "2026-01-01 09:00", "2026-01-01 09:00:00.000000001", None])
    for cells in (times, times - times[0], times.date, [True, False, True, True]):
        frame = pandas.DataFrame({"x": cells, "id": 1})
        made = hinted(telling.raised(radixjoin.join, frame, ROWS, using="id", null="~", output=folder / "out.csv"), -1, frame)
        yield from telling.differs(f"{cells}", (made["x"].nunique(), made["x"].isna().sum()), (frame["x"].nunique(), frame["x"].isna().sum()))
        radixjoin.join(made, ROWS, using="id", null="~", output=folder / "out.csv")
        yield from telling.differs(f"{cells}: rows", len((folder / "out.csv").read_text().splitlines()), 5)


def children():
    """The numbers of this process's children."""
    with open(f"/proc/self/task/{threading.get_native_id()}/children") as file:
        return file.read().split()


class File(io.RawIOBase):
    """A file that gives some parts one after another, and raises an error behind them, if there is one."""

    def __init__(self, parts, error=None):
        super().__init__()
        self.parts = list(parts)
        self.error = error

    def read(self, size=-1):
        if not self.parts and self.error is not None:
            raise self.error
        return self.parts.pop(0) if self.parts else b""


def open_files(folder):
    """Files that give a part of their header at first, and pipes that don't wait for what comes later."""
    for parts in ([b"na", b"me,id\nann,", b"1\n"], [b'"na', b'me",id\n', b"ann,1\n"], [b"name,id\nann,1"]):
        for types in ({"id": "int", "*": "text"}, "*=text,id=int", "text,int"):
            got = list(radixjoin.join(File(parts), [(1,)], using="id", left_types=types, right_columns=["id"], null="~"))
            yield from telling.differs(f"{parts} {types}", got, [(1, "ann")])
    for types in ("int", {"id": "int"}):
        ends = os.pipe()
        os.set_blocking(ends[0], False)
        with open(ends[0], "rb", buffering=0) as reads, open(ends[1], "wb", buffering=0) as writes:
            writes.write(b"id\n1\n")
            error = telling.raised(radixjoin.join, reads, ROWS, using="id", left_types=types, null="~", output=folder / "out.csv")
            yield from [] if isinstance(error, BlockingIOError) and "left" in str(error) else [f"a pipe that doesn't wait: {error!r}"]
    yield from telling.differs("files", os.listdir(folder), [])


def broken_off(folder):
    """Rows that aren't read to their end, and tables that fail: the program ends, and nothing stays."""
    gc.collect()
    before = sorted(os.listdir(folder)), len(os.listdir("/proc/self/fd"))
    for end in ("close", "with", "del", "raise"):
        left = ((number, "x" * 50) for number in range(100_000))
        rows = radixjoin.join(left, ROWS, how="cross", left_columns=["number", "text"])
        next(rows)
        yield from [] if len(children()) == 1 else [f"{end}: no program runs while rows are left"]
        if end == "close":
            rows.close()
        elif end == "with":
            with rows:
                next(rows)
        elif end == "raise":
            with contextlib.suppress(ValueError), rows:
                raise ValueError
        del rows
        gc.collect()
        yield from [f"{end}: the program {number} still runs" for number in children()]

    def failing(error):
        yield {"id": 1}
        raise error

    for error in (KeyError("of the caller's own"), BrokenPipeError("of the caller's own")):
        for table in (File([], error), File([b"id\n1\n"], error), failing(error)):
            got = telling.raised(radixjoin.join, table, ROWS, how="cross", left_types="int", strict=False, null="~", output=folder / "out.csv")
            yield from telling.differs("what the caller's table raises", repr(got), repr(error))
    yield from telling.differs("what is left", (sorted(os.listdir(folder)), len(os.listdir("/proc/self/fd"))), before)


def cut_off(folder, text):
    """A program that writes a text and is killed then."""
    program = folder / "cut_off"
    (folder / "text").write_bytes(text)
    program.write_text(f'#!/bin/sh\n[ "$1" = --help ] && exec "{os.environ["RADIXJOIN"]}" --help\ncat "{folder}/text"\nkill -9 $$\n')
    program.chmod(0o755)
    return program


def killed(folder):
    """A program that is killed while it writes: rows that are given are whole, and why there are no more is told, whatever it broke off in."""
    long = "x" * 60
    texts = ("", "i", 'id,"na', 'id,"na\nme', "id,name\n", "id,name\n1,ann\n-", f'id,name\n1,"{long}', f'id,name\n1,"{long}""', "id,name\n1,\u00e9")
    frames = [pandas.DataFrame(ROWS)] if pandas is not None else []
    tables = [(ROWS, ROWS, "", ""), *((it, ROWS, ",left_row", ",10000000") for it in frames), *((it, it, ",left_row,right_row", ",10000000,10000000") for it in frames)]
    for text, (left, right, names, cells) in ((text, table) for text in texts for table in tables):
        text = text.replace("name\n", f"name{names}\n").replace("ann\n", f"ann{cells}\n")
        program = cut_off(folder, text.encode()[: len(text)])
        error = telling.raised(lambda: list(radixjoin.join(left, right, using=["id", "name"], program=program)))
        yield from telling.differs(f"{text!r} of {type(left).__name__}", repr(error), repr(RuntimeError("radixjoin was ended by signal 9")))
    got = radixjoin.join(ROWS, ROWS, using=["id", "name"], program=cut_off(folder, b"id,name\n" + b"1,ann\n" * 2_000_000 + b"1,an"))
    given = []
    error = telling.raised(lambda: given.extend(map(tuple, map(dict.values, got))))
    yield from telling.differs("rows before the end", (set(given), len(given), str(error)), ({(1, "ann")}, 2_000_000, "radixjoin was ended by signal 9"))
    yield from [f"the program {number} still runs" for number in children()]


CLOSED_BEFORE = "the rows of this join were closed before their end"


def many():
    """Rows of a join, 200,000 of them."""
    return radixjoin.join(((number,) for number in range(1_000)), ((number,) for number in range(200)), how="cross", left_columns=["a"], right_columns=["b"])


def ends_of(rows):
    """What is told by each of two calls for a further row."""
    return [repr(telling.raised(next, rows)) for _ in range(2)]


def closed_rows(folder):
    """Rows that were closed before their end, by whoever it was, are told to be so, and never to be at their end."""
    rows = many()
    given = [next(rows)]
    rows.close()
    yield from telling.differs("closed", ends_of(rows), [repr(RuntimeError(CLOSED_BEFORE))] * 2)
    with many() as rows:
        given.append(next(rows))
    yield from telling.differs("behind a with block", ends_of(rows), [repr(RuntimeError(CLOSED_BEFORE))] * 2)
    yield from telling.differs("rows before that", given, [(0, 0), (0, 0)])
    rows = many()
    given = sorted(rows)
    yield from telling.differs("at the end", (given == [(a, b) for a in range(1_000) for b in range(200)], ends_of(rows)), (True, ["StopIteration()"] * 2))
    rows.close()
    yield from telling.differs("closed at the end", ends_of(rows), ["StopIteration()"] * 2)
    rows = radixjoin.join(ROWS, ROWS, using=["id", "name"], program=cut_off(folder, b"id,name\n" + b"1,ann\n" * 200_000 + b"1,an"))
    error = telling.raised(list, rows)
    yield from telling.differs("killed", repr(error), repr(RuntimeError("radixjoin was ended by signal 9")))
    yield from telling.differs("behind that", ends_of(rows), [repr(RuntimeError(f"{CLOSED_BEFORE}: RuntimeError: radixjoin was ended by signal 9"))] * 2)


def given_beside(does):
    """The rows that are given to a thread while another one does something with them, and how it ended; and what the other one got."""
    rows, has_begun, told, got = many(), threading.Event(), [], []

    def run():
        try:
            for row in rows:
                got.append(row)
                has_begun.set()
            told.append("the end")
        except Exception as error:
            told.append(repr(error))

    thread = threading.Thread(target=run)
    thread.start()
    has_begun.wait(SECONDS)
    gave = does(rows)
    thread.join(SECONDS)
    return got, told, gave


def shared_rows(_):
    """Rows that two threads read, or one closes while the other reads: each row is given once, and no thread takes that for their end."""
    for _ in range(5):
        got, told, gave = given_beside(list)
        whole = sorted(got + gave) == [(a, b) for a in range(1_000) for b in range(200)]
        yield from telling.differs("two threads", (told, whole, got == sorted(got), gave == sorted(gave)), (["the end"], True, True, True))
        got, told, _ = given_beside(lambda rows: rows.close())
        yield from telling.differs("closed by another thread", (told, len(got) < 200_000), ([repr(RuntimeError(CLOSED_BEFORE))], True))
        yield from [f"the program {number} still runs" for number in children()]


# (the interrupt may be ignored where these tests run, as in a shell's background, and what a process ignores its children do)
INTERRUPTED = """
import itertools, signal, sys, radixjoin
signal.signal(signal.SIGINT, signal.default_int_handler)
def rows(most):
    for number in itertools.islice(itertools.count(), most):
        if number == 15_000:
            print("begun", flush=True)
        yield (number,)
most = 20_000 if sys.argv[1] == "joining" else None
try:
    radixjoin.join(rows(most), ((it,) for it in range(20_000)), on="a < b AND b < a", left_columns=["a"], right_columns=["b"], output="out.csv")
except KeyboardInterrupt:
    print("interrupted", flush=True)
"""


def programs_of(number):
    """The numbers of the processes that a process started."""
    return [it for path in pathlib.Path(f"/proc/{number}/task").glob("*/children") for it in path.read_text().split()]


def interrupted_at(kind, waits, folder):
    """What differs where Ctrl-C comes while rows are read, or while the program joins."""
    before = sorted(os.listdir(folder))
    with subprocess.Popen([sys.executable, "-c", INTERRUPTED, kind], cwd=folder, stdout=subprocess.PIPE, stderr=subprocess.PIPE) as child:
        child.stdout.readline()
        until = time.monotonic() + SECONDS
        while waits and not programs_of(child.pid) and time.monotonic() < until:
            time.sleep(0.01)
        numbers = programs_of(child.pid)
        child.send_signal(signal.SIGINT)
        try:
            stdout, stderr = child.communicate(timeout=SECONDS)
        except subprocess.TimeoutExpired:
            child.kill()
            return [f"{kind}: it goes on after {SECONDS} seconds"]
    found = list(telling.differs(f"{kind}: what is told", (stdout, stderr, child.returncode), (b"interrupted\n", b"", 0)))
    found += [f"{kind}: no program was running"] if waits and not numbers else []
    found += [f"{kind}: the program {number} still runs" for number in numbers if pathlib.Path("/proc", number).exists()]
    return found + list(telling.differs(f"{kind}: files left", sorted(os.listdir(folder)), before))


def interrupted(folder):
    """Ctrl-C while rows are read, and while the program joins."""
    yield from interrupted_at("reading", False, folder)
    yield from interrupted_at("joining", True, folder)


def of_streams(folder):
    """Tables and results that are streams of this process, by their names."""
    path = folder / "in.csv"
    path.write_text("id\n1\n2\n")
    for types in ("int", {"id": "int"}):
        code = f"import radixjoin; print(*radixjoin.join('/dev/stdin', [{{'id': 1}}], using='id', left_types={types!r}))"
        with open(path, "rb") as file:
            for how in ({"stdin": file}, {"input": path.read_bytes()}):
                ran = subprocess.run([sys.executable, "-c", code], cwd=folder, capture_output=True, check=False, **how)
                yield from telling.differs(f"/dev/stdin {types} {how}", (ran.returncode, ran.stdout, ran.stderr), (0, b"{'id': 1}\n", b""))
    code = "import radixjoin, sys; print(*radixjoin.join(sys.stdin.buffer, [{'id': 1}], using='id', left_types='int'))"
    with open(path, "rb") as file:
        for how in ({"stdin": file}, {"input": path.read_bytes()}):
            ran = subprocess.run([sys.executable, "-c", code], cwd=folder, capture_output=True, check=False, **how)
            yield from telling.differs(f"sys.stdin.buffer {how}", (ran.returncode, ran.stdout, ran.stderr), (0, b"{'id': 1}\n", b""))
    path.unlink()
    code = f"import radixjoin; radixjoin.join([{{'id': 1}}], [{{'id': 1}}], using='id', output='/dev/stdout')"
    ran = subprocess.run([sys.executable, "-c", code], cwd=folder, capture_output=True, check=False)
    yield from telling.differs("/dev/stdout", (ran.returncode, ran.stdout, ran.stderr), (0, b"id\n1\n", b""))


# Joins in each way in which a table is handed to the program, and writes what they gave to a file.
WITHOUT_STREAMS = """
import contextlib, io, pathlib, subprocess, radixjoin
from radixjoin.feeding import run_program

ROWS, FEW, TEXT = [(number, "x" * 99) for number in range(2_000)], [(1, "b")], b"id,a\\n1,a\\n"
named = {"using": "id", "left_columns": ["id", "a"], "right_columns": ["id", "b"], "null": "~", "left_types": "int,text", "right_types": "int,text"}
told = [len(list(radixjoin.join(ROWS, iter(ROWS), **named))), radixjoin.stats(ROWS, ROWS, **named).pairs]
with open("left.csv", "rb") as left, open("right.csv", "rb") as right:
    for tables in ((left, FEW), (FEW, right), (left, right), (left, io.BytesIO(TEXT)), (io.BytesIO(TEXT), right), (io.BytesIO(TEXT), io.BytesIO(TEXT))):
        told += list(radixjoin.join(*tables, **named))
    radixjoin.join(io.BytesIO(TEXT), right, output="out.csv", **named)
with contextlib.suppress(ImportError):
    import pandas
    frame = pandas.DataFrame(ROWS, columns=["id", "a"])
    told.append(radixjoin.join(frame, frame, using="id").shape)
try:
    radixjoin.join(FEW, [(1, "x"), (1,)], **named)
except radixjoin.InputFault as fault:
    told.append(fault.line)
with open("fed.csv", "wb") as output:
    words = [radixjoin.programs.find(), "--left-types=int,text", "--right-types=int,text", "--join=JOIN USING (id)"]
    inputs = [(f"--{side}=", (it for it in [TEXT])) for side in ("left", "right")]
    ran = run_program(words, inputs, stdin=subprocess.DEVNULL, stdout=output)
told += [ran.returncode, ran.stderr, pathlib.Path("out.csv").read_bytes(), pathlib.Path("fed.csv").read_bytes()]
pathlib.Path("told").write_text(repr(told))
"""
CLOSES = {0: "<&-", 1: ">&-", 2: "2>&-"}
CLOSED = [(0,), (1,), (2,), (0, 1), (0, 2), (1, 2), (0, 1, 2)]


def without(streams, words):
    """The words that start a command without some of the standard streams."""
    return ["sh", "-c", f'exec "$@" {" ".join(map(CLOSES.get, streams))}', "sh", *words]


def without_streams(folder):
    """Joins in a process that began with some of its standard streams closed, whose numbers other files get."""
    (folder / "left.csv").write_text("id,a\n1,a\n")
    (folder / "right.csv").write_text("id,b\n1,b\n")
    wanted = [2_000, 2_000, (1, "a", "b"), (1, "b", "b"), (1, "a", "b"), (1, "a", "a"), (1, "a", "b"), (1, "a", "a"), *([(2_000, 3)] if pandas is not None else [])]
    wanted += ["radixjoin: E5 RaggedRow right row 2", 0, b"", b"id,a,b\n1,a,b\n", b"id,a,a\n1,a,a\n"]
    for streams in ((), *CLOSED):
        with contextlib.suppress(FileNotFoundError):
            (folder / "told").unlink()
        with subprocess.Popen(without(streams, [sys.executable, "-c", WITHOUT_STREAMS]), cwd=folder, stdin=subprocess.DEVNULL, stdout=subprocess.PIPE, stderr=subprocess.PIPE, start_new_session=True) as child:
            try:
                stdout, stderr = child.communicate(timeout=SECONDS)
            except subprocess.TimeoutExpired:
                os.killpg(child.pid, signal.SIGKILL)
                yield f"without {streams}: no end within {SECONDS} seconds"
                continue
        yield from telling.differs(f"without {streams}: how it ends", (child.returncode, stdout, stderr), (0, b"", b""))
        told = (folder / "told").read_text() if (folder / "told").exists() else None
        yield from telling.differs(f"without {streams}", told, repr(wanted))


def outputs(folder):
    """A file of the result: whole, or what was there before."""
    path = folder / "out.csv"
    link = folder / "link.csv"
    link.symlink_to(path)
    path.write_text("before")
    telling.raised(radixjoin.join, ROWS, ROWS, using="none", output=link)
    yield from telling.differs("after a fault", (path.read_text(), link.is_symlink()), ("before", True))
    gave = radixjoin.join(ROWS, iter([(1,), (1,)]), using="id", output=link, right_columns=["id"])
    yield from telling.differs("the path", gave, link)
    yield from telling.differs("the result", (path.read_text(), link.is_symlink()), ("id,name\n1,ann\n1,ann\n", True))
    yield from telling.differs("the result's mode", path.stat().st_mode & 0o777, 0o666 & ~os.umask(os.umask(0o022)) & 0o777)
    gave = radixjoin.join(ROWS, [(1,)], using="id", output=os.fsencode(path), right_columns=["id"])
    yield from telling.differs("a path of bytes", (gave, path.read_text()), (os.fsencode(path), "id,name\n1,ann\n"))
    yield from telling.differs("files", sorted(os.listdir(folder)), ["link.csv", "out.csv"])
    yield from of_streams(folder)
    told = radixjoin.stats(ROWS, ROWS, using="id", how="left", bits1=0, piece=10)
    yield from telling.differs("statistics", told, radixjoin.Stats(((2, 2),), 2, 0, 0, 1))
    yield from telling.differs("all rows", told.rows, 2)
    told = radixjoin.stats([{"id": "a\nb"}], [{"id": "a\nb"}], using="id", bits1=0, report=True)
    lines = ["rows left 1 right 1", "pairs 1 lone-left 0 lone-right 0", "null-keys left 0 right 0", "repeated-keys left 0 right 0"]
    report = "\n".join([*lines, 'largest-key left 1 right 1, "id" = "a\\x0Ab"'])
    yield from telling.differs("a report", told, radixjoin.Stats(((1, 1),), 1, 0, 0, None, report))
    told = radixjoin.stats([{"id": "a\nb"}], [{"id": "a\nb"}], using="id", bits1=0, report=True, rows="pairs,lone-left")
    yield from telling.differs("a report, and rows that the join doesn't keep", told.report, report)
    told = radixjoin.stats(ROWS, ROWS, using="id", bits1=0, report=False)
    yield from telling.differs("no report", told.report, None)


def cases_of_inputs(left, right, linked, symbolic):
    """Results in the file of a table: the side that is told, the two tables, and the name of the result. `linked` is a hard link to the left
    file, and `symbolic` a symbolic one to the right file."""
    others = [lambda: unread(), *([lambda: pandas.DataFrame({"id": [1]})] if pandas is not None else [])]
    yield from (("left", left, right, output) for output in (left, str(left), os.fsencode(left), left.parent / ".." / left.parent.name / left.name, linked))
    yield from (("right", left, right, output) for output in (right, symbolic))
    yield from (("left", left, left, left), ("left", linked, right, left), ("right", left, symbolic, right), ("left", left, right, f"/proc/self/cwd/{os.path.relpath(left)}"))
    for mode in ("rb", "r+b"):
        yield from (("left", open(left, mode), right, output) for output in (left, linked))
        yield from (("right", left, open(right, mode), output) for output in (right, symbolic))
        yield from (("left", open(left, mode), other(), linked) for other in others)
        yield from (("right", other(), open(symbolic, mode), right) for other in others)
    yield from (("left", table, other(), left) for table in (left, linked) for other in others)
    yield from (("right", other(), table, right) for table in (right, symbolic) for other in others)


def outputs_that_are_inputs(folder):
    """A result in the file of a table is refused, whichever side and name it has, before a row is read or a program is started."""
    left, right, linked, symbolic, started = (folder / name for name in ("left.csv", "right.csv", "linked.csv", "symbolic.csv", "started"))
    left.write_text("id\n1\n")
    right.write_text("id\n1\n2\n")
    os.link(left, linked)
    symbolic.symlink_to(right)
    (folder / "notes").write_text(f'#!/bin/sh\ntouch "{started}"\nexec "{os.environ["RADIXJOIN"]}" "$@"\n')
    (folder / "notes").chmod(0o755)
    named = {"using": "id", "left_types": "int", "right_types": "int", "left_columns": ["id"], "right_columns": ["id"], "null": "~"}
    before = sorted(os.listdir(folder)), left.read_bytes(), right.read_bytes(), os.stat(left).st_ino, os.stat(right).st_ino
    for side, one, other, output in cases_of_inputs(left, right, linked, symbolic):
        fault = telling.raised(radixjoin.join, one, other, output=output, program=folder / "notes", **named)
        title = f"{side} {type(one).__name__} {type(other).__name__} {output}"
        yield from telling.differs(title, (type(fault), str(fault)), (radixjoin.DeviceFault, f"radixjoin: E29 OutputIsInput {side}"))
        yield from telling.differs(f"{title}: places", [getattr(fault, it, None) for it in ("status", "code", "name", "side")], [6, "E29", "OutputIsInput", side])
        after = sorted(os.listdir(folder)), left.read_bytes(), right.read_bytes(), os.stat(left).st_ino, os.stat(right).st_ino
        yield from telling.differs(f"{title}: files", after, before)
        yield from (f"{title}: read from" for table in (one, other) if hasattr(table, "tell") and table.tell())
    named.pop("null")
    fault = telling.raised(radixjoin.join, "/dev/null", right, output="/dev/null", **named)
    yield from telling.differs("a device as table and result", str(fault), "radixjoin: E1 NoHeader left")
    gave = radixjoin.join(io.BytesIO(left.read_bytes()), right, output=left, **named)
    yield from telling.differs("a file that was read before", (gave, left.read_text(), linked.read_text()), (left, "id\n1\n", "id\n1\n"))


def programs_that_are_not_there(folder):
    """Where there is no program, it is told by what one can be named."""
    copied = folder / "copied"
    shutil.copytree(pathlib.Path(radixjoin.__file__).parent, copied / "radixjoin", ignore=shutil.ignore_patterns("__pycache__"))
    code = "import radixjoin\ntry:\n    radixjoin.join([{'id': 1}], [{'id': 1}], using='id')\nexcept radixjoin.ProgramNotFound as error:\n    print(error)"
    for named, told in ((None, "the program radixjoin is neither built here nor on the PATH; "), ("nowhere", "nowhere is no program; "), (str(folder), f"{folder} is no program; ")):
        environment = {"PATH": "/nowhere", "PYTHONPATH": str(copied), "PYTHONDONTWRITEBYTECODE": "1", **({"RADIXJOIN": named} if named else {})}
        ran = subprocess.run([sys.executable, "-c", code], cwd=folder, env=environment, capture_output=True, check=False)
        line = ran.stdout.decode()
        is_told = line.startswith(told) and "program=" in line and "the environment variable RADIXJOIN" in line
        yield from [] if is_told and (ran.returncode, ran.stderr) == (0, b"") else [f"{named}: {line} {ran.stderr}"]
    error = telling.raised(radixjoin.join, ROWS, ROWS, using="id", program=folder / "nowhere")
    is_told = isinstance(error, radixjoin.ProgramNotFound) and str(error).startswith(f"{folder}/nowhere is no program; program= ")
    yield from [] if is_told and "RADIXJOIN" in str(error) else [repr(error)]


def explanations(_):
    """A fault has the lines that the program told below its own, unless `explain=False` is said. Of a frame all columns are told."""
    wanted = '  "idd" at byte 10 of the clause; left has id, name; did you mean "id"?'
    for table in (ROWS, *([pandas.DataFrame(ROWS)] if pandas is not None else [])):
        fault = telling.raised(radixjoin.join, table, ROWS, on="L.idd = R.id")
        yield from telling.differs("of a clause", (type(fault), getattr(fault, "explanation", None)), (radixjoin.ClauseFault, wanted))
        fault = telling.raised(radixjoin.join, table, ROWS, on="L.idd = R.id", explain=False)
        yield from telling.differs("without it", getattr(fault, "explanation", None), "")
        fault = telling.raised(radixjoin.stats, table, [(1,), (1,)], using="id", right_columns=["id"], expect="many-to-one")
        wanted_of_row = '  left row 1, line 2 of the file, is in 2 kept pairs: "id" is "1"'
        yield from telling.differs("of a row", getattr(fault, "explanation", None), wanted_of_row)
    if pandas is not None:
        frame = pandas.DataFrame({"x": [1.5], "y": [2.5], "text": ["a\ud800"]})
        fault = telling.raised(radixjoin.join, frame, frame, using="text")
        told = (getattr(fault, "line", fault), getattr(fault, "column", None), "text" in str(fault))
        yield from telling.differs("the column of a frame", told, ("radixjoin: E7 BadText left row 1 column 3", 3, True))


def main():
    tests = [faults_of_each_status, refused_arguments, outputs, outputs_that_are_inputs, without_streams, explanations, open_files, broken_off, killed, closed_rows, shared_rows, programs_that_are_not_there, interrupted]
    for test in tests + ([dtypes_that_have_no_type, hints] if pandas is not None else []):
        with tempfile.TemporaryDirectory(prefix="radixjoin-test-") as name:
            telling.attempt(test.__name__.replace("_", " "), test, pathlib.Path(name))


if __name__ == "__main__":
    main()
