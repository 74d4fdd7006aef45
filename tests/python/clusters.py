"""`radixjoin.cluster.join` on this machine and, where there is Dask, over its client, and `python -m radixjoin.cluster`: the bytes that
`radixjoin` writes, or its fault.

usage: clusters.py FOLDER      the folder of the programs"""
import functools
import importlib.util
import logging
import os
import pathlib
import signal
import subprocess
import sys
import tempfile
from unittest import mock

import telling
from faults import CLOSED, without

import radixjoin
from radixjoin import cluster

LEFT = "id,name\n" + "".join(f"{number % 97},n{number}\n" for number in range(3_000))
RIGHT = "id,city\n" + "".join(f"{number % 89},c{number}\n" for number in range(500))
TYPES = {"left_types": "int,text", "right_types": ["int", str]}
CLAUSE = "FULL JOIN USING (id)"
SECONDS = 60


def joins(join, programs, folder):
    """A join as the program does it, each fault as its exception, and nothing left behind."""
    left, right, out = folder / "left.csv", folder / "right.csv", folder / "out.csv"
    left.write_text(LEFT)
    right.write_text(RIGHT)
    alone = radixjoin.join(left, right, CLAUSE, output=folder / "alone.csv", strict=False, program=programs / "radixjoin", **TYPES)
    options = {"output": out, "programs": programs, **TYPES}
    gave = join(left, right, CLAUSE, parts=3, ranges=2, workers=2, **options)
    yield from telling.differs("the path", gave, out)
    yield from telling.differs("the bytes", out.read_bytes() == alone.read_bytes(), True)
    out.unlink()
    join(left, right, CLAUSE, parts=2, spread=10_000, merges=2, **options)
    yield from telling.differs("the bytes of shards in pieces", out.read_bytes() == alone.read_bytes(), True)
    out.unlink()
    for planned in ({}, {"memory": "1G"}, {"memory": 1 << 30, "processes": 2}, {"memory": 1_000}, {"memory": "64k", "ranges": 2, "address_space": "1G"}):
        if "client" not in getattr(join, "keywords", {}) or "processes" not in planned:
            join(left, right, CLAUSE, **planned, **options)
            yield from telling.differs(f"the bytes as {planned} has it planned", out.read_bytes() == alone.read_bytes(), True)
            out.unlink()
    for clause, code in (("JOIN USING (id", "E11"), ("JOIN USING (nmae)", "E13"), ("CROSS JOIN", None)):
        error = telling.raised(join, left, right, clause, **options)
        yield from [] if isinstance(error, radixjoin.ClauseFault) and error.code == code else [f"{clause}: {error!r}"]
    left.write_text(LEFT + "x,y\n")
    error = telling.raised(join, left, right, CLAUSE, ranges=2, **options)
    yield from telling.differs("a fault's place", repr(error), repr(radixjoin.InputFault("radixjoin: E6 BadInteger left row 3001 column 1", 3)))
    for named in ({"parts": 0}, {"no_such_option": 1}, {"ranges": 0}, {"spread": 0}, {"memory": 0}, {"address_space": 0}):
        error = telling.raised(join, left, right, CLAUSE, **named, **options)
        yield from [] if isinstance(error, (TypeError, ValueError)) and next(iter(named)) in str(error) else [f"{named}: {error!r}"]
    for name, given in ((name, given) for name in ("memory", "address_space") for given in ("8T", "", 0.5)):
        error = telling.raised(join, left, right, CLAUSE, **{name: given}, **options)
        yield from telling.differs(f"{name}={given!r}", (type(error), str(error).startswith(f"{name}={given!r} is no size")), (ValueError if isinstance(given, str) else TypeError, True))
    yield from telling.differs("files", sorted(os.listdir(folder)), ["alone.csv", "left.csv", "right.csv"])


def by_side(join, programs, folder):
    """Null texts by side and types by name, as texts, in files and by Python's own names; what is written as null is; a full result."""
    left, right, out, types = folder / "left.csv", folder / "right.csv", folder / "out.csv", folder / "left.types"
    left.write_text(LEFT.replace("n11\n", "none\n").replace("n12\n", "\n"))
    right.write_text(RIGHT.replace("c7\n", "-\n"))
    types.write_text("id=int\n*=text\n")
    nulls = {"left_null": ["none", "null"], "right_null": "-", "out_null": "~"}
    alone = radixjoin.join(left, right, CLAUSE, output=folder / "alone.csv", program=programs / "radixjoin", **nulls, **TYPES)
    options = {"output": out, "programs": programs, "parts": 3, "ranges": 2}
    for each in (f"@{types}", "id=int,*=text", ["*=text", "ID=int"], {"id": int, "*": "text"}, {"name": str, "id": "int"}):
        join(left, right, CLAUSE, left_types=each, right_types="*=text,id=int", strict=True, **nulls, **options)
        yield from telling.differs(f"the bytes {each}", out.read_bytes() == alone.read_bytes(), True)
        out.unlink()
    for more, kind, line in (
        ({**nulls, "out_null": "c8"}, radixjoin.InputFault, None),
        ({**nulls, "left_null": list("abcde")}, radixjoin.LineFault, "radixjoin: more than four null texts left"),
        ({"left_types": f"@{folder}/none"}, radixjoin.DeviceFault, "radixjoin: E19 ReadDevice left"),
        ({"left_types": 'id=int,"row 007"=int,*=text'}, radixjoin.InputFault, 'radixjoin: E27 TypeName left "row 007"'),
        ({"output": folder}, radixjoin.DeviceFault, f'radixjoin-cluster: E20 WriteDevice "{folder.resolve()}": Is a directory'),
    ):
        error = telling.raised(join, left, right, CLAUSE, **{**TYPES, "strict": "full", **options, **more})
        wanted = telling.raised(radixjoin.join, left, right, CLAUSE, strict="full", explain=False, output=folder / "alone.csv", **{**TYPES, **more}) if line is None else line
        yield from telling.differs(f"{more}", (type(error), str(error)), (kind, str(wanted)))
    yield from telling.differs("a place that has no side", (error.code, error.name, error.side, error.row), ("E20", "WriteDevice", None, None))
    yield from telling.differs("files", sorted(os.listdir(folder)), ["alone.csv", "left.csv", "left.types", "right.csv"])


def by_delimiter(join, programs, folder):
    """Files by other delimiters in shards, by left runs and by one run, with types by Python's own names and by the program's."""
    left, right, out = folder / "left.csv", folder / "right.csv", folder / "out.csv"
    left.write_text(LEFT.replace(",", ";"))
    right.write_text(RIGHT.replace(",", "\t"))
    named = {"left_delimiter": ";", "right_delimiter": "tab", "out_delimiter": "|", "left_types": {"id": int, "name": str}, "right_types": "id=int,*=text"}
    alone = radixjoin.join(left, right, CLAUSE, output=folder / "alone.csv", strict=False, program=programs / "radixjoin", **named)
    for planned in ({"parts": 3, "ranges": 2}, {"memory": "1G"}, {"memory": 170_000}, {"memory": 1_000}):
        join(left, right, CLAUSE, output=out, programs=programs, **planned, **named)
        yield from telling.differs(f"the bytes, {planned}", out.read_bytes() == alone.read_bytes(), True)
        out.unlink()
    error = telling.raised(join, left, right, CLAUSE, output=out, programs=programs, **{**named, "out_delimiter": "ab"})
    yield from telling.differs("no delimiter", (type(error), str(error)), (radixjoin.LineFault, "radixjoin: E34 BadDelimiter"))
    yield from telling.differs("files", sorted(os.listdir(folder)), ["alone.csv", "left.csv", "right.csv"])


def faulty_calls(folder):
    """Arguments of a join of two files that `radixjoin.join` refuses too, or tells a fault of: what they are in place of those of a good
    one, and whether both tell it by the same words."""
    content = {"bad": "id,name\nx,ann\n", "empty": "", "twice": "id,id\n1,2\n", "quote": 'id,name\n1,"ann\n'}
    for name, text in content.items():
        (folder / f"{name}.csv").write_text(text)
    (folder / "bad.types").write_bytes(b"int\nt\xffxt\n")
    types = ("int,texts", ["int", 7], None, {"no": int, "*": "text"}, {"id": int}, {}, "no=int,*=text", "id=int", "@none", f"@{folder}/bad.types", "", [], 7)
    yield from (({"left_types": it}, True) for it in types)
    yield from (({"left": folder / f"{name}.csv"}, True) for name in ("none", "bad", "empty", "twice"))
    yield from (({"left": folder / "quote.csv", "strict": it}, True) for it in (True, "full", "x"))
    yield from (({"left": it}, True) for it in (folder, "/dev/null"))
    yield from (({"left": it, "left_types": {"id": int, "*": str}}, True) for it in (folder, "/dev/null", folder / "none.csv", folder / "bad.csv"))
    long = [f"JOIN ON L.id IN ({'1, ' * count}1)" for count in (30_000, 100_000)]
    yield from (({"clause": it}, True) for it in ("JOIN USING (id", "JOIN USING (no)", "JOIN ON L.id = R.city", "", "x\0y", "JOIN ON L.name = '\ud800'", None, *long))
    yield from (({"clause": clause, "rows": rows}, True) for clause, rows in (("JOIN USING (id)", "lone-left"), ("LEFT JOIN USING (id)", "lone-right"), (CLAUSE, "nonsense")))
    yield from (({name: it}, True) for name, it in (("null", "a b"), ("null", "x" * 20), ("left_null", list("abcde")), ("right_null", []), ("right_null", [1]), ("out_null", "a b")))
    yield {"out_null": "c8", "strict": True}, True
    yield from (({name: it}, True) for name, it in (("delimiter", "ab"), ("delimiter", ";"), ("left_delimiter", "7"), ("out_delimiter", "")))
    yield from (({name: it}, True) for name, it in (("workers", 0), ("workers", "x"), ("bits1", 11), ("order", "x"), ("hash", "x")))
    yield {"explain": True, "clause": "LEFT JOIN USING (di)"}, True
    yield from (({"output": it}, False) for it in (folder, folder / "none" / "out.csv", "/dev/full"))
    yield from (({"output": it}, True) for it in (folder / "left.csv", folder / "right.csv"))
    yield from (({"left": it}, False) for it in (7, None))
    yield from (({"RADIXJOIN": it}, True) for it in ("nowhere", str(folder)))
    yield {"program": str(folder)}, False


def as_join_does(join, programs, folder):
    """Each fault is raised as `radixjoin.join` raises it, and nothing is left."""
    (folder / "left.csv").write_text(LEFT)
    (folder / "right.csv").write_text(RIGHT)
    good = {"left": folder / "left.csv", "right": folder / "right.csv", "clause": CLAUSE, "output": folder / "out.csv", "strict": False, **TYPES}
    cases = list(faulty_calls(folder))
    before = sorted(os.listdir(folder))
    for case, is_same in cases:
        named = {**good, **case}
        alone, program = programs / "radixjoin", {"programs": programs}
        if "RADIXJOIN" in named:
            alone, program = None, {"programs": None}
        elif "program" in named:
            alone, program = named.pop("program"), {"programs": folder}
        with mock.patch.dict(os.environ, {"RADIXJOIN": named.pop("RADIXJOIN", "unused")}):
            tables = [named.pop(name) for name in ("left", "right", "clause")]
            wanted = telling.raised(radixjoin.join, *tables, program=alone, **{"explain": False, **named})
            error = telling.raised(join, *tables, parts=2, **program, **named)
        yield from [] if isinstance(wanted, Exception) else [f"{str(case)[:99]}: radixjoin.join raises nothing"]
        yield from telling.differs(f"{str(case)[:99]}", type(error), type(wanted))
        yield from telling.differs(f"{str(case)[:99]}: code, status", *([getattr(it, name, None) for name in ("code", "status", "side")] for it in (error, wanted)))
        yield from telling.differs(f"{str(case)[:99]}: words", str(error), str(wanted)) if is_same else []
        yield from telling.differs(f"{str(case)[:99]}: files", sorted(os.listdir(folder)), before)


def by_variable(join, programs, folder):
    """The programs that the environment variable RADIXJOIN names: the one, and those beside it; else those of this tree or on the PATH. And
    paths of bytes."""
    left, right, out = folder / "left.csv", folder / "right.csv", folder / "out.csv"
    left.write_text(LEFT)
    right.write_text(RIGHT)
    alone = radixjoin.join(left, right, CLAUSE, output=folder / "alone.csv", strict=False, program=programs / "radixjoin", **TYPES)
    for place, names in (("all", ("radixjoin", "shards", "merges")), ("one", ("radixjoin",))):
        (folder / place).mkdir()
        for name in names:
            (folder / place / name).write_text(f'#!/bin/sh\ntouch "{folder}/{place}.{name}"\nexec "{programs}/{name}" "$@"\n')
            (folder / place / name).chmod(0o755)
        path = {"PATH": f"{programs}:{os.environ['PATH']}"} if place == "one" else {}
        with mock.patch.dict(os.environ, {"RADIXJOIN": str(folder / place / "radixjoin"), **path}):
            join(left, right, CLAUSE, output=out, parts=2, ranges=2, **TYPES)
        yield from telling.differs(f"{place}: the bytes", out.read_bytes() == alone.read_bytes(), True)
        out.unlink()
        started = sorted(it.suffix[1:] for it in folder.glob(f"{place}.*"))
        yield from telling.differs(f"{place}: the programs that ran", started, sorted(names))
    gave = join(os.fsencode(left), str(right), CLAUSE, output=os.fsencode(out), programs=os.fsencode(programs), parts=2, **TYPES)
    yield from telling.differs("paths of bytes", (gave, out.read_bytes() == alone.read_bytes()), (os.fsencode(out), True))


def over_inputs(join, programs, folder):
    """A result in the file of a table is refused, by whatever name, and the table stays."""
    left, right, linked, symbolic = (folder / name for name in ("left.csv", "right.csv", "linked.csv", "symbolic.csv"))
    left.write_text(LEFT)
    right.write_text(RIGHT)
    os.link(left, linked)
    symbolic.symlink_to(right)
    before = sorted(os.listdir(folder))
    for side, one, other, output in (
        ("left", left, right, left),
        ("left", str(left), right, linked),
        ("left", linked, right, str(left)),
        ("right", left, right, right),
        ("right", left, right, symbolic),
        ("right", left, symbolic, right),
        ("left", left, left, left),
    ):
        fault = telling.raised(join, one, other, CLAUSE, output=output, programs=programs, parts=2, **TYPES)
        title = f"{one.__class__.__name__} {output}"
        yield from telling.differs(title, (type(fault), str(fault)), (radixjoin.DeviceFault, f"radixjoin: E29 OutputIsInput {side}"))
        after = sorted(os.listdir(folder)), left.read_text(), right.read_text(), os.path.samefile(left, linked), symbolic.is_symlink()
        yield from telling.differs(f"{title}: files", after, (before, LEFT, RIGHT, True, True))
    words = ["--programs", programs, "--left-types=int,text", "--right-types=int,text", f"--join={CLAUSE}", "--left=left.csv", "--right=right.csv", "--out=symbolic.csv"]
    ran = subprocess.run([sys.executable, "-m", "radixjoin.cluster", *words], cwd=folder, capture_output=True, check=False)
    yield from telling.differs("the command", (ran.returncode, ran.stdout, ran.stderr), (6, b"", b"radixjoin: E29 OutputIsInput right\n"))
    yield from telling.differs("the command's files", (sorted(os.listdir(folder)), right.read_text(), symbolic.is_symlink()), (before, RIGHT, True))


def command(programs, folder):
    """The module as a command."""
    (folder / "left.csv").write_text("id\n2\n1\n")
    (folder / "right.csv").write_text("id\n1\n")
    tables = ["--left", "left.csv", "--left-types", "int", "--right", "right.csv", "--right-types", "int"]
    words = ["--programs", programs, *tables, "--join", "LEFT JOIN ON L.id = R.id", "--out", "out.csv"]
    ran = subprocess.run([sys.executable, "-m", "radixjoin.cluster", *words], cwd=folder, capture_output=True, check=False)
    yield from telling.differs("how it ends", (ran.returncode, ran.stdout, ran.stderr), (0, b"", b""))
    yield from telling.differs("the bytes", (folder / "out.csv").read_bytes(), b"id,id\n1,1\n2,\n")
    for more, told in (
        (["--nul", "x"], b"unrecognized arguments"),
        (["--out", "other.csv"], b"--out can be given once"),
        (["--left", "left.csv"], b"--left can be given once"),
        (["--memory=0"], b"--memory is from 1 to"),
        (["--spread=0"], b"--spread is from 1 to"),
        (["--right-null=a", "--right-null=b", "--null=x", "--null=y"], b"--null can be given once"),
    ):
        ran = subprocess.run([sys.executable, "-m", "radixjoin.cluster", *words, *more], cwd=folder, capture_output=True, check=False)
        yield from telling.differs(f"{more}", (ran.returncode, told in ran.stderr), (2, True))


def command_without_streams(programs, folder):
    """The module as a command, and a process of its own, that begin with standard streams closed, whose numbers other files get. The
    fault of one whose standard error is closed is its status alone."""
    (folder / "left.csv").write_text("id\n2\n1\n")
    (folder / "right.csv").write_text("id\n1\n")
    before = sorted(os.listdir(folder))
    tables = ["--left", "left.csv", "--left-types", "int", "--right", "right.csv", "--right-types", "int", "--programs", str(programs), "--out", "out.csv"]
    for number, streams in enumerate(CLOSED):
        for clause, status, wanted in (("LEFT JOIN ON L.id = R.id", 0, b"id,id\n1,1\n2,\n"), ("LEFT JOIN ON L.id = R.no", 4, None))[: 2 - number % 2]:
            words = [sys.executable, "-m", "radixjoin.cluster", *tables, "--join", clause]
            with subprocess.Popen(without(streams, words), cwd=folder, stdin=subprocess.DEVNULL, stdout=subprocess.PIPE, stderr=subprocess.PIPE, start_new_session=True) as child:
                try:
                    stdout, stderr = child.communicate(timeout=SECONDS)
                except subprocess.TimeoutExpired:
                    os.killpg(child.pid, signal.SIGKILL)
                    yield f"without {streams} {clause}: no end within {SECONDS} seconds"
                    continue
            told = b"" if status == 0 or 2 in streams else b"radixjoin: E13 UnknownColumn\n"
            yield from telling.differs(f"without {streams} {clause}: how it ends", (child.returncode, stdout, stderr), (status, b"", told))
            got = (folder / "out.csv").read_bytes() if (folder / "out.csv").exists() else None
            yield from telling.differs(f"without {streams} {clause}: the bytes", got, wanted)
            (folder / "out.csv").unlink(missing_ok=True)
        yield from telling.differs(f"without {streams}: files", sorted(os.listdir(folder)), before)


# The tests of joins, whoever does their tasks.
TESTS = {
    "joins": joins,
    "null texts by side and types by name": by_side,
    "delimiters": by_delimiter,
    "as join does": as_join_does,
    "by variable": by_variable,
    "a result in the file of a table": over_inputs,
}


def run_joins(where, join, programs):
    """The tests of a join on this machine, or over a client."""
    for title, test in TESTS.items():
        with tempfile.TemporaryDirectory(prefix="radixjoin-test-") as name:
            telling.attempt(f"radixjoin.cluster.join {where}, {title}", test, join, programs, pathlib.Path(name))


def arguments(folder):
    """Of a client and a number of processes one alone can be given, and the latter in its limits."""
    cases = (
        ({"client": object(), "processes": 2}, TypeError("processes= is of this machine, and client= of a cluster")),
        ({"processes": 0}, ValueError("processes= is from 1 to 1024")),
        ({"processes": 1025}, ValueError("processes= is from 1 to 1024")),
    )
    for named, wanted in cases:
        error = telling.raised(cluster.join, "left.csv", "right.csv", CLAUSE, output=folder / "out.csv", **named, **TYPES)
        yield from telling.differs(f"{[*named]}", repr(error), repr(wanted))


def over_client(programs):
    """The tests of joins over a Dask client."""
    from distributed import Client, LocalCluster

    for name in ("asyncio", "tornado", "distributed"):
        logging.getLogger(name).setLevel(logging.CRITICAL)
    with LocalCluster(n_workers=2, threads_per_worker=1, memory_limit=0, dashboard_address=":0", silence_logs=50) as local, Client(local) as client:
        run_joins("over a client", functools.partial(cluster.join, client=client), programs)


def main(programs):
    run_joins("on this machine", functools.partial(cluster.join, processes=2), programs)
    if importlib.util.find_spec("distributed"):
        over_client(programs)
    with tempfile.TemporaryDirectory(prefix="radixjoin-test-") as name:
        telling.attempt("radixjoin.cluster.join, where tasks are done", arguments, pathlib.Path(name))
    with tempfile.TemporaryDirectory(prefix="radixjoin-test-") as name:
        telling.attempt("python -m radixjoin.cluster", command, programs, pathlib.Path(name))
    with tempfile.TemporaryDirectory(prefix="radixjoin-test-") as name:
        telling.attempt("python -m radixjoin.cluster without standard streams", command_without_streams, programs, pathlib.Path(name))


if __name__ == "__main__":
    main(pathlib.Path(sys.argv[1]))
