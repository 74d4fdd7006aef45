"""Refuses each allocation in turn in further runs of the built programs: statistics, coalesced texts, a remainder, a
quoted header, other delimiters, a left table of three segments, the versions, faults, a write that fails, scripts with gaps, and the division and
the merge of shards, also of broken ones.

Each run ends as if nothing had been refused, or with `E18 Memory`, status 5. Where it would end by a fault it may end
by that too; nothing is on standard output then but after a write that failed."""
import functools
import os
import pathlib
import re

import harness
import refused_allocations

MOST = 20_000
SECONDS = 30


class Run:
    """A run of a program, and how it ends where nothing is refused; `stdout` may be `full`, a device that takes nothing."""

    def __init__(self, name, words, files, stdout, stderr=b"", status=0, program="radixjoin", stdin=b"", is_full=False):
        self.name = name
        self.words = words
        self.files = files
        self.stdout = stdout
        self.stderr = stderr
        self.status = status
        self.program = program
        self.stdin = stdin
        self.is_full = is_full


def joined(name, left, right, types, clause, stdout, *options, **how):
    """A run of radixjoin on two files."""
    words = ["--left", "left.csv", "--right", "right.csv", "--left-types", types[0], "--right-types", types[1], "--join", clause, *options]
    return Run(name, words, {"left.csv": left, "right.csv": right}, stdout, **how)


STATISTICS = b"partition 0 left 1 right 0\npartition 1 left 1 right 1\npartition 2 left 0 right 0\npartition 3 left 1 right 0\npairs 1 lone-left 0 lone-right 0\n"
TEXTS = b"k,a\nann,1\n,2\ncy,3\n", b"b,k\n4,bob\n5,cy\n6,\n"
QUOTED = b'"a,b","say ""it"""\n1,x\n', b'"a,b",c\n1,"p,q"\n'
# Left tables that are given back segment by segment: one of three segments, by one worker, and the least for which two workers do that.
LONG = b"k,a\n" + b"".join(b"%d,x\n" % row for row in range(140_000)), b"k,b\n139999,p\n5,q\n70000,\n"
LONGER = b"k,a\n" + b"".join(b"%d,x\n" % row for row in range(2 * 98_304)), b"k,b\n196607,p\n5,q\n70000,\n"
REPLAYED = b"held\naccepted 1\nheld\nrefused repeat\nunreadable\nsender 0 waiting 1 rows 9 9\nsender 0 gap 1 2\nsender 1 waiting 0 rows\nsender 1 gap 0 7\nincomplete\n"
SCRIPT = b"0 0 2 rows 5 7\n0 0 0 rows 9 9\n1 0 7 close\n0 0 2 rows 1\nx\n"
REPLAY = ["--partition=0", "--senders=2", "--block=2", "--gaps"]
DIVISION = ["--side=left", "--left=left.csv", "--right=right.csv", "--left-types=int,text", "--right-types=int", "--join=JOIN USING (k)", "--parts=2"]
DIVIDED = {"left.csv": b'k,a\n1,"x\ny"\n,z\n2,"say ""it"""\n', "right.csv": b"k\n1\n"}
MERGED = {"0.csv": b"left_place,a,right_place\n0,x,5\n1,y,\n", "1.csv": b'left_place,a,right_place\n0,"z\n",7\n,w,2\n'}
OTHERS = {**MERGED, "2.csv": b"left_place,b,right_place\n0,x,5\n"}
RUNS = [
    joined("statistics", b"k\n-1\n0\n5\n", b"k\n5\n", ["int", "int"], "JOIN USING (k)", b"k\n5\n", "--bits1=2", "--stats", stderr=STATISTICS),
    joined("coalesced texts", *TEXTS, ["text,int", "int,text"], "FULL JOIN USING (k)", b"k,a,b\ncy,3,5\nann,1,\n,2,\nbob,,4\n,,6\n"),
    joined("a remainder", b"k,a\n1,5\n1,9\n2,7\n", b"k,b\n1,7\n2,8\n", ["int,int", "int,int"], "LEFT JOIN ON L.k = R.k AND (L.a > R.b OR R.b IN (8, 6) AND NOT L.a IS NULL)", b"k,a,k,b\n1,9,1,7\n2,7,2,8\n1,5,,\n"),
    joined("a quoted header", *QUOTED, ["int,text", "int,text"], 'RIGHT JOIN ON L."a,b" = R."a,b"', b'"a,b","say ""it""","a,b",c\n1,x,1,"p,q"\n'),
    joined("a null text", b"k\nNULL\n1\n", b"k,b\n1,NULL\n", ["int", "int,text"], "NATURAL FULL JOIN", b"k,b\n1,NULL\nNULL,NULL\n", "--null=NULL"),
    joined("delimiters", b"k;a\n1;\"x;y\"\n2;p,q\n", b"k\tb\n1\t\"u\tv\"\n", ["int,text", "int,text"], "LEFT JOIN USING (k)", b"k|a|b\n1|x;y|u\tv\n2|p,q|\n", "--left-delimiter=;", "--right-delimiter=tab", "--out-delimiter=|", "--strict"),
    joined("two passes by the mixed hash", *TEXTS, ["text,int", "int,text"], "FULL JOIN USING (k)", b"k,a,b\ncy,3,5\nann,1,\n,2,\nbob,,4\n,,6\n", "--bits1=1", "--bits2=2", "--hash=mixed"),
    joined("segments", *LONG, ["int,text", "int,text"], "RIGHT JOIN USING (k)", b"k,a,b\n5,x,q\n70000,x,\n139999,x,p\n"),
    joined("segments, two workers", *LONGER, ["int,text", "int,text"], "RIGHT JOIN USING (k)", b"k,a,b\n5,x,q\n70000,x,\n196607,x,p\n", "--workers=2"),
    Run("the version", ["--version"], {}, b"radixjoin 1.0.0\n"),
    Run("the version of arrivals", ["--version"], {}, b"arrivals 1.0.0\n", program="arrivals"),
    joined("a bad integer", b"k\n1\nx\n", b"k\n1\n", ["int", "int"], "CROSS JOIN", b"", stderr=b"radixjoin: E6 BadInteger left row 2 column 1\n", status=3),
    joined("no clause", b"k\n1\n", b"k\n1\n", ["int", "int"], "JOIN ON (L.k = 1 AND NOT R.k IS NULL", b"", stderr=b"radixjoin: E11 Syntax byte 36\n", status=4),
    joined("no column", b"k\n1\n", b"k\n1\n", ["int", "int"], 'JOIN ON L.k = 1 AND R."K" > 2', b"", stderr=b"radixjoin: E13 UnknownColumn\n", status=4),
    joined("a write that fails", b"k\n1\n", b"k\n1\n", ["int", "int"], "CROSS JOIN", b"", "--stats", stderr=b"radixjoin: E20 WriteDevice\n", status=6, is_full=True),
    Run("a missing file", ["--left=none", "--right=none", "--left-types=int", "--right-types=int", "--join=JOIN"], {}, b"", b"radixjoin: E19 ReadDevice left\n", 6),
    Run("a bad type list", ["--left=none", "--right=none", "--left-types=int,x", "--right-types=int", "--join=JOIN"], {}, b"", b"radixjoin: bad type list left\n", 2),
    Run("a bad delimiter", ["--left=none", "--right=none", "--left-types=int", "--right-types=int", "--join=JOIN", "--delimiter=;;"], {}, b"", b"radixjoin: E34 BadDelimiter\n", 2),
    Run("a script with gaps", REPLAY, {}, REPLAYED, status=3, program="arrivals", stdin=SCRIPT),
    Run("a script to a full device", REPLAY, {}, b"", b"arrivals: E20 WriteDevice\n", 6, program="arrivals", stdin=SCRIPT, is_full=True),
    Run("a division", [*DIVISION, "--out=parts"], DIVIDED, b"rows 3 header 15\n", program="shards"),
    Run("cuts", [*DIVISION, "--cuts=2"], DIVIDED, b"", program="shards"),
    Run("a merge", ["0.csv", "1.csv"], MERGED, b'a\nx\n"z\n"\ny\nw\n', program="merges"),
    Run("a merge to a full device", ["0.csv", "1.csv"], MERGED, b"", b"merges: E20 WriteDevice\n", 6, program="merges", is_full=True),
    Run("a merge of rows in two files each", ["--copies=2x2,2x2", "0.csv", "1.csv"], MERGED, b'a\nx\n"z\n"\n', program="merges"),
    Run("a merge of a missing file", ["0.csv", "none.csv", "1.csv"], MERGED, b"", b"merges: E19 ReadDevice none.csv\n", 6, program="merges"),
    Run("a merge of another header", ["0.csv", "2.csv"], OTHERS, b"", b"merges: E42 OtherHeader 2.csv\n", 3, program="merges"),
]


def ended(run, folder, environment):
    """How a run ended."""
    words = [harness.program(run.program), *run.words]
    return harness.run(words, folder, run.stdin, "full" if run.is_full else "read", environment, SECONDS)


def faults_of(run, ran):
    """What isn't as wanted of a run in which something was refused."""
    as_ever = harness.differences(ran, run.stdout, run.stderr, run.status)
    # Nothing is promised of how much `arrivals` and `merges` had written. What `shards` tells of files are the lines of `radixjoin`.
    stdout = None if run.program in ("arrivals", "merges") else b""
    teller = "radixjoin" if run.program == "shards" else run.program
    for_memory = harness.differences(ran, stdout, f"{teller}: E18 Memory\n".encode(), 5)
    return as_ever and for_memory and [*as_ever, "and not for want of memory:", *for_memory]


def sweep(tally, refuse, run):
    """Refuses the first, the second, .. until a run meets no refusal."""
    with harness.folder() as at:
        folder = pathlib.Path(at)
        for file, content in run.files.items():
            (folder / file).write_bytes(content)
        report, ended_for_memory = folder / "report", False
        for n in range(1, MOST):
            environment = {**os.environ, "LD_PRELOAD": str(refuse), "REFUSE_ALLOCATION": str(n), "REFUSE_REPORT": str(report)}
            ran = ended(run, folder, environment)
            if not report.exists():
                tally.check(f"{run.name}: no refusal", harness.differences(ran, run.stdout, run.stderr, run.status))
                tally.check(f"{run.name}: ends for want of memory", [] if ended_for_memory else ["no refusal ended it"])
                return n - 1
            report.unlink()
            ended_for_memory |= ran.status == 5
            tally.check(f"{run.name}: allocation {n} refused", faults_of(run, ran))
    tally.check(run.name, [f"{MOST} refusals, and no end"])
    return MOST


# What `--explain` adds to E18 for files of 16 and 8 bytes, and for their joined table of two matches, whose rows have about 5 and 8 bytes.
FILES = b"  the files have 16 bytes and 8 bytes, and their tables take about as much again\n"
MATCHES = (
    b"  the joined table has 2 rows, and its matches take 16 bytes\n"
    b"  the text of what is written takes about 26 bytes, if it has all columns\n"
    b"  so the likely cause is the text of the result\n"
)


def explained(tally, refuse, label, options, tables):
    """What `--explain` adds where an allocation is refused in turn: while which file was read, or what the tables and their joined table take."""
    left, right = b"k,a\n1,5\n1,9\n2,7\n", b"k,b\n1,7\n"
    reading = re.compile(rb"(?:  while the (?:left|right) file was read\n)?")
    run = joined(f"explained, {label}", left, right, ["int,int", "int,int"], "JOIN USING (k)", None, "--explain", *options)
    with harness.folder() as at:
        folder, is_told = pathlib.Path(at), False
        for file, content in run.files.items():
            (folder / file).write_bytes(content)
        for n in range(1, MOST):
            report = folder / "report"
            environment = {**os.environ, "LD_PRELOAD": str(refuse), "REFUSE_ALLOCATION": str(n), "REFUSE_REPORT": str(report)}
            ran = ended(run, folder, environment)
            was_refused = report.exists()
            report.unlink(missing_ok=True)
            if ran.status == 5:
                told = ran.stderr.removeprefix(b"radixjoin: E18 Memory\n")
                is_told |= told == tables
                tally.check(f"{run.name}: allocation {n}", [] if told == tables or reading.fullmatch(told) else [harness.shorten(ran.stderr)])
            elif not was_refused:
                break
        tally.check(f"{run.name}: tables are told", [] if is_told else ["no line tells them"])


def run_all(tally):
    """Sweeps each run."""
    with harness.folder() as at:
        refuse = refused_allocations.library(pathlib.Path(at))
        # (with --max-rows the files' bytes are kept to the end)
        for label, options, tables in (
            ("joined", [], FILES + MATCHES),
            ("joined as expected", ["--max-rows", "2"], FILES + MATCHES),
            ("counted", ["--count"], FILES),
        ):
            explained(tally, refuse, label, options, tables)
        found = harness.side_by_side(tally, [functools.partial(sweep, refuse=refuse, run=run) for run in RUNS])
        counts = [f"{run.name} {count}" for run, count in zip(RUNS, found)]
    print("allocations refused in turn:", ", ".join(counts))
