"""Joins by left runs, each with the whole right file, beside `radixjoin` alone: random tables, with keys that many rows have, and what has to
be quoted; headers of all kinds; right rows that are in no match; faults in the rows, of which the first one is told; runs that are killed,
refused, or short of memory, where shards follow; the script is told to end, and the disks are full; what is shown; and where the last
records of a text begin.

usage: cluster_runs.py [RUNS [FIRST]]

RUNS random joins from the seed FIRST on (60 from 0, where they aren't given). The last line is 'N passed, M failed'."""
import contextlib
import itertools
import os
import pathlib
import random
import signal
import sys
import tempfile
import threading
import time
import types
from unittest import mock

import cluster
import cluster_ends
import cluster_manners
import cluster_memory
import cluster_pieces
import harness
import progress
import shards

from radixjoin import clauses, local, plans, text

SCRIPT = shards.SCRIPT
RUNS = 60
# A text that the words of a run have, and no others of `radixjoin`: the name of the right file.
STEP = "right.csv"


@contextlib.contextmanager
def patched():
    """While this goes on small files are cut into runs, and the last records of a file are looked for in small pieces. It isn't begun in a
    thread."""
    least = mock.patch.multiple(plans, LEAST_RUN=1, PART_OF_RIGHT=1 << 30, LEAST_PARTS=2, LEAST_SPREAD=1)
    with least, mock.patch.object(SCRIPT, "cuts_of", cluster_pieces.cuts_of), mock.patch.object(text, "_LAST", 37):
        yield


class Machine(local.Machine):
    """Notes which tasks are done, and whether a cell is to be told. Of shards' tasks it does some at a time."""

    def __init__(self, count):
        super().__init__(count, False)
        self.names = []

    def answers(self, words):
        self.names += [task.__name__ for task, *_ in words]
        return super().answers(words)

    def in_turn(self, words):
        self.names += [task.__name__ for task, *_ in words]
        return super().in_turn(words)

    def runs(self):
        """How many left runs there were, and whether it was done in shards."""
        return self.names.count("join_run"), any(name in self.names for name in ("divide", "merge_shards", "merge_range"))


def memory_for(folder, runs):
    """The memory by which files are joined in so many runs: they don't fit into it together."""
    left, right = ((folder / f"{side}.csv").stat().st_size for side in SCRIPT.SIDES)
    return plans.MEASURE * (right + -(-left // runs))


def joined(words, folder, runs, *more):
    """A join with memory for so many runs: how it ended, how many left runs there were, and whether it was done in shards."""
    on = Machine(2)
    ran = shards.joined([*words, f"--memory={memory_for(folder, runs)}", *more], folder, 1, cluster=lambda _: on)
    return ran, *on.runs()


def write(folder, left, right):
    """Writes two tables of a number and a text, and gives the words that name them."""
    (folder / "left.csv").write_bytes(left.encode("utf-8", "surrogateescape"))
    (folder / "right.csv").write_bytes(right.encode("utf-8", "surrogateescape"))
    return [word for side in SCRIPT.SIDES for word in (f"--{side}={folder}/{side}.csv", f"--{side}-types=int,text")]


# A clause, the kinds of rows that are asked for, and those that are written.
KINDS = (
    ("JOIN USING (k)", None, "pairs"),
    ("INNER JOIN ON L.k = R.k", "lone-left,pairs", "pairs"),
    ("cross\tjoin", None, "pairs"),
    ("NATURAL JOIN", "lone-left,lone-right", ""),
    ("left join using (k)", None, "pairs lone-left"),
    (" natural\nLeft  Outer Join", None, "pairs lone-left"),
    ("LEFT JOIN USING (k)", "lone-right,lone-left", "lone-left"),
    ("RIGHT OUTER JOIN USING (k)", None, "pairs lone-right"),
    ("RIGHT JOIN USING (k)", "pairs,lone-left", "pairs"),
    ("FULL JOIN USING (k)", None, "pairs lone-left lone-right"),
    ("FULL JOIN USING (k)", "lone-left", "lone-left"),
    ("no clause", None, "pairs lone-left lone-right"),
)
# A clause, the kinds of rows that are asked for, and the side of which it is told that it has no unmatched rows.
UNKEPT = (
    ("JOIN USING (k)", "lone-left", "left"),
    ("inner join using (k)", "pairs,lone-right", "right"),
    ("natural\tjoin", "lone-right,lone-left", "left"),
    ("Cross Join", "lone-left,pairs", "left"),
    ("LEFT JOIN USING (k)", "lone-right,lone-left", "right"),
    ("NATURAL RIGHT OUTER JOIN", "lone-left,lone-right", "left"),
    ("LEFT JOIN USING (k)", "pairs,lone-left", None),
    ("RIGHT JOIN USING (k)", "lone-right", None),
    ("FULL JOIN USING (k)", "lone-left,lone-right", None),
    ("JOIN USING (k)", "lone-right,pairs,lone-left", None),
    ("JOIN USING (k)", "pairs", None),
    ("JOIN USING (k)", None, None),
    ("no clause", "lone-left", None),
)
# What is told of it, by the side.
TOLD_OF = {
    None: "",
    "left": "radixjoin: the join keeps no unmatched left rows; a LEFT or FULL JOIN keeps them\n",
    "right": "radixjoin: the join keeps no unmatched right rows; a RIGHT or FULL JOIN keeps them\n",
}


def run_kinds(tally):
    for clause, rows, wanted in KINDS:
        got = [kind for kind in clauses.kinds_of(clause, rows) if kind != "matched-left"]
        tally.check(f"cluster_runs: kinds of {clause!r} {rows}", [] if got == wanted.split() else [f"{got}, and not {wanted}"])
    for clause, rows, side in UNKEPT:
        got = clauses.told_of_rows(clause, rows)
        tally.check(f"cluster_runs: what is told of {clause!r} {rows}", [] if got == TOLD_OF[side] else [f"{got!r}, and not {TOLD_OF[side]!r}"])


# Texts for null, of which some are those of cells.
NULLS = ([], [], [], ["--null=plain"], ["--right-null=plain", "--right-null=", "--out-null=~"], ["--right-null=plain", "--right-null=x", "--out-null="])


def random_words(pick, folder):
    """Two random tables and the words that join them, with marks, ends of lines and a grammar that are looked at in all ways. Names of keys
    may be spelled in two ways."""
    if pick.random() < 0.3:
        words = cluster_pieces.words_of(pick, folder)
    else:
        end, mark = pick.choice(shards.ENDS), pick.choice(("\ufeff", "", ""))
        sides = (f"{mark}k,n,a{end}", pick.randrange(60)), (f"{pick.choice(('', mark))}{pick.choice('kK')},n,b{end}", pick.randrange(30))
        words = write(folder, *(header + shards.random_rows(pick, rows, end) for header, rows in sides))
        words = [word.replace("-types=int,text", "-types=int,int,text") for word in words]
        words[3] = pick.choice((words[3], "--right-types=num(9,2),int,text"))
        rows = [] if pick.random() < 0.6 else [f"--rows={','.join(pick.sample(cluster_pieces.ROWS, pick.randrange(1, 4)))}"]
        kind, how = pick.choice(("JOIN", *["LEFT JOIN"] * 3, "RIGHT JOIN", *["FULL JOIN"] * 3)), pick.choice(cluster_pieces.CONDITIONS)
        words += [f"--join={pick.choice((f'NATURAL {kind}', *[f'{kind} {how}'] * 5))}", *rows, *pick.choice(NULLS)]
        words += [*pick.choice(([], ["--order=left"])), *pick.choice(([], [], ["--strict"]))]
        words = words if pick.random() < 0.5 else shards.delimited(pick, words, folder)
    if pick.random() < 0.3:
        with open(folder / "left.csv", "rb+") as left:
            # (the last line may lack its end)
            left.truncate(max(0, os.path.getsize(folder / "left.csv") - 1))
    return [*words, *pick.choice(([], ["--workers=2", "--bits1=1"], ["--strict=full"] if "--strict" not in words else []))]


def run_one(seed, tally):
    """One random join. It gives how many left runs there were, how it ended, and whether the result was divided."""
    pick = random.Random(f"radixjoin: left runs {seed}")
    with harness.folder() as name:
        folder = pathlib.Path(name)
        words = random_words(pick, folder)
        wanted = harness.run([harness.program("radixjoin"), *words], folder)
        count = pick.choice((2, 3, 7))
        ran, runs, are_shards = joined(words, folder, count)
        faults = harness.differences(ran, wanted.stdout, wanted.stderr, wanted.status)
        is_whole = plans.MEASURE * sum((folder / f"{side}.csv").stat().st_size for side in SCRIPT.SIDES) <= memory_for(folder, count)
        if wanted.status == 0:
            faults += [] if (runs > 0, are_shards) == (not is_whole, False) else [f"{runs} left runs, and shards: {are_shards}"]
        tally.check(f"cluster_runs: {seed}: {words} by {count} runs", faults)
        return runs, wanted.status, are_shards


def run_random(seeds, tally):
    """Such joins. Where they are many most are done by some runs, and some are refused."""
    with patched():
        ran = harness.side_by_side(tally, [lambda own, seed=seed: run_one(seed, own) for seed in seeds])
    if len(ran) >= RUNS:
        many = sum(runs > 1 and not are_shards for runs, _, are_shards in ran)
        tally.check("cluster_runs: joins by runs", [] if many > len(ran) / 4 and {0, 3} <= {status for _, status, _ in ran} else [f"{many} of {len(ran)}: {ran}"])


# The header and the rows of a left file, and those of a right one; where the text has to be as it stands.
ROWS = "1,x\n2,y\n1,z\n3,x\n,w\n"
TABLES = (
    ("no rows", "k,a\n", "k,b\n1,x\n"),
    ("no rows on the right", f"k,a\n{ROWS}", "k,b\n"),
    ("no rows at all", "k,a\n", "k,b\n"),
    ("a header without its end", "k,a", "k,b\n1,y\n"),
    ("a mark", f"\ufeffk,a\n{ROWS}", "\ufeffk,b\n1,y\n"),
    ("a mark, and a name that begins with one", f"\ufeff\ufeffk,a\n{ROWS}", "k,b\n1,y\n"),
    ("names that have to be quoted", f'"k, ""1""","a\nb"\n{ROWS}', 'k,"b\n"\n1,y\n'),
    ("a quote in a name that isn't quoted", f'k"1,a"\n{ROWS}', "k,b\n1,y\n"),
    ("empty lines first", f"\n\r\n\nk,a\n{ROWS}\n\n", "\nk,b\n1,y\n"),
    ("ends of lines", 'k,a\r\n1,"x\r\n"\r\n2,y\r\n1,"\n"\r\n', "k,b\r\n1,y\r\n"),
    ("a last line without its end", 'k,a\n1,"x\n"\n2,y\n1,"\n"', "k,b\n1,y"),
    ("quotes alone", 'k,a\n1,""""\n2,"""\n"""\n,""""""\n1,"\n"""\n', 'k,b\n1,"""\n"\n'),
    ("keys that all rows have", "k,a\n" + "".join(f'1,"{number}\n"\n' for number in range(30)), "k,b\n" + '1,"\n"\n' * 9),
    ("no row in a match", "k,a\n" + "".join(f'{number},"{number}\n"\n' for number in range(30)), "k,b\n-1,x\n"),
)
WAYS = (["LEFT JOIN"], ["JOIN"], ["LEFT JOIN", "--order=left"], ["LEFT JOIN", "--rows=lone-left"], ["LEFT JOIN", "--rows=pairs"], ["FULL JOIN", "--rows=lone-left,pairs"], ["RIGHT JOIN", "--rows=pairs", "--strict"])
# Those by which unmatched right rows are written.
RIGHT_WAYS = (["FULL JOIN"], ["FULL JOIN", "--order=left"], ["FULL JOIN", "--rows=lone-right"], ["RIGHT JOIN"], ["FULL JOIN", "--rows=lone-left,lone-right"], ["RIGHT JOIN", "--rows=lone-right,pairs"])


def clause_by(kind, *headers):
    """The clause that joins by the first columns of tables with these headers."""
    names = [clauses.quoted(text.header_in(header.lstrip("\r\n").encode())[0]) for header in headers]
    return f"{kind} ON L.{names[0]} = R.{names[1]}"


def run_table(name, left, right, more, count, tally):
    with harness.folder() as place:
        folder = pathlib.Path(place)
        kind, *options = more
        words = [*write(folder, left, right), f"--join={clause_by(kind, left, right)}", *options]
        wanted = harness.run([harness.program("radixjoin"), *words], folder)
        ran, runs, are_shards = joined(words, folder, count)
        faults = harness.differences(ran, wanted.stdout, wanted.stderr, wanted.status)
        faults += [f"{runs} left runs, and shards: {are_shards}"] if (are_shards or not runs) and wanted.status == 0 else []
        tally.check(f"cluster_runs: {name}, {words} by {count} runs", faults)


def run_tables(tally):
    """Each of the tables in four ways, and as a LEFT join in the order of pairs."""
    with patched():
        cases = [(*table, WAYS[way % len(WAYS)], 2 + way % 3) for number, table in enumerate(TABLES) for way in (0, 3 * number + 1, 3 * number + 2)]
        cases += [(*table, RIGHT_WAYS[way % len(RIGHT_WAYS)], 2 + way % 3) for number, table in enumerate(TABLES) for way in (number, number + 2)]
        harness.side_by_side(tally, [lambda own, it=it: run_table(*it, own) for it in cases])


# The header of tables of one column, in which an empty line is a row where it is read strictly, their rows, and options.
ONE_COLUMN = (
    ("a\n", 'x\n""\ny\nx\n""\n', 'x\n""\nz\nz\n', []),
    ("a\n", "x\n\ny\n\n\nx\n", "x\n\nz\n\n", ["--strict"]),
    ('"a"\n', "x\n\ny\n\n", "\nz\nNA\n", ["--strict", "--null=NA"]),
    ("a\n", "x\ny\nx\n", "z\n\n", ["--strict", "--right-null=-", "--right-null=", "--out-null="]),
)


def run_one_column(tally):
    cases = [(*case, join) for case in ONE_COLUMN for join in ("LEFT JOIN ON L.a = R.a", "FULL JOIN ON L.a = R.a", "FULL JOIN USING (a)", "NATURAL RIGHT JOIN")]
    for header, lefts, rights, more, join in cases:
        with harness.folder() as place, patched():
            folder = pathlib.Path(place)
            words = [word.replace("int,text", "text") for word in write(folder, header + lefts, header + rights)]
            words += [f"--join={join}", *more]
            wanted = harness.run([harness.program("radixjoin"), *words], folder)
            ran, runs, are_shards = joined(words, folder, 3)
            faults = harness.differences(ran, wanted.stdout, wanted.stderr, wanted.status)
            tally.check(f"cluster_runs: one column {header!r} {more} {join}", faults + ([] if runs > 1 and not are_shards else [f"{runs} left runs, and shards: {are_shards}"]))


def many_columns(count, length):
    """A header of so many columns, with names of so many bytes."""
    return ",".join(f"c{number:03}" + "x" * (length - 4) for number in range(count)) + "\n"


def many_cells(count, rows):
    """Rows of so many cells, each of which has the same text in all."""
    return "".join(",".join([it] * count) + "\n" for it in rows)


# Two tables, their types, the clause, further options, and whether shards follow.
LEFTS = "1,x\n2,y\n3,z\n,w\n1,v\n6,\n"
UNMATCHED = (
    ("rows that are alike", f"k,a\n{LEFTS}", "k,b\n4,p\n1,q\n4,p\n1,q\n4,p\n5,p\n4,p\n", "int,text", "FULL JOIN USING (k)", [], False),
    ("keys that are null", f"k,a\n{LEFTS}", "k,b\n,p\n2,q\n,p\n,\n", "int,text", "FULL JOIN ON L.k = R.k", [], False),
    ("texts that are null and texts that aren't", f"k,a\n{LEFTS}", 'k,b\n7,\n7,-\n7,""\n7,NA\n-,-\n1,-\n', "int,text", "RIGHT JOIN USING (k)", ["--right-null=NA", "--right-null=-"], False),
    ("an empty text that is null too", f"k,a\n{LEFTS}", 'k,b\n7,\n7,-\n7,""\n7,NA\n,-\n', "int,text", "FULL JOIN USING (k)", ["--right-null=-", "--right-null=", "--out-null=~"], False),
    ("a text that is written as null is", f"k,a\n{LEFTS}", "k,b\n7,~\n1,q\n", "int,text", "FULL JOIN USING (k)", ["--out-null=~"], False),
    ("a text that is written as null is, which is told", f"k,a\n{LEFTS}", "k,b\n7,p\n1,q\n7,~\n", "int,text", "FULL JOIN USING (k)", ["--out-null=~", "--strict"], True),
    ("such a text in a match alone", f"k,a\n{LEFTS}", "k,b\n7,p\n1,~\n", "int,text", "FULL JOIN USING (k)", ["--out-null=~", "--strict", "--rows=lone-right"], False),
    ("names in another spelling", f"Key,a\n{LEFTS}", "kEY,b\n4,p\n1,q\n", "int,text", "FULL JOIN USING (KEY)", [], False),
    ("types by such names", f"Key,a\n{LEFTS}", "kEY,b\n4,p\n1,q\n", '"Key"=int,*=text', "NATURAL FULL JOIN", ['--right-types=b=text,"kEY"=int'], False),
    ("several columns in another order", "x,y,a\n1,p,q\n2,p,q\n1,,r\n", "b,Y,X\ns,p,1\nt,p,3\nu,,1\nv,q,\n", "int,text,text", "NATURAL FULL JOIN", ["--right-types=text,text,int"], False),
    ("a column in the scale of the other side", f"k,a\n{LEFTS}", "k,b\n4,p\n1,q\n005,p\n", "num(4,2),text", "FULL JOIN USING (k)", ["--right-types=int,text"], False),
    ("numbers that are written in other ways", f"k,a\n{LEFTS}", "k,b\n+4,p\n1.0,q\n-0,p\n007.50,p\n", "num(6,2),text", "FULL JOIN ON L.k = R.k", [], False),
    ("a condition beside the key", f"k,a\n{LEFTS}", "k,b\n1,w\n1,x\n2,\n3,a\n", "int,text", "FULL JOIN ON L.k = R.k AND (L.a < R.b OR R.b IS NULL)", [], False),
    ("a row in a match of the last run alone", f"k,a\n{LEFTS}", "k,b\n6,p\n7,p\n", "int,text", "RIGHT JOIN USING (k)", [], False),
    ("no row left behind the first run", f"k,a\n{LEFTS}", "k,b\n1,p\n1,p\n", "int,text", "FULL JOIN USING (k)", [], False),
    ("no such row, and nothing else is written", f"k,a\n{LEFTS}", "k,b\n1,p\n1,p\n", "int,text", "FULL JOIN USING (k)", ["--rows=lone-right"], False),
    ("a name that begins with a mark", f"k,a\n{LEFTS}", "\ufeff\ufeffk,b\n1,p\n7,p\n", "int,text", 'FULL JOIN ON L.k = R."\ufeffk"', [], False),
    ("such a name of both sides", f"\ufeff\ufeffk,a\n{LEFTS}", "\ufeff\ufeffk,b\n1,p\n7,p\n", "int,text", "NATURAL FULL JOIN", [], False),
    ("names that have to be quoted", f'"k "",\n",a\n{LEFTS}', '"k "",\n","b\n"\n1,p\n7,p\n', "int,text", "NATURAL RIGHT JOIN", [], False),
    ("names that aren't ASCII", f"\u00e9,a\n{LEFTS}", "\u00e9,b\n1,p\n7,\u00e9\n", "int,text", 'FULL JOIN USING ("\u00e9")', [], False),
    ("names that no command line can have", f"k\0,a\n{LEFTS}", "k\0,b\n1,p\n7,p\n", "int,text", "NATURAL FULL JOIN", [], True),
    ("names that are too many", many_columns(250, 128) + many_cells(250, "12345"), many_columns(250, 128) + many_cells(250, "273"), "*=int", "NATURAL FULL JOIN", [], True),
    ("names that are many", many_columns(200, 128) + many_cells(200, "12345"), many_columns(200, 128) + many_cells(200, "273"), "*=int", "NATURAL FULL JOIN", [], False),
)


def run_unmatched(name, left, right, types_given, clause, more, are_wanted, count, order, tally):
    with harness.folder() as place:
        folder = pathlib.Path(place)
        own = [word.partition("=")[0] for word in more]
        words = [word.replace("int,text", types_given) for word in write(folder, left, right) if word.partition("=")[0] not in own]
        words += [f"--join={clause}", f"--order={order}", *more]
        wanted = harness.run([harness.program("radixjoin"), *words], folder)
        ran, runs, are_shards = joined(words, folder, count)
        faults = harness.differences(ran, wanted.stdout, wanted.stderr, wanted.status)
        # (where the clause can't be given to a program no run begins)
        faults += [] if are_shards == are_wanted and (runs > 1 or are_wanted) else [f"{runs} left runs, and shards: {are_shards}"]
        tally.check(f"cluster_runs: {name}, {order}, by {count} runs", faults)


def run_all_unmatched(tally):
    with patched():
        cases = [(*it, count, order) for it in UNMATCHED for count, order in ((2, "pairs"), (4, "left"))]
        harness.side_by_side(tally, [lambda own, it=it: run_unmatched(*it, own) for it in cases])


# What stands in the middle and at the end of the left file, and of the right one, and options: what is told is the first of several faults.
# (Where right rows alone are written, none is left that is unmatched before the last run.)
FULL_JOIN = "--join=FULL JOIN USING (k)"
FAULTY = (
    ("x,a\n", "", "", "", []),
    ("", "x,a\n", "", "", []),
    ("x,a\n", "y,a\n", "", "", []),
    ("", "2\n", "x,b\n", "", []),
    ("", "", "", "x,b\n", []),
    ("", "", "1,b\n2\n", "x,b\n", ["--order=left"]),
    ('1,"a"b\n', "", "x,b\n", "", ["--strict"]),
    ("", '1,"a\n', "1,b\n\n", "", ["--strict"]),
    ("", "1,a", "", "1,b", ["--strict=full"]),
    ("", "1,a", "", "", ["--strict=full"]),
    ("1,~\n", "", "", "", ["--strict", "--out-null=~"]),
    ("", "-1,~\n", "", "", ["--strict", "--out-null=~"]),
    ("", "-1,~\n", "1,~\n", "", ["--strict", "--out-null=~"]),
    ("1,~\n", "x,a\n", "", "", ["--strict", "--out-null=~", "--rows=pairs"]),
    ("", "1,\udcff\n", "", "", []),
    ("9999999999999999999,a\n", "", "", "\udcff,b\n", []),
    ("", "x,a\n", "", "", [FULL_JOIN]),
    ("", "x,a\n", "", "", [FULL_JOIN, "--rows=lone-right"]),
    ("x,a\n", "", "9,b\n", "x,b\n", [FULL_JOIN, "--rows=lone-right,pairs"]),
    ("", "", "9,~\n", "", ["--join=RIGHT JOIN USING (k)", "--strict", "--out-null=~"]),
    ("", "", "9,b\n", '9,"b\n', [FULL_JOIN, "--rows=lone-right", "--strict"]),
    ("", "-1,~\n", "9,~\n", "", [FULL_JOIN, "--strict", "--out-null=~", "--order=left"]),
)


def with_join(more):
    """The options with a LEFT join, where they have none."""
    return more if any(word.startswith("--join=") for word in more) else ["--join=LEFT JOIN USING (k)", *more]


def run_faulty(left, last, right, behind, more, is_explained, tally):
    """A fault in the rows is told as `radixjoin` tells it; and explained as it is of shards, which is looked at if asked for."""
    with harness.folder() as place:
        folder = pathlib.Path(place)
        rows = "".join(f'{number % 7},"a\n{number}"\n' for number in range(20))
        words = write(folder, f"k,a\n{rows}{left}{rows}{last}", f"k,b\n1,x\n{right}2,y\n{behind}")
        words += with_join(more)
        wanted = harness.run([harness.program("radixjoin"), *words], folder)
        ran, runs, are_shards = joined(words, folder, 4)
        faults = harness.differences(ran, wanted.stdout, wanted.stderr, wanted.status) + ([] if runs > 1 and are_shards and wanted.status == 3 else [f"{runs} left runs, and shards: {are_shards}"])
        tally.check(f"cluster_runs: {left!r}, {last!r}, {right!r}, {behind!r} {more}", faults)
        if not is_explained:
            return
        ran, _, _ = joined(words, folder, 2, "--explain")
        other = shards.joined([*words, "--parts=2", "--explain"], folder, 1, cluster=lambda _: Machine(2))
        tally.check(f"cluster_runs: {left!r}, {last!r}, {right!r}, {behind!r} {more} explained", harness.differences(ran, other.stdout, other.stderr, other.status))


def run_faults(tally):
    with patched():
        harness.side_by_side(tally, [lambda own, it=it, number=number: run_faulty(*it, number % 3 == 0, own) for number, it in enumerate(FAULTY)])


# What a program does in the place of runs, whether that is once or each time, and whether shards follow.
ENDS = (
    ("nothing", ":", False, False),
    ("is killed twice", cluster_ends.IS_KILLED_TWICE, False, False),
    ("is killed", cluster_ends.IS_KILLED, True, False),
    ("is killed each time", cluster_ends.IS_KILLED, False, True),
    ("is short of memory", "echo 'radixjoin: E18 Memory' >&2; exit 5", True, True),
    ("refuses", "echo 'radixjoin: E6 BadInteger left row 1 column 1' >&2; exit 3", True, True),
    ("fails", "echo over >&2; exit 101", True, True),
    ("writes half of it and is killed", f"echo k,a,b; echo 1,x,y; {cluster_ends.IS_KILLED}", True, False),
    ("writes another header", "echo k,a,c; echo 'pairs 0 lone-left 0 lone-right 0' >&2; exit", False, True),
    ("tells no numbers", "echo k,a,b; exit", False, True),
)


def program_that(folder, does, is_once, is_later):
    """A folder of the programs, of which `radixjoin` does something in the place of the first run of left rows, or of the one behind that,
    or of all from there on."""
    once = f'mkdir "$0.done" 2>/dev/null && {{ {does}; }}; true' if is_once else does
    first = f'mkdir "$0.first" 2>/dev/null && exec "{harness.program("radixjoin")}" "$@"; ' if is_later else ""
    return cluster_ends.programs_in(folder, "radixjoin", first + once, is_once=False, step=STEP)


def run_end(title, does, is_once, are_wanted, tally):
    """Something is done in the place of all runs, or of the second and later ones alone, once or each time."""
    for is_later, (kind, *more) in itertools.product((False, True), (["LEFT JOIN"], ["JOIN", "--order=left"])):
        if title == "tells no numbers" and kind == "JOIN" or title == "writes another header" and not is_later:
            continue
        with harness.folder() as place:
            folder = pathlib.Path(place)
            left, right = "".join(f'{number % 40},"{number}\n"\n' for number in range(90)), "".join(f"{number},b\n" for number in range(30))
            words = [*write(folder, f"k,a\n{left}", f"k,b\n{right}"), f"--join={kind} USING (k)", *more]
            wanted = harness.run([harness.program("radixjoin"), *words], folder)
            programs = program_that(folder / "programs", does, is_once, is_later)
            ran, runs, are_shards = joined(words, folder, 3, f"--programs={programs}")
            faults = harness.differences(ran, wanted.stdout, wanted.stderr, wanted.status) + ([] if (runs, are_shards) == (3, are_wanted) else [f"{runs} left runs, and shards: {are_shards}"])
            tally.check(f"cluster_runs: a program {title} in {'a later' if is_later else 'the first'} run, {kind} {more}", faults)


def run_ends(tally):
    with patched():
        harness.side_by_side(tally, [lambda own, it=it: run_end(*it, own) for it in ENDS])


# What a program does in the place of those that leave of the right rows the unmatched ones, or of the one that writes these, how often, and
# whether shards follow.
FINDS, WRITES = "--columns=right", "--rows=lone-right --workers"
RIGHT_ENDS = (
    ("is killed twice", FINDS, cluster_ends.IS_KILLED_TWICE, False, False),
    ("is killed each time", FINDS, cluster_ends.IS_KILLED, False, True),
    ("writes half of it and is killed", FINDS, f"echo k,b; echo 1,b; {cluster_ends.IS_KILLED}", True, False),
    ("is short of memory", FINDS, "echo 'radixjoin: E18 Memory' >&2; exit 5", True, True),
    ("refuses", FINDS, "echo 'radixjoin: E6 BadInteger left row 1 column 1' >&2; exit 3", True, True),
    ("is killed twice", WRITES, cluster_ends.IS_KILLED_TWICE, False, False),
    ("is killed each time", WRITES, cluster_ends.IS_KILLED, False, True),
    ("writes half of it and is killed", WRITES, f"echo k,a,b; echo 1,,b; {cluster_ends.IS_KILLED}", True, False),
    ("is short of memory", WRITES, "echo 'radixjoin: E18 Memory' >&2; exit 5", True, True),
    ("writes another header", WRITES, "echo k,a,c; exit", False, True),
)


def right_tables(folder):
    """Two tables of which some right rows are in no match, and the words that join them."""
    left, right = "".join(f'{number % 40},"{number}\n"\n' for number in range(90)), "".join(f"{number},b\n" for number in range(20, 60))
    return [*write(folder, f"k,a\n{left}", f"k,b\n{right}"), "--join=FULL JOIN USING (k)"]


def run_right_end(title, step, does, is_once, are_wanted, tally):
    """A program does something in the place of others that have to do with the unmatched right rows."""
    for more in ([], ["--order=left"], ["--rows=lone-right"]):
        with harness.folder() as place:
            folder = pathlib.Path(place)
            words = [*right_tables(folder), *more]
            wanted = harness.run([harness.program("radixjoin"), *words], folder)
            programs = cluster_ends.programs_in(folder / "programs", "radixjoin", does, is_once=is_once, step=step)
            ran, runs, are_shards = joined(words, folder, 3, f"--programs={programs}")
            if step == WRITES and "header" in title and more == ["--rows=lone-right"]:
                # (no rows stand before it that have another one)
                continue
            faults = harness.differences(ran, wanted.stdout, wanted.stderr, wanted.status) + ([] if (runs, are_shards) == (3, are_wanted) else [f"{runs} left runs, and shards: {are_shards}"])
            tally.check(f"cluster_runs: a program {title} with {step}, {more}", faults)


def run_right_ends(tally):
    with patched():
        harness.side_by_side(tally, [lambda own, it=it: run_right_end(*it, own) for it in RIGHT_ENDS])


def write_large(folder):
    """Writes a left file that is cut into two runs in 6 MiB of memory, and a small right one, and gives the words that join them. The left
    header has one quote, within a name."""
    left = 'k,a"\n' + "".join(f"{number * 7919 % 3000},{'x' * (number % 40)}\n" for number in range(130_000))
    return [*write(folder, left, "k,b\n" + "".join(f"{number},y\n" for number in range(2_000))), "--join=LEFT JOIN USING (k)"]


LARGE = ["--memory", "6M"]


def run_script(tally):
    """The script joins by runs, as `shards` cuts the file: it shows the plan and each run on a terminal."""
    with harness.folder() as place:
        folder = pathlib.Path(place)
        large = write_large(folder)
        programs = cluster_memory.programs_of_one_run(folder / "programs", ":")
        known = {it.name for it in folder.iterdir()} | {"stdout"}
        for kind, more in (("LEFT", []), ("LEFT", ["--processes", "2"]), ("FULL", [])):
            words = [word.replace("LEFT", kind) for word in large]
            wanted = harness.run([harness.program("radixjoin"), *words], folder)
            line = [sys.executable, cluster.SCRIPT, *words, "--programs", programs, "--out", "out.csv", "--progress", *LARGE, *more]
            shown = cluster_manners.on_terminal(line, folder)
            plan, rest = cluster_manners.plan_in(shown.stderr)
            lines, last = progress.lines_of(rest)
            workers = 2 if more else min(64, len(os.sched_getaffinity(0)))
            faults = [] if plan == f"2 left runs by {workers} workers, in about 5 of 6 MiB of memory" else [f"the plan is {plan}"]
            faults += cluster_manners.faults_of_lines(lines) + ([harness.shorten(last)] if last else [])
            faults += [] if b"radixjoin-cluster: joining, 1 of 2 tasks" in lines else [f"{lines}"]
            faults += [] if (b"radixjoin-cluster: putting the result together, 0 of 1 tasks" in lines) == (kind == "FULL") else [f"{lines}"]
            faults += ["it is done in shards"] if (programs / "merges.ran").exists() else []
            ran = types.SimpleNamespace(returncode=shown.status, stderr=b"")
            tally.check(f"cluster_runs: the script, {kind} {more}", faults + cluster.faults_of_run(ran, folder, known, wanted))
            (folder / "out.csv").unlink(missing_ok=True)


def run_told_to_end(number, tally):
    """The script is told to end while a run goes on: that ends, what stood at the result's place stays, and nothing is left."""
    with harness.folder() as place:
        folder = pathlib.Path(place)
        words = write_large(folder)
        programs = cluster_ends.programs_in(folder / "programs", "radixjoin", cluster_ends.WAITS.format("$$"), step=STEP)
        (folder / "out.csv").write_text("before")
        known = {it.name for it in folder.iterdir()}
        running = cluster_ends.begun(sys.executable, words, folder, "--programs", programs, *LARGE)
        runs = cluster_ends.number_in(programs, "radixjoin")
        running.send_signal(number)
        time.sleep(0.05)
        running.send_signal(signal.SIGTERM)
        ran = cluster.ended(running)
        faults = harness.differences(harness.Ran(ran.returncode, b"", ran.stderr), b"", b"", 128 + number)
        faults += [] if runs else ["it didn't run"]
        faults += [f"{it} goes on" for it in cluster_ends.goes_on(running.pid)]
        faults += [] if (folder / "out.csv").read_text() == "before" else ["out.csv is another one"]
        tally.check(f"cluster_runs: told to end by {number.name}", faults + [f"{it} was left behind" for it in cluster.left_behind(folder, known)])


def run_short(tally):
    """A result that is much longer than the memory: a run gives up before that is taken, and shards follow."""
    with harness.folder() as place, patched():
        folder = pathlib.Path(place)
        words = write(folder, *(f"k,{side}\n" + "".join(f"1,{side * 500}{number}\n" for number in range(200)) for side in SCRIPT.SIDES))
        words += ["--join=LEFT JOIN USING (k)", "--workers=1"]
        wanted = harness.run([harness.program("radixjoin"), *words], folder)
        ran, runs, are_shards = joined(words, folder, 2)
        faults = harness.differences(ran, wanted.stdout, wanted.stderr, wanted.status) + ([] if (runs, are_shards) == (2, True) else [f"{runs} left runs, and shards: {are_shards}"])
        tally.check(f"cluster_runs: {len(wanted.stdout) >> 20} MiB in {memory_for(folder, 2) >> 10} KiB of memory", faults)


def run_full(tally):
    """The result, or the file of unmatched rows, on disks that are full, and not."""
    with harness.folder() as name:
        folder, place = pathlib.Path(name), pathlib.Path(name, "disk")
        rows = [f"{number},{'x' * 30}\n" for number in range(20_000)]
        words = [*write(folder, "k,a\n" + "".join(rows), "k,b\n" + "".join(rows[::3])), "--join=LEFT JOIN USING (k)"]
        wanted = harness.run([harness.program("radixjoin"), *words], folder)
        for size, option, is_full in ((64, "result", True), (900, "result", True), (4_096, "result", False), (128, "scratch", True), (1_500, "scratch", False)):
            with harness.disk(place, size) as is_mounted, patched(), mock.patch.object(text, "_LAST", 1 << 16):
                if not is_mounted:
                    print("cluster_runs: full disks are left out, since no small file system can be mounted")
                    return
                out, scratch = (place / "out.csv", folder) if option == "result" else (folder / "out.csv", place)
                unwritten = out.resolve() if option == "result" else place.resolve()
                told = harness.Ran(6, b"", f'radixjoin-cluster: E20 WriteDevice "{unwritten}": {cluster_ends.NO_ROOM}\n'.encode()) if is_full else wanted
                on = Machine(1)
                ran = shards.joined([*words, f"--memory={memory_for(folder, 4)}", "--scratch", scratch], folder, 1, out, cluster=lambda _, on=on: on)
                faults = harness.differences(ran, told.stdout, told.stderr, told.status) + (["it is done in shards"] if on.runs()[1] else [])
                tally.check(f"cluster_runs: {option} on a disk of {size} KiB", faults + [f"{it} was left behind" for it in place.iterdir() if it.name != "out.csv"])
                out.unlink(missing_ok=True)


def run_full_of_right(tally):
    """The file of unmatched right rows on a disk that is full, and not."""
    with harness.folder() as name:
        folder, place = pathlib.Path(name), pathlib.Path(name, "disk")
        rows = [f"{number},{'x' * 30}\n" for number in range(9_000)]
        words = [*write(folder, "k,a\n" + "".join(rows), "k,b\n" + "".join(f"-{it}" for it in rows[1::3])), "--join=RIGHT JOIN USING (k)"]
        wanted = harness.run([harness.program("radixjoin"), *words], folder)
        for size, is_full in ((64, True), (1_024, False)):
            with harness.disk(place, size) as is_mounted, patched():
                if not is_mounted:
                    return
                told = harness.Ran(6, b"", f'radixjoin-cluster: E20 WriteDevice "{place.resolve()}": {cluster_ends.NO_ROOM}\n'.encode()) if is_full else wanted
                on = Machine(1)
                ran = shards.joined([*words, f"--memory={memory_for(folder, 2)}", "--scratch", place], folder, 1, cluster=lambda _, on=on: on)
                faults = harness.differences(ran, told.stdout, told.stderr, told.status) + (["it is done in shards"] if on.runs()[1] else [])
                tally.check(f"cluster_runs: unmatched right rows on a disk of {size} KiB", faults + [f"{it} was left behind" for it in place.iterdir()])


def run_last(tally):
    """Where the last records of a text begin, by all numbers of them, in pieces of several sizes."""
    pick = random.Random(11)
    for size in (1, 2, 5, 64):
        records = [",".join(pick.choice(("x", "", '"\n"', '""""', '"""\n"""', '"a""b"', '"\n\n"', '""')) for _ in range(pick.randrange(1, 4))) + "\n" for _ in range(60)]
        whole = "".join(records).encode()
        with tempfile.TemporaryFile() as file, mock.patch.object(text, "_LAST", size):
            file.write(b'"' + whole + b'"')
            file.flush()
            begins = [1 + len("".join(records[: len(records) - count]).encode()) for count in range(len(records) + 1)]
            got = [text.begin_of_last(file.fileno(), 1, 1 + len(whole), count) for count in range(len(records) + 1)]
            again = [text.begin_of_last(file.fileno(), begins[40], 1 + len(whole), count) for count in range(41)]
        tally.check(f"cluster_runs: the last records in pieces of {size} bytes", [] if (got, again) == (begins, begins[:41]) else [f"{got}, and not {begins}"])


def run_in_turn(tally):
    """Tasks in turn are done one by one, in their order, and give in it."""
    found, threads = [], set()

    def join_run(job, number):
        found.append(number)
        threads.add(threading.get_ident())
        time.sleep(0.01 * (number % 2))
        return job + number

    got = local.Machine(3, False).in_turn([(join_run, 100, number) for number in range(7)])
    tally.check("cluster_runs: tasks in turn", [] if (got, found, len(threads)) == ([*range(100, 107)], [*range(7)], 1) else [f"{got}, {found}, {threads}"])


def run_all(tally):
    run_kinds(tally)
    run_last(tally)
    run_in_turn(tally)
    run_random(range(RUNS), tally)
    run_tables(tally)
    run_one_column(tally)
    run_all_unmatched(tally)
    run_faults(tally)
    run_ends(tally)
    run_right_ends(tally)
    run_script(tally)
    for number in (signal.SIGTERM, signal.SIGINT):
        run_told_to_end(number, tally)
    run_short(tally)
    run_full(tally)
    run_full_of_right(tally)


def main(words):
    tally = harness.Tally()
    runs, first = [*map(int, words), *(RUNS, 0)[len(words) :]]
    run_random(range(first, first + runs), tally)
    print(f"{tally.passed} passed, {tally.failed} failed")
    return 1 if tally.failed else 0


if __name__ == "__main__":
    sys.exit(main(sys.argv[1:]))
