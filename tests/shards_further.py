"""Joins in shards with null texts by side, types by name and from files, and names that begin with a byte order mark, beside
`radixjoin`; cells that are written as null is, in tables that are cut into ranges; and what is refused because of a name or a pipe."""
import os
import pathlib
import random
import re

import harness
import shards

MARK = b"\xef\xbb\xbf"
WAYS = ((1, 1), (3, 2), (16, 5))
ON_K = "FULL JOIN ON L.k = R.k"
LEFT, RIGHT = b"k,a\n1,x\n2,-\n,NULL\n3,\n", b"k,b\n2,~\n1,NULL\n-,y\n"
INT_TEXT = ("k=int,*=text", "k=int,*=text")
BY_SIDE = ["--left-null=", "--left-null=NULL", "--right-null=-", "--right-null=~"]

# Two files, their lists of types, the clause, and options.
CASES = (
    ("types by name", LEFT, RIGHT, INT_TEXT, ON_K, ["--right-null=-"]),
    ("types by name, exactly", LEFT, RIGHT, ('a=text,"k"=int', "*=text,K=num:9:2"), ON_K, ["--right-null=-"]),
    ("types by name and by position", LEFT, RIGHT, ("*=text,k=num(3,1)", "int,text"), "LEFT JOIN USING (k)", ["--right-null=-"]),
    ("types by name, NATURAL", b"k,a\n1,x\n2,y\n", b"A,k\nx,1\nz,2\n", ("k=int,*=text", "*=text,k=num:4:2"), "NATURAL FULL JOIN", []),
    ("names that have to be quoted", b'"a,b","c""d",k=\n1,2,3\n', b'"e(f",g)\n1,3\n', ('"a,b"=int,"c""d"=num:2:1,"k="=text', '"e(f"=int,"g)"=int'), 'FULL JOIN ON "a,b" = "e(f"', []),
    ("a name over two lines", b'"a\nb"\n1\n', b"c\n1\n", ('"a\nb"=int', "c=int"), 'JOIN ON L."a\nb" = c', []),
    ("a name that isn't there", LEFT, RIGHT, ('k=int,"row 007"=int,*=text', "int,text"), ON_K, []),
    ("a name on the right that isn't there", LEFT, RIGHT, ("int,text", 'k=int,"row 007"=int,*=text'), ON_K, []),
    ("places are no column", LEFT, RIGHT, ("k=int,*=text,left_place=int", "int,text"), ON_K, []),
    ("places are no column of a clause", LEFT, RIGHT, INT_TEXT, f"{ON_K} AND left_place > 0", ["--right-null=-"]),
    ("null texts by side", LEFT, RIGHT, INT_TEXT, ON_K, BY_SIDE),
    ("null texts by side, and what is written", LEFT, RIGHT, INT_TEXT, ON_K, [*BY_SIDE, "--out-null=*"]),
    ("a null text of two dashes", b"k,a\n--,x\n1,--\n", b"k,b\n1,--\n,-\n", INT_TEXT, ON_K, ["--left-null=--", "--right-null=", "--out-null=--"]),
    ("the same of both files", b"k,a\n--,x\n1,--\n", b"k,b\n1,--\n--,\n", INT_TEXT, ON_K, ["--null=--"]),
    ("strictly", LEFT, RIGHT, INT_TEXT, ON_K, [*BY_SIDE, "--out-null=*", "--strict=full"]),
    ("each left row at its place", LEFT, RIGHT, INT_TEXT, ON_K, ["--right-null=-", "--order=left"]),
    ("each left row at its place, and such kinds of rows", LEFT, RIGHT, INT_TEXT, ON_K, ["--right-null=-", "--order", "left", "--rows", "lone-left,lone-right"]),
    ("each left row at its place, and a cell that is written as null is", LEFT, RIGHT, INT_TEXT, ON_K, [*BY_SIDE, "--out-null=y", "--strict", "--order=left"]),
    ("an order that is none", LEFT, RIGHT, INT_TEXT, ON_K, ["--order=right"]),
    ("a left cell that is written as null is", LEFT, RIGHT, INT_TEXT, ON_K, [*BY_SIDE, "--out-null=-", "--strict"]),
    ("a right cell that is written as null is", LEFT, RIGHT, INT_TEXT, ON_K, [*BY_SIDE, "--out-null=NULL", "--strict=full"]),
    ("such a cell in the last row", LEFT, RIGHT, INT_TEXT, ON_K, [*BY_SIDE, "--out-null=y", "--strict"]),
    ("such a cell in a column that stands once", LEFT, RIGHT, ("*=text", "*=text"), "FULL JOIN USING (k)", [*BY_SIDE, "--out-null=x", "--strict"]),
    ("such a cell in a key of both", b"a,k\n-,2\nx,y\n", b"k,b\ny,-\n", ("*=text", "*=text"), "RIGHT JOIN USING (k)", [*BY_SIDE, "--out-null=y", "--strict"]),
    ("null texts, and a header without rows", b"k,a\n", b"k,b\n", INT_TEXT, ON_K, [*BY_SIDE, "--out-null=y", "--strict"]),
    ("a first name with a byte order mark", MARK + MARK + b"b\n1\n2\n", b"a\n1\n", ("int", "int"), 'FULL JOIN ON "\ufeffb" = a', []),
    ("the same, strictly", MARK + MARK + b"b\n1\n\n2\n", b"a\n1\n", ('"\ufeffb"=int', "a=int"), 'FULL JOIN ON "\ufeffb" = a', ["--strict"]),
    ("a quoted first name with a byte order mark", b'"' + MARK + b'b"\n1\n2\n', b"a\n1\n", ("int", "int"), 'FULL JOIN ON "\ufeffb" = a', []),
    ("a key with a byte order mark", b"x," + MARK + b"k\n5,1\n6,2\n", MARK + MARK + b"k,y\n1,7\n", ("int,int", "int,int"), 'FULL JOIN USING ("\ufeffk")', []),
    ("byte order marks that are dropped", MARK + b"k\n1\n", MARK + b"k\n1\n", ("int", "int"), "JOIN USING (k)", []),
    ("an option that isn't taken", b"", RIGHT, INT_TEXT, "no clause", ["--bits1=11"]),
    ("a word that is no hash", b"k\n", b"", ("int", "int"), ON_K, ["--hash=md5"]),
    ("a null text that isn't lawful", b"", b"", ("int", "int"), "no clause", ["--out-null=1"]),
    ("one that stands for nothing", LEFT, RIGHT, INT_TEXT, ON_K, [*BY_SIDE, "--null=1", "--out-null="]),
)
# What is explained as `radixjoin` explains it: the types, the clause, options, and the status.
EXPLAINED = (
    ("a name that isn't there", INT_TEXT, "JOIN USING (q)", ["--right-null=-"], 4),
    ("operands that can't be compared", INT_TEXT, "JOIN ON L.k = R.b", ["--right-null=-"], 4),
    ("a text that is no clause", INT_TEXT, "JOIN ON L.k", ["--right-null=-"], 4),
    ("a list that doesn't fit", ("int", "int,text"), ON_K, [], 3),
    ("a list that is none", ("k=int,a=string", "int,text"), ON_K, [], 2),
    ("a cell that is written as null is", INT_TEXT, ON_K, [*BY_SIDE, "--out-null=y", "--strict"], 3),
)
# What is told of a row of a file: the left file, options, and what is told.
ROWS_EXPLAINED = (
    ("a cell", b"k,\"a\nb\"\n1,x\n2,y\nz,w\n", [], b"radixjoin: E6 BadInteger left row 3 column 1\n  row 3 of those in the file's bytes from 0 on, column \"k\"\n"),
    ("a long row", b"k,a\n1,x,y\n", [], b"radixjoin: E5 RaggedRow left row 1\n  row 1 of those in the file's bytes from 0 on\n"),
    ("a quote", b"k,\"a\nb\"\n1,\"x\n", ["--strict"], b"radixjoin: E21 OpenQuote left row 1 column 2\n  row 1 of those in the file's bytes from 0 on, column \"a\\x0Ab\"\n"),
    ("a quote in the header", b"k,\"a\"b\n1,x\n", ["--strict"], b"radixjoin: E22 AfterQuote left row 0 column 2\n  in the header\n"),
)
# A file in which a name is taken, and the name.
TAKEN = ((b"k,left_place\n1,2\n", "left_place"), (b"k,RIGHT_PLACE\n1,2\n", "RIGHT_PLACE"), (b'Left_Place,"k"\n1,2\n', "Left_Place"), (MARK + b'"right_place",k\n', "right_place"))


def words_for(folder, left, right, types, clause, options):
    """Writes two files, and gives the words that join them; the right list of types stands in a file."""
    (folder / "left.csv").write_bytes(left)
    (folder / "right.csv").write_bytes(right)
    tables = ["--left", "left.csv", "--left-types", types[0], "--right", "right.csv", "--right-types", types[1]]
    return shards.placed_in([*tables, f"--join={clause}", *options], folder)


def both(folder, words, tally, name, ways=WAYS):
    wanted = harness.run([harness.program("radixjoin"), *words], folder)
    for parts, ranges in ways:
        tally.check(f"shards_further: {name}, {parts} parts of {ranges} ranges", shards.faults_of(words, folder, parts, ranges, wanted))
    return wanted


def run_case(tally, name, *case):
    """A case as it is, and with its lists of types in files."""
    with harness.folder() as place:
        folder = pathlib.Path(place)
        words = words_for(folder, *case)
        wanted = both(folder, words, tally, name)
        for side in ("left", "right"):
            at = words.index(f"--{side}-types") + 1
            (folder / f"{side}.types").write_text(words[at].replace("=text,", "=text\r\n").replace("=int,", "=int\n") + "\n", newline="")
            words[at] = f"@{folder}/{side}.types"
        told = both(folder, words, tally, f"{name}, lists in files", WAYS[1:2])
        tally.check(f"shards_further: {name}, lists in files by radixjoin", harness.differences(told, wanted.stdout, wanted.stderr, wanted.status))


def run_refused(tally):
    """Names of columns that are those of places, and pipes."""
    with harness.folder() as place:
        folder = pathlib.Path(place)
        other = b"k,b\n1,2\n"
        for (text, name), side, options in ((it, side, options) for it in TAKEN for side in ("left", "right") for options in ([], ["--strict"])):
            tables = (text, other) if side == "left" else (other, text)
            words = words_for(folder, *tables, ("int,int", "int,int"), ON_K, options)
            line = f"radixjoin-cluster: the {side} file has a column {name}, which is the name of a column of places: rename it\n"
            ran = shards.joined([*words, "--parts", "2"], folder, 1)
            tally.check(f"shards_further: {side} {text} {options}", harness.differences(ran, b"", line.encode(), 3))
        words = words_for(folder, b"k,left_place,K\n1,2,3\n", other, ("int,int,int", "int,int"), ON_K, [])
        both(folder, words, tally, "a name that is taken, and one that stands twice")
        words = words_for(folder, b"k,left_place\n1,x\n", other, ("int,int", "int,int"), "JOIN USING (q)", [])
        ran = shards.joined([*words, "--parts", "2"], folder, 1)
        tally.check("shards_further: a fault before a name that is taken", harness.differences(ran, b"", b"radixjoin: E13 UnknownColumn\n", 4))
        (folder / "left.csv").unlink()
        os.mkfifo(folder / "left.csv")
        ran = shards.joined([*words, "--parts", "2"], folder, 1)
        tally.check("shards_further: a pipe", harness.differences(ran, b"", b"radixjoin-cluster: the left file is a pipe, which can't be divided: give a file\n", 2))


def run_explained(tally):
    """What `--explain` adds: what `radixjoin` adds, and of a row of a file the range that it stands in."""
    with harness.folder() as place:
        folder = pathlib.Path(place)
        for name, types, clause, options, status in EXPLAINED:
            words = [*words_for(folder, LEFT, RIGHT, types, clause, options), "--explain"]
            wanted = harness.run([harness.program("radixjoin"), *words], folder)
            ran = shards.joined([*words, "--parts", "2"], folder, 2)
            faults = [] if wanted.stderr.count(b"\n") > 1 else ["radixjoin explains nothing"]
            tally.check(f"shards_further: {name}, explained", faults + harness.differences(ran, b"", wanted.stderr, status))
        for name, left, options, told in ROWS_EXPLAINED:
            words = words_for(folder, left, RIGHT, ("int,text", "int,text"), ON_K, ["--right-null=-", *options, "--explain"])
            ran = shards.joined([*words, "--parts", "2"], folder, 1)
            tally.check(f"shards_further: {name}, explained", harness.differences(ran, b"", told, 3))
        file = folder / "left.csv"
        file.write_bytes(b"k,a\n" + b"1,x\n" * 100_000 + b"z,x\n")
        ran = shards.joined([*words, "--parts", "2"], folder, 4)
        line = re.fullmatch(rb"radixjoin: E6 BadInteger left row 100001 column 1\n  row (\d+) of those in the file's bytes from (\d+) on, column \"k\"\n", ran.stderr)
        is_told = line and file.read_bytes()[int(line[2]) :].split(b"\n")[int(line[1]) - 1] == b"z,x"
        tally.check("shards_further: a cell of a later range, explained", [] if is_told else [harness.shorten(ran.stderr)])
        file.unlink()
        ran = shards.joined([*words, "--parts", "2"], folder, 1)
        told = f"radixjoin: E19 ReadDevice left\n  {file.resolve()}: No such file or directory\n"
        tally.check("shards_further: a file that isn't there, explained", harness.differences(ran, b"", told.encode(), 6))


def run_random(seed, tally):
    """Tables of some thousand rows whose null texts differ, joined strictly: what is written as null is, is told with its row and column
    of the whole. It gives the status."""
    pick = random.Random(f"radixjoin: null texts {seed}")
    texts = ["NULL", "-", "", "~", "x", '"a, b"', '"two\nlines"', "N", "?"]
    with harness.folder() as name:
        folder = pathlib.Path(name)
        rare, rate = pick.choice(("*", "NULL", "~", "?")), pick.choice((0.0003, 0.01, 0.2))
        words = []
        for side, column in (("left", "a"), ("right", "b")):
            count = pick.choice((0, 5, 9_000)) if side == "left" else pick.choice((0, 6, 300))
            nulls = pick.sample(["NULL", "-", "", "~", "?"], pick.randrange(1, 5))
            usual = [text for text in texts if text != rare]
            lines = [f"{pick.randrange(max(count, 1))},{rare if pick.random() < rate else pick.choice(usual)},{pick.choice('12345')}\n" for _ in range(count)]
            (folder / f"{side}.csv").write_text(f"k,{column},n\n" + "".join(lines))
            words += [f"--{side}={folder}/{side}.csv", f"--{side}-types={pick.choice(('int,text,int', 'k=int,n=int,*=text'))}", *(f"--{side}-null={text}" for text in nulls)]
        clause = pick.choice(("JOIN USING (k)", "LEFT JOIN ON L.k = R.k", "FULL JOIN USING (k)", "RIGHT JOIN ON L.k = R.k AND L.n < R.n", "FULL JOIN ON a = b AND L.k < 9"))
        words += [f"--join={clause}", f"--out-null={rare}", *pick.choice(([], ["--strict"], ["--strict"], ["--strict=full"])), *pick.choice(([], ["--order=left"]))]
        return both(folder, words, tally, f"random null texts {seed}", ((pick.choice((1, 3, 16)), pick.choice((1, 4))),)).status


def run_all(tally):
    harness.side_by_side(tally, [lambda own, it=it: run_case(own, *it) for it in CASES])
    run_refused(tally)
    run_explained(tally)
    statuses = harness.side_by_side(tally, [lambda own, seed=seed: run_random(seed, own) for seed in range(120)])
    tally.check("shards_further: cells that are written as null is, and none", [] if 15 < statuses.count(3) < 100 else [f"{statuses.count(3)} of 120 are told"])
