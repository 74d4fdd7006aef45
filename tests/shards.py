"""Divides, joins and merges as cluster/radixjoin-cluster does, one task after another and without Dask, and compares with what
`radixjoin` writes: on the examples that have a key, on random tables in several numbers of parts and ranges and by several
delimiters, and with faults. It also looks at what `shards` tells of its own faults."""
import contextlib
import csv
import io
import pathlib
import random
import re
import subprocess
import sys
import tomllib

import examples
import harness

NO_KEY = "shards: the clause has no key, so that its tables can't be divided"
# The header of a file with what stands before it: as the library `csv` reads it, and by RFC 4180's grammar.
FIELD = rb'(?:"(?:[^"]|"")*(?:"|\Z))?[^,\r\n]*'
RECORD = re.compile(rb"(?:\xef\xbb\xbf)?[\r\n]*" + FIELD + rb"(?:," + FIELD + rb")*(?:\r\n|\r|\n)?")
LINE = re.compile(rb'(?:[^"\n]|"[^"]*(?:"|\Z))*\n?')


sys.path.append(str(harness.ROOT / "python"))
from radixjoin import cluster as SCRIPT  # noqa: E402
from radixjoin import clauses, placed, tasks  # noqa: E402

# So small that joined shards of some rows have many pieces, and are cut into ranges.
placed.PIECE = 200


class OneByOne:
    """Runs tasks one after another, in place of a cluster of so many processes."""

    def __init__(self, processes):
        self.number = processes

    def tasks_at_once(self):
        return self.number

    def tasks_in_process(self):
        return 1

    def answers(self, words):
        return [tasks.answer(*task) for task in words]


def joined(words, folder, ranges, out=None, cluster=OneByOne):
    """What the script's tasks give for these words in a cluster: how they end and what the script then tells, and the bytes of the result,
    if there is one. Nothing else may be left in the folder."""
    out = out or folder / "out.csv"
    out.unlink(missing_ok=True)
    known = {it.name for it in folder.iterdir()}
    status, line = 0, b""
    try:
        asked = SCRIPT.read_line([*map(str, words), "--out", str(out)])
        SCRIPT.run_in(asked, contextlib.nullcontext(cluster(ranges)))
        line = clauses.told_of_rows(asked.join, asked.rows).encode()
    except (SCRIPT.Told, SCRIPT.Fault) as told:
        status, line = told.status, str(told).encode() + b"\n"
    left = sorted(it.name for it in folder.iterdir() if it.name not in known and it != out)
    line += "".join(f"{name} was left behind\n" for name in left).encode()
    return harness.Ran(status, out.read_bytes() if out.exists() else b"", line)


def placed_in(words, folder):
    """The words with the names of the files in a folder."""
    return [str(folder / word) if word in ("left.csv", "right.csv") else word for word in words]


def told_first(words, folder, wanted):
    """What `radixjoin` tells of files with the headers of these and no rows, which is told before their rows are looked at; else what it
    told or wrote of the whole."""
    if wanted.status == 0:
        return wanted
    words = list(map(str, words))
    header = LINE if any(word.startswith("--strict") for word in words) else RECORD
    with harness.folder() as place:
        for name in ("left.csv", "right.csv"):
            if (folder / name).is_file():
                pathlib.Path(place, name).write_bytes(header.match((folder / name).read_bytes())[0])
            words = [word.replace(f"{folder}/{name}", f"{place}/{name}") for word in words]
        ran = harness.run([harness.program("radixjoin"), *words], place)
    return ran if ran.status else wanted


def faults_of(words, folder, parts, ranges, wanted):
    """How the joined parts differ from what `radixjoin` wrote, merged in as many ranges as the files are divided in. A clause without a
    key is refused."""
    ran = joined([*words, "--parts", str(parts), "--merges", str(ranges)], folder, ranges)
    if ran.stderr == NO_KEY.encode() + b"\n":
        # (before the rows are read)
        return [] if ran.status == 4 and wanted.status in (0, 3) else [f"refused for want of a key, where radixjoin ends by {wanted.status}"]
    wanted = told_first(words, folder, wanted)
    return harness.differences(ran, wanted.stdout, wanted.stderr, wanted.status)


def is_example(case):
    """Whether an example is a join whose output is looked at, by options that the script takes and gives to `radixjoin` as they are
    (`-1` isn't: Python takes it for a value; nor are `-o`, `-w` and the short form, which are the program's alone), and leaves room for
    a column of places."""
    options = case.get("options", [])
    if case.get("short") or any(word.startswith(("-o", "-w")) for word in options):
        return False
    if case["name"] == "hostile_inputs, 256 columns" or case["name"].endswith(" twice") or "-1" in options:
        return "null texts" in case["name"]
    names = [*SCRIPT.OF_ONE_JOIN, "null", "left-null", "right-null", "out-null", "delimiter", "left-delimiter", "right-delimiter", "out-delimiter", "strict"]
    is_known = all(word.partition("=")[0][2:] in names for word in options if word.startswith("--"))
    return "left" in case and "right" in case and case.get("output", "read") == "read" and is_known


def run_example(case, files, tally):
    with harness.folder() as name:
        folder = pathlib.Path(name)
        words = placed_in(examples.words_of(case, files, folder), folder)
        wanted = harness.run([harness.program("radixjoin"), *words], folder)
        for parts, ranges in ((1, 1), (3, 2)):
            faults = faults_of(words, folder, parts, ranges, wanted)
            tally.check(f"shards: {case['name']}, {parts} parts of {ranges} ranges", faults)


def run_examples(tally):
    with open(harness.ROOT / "tests" / "examples.toml", "rb") as text:
        table = tomllib.load(text)
    cases = [case for case in table["case"] if is_example(case)]
    harness.side_by_side(tally, [lambda own, case=case: run_example(case, table["file"], own) for case in cases])


CLAUSES = (
    "JOIN USING (k)",
    "FULL JOIN USING (k)",
    "NATURAL LEFT JOIN",
    "RIGHT JOIN ON L.k = R.k AND L.n > 0",
    "FULL JOIN ON L.n = R.k AND (L.a <> R.b OR R.b IS NULL)",
    "LEFT JOIN ON L.a = R.b",
)
ENDS = ("\n", "\r\n")
# Signs that stand between fields, each with the word that names it.
SIGNS = {",": ",", ";": ";", "\t": "tab", "|": "|", ":": ":", "_": "_"}


def delimited(pick, words, folder):
    """The words with others that name random delimiters, of which each file's own one and the comma are exchanged in it."""
    signs = {of: pick.choice([*SIGNS]) for of in (*SCRIPT.SIDES, "out")}
    if pick.random() < 0.3:
        signs = dict.fromkeys(signs, signs["out"])
    for side in SCRIPT.SIDES:
        file, both = folder / f"{side}.csv", f",{signs[side]}".encode()
        file.write_bytes(file.read_bytes().translate(bytes.maketrans(both, both[::-1])))
    if len({*signs.values()}) == 1:
        return [*words, *pick.choice(([f"--delimiter={SIGNS[signs['out']]}"], ["-d", SIGNS[signs["out"]]]))]
    return [*words, *(f"--{of}-delimiter={SIGNS[sign]}" for of, sign in signs.items() if sign != "," or pick.random() < 0.5)]


def random_rows(pick, rows, end):
    """Lines of a key, a number and a text with what has to be quoted, some of them null; now and then an empty line."""
    texts = ("plain", '"a, b"', '"two\nlines"', '"say ""x"""', "", '"\r\n"')
    lines = []
    for _ in range(rows):
        key, number = ("" if pick.random() < 0.1 else pick.randrange(20) - 5 for _ in range(2))
        lines.append(f"{key},{number},{pick.choice(texts)}{end}" + (end if pick.random() < 0.05 else ""))
    return "".join(lines)


def run_random(seed, tally):
    """Joins two random tables in several numbers of parts and ranges."""
    pick = random.Random(seed)
    end = pick.choice(ENDS)
    mark = "\ufeff" if pick.random() < 0.3 else ""
    with harness.folder() as name:
        folder = pathlib.Path(name)
        # (a file below 64 KiB isn't cut)
        rows = 15_000 if seed % 6 == 0 else pick.randrange(60)
        (folder / "left.csv").write_bytes(f"{mark}k,n,a{end}{random_rows(pick, rows, end)}".encode())
        (folder / "right.csv").write_bytes(f"k,m,b{end}{random_rows(pick, pick.randrange(60), end)}".encode())
        types = ["--left-types", "int,int,text", "--right-types", "num(9,2),int,text"]
        words = ["--left", "left.csv", "--right", "right.csv", *types, "--join", pick.choice(CLAUSES), *pick.choice(([], ["--order=left"]))]
        words = placed_in(words, folder)
        if seed % 3 == 0:
            words = delimited(pick, words, folder)
        wanted = harness.run([harness.program("radixjoin"), *words], folder)
        for parts, ranges in ((1, 1), (2, 5), (7, 3), (64, 40)):
            tally.check(f"shards: random tables {seed}, {words[12:]}, {parts} parts of {ranges} ranges", faults_of(words, folder, parts, ranges, wanted))


def run_cuts(tally):
    """The ranges between the places that `--cuts` prints have the records of the file, and are of about one size."""
    pick = random.Random(7)
    with harness.folder() as name:
        folder = pathlib.Path(name)
        text = "\ufeff\n\nk,n,a\n" + random_rows(pick, 60_000, "\n")
        words = division(folder, cuts="5", out=None)
        (folder / "left.csv").write_bytes(text.encode())
        ran = harness.run([harness.program("shards"), *words], folder)
        places = [0, *map(int, ran.stdout.split()), len(text.encode())]
        ranges = [text.encode()[start:end].decode() for start, end in zip(places, places[1:])]
        records = [record for it in ranges for record in csv.reader(io.StringIO(it.removeprefix("\ufeff"), newline="")) if record]
        wanted = [record for record in csv.reader(io.StringIO(text.removeprefix("\ufeff"), newline="")) if record]
        faults = harness.differences(ran, None)
        if records != wanted:
            faults.append("the records of the ranges are others than those of the file")
        if not 3 <= len(ranges) <= 5 or max(map(len, ranges)) > len(text) / 5 + (1 << 17):
            faults.append(f"{len(ranges)} ranges of {[len(it) for it in ranges]} characters")
        tally.check("shards: cuts", faults)
        (folder / "left.csv").write_bytes(text.translate(str.maketrans(",;", ";,")).encode())
        wanted, ran = ran, harness.run([harness.program("shards"), *words, "--left-delimiter=;"], folder)
        tally.check("shards: cuts by semicolons", harness.differences(ran, wanted.stdout))


def run_fault(row, tally):
    """Joins with a left file whose row of this number has a key that is none: it is told with its number in the whole file."""
    with harness.folder() as name:
        folder = pathlib.Path(name)
        (folder / "left.csv").write_text("k,a\n" + "7,x\n" * (row - 1) + "seven,x\n" + "7,x\n" * 10 + "eight,x\n")
        (folder / "right.csv").write_text("k,b\n1,y\n")
        words = ["--left", "left.csv", "--right", "right.csv", "--left-types", "int,text", "--right-types", "int,text", "--join", "JOIN USING (k)"]
        words = placed_in(words, folder)
        wanted = harness.Ran(3, b"", b"radixjoin: E6 BadInteger left row %d column 1\n" % row)
        for ranges in (1, 6):
            tally.check(f"shards: a fault in row {row} of {ranges} ranges", faults_of(words, folder, 4, ranges, wanted))


def division(folder, **more):
    """The words that divide a small left file, some of them others."""
    (folder / "left.csv").write_text('k,a\n1,"x\ny"\n2,\n,z\n3,w\n')
    (folder / "right.csv").write_text("k,b\n")
    words = {"side": "left", "left": "left.csv", "right": "right.csv", "left-types": "int,text", "right-types": "int,text", "join": "JOIN USING (k)", "parts": "2", "out": "parts"}
    return [f"--{name}={value}" for name, value in {**words, **more}.items() if value is not None]


# What is told of a command line: the words that are others, the status, and a part of what is told.
LINES = (
    ({"cuts": "2"}, 2, b"shards: one of --out and --cuts has to be given\n"),
    ({"out": None}, 2, b"shards: one of --out and --cuts has to be given\n"),
    ({"join": "CROSS JOIN"}, 4, NO_KEY.encode() + b"\n"),
    ({"join": "JOIN ON L.k < R.k"}, 4, NO_KEY.encode() + b"\n"),
    ({"join": "JOIN USING (q)"}, 4, b"radixjoin: E13 UnknownColumn\n"),
    ({"left": "none.csv"}, 6, b"radixjoin: E19 ReadDevice left\n"),
    ({"right": "none.csv"}, 6, b"radixjoin: E19 ReadDevice right\n"),
    ({"null": "no null"}, 3, b"radixjoin: E10 BadNull\n"),
    ({"left-types": "int"}, 3, b"radixjoin: E4 TypeCount left\n"),
    ({"left-types": "int,int"}, 3, b"radixjoin: E6 BadInteger left row 1 column 2\n"),
    ({"right-types": "int"}, 3, b"radixjoin: E4 TypeCount right\n"),
    ({"out": "left.csv/parts"}, 6, b"radixjoin: E20 WriteDevice\n"),
    ({"parts": "0"}, 2, b"0 is not in 1..=1024"),
    ({"parts": "1025"}, 2, b"1025 is not in 1..=1024"),
    ({"side": "both"}, 2, b"possible values: left, right"),
    ({"cuts": "0", "out": None}, 2, b"0 is not in 1..=100000"),
    ({"strict": "yes"}, 2, b"possible values: on, full"),
    ({"strict": "off"}, 2, b"possible values: on, full"),
    ({"left": "none.csv", "null": "no null"}, 6, b"radixjoin: E19 ReadDevice left\n"),
    ({"right-null": "no null", "left-types": "int,int"}, 3, b"radixjoin: E10 BadNull\n"),
    ({"side": "right", "left-null": "1", "right-types": "int"}, 3, b"radixjoin: E10 BadNull\n"),
    ({"delimiter": "ab"}, 2, b"radixjoin: E34 BadDelimiter\n"),
    ({"left-delimiter": ",", "delimiter": "7"}, 2, b"radixjoin: E34 BadDelimiter\n"),
    ({"right-delimiter": "", "left": "none.csv", "null": "1"}, 2, b"radixjoin: E34 BadDelimiter\n"),
    ({"left-delimiter": ";"}, 3, b"radixjoin: E4 TypeCount left\n"),
)

# What is told with `--explain`: the words that are others, the status, and all that is told.
EXPLAINED = (
    ({"join": "JOIN USING (q)"}, 4, b'radixjoin: E13 UnknownColumn\n  "q" at byte 12 of the clause; left has k, a; right has k, b\n'),
    ({"join": "JOIN ON L.k = R.b"}, 4, b"radixjoin: E15 TypeMismatch\n  L.k is int, R.b is text, at byte 8 of the clause\n"),
    ({"join": "JOIN ON L.k"}, 4, b"radixjoin: E11 Syntax byte 11\n  found the end, wanted a comparison or NOT or IS or IN or BETWEEN\n  JOIN ON L.k\n             ^\n"),
    ({"left-types": "int"}, 3, b'radixjoin: E4 TypeCount left\n  2 names, 1 types; the first without a type is "a"\n'),
    ({"join": "JOIN ON k = 1"}, 4, b'radixjoin: E14 AmbiguousColumn\n  "k" at byte 8 of the clause; both tables have it: write L. or R. before it\n'),
    ({"join": "JOIN USING (k, K)"}, 4, b'radixjoin: E16 RepeatedUsing\n  "K" at byte 15 of the clause; the column is named before\n'),
    ({"right-types": "k=int,c=text"}, 3, b'radixjoin: E27 TypeName right "c"\n  the header has "k", "b"\n'),
    ({"left-types": "int,string"}, 2, b'radixjoin: bad type list left\n  "string": a type is int, num(p,s) or text, and a name before it stands before =\n'),
    ({"left-types": "int,int"}, 3, b"radixjoin: E6 BadInteger left row 1 column 2\n"),
    ({"join": "CROSS JOIN"}, 4, NO_KEY.encode() + b"\n"),
    ({"left": "none.csv"}, 6, b"radixjoin: E19 ReadDevice left\n"),
    ({"right-delimiter": "a"}, 2, b"radixjoin: E34 BadDelimiter\n  a delimiter is one ASCII character that is no letter, digit or double quote, or the word tab\n"),
    ({"left-delimiter": ";"}, 3, b"radixjoin: E4 TypeCount left\n  1 names, 2 types\n  the left file seems to be separated by commas: is --left-delimiter ',' meant?\n"),
)


# What the parts of the small file are: the mixed hash of 1 is odd, those of 2 and 3 are even.
PARTS = {"0000.csv": 'k,a,left_place\n2,,1\n,z,2\n3,w,3\n', "0001.csv": 'k,a,left_place\n1,"x\ny",0\n'}


def run_shards_alone(tally):
    """What `shards` writes of a small file, and tells of its command line."""
    with harness.folder() as name:
        folder = pathlib.Path(name)
        ran = harness.run([harness.program("shards"), *division(folder)], folder)
        faults = harness.differences(ran, b"rows 4 header 15\n")
        got = parts_in(folder)
        tally.check("shards: a small file", faults + ([] if got == PARTS else [f"{got}, and not {PARTS}"]))
        for more, status, told in LINES:
            ran = harness.run([harness.program("shards"), *division(folder, **more)], folder)
            faults = harness.differences(ran, None, None, status) + ([] if told in ran.stderr else [harness.shorten(ran.stderr)])
            tally.check(f"shards: {more}", faults)
        for more, status, told in EXPLAINED:
            ran = harness.run([harness.program("shards"), *division(folder, **more), "--explain"], folder)
            tally.check(f"shards: {more}, explained", harness.differences(ran, None, told, status))


def parts_in(folder):
    """The text of each part, by its name."""
    return {it.name: it.read_text() for it in sorted((folder / "parts").glob("*"))}


# Words that name delimiters, with the signs of the left and the right file.
DELIMITED = (
    (["--left-delimiter=;"], ";", ","),
    (["--delimiter=;"], ";", ";"),
    (["-d", "tab", "--strict"], "\t", "\t"),
    (["--left-delimiter", "|", "-d\\t", "--strict=full"], "|", "\t"),
    (["--right-delimiter=_"], ",", "_"),
    (["--left-delimiter=,", "-d_"], ",", "_"),
)


def run_delimited(tally):
    """The parts of files by other delimiters are those of files by commas."""
    for words, *signs in DELIMITED:
        with harness.folder() as name:
            folder = pathlib.Path(name)
            division_words = division(folder)
            for side, sign in zip(SCRIPT.SIDES, signs):
                file = folder / f"{side}.csv"
                file.write_text(file.read_text().replace(",", sign))
            ran = harness.run([harness.program("shards"), *division_words, *words], folder)
            got = parts_in(folder)
            tally.check(f"shards: {words}", harness.differences(ran, b"rows 4 header 15\n") + ([] if got == PARTS else [f"{got}, and not {PARTS}"]))


def run_over_others(tally):
    """Files that are longer than the parts, in the folder of these, are replaced: nothing of them stays."""
    with harness.folder() as name:
        folder = pathlib.Path(name)
        (folder / "parts").mkdir()
        for number in range(3):
            (folder / "parts" / f"{number:04}.csv").write_text("k,a,left_place\n" + "9,of an earlier run,9\n" * 99)
        others = parts_in(folder)["0002.csv"]
        ran = harness.run([harness.program("shards"), *division(folder)], folder)
        faults = harness.differences(ran, b"rows 4 header 15\n")
        got = parts_in(folder)
        wanted = {**PARTS, "0002.csv": others}
        tally.check("shards: over longer files", faults + ([] if got == wanted else [f"{got}, and not {wanted}"]))


# How a file begins, and how it is read: places count from the range's first byte, whatever stands before its first row.
BEGINNINGS = (("", None), ("\ufeff", None), ("", "on"), ("\ufeff", "full"))


def run_places(tally):
    """The place of a row is its number in the range, counted from the range's first byte."""
    for mark, strict in BEGINNINGS:
        with harness.folder() as name:
            folder = pathlib.Path(name)
            words = division(folder, parts="1", strict=strict)
            text = f'{mark}k,a\n1,"x\ny"\n2,u\n3,v\n'
            (folder / "left.csv").write_text(text)
            second = len(text.partition("2,u")[0].encode())
            for begin, rows in ((0, ('1,"x\ny"', "2,u", "3,v")), (second, ("2,u", "3,v"))):
                ran = harness.run([harness.program("shards"), *words, f"--from={begin}"], folder)
                faults = harness.differences(ran, f"rows {len(rows)} header 15\n".encode())
                got = parts_in(folder)
                wanted = {"0000.csv": "k,a,left_place\n" + "".join(f"{row},{begin + at}\n" for at, row in enumerate(rows))}
                tally.check(f"shards: places from {begin}, {mark!r}, strict {strict}", faults + ([] if got == wanted else [f"{got}, and not {wanted}"]))


def run_in_bounds(tally):
    """Divides a file of some megabytes with an address space that is smaller than the file."""
    with harness.folder() as name, contextlib.suppress(FileNotFoundError):
        folder = pathlib.Path(name)
        lines = [division(folder, parts="16"), division(folder, parts="16", strict="full")]
        with open(folder / "left.csv", "w", newline="") as file:
            file.write("k,a\n")
            for at in range(300_000):
                file.write(f"{at * 7919 % 1_000_003},{'x' * 1_000}\n")
        limit = ["sh", "-c", 'ulimit -v 262144 && exec "$@"', "sh"]
        for words in lines:
            ran = subprocess.run([*limit, harness.program("shards"), *words], cwd=folder, capture_output=True, timeout=harness.SECONDS, check=False)
            faults = harness.differences(harness.Ran(ran.returncode, ran.stdout, ran.stderr), b"rows 300000 header 15\n")
            total = sum(it.stat().st_size for it in (folder / "parts").glob("*"))
            tally.check(f"shards: 300 MB in 256 MiB of memory, {words[-1]}", faults + ([] if total > 300_000_000 else [f"{total} bytes"]))


def run_all(tally):
    run_examples(tally)
    harness.side_by_side(tally, [lambda own, seed=seed: run_random(seed, own) for seed in range(60)])
    run_cuts(tally)
    for row in (1, 3, 50_000):
        run_fault(row, tally)
    run_shards_alone(tally)
    run_delimited(tally)
    run_over_others(tally)
    run_places(tally)
    run_in_bounds(tally)
