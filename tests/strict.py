"""Files read strictly: the lines of the faults as docs/user/errors.md has them, typed here; by one and by four workers, in files of no
record, of one and of many, around the cuts of parts; by other delimiters; and random bytes beside Python's csv, where the two have one
meaning."""
import csv
import io
import itertools
import pathlib
import random

import harness
from oracle import faults, reading, strict

MARK = b"\xef\xbb\xbf"
ONE = b"a\n1\n"
ON, FULL = ["--strict"], ["--strict=full"]


def joined(folder, content, types, options, side="left", workers=1, null=None):
    """Runs a CROSS JOIN of a file, read strictly, with a table of one cell."""
    (folder / "file.csv").write_bytes(content)
    (folder / "one.csv").write_bytes(ONE)
    words = ["--left", "file.csv", "--left-types", types, "--right", "one.csv", "--right-types", "int"]
    if side == "right":
        words = ["--left", "one.csv", "--left-types", "int", "--right", "file.csv", "--right-types", types]
    more = [f"--null={null}"] if null is not None else []
    return harness.run([harness.program("radixjoin"), *words, "--join", "CROSS JOIN", "--workers", str(workers), *options, *more], folder)


# A file of columns `b` and `c`, or of `b` alone, and the line that it has to have behind the program's name, or None.
TEXTS = [
    # A quoted field that isn't closed.
    (b'b,c\n1,a\n2,"bob\n3,c\n1,d\n', "int,text", "E21 OpenQuote SIDE row 2 column 2"),
    (b'b,c\n1,a\n2,"cut off', "int,text", "E21 OpenQuote SIDE row 2 column 2"),
    (b'b,"c', "int,text", "E21 OpenQuote SIDE row 0 column 2"),
    (b'"', "int", "E21 OpenQuote SIDE row 0 column 1"),
    (b'b,c\n1,"a""', "int,text", "E21 OpenQuote SIDE row 1 column 2"),
    # A byte behind a closing quote.
    (b'b,c\n5,"a"b\n', "int,text", "E22 AfterQuote SIDE row 1 column 2"),
    (b'b,c\n5,a\n"6"x,a\n', "int,text", "E22 AfterQuote SIDE row 2 column 1"),
    (b'b,"c"d\n', "int,text", "E22 AfterQuote SIDE row 0 column 2"),
    (b'b,c\n5,"a" \n', "int,text", "E22 AfterQuote SIDE row 1 column 2"),
    # A quote in a field that doesn't begin with one.
    (b'b,c\n5,a"b\n', "int,text", "E23 BareQuote SIDE row 1 column 2"),
    (b'b,c\n5,a\n6,b\n7 ",c\n', "int,text", "E23 BareQuote SIDE row 3 column 1"),
    (b'b,c"\n', "int,text", "E23 BareQuote SIDE row 0 column 2"),
    # A CR with no LF behind it, outside quotes.
    (b"b,c\n5,a\rb\n", "int,text", "E24 BareReturn SIDE row 1 column 2"),
    (b"b,c\r5,a\r", "int,text", "E24 BareReturn SIDE row 0 column 2"),
    (b'b,c\n5,"a"\r', "int,text", "E24 BareReturn SIDE row 1 column 2"),
    (b"b,c\n\r", "int,text", "E24 BareReturn SIDE row 1 column 1"),
    (b"b,c\n5,a\r\r\n", "int,text", "E24 BareReturn SIDE row 1 column 2"),
    # An empty line where there are two names.
    (b"b,c\n1,a\n\n2,b\n", "int,text", "E25 EmptyLine SIDE row 2"),
    (b"b,c\n1,a\n2,b\n\n", "int,text", "E25 EmptyLine SIDE row 3"),
    (b"b,c\r\n1,a\r\n\r\n", "int,text", "E25 EmptyLine SIDE row 2"),
    (b"b,c\n\n", "int,text", "E25 EmptyLine SIDE row 1"),
    # What stands above comes first, and what stands below doesn't.
    (b'b,c\nx,a\n2,"bob\n', "int,text", "E6 BadInteger SIDE row 1 column 1"),
    (b'b,c\n1,a,b\n2,"bob\n', "int,text", "E5 RaggedRow SIDE row 1"),
    (b'b,c\n1,\xff\n2,"bob\n', "int,text", "E7 BadText SIDE row 1 column 2"),
    (b'b,c\n1,a\nx,"bob\n', "int,text", "E21 OpenQuote SIDE row 2 column 2"),
    (b'b,c\n1,a\nx,y,"bob\n', "int,text", "E21 OpenQuote SIDE row 2 column 3"),
    (b'b,b\n2,"bob\n', "int,text", "E3 RepeatedName SIDE column 2"),
    (b'b,c,d\n2,"bob\n', "int,text", "E4 TypeCount SIDE"),
    (b'b,b"\n', "int,text", "E23 BareQuote SIDE row 0 column 2"),
    (b'\nb"\n', "int", "E2 BadName SIDE column 1"),
    (b'b\n\n\nx\n"', "int", "E6 BadInteger SIDE row 3 column 1"),
    (b'b\n\n\n7\n"', "int", "E21 OpenQuote SIDE row 4 column 1"),
    # No record.
    (b"", "int", "E1 NoHeader SIDE"),
    (MARK, "int", "E1 NoHeader SIDE"),
    (b"\n", "int", "E2 BadName SIDE column 1"),
]
# The last line lacks its end: a fault only where the file has to be full.
CUT = [
    (b"b,c\n1,a", "int,text", "E26 CutShort SIDE row 1"),
    (b"b,c", "int,text", "E26 CutShort SIDE row 0"),
    (b"b\n1\n\n2", "int", "E26 CutShort SIDE row 3"),
    (b'b,c\n1,"a"', "int,text", "E26 CutShort SIDE row 1"),
    (b"b,c\n1,", "int,text", "E26 CutShort SIDE row 1"),
    (MARK + b"b,c\r\n1,a\r\n2,b", "int,text", "E26 CutShort SIDE row 2"),
]
# What is read: a file, its types, the null text, and the whole result beside a table of the one cell 1 with the name a.
READ = [
    (b"b,c\n1,x\n2,y\n", "int,text", None, b"b,c,a\n1,x,1\n2,y,1\n"),
    (b"b,c\r\n1,x\r\n2,y\r\n", "int,text", None, b"b,c,a\n1,x,1\n2,y,1\n"),
    (b"b,c\n1,x\r\n2,y\n", "int,text", None, b"b,c,a\n1,x,1\n2,y,1\n"),
    (MARK + b"b,c\n1,x\n", "int,text", None, b"b,c,a\n1,x,1\n"),
    (b'b,c\n1,"x\n""y"",\r\nz"\n', "int,text", None, b'b,c,a\n1,"x\n""y"",\r\nz",1\n'),
    (b"b,c\n", "int,text", None, b"b,c,a\n"),
    # With one name an empty line is a row.
    (b"b\n1\n\n2\n", "int", None, b"b,a\n1,1\n,1\n2,1\n"),
    (b"b\r\n\r\n\r\n2\r\n", "int", None, b"b,a\n,1\n,1\n2,1\n"),
    (b'b\n\n"x\n\ny"\n""\n\n', "text", "-", b'b,a\n,1\n"x\n\ny",1\n,1\n,1\n'),
    (MARK + b"b\n\n2\n", "int", None, b"b,a\n,1\n2,1\n"),
    (MARK + MARK + b"b\n\n2\n", "int", None, MARK + b"b,a\n,1\n2,1\n"),
]


def check_texts(tally, folder):
    """Each text at each side, by one worker and by four, and asked for in each way."""
    for (text, types, line), side, workers in itertools.product(TEXTS, ("left", "right"), (1, 4)):
        for options in (ON, FULL, ["--strict=on"], ["--strict", "full"]):
            wanted = f"radixjoin: {line.replace('SIDE', side)}\n".encode()
            ran = joined(folder, text, types, options, side, workers)
            tally.check(f"{text} {options} {side} {workers}", harness.differences(ran, b"", wanted, 3))
    for (text, types, line), side in itertools.product(CUT, ("left", "right")):
        wanted = f"radixjoin: {line.replace('SIDE', side)}\n".encode()
        tally.check(f"{text}, full", harness.differences(joined(folder, text, types, FULL, side), b"", wanted, 3))
        tally.check(f"{text}, not full", harness.differences(joined(folder, text, types, ON, side), None, b"", 0))
    for (text, types, null, wanted), options, workers in itertools.product(READ, (ON, FULL), (1, 4)):
        ran = joined(folder, text, types, options, workers=workers, null=null)
        tally.check(f"{text} {options} {workers}", harness.differences(ran, wanted))


def check_ends(tally, folder):
    """An unlawful null text comes first; the left file's fault before the right one's; a value that is none."""
    ran = joined(folder, b'b"\n', "int", ON, null="1")
    tally.check("E10 first", harness.differences(ran, b"", b"radixjoin: E10 BadNull\n", 3))
    (folder / "left.csv").write_bytes(b'b\n1\n"')
    (folder / "right.csv").write_bytes(b'b\n"1"2\n')
    words = ["--left", "left.csv", "--left-types", "int", "--right", "right.csv", "--right-types", "int", "--join"]
    for clause in ("CROSS JOIN", "no clause"):
        ran = harness.run([harness.program("radixjoin"), *words, clause, "--strict"], folder)
        tally.check("the left file first", harness.differences(ran, b"", b"radixjoin: E21 OpenQuote left row 2 column 1\n", 3))
    for options in (["--strict=off"], ["--strict="], ["--strict", "yes"], ["--strict", "--strict"]):
        ran = joined(folder, b"b\n1\n", "int", options)
        tally.check(f"{options}", harness.differences(ran, b"", None, 2))


def check_without(tally, folder):
    """Without the option the texts are read as ever."""
    for text, types, wanted in (
        (b'b,c\n1,a\n2,"bob\n3,c\n1,d\n', "int,text", b'b,c,a\n1,a,1\n2,"bob\n3,c\n1,d\n",1\n'),
        (b'b,c\n5,"a"b\n', "int,text", b"b,c,a\n5,ab,1\n"),
        (b"b\n1\n\n2\n", "int", b"b,a\n1,1\n2,1\n"),
        (b"b,c\n1,a\n\n2,b", "int,text", b"b,c,a\n1,a,1\n2,b,1\n"),
    ):
        tally.check(f"{text} without --strict", harness.differences(joined(folder, text, types, []), wanted))


def many_rows(count, line=b"%d,a text that makes the row longer\n"):
    return [line % row for row in range(1, count + 1)]


# A line that breaks the grammar in the place of a row, and its fault.
BROKEN = [
    (b'7,a"b\n', "E23 BareQuote left row {} column 2"),
    (b'7,"a"b\n', "E22 AfterQuote left row {} column 2"),
    (b"7,a\rb\n", "E24 BareReturn left row {} column 2"),
    (b"\n", "E25 EmptyLine left row {}"),
]


def check_parts(tally, folder):
    """Files of more than a megabyte, which four workers read in parts: a fault in the first rows, around each cut, and in the last."""
    rows = many_rows(40_000)
    places = [0, 1, *(len(rows) * cut // 4 + near for cut in (1, 2, 3) for near in (-1, 0, 1)), len(rows) - 1]
    for place, (line, fault), workers in itertools.product(places, BROKEN, (1, 4)):
        text = b"".join([b"b,c\n", *rows[:place], line, *rows[place + 1 :]])
        wanted = f"radixjoin: {fault.format(place + 1)}\n".encode()
        ran = joined(folder, text, "int,text", ON, workers=workers)
        tally.check(f"{line} in row {place + 1}, {workers} workers", harness.differences(ran, b"", wanted, 3))
    opened = b"".join([b"b,c\n", *rows[:30_000], b'7,"', *rows[30_000:]])
    early = b"".join([b"b,c\n", *rows[:20_000], b"x,y\n", *rows[20_000:30_000], b'7,"', *rows[30_000:]])
    for workers in (1, 4):
        ran = joined(folder, opened, "int,text", ON, workers=workers)
        tally.check("a quote that opens late", harness.differences(ran, b"", b"radixjoin: E21 OpenQuote left row 30001 column 2\n", 3))
        ran = joined(folder, early, "int,text", ON, workers=workers)
        tally.check("a bad cell above", harness.differences(ran, b"", b"radixjoin: E6 BadInteger left row 20001 column 1\n", 3))


def check_large(tally, folder):
    """Large files that are of the grammar have the bytes that they have without the option; empty lines under one name are rows."""
    rows = many_rows(60_000)
    text = b"".join([b"b,c\n", *rows])
    plain = joined(folder, text, "int,text", [])
    for options, workers in itertools.product((ON, FULL), (1, 4)):
        tally.check(f"a large file, {options}, {workers}", harness.differences(joined(folder, text, "int,text", options, workers=workers), plain.stdout))
    cells = [b"" if row % 3 == 0 else b"%d" % (row * 1_000_003) for row in range(200_000)]
    column = b"b\n" + b"".join(cell + b"\n" for cell in cells)
    wanted = b"b,a\n" + b"".join(cell + b",1\n" for cell in cells)
    for workers in (1, 4):
        tally.check(f"empty lines of a large column, {workers}", harness.differences(joined(folder, column, "int", ON, workers=workers), wanted))


def check_delimiters(tally, folder):
    """Each text by other delimiters, where these and commas are exchanged: it has the same fault, or the cells with these exchanged."""
    for sign in ";\t|:":
        exchange, options = bytes.maketrans(f",{sign}".encode(), f"{sign},".encode()), [*ON, f"--left-delimiter={sign}", f"--out-delimiter={sign}"]
        for text, types, line in TEXTS:
            ran = joined(folder, text.translate(exchange), types, options)
            tally.check(f"{text} by {sign!r}", harness.differences(ran, b"", f"radixjoin: {line.replace('SIDE', 'left')}\n".encode(), 3))
        for text, types, line in CUT:
            ran = joined(folder, text.translate(exchange), types, [*FULL, *options[1:]])
            tally.check(f"{text} by {sign!r}, full", harness.differences(ran, b"", f"radixjoin: {line.replace('SIDE', 'left')}\n".encode(), 3))
        for text, types, null, wanted in READ:
            ran = joined(folder, text.translate(exchange), types, options, null=null)
            tally.check(f"{text} by {sign!r}", harness.differences(ran, wanted.translate(exchange)))


def broken_by(text, delimiter):
    """The name of the fault by the oracle's grammar, or None, and the records above it."""
    found = []
    try:
        found.extend(strict.records(text, False, delimiter))
    except strict.Broken as broken:
        return broken.name, found
    return None, found


def python_rows(text, delimiter):
    """The records that Python's csv reads strictly, or None where it refuses the text."""
    try:
        return list(csv.reader(io.StringIO(text.decode(), newline=""), delimiter=delimiter.decode(), strict=True))
    except csv.Error:
        return None


def check_python(tally, text, delimiter):
    """Python's strict reader beside the grammar, where the two have one meaning: it takes a quote within a field for a letter, ends
    a line by a lone CR, and reads an empty line as no field at all."""
    fault, found = broken_by(text, delimiter)
    if fault in ("BareQuote", "BareReturn", "EmptyLine"):
        return False
    ours = None if fault else [[cell.decode() for cell in record] for record in found]
    theirs = python_rows(text, delimiter)
    tally.check(f"Python's csv of {text} by {delimiter}", [] if theirs == ours else [f"{theirs}, and not {ours}"])
    return True


def check_cells(tally, folder, text, delimiter):
    """The program's cells of a text of two columns beside the oracle's, or its fault."""
    (folder / "file.csv").write_bytes(text)
    (folder / "one.csv").write_bytes(ONE)
    words = ["--left", "file.csv", "--left-types", "text,text", "--right", "one.csv", "--right-types", "int", "--join", "CROSS JOIN"]
    named = [] if delimiter == b"," else [f"--left-delimiter={delimiter.decode()}"]
    ran = harness.run([harness.program("radixjoin"), *words, *named, "--strict", "--null=-"], folder)
    try:
        table = strict.read(text, [reading.Text(), reading.Text()], [b"-"], "left", False, delimiter)
    except faults.Fault as fault:
        tally.check(f"{text} by {delimiter}", harness.differences(ran, b"", f"radixjoin: {fault}\n".encode(), 3))
        return
    wanted = [["-" if cell is None else cell.decode() for cell in row] for row in table.rows]
    got = [row[:2] for row in csv.reader(io.StringIO(ran.stdout.decode(), newline=""))][1:]
    tally.check(f"{text} by {delimiter}", harness.differences(ran, None) + ([] if got == wanted else [f"{got}, and not {wanted}"]))


def check_random(tally, folder):
    """Random texts by several delimiters: the program beside the oracle's grammar, and that beside Python's csv."""
    source, compared = random.Random(4180), 0
    pieces = [b"1", b"a", b"-", b",", b"\n", b"\r\n", b'"', b'""', b'"x"', b'"\n"', b"\r", b" ", b";\t"]
    for _ in range(900):
        text = b"b,c\n" + b"".join(source.choices(pieces, [6, 6, 2, 12, 9, 4, 1, 1, 3, 1, 0.3, 1, 1], k=source.randrange(30)))
        delimiter = source.choice([b",", b";", b"\t", b"|"])
        text = text.translate(bytes.maketrans(b"," + delimiter, delimiter + b","))
        check_cells(tally, folder, text, delimiter)
        compared += check_python(tally, text, delimiter)
    tally.check("texts of one meaning", [] if compared > 100 else [f"{compared} alone"])


def run_all(tally):
    """All of it, in a folder of its own."""
    for check in (check_texts, check_ends, check_without, check_parts, check_large, check_delimiters, check_random):
        with harness.folder() as name:
            check(tally, pathlib.Path(name))
