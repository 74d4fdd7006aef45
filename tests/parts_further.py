"""Further files that several workers read in parts: numbers of several scales, few and many columns, null texts, and rows that
begin with the bytes of a byte order mark; and ranges of a file that begin with these bytes, as `shards` divides them.

What is right is worked out here, whatever the number of workers."""
import functools
import itertools
import pathlib

import harness
import parts

WORKERS = (2, 4, 7)
MARK = parts.MARK
FILLER = b"a text that makes the row longer, as long as others are".replace(b",", b"")


class Column:
    """A column: its name and type, and how the cell of a row, by its number, stands in the file and in the result; None for a null."""

    def __init__(self, name, kind, cell):
        self.name = name
        self.kind = kind
        self.cell = functools.cache(cell)


def in_scale(units, scale):
    """A number of so many units as it is written, with its scale's digits after the point."""
    digits = b"%0*d" % (scale + 1, abs(units))
    sign = b"-" if units < 0 else b""
    return sign + (digits[:-scale] + b"." + digits[-scale:] if scale else digits)


def spelled(number, at):
    """A number spelled in one of several ways."""
    if at % 4 == 1 and not number.startswith(b"-"):
        return b"+00" + number
    if at % 4 == 2:
        return number + b"000" if b"." in number else number + b".00"
    if at % 4 == 3 and b"." in number:
        return number.rstrip(b"0") + (b"0" if number.rstrip(b"0").endswith(b".") else b"")
    return number


def key_column(scale=0):
    """The number of the row, as an int or in a scale."""
    kind = f"num(12,{scale})" if scale else "int"
    return Column(b"k", kind, lambda at: (b"%d" % at, in_scale(at * 10**scale, scale)))


def number_column(name, precision, scale):
    """Numbers of so many digits on both sides of zero, some of them null."""

    def cell(at):
        units = at * 791_912_345_711 % 10**precision - 10**precision // 2
        return (None, None) if at % 11 == 5 else (spelled(in_scale(units, scale), at), in_scale(units, scale))

    return Column(name, f"num({precision},{scale})", cell)


def int_column(name):
    def cell(at):
        return (None, None) if at % 13 == 7 else (b"%d" % (at * 31 - 400_000),) * 2

    return Column(name, "int", cell)


def text_column(name, filler=FILLER):
    """Texts, some of them null, and some with what has to be quoted."""

    def cell(at):
        text = b'%d "said", %d' % (at, at) if at % 17 == 3 else b"%s %d" % (filler, at * 7)
        return (None, None) if at % 7 == 2 else (parts.field(text), text)

    return Column(name, "text", cell)


def file_of(columns, rows, null=b""):
    """The bytes of a file with these columns, whose rows have these numbers."""
    lines = [b",".join(column.name for column in columns)]
    for at in rows:
        cells = [column.cell(at)[0] for column in columns]
        lines.append(b",".join(null if cell is None else cell for cell in cells))
    return b"\n".join(lines) + b"\n"


def joined(lefts, rights, rows, paired, null=b"", key=None):
    """The text of LEFT JOIN USING the first columns, where the right table has the rows `paired`; `key` writes a join column."""

    def record(at, is_paired):
        cells = [key(at) if key else lefts[0].cell(at)[1]]
        cells += [column.cell(at)[1] for column in lefts[1:]]
        cells += [column.cell(at)[1] if is_paired else None for column in rights[1:]]
        return b",".join(null if cell is None else parts.field(cell) for cell in cells)

    header = b",".join([lefts[0].name, *(column.name for column in [*lefts[1:], *rights[1:]])])
    met = set(paired)
    pairs = [record(at, True) for at in rows if at in met]
    lone = [record(at, False) for at in rows if at not in met]
    return b"\n".join([header, *pairs, *lone]) + b"\n"


class Folder:
    """A folder with two files, and the programs over them."""

    def __init__(self, path):
        self.path = path

    def write(self, left, right):
        (self.path / "left.csv").write_bytes(left)
        (self.path / "right.csv").write_bytes(right)

    def check(self, tally, name, types, options, stdout, workers=WORKERS):
        """Joins the two files with each number of workers."""
        words = ["--left", "left.csv", "--left-types", types[0], "--right", "right.csv", "--right-types", types[1]]
        for count in workers:
            ran = harness.run([harness.program("radixjoin"), *words, *options, f"--workers={count}"], self.path)
            tally.check(f"parts: {name}, {count} workers", harness.differences(ran, stdout))

    def check_columns(self, tally, name, lefts, rights, rows, null=b"", key=None):
        """LEFT JOIN of two files with these columns; the right one has every third row."""
        rows = range(rows)
        self.write(file_of(lefts, rows, null), file_of(rights, rows[::3], null))
        types = [",".join(column.kind for column in columns) for columns in (lefts, rights)]
        options = ["--join", "LEFT JOIN USING (k)", *([f"--null={null.decode()}"] if null else [])]
        self.check(tally, name, types, options, joined(lefts, rights, rows, rows[::3], null, key))


def check_numbers(folder, tally):
    """Numbers of several scales, and keys of two."""
    lefts = [key_column(), number_column(b"a", 9, 2), number_column(b"b", 18, 6), number_column(b"c", 5, 0), text_column(b"t")]
    rights = [key_column(4), number_column(b"d", 18, 18), number_column(b"e", 6, 6), number_column(b"f", 10, 1), text_column(b"u")]
    folder.check_columns(tally, "numbers of several scales", lefts, rights, 24_000, key=lambda at: in_scale(at * 10_000, 4))


def check_widths(folder, tally):
    """Tables of 3 columns of each type, and of 70 of two types."""
    forms = [int_column, lambda name: text_column(name, b"one of many"), lambda name: number_column(name, 12, 3)]
    for width, rows, kinds in ((3, 40_000, 3), (70, 3_000, 2)):
        makers = itertools.cycle(forms[:kinds])
        names = [b"c%d" % at for at in range(1, width)]
        lefts = [key_column(), *(maker(name) for maker, name in zip(makers, names))]
        rights = [key_column(), *(maker(b"r" + name) for maker, name in zip(makers, names))]
        folder.check_columns(tally, f"{width} columns", lefts, rights, rows)


def check_nulls(folder, tally):
    """Null texts, beside texts that are empty."""
    empty = Column(b"e", "text", lambda at: (b'""', b"") if at % 2 else (b"NULLS", b"NULLS"))
    lefts = [key_column(), int_column(b"a"), number_column(b"b", 9, 2), text_column(b"t"), empty]
    rights = [key_column(), text_column(b"u"), Column(b"f", "text", empty.cell)]
    for null in (b"NULL", b"\\N", b""):
        # (an empty text can't be told from a null where that is the empty text)
        some = [column for column in lefts if null or column is not empty], rights[: 3 if null else 2]
        folder.check_columns(tally, f"the null text {null.decode()!r}", *some, 20_000, null)


def marked_file(head, marked, rows=40_000):
    """The lines of a file of a text and a number, where the rows that are `marked` begin with the bytes of a mark."""
    return [head] + [b"%s%s %d,%d\n" % (MARK if marked(at) else b"", FILLER, at, at) for at in range(rows)]


def check_marks(folder, tally):
    """Rows that begin with the bytes of a byte order mark: at each cut, at some, at the middle of the file alone."""
    right = b"t,n\n%s%s 7,9\n" % (MARK, FILLER)
    kinds = {"each row": lambda at: True, "most rows": lambda at: at % 50, "half of them": lambda at: at % 2}
    kinds["the middle"] = lambda at: 10_000 <= at < 30_000
    for name, marked in kinds.items():
        for begin in (b"", MARK):
            lines = marked_file(b"t,k\n", marked)
            folder.write(begin + b"".join(lines), right)
            paired = [8] if marked(7) else []
            pairs = [lines[at].rstrip(b"\n") + b",9\n" for at in paired]
            lone = [line.rstrip(b"\n") + b",\n" for at, line in enumerate(lines) if at and at not in paired]
            stdout = b"".join([b"t,k,n\n", *pairs, *lone])
            said = f"{name} marked{', and the file' if begin else ''}"
            folder.check(tally, said, ("text,int", "text,int"), ["--join", "LEFT JOIN USING (t)"], stdout, (1, *WORKERS))


def check_two_marks(folder, tally):
    """The second of two marks belongs to the first name."""
    lines = marked_file(MARK + b"t,k\n", lambda at: at % 3 == 0)
    folder.write(MARK + b"".join(lines), b"k,n\n5,6\n")
    pairs = [b"%s,5,6\n" % lines[6].rstrip(b"\n")]
    lone = [line.rstrip(b"\n") + b",,\n" for at, line in enumerate(lines) if at not in (0, 6)]
    stdout = b"".join([MARK + b"t,k,k,n\n", *pairs, *lone])
    folder.check(tally, "two marks", ("text,int", "int,int"), ["--join", "LEFT JOIN ON L.k = R.k"], stdout, (1, *WORKERS))


def divide(folder, begin, end):
    """Divides a range of the left file into one part. It gives how that ended, and what the part has."""
    words = ["--side=left", "--left=left.csv", "--right=right.csv", "--left-types=text,int", "--right-types=text,int", "--join=JOIN USING (k)"]
    ran = harness.run([harness.program("shards"), *words, "--parts=1", f"--from={begin}", f"--to={end}", "--out=parts"], folder.path)
    part = folder.path / "parts" / "0000.csv"
    return ran, part.read_bytes() if part.exists() else b""


def faults_of_range(folder, lines, first, last):
    """How the part differs that has the lines of a file from one on up to another; line 0 is the header."""
    places = [0, *itertools.accumulate(map(len, lines))]
    begin = 0 if first == 1 else places[first]
    header = lines[0].removeprefix(MARK).rstrip(b"\n") + b",left_place\n"
    rows = [b"%s,%d\n" % (line.rstrip(b"\n"), begin + at) for at, line in enumerate(lines[first:last])]
    ran, part = divide(folder, begin, places[last])
    faults = harness.differences(ran, b"rows %d header %d\n" % (last - first, len(header)))
    if part != header + b"".join(rows):
        faults.append(f"the part has {harness.shorten(part)}, and not {harness.shorten(header + b''.join(rows))}")
    return faults


def check_ranges(folder, tally):
    """Ranges of a file, from a row that begins with the bytes of a mark on and from another, and the whole of a file with two marks."""
    for head in (b"t,k\n", MARK + MARK + b"t,k\n"):
        lines = marked_file(head, lambda at: at % 2 == 0)
        folder.write(b"".join(lines), b"t,k\n")
        for first, last in ((1, len(lines)), (1, 4), (10_001, 10_002), (10_001, 30_003), (20_002, 20_005), (39_999, len(lines))):
            faults = faults_of_range(folder, lines, first, last)
            tally.check(f"shards: the lines {first} to {last} of a file with {head.count(MARK)} marks", faults)


def check_blocks(folder, tally):
    """A file that `shards` reads in several blocks of 8 MiB, where each row begins with the bytes of a mark."""
    lines = [b"t,k\n"] + [b"%s%s,%d\n" % (MARK, b"x" * 2_000, at) for at in range(10_000)]
    folder.write(b"".join(lines), b"t,k\n")
    tally.check("shards: blocks of marked rows", faults_of_range(folder, lines, 1, len(lines)))


def run_all(tally):
    """Every part in one folder."""
    with harness.folder() as name:
        folder = Folder(pathlib.Path(name))
        for check in (check_numbers, check_widths, check_nulls, check_marks, check_two_marks, check_ranges, check_blocks):
            check(folder, tally)
