"""Files that several workers read and write in parts: the bytes, the status and the fault line that are right, which are
worked out here, whatever the number of workers; also where a record, a quoted field, blank lines or a fault lie at a cut.

A part is at least 256 KiB, so the files have 2 to 3 MB; two have more than 20 MB."""
import bisect
import itertools
import pathlib

import harness

WORKERS = (1, 2, 4, 7)
MARK = b"\xef\xbb\xbf"
ROWS = 40_000
# The words that name other delimiters, each with the exchange of its byte and the comma.
DELIMITERS = {("--delimiter=;",): bytes.maketrans(b",;", b";,"), ("--left-delimiter=tab", "--right-delimiter=tab", "--out-delimiter=tab"): bytes.maketrans(b",\t", b"\t,")}


class File:
    """A file of two columns, a number and a text: how its lines stand in it, and the cells of each row."""

    def __init__(self, head, lines, cells):
        self.head = head
        self.lines = lines
        self.cells = cells

    def content(self):
        return self.head + b"".join(self.lines)

    def rows_near(self, cut):
        """The row at a byte, the one before it and the one behind it."""
        starts = list(itertools.accumulate((len(line) for line in self.lines), initial=len(self.head)))
        at = bisect.bisect_right(starts, cut) - 1
        return [row for row in (at - 1, at, at + 1) if 0 <= row < len(self.lines)]

    def with_line(self, row, line):
        """The file with another line in the place of a row."""
        return File(self.head, [*self.lines[:row], line, *self.lines[row + 1 :]], self.cells)


def made(form, head=b"k,t\n", rows=ROWS):
    """A file whose rows have this form: a function of a row's number, which gives its line and the value of its text."""
    lines, texts = zip(*map(form, range(rows)))
    return File(head, list(lines), list(enumerate(texts)))


def plain(at):
    text = b"a text that makes the row longer, as long as others are, %d" % (at * 7)
    text = text.replace(b",", b"")
    return b"%d,%s\n" % (at, text), text


def ended_by_crlf(at):
    line, text = plain(at)
    return line[:-1] + b"\r\n", text


def quoted(at):
    """Records within a field: commas, doubled quotes, LF and CRLF."""
    text = b'%d,one "word"\n7,x\r\n\n8,"\n' % at + b"9,y\n" * (at % 9)
    return b'%d,"%s"\n' % (at, text.replace(b'"', b'""')), text


def with_blank_lines(at):
    line, text = plain(at)
    return line + b"\n\r\n\n" * (at % 5) + b"\n" * (3_000 if at % (ROWS // 14) == 0 else 0), text


def with_bare_quotes(at):
    """A double quote within a field that begins without one stands for itself; what follows a closed quote belongs to the field."""
    line, text = plain(at)
    if at % 3 == 0:
        return line[:-1] + b' 3" wide\n', text + b' 3" wide'
    if at % 3 == 1:
        return b'%d,"%s" and more\n' % (at, text), text + b" and more"
    return line, text


def with_long_fields(at):
    """Some fields of 400,000 bytes, full of what looks like records."""
    if at % 6_000 != 3_000:
        return plain(at)
    text = b'1,"x"\n2,y\n' * 40_000
    return b'%d,"%s"\n' % (at, text.replace(b'"', b'""')), text


def field(text):
    """A text as it is written."""
    return b'"%s"' % text.replace(b'"', b'""') if any(byte in text for byte in b',"\r\n') else text


def joined(left, right):
    """The text of LEFT JOIN USING (k) of two files whose keys are the numbers of their rows, and every third row of the right one."""
    kept = {key: text for key, text in right.cells}
    paired = [b"%d,%s,%s\n" % (key, field(text), field(kept[key])) for key, text in left.cells if key in kept]
    alone = [b"%d,%s,\n" % (key, field(text)) for key, text in left.cells if key not in kept]
    return b"k,t,u\n" + b"".join(paired + alone)


def every_third(file, head=b"k,u\n"):
    """A file with every third row of another one."""
    return File(head, file.lines[::3], file.cells[::3])


class Folder:
    """A folder with two files, and the program over them."""

    def __init__(self, path):
        self.path = path

    def check(self, tally, name, left, right, workers=WORKERS, types="int,text", join="LEFT JOIN USING (k)", options=(), **wanted):
        """Runs the program with each number of workers, and with more options."""
        for side, content in (("left", left), ("right", right)):
            (self.path / f"{side}.csv").write_bytes(content)
        for count in workers:
            words = ["--left", "left.csv", "--left-types", types, "--right", "right.csv", "--right-types", types, "--join", join]
            ran = harness.run([harness.program("radixjoin"), *words, f"--workers={count}", *options], self.path)
            tally.check(f"parts: {name}, {count} workers{''.join(f', {word}' for word in options)}", harness.differences(ran, **wanted))

    def check_delimiters(self, tally, name, left, right, stdout):
        """Runs it by other delimiters, where these and commas are exchanged in both files: so they are in what is written."""
        for options, exchange in DELIMITERS.items():
            self.check(tally, name, left.translate(exchange), right.translate(exchange), (1, 4), options=options, stdout=stdout.translate(exchange))


def check_forms(folder, tally):
    """Each form of rows, on both sides."""
    forms = [plain, ended_by_crlf, quoted, with_blank_lines, with_bare_quotes, with_long_fields]
    for form in forms:
        left = made(form)
        right = every_third(left)
        stdout = joined(left, right)
        folder.check(tally, form.__name__, left.content(), right.content(), stdout=stdout)
        folder.check_delimiters(tally, form.__name__, left.content(), right.content(), stdout)
    folder.check(tally, "byte order marks", MARK + left.content(), MARK + right.content(), stdout=stdout)
    folder.check(tally, "no last line end", left.content().rstrip(b"\n"), right.content().rstrip(b"\n"), stdout=stdout)


def check_open_quote(folder, tally):
    """A quote that isn't closed: the rest of the file is its field. By each eighth of the file."""
    whole = made(plain)
    for eighth in (1, 3, 4, 6):
        row = ROWS * eighth // 8
        rest = b"".join(whole.lines[row + 1 :])
        line = b'%d,"%s' % (row, rest)
        left = File(whole.head, [*whole.lines[:row], line], [*whole.cells[:row], (row, rest)])
        right = every_third(made(plain, rows=60))
        folder.check(tally, f"a quote that stays open, {eighth} eighths", left.content(), right.content(), stdout=joined(left, right))


def faulty_lines(row):
    """Lines with a fault, and the fault; `row` counts from 1."""
    yield b"x,t\n", "E6 BadInteger {} row %d column 1" % row
    yield b"7\n", "E5 RaggedRow {} row %d" % row
    yield b"7,\xff\n", "E7 BadText {} row %d column 2" % row
    yield b"7,t,t\n", "E5 RaggedRow {} row %d" % row
    yield b'"9223372036854775808","\n"\n', "E6 BadInteger {} row %d column 1" % row


def told(fault, side):
    return {"stderr": f"radixjoin: {fault.format(side)}\n".encode(), "status": 3}


def check_faults(folder, tally):
    """A fault in the rows at each cut that some number of workers can make, on either side in turn; behind it there is another one."""
    files = [made(form) for form in (plain, quoted, with_blank_lines)]
    small = every_third(made(plain, rows=60), b"k,t\n").content()
    cuts = sorted({at / count for count in WORKERS for at in range(1, count)})
    kinds = itertools.cycle(range(5))
    for at, cut in enumerate(cuts):
        file = files[at % len(files)]
        for row in file.rows_near(int(len(file.content()) * cut)):
            line, fault = list(faulty_lines(row + 1))[next(kinds)]
            content = file.with_line(row, line).with_line(len(file.lines) - 1, b"y\n").content()
            side = ("left", "right")[row % 2]
            tables = (content, small) if side == "left" else (small, content)
            folder.check(tally, f"{fault.format(side)}, at {cut:.2f}", *tables, **told(fault, side))
            options, exchange = list(DELIMITERS.items())[row % 2]
            folder.check(tally, f"{fault.format(side)}, at {cut:.2f}", *(table.translate(exchange) for table in tables), (1, 4), options=options, **told(fault, side))
    line, fault = list(faulty_lines(len(file.lines)))[1]
    last = file.with_line(len(file.lines) - 1, line).content()
    other = file.with_line(3, b"z\n").content()
    folder.check(tally, "a fault in the last left row and one in the third right one", last, other, **told(fault, "left"))


def check_small(folder, tally):
    """Files with nothing to part, by many workers too."""
    workers = (*WORKERS, 64)
    folder.check(tally, "one row", b"k,t\n1,a\n", b"k,u\n1,b", workers, stdout=b"k,t,u\n1,a,b\n")
    folder.check(tally, "no rows", MARK + b"k,t\r\n", b"k,u", workers, stdout=b"k,t,u\n")
    folder.check(tally, "no header", MARK, b"k,u\n", workers, **told("E1 NoHeader {}", "left"))
    folder.check(tally, "blank lines alone", b"k,t\n1,a\n", b"\n" * 1_500_000, workers, **told("E1 NoHeader {}", "right"))
    folder.check(tally, "many types", b"k\n" + b"1\n" * 500_000, b"k,u\n1,b\n", workers, **told("E4 TypeCount {}", "left"))


def check_large(folder, tally):
    """Two files of more than 20 MB, and no want of memory."""
    left = made(lambda at: (b"%d,%s%d\n" % (at, b"x" * 88, at), b"x" * 88 + b"%d" % at), rows=220_000)
    right = File(b"k,u\n", left.lines[::-1], left.cells)
    folder.check(tally, "two files of 20 MB", left.content(), right.content(), stdout=joined(left, right))


def run_all(tally):
    """Every part in one folder."""
    with harness.folder() as name:
        folder = Folder(pathlib.Path(name))
        for check in (check_forms, check_open_quote, check_faults, check_small, check_large):
            check(folder, tally)
