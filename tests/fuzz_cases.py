"""Random cases: a program, its words, its files and its standard input."""
import re

import fuzz_clauses

KINDS = ("clauses", "files", "joins", "scripts", "lines")
# How often each kind comes, of a hundred.
SHARES = {"clauses": 55, "files": 20, "joins": 8, "scripts": 9, "lines": 8}


class Case:
    """A run of a program. `writes` says that its files have to be written first."""

    def __init__(self, kind, program, words, files, folder, stdin=b"", writes=True, clause=None):
        self.kind = kind
        self.program = program
        self.words = words
        self.files = files
        self.folder = folder
        self.stdin = stdin
        self.writes = writes
        self.clause = clause


def mutated(source, content, pieces):
    """Bytes with a few places cut out, doubled, moved, or replaced by pieces."""
    content = bytearray(content)
    for _ in range(source.choice([1, 1, 1, 2, 3, 5])):
        at = source.randrange(len(content) + 1)
        to = min(len(content), at + source.choice([0, 1, 1, 2, 3, 8]))
        how = source.randrange(5)
        if how == 0:
            del content[at:to]
        elif how == 1:
            content[at:to] = source.choice(pieces)
        elif how == 2:
            content[at:at] = content[at:to] * source.randrange(1, 3)
        elif how == 3:
            content[at:at] = source.choice(pieces)
        else:
            content[at:to] = bytes(source.randrange(256) for _ in range(to - at))
    return bytes(content)


FILE_PIECES = [b",", b";", b"\t", b'"', b'""', b"\n", b"\r", b"\r\n", b"\xef\xbb\xbf", b"\xff", b"\xc3\xa9", b"\xed\xa0\x80", b" ", b"", b"0", b"-", b"+7", b"NULL", b"a", b"A", b"9223372036854775807", b"-9223372036854775808", b"9223372036854775808", b"00000000000000000000012", b"\x00"]
CELLS = {
    "int": [b"0", b"1", b"-1", b"+2", b"007", b"-0", b"", b"9223372036854775807", b"-9223372036854775808"],
    "text": [b"x", b"", b'"a,b"', b"p;q", b'"say ""hi"""', b'"line\nbreak"', b"\xc3\xa9", b"NULL", b"1", b'"\r"', b"\t|-"],
    "num(4,2)": [b"1", b"1.5", b"-0.05", b"+99.990", b"007.00", b"", b"-1", b"100", b"1.005", b"1."],
    "num(18,18)": [b"0", b"0.1", b"-0.000000000000000001", b"0.1000000000000000000", b"1", b"", b"-.1"],
}
NAMES = [b"a", b"b", b"c", b"k", b"A", b"B", b"t", b"\xc3\xa9", b'"x y"', b"n" * 128]
NULLS = [b"", b"", b"", b"NULL", b"-", b"x", b"\\N", b";"]
# Names of delimiters, and words that name none.
DELIMITERS = [b";", b";", b"tab", b"\\t", b"\t", b"|", b":", b" ", b"-", b".", b"'", b"^", b"]", b"\\", b"\x01", b"\x7f", b","]
BAD_DELIMITERS = [b"", b"ab", b";;", b"a", b"Z", b"7", b'"', b"\r", b"\n", b"\xc3\xa9", b"Tab", b"\\n"]
BAD_NULLS = [b"7", b"a b", b'"', b",", b"x" * 17, b"\xc3\xa9", b"\x7f"]
FILE_CLAUSES = [b"CROSS JOIN", b"NATURAL FULL JOIN", b"FULL JOIN USING (a)", b"LEFT JOIN ON L.a = R.a", b"RIGHT JOIN ON L.b IS NULL"]
FILE_TYPES = [["int"], ["text"], ["int", "text"], ["text", "int"], ["text", "text", "text"], ["int", "int", "int"]]
FILE_TYPES += [["num(4,2)"], ["num(4,2)", "text"], ["int", "num(18,18)", "num(4,2)"]]
WORDS = [of for of in CELLS if of != "num(18,18)"]

SCRIPT_PIECES = [b" ", b"  ", b"\n", b"\r\n", b"\r", b"0", b"1", b"-1", b"+1", b"x", b"close", b"rows", b" rows 1", b"\xff", b"4294967295", b"4294967296", b"18446744073709551615", b"18446744073709551616", b"000000000000000000000000001"]
# Lists of kinds of rows; left rows that are in a pair are refused with other columns than the left ones.
ROWS = [b"pairs", b"lone-left", b"lone-right", b"lone-right,pairs", b"lone-left,lone-right", b"matched-left", b"matched-left,lone-left", b"lone-right,matched-left"]
LINE_PIECES = [b"-", b"--", b"=", b"--left", b"--help", b"-h", b"--stats", b"--gaps", b"--null=", b"--bits1", b"--workers=64", b"--block", b"--lanes=4", b"--capacity", b"--retries=3", b"--bits2", b"--hash", b"mixed", b"plain", b"--piece=1", b"1048577", b"--version", b"-V", b"11", b"10", b"", b"\xff", b"int", b",", b"text", b" ", b"a", b"--join", b"0", b"--partition=1024", b"-1", b"-w2", b"-w", b"--terse", b"--lenient", b"-d", b"-d;", b"--delimiter", b"--out-delimiter=tab", b"tab", b"\\t", b";", b"\t"]

# A type that is given to a column by its name.
BY_NAME = re.compile(rb"(^|=)[^-=][^=]*= *(int|text)")


class Cases:
    """Random cases of one source, whose files stand in one folder."""

    def __init__(self, source, folder):
        self.source = source
        self.folder = folder
        self.clauses = fuzz_clauses.Clauses(source)
        self.tables = [self.written_tables(number) for number in range(6)]

    def next(self, only=None):
        """The next case, of any kind or of one."""
        kind = only or self.source.choices(KINDS, [SHARES[kind] for kind in KINDS])[0]
        return getattr(self, f"next_of_{kind}")()

    def request(self, files, types, join, null=b"", options=()):
        """The words of a run of radixjoin over two files."""
        words = []
        for side, name, of in zip((b"left", b"right"), files, types):
            words += [b"--" + side, name, b"--" + side + b"-types=" + ",".join(of).encode()]
        words += [b"--join=" + join, *([b"--null=" + null] if null else []), *options]
        return [word.replace(b"\0", b"0") for word in words]

    def table(self, types, most_rows, cells=CELLS):
        """A file with a header and a few rows."""
        names = self.source.sample(NAMES[:8], len(types))
        rows = [[self.source.choice(cells[of]) for of in types] for _ in range(self.source.randrange(most_rows + 1))]
        return b"".join(b",".join(row) + b"\n" for row in [names, *rows])

    def written_tables(self, number):
        """Two small tables for clauses, written once."""
        types = [[self.source.choice(WORDS) for _ in names] for names in fuzz_clauses.COLUMNS]
        files = {}
        for side, of, names in zip(("left", "right"), types, fuzz_clauses.COLUMNS):
            rows = [[self.source.choice(CELLS[one]) for one in of] for _ in range(2)]
            files[f"{side}{number}".encode()] = b"".join(b",".join(row) + b"\n" for row in [names, *rows])
        for name, content in files.items():
            (self.folder / name.decode()).write_bytes(content)
        return files, types

    def next_of_clauses(self):
        files, types = self.source.choice(self.tables)
        text = self.clauses.next().replace(b"\0", b" ")
        words = self.request(list(files), types, text)
        return Case("clauses", "radixjoin", words, files, self.folder, writes=False, clause=text)

    def file(self, types):
        """The bytes of a file: a table, often mutated, sometimes wide, sometimes anything."""
        shape = self.source.randrange(20)
        if shape == 0:
            return bytes(self.source.choice(b'a1,"\n\r\xff\xef\xbb\xbf- ') for _ in range(self.source.randrange(40)))
        content = self.table(types, 5)
        if shape == 1:
            content = b"\xef\xbb\xbf" + content
        if shape == 2:
            content = content.replace(b"\n", self.source.choice([b"\r\n", b"\r", b"\n\n"]))
        if shape == 3:
            content = content[: self.source.randrange(len(content) + 1)]
        return mutated(self.source, content, FILE_PIECES) if self.source.random() < 0.6 else content

    def wide(self):
        """A file and types of about as many columns as there may be, or a name of about as many bytes."""
        count = self.source.choice([255, 256, 257, 300])
        types = ["int"] * self.source.choice([count, count, count - 1])
        names = [b"c%d" % column for column in range(count)]
        names[self.source.randrange(count)] = self.source.choice([b"c1", b"", b"n" * 128, b"n" * 129, b"\xff", b"C9"])
        return b",".join(names) + b"\n" + b",".join([b"5"] * count) + b"\n", types

    def delimited(self, files):
        """Files by other delimiters than the comma, which stands in its place wherever it was, and the options that name them: one for all, or
        each its own. Now and then a word names none, or another one than the file has."""
        source = self.source
        if source.random() < 0.6:
            return files, []
        named = {of: source.choice(DELIMITERS) for of in (b"left", b"right", b"out")}
        is_shared = source.random() < 0.4
        given = source.choice([b"--delimiter=", b"-d", b"-d="]) + named[b"left"]
        options = [given] if is_shared else [b"--%s-delimiter=%s" % (of, word) for of, word in named.items() if source.random() < 0.8]
        if source.randrange(12) == 0:
            options.append(b"--%sdelimiter=%s" % (source.choice([b"", b"left-", b"out-"]), source.choice(BAD_DELIMITERS)))
        found = []
        for side, content in zip((b"left", b"right"), files):
            word = named[b"left" if is_shared else side]
            sign = {b"tab": b"\t", b"\\t": b"\t"}.get(word, word)
            is_told = is_shared or any(option.startswith(b"--%s-" % side) for option in options)
            found.append(content.translate(bytes.maketrans(b"," + sign, sign + b",")) if is_told else content)
        return found, options

    def next_of_files(self):
        types = [self.source.choice(FILE_TYPES) for _ in range(2)]
        files = [self.file(of) for of in types]
        for side in range(2):
            if self.source.randrange(40) == 0:
                files[side], types[side] = self.wide()
        null = self.source.choice(BAD_NULLS if self.source.randrange(30) == 0 else NULLS)
        strict = self.source.choice([[], [], [b"--strict"], [b"--strict=full"]])
        files, delimiters = self.delimited(files)
        words = self.request([b"left", b"right"], types, self.source.choice(FILE_CLAUSES), null, strict + delimiters)
        return Case("files", "radixjoin", words, {b"left": files[0], b"right": files[1]}, self.folder)

    def next_of_joins(self):
        """Whole joins of larger tables, with statistics."""
        types = [[self.source.choice(WORDS) for _ in names] for names in fuzz_clauses.COLUMNS]
        files = {}
        for side, of, names in zip((b"left", b"right"), types, fuzz_clauses.COLUMNS):
            rows = [[self.source.choice(CELLS[one][:6]) for one in of] for _ in range(self.source.randrange(20))]
            files[side] = b"".join(b",".join(row) + b"\n" for row in [names, *rows])
        contents, delimiters = self.delimited(files.values())
        files = dict(zip(files, contents))
        options = [b"--stats", b"--bits1=%d" % self.source.randrange(11), b"--bits2=%d" % self.source.randrange(11), b"--hash=" + self.source.choice([b"plain", b"mixed"]), b"--piece=%d" % self.source.choice([1, 2, 3, 7, 65536]), b"--workers=%d" % self.source.randrange(1, 4)]
        options += [b"--order=left", b"--rows=" + self.source.choice(ROWS), b"--columns=" + self.source.choice([b"left", b"left", b"right"])]
        options = delimiters + self.source.sample(options, self.source.randrange(len(options) + 1))
        words = self.request([b"left", b"right"], types, self.clauses.lawful(types), self.source.choice(NULLS), options)
        return Case("joins", "radixjoin", words, files, self.folder)

    def next_of_scripts(self):
        source = self.source
        senders, block = source.choice([1, 2, 3, 128]), source.choice([1, 2, 3, 65536])
        lines = [self.script_line(senders) for _ in range(source.randrange(30))]
        script = b"".join(line + source.choice([b"\n"] * 40 + [b"\r\n", b"\n\n", b""]) for line in lines)
        if source.random() < 0.3:
            script = mutated(source, script, SCRIPT_PIECES)
        words = [b"--partition=1", b"--senders=%d" % senders, b"--block", b"%d" % block, *[b"--gaps"] * source.randrange(2)]
        return Case("scripts", "arrivals", words, {}, self.folder, script, writes=False)

    def script_line(self, senders):
        source = self.source
        words = [source.choice([0, 0, 0, senders - 1, senders]), source.choice([1] * 8 + [0]), source.choice([0, 1, 2, 3, 4, 5, 2**64 - 1])]
        if source.random() < 0.2:
            return b"%d %d %d close" % tuple(words)
        return b"%d %d %d rows" % tuple(words) + b"".join(b" %d" % source.randrange(9) for _ in range(source.choice([0, 1, 1, 2, 3])))

    def next_of_lines(self):
        """The words of a lawful line, mutated."""
        source = self.source
        program = source.choice(["radixjoin", "radixjoin", "arrivals"])
        is_short = source.random() < 0.4
        files = {b"left": b"a\n1\n", b"right": b"a\n1\n"}
        if program == "arrivals":
            words = [b"--partition", b"0", b"--senders", b"1", b"--block", b"1"]
        elif is_short:
            words = [b"left", b"right", source.choice([b"CROSS JOIN", b"JOIN USING (a)", b"JOIN ON L.a < R.a", b"JOIN ON L.a = 1", b"LEFT JOIN USING (a)", b"NATURAL RIGHT JOIN"]), b"--terse"]
            words += source.choice([[], [b"--left-types=int"], [b"--right-types", b"int", b"--left-types=int"], [b"--types=int"], [b"--lenient"], [b"--repeated=keep"]])
        else:
            words = [b"--left", b"left", b"--right", b"right", b"--left-types", b"int", b"--right-types=int", b"--join", source.choice([b"CROSS JOIN", b"FULL JOIN USING (a)", b"RIGHT JOIN ON L.a <> R.a"])]
        words += source.choice([[], [b"--stats"], [b"--bits1", b"3"], [b"--bits2=2"], [b"--hash", b"mixed"], [b"--piece", b"3"], [b"--version"], [b"--workers=2"], [b"--lanes", b"2"], [b"--block=65536", b"--capacity=1"], [b"--null=x"], [b"--gaps"], [b"--help"], [b"--count"], [b"--report"], [b"--expect=many-to-one"], [b"--expect=one-to-one"], [b"--max-rows=2"], [b"--expect=matched"], [b"--select=id"], [b"--select=L.a=b,R.a"], [b"-q"], [b"--anti"], [b"--semi"], [b"-d", b";"], [b"--delimiter=ab", b"--out-delimiter=tab"], [b"--out-delimiter=;"], *([b"--rows=" + source.choice(ROWS)] for _ in range(4))])
        for _ in range(source.choice([0, 1, 1, 2, 3])):
            at = source.randrange(len(words))
            how = source.randrange(6)
            if how == 0:
                del words[at]
            elif how == 1:
                words[at:at] = [words[source.randrange(len(words))]]
            elif how == 2:
                words[at:at] = [source.choice(LINE_PIECES)]
            elif how == 3:
                words[at] = source.choice(LINE_PIECES)
            elif how == 4:
                words[at] = mutated(source, words[at], LINE_PIECES).replace(b"\0", b"")
            else:
                to = source.randrange(len(words))
                words[at], words[to] = words[to], words[at]
            if not words:
                break
        # (a table that goes to a file of a made-up name is no matter of the oracle: tests/output_file.py; nor are types by name: tests/type_lists.py)
        words = [word for word in words if not word.startswith((b"-o", b"--output")) and not BY_NAME.search(word)]
        return Case("lines", program, words, files, self.folder)
