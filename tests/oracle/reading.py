"""CSV bytes as a table, or the first fault of a reading: "Tables" and "Reading CSV" of docs/user/specification.md."""
import re

from .faults import Fault
from .scaled import Scaled

MOST_ROWS = 2**31 - 1
MOST_COLUMNS = 256
LONGEST_NAME = 128
LONGEST_NULL = 16
COMMA = b","
LEAST_INT, MOST_INT = -(2**63), 2**63 - 1


class Int:
    """The type `int`: an optional sign and digits, in the range of 64 bits."""

    word = "int"
    is_text = False

    def read(self, cell):
        """The value of a cell's bytes; ValueError where they have another form."""
        if not re.fullmatch(rb"[+-]?[0-9]+", cell):
            raise ValueError
        value = integer(cell)
        if not LEAST_INT <= value <= MOST_INT:
            raise ValueError
        return value

    def fault(self, side, row, column):
        return Fault(6, "BadInteger", side, "row", row, "column", column)


class Text:
    """The type `text`: UTF-8, as read. A value is its bytes."""

    word = "text"
    is_text = True
    is_undeclared = False

    def read(self, cell):
        cell.decode()
        return cell

    def fault(self, side, row, column):
        return Fault(7, "BadText", side, "row", row, "column", column)


class Undeclared(Text):
    """The type `text` of a column of which no type was given."""

    is_undeclared = True


class Num:
    """The type `num(p,s)`: at most p digits, s of them after the point."""

    is_text = False

    def __init__(self, digits, scale):
        self.word = f"num({digits},{scale})"
        self.digits = digits
        self.scale = scale

    def read(self, cell):
        found = re.fullmatch(rb"([+-]?)([0-9]+)(?:\.([0-9]+))?", cell)
        if not found:
            raise ValueError
        sign, whole, part = found[1], found[2], found[3] or b""
        units = integer(whole + part[: self.scale].ljust(self.scale, b"0"))
        if part[self.scale :].strip(b"0") or units >= 10**self.digits:
            raise ValueError
        return Scaled(-units if sign == b"-" else units, self.scale)

    fault = Int.fault


TYPES = {of.word: of for of in (Int(), Text())}
NUM = r"num\((0|[1-9][0-9]?),(0|[1-9][0-9]?)\)"


def integer(digits):
    """The number that a sign and digits spell, however many they are."""
    stripped = digits.lstrip(b"+-").lstrip(b"0")
    if len(stripped) > 100:
        return 10**100
    value = int(stripped or b"0")
    return -value if digits.startswith(b"-") else value


class Table:
    """Names (bytes), types, and rows of cells: None, an int, or bytes."""

    def __init__(self, names, types, rows):
        self.names = names
        self.types = types
        self.rows = rows


def lowered(name):
    """A name as it is compared where ASCII case is ignored."""
    return bytes(byte + 32 if 65 <= byte <= 90 else byte for byte in name)


def delimiter_named(word):
    """The delimiter of this name, or None where it is none: one ASCII character that is no letter, digit, double quote, CR or LF, or a
    name of the tab."""
    if word in ("tab", "\\t"):
        return b"\t"
    is_one = len(word) == 1 and word.isascii() and not word.isalnum() and word not in '"\r\n'
    return word.encode() if is_one else None


def records(text, delimiter=COMMA):
    """The records of CSV bytes, as the csv library reads them with this delimiter: one byte at a time."""
    found, fields, field = [], [], bytearray()
    # Where the reading stands: before a record, before a field, in a bare field, in quotes, after a quote in them.
    state = "record"
    for byte in text:
        if state == "record":
            if byte in b"\r\n":
                continue
            state = "field"
        if state == "quoted":
            if byte == 0x22:
                state = "after quote"
            else:
                field.append(byte)
        elif state == "field" and byte == 0x22:
            state = "quoted"
        elif state == "after quote" and byte == 0x22:
            field.append(byte)
            state = "quoted"
        elif byte in delimiter + b"\r\n":
            fields.append(bytes(field))
            field = bytearray()
            state = "field"
            if byte not in delimiter:
                found.append(fields)
                fields, state = [], "record"
        else:
            field.append(byte)
            state = "bare"
    if state != "record":
        found.append([*fields, bytes(field)])
    return found


def without_mark(content):
    """A file's bytes without the byte order mark that they begin with, if they do."""
    return content.removeprefix(b"\xef\xbb\xbf")


def is_lawful_null(null):
    """Whether these bytes may stand for null."""
    return len(null) <= LONGEST_NULL and all(0x21 <= byte <= 0x7E and byte not in b'0123456789,"' for byte in null)


def is_text(cell):
    try:
        cell.decode()
    except UnicodeDecodeError:
        return False
    return True


def check_header(header, types, side):
    """The faults of a header, in their order."""
    if len(header) > MOST_COLUMNS:
        raise Fault(9, "TooManyColumns", side)
    seen = set()
    for column, name in enumerate(header, 1):
        if not 1 <= len(name) <= LONGEST_NAME or not is_text(name):
            raise Fault(2, "BadName", side, "column", column)
        if lowered(name) in seen:
            raise Fault(3, "RepeatedName", side, "column", column)
        seen.add(lowered(name))
    if len(types) != len(header):
        raise Fault(4, "TypeCount", side)


def undeclared(content, delimiter):
    """The types of a file's columns of which none was given."""
    found = records(without_mark(content), delimiter)
    return [Undeclared()] * len(found[0]) if found else []


def read_header(content, types, side, delimiter):
    """The table of a file's header, without rows; or its first fault."""
    found = records(without_mark(content), delimiter)
    if not found:
        raise Fault(1, "NoHeader", side)
    check_header(found[0], types, side)
    return Table(found[0], types, [])


def read(content, types, nulls, side, delimiter):
    """The table of a file's bytes, by its column types, its null texts and its delimiter; or its first fault."""
    found = records(without_mark(content), delimiter)
    if not found:
        raise Fault(1, "NoHeader", side)
    header, *rest = found
    check_header(header, types, side)
    rows = [read_row(record, types, nulls, side, row) for row, record in enumerate(rest, 1)]
    return Table(header, types, rows)


def read_row(record, types, nulls, side, row):
    """The cells of the record that is row `row`, counted from 1."""
    if row > MOST_ROWS:
        raise Fault(8, "TooManyRows", side)
    if len(record) != len(types):
        raise Fault(5, "RaggedRow", side, "row", row)
    cells = []
    for column, (cell, of) in enumerate(zip(record, types), 1):
        try:
            cells.append(None if cell in nulls else of.read(cell))
        except ValueError:
            raise of.fault(side, row, column) from None
    return cells


def type_called(word):
    """The type of a word of a type list, or None."""
    found = re.fullmatch(NUM, word)
    if not found:
        return TYPES.get(word)
    digits, scale = int(found[1]), int(found[2])
    return Num(digits, scale) if 1 <= digits <= 18 and scale <= digits else None


def type_list(word, side, bad):
    """The types of a type list; `bad` makes the fault of a list of another form."""
    # Words stand between commas that are outside parentheses.
    types = [type_called(name) for name in re.split(r",(?![^(]*\))", word)]
    if None in types:
        raise bad(f"bad type list {side}")
    return types
