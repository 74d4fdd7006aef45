"""The records of a text by RFC 4180's grammar, or where it stops being of it: "Reading strictly" of docs/user/specification.md.

Each field is found by one expression, so that nothing here goes over a text byte by byte as a machine."""
import functools
import re

from .faults import Fault
from . import reading

ESCAPED = re.compile(rb'"(?:[^"]|"")*+"')
LINE_END = re.compile(rb"\r?\n")


class Broken(Exception):
    """The text isn't of the grammar: the fault's number and name, the row, and the column where it has one."""

    def __init__(self, number, name, row, column=None):
        super().__init__(name)
        self.number = number
        self.name = name
        self.row = row
        self.column = column

    def told(self, side):
        column = [] if self.column is None else ["column", self.column]
        return Fault(self.number, self.name, side, "row", self.row, *column)


@functools.cache
def bare(delimiter):
    """The expression of a field without quotes: any TEXTDATA."""
    return re.compile(b'[^"\r\n' + re.escape(delimiter) + b"]*")


def field_at(text, at, row, column, delimiter):
    """The value of the field at a place, whether it is escaped, and the place behind it."""
    if text[at : at + 1] == b'"':
        found = ESCAPED.match(text, at)
        if not found:
            raise Broken(21, "OpenQuote", row, column)
        behind = text[found.end() : found.end() + 1]
        if behind not in (b"", delimiter, b"\r", b"\n"):
            raise Broken(22, "AfterQuote", row, column)
        return found[0][1:-1].replace(b'""', b'"'), True, found.end()
    found = bare(delimiter).match(text, at)
    if text[found.end() : found.end() + 1] == b'"':
        raise Broken(23, "BareQuote", row, column)
    return found[0], False, found.end()


def record_at(text, at, row, delimiter):
    """The fields of the record at a place, whether it is an empty line, the place behind its last field, and that behind its
    line end, which is None where it has none."""
    fields = []
    while True:
        value, is_escaped, at = field_at(text, at, row, len(fields) + 1, delimiter)
        fields.append(value)
        if text[at : at + 1] == delimiter:
            at += 1
            continue
        is_empty = len(fields) == 1 and not value and not is_escaped
        end = LINE_END.match(text, at)
        if end:
            return fields, is_empty, at, end.end()
        if at < len(text):
            raise Broken(24, "BareReturn", row, len(fields))
        return fields, is_empty, at, None


def records(text, full, delimiter=reading.COMMA):
    """The records one by one, the header first; a Broken where the text stops being of the grammar, in which COMMA is this delimiter."""
    at, row, names = 0, 0, None
    while at < len(text):
        fields, is_empty, _, behind = record_at(text, at, row, delimiter)
        if is_empty and names is not None and names > 1:
            raise Broken(25, "EmptyLine", row)
        if behind is None and full:
            raise Broken(26, "CutShort", row)
        yield fields
        names = len(fields) if names is None else names
        if behind is None:
            return
        at, row = behind, row + 1


def read(content, types, nulls, side, full, delimiter=reading.COMMA):
    """The table of a file's bytes read strictly, or its first fault."""
    found = records(reading.without_mark(content), full, delimiter)
    try:
        header = next(found, None)
        if header is None:
            raise Fault(1, "NoHeader", side)
        reading.check_header(header, types, side)
        rows = [reading.read_row(record, types, nulls, side, row) for row, record in enumerate(found, 1)]
    except Broken as broken:
        raise broken.told(side) from None
    return reading.Table(header, types, rows)
