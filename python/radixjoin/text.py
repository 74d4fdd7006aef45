"""CSV text: written for the program by RFC 4180's grammar, and what the program wrote read back, exactly.

Python's own `csv` isn't used for either: it refuses NUL before Python 3.11, and what the program writes needs no more than this.
"""
from __future__ import annotations

import csv
import io
import os
import re
from typing import Iterable, Iterator, List, Protocol, Sequence, Tuple

from .ending import go_on

# Stands for a null in a text that is to be written, until the null text is known: a lone surrogate, which no text has in UTF-8.
NULL = "\udfff"
_NULL = NULL.encode("utf-8", "surrogatepass")
_SPECIAL = re.compile('[,"\r\n]')
_SURROGATE = re.compile("[\ud800-\udfff]")
# (each run of other letters ends at a quote, so that a text without a last quote is seen to be none in one pass)
_QUOTED = re.compile('"([^"]*(?:""[^"]*)*)"')
_BLOCK = 1 << 22
_HEADER = 1 << 20
# How many bytes are looked at at once from the end of a file on.
_LAST = 1 << 16
# The bytes that are neither quotes nor line feeds.
_NO_ENDS = bytes(set(range(256)) - set(b'"\n'))


def _quoted(text: str) -> str:
    return '"' + text.replace('"', '""') + '"'


def _is_unicode(text: str) -> bool:
    if text.isascii():
        return True
    try:
        text.encode()
    except UnicodeEncodeError:
        return False
    return True


def fields_of(cells: List[str]) -> List[str]:
    """The fields of texts, quoted where they have to be. A text with a lone surrogate, which has no form in UTF-8, gets one that
    isn't UTF-8 either, so that the program tells it."""
    whole = "".join(cells)
    if not _is_unicode(whole):
        cells = [_SURROGATE.sub("\ud800", cell) for cell in cells]
    if _SPECIAL.search(whole):
        cells = [_quoted(cell) if _SPECIAL.search(cell) else cell for cell in cells]
    return cells


def header(names: Sequence[str], delimiter: str = ",") -> bytes:
    """A header. Each name is quoted: so one that begins with a byte order mark keeps it."""
    return encoded([delimiter.join(_quoted(_SURROGATE.sub("\ud800", name)) for name in names)])


def records(columns: Sequence[Sequence[str]]) -> List[str]:
    """The records of some rows, whose fields stand column by column."""
    if len(columns) == 1:
        return [field or '""' for field in columns[0]]
    return list(map(",".join, zip(*columns)))


def encoded(lines: List[str]) -> bytes:
    """Records as bytes, each ended by a line feed. A null is still none in UTF-8."""
    return ("\n".join(lines) + "\n").encode("utf-8", "surrogatepass") if lines else b""


def with_nulls(text: bytes, null: str, is_alone: bool) -> bytes:
    """Encoded records with the null text in the place of nulls. In a table of one column an empty field has to be quoted."""
    return text.replace(_NULL, b'""' if is_alone and not null else null.encode("utf-8", "surrogatepass"))


def header_in(text: bytes, delimiter: str = ",") -> List[str]:
    """The names of a file's first record, of its first bytes, with this delimiter; none where they can't be read, or the program would
    refuse it."""
    if len(delimiter) != 1 or not delimiter.isascii() or delimiter.isalnum() or delimiter in '"\r\n':
        return []
    try:
        lines = io.StringIO(text[:_HEADER].decode("utf-8-sig", "surrogateescape"), newline="")
        return next((record for record in csv.reader(lines, delimiter=delimiter) if record), [])
    except (csv.Error, UnicodeDecodeError):
        return []


def end_of_records(block: bytes) -> int:
    """Behind the last line feed of a block that ends a record: one with an even number of quotes before it. 0 if there is none."""
    if b'"' not in block:
        # (to look for a quote takes a small part of the time that it takes to count them)
        return block.rfind(b"\n") + 1
    quotes, upto = block.count(b'"'), len(block)
    while True:
        at = block.rfind(b"\n", 0, upto)
        if at < 0:
            return 0
        quotes -= block.count(b'"', at, upto)
        if quotes % 2 == 0:
            return at + 1
        upto = at


class Readable(Protocol):
    """What bytes are read from."""

    def read(self, size: int, /) -> bytes:
        """No more than so many of the next bytes; none at the end."""


def pieces(stream: Readable, size: int = _BLOCK) -> Iterator[bytes]:
    """What a stream gives to its end, in pieces of whole records, each of about so many bytes or of one record that is longer."""
    rest = b""
    while True:
        read = stream.read(max(size, len(rest)))
        if not read:
            break
        piece = rest + read if rest else read
        cut = end_of_records(piece)
        rest = piece[cut:]
        if cut:
            yield piece[:cut]
    if rest:
        yield rest


def end_of_record(piece: bytes, begin: int = 0) -> int:
    """Behind the line feed of the record that begins at a byte of some bytes; behind all of them where it has none."""
    end, quotes = begin, 0
    while True:
        at = piece.find(b"\n", end)
        if at < 0:
            return len(piece)
        quotes += piece.count(b'"', end, at)
        end = at + 1
        if quotes % 2 == 0:
            return end


def records_in(piece: bytes) -> int:
    """How many records a piece of whole records has, the last of which may lack its line feed."""
    ends = piece.count(b"\n")
    if b'"' in piece:
        # (two quotes with no line feed between them change nothing for the others)
        left = piece.translate(None, _NO_ENDS).replace(b'""', b"")
        ends = b"".join(left.split(b'"')[::2]).count(b"\n")
    return ends + (not piece.endswith(b"\n") and piece != b"")


def _ends_in(block: bytes, is_inside: bool) -> Tuple[int, bool]:
    """How many line feeds of a block end records, by whether an odd number of quotes stands behind the block; and whether one does behind
    the byte before it."""
    if b'"' not in block:
        return (0 if is_inside else block.count(b"\n")), is_inside
    # (two quotes with no line feed between them change nothing for the others)
    parts = block.translate(None, _NO_ENDS).replace(b'""', b"").split(b'"')[::-1]
    return b"".join(parts[is_inside::2]).count(b"\n"), is_inside == (len(parts) % 2 == 1)


def _behind_end(block: bytes, is_inside: bool, count: int) -> int:
    """Behind the line feed of a block that ends a record, of which so many are counted from the last one on; the block has it."""
    upto = len(block)
    while count:
        at = block.rfind(b"\n", 0, upto)
        is_inside ^= block.count(b'"', at, upto) % 2 == 1
        upto, count = at, count - (not is_inside)
    return upto + 1


def begin_of_last(number: int, begin: int, end: int, count: int) -> int:
    """The byte of an open file at which the last records begin, so many, of those that stand from one byte up to another one, each with its
    line feed. (A line feed ends a record where the number of quotes behind it is even.)"""
    is_inside = False
    while begin < end:
        go_on()
        at = max(begin, end - _LAST)
        block = os.pread(number, end - at, at)
        ends, was_inside = _ends_in(block, is_inside)
        if ends > count:
            return at + _behind_end(block, is_inside, count + 1)
        count, is_inside, end = count - ends, was_inside, at
    return begin


def _fields_in(record: str) -> List[str]:
    """The fields of a record."""
    found, at = [], 0
    while True:
        inside = _QUOTED.match(record, at)
        if inside:
            found.append(inside[1].replace('""', '"'))
            at = inside.end()
        else:
            comma = record.find(",", at)
            end = comma if comma >= 0 else len(record)
            found.append(record[at:end])
            at = end
        if at >= len(record):
            return found
        at += 1


def _whole(lines: Iterable[str]) -> Iterator[str]:
    """Records, of lines: one that ends inside quotes goes on with the next."""
    begun: List[str] = []
    quotes = 0
    for line in lines:
        quotes += line.count('"')
        begun.append(line)
        if quotes % 2 == 0:
            yield begun[0] if len(begun) == 1 else "\n".join(begun)
            begun, quotes = [], 0


def fields_in(block: str) -> List[str]:
    """The fields of a block of whole records, one after another."""
    block = block[:-1] if block.endswith("\n") else block
    if '"' not in block:
        return block.replace("\n", ",").split(",")
    found: List[str] = []
    for record in _whole(block.split("\n")):
        found += _fields_in(record) if '"' in record else record.split(",")
    return found


def split_header(piece: bytes) -> Tuple[List[str], bytes]:
    """The names of a first piece's header, and what follows it."""
    end = end_of_record(piece)
    return fields_in(piece[:end].decode()), piece[end:]
