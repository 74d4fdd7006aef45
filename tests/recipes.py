"""Runs each recipe of docs/user/recipes.md on files as other programs write them: with a byte order mark, with CRLF, and with cells that
have line breaks, or all of these. What docs/user/errors.md says of finding and mending is run on files of the first two kinds.

The examples are those of the pages; their files are changed as soon as they are there: those of examples/, and each that a line
`printf .. > NAME` makes. What is printed has to be what the page has, with the cells changed that were changed in a file.

usage: recipes.py WAY FILE NULL ..       changes a file, but for the texts NULL, and prints what was changed (the examples call it so)"""
import csv
import io
import pathlib
import re
import shlex
import sys

import harness
import pages

PAGES = ("docs/user/recipes.md", "docs/user/errors.md")
MARK = b"\xef\xbb\xbf"
# Of each way: whether files begin with a byte order mark, how lines end, and what is put behind each text.
WAYS = {
    "a byte order mark": (True, "\n", ""),
    "CRLF": (False, "\r\n", ""),
    "cells of several lines": (False, "\n", "\nx"),
    "carriage returns in cells": (False, "\n", "\rx"),
    "all of these": (True, "\r\n", "\n\rx"),
}
# The delimiters of the files, but for the comma.
SIGNS = ";\t"
# Where the texts that were changed are kept, in the folder of a session.
KEPT = ".changed"


def delimiter_of(header):
    """What separates the names of a header."""
    return next((sign for sign in SIGNS if sign in header), ",")


def nulls_of(section):
    """The texts that stand for null in a section's files."""
    return {"NULL", *re.findall(r"null[ =]'?([^'\s]+)", "\n".join(command for command, _ in section.commands))}


def with_longer_cells(text, way, nulls):
    """A text of CSV with its texts changed: those that begin with a letter, but for nulls and the header. Gives which they are, too.
    Lines that end in CRLF make Python's writer quote each cell that has a carriage return."""
    _, end, tail = WAYS[way]
    how = {"delimiter": delimiter_of(text.split("\n")[0])}
    header, *rows = csv.reader(io.StringIO(text, newline=""), **how)
    texts = {cell for row in rows for cell in row if re.match("[A-Za-z]", cell)} - set(nulls)
    made = io.StringIO(newline="")
    writer = csv.writer(made, lineterminator="\r\n", **how)
    writer.writerow(header)
    writer.writerows([cell + tail if cell in texts else cell for cell in row] for row in rows)
    return re.sub(r'("[^"]*")|\r\n', lambda found: found[1] or end, made.getvalue()), texts


def change_file(file, way, nulls):
    """Changes a file in place, and gives the texts that were changed. Where its bytes aren't UTF-8 it gets no byte order mark."""
    has_mark, end, tail = WAYS[way]
    text = file.read_bytes().removeprefix(MARK).decode("latin-1")
    is_utf_8 = text.encode("latin-1").decode(errors="ignore").encode() == text.encode("latin-1")
    text, texts = with_longer_cells(text, way, nulls) if tail else (re.sub(r"\r?\n", end, text), set())
    file.write_bytes((MARK if has_mark and is_utf_8 else b"") + text.encode("latin-1"))
    return {text.encode("latin-1").decode() if is_utf_8 else text for text in texts}


def change(command, way, nulls):
    """A command that changes each file as soon as one of its lines has made it."""

    def changed(made):
        return f"{made[0]}\n{shlex.join([sys.executable, __file__, way, made[1], *sorted(nulls)])} >> {KEPT}"

    return re.sub(r"^printf '.*' > (\w+\.[ct]sv)$", changed, command, flags=re.MULTILINE)


def records(lines):
    """The records that printed lines hold."""
    text = "".join(f"{line}\n" for line in lines)
    return list(csv.reader(io.StringIO(text, newline=""), delimiter=delimiter_of(text.split("\n")[0])))


def wanted_records(lines, command, way, texts):
    """The records that a command has to print: those of the page, changed. The column `key` has blanks for line breaks, and `tr` takes
    carriage returns away."""
    header, *rows = records(lines) or [[]]
    tail = WAYS[way][2].replace("\r", "" if r"tr -d '\r'" in command else "\r")
    tails = [" x" if name == "key" else tail for name in header]
    return [header, *([cell + end if cell in texts else cell for cell, end in zip(row, [*tails, *[tail] * len(row)])] for row in rows)] if lines else []


def faults_of(section, way, folder, environment):
    """Runs a section's commands on changed files, and says which doesn't print what it has to."""
    nulls = nulls_of(section)
    texts = set().union(*(change_file(file, way, nulls) for file in (folder / "examples").glob("*.csv")))
    (folder / KEPT).touch()
    commands = [(change(command, way, nulls), wanted) for command, wanted in section.commands]
    printed = pages.printed_by(commands, folder, environment)
    texts |= set(filter(None, (folder / KEPT).read_text(encoding="utf-8").splitlines()))
    for (command, wanted), got in zip(section.commands, printed):
        if WAYS[way][2]:
            told = wanted_records(wanted, command, way, texts)
            is_right = records(got) == told
        else:
            # A line of a file that is shown as it is ends as it ends there.
            told = wanted
            is_right = pages.is_printed(wanted, [line.removesuffix("\r") for line in got])
        if not is_right:
            yield f"$ {command}: {harness.shorten(got)}, and not {harness.shorten(told)}"


def ways_of(section):
    """The ways in which a section's files can be changed: cells are left as they are in a TSV file without quotes, which can't have line
    breaks, and in the files of docs/user/errors.md, which are broken."""
    keeps_cells = section.page != PAGES[0] or any("QUOTE_NONE" in command for command, _ in section.commands)
    return [way for way, (_, _, tail) in WAYS.items() if not (keeps_cells and tail)]


def check_section(section, tally):
    """A section in each way, or tells that it is skipped."""
    if pages.is_skipped(section, f"{section.page}, {section.title}, on changed files"):
        return
    for way in ways_of(section):
        with pages.place_for(section) as (folder, environment):
            tally.check(f"{section.page}, {section.title}, {way}", list(faults_of(section, way, folder, environment)))


def run_all(tally):
    """Each recipe in each way."""
    for page in PAGES:
        for section in pages.sections_of(page):
            if section.commands:
                check_section(section, tally)


if __name__ == "__main__":
    print(*change_file(pathlib.Path(sys.argv[2]), sys.argv[1], sys.argv[3:]), sep="\n")
