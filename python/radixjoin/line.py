"""The command line of a join in shards: its options, and what its words ask for."""
from __future__ import annotations

import argparse
from typing import List, NoReturn, Sequence, Tuple

from .lists import read_list
from .memory import size_in

SIDES = ("left", "right")
# The options that go to `radixjoin` alone, as they are.
OF_ONE_JOIN = ("workers", "bits1", "bits2", "hash", "block", "capacity", "lanes", "retries", "piece", "rows", "order")
# The options of `radixjoin` that a join in shards has no other value of than this one: the merge goes by the places of the rows of
# both sides, whose columns have to stand in the joined shards.
OF_WHOLE_TABLES = {"columns": "all"}
# The options that may be given again.
SEVERAL = ("--left-null", "--right-null")
# The most ranges of a merge.
MOST_MERGES = 1024
MOST_BYTES = 1 << 60
LIMITS = (("parts", 1, 1024), ("processes", 1, 1024), ("ranges", 1, 100_000), ("spread", 1, MOST_BYTES), ("merges", 1, MOST_MERGES), ("memory", 1, MOST_BYTES), ("address_space", 1, MOST_BYTES))
# Stands for the text `--` of an option while the line is read: no word of a command line has this letter.
DASHES = "\0"
ABOUT = """Joins two CSV files that may be larger than one machine's memory, on this machine or in the processes of a Dask cluster. The
bytes written are those that `radixjoin` would write.

Where --memory has room for both tables and the result, one run of `radixjoin` joins them. Where it has for the right table and a part of
the left one, so many runs join such a part each, on a cluster side by side. Otherwise they are joined in shards: both files are divided
by the hash of their rows' keys (the program `shards`, one task for each range of a file), the two parts of each shard are joined
(`radixjoin`, one task a shard, or several where it is too large), and what these joins give is merged (`merges`, one task for each range
of the joined table). With --parts, --spread, --ranges or --merges it is always done in shards.

What is half made is removed at the end, whether it is a good one or not. With --scheduler it needs Dask (Debian's python3-dask and
python3-distributed). docs/user/cluster.md says what of this is proved, and how to run it.
"""


class Parser(argparse.ArgumentParser):
    """What reads a command line. It tells a fault of it in one line."""

    def error(self, message: str) -> NoReturn:
        self.exit(2, f"{self.prog}: {message}\n")


def size(text: str) -> int:
    """The bytes that a word of the line tells."""
    try:
        return size_in(text)
    except ValueError as error:
        raise argparse.ArgumentTypeError(str(error)) from None


def parser() -> Parser:
    """What reads the command line, and has its help."""
    from . import __version__

    line = Parser(prog="radixjoin-cluster", description=ABOUT, formatter_class=argparse.RawDescriptionHelpFormatter, allow_abbrev=False)
    line.add_argument("-V", "--version", action="version", version=f"radixjoin-cluster {__version__}")
    for side in SIDES:
        line.add_argument(f"--{side}", required=True, metavar="FILE", help=f"CSV file of the {side} table, which every process can read")
    for side in SIDES:
        line.add_argument(f"--{side}-types", required=True, metavar="TYPES", help=f"types of the {side} columns, as 'int,num(9,2),text' or 'id=int,*=text', or @FILE that has them")
    line.add_argument("--join", required=True, metavar="CLAUSE", help="how to join, as 'LEFT JOIN USING (id)'; it needs a key")
    line.add_argument("--null", metavar="TEXT", help="text of a field that is null, read and written [default: an empty field]")
    for side in SIDES:
        line.add_argument(f"--{side}-null", action="append", metavar="TEXT", help=f"text of a {side} field that is null; up to four by giving it again [default: as --null]")
    line.add_argument("--out-null", metavar="TEXT", help="text that is written for null [default: as --null]")
    line.add_argument("-d", "--delimiter", metavar="CHAR", help="delimiter of both files and of the result, or tab [default: a comma]")
    for side in SIDES:
        line.add_argument(f"--{side}-delimiter", metavar="CHAR", help=f"delimiter of the {side} file [default: as --delimiter]")
    line.add_argument("--out-delimiter", metavar="CHAR", help="delimiter of the result [default: as --delimiter]")
    line.add_argument("--strict", nargs="?", const="on", choices=("on", "full"), help="refuse files that aren't of RFC 4180's grammar; full: also those whose last line has no end")
    line.add_argument("--output", "--out", dest="out", required=True, metavar="FILE", help="file of the joined table; it is there when the whole table is")
    line.add_argument("--memory", type=size, metavar="SIZE", help="bytes of memory to plan for, as 500M or 8G: on this machine of all programs together, on a cluster of those of each process [default: half of what is free]")
    line.add_argument("--parts", type=int, metavar="N", help="shards that the tables are divided into, 1 to 1024 [default: as many as --memory needs, 16 or more]")
    line.add_argument("--ranges", type=int, metavar="N", help="ranges of a file that are divided side by side [default: one for each task that is done at once]")
    line.add_argument("--spread", type=int, metavar="BYTES", help="bytes of both tables above which a shard is joined in pieces of no more [default: as --memory needs; with --parts twice the mean of all shards, no less than 16 MiB]")
    line.add_argument("--merges", type=int, metavar="N", help="ranges of the joined table, of about as many bytes each, that are merged side by side, 1 to 1024 [default: one for each task that is done at once, and no more than one for each 16 MiB]")
    line.add_argument("--scratch", metavar="FOLDER", help="folder for what is half made, which every process can write [default: that of --output]")
    line.add_argument("--programs", metavar="FOLDER", help="folder of radixjoin, shards and merges [default: that of the environment variable RADIXJOIN, this tree's, or those on the PATH]")
    line.add_argument("--address-space", type=size, metavar="SIZE", help="bytes of address space that each program may take, as 500M or 8G [default: no limit]")
    where = line.add_mutually_exclusive_group()
    where.add_argument("--scheduler", metavar="ADDRESS", help="scheduler of a Dask cluster, as tcp://node1:8786")
    where.add_argument("--processes", type=int, metavar="N", help="programs that run side by side on this machine, or threads of each run where tables fit [default: 1, and for such a run as many as there are processors]")
    line.add_argument("--progress", action="store_true", help="show on a terminal how the join is planned, which step is done, and how many of its tasks")
    line.add_argument("--explain", action="store_true", help="print after the line of an error where it is, and what is there")
    for option in OF_ONE_JOIN:
        line.add_argument(f"--{option}", metavar="X", help=f"as radixjoin's --{option}, for each join")
    for option in OF_WHOLE_TABLES:
        line.add_argument(f"--{option}", help=argparse.SUPPRESS)
    return line


def read_line(words: Sequence[str]) -> argparse.Namespace:
    """What the words of the command line ask for."""
    line = parser()
    asked = shown(line.parse_args(hidden(with_lists(words))))
    given = ["--delimiter" if word.startswith("-d") else word.partition("=")[0] for word in words if word.startswith(("--", "-d"))]
    for option in given:
        if given.count(option) > 1 and option not in SEVERAL:
            line.error(f"{option} can be given once")
    if {"--output", "--out"} <= set(given):
        line.error("--out is --output, which can be given once")
    for side in SIDES:
        if getattr(asked, side) == "-":
            line.error(f"--{side}: standard input can't be divided, give a file")
    if asked.out == "-":
        line.error("--output: the result can't be standard output, give a file")
    for name, least, most in beyond(asked):
        line.error(f"--{name.replace('_', '-')} is from {least} to {most}")
    for option, only in OF_WHOLE_TABLES.items():
        if getattr(asked, option) not in (None, only):
            line.error(f"--{option}: a join in shards writes all columns, so leave those out of the files that aren't wanted")
    if "matched-left" in (asked.rows or "").split(","):
        line.error("--rows: a join in shards has no matched-left, so join by USING with a right file of the keys alone, each once")
    return asked


def hidden(words: Sequence[str]) -> List[str]:
    """The words with each text `--` of an option, as in `--null=--`, in a form that argparse doesn't leave out."""
    return [f"{word[:-2]}{DASHES}" if word.startswith("--") and word.partition("=")[2] == "--" else word for word in words]


def shown(asked: argparse.Namespace) -> argparse.Namespace:
    """What is asked for with each such text as it was given."""
    for name, value in vars(asked).items():
        if isinstance(value, list):
            setattr(asked, name, ["--" if it == DASHES else it for it in value])
        elif value == DASHES:
            setattr(asked, name, "--")
    return asked


def with_lists(words: Sequence[str]) -> List[str]:
    """The words with each list of types that a file has in the place of `@FILE`, as `radixjoin` reads them."""
    sides = {f"--{side}-types": side for side in SIDES}
    read, side = [], None
    for word in words:
        option, has_file, file = word.partition("=@")
        if side is not None:
            read.append(read_list(word[1:], side) if word.startswith("@") else word)
        else:
            read.append(f"{option}={read_list(file, sides[option])}" if has_file and option in sides else word)
        side = sides.get(word)
    return read


def beyond(asked: argparse.Namespace) -> List[Tuple[str, int, int]]:
    """The numbers that are out of their limits, with these."""
    numbers = [(name, least, most, getattr(asked, name)) for name, least, most in LIMITS]
    return [(name, least, most) for name, least, most, number in numbers if number is not None and not least <= number <= most]
