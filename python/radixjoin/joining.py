"""`join` and `stats`."""
from __future__ import annotations

import re
import subprocess
from dataclasses import dataclass
from typing import Any, Iterable, Literal, Mapping, Optional, Protocol, Sequence, Tuple, TypeVar, Union, overload

from .arguments import Names, Path, Program, arguments_of
from .asking import Asked, are_rows
from .clauses import needs_names
from .columns import Types
from .foreign import as_pandas
from .nulls import Texts
from .outputs import refuse_input
from .results import frame_of, rows_of, to_file
from .rows import Rows
from .text import Readable

How = Literal["inner", "left", "right", "outer", "full", "cross", "semi", "anti"]
Which = Optional[Literal["all", "left", "right"]]
Order = Optional[Literal["pairs", "left"]]
Expect = Optional[Literal["one-to-one", "one-to-many", "many-to-one"]]
Validate = Optional[Literal["one_to_one", "1:1", "one_to_many", "1:m", "many_to_one", "m:1", "many_to_many", "m:m"]]
Strict = Literal[True, False, "full"]
Hash = Optional[Literal["plain", "mixed"]]
Table = Union[Path, Readable, Iterable[Mapping[str, Any]], Iterable[Sequence[Any]]]
PathT = TypeVar("PathT", bound=Path)


class _OfPandas(Protocol):
    """A frame of pandas, or one that gives itself as `__dataframe__`."""

    def __dataframe__(self, nan_as_null: bool = False, allow_copy: bool = True) -> Any: ...


class _OfArrow(Protocol):
    """A frame that gives itself as a stream of Arrow's."""

    def __arrow_c_stream__(self, requested_schema: Optional[object] = None) -> object: ...


FrameT = TypeVar("FrameT", bound=Union[_OfPandas, _OfArrow])


@dataclass(frozen=True)
class Stats:
    """What `--stats` tells: the rows that were delivered to each partition, left and right, and how many rows there are of each
    kind; `pieces` where that option was given; and with `report=True` the lines of `--report`, without the last line end."""

    partitions: Tuple[Tuple[int, int], ...]
    pairs: int
    lone_left: int
    lone_right: int
    pieces: Optional[int] = None
    report: Optional[str] = None

    @property
    def rows(self) -> int:
        """The rows of the joined table."""
        return self.pairs + self.lone_left + self.lone_right


@overload
def join(
    left: FrameT, right: Any, clause: Optional[str] = None, *, using: Names = None, on: Optional[str] = None, left_on: Names = None, right_on: Names = None, natural: bool = False, how: How = "inner",
    left_types: Types = None, right_types: Types = None, columns: Union[Which, Sequence[str], Tuple[Sequence[str], Sequence[str]]] = None,
    left_columns: Optional[Sequence[str]] = None, right_columns: Optional[Sequence[str]] = None, rows: Optional[str] = None, order: Order = None,
    repeated: Optional[str] = None, suffixes: Optional[Tuple[Optional[str], Optional[str]]] = None, indicator: Union[bool, str] = False,
    expect: Expect = None, validate: Validate = None, max_rows: Optional[int] = None, null: Optional[str] = None, left_null: Texts = None, right_null: Texts = None,
    out_null: Optional[str] = None, delimiter: Optional[str] = None, left_delimiter: Optional[str] = None, right_delimiter: Optional[str] = None,
    out_delimiter: Optional[str] = None, strict: Strict = True, explain: bool = True, output: None = None, program: Optional[Program] = None, workers: Optional[int] = None, hash: Hash = None,
    bits1: Optional[int] = None, bits2: Optional[int] = None, piece: Optional[int] = None, block: Optional[int] = None, capacity: Optional[int] = None,
    lanes: Optional[int] = None, retries: Optional[int] = None,
) -> FrameT: ...


@overload
def join(
    left: Any, right: FrameT, clause: Optional[str] = None, *, using: Names = None, on: Optional[str] = None, left_on: Names = None, right_on: Names = None, natural: bool = False, how: How = "inner",
    left_types: Types = None, right_types: Types = None, columns: Union[Which, Sequence[str], Tuple[Sequence[str], Sequence[str]]] = None,
    left_columns: Optional[Sequence[str]] = None, right_columns: Optional[Sequence[str]] = None, rows: Optional[str] = None, order: Order = None,
    repeated: Optional[str] = None, suffixes: Optional[Tuple[Optional[str], Optional[str]]] = None, indicator: Union[bool, str] = False,
    expect: Expect = None, validate: Validate = None, max_rows: Optional[int] = None, null: Optional[str] = None, left_null: Texts = None, right_null: Texts = None,
    out_null: Optional[str] = None, delimiter: Optional[str] = None, left_delimiter: Optional[str] = None, right_delimiter: Optional[str] = None,
    out_delimiter: Optional[str] = None, strict: Strict = True, explain: bool = True, output: None = None, program: Optional[Program] = None, workers: Optional[int] = None, hash: Hash = None,
    bits1: Optional[int] = None, bits2: Optional[int] = None, piece: Optional[int] = None, block: Optional[int] = None, capacity: Optional[int] = None,
    lanes: Optional[int] = None, retries: Optional[int] = None,
) -> FrameT: ...


@overload
def join(
    left: Table, right: Table, clause: Optional[str] = None, *, using: Names = None, on: Optional[str] = None, left_on: Names = None, right_on: Names = None, natural: bool = False, how: How = "inner",
    left_types: Types = None, right_types: Types = None, columns: Union[Which, Sequence[str], Tuple[Sequence[str], Sequence[str]]] = None,
    left_columns: Optional[Sequence[str]] = None, right_columns: Optional[Sequence[str]] = None, rows: Optional[str] = None, order: Order = None,
    repeated: Optional[str] = None, suffixes: Optional[Tuple[Optional[str], Optional[str]]] = None, indicator: Union[bool, str] = False,
    expect: Expect = None, validate: Validate = None, max_rows: Optional[int] = None, null: Optional[str] = None, left_null: Texts = None, right_null: Texts = None,
    out_null: Optional[str] = None, delimiter: Optional[str] = None, left_delimiter: Optional[str] = None, right_delimiter: Optional[str] = None,
    out_delimiter: Optional[str] = None, strict: Strict = True, explain: bool = True, output: None = None, program: Optional[Program] = None, workers: Optional[int] = None, hash: Hash = None,
    bits1: Optional[int] = None, bits2: Optional[int] = None, piece: Optional[int] = None, block: Optional[int] = None, capacity: Optional[int] = None,
    lanes: Optional[int] = None, retries: Optional[int] = None,
) -> Rows: ...


@overload
def join(
    left: Any, right: Any, clause: Optional[str] = None, *, using: Names = None, on: Optional[str] = None, left_on: Names = None, right_on: Names = None, natural: bool = False, how: How = "inner",
    left_types: Types = None, right_types: Types = None, columns: Union[Which, Sequence[str], Tuple[Sequence[str], Sequence[str]]] = None,
    left_columns: Optional[Sequence[str]] = None, right_columns: Optional[Sequence[str]] = None, rows: Optional[str] = None, order: Order = None,
    repeated: Optional[str] = None, suffixes: Optional[Tuple[Optional[str], Optional[str]]] = None, indicator: Union[bool, str] = False,
    expect: Expect = None, validate: Validate = None, max_rows: Optional[int] = None, null: Optional[str] = None, left_null: Texts = None, right_null: Texts = None,
    out_null: Optional[str] = None, delimiter: Optional[str] = None, left_delimiter: Optional[str] = None, right_delimiter: Optional[str] = None,
    out_delimiter: Optional[str] = None, strict: Strict = True, explain: bool = True, output: PathT, program: Optional[Program] = None, workers: Optional[int] = None, hash: Hash = None,
    bits1: Optional[int] = None, bits2: Optional[int] = None, piece: Optional[int] = None, block: Optional[int] = None, capacity: Optional[int] = None,
    lanes: Optional[int] = None, retries: Optional[int] = None,
) -> PathT: ...


def join(left: Any, right: Any, clause: Optional[str] = None, **arguments: Any) -> Any:
    """Joins two tables as SQL-92 says, in the order that the program fixes: pairs by left, then right row, then the rows of
    either side that are in no pair; or, with `order="left"`, each left row at its place.

    >>> import pandas, radixjoin
    >>> people = pandas.DataFrame({"id": [1, 2], "height": [1.72, 1.81]})
    >>> cities = pandas.DataFrame({"id": [2, 2], "city": ["oslo", "bergen"]})
    >>> radixjoin.join(people, cities, using="id", how="left")
       id  height    city
    0   2    1.81    oslo
    1   2    1.81  bergen
    2   1    1.72    <NA>

    `left` and `right` are each a path, a file open for reading bytes, a pandas.DataFrame, a frame of another library (polars, pyarrow,
    duckdb), or rows: an iterable of mappings, or of sequences with `columns=` (a list for both sides, or a pair of lists; or
    `left_columns=`, `right_columns=`).

    What is joined is said by one of `using` (a name or names, which match exactly), `left_on` and `right_on` (as many names of each table),
    `on` (a condition, as `"L.id = R.id AND L.born < 1900"`), `natural=True`, `how="cross"` and `clause` (the whole clause, as
    `"LEFT JOIN USING (id)"`). `how` is `inner`, `left`, `right`, `outer` or `full`, or `semi` or `anti`, which keep the left rows that are in a
    pair, or in none.

    Types are those declared: a frame's dtypes, the classes of rows' cells, or `left_types` and `right_types`, which files need: a
    text as the program has it (`"int,num(9,2),text"`, `"id=int,*=text"`, or `"@FILE"`), a list, or a mapping by name, in which
    `*` stands for all other columns. Columns of a frame that the clause doesn't compare may have any dtype.

    It gives a frame where either side is one, of the kind of the first, with the dtypes that its columns had; else `Rows`, an iterator that
    reads the rows as they are asked for. With `output`, a path, the result is written there as CSV, whole or not at all, and the path
    given; a file that is one of the tables is refused (E29) before anything is read.

    `suffixes`, a pair, is added to names that both tables have, and `indicator=True` adds a column `_merge`, as pandas.merge does;
    `validate` says what `expect` does. `strict` has files read by RFC 4180's grammar alone. `null` is the text that stands for null in files,
    read and written (the empty field unless given); `left_null` and `right_null` are those of one table, a text or up to four, and
    `out_null` is the one that is written. `delimiter` is what stands between the fields of files, read and written: one ASCII character that
    is no letter, digit or double quote (a comma unless given), or "tab"; `left_delimiter`, `right_delimiter` and `out_delimiter` are those of
    one file. `program` is the path of the program. All other arguments are the program's own options, as
    `workers=4`, `rows="lone-left"`, `columns="left"`, `repeated="_right"` or `expect="many-to-one"`.

    Raises:
        Fault: the program told a fault; a subclass for each exit status. `explain=False` leaves out the lines below the first.
        TypeError: there is no such argument, or a column that is compared has a dtype, or cells, that no type is declared for.
        ValueError: arguments that don't go together, or cells that no type has room for.
        NotImplementedError: an option that the program at hand hasn't.
        ProgramNotFound: there is no program.
    """
    asked = arguments_of("join", clause, arguments, are_rows(left) or are_rows(right))
    if asked.output is not None:
        refuse_input(asked.output, left, right)
    left, right, back = as_pandas(left, right)
    made = Asked(left, right, asked)
    return back(_read(made)) if asked.output is None else to_file(made, asked.output)


def stats(left: Any, right: Any, clause: Optional[str] = None, **arguments: Any) -> Stats:
    """Joins as `join` does, with the same arguments but those of the result (`output`, `suffixes`, `indicator`), and gives the program's
    statistics in place of the rows; with `report=True` its report too.

    >>> counts = radixjoin.stats([{"id": 1}, {"id": 2}], [{"id": 2}, {"id": 2}], using="id", how="left")
    >>> counts.pairs, counts.lone_left, counts.rows
    (2, 1, 3)
    """
    asked = arguments_of("stats", clause, arguments, are_rows(left) or are_rows(right))
    left, right, _ = as_pandas(left, right)
    made = Asked(left, right, asked)
    with made.told_of_frames():
        run = made.run(subprocess.DEVNULL, ["--stats"])
        try:
            return _stats_in(run.end())
        finally:
            run.close()


def _stats_in(told: str) -> Stats:
    """The statistics that the program told."""
    partitions = re.findall(r"^partition \d+ left (\d+) right (\d+)$", told, re.MULTILINE)
    kinds = re.search(r"^pairs (\d+) lone-left (\d+) lone-right (\d+)$", told, re.MULTILINE)
    pieces = re.search(r"^pieces (\d+)$", told, re.MULTILINE)
    # (behind the report a line may tell of rows that the join doesn't keep)
    report = re.search(r"^rows left .*?(?=\n(?:radixjoin: |\Z))", told, re.MULTILINE | re.DOTALL)
    if kinds is None:
        raise RuntimeError("radixjoin told no statistics")
    pairs, lone_left, lone_right = map(int, kinds.groups())
    of_partitions = tuple((int(left), int(right)) for left, right in partitions)
    return Stats(of_partitions, pairs, lone_left, lone_right, int(pieces[1]) if pieces else None, report[0] if report else None)


def _read(asked: Asked) -> Any:
    """The result, as a frame or as rows."""
    try:
        for table in asked.tables:
            if needs_names(asked.clause) or table.needs_names():
                # (before the program takes what can be read only once)
                table.columns()
        if not asked.makes_frame():
            return rows_of(asked)
        with asked.told_of_frames():
            return frame_of(asked)
    except BaseException:
        asked.close()
        raise
