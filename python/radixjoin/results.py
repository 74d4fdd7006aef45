"""What the program writes of a join: as rows, as a frame, or in a file."""
from __future__ import annotations

import contextlib
import os
import uuid
from itertools import chain
from typing import Any, Iterable, Iterator, List, Optional, Sequence

from . import text
from .arguments import Path
from .asking import Asked
from .clauses import Places, needs_names, partners, result_places
from .columns import Column
from .faults import DeviceFault
from .given_rows import RowsTable
from .process import Run
from .rows import Rows
from .taking import Written, frame_of_rows, merged, rows_and_arrays

# How many bytes of the program's are looked at together.
_BLOCK = 1 << 20


class _Result:
    """What the program writes, behind its header."""

    def __init__(self, asked: Asked) -> None:
        self.asked = asked
        left, right = ([Column(None, word) for word in it.words()] if not _has_names(asked, it.is_written) else it.columns() for it in asked.tables)
        once = partners(asked.clause, [str(it.name) for it in left], [str(it.name) for it in right])
        self.written = Written(asked.tables, once, asked.which_written(), asked.nulls.out)
        self.places = result_places(once, len(left), len(right), self.written.which)
        self.columns = [_column(left, right, it) for it in self.places]
        self.run = asked.run()
        try:
            pieces = _whole(self.run)
            self.names, rest = text.split_header(next(pieces))
            if len(self.columns) != len(self.names):
                raise RuntimeError(f"radixjoin wrote {len(self.names)} columns, and not {len(self.columns)}")
        except BaseException:
            self.run.close()
            raise
        self.pieces: Iterable[bytes] = chain([rest] if rest else [], pieces)

    def fields(self) -> Iterator[List[str]]:
        """The fields of the rows, some at a time."""
        for piece in self.pieces:
            yield text.fields_in(piece.decode())


def _has_names(asked: Asked, is_written: bool) -> bool:
    """Whether a table's names are known, or have to be: of a file they are read where the clause asks for them."""
    return is_written or needs_names(asked.clause)


def _column(left: Sequence[Column], right: Sequence[Column], place: Places) -> Column:
    """The column of the result that comes from some places."""
    i, j = place
    if i is not None and j is not None:
        return left[i].coalesced(right[j])
    return left[i] if i is not None else right[j or 0]


def _whole(run: Run) -> Iterator[bytes]:
    """What the program writes, in pieces of whole records. The last piece is given once the program has ended without a fault: one
    that was broken off may have ended in the middle of a record."""
    last = b""
    for piece in text.pieces(run.stdout, _BLOCK):
        if last:
            yield last
        last = piece
    run.end()
    if not last:
        raise RuntimeError("radixjoin wrote nothing")
    yield last


def rows_of(asked: Asked) -> Rows:
    """The result as rows, which are read as they are asked for. A fault is raised before the first row is given, unless the program tells
    it when it has written some."""
    result = _Result(asked)
    try:
        names = suffixed(result.names, result.places, asked.arguments.suffixes)
        are_mappings = [it.are_mappings for it in asked.tables if isinstance(it, RowsTable)]
        are_dicts = bool(are_mappings) and all(are_mappings)
        if are_dicts and len(set(names)) < len(names):
            twice = next(name for at, name in enumerate(names) if name in names[:at])
            how = "join by using=, say repeated='qualify', rename one, or give sequences with columns="
            raise ValueError(f"the result has two columns {twice!r}, and a dict one: {how}")
        return Rows(names, result.columns, result.fields(), asked.nulls.out, are_dicts, result.run.close)
    except BaseException:
        result.run.close()
        raise


def frame_of(asked: Asked) -> Any:
    """The result as a frame."""
    names = [it.names() if _has_names(asked, it.is_written) else [""] * len(it.words()) for it in asked.tables]
    places = result_places(partners(asked.clause, names[0], names[1]), len(names[0]), len(names[1]), asked.arguments.which)
    header = asked.header() if asked.arguments.repeated not in (None, "keep") else []
    result = _Result(asked)
    try:
        named = dict(zip(result.written.origins(), result.names))
        header = header or [named[it] if it in named else _name(names, it) for it in places]
        rows, arrays = rows_and_arrays(result.written, places, result.columns, result)
        frame = frame_of_rows(result.written, places, rows, arrays)
        frame.columns = suffixed(header, places, asked.arguments.suffixes)
    finally:
        result.run.close()
    if asked.arguments.indicator:
        name = "_merge" if asked.arguments.indicator is True else asked.arguments.indicator
        if name in header:
            raise ValueError(f"indicator={name!r} is the name of a column of the result")
        frame[name] = merged(rows)
    return frame


def _name(names: Sequence[Sequence[str]], place: Places) -> str:
    """The name of the column of one table or of both."""
    return names[0][place[0]] if place[0] is not None else names[1][place[1] or 0]


def suffixed(names: Sequence[str], places: Sequence[Places], suffixes: Optional[Sequence[Optional[str]]]) -> List[str]:
    """The names of a result's columns, those that a column of each table has with the suffix of its table."""
    if suffixes is None:
        return list(names)
    sides = [{name for name, place in zip(names, places) if place[1 - at] is None} for at in (0, 1)]
    both = sides[0] & sides[1]
    of_side = [suffixes[0] or "", suffixes[1] or ""]
    made = [name + of_side[0 if place[1] is None else 1] if name in both and None in place else name for name, place in zip(names, places)]
    twice = next((name for at, name in enumerate(made) if name in made[:at]), None)
    if both and twice is not None:
        raise ValueError(f"with suffixes={tuple(suffixes)!r} the result has two columns {twice!r}")
    return made


def to_file(asked: Asked, output: Path) -> Path:
    """Writes the result to a path: by a new file beside it that takes its place at the end; what is no regular file, as a
    pipe, is written as it is. It gives the path."""
    name = os.fsdecode(output)
    # (asked of the name itself, since the pipe behind /dev/stdout has no path)
    is_other, path = os.path.exists(name) and not os.path.isfile(name), os.path.realpath(name)
    new = name if is_other else os.path.join(os.path.dirname(path), f".{os.path.basename(path)[:50]}.{uuid.uuid4().hex}")
    try:
        with _told_as_fault(output):
            file = open(new, "wb" if is_other else "xb")
        with file:
            run = asked.run(file)
            try:
                run.end()
            finally:
                run.close()
            if not is_other:
                with _told_as_fault(output):
                    os.fsync(file.fileno())
                    os.replace(new, path)
    finally:
        asked.close()
        with contextlib.suppress(FileNotFoundError):
            if not is_other:
                os.remove(new)
    return output


@contextlib.contextmanager
def _told_as_fault(output: Path) -> Iterator[None]:
    """Tells what the system refuses in the block as the fault of a result that can't be written."""
    try:
        yield
    except OSError as error:
        raise DeviceFault("radixjoin: E20 WriteDevice", 6, f"  {os.fsdecode(output)}: {error.strerror}") from error
