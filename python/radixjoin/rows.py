"""Results as rows."""
from __future__ import annotations

import threading
from itertools import chain, repeat
from typing import Any, Callable, Dict, Iterable, Iterator, List, Optional, Sequence, Tuple, Union

from .columns import Column, reader_of

Row = Union[Tuple[Any, ...], Dict[str, Any]]


def _made(readers: Sequence[Callable[[List[str]], List[Any]]], pieces: Iterator[List[str]], keys: Optional[Sequence[str]]) -> Iterator[Iterable[Row]]:
    """The rows of a result's fields, some at a time: dicts where there are keys, else tuples."""
    width = len(readers)
    # (a loop over rows in Python takes twice the time)
    paired: Any = zip
    as_dict: Any = dict
    for fields in pieces:
        rows = zip(*(read(fields[at::width]) for at, read in enumerate(readers)))
        yield rows if keys is None else map(as_dict, map(paired, repeat(keys), rows))


class Rows(Iterator[Row]):
    """The rows of a joined table, each read as it is asked for: tuples, or dicts where the rows that were joined were mappings.

    A cell is an int, a str, a decimal.Decimal, or None. `columns` are the names and `types` the program's types. Where not all
    rows are read `close`, or the end of a `with` block, ends the program; so does the end of the iterator's own life. To ask for a
    row after that, or after an error, is an error too: the iteration has an end where the rows have theirs, and nowhere else.
    Threads may share it; each row is given to one of them.

    >>> with radixjoin.join([{"id": 1, "x": "a"}], [{"id": 1}, {"id": 1}], using="id") as rows:
    ...     rows.columns, rows.types, next(rows)
    (('id', 'x'), ('int', 'text'), {'id': 1, 'x': 'a'})
    """

    def __init__(
        self, names: Sequence[str], columns: Sequence[Column], pieces: Iterator[List[str]], null: str, are_dicts: bool, close: Callable[[], None]
    ) -> None:
        self.columns = tuple(names)
        self.types = tuple(column.word for column in columns)
        self._close: Optional[Callable[[], None]] = close
        self._rows = chain.from_iterable(_made([reader_of(column, null) for column in columns], pieces, self.columns if are_dicts else None))
        self._one_at_a_time = threading.RLock()
        # Whether all rows were given, and what ended them before, if it was an error.
        self._are_all = False
        self._why = ""

    def __iter__(self) -> "Rows":
        return self

    def __next__(self) -> Row:
        """The next row.

        Raises:
            RuntimeError: the rows were closed before their end, in whichever thread; or the program was ended by a signal.
        """
        with self._one_at_a_time:
            if self._is_closed():
                raise self._closed()
            try:
                return next(self._rows)
            except StopIteration:
                self._are_all = True
                self.close()
                raise
            except BaseException as error:
                if self._is_closed() and isinstance(error, Exception):
                    # (by another thread, while this one read)
                    raise self._closed() from error
                self._why = self._why or f": {type(error).__name__}: {error}"
                self.close()
                raise

    def _is_closed(self) -> bool:
        """Whether the rows were closed before their end."""
        return self._close is None and not self._are_all

    def _closed(self) -> RuntimeError:
        """The error that there are no more rows, though these aren't all."""
        return RuntimeError(f"the rows of this join were closed before their end{self._why}")

    def close(self) -> None:
        """Ends the program, if it isn't at its end. Where not all rows were given it is an error to ask for one then."""
        close, self._close = self._close, None
        if close is not None:
            close()

    def __enter__(self) -> "Rows":
        return self

    def __exit__(self, *_: Any) -> None:
        self.close()

    def __del__(self) -> None:
        if getattr(self, "_close", None) is not None:
            self.close()
