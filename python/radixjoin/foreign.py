"""Frames of other libraries than pandas: those that give themselves by `__arrow_c_stream__` or by `__dataframe__`.

The first is taken where pyarrow is there, with the types that it has; the second by pandas' own reading of the protocol. A result is given
back by the library of what came in, which is asked for its `from_arrow` or `from_dataframe`.
"""
from __future__ import annotations

import importlib
import sys
from typing import Any, Callable, Optional, Tuple

from .frames import is_frame

# The kinds of columns of `__dataframe__` that pandas gives other cells where there are nulls.
_INT, _UINT, _BOOL = 0, 1, 20
# Below this each whole number is a float of its own.
_EXACT = 2**53


def is_foreign(table: Any) -> bool:
    """Whether a table is a frame of another library."""
    return not is_frame(table) and (hasattr(table, "__arrow_c_stream__") or hasattr(table, "__dataframe__"))


def as_pandas(left: Any, right: Any) -> Tuple[Any, Any, Callable[[Any], Any]]:
    """The two tables, frames of other libraries as pandas' ones, and what makes a result of the kind of the first frame that came in."""
    back = next((_back(it) for it in (left, right) if is_foreign(it) or is_frame(it)), _same)
    left, right = (_frame_of(side, it) if is_foreign(it) else it for side, it in (("left", left), ("right", right)))
    return left, right, back


def _same(result: Any) -> Any:
    return result


def _pyarrow(table: Any) -> Optional[Any]:
    """The library pyarrow, where it is there and a table can be given to it."""
    if hasattr(table, "__arrow_c_stream__"):
        try:
            return importlib.import_module("pyarrow")
        except ImportError:
            pass
    return None


def _frame_of(side: str, table: Any) -> Any:
    import pandas

    pyarrow = _pyarrow(table)
    if pyarrow is not None:
        return pyarrow.table(table).to_pandas(types_mapper=pandas.ArrowDtype)
    if not hasattr(table, "__dataframe__"):
        raise TypeError(f"{side} is {type(table).__module__}.{type(table).__qualname__}, which is taken where pyarrow is installed")
    frame, columns = pandas.api.interchange.from_dataframe(table), table.__dataframe__()
    for name in columns.column_names():
        frame[name] = _exact(f"{side} column {name!r}", columns.get_column_by_name(name), frame[name])
    return frame


def _exact(where: str, column: Any, series: Any) -> Any:
    """A column as pandas read it of `__dataframe__`: whole numbers with nulls, of which it makes floats, are whole numbers again."""
    kind, has_nulls = column.dtype[0], column.describe_null[0] != 0 and column.null_count != 0
    if kind in (_INT, _UINT) and series.dtype.kind == "f":
        if series.abs().max() < _EXACT or series.isna().all():
            return series.astype("Int64")
    elif not (kind == _BOOL and has_nulls):
        return series
    raise TypeError(f"{where} has nulls, with which pandas doesn't read its cells exactly: install pyarrow, or fill them")


def _back(table: Any) -> Callable[[Any], Any]:
    """What makes a frame of a table's own library of a pandas' one."""
    if is_frame(table):
        return _same
    pyarrow, library = _pyarrow(table), sys.modules[type(table).__module__.partition(".")[0]]
    if pyarrow is not None:
        made, arrow = getattr(library, "from_arrow", _same), pyarrow.Table
        return lambda frame: made(arrow.from_pandas(frame, preserve_index=False))
    from_dataframe: Callable[[Any], Any] = getattr(library, "from_dataframe", _same)
    return from_dataframe
