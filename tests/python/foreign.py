"""Frames of other libraries: small stand-ins of the two protocols, which are taken where their library is there, and given back as what came in."""
import sys
import types

import pandas
import telling

import radixjoin

LEFT = pandas.DataFrame({"id": [1, 2, 3], "x": [1.5, float("nan"), 0.1]})
RIGHT = pandas.DataFrame({"id": [2, 4], "y": ["a", "b"]})


class Interchanged:
    """A frame that gives itself as `__dataframe__`."""

    def __init__(self, frame):
        self.frame = frame

    def __dataframe__(self, nan_as_null=False, allow_copy=True):
        return self.frame.__dataframe__(nan_as_null, allow_copy)


class Masked:
    """A column whose nulls are said by another column, as libraries have them that need no dtype for that."""

    null_count, describe_null = 1, (4, 0)

    def __init__(self, column, are_valid):
        self.column = column
        self.are_valid = are_valid

    def __getattr__(self, name):
        return getattr(self.column, name)

    def get_buffers(self):
        return {**self.column.get_buffers(), "validity": self.are_valid.get_buffers()["data"]}


class Nulls(Interchanged):
    """A frame whose column `n` is null where its column `is_valid` isn't true."""

    def __dataframe__(self, nan_as_null=False, allow_copy=True):
        given = super().__dataframe__(nan_as_null, allow_copy)
        of = given.get_column_by_name
        given.get_column_by_name = lambda name: Masked(of("n"), of("is_valid")) if name == "n" else of(name)
        return given


class Streamed:
    """A frame that gives itself as a stream of Arrow's."""

    def __init__(self, frame):
        self.frame = frame

    def __arrow_c_stream__(self, requested_schema=None):
        return self.frame


class Table(Streamed):
    """What stands for pyarrow's table."""

    def to_pandas(self, types_mapper):
        assert types_mapper is pandas.ArrowDtype
        return self.frame

    @classmethod
    def from_pandas(cls, frame, preserve_index):
        assert not preserve_index
        return cls(frame)


def library(name, **what):
    """A library of this name, and these classes as its own."""
    made = types.ModuleType(name)
    for key, value in what.items():
        setattr(made, key, value)
        if isinstance(value, type):
            value.__module__ = name
    sys.modules[name] = made


def kinds():
    """What is given back, by the left table, or by the right one where the left one is no frame."""
    wanted = radixjoin.join(LEFT, RIGHT, using="id", how="outer")
    library("interchanging", Interchanged=Interchanged, Nulls=Nulls, from_dataframe=Interchanged)
    library("streaming", Streamed=Streamed, from_arrow=lambda table: Streamed(table.frame))
    library("pyarrow", Table=Table, table=lambda table: Table(table.__arrow_c_stream__()))
    cases = (
        (Interchanged(LEFT), Interchanged(RIGHT), Interchanged),
        (Interchanged(LEFT), RIGHT, Interchanged),
        (LEFT, Interchanged(RIGHT), pandas.DataFrame),
        (Streamed(LEFT), Streamed(RIGHT), Streamed),
        (Streamed(LEFT), Interchanged(RIGHT), Streamed),
        (Table(LEFT), RIGHT, Table),
    )
    for left, right, kind in cases:
        got = radixjoin.join(left, right, using="id", how="outer")
        title = f"{type(left).__name__} and {type(right).__name__}"
        yield from telling.differs(title, type(got), kind)
        frame = got if kind is pandas.DataFrame else got.frame
        yield from telling.differs(f"{title}: cells", (list(frame.columns), repr(frame.values.tolist())), (list(wanted.columns), repr(wanted.values.tolist())))
        yield from telling.differs(f"{title}: counts", radixjoin.stats(left, right, using="id").pairs, 1)
    got = radixjoin.join([(2,)], Streamed(LEFT), using="id", left_columns=["id"])
    yield from telling.differs("rows and a frame", (type(got), len(got.frame)), (Streamed, 1))


def without_pyarrow():
    """A stream alone is told to need pyarrow."""
    sys.modules["pyarrow"] = None
    error = telling.raised(radixjoin.join, Streamed(LEFT), RIGHT, using="id")
    yield from [] if isinstance(error, TypeError) and "left is streaming.Streamed" in str(error) and "pyarrow" in str(error) else [repr(error)]
    del sys.modules["pyarrow"]


def nulls():
    """pandas' reading of the protocol makes floats of whole numbers with nulls, and false of truth values: none is changed without a word."""
    frame = pandas.DataFrame({"id": [1, 2], "n": [7, 5], "is_valid": [False, True]})
    got = radixjoin.join(Nulls(frame), RIGHT, using="id", how="left").frame
    yield from telling.differs("whole numbers", (str(got["n"].dtype), got["n"].to_list()), ("Int64", [5, pandas.NA]))
    got = radixjoin.join(Nulls(frame.assign(is_valid=False)), RIGHT, using="id", how="left").frame
    yield from telling.differs("nulls alone", (str(got["n"].dtype), got["n"].isna().sum()), ("Int64", 2))
    for cells in ([1, 2**53], [1, -(2**53) - 1], [True, True]):
        error = telling.raised(radixjoin.join, Nulls(frame.assign(n=cells)), RIGHT, using="id", how="left")
        yield from [] if isinstance(error, TypeError) and "left column 'n'" in str(error) and "pyarrow" in str(error) else [f"{cells}: {error!r}"]
    got = radixjoin.join(Interchanged(frame.assign(n=[True, False])), RIGHT, using="id").frame
    yield from telling.differs("truth values without nulls", (str(got["n"].dtype), got["n"].to_list()), ("bool", [False]))


if __name__ == "__main__":
    for test in (kinds, without_pyarrow, nulls):
        telling.attempt(f"frames of other libraries: {test.__name__.replace('_', ' ')}", test)
