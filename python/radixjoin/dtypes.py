"""The dtypes of frames' columns, and those of results. pandas is imported where a frame is there."""
from __future__ import annotations

from typing import TYPE_CHECKING, Any, List, Optional

if TYPE_CHECKING:
    from .columns import Column

# What a column that came from no frame gets in one, by its kind.
_OTHERS = {"int": "Int64", "text": "string", "num": "object"}
# What all cells of a column of objects may be, by the word that pandas has for it.
_OBJECTS = {"string": "text", "decimal": "num", "empty": "null", "integer": "int", "boolean": "bool", "date": "date"}
_TO_TEXTS = "texts, as by frame[column].astype('string')"
_TO_DECIMALS = "decimal.Decimal, as by frame[column].map(lambda cell: decimal.Decimal(str(cell)), na_action='ignore')"
_CONVERT = {
    "f": f"Int64 where it holds whole numbers, as by frame[column].astype('Int64'), else to {_TO_DECIMALS}",
    "O": "Int64, texts (str) or decimal.Decimal, one of them in all cells",
}


def kind_of_series(where: str, series: Any) -> str:
    """The kind of a column's cells, by its dtype; of objects, by all of them: `int`, `num`, `text`, `null` where there is none but nulls;
    `bool` and `date`; and of times their dtype, which has their unit. What can't be compared exactly is a TypeError."""
    import pandas

    dtype = series.dtype
    if isinstance(dtype, pandas.CategoricalDtype):
        if pandas.api.types.infer_dtype(dtype.categories, skipna=True) in ("string", "empty"):
            return "text"
        raise TypeError(f"{where} is a category of {dtype.categories.dtype}: convert it to {_CONVERT['O']}")
    if isinstance(dtype, pandas.StringDtype):
        return "text"
    if dtype.kind in ("iub" if hasattr(dtype, "pyarrow_dtype") else "iubmM"):
        return {"i": "int", "u": "int", "b": "bool"}.get(dtype.kind, str(dtype))
    if dtype.kind in "fc":
        raise TypeError(f"{where} is {dtype}: convert it to {_CONVERT['f']}")
    inferred = pandas.api.types.infer_dtype(series if dtype == object else series.astype(object), skipna=True)
    if inferred not in _OBJECTS:
        raise TypeError(f"{where} has {dtype if dtype != object else 'object'}s of type {inferred}: convert it to {_CONVERT['O']}")
    return _OBJECTS[inferred]


def refuse_without_text(where: str, kind: str) -> None:
    """Refuses a column whose cells have no text that a file could have."""
    if kind not in _OTHERS and kind != "null":
        whole = "Int64, or to " if kind == "bool" else ""
        raise TypeError(f"{where} is {kind}, of which a file has no cells: convert it to {whole}{_TO_TEXTS}")


def type_of_kind(kind: str) -> str:
    """The kind of cells by which the program knows those of a kind: all others are whole numbers."""
    return kind if kind in ("text", "num", "null") else "int"


def domain_of(kind: str) -> str:
    """With what cells of a kind are compared: nothing is said of numbers, texts and nulls, and all others with those of their kind alone."""
    return "" if kind in _OTHERS or kind == "null" else kind


def declared_series(series: Any, declared: Optional[str]) -> Any:
    """A column as its declared type says that it is, where its dtype doesn't: objects that are whole numbers, and nulls alone."""
    import pandas

    kind = "num" if (declared or "").startswith("num") else declared
    if kind not in _OTHERS or not (series.dtype == object or series.dtype.kind == "f"):
        return series
    inferred = pandas.api.types.infer_dtype(series, skipna=True) if series.dtype == object else "empty" if series.isna().all() else ""
    is_whole = inferred == "integer" and kind == "int" and series.dropna().between(-(2**63), 2**63 - 1).all()
    if not is_whole and inferred != "empty":
        return series
    return series.astype(series.dtype if kind == "text" and series.dtype == object else _OTHERS[kind])


def common(left: "Column", right: "Column") -> Optional[Any]:
    """The dtype of the column in which two of one kind stand once: one that holds the cells of both. A column that came from no
    frame may have any cells."""
    dtypes = [it.dtype for it in (left, right)]
    if dtypes[0] is None and dtypes[1] is None:
        return None
    import pandas

    if all(it is not None for it in dtypes) and dtypes[0] == dtypes[1]:
        return dtypes[0]
    if left.domain == "bool":
        return pandas.BooleanDtype()
    if left.kind == "int":
        return _common_integers(*(pandas.Int64Dtype() if it is None or it == object else it for it in dtypes))
    strings = [it for it in dtypes if isinstance(it, pandas.StringDtype)]
    return strings[0] if strings else object


def _common_integers(left: Any, right: Any) -> Any:
    """The narrower of two dtypes that holds the other's numbers, or one of 64 bits; with nulls where one of them has them."""
    import numpy
    import pandas

    plain = [numpy.dtype(getattr(it, "numpy_dtype", it)) for it in (left, right)]
    both = numpy.result_type(*plain)
    name = both.name if both.kind in "iu" else "int64"
    is_nullable = any(not isinstance(it, numpy.dtype) for it in (left, right))
    return pandas.api.types.pandas_dtype(nullable(name) if is_nullable else name)


def nullable(name: str) -> str:
    """The dtype with nulls of a plain dtype of integers: `Int64` of `int64`, `UInt8` of `uint8`."""
    return name.replace("uint", "UInt") if name.startswith("u") else name.replace("int", "Int")


def with_nulls(dtype: Any) -> Any:
    """The dtype that has the cells of one, and nulls; None of none."""
    import numpy
    import pandas

    if not isinstance(dtype, numpy.dtype) or dtype.kind not in "iub":
        return dtype
    return pandas.api.types.pandas_dtype("boolean" if dtype.kind == "b" else nullable(dtype.name))


class Builder:
    """Gathers the cells of one column of a result, and makes the column."""

    def __init__(self, column: "Column") -> None:
        import pandas

        self.kind = column.kind
        self.dtype = pandas.api.types.pandas_dtype(column.dtype if column.dtype is not None else _OTHERS[column.kind])
        self.parts: List[Any] = []
        self.masks: List[Any] = []

    def add(self, cells: List[Any]) -> None:
        """Adds cells, of which a null is None."""
        import numpy

        has_nulls = None in cells
        mask = numpy.fromiter((cell is None for cell in cells), dtype=bool, count=len(cells)) if has_nulls else numpy.zeros(len(cells), dtype=bool)
        if self.kind == "int":
            self.parts.append(numpy.array([0 if cell is None else cell for cell in cells] if has_nulls else cells, dtype=numpy.int64))
        else:
            self.parts.append(numpy.array(cells, dtype=object))
        self.masks.append(mask)

    def made(self) -> Any:
        """The column, as an array of its dtype. One of plain integers gets one that has nulls where there are any."""
        import numpy
        import pandas

        values = numpy.concatenate(self.parts) if self.parts else numpy.array([], dtype=numpy.int64 if self.kind == "int" else object)
        mask = numpy.concatenate(self.masks) if self.masks else numpy.array([], dtype=bool)
        self.parts, self.masks = [], []
        if self.kind != "int":
            values[mask] = pandas.NA
            made = values if self.dtype == object else pandas.array(values, dtype=self.dtype)
        elif isinstance(self.dtype, numpy.dtype) and not mask.any():
            made = values.astype(self.dtype)
        else:
            dtype = nullable(self.dtype.name) if isinstance(self.dtype, numpy.dtype) else self.dtype
            made = pandas.array(pandas.arrays.IntegerArray(values, mask), dtype=dtype)
        # (a narrower dtype would change a number, and a category lose a text, without a word)
        is_whole = int(pandas.isna(made).sum()) == int(mask.sum())
        if not is_whole or (self.kind == "int" and not numpy.array_equal(numpy.asarray(made[~mask]).astype(numpy.int64), values[~mask])):
            raise RuntimeError(f"{self.dtype} doesn't hold all cells of a column")
        return made
