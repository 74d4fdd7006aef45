"""Values make the round trip through a join exactly: frames and rows that Hypothesis makes, with a text of every kind."""
import decimal

import pandas
import telling
from hypothesis import HealthCheck, given, settings
from hypothesis import strategies as st

import radixjoin

EXAMPLES = 150
HOSTILE = ["", "\0", '"', '""', ",", "\n", "\r\n", "\r", "\\N", "NULL", "null", "~", "-", "?", "None", "\ufeff", "a\0b"]
TEXTS = st.one_of(st.sampled_from(HOSTILE), st.text(st.characters(blacklist_categories=("Cs",)), max_size=12))
INTEGERS = st.one_of(st.integers(-(2**63), 2**63 - 1), st.integers(-2, 2))
HOW = settings(max_examples=EXAMPLES, deadline=None, derandomize=True, database=None, suppress_health_check=list(HealthCheck))


def decimals(scale):
    most = 10 ** (17 - scale)
    return st.integers(-most, most).map(lambda units: decimal.Decimal(units).scaleb(-scale))


@st.composite
def columns(draw):
    """Two to four columns of one length: a kind, and cells with nulls."""
    length = draw(st.integers(0, 6))
    made = []
    for _ in range(draw(st.integers(1, 4))):
        kind = draw(st.sampled_from(["Int64", "int64", "string", "object", "decimal"]))
        cells = INTEGERS if kind in ("Int64", "int64") else TEXTS if kind != "decimal" else decimals(draw(st.integers(0, 6)))
        cells = cells if kind == "int64" else st.one_of(cells, st.none())
        made.append((kind, draw(st.lists(cells, min_size=length, max_size=length))))
    return made


def scaled(kind, cells):
    """Decimals with the digits that the one with the most of them has behind the point, as the program gives them."""
    if kind != "decimal" or all(cell is None for cell in cells):
        return cells
    scale = max(-cell.as_tuple().exponent for cell in cells if cell is not None)
    return [None if cell is None else cell.quantize(decimal.Decimal(1).scaleb(-max(scale, 0))) for cell in cells]


def named(cells):
    """Cells as their classes and texts; a null is None."""
    return [None if cell is pandas.NA or cell is None else (type(cell).__name__.replace("int64", "int"), str(cell)) for cell in cells]


@HOW
@given(columns())
def frames(made):
    series = [pandas.Series(cells, dtype="object" if kind in ("object", "decimal") else kind) for kind, cells in made]
    frame = pandas.DataFrame(dict(enumerate(series))).set_axis([f"c{at}" for at in range(len(made))], axis=1)
    got = radixjoin.join(frame, [(1,)], how="cross", right_columns=["one"])
    for at, (kind, cells) in enumerate(made):
        assert named(got[f"c{at}"]) == named(scaled(kind, cells)), (list(got[f"c{at}"]), cells)
        assert got[f"c{at}"].dtype == frame[f"c{at}"].dtype, got.dtypes
    assert list(got["one"]) == [1] * len(frame)


@HOW
@given(columns())
def rows(made):
    names = [f"c{at}" for at in range(len(made))]
    table = list(zip(*(cells for _, cells in made)))
    got = list(radixjoin.join(iter(table), [(1,)], how="cross", left_columns=names, right_columns=["one"]))
    wanted = list(zip(*(scaled(kind, cells) for kind, cells in made), [1] * len(table)))
    assert [named(row) for row in got] == [named(row) for row in wanted], (got, wanted)


@HOW
@given(st.lists(TEXTS, min_size=1, max_size=3, unique_by=str.lower), TEXTS)
def names(some, other):
    """Names of columns come out as they are, but those that the program refuses: empty ones, and ones of over 128 bytes."""
    fault = telling.raised(radixjoin.join, [dict.fromkeys(some, "x")], [{"one": 1}], how="cross")
    if fault is None:
        got = radixjoin.join([dict.fromkeys(some, "x")], [{"one": 1}], how="cross")
        assert got.columns == (*some, "one") and list(got) == [{**dict.fromkeys(some, "x"), "one": 1}]
    else:
        assert "a dict one" in str(fault) or fault.code in ("E2", "E3"), fault
    frame = pandas.DataFrame({f"n{other}": ["x", None, "y"]}, dtype="string")
    # (no word of a command line has a NUL)
    way = {"natural": True} if "\0" in other else {"using": f"n{other}"}
    assert radixjoin.join(frame, frame, **way)[f"n{other}"].to_list() == ["x", "y"]


def main():
    for test in (frames, rows, names):
        telling.attempt(f"{test.__name__} that Hypothesis makes make the round trip", lambda: test() or [])


if __name__ == "__main__":
    main()
