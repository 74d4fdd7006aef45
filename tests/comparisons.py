"""Compares radixjoin's rows and their order with a plain nested loop, whose decimals are Python's, and with sqlite3 where it
is installed. sqlite3 has no exact decimals, so it is given each number times a thousand, as an integer."""
import csv
import decimal
import io
import pathlib
import random
import shutil
import subprocess

import harness
import reference

CASES = 300
# The delimiters of both files and of the result.
COMMAS = (",", ",", ",")


def run_join(left, right, join, folder, options=(), delimiters=COMMAS):
    """Runs radixjoin on two tables, which are written by these delimiters; the options name them."""
    (folder / "left.csv").write_bytes(left.csv(delimiters[0]))
    (folder / "right.csv").write_bytes(right.csv(delimiters[1]))
    words = ["--left", "left.csv", "--left-types", ",".join(left.types), "--right", "right.csv", "--right-types", ",".join(right.types)]
    return harness.run([harness.program("radixjoin"), *words, "--join", join.clause, *options], folder)


def run_taking(left, right, join, folder, options=(), delimiters=COMMAS):
    """The same with the types that are taken from cells, and no list."""
    (folder / "left.csv").write_bytes(left.csv(delimiters[0]))
    (folder / "right.csv").write_bytes(right.csv(delimiters[1]))
    words = ["left.csv", "right.csv", join.clause, "--types=auto", "--quiet", "--lenient", "--repeated=keep", *options]
    return harness.run([harness.program("radixjoin"), *words], folder)


def rows_of(text, delimiter=","):
    """The records of CSV text, with nulls for empty fields."""
    return [[cell if cell != "" else None for cell in row] for row in csv.reader(io.StringIO(text, newline=""), delimiter=delimiter)]


def as_text(rows):
    return [[None if cell is None else str(cell) for cell in row] for row in rows]


def quoted(cell, times):
    if cell is None:
        return "NULL"
    return "'" + cell.replace("'", "''") + "'" if isinstance(cell, str) else str(int(cell * times))


def has_decimals(*tables):
    """Whether a column of the tables has digits after the point."""
    return any(reference.scale_of(kind) for table in tables for kind in table.types)


def times_in(condition, times):
    """A condition with its numbers that many times as large."""
    if isinstance(condition, (list, tuple)):
        if condition and condition[0] == "literal" and not isinstance(condition[1], str):
            return ("literal", int(condition[1] * times))
        return type(condition)(times_in(part, times) for part in condition)
    return condition


def sqlite_script(left, right, join):
    """The same join for sqlite3: each table with its row numbers, the result in the order of radixjoin's rows."""
    lines = [".mode csv", ".headers off"]
    times = 1000 if has_decimals(left, right) else 1
    for side, table in (("L", left), ("R", right)):
        types = [f"{name} {'TEXT' if kind == 'text' else 'INTEGER'}" for name, kind in zip(table.names, table.types)]
        lines.append(f"CREATE TABLE {side} ({', '.join(types)}, row_{side} INTEGER);")
        for at, row in enumerate(table.rows):
            lines.append(f"INSERT INTO {side} VALUES ({', '.join(quoted(cell, times) for cell in row)}, {at});")
    cells = join.row([f"L.{name}" for name in left.names], [f"R.{name}" for name in right.names])
    for i, j in join.partners or []:
        cells[cells.index(f"L.{left.names[i]}")] = f"COALESCE(L.{left.names[i]}, R.{right.names[j]})"
    lines.append(f"CREATE INDEX R_by_key ON R ({right.names[0]});")
    clause = join.clause
    if join.condition is not None and times > 1:
        clause = f"{join.kind} JOIN ON {reference.spelled(times_in(join.condition, times), left, right)}"
    clause = clause.replace("IS UNKNOWN", "IS NULL").replace("IS NOT UNKNOWN", "IS NOT NULL").replace(" JOIN", " JOIN R", 1)
    lone = "CASE WHEN row_L IS NULL THEN 2 WHEN row_R IS NULL THEN 1 ELSE 0 END"
    lines.append(f"SELECT {', '.join(cells)} FROM L {clause} ORDER BY {lone}, row_L, row_R;")
    return "\n".join(lines) + "\n"


def in_units(rows, left, right, join):
    """Rows with each number a thousand times as large, where the tables have digits after the point."""
    if not has_decimals(left, right):
        return rows
    kinds = join.row(left.types, right.types)
    times = lambda cell, kind: cell if cell is None or kind == "text" else str(int(decimal.Decimal(cell) * 1000))
    return [[times(cell, kind) for cell, kind in zip(row, kinds)] for row in rows]


def sqlite_rows(left, right, join):
    """What sqlite3 answers."""
    ran = subprocess.run(["sqlite3", "-batch", ":memory:"], input=sqlite_script(left, right, join).encode(), capture_output=True, check=True)
    if ran.stderr:
        raise RuntimeError(ran.stderr.decode())
    return rows_of(ran.stdout.decode())


def faults_of(left, right, join, with_sqlite, with_reference=True, options=(), delimiters=COMMAS, run=run_join):
    """Runs a join everywhere, and says what differs."""
    with harness.folder() as name:
        ran = run(left, right, join, pathlib.Path(name), options, delimiters)
    if ran.status != 0 or ran.stderr:
        return [f"{join.clause}: status {ran.status}: {ran.stderr!r}"]
    header, *rows = rows_of(ran.stdout.decode(), delimiters[2])
    faults = []
    if header != join.header(left, right):
        faults.append(f"{join.clause}: the header is {header}")
    if with_reference and rows != as_text(reference.joined(left, right, join)):
        faults.append(f"{join.clause}: not the rows of the plain nested loop, over {left.csv()!r} and {right.csv()!r}")
    if with_sqlite and in_units(rows, left, right, join) != sqlite_rows(left, right, join):
        faults.append(f"{join.clause}: not the rows of sqlite3, over {left.csv()!r} and {right.csv()!r}")
    return [harness.shorten(fault) for fault in faults]


def random_tables(tally, with_sqlite):
    """Random small tables with nulls, by every kind of clause."""
    source = random.Random("radixjoin: random small tables")
    for n in range(CASES):
        left = reference.random_table(source, ["a", "t", "b"], ["int", "text", "int"], 8)
        right = reference.random_table(source, ["b", "c", "t"], ["int", "int", "text"], 8)
        join = reference.random_join(source, left, right)
        tally.check(f"random join {n}: {join.clause}", faults_of(left, right, join, with_sqlite))


def random_taken_types(tally, with_sqlite):
    """The same with types that are taken from cells: a row more has a number in each column of numbers, and a letter in each of texts."""
    source = random.Random("radixjoin: random taken types")
    for n in range(CASES):
        left = reference.random_table(source, ["a", "t", "b"], ["int", "text", "int"], 8)
        right = reference.random_table(source, ["b", "c", "t"], ["int", "int", "text"], 8)
        for table in (left, right):
            table.rows.append([source.randrange(-2, 3) if kind == "int" else "x" for kind in table.types])
        join = reference.random_join(source, left, right)
        tally.check(f"random taken types {n}: {join.clause}", faults_of(left, right, join, with_sqlite, run=run_taking))


def random_decimals(tally, with_sqlite):
    """The same with columns of several numeric types, which meet each other and whole numbers."""
    source = random.Random("radixjoin: random decimals")
    kinds = ["int", "num(2,0)", "num(4,1)", "num(5,2)", "num(18,2)"]
    for n in range(CASES):
        types = [[source.choice(kinds), "text", source.choice(kinds)], [source.choice(kinds), source.choice(kinds), "text"]]
        left = reference.random_table(source, ["a", "t", "b"], types[0], 8)
        right = reference.random_table(source, ["b", "c", "t"], types[1], 8)
        join = reference.random_join(source, left, right)
        tally.check(f"random decimals {n}: {join.clause}", faults_of(left, right, join, with_sqlite))


def random_bounds(source, left, right):
    """A conjunct that bounds a column by columns of the other side, or looks so: in either order, strictly or not, with a
    literal, with texts, negated, within OR, or where nulls meet."""
    columns = {side: [("column", side, i) for i, kind in enumerate(table.types) if kind != "text"] for side, table in (("L", left), ("R", right))}
    here, there = source.choice([("L", "R"), ("R", "L")])
    column, bounds = source.choice(columns[here]), [source.choice(columns[there]) for _ in range(2)]
    shape = source.randrange(10)
    if shape < 3:
        return ("compare", source.choice(["<", "<=", ">", ">="]), *source.sample([column, bounds[0]], 2))
    if shape < 6:
        return ("between", column, *bounds, source.random() < 0.1)
    if shape == 6:
        return ("between", column, *source.sample([bounds[0], ("literal", source.choice([-1, 0, 2]))], 2), False)
    if shape == 7:
        return ("between", bounds[0], column, source.choice(columns["L"] + columns["R"]), False)
    if shape == 8:
        meet = [("null", column, False), ("null", bounds[0], False)]
        return ("or", source.sample([("compare", "=", *source.sample([column, bounds[0]], 2)), ("and", source.sample(meet, 2))], 2))
    return reference.random_condition(source, left, right, 1)


def random_bands(tally, with_sqlite):
    """Joins without a key whose clause bounds a column by columns of the other side: bounds that are equal, reversed or null,
    columns that are all null, and rows that are in no pair, with one worker and with several."""
    source = random.Random("radixjoin: random bands")
    kinds = ["int", "int", "num(2,0)", "num(4,1)", "num(5,2)", "num(18,2)"]
    for n in range(CASES):
        types = [[source.choice(kinds), "text", source.choice(kinds)], [source.choice(kinds), source.choice(kinds), "text"]]
        left = reference.random_table(source, ["a", "t", "b"], types[0], source.choice([1, 8, 30]))
        right = reference.random_table(source, ["b", "c", "t"], types[1], source.choice([1, 8, 30]))
        if source.random() < 0.1:
            left.rows = [[None, *row[1:]] for row in left.rows]
        conjuncts = [random_bounds(source, left, right) for _ in range(source.choice([1, 1, 2, 3]))]
        condition = conjuncts[0] if len(conjuncts) == 1 else ("and", conjuncts)
        kind = source.choice(["INNER", "LEFT", "RIGHT", "FULL"])
        join = reference.Join(f"{kind} JOIN ON {reference.spelled(condition, left, right)}", kind, condition=condition)
        options = source.choice([(), ("--workers=3",), ("--workers=2", "--piece=2"), ("--piece=1",)])
        tally.check(f"random band {n}: {join.clause}", faults_of(left, right, join, with_sqlite, options=options))


MOMENTS = ["2025", "2026-11-29", "2026-11-29T10:4", "2026-11-29T10:40:00", "2026-11-29T10:45:00", "2026-11-29T10:45:01", "2026-11-30", "é", None]


def random_bands_of_texts(tally, with_sqlite):
    """Joins whose clause bounds a column of texts, of which many begin with the same 15 bytes."""
    source = random.Random("radixjoin: random bands of texts")
    for n in range(CASES):
        left, right = (reference.Table(names, ["text", "text"], [[source.choice(MOMENTS) for _ in names] for _ in range(source.randrange(13))]) for names in (["a", "b"], ["c", "d"]))
        here, there = source.sample(["L", "R"], 2)
        column, low, high = (("column", side, source.randrange(2)) for side in (here, there, there))
        above = ("compare", source.choice([">", ">="]), column, low)
        below = ("compare", source.choice([">", ">="]), high, column)
        condition = source.choice([above, below, ("and", [above, below]), ("between", column, low, high, False)])
        kind = source.choice(["INNER", "LEFT", "RIGHT", "FULL"])
        join = reference.Join(f"{kind} JOIN ON {reference.spelled(condition, left, right)}", kind, condition=condition)
        options = source.choice([(), ("--workers=3",), ("--workers=2", "--piece=2")])
        tally.check(f"random band of texts {n}: {join.clause}", faults_of(left, right, join, with_sqlite, options=options))


def random_intervals(source, names, kind):
    """A table of begins and ends: some null, and some ends before their begin."""
    rows = []
    for at in range(source.choice([1, 8, 30])):
        begin = source.randrange(-5, 40)
        cells = [begin, begin + source.choice([-2, 0, 1, 2, 3, 30])]
        if kind == "text":
            cells = [f"2026-11-{cell + 40}" for cell in cells]
        elif kind != "int":
            cells = [reference.in_scale(decimal.Decimal(cell) / 2, reference.scale_of(kind)) for cell in cells]
        rows.append([at, *(None if source.random() < 0.1 else cell for cell in cells)])
    return reference.Table(names, ["int", kind, kind], rows)


def random_overlap(source):
    """The two conjuncts of intervals that overlap, in either order, strict or not, either way round, or as a BETWEEN with the
    other column of its side for its further bound. Now and then the two columns of one side are exchanged."""
    begins, ends = [("column", side, 1) for side in "LR"], [("column", side, 2) for side in "LR"]
    if source.random() < 0.1:
        begins[0], ends[0] = ends[0], begins[0]
    conjuncts = []
    for begin, end, low in ((begins[0], ends[1], begins[1]), (begins[1], ends[0], begins[0])):
        shape = source.randrange(9)
        if shape < 4:
            conjuncts.append(("compare", source.choice(["<", "<="]), begin, end))
        elif shape < 8:
            conjuncts.append(("compare", source.choice([">", ">="]), end, begin))
        else:
            conjuncts.append(("between", begin, low, end, False))
    return source.sample(conjuncts, 2)


def random_overlaps(tally, with_sqlite):
    """Joins of intervals that overlap, of whole numbers, decimals and texts, also with a further conjunct on the rows, with one
    worker and with several."""
    source = random.Random("radixjoin: random overlaps")
    for n in range(CASES):
        kinds = ["text", "text"] if n % 3 == 0 else [source.choice(["int", "num(4,1)", "num(18,2)"]) for _ in "LR"]
        left, right = random_intervals(source, ["k", "a", "b"], kinds[0]), random_intervals(source, ["m", "c", "d"], kinds[1])
        further = [("compare", source.choice(["<", "<>", ">="]), ("column", "L", 0), ("column", "R", 0))] if source.random() < 0.2 else []
        condition = ("and", [*random_overlap(source), *further])
        kind = source.choice(["INNER", "LEFT", "RIGHT", "FULL"])
        join = reference.Join(f"{kind} JOIN ON {reference.spelled(condition, left, right)}", kind, condition=condition)
        options = source.choice([(), ("--workers=3",), ("--workers=2", "--piece=2"), ("--piece=1",)])
        tally.check(f"random overlap {n}: {join.clause}", faults_of(left, right, join, with_sqlite, options=options))


def random_meeting(source, left, right):
    """A conjunct by which the nulls of two columns meet, in any order, or one that looks so: with a further alternative, with
    nulls of another column, or with a null on one side alone."""
    is_text = source.random() < 0.4
    columns = {side: [("column", side, i) for i, kind in enumerate(table.types) if (kind == "text") == is_text] for side, table in (("L", left), ("R", right))}
    column, partner = source.choice(columns["L"]), source.choice(columns["R"])
    other = source.choice(columns["R"]) if source.random() < 0.1 else partner
    equal = ("compare", "=", *source.sample([column, partner], 2))
    nulls = ("and", source.sample([("null", column, False), ("null", other, source.random() < 0.1)], 2))
    alternatives = [equal, nulls]
    if source.random() < 0.1:
        alternatives.append(reference.random_condition(source, left, right, 0))
    return ("or", source.sample(alternatives, len(alternatives)))


def random_nulls_that_meet(tally, with_sqlite):
    """Joins without another key whose nulls meet, in one column or in two, beside other conjuncts, of columns with few nulls,
    with none, and with nulls alone, by one worker and by several."""
    source = random.Random("radixjoin: random nulls that meet")
    kinds = ["int", "int", "num(2,0)", "num(4,1)", "num(5,2)", "num(18,2)"]
    for n in range(CASES):
        left = reference.random_table(source, ["a", "t", "b"], [source.choice(kinds), "text", source.choice(kinds)], source.choice([1, 8, 30]))
        right = reference.random_table(source, ["b", "c", "t"], [source.choice(kinds), source.choice(kinds), "text"], source.choice([1, 8, 30]))
        for table in (left, right):
            if source.random() < 0.1:
                table.rows = [[None, *row[1:]] for row in table.rows]
            if source.random() < 0.1:
                table.rows = [row for row in table.rows if None not in row]
        conjuncts = [random_meeting(source, left, right) for _ in range(source.choice([1, 1, 2]))]
        if source.random() < 0.4:
            conjuncts.insert(source.randrange(len(conjuncts) + 1), random_bounds(source, left, right))
        condition = conjuncts[0] if len(conjuncts) == 1 else ("and", conjuncts)
        kind = source.choice(["INNER", "LEFT", "RIGHT", "FULL"])
        join = reference.Join(f"{kind} JOIN ON {reference.spelled(condition, left, right)}", kind, condition=condition)
        options = source.choice([(), ("--workers=3",), ("--workers=2", "--piece=2"), ("--piece=1", "--hash=mixed")])
        tally.check(f"random nulls that meet {n}: {join.clause}", faults_of(left, right, join, with_sqlite, options=options))


DELIMITERS = [",", ";", ";", "\t", "\t", "|", ":", " ", "-", ".", "'", "^"]


def named(source, delimiters):
    """The words that name delimiters, in one of the ways in which that can be done."""
    words = [f"--{of}-delimiter={sign}" for of, sign in zip(("left", "right", "out"), delimiters)]
    if source.random() < 0.5:
        # (what the common one says already is said once more, or not)
        common = source.choice(delimiters)
        words = [word for word, sign in zip(words, delimiters) if sign != common or source.random() < 0.2]
        words += source.choice([[f"--delimiter={common}"], ["-d", common] if common != "-" else [f"-d{common}"]])
    return [word.replace("\t", source.choice(["\t", "tab", r"\t"])) for word in words]


def random_delimiters(tally, with_sqlite):
    """Files by random delimiters, which Python's csv writes, and a result that it reads, with texts that hold them."""
    source = random.Random("radixjoin: random delimiters")
    for n in range(CASES):
        left = reference.random_table(source, ["a", "t", "b"], [source.choice(["int", "num(5,2)"]), "text", "int"], 8)
        right = reference.random_table(source, ["b", "c", "t"], ["int", source.choice(["int", "num(5,2)"]), "text"], 8)
        for table in (left, right):
            table.rows = [[cell.replace(",", source.choice(DELIMITERS)) if isinstance(cell, str) else cell for cell in row] for row in table.rows]
        join, delimiters = reference.random_join(source, left, right), source.choices(DELIMITERS, k=3)
        options = [*named(source, delimiters), *source.choice([[], ["--workers=3"], ["--strict"]])]
        tally.check(f"random delimiters {n}, {options}: {join.clause}", faults_of(left, right, join, with_sqlite, options=options, delimiters=delimiters))


def large_tables(tally, with_sqlite):
    """Two files of 10,000 rows with quoted fields and nulls."""
    source = random.Random("radixjoin: 10,000 rows")
    texts = ["plain", "with, comma", 'with "quotes"', "with\nline feed", "été", None]
    tables = []
    for names in (["k", "a", "n"], ["k", "b", "m"]):
        rows = []
        for at in range(10_000):
            key = None if source.random() < 0.05 else source.randrange(12_000)
            rows.append([key, source.choice(texts), None if source.random() < 0.1 else at])
        tables.append(reference.Table(names, ["int", "text", "int"], rows))
    left, right = tables
    for kind in ("INNER", "FULL"):
        join = reference.Join(f"{kind} JOIN USING (k)", kind, partners=[(0, 0)])
        tally.check(f"10,000 rows a side: {join.clause}", faults_of(left, right, join, with_sqlite, with_reference=False))


def run_all(tally):
    """All comparisons; those with sqlite3 only where it is installed."""
    with_sqlite = shutil.which("sqlite3") is not None
    if not with_sqlite:
        print("sqlite3 is not installed: compared with the plain nested loop alone")
    random_tables(tally, with_sqlite)
    random_taken_types(tally, with_sqlite)
    random_decimals(tally, with_sqlite)
    random_bands(tally, with_sqlite)
    random_bands_of_texts(tally, with_sqlite)
    random_overlaps(tally, with_sqlite)
    random_nulls_that_meet(tally, with_sqlite)
    random_delimiters(tally, with_sqlite)
    large_tables(tally, with_sqlite)
