"""A clause over two tables: its names found, or the first fault; its pairs of join columns, and its keys.

In a bound condition a column is ("column", 0 for L or 1 for R, its number)."""
from .faults import Fault
from .reading import lowered


class Join:
    """A bound join: its type, a condition or None, and the pairs of its join columns (None for ON and CROSS)."""

    def __init__(self, kind, condition, pairs):
        self.kind = kind
        self.condition = condition
        self.pairs = pairs


def column_called(name, table):
    """The number of the column that a name of the clause matches, or None."""
    is_delimited, spelled = name
    for column, header in enumerate(table.names):
        if header == spelled if is_delimited else lowered(header) == lowered(spelled):
            return column
    return None


def side_called(name):
    """0 for L, 1 for R; E13 for any other qualifier."""
    is_delimited, spelled = name
    word = spelled if is_delimited else spelled.upper()
    if word not in (b"L", b"R"):
        raise Fault(13, "UnknownColumn")
    return 0 if word == b"L" else 1


def find(operand, tables):
    """An operand with its column found."""
    if operand[0] != "column":
        return operand
    _, qualifier, name = operand
    if qualifier is not None:
        side = side_called(qualifier)
        column = column_called(name, tables[side])
        if column is None:
            raise Fault(13, "UnknownColumn")
        return ("column", side, column)
    found = [column_called(name, table) for table in tables]
    if found == [None, None]:
        raise Fault(13, "UnknownColumn")
    if None not in found:
        raise Fault(14, "AmbiguousColumn")
    side = 0 if found[1] is None else 1
    return ("column", side, found[side])


def resolve(condition, tables):
    """A condition with all its columns found, in the order of the text."""
    kind, *parts = condition
    if kind == "compare":
        return (kind, parts[0], find(parts[1], tables), find(parts[2], tables))
    if kind == "null":
        return (kind, find(parts[0], tables), parts[1])
    if kind == "between":
        return (kind, *[find(part, tables) for part in parts[:3]], parts[3])
    if kind == "in":
        operand = find(parts[0], tables)
        return (kind, operand, [find(member, tables) for member in parts[1]], parts[2])
    if kind == "is":
        return (kind, resolve(parts[0], tables), *parts[1:])
    if kind == "not":
        return (kind, resolve(parts[0], tables))
    return (kind, [resolve(part, tables) for part in parts[0]])


def is_text(operand, tables):
    """Whether an operand's type is text."""
    if operand[0] == "column":
        return tables[operand[1]].types[operand[2]].is_text
    return operand[0] == "text"


def compared_operands(condition):
    """The pairs of operands that a condition compares, each behind its sign."""
    kind, *parts = condition
    if kind == "compare":
        return [tuple(parts)]
    if kind == "between":
        return [(">=", parts[0], parts[1]), ("<=", parts[0], parts[2])]
    if kind == "in":
        return [("=", parts[0], member) for member in parts[1]]
    if kind == "null":
        return []
    if kind in ("is", "not"):
        return compared_operands(parts[0])
    return [pair for part in parts[0] for pair in compared_operands(part)]


def check_declared(comparisons, tables):
    """E32 of the first operand that needs a declared type and has none: one that is ordered, or compared with a number."""
    for sign, *operands in comparisons:
        for operand, other in (operands, operands[::-1]):
            is_column = operand[0] == "column"
            if is_column and tables[operand[1]].types[operand[2]].is_text and tables[operand[1]].types[operand[2]].is_undeclared:
                if sign not in ("=", "<>") or not is_text(other, tables):
                    side, name = ("left", "right")[operand[1]], tables[operand[1]].names[operand[2]].decode()
                    raise Fault(32, "UndeclaredType", side, f'"{name}"')


def equated(names, tables):
    """The comparisons of the columns with these names, where both tables have them."""
    found = [[column_called(name, table) for table in tables] for name in names]
    return [("=", ("column", 0, left), ("column", 1, right)) for left, right in found if None not in (left, right)]


def bind(clause, tables):
    """The bound join of a clause's tree, or E13 to E16, or E32."""
    try:
        join = bound(clause, tables)
    except Fault as fault:
        if not str(fault).startswith("E15 "):
            raise
        check_declared(comparisons_of(clause, tables), tables)
        raise
    check_declared(comparisons_of(clause, tables), tables)
    return join


def comparisons_of(clause, tables):
    """The comparisons of a clause whose names can be found."""
    _, condition, names, is_natural = clause
    if is_natural:
        return equated([(False, name) for name in tables[0].names], tables)
    if names is not None:
        return equated(names, tables)
    return compared_operands(resolve(condition, tables)) if condition is not None else []


def bound(clause, tables):
    """The bound join of a clause's tree, or E13 to E16."""
    kind, condition, names, is_natural = clause
    if is_natural:
        return Join(kind, None, natural_pairs(tables))
    if names is not None:
        return Join(kind, None, using_pairs(names, tables))
    if condition is None:
        return Join(kind, None, None)
    condition = resolve(condition, tables)
    for _, one, other in compared_operands(condition):
        if is_text(one, tables) != is_text(other, tables):
            raise Fault(15, "TypeMismatch")
    return Join(kind, condition, None)


def check_types(left, right, tables):
    if tables[0].types[left].is_text != tables[1].types[right].is_text:
        raise Fault(15, "TypeMismatch")


def using_pairs(names, tables):
    """The pairs of columns that USING names, in the order of the left table."""
    pairs = {}
    for name in names:
        left, right = (column_called(name, table) for table in tables)
        if left is None or right is None:
            raise Fault(13, "UnknownColumn")
        if left in pairs:
            raise Fault(16, "RepeatedUsing")
        check_types(left, right, tables)
        pairs[left] = right
    return sorted(pairs.items())


def natural_pairs(tables):
    """The pairs of columns whose names both tables have."""
    pairs = []
    for left, name in enumerate(tables[0].names):
        right = column_called((False, name), tables[1])
        if right is not None:
            check_types(left, right, tables)
            pairs.append((left, right))
    return pairs


def conjuncts(condition):
    """The conditions that the topmost ANDs join."""
    if condition[0] != "and":
        return [condition]
    return [one for part in condition[1] for one in conjuncts(part)]


def keys(join):
    """The pairs of key columns, left then right."""
    if join.pairs is not None:
        return join.pairs
    found = []
    for one in conjuncts(join.condition) if join.condition else []:
        if one[0] == "compare" and one[1] == "=" and one[2][0] == one[3][0] == "column" and one[2][1] != one[3][1]:
            left, right = sorted(one[2:], key=lambda column: column[1])
            found.append((left[2], right[2]))
    return found
