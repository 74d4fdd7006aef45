"""A join clause as a tree, or its fault: "The join clause" of docs/user/specification.md.

A name is (is it delimited, its bytes). An operand is ("column", qualifier or None, name), ("number", value)
or ("text", bytes). A condition is a tuple that begins with compare, null, between, in, is, not, and, or."""
import re

from . import scaled
from .faults import Fault
from .reading import LEAST_INT, MOST_INT, integer

LONGEST = 65_536
DEEPEST = 64
MOST_DIGITS = 18
KEYWORDS = set("AND BETWEEN CROSS FALSE FULL IN INNER IS JOIN LEFT NATURAL NOT NULL ON OR OUTER RIGHT TRUE UNKNOWN USING".split())
OPERATORS = ("=", "<>", "<", ">", "<=", ">=")
SECOND_SPELLINGS = {b"!=": "<>"}
TRUTHS = {"FALSE": 0, "UNKNOWN": 1, "TRUE": 2}
WHITE = re.compile(rb"[ \t\n\r]*")
FORMS = [
    ("word", re.compile(rb"[A-Za-z][A-Za-z0-9_]*")),
    ("delimited", re.compile(rb'"(?:[^"]|"")+"(?!")')),
    ("decimal", re.compile(rb"[+-]?[0-9]+\.[0-9]+")),
    ("integer", re.compile(rb"[+-]?[0-9]+")),
    ("text", re.compile(rb"'(?:[^']|'')*'(?!')")),
    ("sign", re.compile(rb"<>|!=|<=|>=|[=<>(),.]")),
]


class Token:
    """A token: its kind (a keyword or a sign itself, `name`, `integer`, `text`, or `unreadable`), its value, its first byte."""

    def __init__(self, kind, value, at):
        self.kind = kind
        self.value = value
        self.at = at


def token(text, at):
    """The token at this byte, and the byte after it."""
    for form, pattern in FORMS:
        found = pattern.match(text, at)
        if found:
            return named_token(form, found[0], text, at), found.end()
    return Token("unreadable", None, at), len(text)


def named_token(form, spelled, text, at):
    """The token of these bytes."""
    if form == "word":
        word = spelled.decode().upper()
        return Token(word, None, at) if word in KEYWORDS else Token("name", (False, spelled), at)
    if form == "delimited":
        return Token("name", (True, spelled[1:-1].replace(b'""', b'"')), at)
    if form == "text":
        return Token("text", spelled[1:-1].replace(b"''", b"'"), at)
    if form == "sign":
        return Token(SECOND_SPELLINGS.get(spelled, spelled.decode()), None, at)
    value = integer(spelled.replace(b".", b""))
    after = text[at + len(spelled) : at + len(spelled) + 1]
    is_decimal = form == "decimal"
    is_in_range = len(spelled.strip(b"+-")) <= MOST_DIGITS + 1 if is_decimal else LEAST_INT <= value <= MOST_INT
    if re.match(rb"[A-Za-z_]", after) or not is_in_range:
        return Token("unreadable", None, at)
    if is_decimal:
        return Token(form, scaled.Scaled(value, len(spelled) - spelled.index(b".") - 1), at)
    return Token(form, value, at)


def tokens(text):
    """The tokens of a text up to the first unreadable one, or an `end` at its length."""
    found, at = [], WHITE.match(text).end()
    while at < len(text):
        one, after = token(text, at)
        found.append(one)
        if one.kind == "unreadable":
            return found
        at = WHITE.match(text, after).end()
    return [*found, Token("end", None, len(text))]


def nests_too_deep(found):
    """Whether parentheses and NOTs nest too deep after some readable token."""
    open_ones, nots = [], 0
    for one in found:
        if one.kind == "NOT":
            nots += 1
        elif one.kind == "(":
            open_ones.append(1 + nots)
            nots = 0
        else:
            nots = 0
            if one.kind == ")" and open_ones:
                open_ones.pop()
        if sum(open_ones) + nots > DEEPEST:
            return True
    return False


class Reader:
    """Reads the tokens of a clause from left to right; one token always says which form comes."""

    def __init__(self, found):
        self.found = found
        self.place = 0

    def next_is(self, *kinds):
        return self.found[self.place].kind in kinds

    def take(self, *kinds):
        """The next token, which has to be of one of these kinds."""
        one = self.found[self.place]
        if one.kind not in kinds:
            raise Fault(11, "Syntax", "byte", one.at)
        self.place += 1
        return one

    def takes(self, kind):
        """Whether the next token is of this kind, and takes it then."""
        if self.next_is(kind):
            self.place += 1
            return True
        return False

    def clause(self):
        """(kind, condition or None, names or None, is it natural)."""
        if self.takes("CROSS"):
            self.take("JOIN")
            found = ("INNER", None, None, False)
        elif self.takes("NATURAL"):
            kind = self.join_type()
            self.take("JOIN")
            found = (kind, None, None, True)
        else:
            kind = self.join_type()
            self.take("JOIN")
            if self.take("ON", "USING").kind == "ON":
                found = (kind, self.condition(), None, False)
            else:
                found = (kind, None, self.parenthesised(self.name), False)
        self.take("end")
        return found

    def join_type(self):
        if self.takes("INNER"):
            return "INNER"
        for kind in ("LEFT", "RIGHT", "FULL"):
            if self.takes(kind):
                self.takes("OUTER")
                return kind
        # Only JOIN may follow, but every type may stand here too.
        return "INNER"

    def name(self):
        return self.take("name").value

    def parenthesised(self, member):
        """One or more members with commas, in parentheses."""
        self.take("(")
        found = [member()]
        while self.takes(","):
            found.append(member())
        if self.take(")"):
            return found

    def condition(self):
        terms = [self.term()]
        while self.takes("OR"):
            terms.append(self.term())
        return terms[0] if len(terms) == 1 else ("or", terms)

    def term(self):
        factors = [self.factor()]
        while self.takes("AND"):
            factors.append(self.factor())
        return factors[0] if len(factors) == 1 else ("and", factors)

    def factor(self):
        if self.takes("NOT"):
            return ("not", self.factor())
        found = self.primary()
        if self.takes("IS"):
            is_negated = self.takes("NOT")
            return ("is", found, TRUTHS[self.take(*TRUTHS).kind], is_negated)
        return found

    def primary(self):
        if self.takes("("):
            found = self.condition()
            self.take(")")
            return found
        return self.predicate(self.operand())

    def predicate(self, operand):
        if self.takes("IS"):
            is_negated = self.takes("NOT")
            self.take("NULL")
            return ("null", operand, is_negated)
        is_negated = self.takes("NOT")
        signs = () if is_negated else OPERATORS
        sign = self.take("BETWEEN", "IN", *signs).kind
        if sign == "BETWEEN":
            low = self.operand()
            self.take("AND")
            return ("between", operand, low, self.operand(), is_negated)
        if sign == "IN":
            return ("in", operand, self.parenthesised(self.operand), is_negated)
        return ("compare", sign, operand, self.operand())

    def operand(self):
        one = self.take("name", "integer", "decimal", "text")
        if one.kind != "name":
            return ("text" if one.kind == "text" else "number", one.value)
        if self.takes("."):
            return ("column", one.value, self.name())
        return ("column", None, one.value)


def parse(text):
    """The tree of a clause's bytes, or E17, E12, E11."""
    if len(text) > LONGEST:
        raise Fault(17, "ClauseTooLong")
    found = tokens(text)
    if nests_too_deep(found):
        raise Fault(12, "TooDeep")
    return Reader(found).clause()
