"""Random texts of join clauses: lawful ones, their mutations, and bytes from anywhere. Always UTF-8, as every word is."""

# The names of the tables that the clauses are over; their types vary.
COLUMNS = ([b"a", b"t", b"Key", b"x_1"], [b"a", b"T", b"key", b"y"])
NAMES = ["a", "t", "T", "Key", "kEY", "x_1", "y", '"Key"', '"key"', '"T"', '"x_1"', "zip", '"a""b"', "L.a", "R.a", "l.t", 'r."T"', "L . Key", '"L".a', '"l".a', "Q.a", "R.y", "L.x_1"]
LITERALS = {
    "int": ["0", "1", "-1", "+2", "007", "9223372036854775807", "-9223372036854775808", "1.5", "-0.05", "2.0", "0.000000000000000001", "0.0000000000000000001", "1.0a"],
    "text": ["'x'", "''", "'it''s'", "'é'", "'1'", "'\"'"],
}
TOKENS = "AND BETWEEN CROSS FALSE FULL IN INNER IS JOIN LEFT NATURAL NOT NULL ON OR OUTER RIGHT TRUE UNKNOWN USING = <> != < > <= >= ( ) , . ' \" '' \"\" 1 -1 9223372036854775808 -9223372036854775809 1a + - ! ; a L.a R.a SELECT 'x 'x''y' é \t \n 0x1 1.5 1. .5 _a a_ $ \\ /* -- NOT( IS( '\n'".split(" ")
OPERATORS = ["=", "=", "<>", "!=", "<", ">", "<=", ">="]


class Clauses:
    """Random clause texts of one source."""

    def __init__(self, source):
        self.source = source

    def next(self):
        """The bytes of the next text."""
        shape = self.source.randrange(100)
        if shape < 30:
            words = self.clause()
        elif shape < 75:
            words = self.changed(self.clause())
        elif shape < 85:
            words = [self.source.choice(TOKENS) for _ in range(self.source.randrange(12))]
        elif shape < 93:
            words = self.nested()
        else:
            return self.bytes_changed("".join(self.spaced(self.clause()))).encode()
        if shape == 99 and self.source.randrange(20) == 0:
            words += [" "] * (65_530 + self.source.randrange(12) - sum(map(len, words)))
        return "".join(self.spaced(words)).encode()

    def spaced(self, words):
        """Words with white space between them, as much as any, and none where it isn't needed."""
        spaces = [" "] * 12 + ["", "", "\n", "\t", "\r\n", "  "]
        for place, word in enumerate(words):
            if place:
                yield self.source.choice(spaces)
            yield word.lower() if word.isalpha() and self.source.randrange(10) == 0 else word

    def clause(self):
        """The words of a clause that the grammar derives."""
        shape = self.source.randrange(12)
        if shape == 0:
            return ["CROSS", "JOIN"]
        if shape == 1:
            return ["NATURAL", *self.join_type(), "JOIN"]
        if shape < 4:
            names = self.listed(lambda: [self.source.choice(["a", "t", "key", '"a"', "KEY", "T", "zip", '"Key"'])])
            return [*self.join_type(), "JOIN", "USING", "(", *names, ")"]
        return [*self.join_type(), "JOIN", "ON", *self.condition(self.source.randrange(4))]

    def join_type(self):
        return self.source.choice([[], [], ["INNER"], ["LEFT"], ["RIGHT", "OUTER"], ["FULL"], ["FULL", "OUTER"], ["LEFT", "OUTER"]])

    def listed(self, member):
        found = member()
        for _ in range(self.source.choice([0, 0, 1, 2])):
            found = [*found, ",", *member()]
        return found

    def operand(self):
        if self.source.random() < 0.65:
            return [self.source.choice(NAMES)]
        return [self.source.choice(LITERALS[self.source.choice(["int", "int", "text"])])]

    def predicate(self, operand):
        """A predicate over operands that `operand` makes."""
        negation = self.source.choice([[], [], ["NOT"]])
        shape = self.source.randrange(6)
        if shape == 0:
            return [*operand(), "IS", *negation, "NULL"]
        if shape == 1:
            return [*operand(), *negation, "BETWEEN", *operand(), "AND", *operand()]
        if shape == 2:
            return [*operand(), *negation, "IN", "(", *self.listed(operand), ")"]
        return [*operand(), self.source.choice(OPERATORS), *operand()]

    def condition(self, depth, operand=None):
        """A condition; without parentheses where none are needed, so that precedence shows."""
        operand = operand or self.operand
        inner = lambda: self.condition(depth - 1, operand)
        shape = self.source.randrange(8) if depth > 0 else 9
        if shape < 2:
            return [*inner(), self.source.choice(["AND", "OR"]), *inner()]
        if shape == 2:
            return ["NOT", *inner()]
        if shape == 3:
            return ["(", *inner(), ")"]
        found = ["(", *inner(), ")"] if shape == 4 else self.predicate(operand)
        if self.source.random() < 0.2:
            found += ["IS", *self.source.choice([[], ["NOT"]]), self.source.choice(["TRUE", "FALSE", "UNKNOWN"])]
        return found

    def changed(self, words):
        """Words with a few cut out, put in, doubled or exchanged."""
        words = list(words)
        for _ in range(self.source.choice([1, 1, 2, 4])):
            at = self.source.randrange(len(words) + 1)
            how = self.source.randrange(4)
            if how == 0:
                words[at : at + 1] = []
            elif how == 1:
                words[at:at] = [self.source.choice(TOKENS)]
            elif how == 2:
                words[at : at + 1] = [self.source.choice(TOKENS)]
            else:
                words[at:at] = words[at : at + self.source.randrange(4)]
        return words

    def bytes_changed(self, text):
        """A text with a few characters cut out, put in or doubled."""
        for _ in range(self.source.choice([1, 2, 4])):
            at = self.source.randrange(len(text) + 1)
            piece = self.source.choice(["", "'", '"', "''", '""', "(", ")", " ", "\n", "é", "\u2028", ".", "-", "+", "1", "a", "_", "\x01", "<", "=", ">", "!", "\xa0"])
            text = text[:at] + piece + text[at + self.source.randrange(2) :]
        return text

    def nested(self):
        """About as many parentheses and NOTs as may nest, in and out of place."""
        words = ["JOIN", "ON"]
        deep = self.source.choice([0, 30, 31, 32, 62, 63, 64, 65])
        opened = 0
        while deep > 0:
            one = self.source.choice(["(", "(", "NOT"])
            opened += one == "("
            deep -= 1
            words.append(one)
        words += self.source.choice([["1", "=", "1"], ["a", "IS", "NOT", "NULL"], ["L.a", "NOT", "IN", "(", "1", ")"], ["'x"], []])
        words += [")"] * self.source.choice([opened, opened, opened, opened + 1, max(0, opened - 1)])
        return words + self.source.choice([[], [], [], ["IS", "NOT", "TRUE"], ["OR", "NOT", "(", "1", "=", "1", ")"], ["x"]])

    def lawful(self, types):
        """The bytes of a clause that binds, over tables of these types."""
        shape = self.source.randrange(6)
        if shape == 0:
            return " ".join(["NATURAL", *self.join_type(), "JOIN"]).encode()
        if shape == 1:
            names = self.source.sample(["a", "T", "key"], self.source.randrange(1, 4))
            return " ".join([*self.join_type(), "JOIN", "USING", "(", ", ".join(names), ")"]).encode()
        return " ".join([*self.join_type(), "JOIN", "ON", *self.condition_of(types)]).encode()

    def condition_of(self, types):
        """A condition whose comparisons are each of one type."""
        found = []
        for place in range(self.source.randrange(1, 4)):
            kind = self.source.choice(["int", "text"])
            columns = [f"{side}.{name.decode()}" for side, names, of in zip("LR", COLUMNS, types) for name, one in zip(names, of) if (one == "text") == (kind == "text")]
            operand = lambda: [self.source.choice(columns if columns and self.source.random() < 0.8 else LITERALS[kind])]
            words = self.condition(1, operand)
            found += [*([self.source.choice(["AND", "AND", "OR"])] if place else []), "(", *words, ")"]
        return found
