"""The grammar of docs/user/specification.md itself, and Earley's recogniser over it: which token is the first with which the
tokens so far begin no clause. It stands beside the reader of clause.py, which it has to agree with."""
import pathlib
import re

PAGE = pathlib.Path(__file__).resolve().parents[2] / "docs" / "user" / "specification.md"
# Rules that stand for one token each.
TOKENS = {"name"}


def rules_of(page):
    """The rules that a page has in its indented block: a name, and the words on its right."""
    block = re.search(r"(?:^    \S.*\n|^     .*\n)+", page[page.index("    clause ") :], re.MULTILINE)[0]
    rules, name = {}, None
    for line in block.splitlines():
        started = re.match(r"    (\w+) +=(?= )", line)
        if started:
            name, line = started[1], line[started.end() :]
            rules[name] = []
        rules[name] += re.findall(r"[\[\]{}|]|[^\s\[\]{}|]+", line)
    return {name: words for name, words in rules.items() if name not in TOKENS}


class Grammar:
    """Productions by name; what is no name is a kind of token."""

    def __init__(self, page):
        self.rules = {}
        for name, words in rules_of(page).items():
            self.rules[name] = self.alternatives(list(reversed(words)), None)
        self.rules["whole"] = [("clause", "end")]
        self.empty = self.names_of_nothing()

    def alternatives(self, words, closing):
        """The alternatives up to the closing word; takes them off the end of the words."""
        found = [[]]
        while words:
            word = words.pop()
            if word == closing:
                break
            if word == "|":
                found.append([])
            elif word in "[{":
                found[-1].append(self.part(words, word))
            else:
                found[-1].append(word)
        return [tuple(one) for one in found]

    def part(self, words, opening):
        """A new name for an optional part, or for one that may stand any number of times."""
        name = f"part {len(words)} {len(self.rules)} {opening}"
        body = self.alternatives(words, "]" if opening == "[" else "}")
        again = () if opening == "[" else (name,)
        self.rules[name] = [(), *[one + again for one in body]]
        return name

    def names_of_nothing(self):
        """The names that may stand for no token."""
        found = set()
        while True:
            more = {name for name, bodies in self.rules.items() if any(found.issuperset(body) for body in bodies)}
            if more == found:
                return found
            found = more

    def closed(self, sets):
        """The last set of items with all that follows from them. An item is a name, its body, a place in it, and where it began."""
        items, place = sets[-1], len(sets) - 1
        todo = list(items)
        while todo:
            name, body, at, start = todo.pop()
            more = []
            if at == len(body):
                more = [(n, b, a + 1, s) for n, b, a, s in sets[start] if a < len(b) and b[a] == name]
            elif body[at] in self.rules:
                more = [(body[at], one, 0, place) for one in self.rules[body[at]]]
                if body[at] in self.empty:
                    more.append((name, body, at + 1, start))
            fresh = [item for item in more if item not in items]
            items.update(fresh)
            todo += fresh

    def first_fault(self, kinds):
        """The place of the first kind of token with which the kinds so far begin no clause; None for a whole clause."""
        sets = [{("whole", ("clause", "end"), 0, 0)}]
        self.closed(sets)
        for place, kind in enumerate(kinds):
            moved = {(n, b, a + 1, s) for n, b, a, s in sets[-1] if a < len(b) and b[a] == kind}
            if not moved:
                return place
            sets.append(moved)
            self.closed(sets)
        return None


CLAUSES = Grammar(PAGE.read_text())
