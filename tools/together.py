"""Edits that are tried together, in one check of a crate.

An edit that changes lines in the body of one function, and nothing else, can make no other function's proof fail, since a
proof knows a function by its contract alone. So edits of several functions stand in one copy of the crate, and each is
judged by what the check says of its own function: that function isn't proved, by an open goal or an error that stands in
it or among its proofs. It says nothing of a function where another one that it calls isn't proved. So functions that lead to each other, by
their names, aren't tried together. Whatever is in doubt is left to a try of the edit alone.
"""

import re
from pathlib import Path

# How many edits stand in one check at most.
MOST = 12
# What is said of a proof file that names what an edit took away.
NAMES = re.compile(r"(note: )?(\./)?proofs/.*(has no field|is not in scope|has no `|was not admitted)")
FUNCTION = re.compile(r" *(pub(\(\w+\))? )?((const|unsafe|final) )*fn (\w+)")


class Function:
    """A function of a laid out source: its name, the type whose method it is, its cycle, and its lines: the attributes, the head, up to its
    brace, and the body."""

    def __init__(self, file, lines, start, head, end):
        self.file, self.start, self.head, self.end = file, start, head, end
        self.first = start
        while self.first and re.match(r" *#\[", lines[self.first - 1]):
            self.first -= 1
        self.name = FUNCTION.match(lines[start]).group(5)
        self.body = "\n".join(lines[head + 1 : end])
        above = next((it for it in reversed(lines[:start]) if re.match(r"(impl|pub trait|trait)\b", it)), "") if lines[start].startswith(" ") else ""
        self.owner = owner_of(above)
        self.is_of_trait = bool(self.owner) and (not above.startswith("impl") or " for " in above)
        self.cycle = next((it.group(1) for it in attributes(lines, start) if it), None)
        self.module = [it for it in Path(file).with_suffix("").parts[1:] if it not in ("lib", "main", "mod")]

    def printed(self, crate, names):
        """The function's name as a check prints it, if just one fits."""
        owner = rf"\w*\b{self.owner}\w*::" if self.owner else ""
        wanted = re.compile("::".join([crate, *self.module, ""]) + owner + self.name)
        found = [it for it in names if wanted.fullmatch(it)]
        return found[0] if len(found) == 1 else None


def owner_of(line):
    """The type of an `impl` block, without its parameters; of a trait its name."""
    line = re.sub(r"<[^<>]*>", "", re.sub(r"<[^<>]*<[^<>]*>[^<>]*>", "", line))
    found = re.search(r" for (?:\w+::)*(\w+)", line) or re.match(r"(?:pub )?(?:impl|trait) (?:\w+::)*(\w+)", line)
    return found.group(1) if found else None


def attributes(lines, start):
    """The cycles that the attributes right above a function name."""
    at = start
    while at and re.match(r" *(#\[|///|//)", lines[at - 1]):
        at -= 1
        yield re.match(r" *#\[cycle\((\w+)\)\]", lines[at])


def functions_of(file, text, head_of):
    """The functions of a source, in order."""
    lines, at, found = text.splitlines(), 0, []
    while at < len(lines):
        if FUNCTION.match(lines[at]):
            head, end = head_of(lines, at)
            if end > head:
                found.append(Function(file, lines, at, head, end))
            at = end
        at += 1
    return found


def changed_lines(old, new):
    """The numbers of the lines that differ, where both texts have as many lines."""
    one, other = old.splitlines(), new.splitlines()
    return [at for at, pair in enumerate(zip(one, other)) if pair[0] != pair[1]] if len(one) == len(other) else None


class Sources:
    """The functions of a crate's sources, and which of them lead to which by their names."""

    def __init__(self, folder, head_of):
        self.folder = folder
        self.texts = {str(it.relative_to(folder)): it.read_text() for it in sorted((folder / "src").rglob("*.rt"))}
        self.functions = [it for file, text in self.texts.items() for it in functions_of(file, text, head_of)]
        names = {it.name for it in self.functions}
        calls = {}
        for it in self.functions:
            calls.setdefault(it.name, set()).update(set(re.findall(r"\b(\w+)", it.body)) & names)
        self.leads = {name: reached_from(calls, name) for name in names}

    def function_of(self, texts):
        """The one function in whose body an edit's changes stand, if there is one."""
        found = []
        for file, text in texts.items():
            places = changed_lines(self.texts[file], text) if file in self.texts else None
            if not places:
                return None
            for at in places:
                found += [it for it in self.functions if it.file == file and it.head < at < it.end] or [None]
        return found[0] if found and all(it is found[0] for it in found) else None

    def apart(self, one, other):
        """Whether neither function leads to the other one, and no cycle has both."""
        is_apart = other.name not in self.leads[one.name] and one.name not in self.leads[other.name]
        return is_apart and one.name != other.name and (one.cycle is None or one.cycle != other.cycle)


def reached_from(calls, name):
    """All names that a function's name leads to."""
    found, left = set(), [name]
    while left:
        for it in calls.get(left.pop(), ()):
            if it not in found:
                found.add(it)
                left.append(it)
    return found


class Together:
    """A batch of edits, each with the function that it changes and the texts that it makes."""

    def __init__(self):
        self.edits = []

    def takes(self, sources, function, texts):
        """Whether an edit can be tried with those that are here."""
        return len(self.edits) < MOST and all(sources.apart(function, it) for _, it, _ in self.edits)

    def add(self, edit, function, texts):
        self.edits.append((edit, function, texts))

    def texts(self, sources):
        """The texts of the sources with all edits made."""
        made = {}
        for _, _, texts in self.edits:
            for file, text in texts.items():
                now = made.setdefault(file, sources.texts[file].splitlines(keepends=True))
                for at in changed_lines(sources.texts[file], text):
                    now[at] = text.splitlines(keepends=True)[at]
        return {file: "".join(lines) for file, lines in made.items()}


def batches(sources, edits):
    """Divides edits, each with its function and texts, among batches."""
    found = []
    for edit, function, texts in edits:
        batch = next((it for it in found if it.takes(sources, function, texts)), None)
        if batch is None:
            batch = Together()
            found.append(batch)
        batch.add(edit, function, texts)
    return found


def refusal(said, crate, function):
    """What a check said that refuses a function by what is stated, if it did; None where that is in doubt."""
    lines = said.splitlines()
    told = {found.group(1): found.group(2) for it in lines if (found := re.match(r"fn (\S+): (.*)", it))}
    name = function.printed(crate, told)
    if not name or not re.match(r"not proved$|no proof: expected answers in ", told[name]) or "did not prove" not in told[name] and told[name] != "not proved":
        return None
    folder = f"+{function.cycle}" if function.cycle else "/".join(name.split("::")[1:])
    own = []
    for it in lines:
        place = re.match(r"(?:note: )?(?:\./)?(\S+?):(\d+):\d+:", it)
        in_proofs = place and place.group(1).startswith(f"proofs/{folder}/")
        if place and (in_proofs or place.group(1) == function.file and function.first < int(place.group(2)) <= function.end + 1):
            own.append(it)
    own = [it for it in own if ": error" in it or it.startswith("note: ")]
    return next((it for it in own if not NAMES.match(it)), None)
