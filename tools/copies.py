"""Edits that are tried in copies of the functions that they change, all of a crate in a few checks.

A function's contract stands with each copy of it, and its proof with a copy of its proof's folder. Nobody calls a copy, and what a
copy calls is as it was: so the copies of one function, of those that it calls and of those that call it can stand in one check, where
such edits of the functions themselves can't (tools/together.py). A copy of the function as it is stands beside them. Where that one is
proved and the copy with the edit isn't, by an open goal or an error that stands in it or among its proofs, the edit is refused. Whatever
is in doubt is left to a try of the edit itself: methods of traits, of which there can be no copy, functions that are proved in one with
others that call them, and a copy that isn't proved as it is.
"""

import re
from pathlib import Path

import together

# How many copies with an edit stand in one check at most: with more of them the last check of a crate of dear functions takes long when
# all others are done, and with fewer the libraries are read more often.
MOST = 15


def are_copied(edits):
    """Edits, each with its function and texts, whose functions can be copied, and the others."""
    can = [it for it in edits if not it[1].is_of_trait and it[1].cycle is None]
    return can, [it for it in edits if it not in can]


def groups(edits):
    """Divides edits, those of one function side by side, among checks."""
    edits = sorted(edits, key=lambda it: (it[1].file, it[1].start))
    count = -(-len(edits) // MOST)
    return [edits[len(edits) * at // count : len(edits) * (at + 1) // count] for at in range(count)]


def lines_of(function, text, name):
    """The lines of a function in a text of its file, with its attributes, under another name."""
    lines = text.splitlines()
    first = re.sub(rf"\bfn {function.name}\b", f"fn {name}", lines[function.start], count=1)
    return [*lines[function.first : function.start], first, *lines[function.start + 1 : function.end + 1]]


class Copies:
    """Copies of functions, one for each edit of a group and one of each function as it is."""

    def __init__(self, sources, crate, edits):
        self.sources, self.crate = sources, crate
        # Of each edit its function, and the names of the copy with it and of the copy without.
        self.copies = [(edit, function, f"{function.name}__{at}", f"{function.name}__as_it_is", texts) for at, (edit, function, texts) in enumerate(edits)]
        self.texts = {**self._sources(), **self._proofs()}

    def _named(self):
        """Each copy once: its function, its name and the text of the file that it is taken from."""
        for _, function, name, as_it_is, texts in self.copies:
            yield function, as_it_is, self.sources.texts[function.file]
            yield function, name, texts[function.file]

    def _sources(self):
        """The sources with the copies, each behind its function."""
        behind = {}
        for function, name, text in self._named():
            behind.setdefault(function.file, {}).setdefault(function.end, {})[name] = lines_of(function, text, name)
        made = {}
        for file, copies in behind.items():
            lines = self.sources.texts[file].splitlines()
            for end in sorted(copies, reverse=True):
                lines[end + 1 : end + 1] = [line for copy in copies[end].values() for line in ["", *copy]]
            made[file] = "\n".join(lines) + "\n"
        return made

    def _proofs(self):
        """The proofs of the copies, which name their own copy."""
        made = {}
        for function, name, _ in self._named():
            parts = [*function.module, *([function.owner] if function.owner else [])]
            own = self.sources.folder.joinpath("proofs", *parts, function.name)
            words = ".".join(["Rattle", self.crate, "proofs", *parts])
            for path in own.rglob("*.antt") if own.is_dir() else ():
                to = Path("proofs", *parts, name, path.relative_to(own))
                made[str(to)] = path.read_text().replace(f"{words}.{function.name}.", f"{words}.{name}.")
        return made

    def judged(self, said, head_of):
        """What a check of the crate with these copies says: of each edit why it is refused, or None where that is in doubt."""
        made = [it for file in self._sources() for it in together.functions_of(file, self.texts[file], head_of)]
        told = {found.group(1): found.group(2) for it in said.splitlines() if (found := re.match(r"fn (\S+): (.*)", it))}
        for edit, function, name, as_it_is, _ in self.copies:
            copy, other = (next(it for it in made if it.name == word and it.file == function.file and it.owner == function.owner) for word in (name, as_it_is))
            is_proved = told.get(other.printed(self.crate, told)) == "proved"
            yield edit, together.refusal(said, self.crate, copy) if is_proved else None
