"""The texts that stand for null: in each of the two tables, and in what is written."""
from __future__ import annotations

import itertools
import random
import string
from typing import Any, Dict, FrozenSet, List, Optional, Sequence, Union

from .programs import words_of
from .tables import Table

# One text, or up to four.
Texts = Union[str, Sequence[str], None]
SIDES = ("left", "right")
# Texts that are tried first.
TRIED = ("", "\\N", "NULL", "null", "~", "-", "?", "None")


def texts_of(name: str, given: Texts) -> List[str]:
    """The texts that an argument gives, none where it isn't given. How many there may be the program tells."""
    if given is None:
        return []
    texts = [given] if isinstance(given, str) else list(given)
    if not texts or not all(isinstance(text, str) for text in texts):
        raise ValueError(f"{name}= is a text, or a list of up to four texts")
    return texts


class Nulls:
    """The texts that stand for null in a join."""

    def __init__(self, null: Optional[str], left_null: Texts, right_null: Texts, out_null: Optional[str]) -> None:
        # That of `null=`, which stands for each of the others that isn't given.
        self.null = null
        self.given = {"left": texts_of("left_null", left_null), "right": texts_of("right_null", right_null)}
        self.written = out_null

    def watched(self) -> FrozenSet[str]:
        """The texts that cells of the tables are looked through for."""
        return frozenset([*TRIED, *itertools.chain(*self.given.values()), *(text for text in (self.null, self.written) if text is not None)])

    def of(self, side: str) -> List[str]:
        """Those of a table. A table that this package writes has the first of them in the place of nulls."""
        return self.given[side] or [self.null or ""]

    @property
    def out(self) -> str:
        """The one that is written for null."""
        return self.written if self.written is not None else self.null or ""

    def choose(self, tables: Sequence[Table], is_read: bool, is_told: bool) -> None:
        """Chooses what isn't given. Where this package writes all that is read, and reads all that is written, the null text is one
        that no cell has; where it reads what is written, the one written for null is one of both tables, or one that nobody
        has made before. One that is given for it stays where the program tells a cell that has it."""
        is_free = self.null is None and self.written is None and not any(self.given.values())
        is_open = any(self.given.values()) if self.written is None else not is_told
        if is_read and is_free and all(table.is_written for table in tables):
            self.null = _free(tables)
            return
        if is_read and is_open:
            common = [text for text in [self.out, *self.of("left")] if all(text in self.of(side) for side in SIDES)]
            self.written = common[0] if common else "~" + "".join(random.SystemRandom().choices(string.ascii_lowercase, k=15))
        for table in tables:
            texts = table.seen(frozenset([*self.of(table.side), self.out]))
            if texts:
                text, column = next(iter(texts.items()))
                raise ValueError(f"{table.side} column {column!r} has the text {text!r}, which stands for null: give null= or {table.side}_null= a text that no cell has")

    def words(self, known: FrozenSet[str]) -> List[str]:
        """The words that tell the program, which has these options."""
        by_side: Dict[str, List[Any]] = {f"{side}_null": self.given[side] for side in SIDES}
        by_side["out_null"] = [self.out] if self.out != (self.null or "") else []
        return [f"--null={self.null}"] * bool(self.null) + [word for name, texts in by_side.items() for text in texts for word in words_of(known, name, text)]


def _free(tables: Sequence[Table]) -> str:
    """A null text that no cell has."""
    taken = {found for table in tables for found in table.seen(frozenset(TRIED))}
    free = next((it for it in TRIED if it not in taken), None)
    if free is not None:
        return free
    made = ("~" + "".join(letters) for count in range(1, 16) for letters in itertools.product(string.ascii_lowercase, repeat=count))
    return next(it for it in made if not any(table.seen(frozenset([it])) for table in tables))
