"""The delimiters: of the files that are joined, and of the one that is written. What this package writes for the program, and what it
reads of it, has commas."""
from __future__ import annotations

from typing import Dict, FrozenSet, List, Optional, Sequence

from .nulls import SIDES
from .programs import words_of
from .tables import SIGN, Table


class Delimiters:
    """The delimiters of a join as they were asked for."""

    def __init__(self, common: Optional[str], left: Optional[str], right: Optional[str], out: Optional[str]) -> None:
        # That of `delimiter=`, which stands for each of the others that isn't given.
        self.common = common
        self.given: Dict[str, Optional[str]] = {"left": left, "right": right, "out": out}

    def of(self, what: str) -> str:
        """That of a side's file, or of the file that is written (`out`)."""
        own = self.given[what]
        return own if own is not None else self.common if self.common is not None else SIGN

    def refuse(self, tables: Sequence[Table], is_written: bool) -> None:
        """Refuses a delimiter of what is no file.

        Raises:
            ValueError: a table, or the result, is none.
        """
        files = [it.side for it in tables if not it.is_written] + ["out"] * is_written
        for side in SIDES:
            if self.given[side] is not None and side not in files:
                raise ValueError(f"{side}_delimiter= is of a file, and the {side} table is none")
        if self.given["out"] is not None and not is_written:
            raise ValueError("out_delimiter= is of the file that output= names, and there is none")
        if self.common is not None and not files:
            raise ValueError("delimiter= is of files, and neither table is one, nor is the result")

    def words(self, known: FrozenSet[str], tables: Sequence[Table], is_written: bool) -> List[str]:
        """The words that tell the program, which has these options, of these tables: those of files that have no commas."""
        files = [it.side for it in tables if not it.is_written] + ["out"] * is_written
        return [word for what in files if self.of(what) != SIGN for word in words_of(known, f"{what}_delimiter", self.of(what))]
