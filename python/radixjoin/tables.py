"""The tables that are joined: of a path or an open file. Rows stand in `given_rows`, and frames in `frames`."""
from __future__ import annotations

import errno
import io
import os
import stat
from abc import ABC, abstractmethod
from typing import Any, BinaryIO, Dict, FrozenSet, Iterator, List, Mapping, Optional, Sequence

from . import text
from .columns import Column, Types, by_name, declared_of, list_of_types, text_of, words_under
from .lists import is_by_name

_CHUNK = 1 << 20
# What stands between the fields of a file of which nothing else is said, and of what this package writes.
SIGN = ","
# Names of the tab.
_TABS = ("tab", "\\t")
# What the names of a process's own files begin with.
_OWN = ("/dev/stdin", "/dev/fd/", "/proc/self/")


def sign_of(delimiter: str) -> str:
    """The sign that a delimiter's word means."""
    return "\t" if delimiter in _TABS else delimiter


class Table(ABC):
    """One side of a join."""

    side: str
    # Whether this package writes the table's text, so that its nulls are known from its texts.
    is_written = True

    @abstractmethod
    def words(self) -> List[str]:
        """The types of the columns."""

    def types_given(self) -> str:
        """The list of types, as the program is given it."""
        return list_of_types(self.words())

    def needs_names(self) -> bool:
        """Whether the types of the columns are known by their names alone."""
        return False

    @abstractmethod
    def names(self) -> List[str]:
        """The names of all columns."""

    @abstractmethod
    def columns(self) -> List[Column]:
        """The columns that the program is given, with their names."""

    @abstractmethod
    def chunks(self, null: str) -> Iterator[bytes]:
        """The text of the table, with this null text."""

    def read(self) -> None:
        """Reads what can be read once only, before the program is started."""

    def opened(self) -> Optional[bytes]:
        """The name of the file, where the program opens it itself."""
        return None

    def descriptor(self) -> Optional[int]:
        """The number of an open file that the program reads from its beginning, where there is one."""
        return None

    def seen(self, texts: FrozenSet[str]) -> Dict[str, str]:
        """Which of some texts are cells of the table, each with a column that has it."""
        return {}

    def close(self) -> None:
        """Gives back what the table holds."""


class _Given(Table):
    """A table whose text is there already. Its types are declared, and its names are read where they are needed."""

    is_written = False

    def __init__(self, side: str, types: Types, delimiter: str) -> None:
        if types is None:
            raise ValueError(f"{side}_types has to be given: of a file types are declared, never guessed (radixjoin --suggest-types FILE prints a list to look at)")
        self.side = side
        self.delimiter = sign_of(delimiter)
        # The types by Python's own names of columns, or the program's list of them.
        self.by_name = types if isinstance(types, Mapping) else {}
        self.list = None if isinstance(types, Mapping) else text_of(side, types)

    def words(self) -> List[str]:
        if self.list is not None:
            return words_under(self.list, self.names() if is_by_name(self.list) else [])
        names = self.names()
        # (where there are none the program tells why)
        return by_name(self.side, self.by_name, names) if names else ["text"]

    def types_given(self) -> str:
        return self.list if self.list is not None and is_by_name(self.list) else super().types_given()

    def needs_names(self) -> bool:
        return self.list is None or is_by_name(self.list)

    def columns(self) -> List[Column]:
        return [Column(name, word) for name, word in zip(self.names(), self.words())]

    def names(self) -> List[str]:
        return text.header_in(self.head(), self.delimiter)

    def head(self) -> bytes:
        """The first bytes of the file."""
        raise NotImplementedError


class PathTable(_Given):
    """A regular file of some name."""

    def __init__(self, side: str, path: Any, types: Types, delimiter: str = SIGN) -> None:
        super().__init__(side, types, delimiter)
        self.path = os.fsencode(path)

    def opened(self) -> Optional[bytes]:
        return b"./-" if self.path == b"-" else self.path

    def head(self) -> bytes:
        try:
            with open(self.path, "rb") as file:
                return file.read(_CHUNK)
        except OSError:
            return b""

    def chunks(self, null: str) -> Iterator[bytes]:
        return iter(())


class FileTable(_Given):
    """An open binary file, which is read from where it stands."""

    def __init__(self, side: str, file: BinaryIO, types: Types, delimiter: str = SIGN, owned: bool = False) -> None:
        super().__init__(side, types, delimiter)
        self.file = file
        self.is_owned = owned
        self.begun: Optional[bytes] = None

    def descriptor(self) -> Optional[int]:
        try:
            number = self.file.fileno()
            is_whole = stat.S_ISREG(os.fstat(number).st_mode) and self.file.tell() == 0
        except (AttributeError, OSError, io.UnsupportedOperation):
            return None
        return number if is_whole and self.begun is None and isinstance(self.file, (io.BufferedReader, io.BufferedRandom, io.FileIO)) else None

    def head(self) -> bytes:
        number = self.descriptor()
        if number is not None:
            return os.pread(number, _CHUNK, 0)
        if self.begun is None:
            self.begun = read = self._read()
            while read and len(self.begun) < _CHUNK and text.end_of_record(self.begun) == len(self.begun):
                # (a pipe gives what it has, which may be a part of the header)
                read = self._read()
                self.begun += read
        return self.begun

    def _read(self) -> bytes:
        """The next bytes, none at the end."""
        read = self.file.read(_CHUNK)
        if read is None:
            raise BlockingIOError(errno.EAGAIN, f"the {self.side} file doesn't wait for what comes later; it has to be one that does (os.set_blocking)")
        if not isinstance(read, (bytes, bytearray, memoryview)):
            raise TypeError(f"the {self.side} file is open for text; it has to be opened with mode 'rb'")
        return bytes(read)

    def chunks(self, null: str) -> Iterator[bytes]:
        read = self._read() if self.begun is None else self.begun
        while read:
            yield read
            read = self._read()

    def close(self) -> None:
        if self.is_owned:
            self.file.close()


def table_of_path(side: str, path: Any, types: Types, delimiter: str) -> Table:
    """The table of a path. A pipe that has a name is opened here, since its header can be read only once, and so is what has another
    meaning for the program, as its own standard input."""
    try:
        is_opened = stat.S_ISFIFO(os.stat(path).st_mode) or os.fsdecode(path).startswith(_OWN)
    except OSError:
        is_opened = False
    return FileTable(side, open(path, "rb"), types, delimiter, owned=True) if is_opened else PathTable(side, path, types, delimiter)


class HeaderTable(Table):
    """The columns of another table without its rows: what the program tells of a clause, and of the names of its result, stands on no more."""

    def __init__(self, side: str, names: List[str], words: Mapping[str, str]) -> None:
        self.side = side
        self._names = names
        # The types that are known, by name. No other column is compared.
        self._words = words

    def words(self) -> List[str]:
        return [self._words.get(name, "text") for name in self._names]

    def names(self) -> List[str]:
        return self._names

    def columns(self) -> List[Column]:
        return [Column(name, word) for name, word in zip(self._names, self.words())]

    def chunks(self, null: str) -> Iterator[bytes]:
        yield text.header(self._names)
