"""The parts of a range in one file: their bytes, one part behind another, and behind them an index.

The index has, little-endian, the byte at which each part begins and that behind the last one (8 bytes each), the CRC-32 of each
part's bytes (4 bytes each), and the two numbers that `shards` told of the range: its rows, and the bytes of the header of a part
(8 bytes each). By the sums a part is told that was given back, or that a file system didn't keep.
"""
from __future__ import annotations

import codecs
import contextlib
import ctypes
import errno
import functools
import os
import struct
import zlib
from typing import BinaryIO, Generator, Iterator, List, Sequence, Tuple

from .ending import go_on

# The bytes of a table that a join takes: stretches of files, from which byte up to which one, the first of which is the header, and
# the sum of all these bytes.
Run = Tuple[List[Tuple[str, int, int]], int]
_CHUNK = 1 << 20
# What fallocate(2) is to do: to take the bytes out of the file, whose size stays (FALLOC_FL_PUNCH_HOLE, FALLOC_FL_KEEP_SIZE).
_TAKE_OUT = 3


def _form(count: int) -> str:
    """The form of the index of so many parts."""
    return f"<{count + 1}Q{count}I2Q"


def _chunks(file: BinaryIO, size: int) -> Iterator[bytes]:
    """So many bytes of a file, or those up to its end."""
    while size > 0:
        go_on()
        chunk = file.read(min(size, _CHUNK))
        if not chunk:
            return
        yield chunk
        size -= len(chunk)


def _append(path: str, whole: BinaryIO) -> int:
    """Puts the bytes of a file behind others, and removes the file. It gives their sum."""
    total = 0
    with open(path, "rb") as part:
        for chunk in _chunks(part, os.fstat(part.fileno()).st_size):
            total = zlib.crc32(chunk, total)
            whole.write(chunk)
    os.remove(path)
    return total


def part_in(folder: str, part: int) -> str:
    """The path of a part that `shards` wrote to a folder."""
    return os.path.join(folder, f"{part:04}.csv")


def pack(folder: str, count: int, told: Tuple[int, int], path: str) -> None:
    """Puts so many parts, which stand in a folder and are removed one by one, into one file, with what `shards` told of the range."""
    ends: List[int] = [0]
    sums: List[int] = []
    with open(path, "wb") as whole:
        for part in range(count):
            sums.append(_append(part_in(folder, part), whole))
            ends.append(whole.tell())
        whole.write(struct.pack(_form(count), *ends, *sums, *told))


def _index(file: BinaryIO, count: int) -> Tuple[int, ...]:
    """The numbers of the index of so many parts."""
    form = _form(count)
    file.seek(-struct.calcsize(form), os.SEEK_END)
    return struct.unpack(form, file.read())


def told_of(path: str, count: int) -> Tuple[int, int]:
    """What `shards` told of a range: how many rows it has, and how many bytes the header of a part."""
    with open(path, "rb") as file:
        rows, header = _index(file, count)[-2:]
    return rows, header


def sizes_of(path: str, count: int) -> List[int]:
    """How many bytes the rows of each part of a range have."""
    with open(path, "rb") as file:
        index = _index(file, count)
    return [end - begin - index[-1] for begin, end in zip(index, index[1 : count + 1])]


class Part:
    """A part in the file of a range, as it is read from its first byte to its last: its header, and then its rows."""

    def __init__(self, file: BinaryIO, count: int, part: int) -> None:
        index = _index(file, count)
        # (and the byte of the file at which the rows begin)
        self.begin, self.end, self.rows = index[part], index[part + 1], index[part] + index[-1]
        self._file, self._sum, self._total = file, index[count + 1 + part], 0
        file.seek(self.begin)

    def read(self, size: int, /) -> bytes:
        """No more than so many of the next bytes; none at the end.

        Raises:
            FileNotFoundError: at the end, where these aren't the bytes that were written.
        """
        go_on()
        chunk = self._file.read(min(size, self.end - self._file.tell()))
        self._total = zlib.crc32(chunk, self._total)
        if not chunk and self._total != self._sum:
            raise changed(self._file.name)
        return chunk

    def header(self) -> bytes:
        """The header, which is read first."""
        return self.read(self.rows - self.begin)


def changed(path: str) -> FileNotFoundError:
    """The error of bytes of a file that were given back, or that a file system didn't keep."""
    return FileNotFoundError(errno.ENOENT, "the rows of a part aren't there as they were written", path)


@contextlib.contextmanager
def opened(path: str, count: int, part: int) -> Iterator[Part]:
    """A part of a file of so many."""
    with open(path, "rb") as file:
        yield Part(file, count, part)


def header_of_table(header: bytes) -> bytes:
    """The header of a table. Before a name that begins with a byte order mark stands another one, which is dropped."""
    return codecs.BOM_UTF8 + header if header.startswith(codecs.BOM_UTF8) else header


def rows_of_part(paths: Sequence[str], count: int, part: int) -> Generator[bytes, None, None]:
    """The rows of a part from all ranges of a file, in order, behind one header.

    Raises:
        FileNotFoundError: before the end, where the part was given back, or isn't as it was written.
    """
    for number, it in enumerate(paths):
        with opened(it, count, part) as rows:
            header = rows.header()
            if number == 0:
                yield header_of_table(header)
            yield from iter(functools.partial(rows.read, _CHUNK), b"")


def rows_of_run(run: Run) -> Generator[bytes, None, None]:
    """The rows of a run behind its header.

    Raises:
        FileNotFoundError: before the end, where a part was given back, or isn't as it was written.
    """
    stretches, wanted = run
    total, is_header = 0, True
    for name, begin, end in stretches:
        with open(name, "rb") as file:
            file.seek(begin)
            for chunk in _chunks(file, end - begin):
                total = zlib.crc32(chunk, total)
                yield header_of_table(chunk) if is_header else chunk
                is_header = False
    if total != wanted:
        raise changed(stretches[-1][0])


def give_back(path: str, count: int, part: int) -> None:
    """Gives back the room of a part that isn't needed any more, where the file system can do that within a file."""
    with contextlib.suppress(OSError, AttributeError):
        with open(path, "r+b") as file:
            begin, end = _index(file, count)[part : part + 2]
            ctypes.CDLL(None).fallocate(file.fileno(), _TAKE_OUT, ctypes.c_int64(begin), ctypes.c_int64(end - begin))
