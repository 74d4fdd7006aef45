"""One run of the program: its tables are written to it by pipes, while what it writes is read."""
from __future__ import annotations

import contextlib
import fcntl
import os
import signal
import subprocess
import tempfile
import threading
from typing import IO, Any, BinaryIO, Iterator, List, Mapping, Optional, Sequence, Tuple, Union, cast

from . import pipes
from .faults import fault_of
from .programs import encoded, environment
from .tables import Table

_SET_PIPE_SIZE = getattr(fcntl, "F_SETPIPE_SZ", 1031)
_PIPE = 1 << 20


def _pipe() -> Tuple[int, int]:
    """A pipe, with room for more than the usual 64 KiB where the system allows it."""
    ends = pipes.pipe()
    with contextlib.suppress(OSError):
        fcntl.fcntl(ends[1], _SET_PIPE_SIZE, _PIPE)
    return ends


class _Feeder(threading.Thread):
    """Writes tables into pipes, in the order in which the program reads them."""

    def __init__(self, feeds: List[Tuple[Table, int]], nulls: Mapping[str, str]) -> None:
        super().__init__(name="radixjoin", daemon=True)
        self.feeds = feeds
        # What is written for null in the table of each side.
        self.nulls = nulls
        self.process: Optional[subprocess.Popen[bytes]] = None
        # What went wrong with a table.
        self.failed: Optional[BaseException] = None

    def run(self) -> None:
        """What goes wrong ends the program first: it never takes the beginning of a table for the whole."""
        while self.feeds:
            table, number = self.feeds[0]
            try:
                with open(number, "wb", buffering=0, closefd=False) as pipe:
                    for chunk in table.chunks(self.nulls[table.side]):
                        if not _is_taken(pipe, chunk):
                            break
            except BaseException as error:  # pylint: disable=broad-except
                self.failed = error
                cast("subprocess.Popen[bytes]", self.process).kill()
            self.close_first()

    def close_first(self) -> None:
        """Closes the pipe of the first table."""
        os.close(self.feeds.pop(0)[1])


class Run:
    """The program at work. `close` ends it, wherever it is: killed and waited for, with nothing left behind."""

    def __init__(self, program: str, words: Sequence[Union[str, bytes]], tables: Sequence[Table], nulls: Mapping[str, str], output: Union[int, IO[Any]]) -> None:
        self._tables = tables
        self._feeder = _Feeder([], nulls)
        self._process: Optional[subprocess.Popen[bytes]] = None
        self._told = tempfile.TemporaryFile()
        given: List[int] = []
        lent: List[int] = []
        try:
            files = [b"--%s=%s" % (table.side.encode(), self._file(table, given, lent)) for table in tables]
            line = [encoded(program), *files, *map(encoded, words)]
            with _uninterrupted():
                self._process = subprocess.Popen(line, stdin=subprocess.DEVNULL, stdout=output, stderr=self._told, pass_fds=given + lent, env=environment())
                while given:
                    os.close(given.pop())
                self._feeder.process = self._process
                self._feeder.start()
        except BaseException:
            while given:
                os.close(given.pop())
            self.close()
            raise

    def _file(self, table: Table, given: List[int], lent: List[int]) -> bytes:
        """The name by which the program opens a table: a path, or an open file or pipe of this process that it is given."""
        path = table.opened()
        if path is not None:
            return path
        number = table.descriptor()
        if number is None:
            number, writes = _pipe()
            given.append(number)
            self._feeder.feeds.append((table, writes))
        elif number < pipes.LEAST:
            number = pipes.above(number)
            given.append(number)
        else:
            lent.append(number)
        return b"/dev/fd/%d" % number

    @property
    def stdout(self) -> BinaryIO:
        """What the program writes."""
        return cast(BinaryIO, cast("subprocess.Popen[bytes]", self._process).stdout)

    def end(self) -> str:
        """Waits for the program's end, and gives what it told on standard error. A fault that it told is raised, and so is what
        went wrong with a table while it was written."""
        process = cast("subprocess.Popen[bytes]", self._process)
        status = process.wait()
        if self._feeder.failed is not None:
            raise self._feeder.failed
        self._told.seek(0)
        told = self._told.read().decode("utf-8", "replace")
        if status < 0:
            raise RuntimeError(f"radixjoin was ended by signal {-status}")
        if status:
            raise fault_of(told, status)
        return told

    def close(self) -> None:
        """Ends the program, if it isn't at its end, and gives back all that the run took."""
        if self._process is not None:
            if self._process.poll() is None:
                self._process.kill()
            self._process.wait()
            if self._process.stdout is not None:
                self._process.stdout.close()
        self._told.close()
        if self._feeder.ident is None:
            while self._feeder.feeds:
                self._feeder.close_first()
        else:
            # Nobody reads its pipe any more; but a file of the caller's may keep it waiting, and it ends with that.
            self._feeder.join(None if all(table.is_written for table in self._tables) else 1)
        if not self._feeder.is_alive():
            for table in self._tables:
                table.close()

    def __del__(self) -> None:
        if hasattr(self, "_told"):
            self.close()


@contextlib.contextmanager
def _uninterrupted() -> Iterator[None]:
    """Holds an interrupt by the keyboard back to the end of the block, so that no program starts that nobody knows of."""
    before = signal.getsignal(signal.SIGINT)
    if threading.current_thread() is not threading.main_thread() or not callable(before):
        yield
        return
    came: List[Tuple[int, Any]] = []
    signal.signal(signal.SIGINT, lambda number, frame: came.append((number, frame)))
    try:
        yield
    finally:
        signal.signal(signal.SIGINT, before)
        if came:
            before(*came[0])


def _is_taken(pipe: Any, chunk: bytes) -> bool:
    """Writes all of a chunk. It gives whether the program took it, or doesn't read the pipe any more."""
    rest = memoryview(chunk)
    try:
        while rest:
            rest = rest[pipe.write(rest) :]
    except BrokenPipeError:
        return False
    return True
