"""Bytes as what a program reads: it gets the names of pipes, which are written while it runs."""
from __future__ import annotations

import contextlib
import os
import resource
import selectors
import subprocess
from typing import Any, Generator, List, Sequence, Tuple

from .ending import go_on
from .pipes import pipe
from .programs import environment

# What a program reads as one input: what stands before its name among the program's words, and its bytes, from one file at a time.
Input = Tuple[str, Generator[bytes, None, None]]
# How many files are open for each input: one that its bytes are of, and both ends of its pipe.
FILES_OF_INPUT = 3
_CHUNK = 1 << 16
# The seconds after which a task that waits for a program asks again whether it is to go on.
_TURN = 0.1


def bytes_of(path: str, stretches: Sequence[Tuple[int, int]]) -> Generator[bytes, None, None]:
    """The bytes of a file from which one up to which one, one stretch after another."""
    with open(path, "rb", buffering=0) as file:
        for at, end in stretches:
            while at < end:
                chunk = os.pread(file.fileno(), min(end - at, _CHUNK), at)
                if not chunk:
                    raise OSError(f"{path} has lost bytes")
                yield chunk
                at += len(chunk)


class _Feed:
    """What is still to be written into the pipe of an input."""

    def __init__(self, given: Input, stack: contextlib.ExitStack) -> None:
        before, chunks = given
        self.chunks = stack.enter_context(contextlib.closing(chunks))
        self.chunk = memoryview(b"")
        reads, writes = pipe()
        self.reads = stack.enter_context(open(reads, "rb", buffering=0))
        self.writes = stack.enter_context(open(writes, "wb", buffering=0))
        os.set_blocking(writes, False)
        self.word = f"{before}/dev/fd/{reads}"

    def is_done(self) -> bool:
        """Whether all is written, after what the pipe takes now. Where the program doesn't read any more, it is."""
        try:
            while self._has_more():
                self.chunk = self.chunk[os.write(self.writes.fileno(), self.chunk) :]
        except BlockingIOError:
            return False
        except BrokenPipeError:
            pass
        return True

    def _has_more(self) -> bool:
        """Whether there is a chunk to be written, which is read where there is none."""
        while not self.chunk:
            chunk = next(self.chunks, None)
            if chunk is None:
                return False
            self.chunk = memoryview(chunk)
        return True


def _allow_many_files() -> None:
    """Lets this process have as many files open as it may."""
    most = resource.getrlimit(resource.RLIMIT_NOFILE)[1]
    with contextlib.suppress(OSError, ValueError):
        resource.setrlimit(resource.RLIMIT_NOFILE, (most, most))


def _write(feeds: Sequence[_Feed]) -> None:
    """Writes all feeds, each as its reader takes it, and closes the pipe of one that is done."""
    with selectors.DefaultSelector() as waiting:
        for it in feeds:
            waiting.register(it.writes, selectors.EVENT_WRITE, it)
        while waiting.get_map():
            go_on()
            for key, _ in waiting.select(_TURN):
                if key.data.is_done():
                    waiting.unregister(key.data.writes)
                    key.data.writes.close()


def _end(process: "subprocess.Popen[bytes]") -> Tuple[bytes, bytes]:
    """What a program printed and told, once it has ended."""
    while True:
        go_on()
        with contextlib.suppress(subprocess.TimeoutExpired):
            return process.communicate(timeout=_TURN)


def run_program(line: Sequence[str], inputs: Sequence[Input], **how: Any) -> "subprocess.CompletedProcess[bytes]":
    """Runs a program whose last words are the names of these inputs, if there are any. What goes wrong with one ends the program first: it
    never takes the beginning of an input for the whole. What the program prints isn't read before it has all inputs, so that with
    inputs more than a pipe holds has to go to a file."""
    if inputs:
        _allow_many_files()
    with contextlib.ExitStack() as stack:
        feeds: List[_Feed] = [_Feed(it, stack) for it in inputs]
        reads = [it.reads.fileno() for it in feeds]
        words = [*line, *(it.word for it in feeds)]
        with subprocess.Popen(words, pass_fds=reads, stderr=subprocess.PIPE, env=environment(), **how) as process:
            try:
                for it in feeds:
                    it.reads.close()
                _write(feeds)
                printed, told = _end(process)
            except BaseException:
                process.kill()
                raise
    return subprocess.CompletedProcess(line, process.returncode, printed, told)
