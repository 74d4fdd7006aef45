"""What tasks make: new names until it is whole, folders beside it, and programs' processes that end with their own."""
from __future__ import annotations

import contextlib
import ctypes
import os
import resource
import shutil
import signal
import time
import uuid
from typing import TYPE_CHECKING, BinaryIO, Callable, Iterator, Optional

from .ending import go_on
from .tasks import FULL, unwritten

if TYPE_CHECKING:
    from .cluster import Job

# How often, and after how many seconds, it is tried again to remove what is half made.
TRIES, SECONDS = 20, 0.1
# How many bytes are copied at once by a call of the system, and by this process.
_MOST, _CHUNK = 1 << 26, 1 << 20


def beginning(space: Optional[int]) -> Callable[[], None]:
    """What a program's process does before it becomes the program: it ends when the thread that began it does, and takes no more than its
    address space, nor than this process may. (What it needs for that is looked up before: it is forked while other threads run.)"""
    prctl = ctypes.CDLL(None).prctl
    most = resource.getrlimit(resource.RLIMIT_NOFILE)[1]
    own = resource.getrlimit(resource.RLIMIT_AS)[0]
    limit = space if own == resource.RLIM_INFINITY or not space else min(space, own)

    def begin() -> None:
        prctl(1, signal.SIGKILL)  # PR_SET_PDEATHSIG
        resource.setrlimit(resource.RLIMIT_NOFILE, (most, most))  # `merges` opens the file of each part
        if limit:
            resource.setrlimit(resource.RLIMIT_AS, (limit, limit))

    return begin


@contextlib.contextmanager
def made(path: str, begin: Optional[str] = None) -> Iterator[str]:
    """A new name for what is to stand at a path. It is renamed at the end, and removed after a fault. A folder isn't, where another
    try of the task was faster."""
    new = f"{begin or path}.{uuid.uuid4().hex}"
    try:
        yield new
        try:
            os.rename(new, path)
        except OSError:
            if not (os.path.isdir(new) and os.path.isdir(path)):
                raise
    finally:
        remove(new)


@contextlib.contextmanager
def result_of(job: Job) -> Iterator[BinaryIO]:
    """The file of the joined table, which takes its place once it is whole. What the system doesn't take of it is told."""
    try:
        with made(job.out, job.half) as new, open(new, "wb") as output:
            yield output
            output.flush()
            os.fsync(output.fileno())
    except OSError as error:
        raise unwritten(job.out) if error.errno in FULL else unwritten(job.out, error.strerror) from None


@contextlib.contextmanager
def folder_beside(path: str) -> Iterator[str]:
    """A new folder for the parts that are put into a file. It is removed at the end."""
    folder = f"{path}.parts"
    os.mkdir(folder)
    try:
        yield folder
    finally:
        remove(folder)


def append(path: str, whole: BinaryIO, begin: int = 0) -> None:
    """Puts the bytes of a file, from one on, where another one is written: within the system where it can do that, so that a file system
    over a network needn't send them, and what is left by this process, which meets the same fault where there is one."""
    whole.flush()
    with open(path, "rb", buffering=0) as file:
        file.seek(begin)
        with contextlib.suppress(OSError, AttributeError):
            while os.copy_file_range(file.fileno(), whole.fileno(), _MOST):
                go_on()
        whole.writelines(_chunks(file))


def _chunks(file: BinaryIO) -> Iterator[bytes]:
    """What is left of a file."""
    while chunk := file.read(_CHUNK):
        go_on()
        yield chunk


def remove(path: str) -> None:
    """Removes a file or a folder, if it is there. A program that is just being ended may still write into it."""
    for _ in range(TRIES):
        if os.path.isdir(path) and not os.path.islink(path):
            shutil.rmtree(path, ignore_errors=True)
        else:
            with contextlib.suppress(OSError):
                os.remove(path)
        if not os.path.lexists(path):
            return
        time.sleep(SECONDS)
