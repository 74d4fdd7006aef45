"""Pipes for programs, none of whose ends has the number of a standard stream.

A process that began with some of these closed is given their numbers for what it opens, and a program that is handed such a number has
its own stream there.
"""
from __future__ import annotations

import fcntl
import os
import sys
from typing import Tuple

# The least number that isn't a standard stream's.
LEAST = 3


def above(number: int) -> int:
    """The same open file once more, by a number that is no standard stream's."""
    return fcntl.fcntl(number, fcntl.F_DUPFD_CLOEXEC, LEAST)


def _moved(number: int) -> int:
    """An open file by a number that is no standard stream's: by its own, or by another one in its place."""
    if number >= LEAST:
        return number
    other = above(number)
    os.close(number)
    return other


def pipe() -> Tuple[int, int]:
    """The end of a pipe that is read, and the one that is written."""
    reads, writes = os.pipe()
    try:
        reads = _moved(reads)
        writes = _moved(writes)
    except OSError:
        os.close(reads)
        os.close(writes)
        raise
    return reads, writes


def _is_open(number: int) -> bool:
    """Whether there is an open file of this number."""
    try:
        os.fstat(number)
    except OSError:
        return False
    return True


def open_streams() -> None:
    """Opens the standard streams that are closed, for a script that starts processes which have the same ones: what is written there is
    lost, and nothing is read."""
    for number, name in enumerate(("stdin", "stdout", "stderr")):
        if not _is_open(number):
            os.set_inheritable(os.open(os.devnull, os.O_RDWR), True)
            setattr(sys, name, open(number, "w" if number else "r", closefd=False))
