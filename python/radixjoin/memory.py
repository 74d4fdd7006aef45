"""How much memory a join may take: sizes as they are given, and what is free on this machine."""
from __future__ import annotations

import contextlib
import re
import resource
from pathlib import Path
from typing import Iterator, Union

_UNITS = {"": 1, "K": 1 << 10, "M": 1 << 20, "G": 1 << 30}
# Of each kind of control group its folder, and what has its limit, what it takes, and the name of what it could give back of that: pages
# of files that nobody reads just now.
_GROUPS = {
    "": ("", "memory.max", "memory.current", "inactive_file"),
    "memory": ("memory", "memory.limit_in_bytes", "memory.usage_in_bytes", "total_inactive_file"),
}


def size_in(given: Union[int, str]) -> int:
    """The bytes of a size: a number of bytes, or a text of digits, with K, M or G behind them where it counts KiB, MiB or GiB."""
    if isinstance(given, int):
        return given
    if not isinstance(given, str):
        raise TypeError(f"{given!r} is no size: neither a number of bytes nor a text as '8G'")
    found = re.fullmatch("([0-9]{1,18})([KMG]?)", given.upper())
    if found is None:
        raise ValueError(f"{given!r} is no size, as 500M or 8G")
    return int(found[1]) * _UNITS[found[2]]


def free(system: str = "/") -> int:
    """How many bytes are free for this process: of the machine's memory, of what its control groups leave it, and of the address space that
    it may take."""
    of_machine = dict(re.findall(r"^(\w+): +(\d+) kB$", Path(system, "proc/meminfo").read_text(), re.MULTILINE))
    space = resource.getrlimit(resource.RLIMIT_AS)[0]
    spaces = [] if space == resource.RLIM_INFINITY else [space]
    return max(0, min([int(of_machine["MemAvailable"]) << 10, *_left_by_groups(system), *spaces]))


def _left_by_groups(system: str) -> Iterator[int]:
    """What is left of the limit of each control group of this process, and of those that these are in."""
    with contextlib.suppress(OSError):
        for line in Path(system, "proc/self/cgroup").read_text().splitlines():
            _, kinds, path = line.split(":", 2)
            kind = "memory" if "memory" in kinds.split(",") else kinds
            if kind in _GROUPS:
                place, *names = _GROUPS[kind]
                own = Path(system, "sys/fs/cgroup", place, path.lstrip("/"))
                for folder in (own, *own.parents):
                    # (the outermost has none of these files, and what isn't limited no number)
                    with contextlib.suppress(OSError, ValueError):
                        yield _left_in(folder, *names)


def _left_in(folder: Path, most: str, taken: str, returned: str) -> int:
    """What is left of the limit of a control group."""
    limit = int((folder / most).read_text())
    told = dict(line.split() for line in (folder / "memory.stat").read_text().splitlines())
    return limit - int((folder / taken).read_text()) + int(told.get(returned, 0))
