"""Refuses to write a result over one of its own tables, as the program does where it is told both names."""
from __future__ import annotations

import os
import stat
from typing import Any, Optional

from .faults import fault_of

_DEVICE = 6


def _told_of(file: Any) -> Optional[os.stat_result]:
    """What the system tells of the file of a path, or of an open file; None where it tells nothing, or where it is neither."""
    try:
        return os.stat(file if isinstance(file, (str, bytes, os.PathLike)) else file.fileno())
    except (AttributeError, OSError, TypeError, ValueError):
        return None


def refuse_input(output: Any, left: Any, right: Any) -> None:
    """Refuses a result in a regular file that a table is read from, by whatever name, symbolic or hard link: it has the same device
    and number.

    Raises:
        DeviceFault: E29, of the left table where it is both.
    """
    written = _told_of(output)
    if written is None or not stat.S_ISREG(written.st_mode):
        return
    for side, table in (("left", left), ("right", right)):
        read = _told_of(table)
        if read is not None and os.path.samestat(written, read):
            raise fault_of(f"radixjoin: E29 OutputIsInput {side}", _DEVICE)
