"""How the tasks of a thread are ended: what takes long asks again and again whether it is to go on. In a process that does tasks otherwise
it always is."""
from __future__ import annotations

import threading

_OWN = threading.local()


def end_with(is_over: threading.Event) -> None:
    """Has the tasks of this thread end when that is set."""
    _OWN.is_over = is_over


def go_on() -> None:
    """Ends the task of this thread, if it is to end."""
    is_over = getattr(_OWN, "is_over", None)
    if is_over is not None and is_over.is_set():
        raise SystemExit
