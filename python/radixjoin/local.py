"""This machine alone: tasks are done by threads of the script, each of which waits for the programs that it starts."""
from __future__ import annotations

import contextlib
import threading
from concurrent.futures import ThreadPoolExecutor, as_completed, wait
from typing import Any, List, Sequence, Tuple

from . import memory
from .ending import end_with, go_on
from .tasks import AGAIN, answer, are_shown, in_one_line, show


class Machine:
    """Does so many tasks at once."""

    # Whether tasks are done on the machine of the script alone.
    is_here = True

    def __init__(self, count: int, shows_progress: bool) -> None:
        self.count = count
        self.shows_progress = are_shown(shows_progress)

    def answers(self, tasks: Sequence[Tuple[Any, ...]]) -> List[Any]:
        """What tasks give, in their order. Each is a function, the job and further words. Where this is told to end, the tasks and their
        programs are ended first."""
        return self._answers(tasks, self.count)

    def in_turn(self, tasks: Sequence[Tuple[Any, ...]]) -> List[Any]:
        """The same of tasks that are done one after another."""
        return self._answers(tasks, 1)

    def _answers(self, tasks: Sequence[Tuple[Any, ...]], count: int) -> List[Any]:
        is_over = threading.Event()
        with ThreadPoolExecutor(count, initializer=end_with, initargs=(is_over,)) as pool:
            try:
                futures = [pool.submit(_tried, task) for task in tasks]
                if self.shows_progress:
                    show(tasks, as_completed(futures))
                wait(futures)
            except BaseException:
                is_over.set()
                raise
        with in_one_line():
            return [it.result() for it in futures]

    def tasks_at_once(self) -> int:
        """How many tasks are done at once."""
        return self.count

    def tasks_in_process(self) -> int:
        """How many of these are done by one process."""
        return self.count

    def free(self) -> int:
        """How many bytes of memory are free for these."""
        return memory.free()


def _tried(task: Tuple[Any, ...]) -> Any:
    """What a task gives. It is done again where its program was killed."""
    for _ in range(AGAIN):
        go_on()
        with contextlib.suppress(Exception):
            return answer(*task)
    return answer(*task)
