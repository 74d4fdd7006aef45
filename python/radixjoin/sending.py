"""Tasks that the processes of a Dask cluster do, and what goes to these: once to each the code of this package and what all tasks of a run
have to know, by a file in the folder for what is half made; and with each task its own words alone.

The file is a zip, in which the package stands under a name that has the hash of its code. So nothing has to be installed for a
process, and one that works for two versions of the package has both, each by its own name.
"""
from __future__ import annotations

import functools
import hashlib
import importlib
import importlib.resources
import io
import pickle
import types
import uuid
import zipfile
from typing import TYPE_CHECKING, Any, Callable, Dict, List, Optional, Sequence, Tuple

from . import memory
from .tasks import AGAIN, answer, are_shown, first_fault, in_one_line, put, show, step_of

if TYPE_CHECKING:
    from distributed import Client

# The file, by its place in the scratch folder, and what all tasks have to know in it.
FILE = "sent"
_JOB = "job"
_BEGIN = "__init__.py"
# What the package begins with in a process: all that tasks need is loaded at once, while the file is there, or nothing is.
_LOADS = b"from . import cluster\nfrom .sending import answered\n"


def sources() -> Dict[str, bytes]:
    """The files of the package as a process gets it, by their names."""
    files = (it for it in importlib.resources.files(__package__).iterdir() if it.name.endswith(".py"))
    return {**{it.name: it.read_bytes() for it in files}, _BEGIN: _LOADS}


def write(job: Any, path: str) -> str:
    """Writes the file of a run, with what all tasks have to know. It gives the name of the package in it."""
    code = sorted(sources().items())
    name = f"radixjoin_{hashlib.sha256(repr(code).encode()).hexdigest()[:32]}"
    with zipfile.ZipFile(path, "x", zipfile.ZIP_DEFLATED) as file:
        for it, text in code:
            file.writestr(f"{name}/{it}", text)
        file.writestr(_JOB, packed(job))
    return name


@functools.lru_cache(maxsize=16)
def job_in(path: str) -> Any:
    """What all tasks of a run have to know. A process reads it once."""
    with zipfile.ZipFile(path) as file:
        return unpacked(file.read(_JOB))


class _Pickler(pickle.Pickler):
    """Names functions and classes of this package by their places in it, whatever its own name is."""

    def persistent_id(self, it: Any) -> Optional[Tuple[str, str]]:
        if isinstance(it, (type, types.FunctionType)) and (it.__module__ or "").startswith(f"{__package__}."):
            return it.__module__[len(__package__) :], it.__qualname__
        return None


class _Unpickler(pickle.Unpickler):
    """Finds them in this package."""

    def persistent_load(self, place: Tuple[str, str]) -> Any:
        module, name = place
        return getattr(importlib.import_module(module, __package__), name)


def packed(it: Any) -> bytes:
    """Something of this package as bytes."""
    whole = io.BytesIO()
    _Pickler(whole).dump(it)
    return whole.getvalue()


def unpacked(text: bytes) -> Any:
    """What such bytes are of, also where the package has another name."""
    return _Unpickler(io.BytesIO(text)).load()


def _worker() -> Callable[[str, str, bytes], bytes]:
    """What a process does with a packed task. It is a function within one, which is sent as code and not by its name."""

    def work(path: str, name: str, task: bytes) -> bytes:
        import importlib
        import sys
        import zipfile

        if name not in sys.modules:
            with zipfile.ZipFile(path) as file:
                if file.testzip():
                    raise OSError(f"{path} has lost bytes")
        sys.path.append(path)
        try:
            package = importlib.import_module(name)
        finally:
            sys.path.remove(path)
        answer: bytes = package.answered(path, task)
        return answer

    return work


work = _worker()


def answered(path: str, task: bytes) -> bytes:
    """What a packed task gives in a process, or the fault that it told, packed as well."""
    function, words = unpacked(task)
    return packed(answer(function, job_in(path), *words))


class Cluster:
    """The processes that tasks are sent to."""

    is_here = False

    def __init__(self, client: Client, shows_progress: bool) -> None:
        self.client = client
        self.shows_progress = are_shown(shows_progress)
        # The files that were written for the processes, and the name of the package in each.
        self.sent: Dict[str, str] = {}
        if self.shows_progress and "dashboard" in client.scheduler_info()["services"]:
            put(f"radixjoin-cluster: the dashboard is at {client.dashboard_link}\n")

    def answers(self, tasks: Sequence[Tuple[Any, ...]]) -> List[Any]:
        """What tasks give, in their order. Each is a function, the job and further words. Dask runs a task again whose process ended, or
        whose program was killed, and shows it by the name of its step."""
        name = step_of(tasks).replace(" ", "-")
        how = {"pure": False, "retries": AGAIN}
        futures = [self.client.submit(work, *self._sent(job), packed((function, words)), key=f"{name}-{uuid.uuid4().hex}", **how) for function, job, *words in tasks]
        # (what Dask waits for and shows it asks of the client that is current, which may be another one in a script of several)
        with self.client.as_current():
            if self.shows_progress:
                self._show(tasks, futures)
            return [unpacked(it) for it in self._gathered(futures)]

    def _show(self, tasks: Sequence[Tuple[Any, ...]], futures: List[Any]) -> None:
        from distributed import as_completed

        show(tasks, as_completed(futures))

    def _sent(self, job: Any) -> Tuple[str, str]:
        """The file that the processes read for a job, which is written once, and the name of the package in it."""
        path = job.place(FILE)
        if path not in self.sent:
            name = answer(write, job, path)
            first_fault([name])
            self.sent[path] = name
        return path, self.sent[path]

    def _gathered(self, futures: List[Any]) -> List[Any]:
        """What all tasks gave, once none of them runs any more. What Dask tells, as of processes that end each time, is a RuntimeError."""
        from distributed import wait

        with in_one_line():
            wait(futures)
            return list(self.client.gather(futures))

    def has_processes(self) -> bool:
        """Whether there are any yet."""
        return bool(self.client.nthreads())

    def tasks_at_once(self) -> int:
        """How many tasks they do at once: a process does one in each of its threads."""
        threads: Dict[str, int] = self.client.nthreads()
        return max(1, sum(threads.values()))

    def tasks_in_process(self) -> int:
        """How many of these one process does, where it does the most, by which files are counted that it may have open."""
        threads: Dict[str, int] = self.client.nthreads()
        return max([1, *threads.values()])

    def free(self) -> int:
        """How many bytes of memory one process may take, where it may take the least: Dask's limit of it, where it has one, or its share of
        what is free on this machine."""
        told: Dict[str, Dict[str, Any]] = self.client.scheduler_info()["workers"]
        limits: List[int] = [it["memory_limit"] for it in told.values() if it["memory_limit"]]
        threads: Dict[str, int] = self.client.nthreads()
        return min(limits, default=memory.free() // max(1, len(threads)))
