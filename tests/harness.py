"""What the tests over the built programs share: running a program, and counting what passed."""
import concurrent.futures
import contextlib
import os
import pathlib
import re
import subprocess
import sys
import tempfile

ROOT = pathlib.Path(__file__).resolve().parent.parent
SECONDS = 120


def program(name):
    """The built program of this name."""
    return ROOT / "crates" / name / "out" / name


class Tally:
    """Counts what passed and what failed, and tells each failure."""

    def __init__(self):
        self.passed = 0
        self.failed = 0

    def check(self, name, faults):
        """Counts one test, which passed where it has no faults."""
        if faults:
            self.failed += 1
            print("\n    ".join([f"FAILED {name}", *map(str, faults)]))
        else:
            self.passed += 1

    def add(self, other):
        """Counts what another has counted, too."""
        self.passed += other.passed
        self.failed += other.failed


def side_by_side(tally, tasks, count=None):
    """Runs tasks, each of which takes a tally of its own, so many at a time, or as many as there are processors. It gives what each
    gave."""

    def ran(task):
        own = Tally()
        return task(own), own

    with concurrent.futures.ThreadPoolExecutor(count or len(os.sched_getaffinity(0))) as pool:
        found = list(pool.map(ran, tasks))
    for _, own in found:
        tally.add(own)
    return [gave for gave, _ in found]


class Ran:
    """How a run of a program ended."""

    def __init__(self, status, stdout, stderr):
        self.status = status
        self.stdout = stdout
        self.stderr = stderr


def run(words, folder, stdin=b"", output="read", environment=None, seconds=SECONDS):
    """Runs a program; `output` is `read`, or `full` or `closed` for a standard output that takes nothing.

    A program that hasn't ended within so many seconds is killed, and has no status."""
    if not pathlib.Path(words[0]).exists():
        return Ran(None, b"", f"{words[0]} is not built".encode())
    how = {"cwd": folder, "input": stdin, "stderr": subprocess.PIPE, "timeout": seconds, "env": environment}
    words = [str(word) for word in words]
    try:
        if output == "closed":
            words = ["sh", "-c", 'exec "$@" >&-', "sh", *words]
            ran = subprocess.run(words, stdout=subprocess.DEVNULL, **how)
        elif output == "full":
            with open("/dev/full", "wb") as full:
                ran = subprocess.run(words, stdout=full, **how)
        else:
            ran = subprocess.run(words, stdout=subprocess.PIPE, **how)
    except subprocess.TimeoutExpired:
        return Ran(None, b"", f"no end within {seconds} seconds".encode())
    return Ran(ran.returncode, ran.stdout or b"", ran.stderr)


def differences(ran, stdout=b"", stderr=b"", status=0):
    """What of a run isn't as wanted; None for what may be anything."""
    faults = []
    for name, got, wanted in [("status", ran.status, status), ("standard output", ran.stdout, stdout), ("standard error", ran.stderr, stderr)]:
        if wanted is not None and got != wanted:
            faults.append(f"{name}: {shorten(got)}, and not {shorten(wanted)}")
    return faults


def shorten(value):
    """A value as text, cut where it is long."""
    text = repr(value)
    return text if len(text) <= 300 else f"{text[:200]} .. {text[-80:]}"


def folder():
    """A new folder for a test's files, gone with it."""
    return tempfile.TemporaryDirectory(prefix="radixjoin-test-")


@contextlib.contextmanager
def disk(place, size):
    """A small file system of so many KiB at a place, while the block runs. It gives whether one could be mounted."""
    place.mkdir(exist_ok=True)
    if subprocess.run(["mount", "-t", "tmpfs", "-o", f"size={size}k", "none", place], capture_output=True, check=False).returncode:
        yield False
        return
    try:
        yield True
    finally:
        subprocess.run(["umount", place], check=True)


def python_with(*modules):
    """A Python that has all of some modules, or None."""
    for python in (sys.executable, "/usr/bin/python3"):
        with contextlib.suppress(OSError):
            if subprocess.run([python, "-c", f"import {', '.join(modules)}"], capture_output=True, check=False).returncode == 0:
                return python
    return None


def python_with_dask(name, *modules):
    """A Python that has Dask and some more modules. Where there is none it tells whose tests are left out, and gives None."""
    python = python_with("distributed", *modules)
    if python is None:
        print(f"{name}: left out, since there is no Dask (Debian's python3-dask and python3-distributed)")
    return python


def run_script(tally, python, words, seconds):
    """Runs a script of tests, whose last line is 'N passed, M failed', by another Python. It counts what that counts."""
    name, ran = pathlib.Path(words[0]).stem, run([python, *words], ROOT, seconds=seconds)
    *told, last = ran.stdout.decode(errors="replace").splitlines() or [""]
    print("".join(f"{line}\n" for line in told), end="")
    counts = re.fullmatch(r"(\d+) passed, (\d+) failed", last)
    if counts:
        tally.passed += int(counts[1])
        tally.failed += int(counts[2])
    if not counts or ran.status != (counts[2] != "0"):
        tally.check(name, [f"status {ran.status}", last, *ran.stderr.decode(errors="replace").splitlines()[-20:]])


def end_of_script(words, run_here, run_all):
    """Runs a script of tests, by this Python where its word is `here`, and gives its exit status. Its last line is 'N passed, M failed'."""
    tally = Tally()
    (run_here if words == ["here"] else run_all)(tally)
    print(f"{tally.passed} passed, {tally.failed} failed")
    return 1 if tally.failed else 0
