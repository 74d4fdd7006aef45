"""Tests the types of the Python package `radixjoin`: mypy takes the package in its strict mode, and finds what is wrong in a script that
uses it. Debian's mypy is installed by `./test`; where it can't be had, this is left out, and says so."""
import os
import pathlib
import re
import shutil
import subprocess

import harness

PACKAGE = harness.ROOT / "python"
SECONDS = 600
# Lines that are right, and those in which mypy has to find something, with a word of what it says.
SCRIPT = """\
from typing import Any
import pathlib
import radixjoin
class Frame:
    def __dataframe__(self, nan_as_null: bool = False, allow_copy: bool = True) -> Any: ...
frame = Frame()
one: Frame = radixjoin.join(frame, frame, using="id", how="left", order="left")
two: Frame = radixjoin.join([(1, "a")], frame, using="id", columns=["id", "x"])
rows: radixjoin.Rows = radixjoin.join("left.csv", open("right.csv", "rb"), natural=True, left_types="int", right_types={"*": int})
path: pathlib.Path = radixjoin.join(frame, "right.csv", using=["id"], right_types="int", output=pathlib.Path("out.csv"))
counts: int = radixjoin.stats(frame, frame, using="id").pairs
types: dict[str, str] = radixjoin.suggest_types("left.csv", delimiter=";")
five: radixjoin.Rows = radixjoin.join("left.csv", "right.csv", using="id", left_types="int", right_types="int", delimiter="tab", left_delimiter=";")
radixjoin.join(frame, frame, using="id", how="lefft")  # No overload variant
radixjoin.join(frame, frame, using="id", sufixes=("_x", "_y"))  # No overload variant
radixjoin.join(frame, frame, using="id", order="right")  # No overload variant
radixjoin.join(frame, frame, using="id", validate="one-to-one")  # No overload variant
radixjoin.join(frame, frame, using=7)  # No overload variant
radixjoin.join("left.csv", "right.csv", using="id", left_types="int", right_types="int", out_delimiter=9)  # No overload variant
three: radixjoin.Rows = radixjoin.join(frame, frame, using="id")  # Incompatible types
four: Frame = radixjoin.join("left.csv", "right.csv", using="id")  # Incompatible types
"""


def mypy(*words, folder):
    """What mypy tells: its lines, but for notes."""
    told = {**os.environ, "MYPYPATH": str(PACKAGE)}
    line = [shutil.which("mypy"), "--config-file", PACKAGE / "pyproject.toml", "--cache-dir", pathlib.Path(folder, "cache"), *words]
    ran = subprocess.run(line, cwd=folder, env=told, capture_output=True, timeout=SECONDS, check=False)
    return [it for it in ran.stdout.decode().splitlines() if ": note: " not in it] + ran.stderr.decode().splitlines()


def run_all(tally):
    if shutil.which("mypy") is None:
        print("skipped: the types of the Python package: mypy is not installed")
        return
    with harness.folder() as folder:
        told = mypy(PACKAGE / "radixjoin", folder=folder)
        tally.check("python: mypy takes the package", [] if re.fullmatch(r"Success: no issues found in \d+ source files", told[-1]) else told)
        script = pathlib.Path(folder, "script.py")
        script.write_text(SCRIPT)
        wanted = {number: line.partition("  # ")[2] for number, line in enumerate(SCRIPT.splitlines(), 1) if "  # " in line}
        found = {int(it.split(":")[1]): it for it in mypy(script, folder=folder) if it.startswith("script.py:")}
        faults = [f"line {number}: {found.get(number)}" for number, word in wanted.items() if word not in found.get(number, "")]
        tally.check("python: mypy finds what is wrong", faults + [found[number] for number in found.keys() - wanted.keys()])
