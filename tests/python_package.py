"""Tests the Python package `radixjoin` of python/ over the built programs, by the scripts of tests/python.

Frames need pandas, values Hypothesis, and joins over a cluster Dask, which `./test` installs (Debian's python3-pandas, python3-hypothesis and
python3-distributed). What needs one that can't be had is left out, and says so."""
import ast
import json
import os
import pathlib
import shutil
import subprocess
import sys
import tomllib

import harness

PACKAGE = harness.ROOT / "python"
SCRIPTS = harness.ROOT / "tests" / "python"
JOINS = 10_000
# Those of frames with all dtypes. (`tests/python/dtypes.py 0 10000` runs more.)
JOINS_OF_DTYPES = 1_000
AT_ONCE = 500
SECONDS = 600
OLDEST = (3, 9)


def environment(**more):
    """That of a script: it finds the package, and the program."""
    return {**os.environ, "PYTHONPATH": str(PACKAGE), "PYTHONDONTWRITEBYTECODE": "1", "RADIXJOIN": str(harness.program("radixjoin")), **more}


def run_script(python, name, *words):
    """A task that runs a script, and counts each test that it tells."""

    def run(tally):
        with harness.folder() as place:
            told = environment(HYPOTHESIS_STORAGE_DIRECTORY=place)
            ran = subprocess.run([python, SCRIPTS / f"{name}.py", *map(str, words)], cwd=place, env=told, capture_output=True, timeout=SECONDS, check=False)
        for line in ran.stdout.decode().splitlines():
            title, faults = json.loads(line)
            tally.check(f"python: {title}", faults)
        if ran.returncode or ran.stderr or not ran.stdout:
            tally.check(f"python: {name}.py", [f"status {ran.returncode}", *ran.stderr.decode(errors="replace").splitlines()[-20:]])

    return run


def tasks_of_scripts(programs):
    """All scripts, each by a Python that has what it needs."""
    frames = harness.python_with("pandas")
    yield run_script(frames or sys.executable, "faults")
    yield run_script(frames or sys.executable, "nulls")
    yield run_script(frames or sys.executable, "delimiters")
    yield run_script(frames or sys.executable, "chosen")
    yield run_script(frames or sys.executable, "arguments")
    yield run_script(frames or sys.executable, "times")
    dask = harness.python_with("distributed")
    if dask is None:
        print("skipped: joins over a Dask client: distributed is not installed")
    yield run_script(dask or sys.executable, "clusters", programs)
    needed = {"values": ("pandas", "hypothesis"), **dict.fromkeys(("memory", "pages", "foreign", "merges"), ("pandas",))}
    page = harness.ROOT / "docs" / "user" / "python.md"
    words = {"pages": [page], "merges": [page]}
    for script, modules in needed.items():
        python = harness.python_with(*modules)
        if python is None:
            print(f"skipped: tests/python/{script}.py: not installed: {' or '.join(modules)}")
        else:
            yield run_script(python, script, *words.get(script, []))
    if frames is None:
        print("skipped: random joins of frames: pandas is not installed")
    else:
        yield from (run_script(frames, "dtypes", start, start + AT_ONCE) for start in range(0, JOINS_OF_DTYPES, AT_ONCE))
    yield from (run_script(frames or sys.executable, "joins", start, start + AT_ONCE) for start in range(0, JOINS, AT_ONCE))


def installed(tally):
    """`pip install` of the folder, without a network: the package that it installs is the one here."""
    python = harness.python_with("setuptools", "wheel", "pip")
    if python is None:
        print("skipped: pip install ./python: pip, setuptools or wheel is not installed")
        return
    with harness.folder() as name:
        source, target = pathlib.Path(name, "python"), pathlib.Path(name, "target")
        shutil.copytree(PACKAGE, source, ignore=shutil.ignore_patterns("__pycache__", "build", "*.egg-info"))
        words = [python, "-m", "pip", "install", "--no-index", "--no-build-isolation", "--no-deps", "--target", target, source]
        ran = subprocess.run(words, capture_output=True, timeout=SECONDS, check=False, cwd=name)
        faults = [] if ran.returncode == 0 else ran.stderr.decode(errors="replace").splitlines()[-20:]
        for path in sorted(source.glob("radixjoin/*")):
            place = target / "radixjoin" / path.name
            faults += [] if place.is_file() and place.read_bytes() == path.read_bytes() else [f"{path.name} isn't installed"]
        join = "list(radixjoin.join([{'a': 1}], [{'a': 1}], natural=True))"
        code = f"import radixjoin, sys; print(radixjoin.__file__, {join}, 'pandas' in sys.modules)"
        ran = subprocess.run([python, "-c", code], env=environment(PYTHONPATH=str(target)), capture_output=True, timeout=SECONDS, check=False, cwd=name)
        wanted = f"{target / 'radixjoin' / '__init__.py'} [{{'a': 1}}] False\n"
        tally.check("python: pip install ./python", faults + harness.differences(harness.Ran(ran.returncode, ran.stdout, ran.stderr), wanted.encode()))


def sources(tally):
    """Each file is one of the oldest Python that is named, and the version is the programs'."""
    with open(PACKAGE / "pyproject.toml", "rb") as file:
        project = tomllib.load(file)["project"]
    faults = [] if project["requires-python"] == f">={OLDEST[0]}.{OLDEST[1]}" else ["another oldest Python is named"]
    for path in sorted(PACKAGE.glob("radixjoin/*.py")):
        try:
            ast.parse(path.read_text(), str(path), feature_version=OLDEST)
        except SyntaxError as error:
            faults.append(error)
    tally.check("python: the oldest Python", faults)
    version = harness.run([harness.program("radixjoin"), "--version"], harness.ROOT).stdout.decode().split()[-1:]
    named = [project["version"]], [line.split('"')[1] for line in (PACKAGE / "radixjoin" / "__init__.py").read_text().splitlines() if line.startswith("__version__")]
    tally.check("python: the version", [] if all(it == version for it in named) else [f"{version}, {named}"])


def run_all(tally):
    sources(tally)
    with harness.folder() as programs:
        for name in ("radixjoin", "shards", "merges"):
            pathlib.Path(programs, name).symlink_to(harness.program(name))
        harness.side_by_side(tally, [*tasks_of_scripts(programs), installed])
