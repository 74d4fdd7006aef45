"""Where the programs are, and which options they have."""
from __future__ import annotations

import functools
import os
import re
import shutil
import subprocess
from pathlib import Path
from typing import Dict, FrozenSet, Iterable, List, Sequence, Set, Tuple, Union

# Of a checkout its own folder. Where the repository was installed, this is PREFIX/share/radixjoin.
_ROOT = Path(__file__).resolve().parent.parent.parent

# What was built, or found to be.
_BUILT: Set[str] = set()

# The variable of the environment that names the program `radixjoin`.
NAMED = "RADIXJOIN"
_HINT = f"program= names it (programs= or --programs the folder of all that join in shards), or the environment variable {NAMED}"


class ProgramNotFound(FileNotFoundError):
    """A program is neither named, nor built here, nor installed."""


def is_checkout() -> bool:
    """Whether this package stands in the tree of its repository."""
    return (_ROOT / "tools" / "run-program").is_file() and (_ROOT / "crates.txt").is_file()


def build(names: Tuple[str, ...]) -> None:
    """Has programs proved and built where that has to be done, as the tree's own commands do, if this is a tree and the kit is
    there: once in a process. How far it is is told on standard error."""
    if not _BUILT.issuperset(names) and is_checkout() and shutil.which("rt"):
        ran = subprocess.run([str(_ROOT / "tools" / "run-program"), "--build", *names], stdin=subprocess.DEVNULL, check=False)
        if ran.returncode:
            raise ProgramNotFound(f"the programs could not be built; where there is one, {_HINT}")
        _BUILT.update(names)


def _places(name: str) -> Iterable[Path]:
    """Where a program may stand, beside the PATH."""
    if is_checkout():
        yield _ROOT / "crates" / name / "out" / name
    if _ROOT.name == "radixjoin" and _ROOT.parent.name == "share":
        yield _ROOT.parent.parent / "bin" / name


def built(name: str) -> str:
    """The path of a program that is built in this tree, installed beside this package, or on the PATH."""
    found = next((str(it) for it in _places(name) if it.is_file()), shutil.which(name))
    if not found:
        raise ProgramNotFound(f"the program {name} is neither built here nor on the PATH; {_HINT}")
    return found


def environment() -> Dict[str, str]:
    """The variables that a program is run with: those of this process. Where they say nothing of the C library's memory all threads of
    the program share one heap, so that each step finds room in what the ones before gave back."""
    return {"GLIBC_TUNABLES": "glibc.malloc.arena_max=1", **os.environ}


def find(program: Union[str, "os.PathLike[str]", None] = None) -> str:
    """The path of the program `radixjoin`: the one given, else that of the environment variable RADIXJOIN, else that of this
    tree, which is built on first use, else the installed one."""
    named = os.fspath(program) if program is not None else os.environ.get(NAMED)
    if not named:
        build(("radixjoin",))
        return built("radixjoin")
    found = shutil.which(named)
    if not found:
        raise ProgramNotFound(f"{named} is no program; {_HINT}")
    return found


def find_all(names: Sequence[str], folder: Union[str, "os.PathLike[str]", None] = None) -> Dict[str, str]:
    """The paths of `radixjoin` and the other programs of a join in shards: those of a folder that is given. Else the environment
    variable RADIXJOIN names the one, beside which the others may stand; and what isn't found so is that of this tree, which is
    built on first use, or the installed one."""
    if folder is not None:
        paths = {name: str(Path(os.fsdecode(folder)).resolve() / name) for name in names}
        find(paths["radixjoin"])
        return paths
    paths = _named(names)
    others = tuple(name for name in names if name not in paths)
    if others:
        build(others)
    return {name: paths.get(name) or os.path.abspath(built(name)) for name in names}


def _named(names: Sequence[str]) -> Dict[str, str]:
    """The paths of the program that the environment variable RADIXJOIN names, if it does, and of those that stand beside it."""
    if not os.environ.get(NAMED):
        return {}
    found = os.path.abspath(find())
    beside = {name: os.path.join(os.path.dirname(found), name) for name in names}
    return {**{name: path for name, path in beside.items() if shutil.which(path)}, "radixjoin": found}


def options(program: str) -> FrozenSet[str]:
    """The long options that a program tells by `--help`. It is asked once, until it changes."""
    return _options(program, os.stat(program).st_mtime_ns)


@functools.lru_cache(maxsize=None)
def _options(program: str, _: int) -> FrozenSet[str]:
    ran = subprocess.run([program, "--help"], stdin=subprocess.DEVNULL, capture_output=True, check=False)
    return frozenset(re.findall(r"--([a-z][\w-]*)", ran.stdout.decode("utf-8", "replace")))


def words_of(known: FrozenSet[str], name: str, value: object) -> List[str]:
    """The words that give an option a value: none for None and False, a flag for True. An option that the program hasn't is
    a NotImplementedError."""
    if value is None or value is False:
        return []
    option = name.replace("_", "-")
    if option not in known:
        raise NotImplementedError(f"this radixjoin has no option --{option}")
    return [f"--{option}"] if value is True else [f"--{option}={value}"]


def encoded(word: Union[str, bytes]) -> bytes:
    """A word of a command line in UTF-8, whatever the system's own encoding is."""
    text = word if isinstance(word, bytes) else word.encode("utf-8", "surrogatepass")
    if b"\0" in text:
        raise ValueError("no name, clause or option can have the character NUL")
    return text

