"""The repository's crates, and the code of the Rattle kit's command `rt`, for the tools beside this file."""

import importlib.machinery
import importlib.util
import os
import shutil
import sys
from pathlib import Path

ROOT = Path(__file__).resolve().parent.parent


def crates():
    """What each crate of crates.txt stands on, by its name: its line, and the names of libraries."""
    lines = {}
    for line in (ROOT / "crates.txt").read_text().splitlines():
        line = line.partition("#")[0].strip()
        if line:
            head, _, below = line.partition(":")
            lines[head.split()[0]] = (line, below.split())
    return lines


def below(lines, name):
    """The repository's crates that a crate stands on, lowest first."""
    found = []
    for it in lines[name][1]:
        if it in lines:
            found += [*below(lines, it), it]
    return list(dict.fromkeys(found))


def code_of_rt():
    """The code of `rt`: what its command line can't be asked for, as checks of several crates at once, is asked of it. A kit that
    can share what checks of one crate kept between clones does so."""
    path = Path(shutil.which("rt")).resolve()
    sys.path.insert(0, str(path.parent))
    loader = importlib.machinery.SourceFileLoader("rt", str(path))
    code = importlib.util.module_from_spec(importlib.util.spec_from_loader("rt", loader))
    loader.exec_module(code)
    # (its first call sets a signal's handler, which only the main thread may)
    code.rtlib.guarded()
    if hasattr(code, "share_work"):
        code.share_work(True)
    return code


def copy_of_kept(code, folder, to):
    """Copies what a check kept, for another check to go on from: by links where the kit's checks never write into a file that
    they kept."""
    if hasattr(code, "linked"):
        code.linked(folder, to)
    else:
        shutil.copytree(folder, to)


class Proved:
    """What the gate proved on this machine, of the same files and over the same libraries: what is checked or built takes it, so that it doesn't begin
    by proving it again. The gate takes nothing of it. Nothing else may be at work in the crates' out/ meanwhile."""

    def __init__(self, code):
        self.code, self.crates = code, {}
        if hasattr(code, "Kept"):
            code.Crate.allowed = code.handles_of(str(ROOT))
            self.crates = {it.name: it for it in code.crates_of(str(ROOT))}
            self.kept = code.Kept(self.crates.values())

    def take(self):
        """Takes libraries and programs."""
        for crate in self.crates.values():
            if crate.is_program:
                self.take_program(crate)
            elif not crate.is_built():
                self.take_library(crate)
            self.kept.is_built(crate)

    def take_library(self, crate):
        stamp, out = crate.stamp(), Path(crate.folder, "out", "rlib")
        shutil.rmtree(out, ignore_errors=True)
        if self.kept.give(crate, False, self.kept.key(crate)) and crate.stamp() == stamp:
            (out / "stamp").write_text(stamp)

    def take_program(self, crate):
        """Takes a program as `rt run` leaves it, with the sums by which that sees that nothing has changed."""
        program, noted = Path(crate.folder, "out", crate.name), Path(crate.folder, "out", f"{crate.name}.stamp")
        stamp = crate.stamp()
        if program.is_file() and noted.is_file() and noted.read_text() == stamp + self.code.rtlib.sum_of(str(program)):
            return
        if self.kept.give(crate, False, self.kept.key(crate)) and crate.stamp() == stamp:
            noted.write_text(stamp + self.code.rtlib.sum_of(str(program)))

    def take_tests(self, name):
        """Takes the proved tests of a crate, compiled, and gives whether it could."""
        crate = self.crates.get(name)
        for it in crate.below() if crate else ():
            self.kept.is_built(it)
        return crate is not None and self.kept.give(crate, True, self.kept.key(crate))


def processors():
    return len(os.sched_getaffinity(0))
