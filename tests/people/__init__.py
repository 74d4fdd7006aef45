"""Tasks as people have them, each with files of its own: what somebody wants in one line, the files, the command that he types
and the rows that it has to print. These are worked out by sqlite3 or in plain Python, as somebody would who doubts the result.

Files that need another tool first are converted as docs/user/recipes.md says, by the scripts of that page."""
import functools
import pathlib

import harness

from . import letters, machine, orders, places, sheets, versions
from .desk import Desk, Lacking

KINDS = (machine, places, letters, sheets, orders, versions)


def check_task(task, tally):
    """Does a task in a new folder, or tells that a tool is missing."""
    with harness.folder() as place:
        desk = Desk(pathlib.Path(place))
        try:
            task(desk)
        except Lacking as tools:
            print(f"skipped: people, {task.__name__}: not installed: {tools}")
        else:
            tally.check(f"people, {task.__name__}: {task.__doc__}", desk.faults)


def run_all(tally):
    """Each task of each kind, as many side by side as there are processors."""
    harness.side_by_side(tally, [functools.partial(check_task, task) for kind in KINDS for task in kind.TASKS])
