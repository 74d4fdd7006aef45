"""What all tasks use: a folder in which somebody works, with his files, the commands that he types and what he checks them by."""
import csv
import io
import os
import pathlib
import re
import shutil
import subprocess

import harness

RECIPES = harness.ROOT / "docs" / "user" / "recipes.md"


class Lacking(Exception):
    """A tool that a task needs isn't installed."""


def records(text, delimiter=","):
    """The records of CSV text with this delimiter, the header first."""
    return list(csv.reader(io.StringIO(text, newline=""), delimiter=delimiter))


def file_or(path, made):
    """The text of a file that many systems have, or one that was made up in its form."""
    place = pathlib.Path(path)
    return place.read_text(encoding="utf-8", errors="replace") if place.is_file() else made


class Desk:
    """A folder with the program, in which somebody works on a task, and what was found to be wrong."""

    def __init__(self, folder):
        self.folder = folder
        self.faults = []
        (folder / "radixjoin").symlink_to(harness.program("radixjoin"))

    def needs(self, *tools):
        """Ends the task where a tool isn't installed."""
        missing = [tool for tool in tools if shutil.which(tool) is None]
        if missing:
            raise Lacking(", ".join(missing))

    def text(self, name, text, encoding="utf-8"):
        """Makes a file of any form."""
        (self.folder / name).write_bytes(text.encode(encoding))

    def write(self, name, *lines):
        """Makes a CSV file of a header and rows, as Python writes them: lines end in CRLF, and None is an empty field."""
        made = io.StringIO(newline="")
        csv.writer(made).writerows(lines)
        self.text(name, made.getvalue())

    def recipe(self, name):
        """Puts a script of docs/user/recipes.md into the folder, as the page has it."""
        self.needs("python3")
        page = RECIPES.read_text(encoding="utf-8")
        script = re.search(rf"^cat > {re.escape(name)} <<'END'\n(.*?)^END$", page, re.MULTILINE | re.DOTALL)
        self.text(name, script[1])

    def bash(self, command):
        """Runs a command as a user types it. A pipe fails if one of its programs does."""
        words = ["bash", "-o", "pipefail", "-c", command]
        ran = subprocess.run(words, cwd=self.folder, capture_output=True, env={**os.environ, "LC_ALL": "C.UTF-8"}, timeout=harness.SECONDS)
        return harness.Ran(ran.returncode, ran.stdout, ran.stderr)

    def gives(self, command, wanted, status=0, told="", delimiter=","):
        """Runs a command, and tests its records, its status and what it tells on standard error."""
        ran = self.bash(command)
        got = records(ran.stdout.decode(errors="replace"), delimiter)
        wanted = [["" if cell is None else str(cell) for cell in row] for row in wanted]
        self.faults += harness.differences(ran, None, told.encode(), status)
        if got != wanted:
            at = next((at for at, (one, other) in enumerate(zip(got, wanted)) if one != other), min(len(got), len(wanted)))
            counts = f"{len(got)} records, and not {len(wanted)}" if len(got) != len(wanted) else "records"
            self.faults.append(f"{counts}; from {at}: {harness.shorten(got[at:][:2])}, and not {harness.shorten(wanted[at:][:2])}")

    def sqlite(self, query, **tables):
        """What sqlite3 answers to a query over tables, each a file and its columns with their types; empty fields are NULL."""
        self.needs("sqlite3")
        lines = []
        for table, (file, columns) in tables.items():
            names = [column.rpartition(" ")[0] for column in columns.split(", ")]
            lines += [f"CREATE TABLE {table} ({columns});", f".import --csv --skip 1 {file} {table}"]
            lines += [f"UPDATE {table} SET {name} = NULL WHERE {name} = '';" for name in names]
        script = "\n".join([*lines, query + ";"])
        ran = subprocess.run(["sqlite3", "-batch", "-csv", "-header"], cwd=self.folder, input=script.encode(), capture_output=True, check=True)
        if ran.stderr:
            raise RuntimeError(ran.stderr.decode())
        return records(ran.stdout.decode())
