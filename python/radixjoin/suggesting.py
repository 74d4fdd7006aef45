"""`suggest_types`."""
from __future__ import annotations

import os
import subprocess
from typing import Dict, List, Optional, Union

from . import programs
from .arguments import Path, Program
from .faults import fault_of
from .lists import entries_of, list_in


def suggest_types(path: Path, *, null: Optional[str] = None, delimiter: Optional[str] = None, program: Optional[Program] = None) -> Dict[str, str]:
    """The types that the cells of a file suggest, by the names of its columns: to be looked at, and given as `left_types=` or
    `right_types=`. They are those of these cells, and of another file they may be others.

    `null` is the text that stands for null in the file, the empty field unless it is given, `delimiter` what stands between its fields, a comma
    unless it is given, and `program` the path of the program.

    Raises:
        Fault: the file can't be read, or not as CSV.
        NotImplementedError: an option that the program at hand hasn't.

    >>> _ = open("items.csv", "w").write("id,price,name\\n1,1.50,bolt\\n2,,nut\\n")
    >>> radixjoin.suggest_types("items.csv")
    {'id': 'int', 'price': 'num(5,2)', 'name': 'text'}
    """
    found = programs.find(program)
    file = os.fsencode(path)
    words: List[Union[str, bytes]] = [found, "--suggest-types", b"./" + file if file.startswith(b"-") else file, *([] if null is None else [f"--null={null}"])]
    if delimiter is not None:
        words += programs.words_of(programs.options(found), "delimiter", delimiter)
    ran = subprocess.run(list(map(programs.encoded, words)), stdin=subprocess.DEVNULL, capture_output=True, env=programs.environment(), check=False)
    if ran.returncode:
        raise fault_of(ran.stderr.decode("utf-8", "replace"), ran.returncode)
    entries = entries_of(list_in(ran.stdout).decode()) or []
    return {_name(written): word for written, word in entries}


def _name(written: str) -> str:
    """The name that is written in a list."""
    return written[1:-1].replace('""', '"') if written.startswith('"') else written
