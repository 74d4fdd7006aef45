"""The program `merges` alone: the rows of merges.toml, its lists of copies that are none, and files without permission."""
import pathlib
import tomllib

import ends
import examples
import harness

NO_COPIES = "merges: --copies has to have an entry for each file: 1, or LxR, of numbers from 1 to 1,048,576\n"
JOINED = "left_place,right_place,a\n{place},{place},x\n"


def files_of(count):
    """So many joined shards of one pair each, by their names."""
    return {f"{place}.csv": JOINED.format(place=place) for place in range(count)}


def run_lists(lists, tally):
    """Each list that is none of so many files is refused by one line."""
    for copies in lists["refused"]:
        files = files_of(lists["files"])
        case = {"program": "merges", "words": [f"--copies={copies}", *files], "files": files, "stderr": NO_COPIES, "status": 2}
        tally.check(f"merges.toml: {copies!r} of {len(files)} files", examples.faults_of(case, {}))


def run_without_permission(place, tally):
    """The file at this place of three is one that this user may not read: E19, with its name."""
    with harness.folder() as at:
        folder = pathlib.Path(at)
        files = files_of(3)
        for name, text in files.items():
            (folder / name).write_text(text)
            (folder / name).chmod(0o644)
        (folder / f"{place}.csv").chmod(0)
        ran = ends.run_with_permissions("merges", list(files), folder)
        told = f"merges: E19 ReadDevice {place}.csv\n".encode()
        tally.check(f"merges: file {place} without permission", harness.differences(ran, b"", told, 6))


def run_all(tally):
    with open(harness.ROOT / "tests" / "merges.toml", "rb") as text:
        found = tomllib.load(text)
    for case in found["case"]:
        tally.check(f"merges.toml: {case['name']}", examples.faults_of(case, {}))
    for lists in found["lists"]:
        run_lists(lists, tally)
    for place in range(3):
        run_without_permission(place, tally)
