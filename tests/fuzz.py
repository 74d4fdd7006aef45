"""Random and mutated bytes as files, clauses, scripts and command lines of the built programs, each run compared with
what tests/oracle answers: the bytes on both streams, the status, no signal, and no more than 64 MB of memory.

By hand, with no bound on the cases: python3 tests/fuzz.py [--seconds N] [--seed S] [--jobs N] [--only KIND]"""
import argparse
import math
import multiprocessing
import os
import pathlib
import random
import sys
import time

import fuzz_cases
import harness
import many
from oracle import clause, command, grammar

SECONDS = 60
# A job runs no more cases than these, so that a fast machine meets none that others don't.
MOST_CASES = 15_000
SEED = "radixjoin"
MOST_MEMORY = 64 * 1024
MOST_FAULTS = 10


class Count:
    """How many runs of each kind there were, how many ended in each way, and what differed."""

    def __init__(self):
        self.runs = {}
        self.statuses = {}
        self.memory = 0
        self.faults = []

    def add(self, kind, status, memory):
        self.runs[kind] = self.runs.get(kind, 0) + 1
        self.statuses[status] = self.statuses.get(status, 0) + 1
        self.memory = max(self.memory, memory)

    def join(self, other):
        for kind, count in other.runs.items():
            self.runs[kind] = self.runs.get(kind, 0) + count
        for status, count in other.statuses.items():
            self.statuses[status] = self.statuses.get(status, 0) + count
        self.memory = max(self.memory, other.memory)
        self.faults += other.faults

    def __str__(self):
        kinds = ", ".join(f"{count} {kind}" for kind, count in sorted(self.runs.items()))
        statuses = ", ".join(f"{status}: {count}" for status, count in sorted(self.statuses.items()))
        return f"{kinds}; by status {statuses}; at most {self.memory / 1024:.1f} MB"


def shown(case):
    """A case as it can be run again."""
    files = {name: content for name, content in case.files.items() if case.writes}
    return f"{case.program} {case.words!r} files {files!r} stdin {case.stdin!r}"


def faults_of(ran, wanted):
    """What of a run isn't as the oracle has it."""
    faults = harness.differences(ran, wanted.stdout, wanted.stderr, wanted.status)
    if wanted.stderr is None and not ran.stderr:
        faults.append("nothing on standard error")
    if wanted.stdout is None and (not ran.stdout or ran.stderr):
        faults.append("no help, or more than help")
    if ran.memory > MOST_MEMORY:
        faults.append(f"{ran.memory} KiB of memory")
    return faults


def grammar_faults(text):
    """Where the reader of clauses and the grammar as it is written disagree about a text."""
    found = clause.tokens(text)
    if len(found) > 80 or clause.nests_too_deep(found):
        return []
    place = grammar.CLAUSES.first_fault([one.kind for one in found])
    wanted = "a clause" if place is None else f"E11 Syntax byte {found[place].at}"
    try:
        clause.Reader(found).clause()
        got = "a clause"
    except Exception as fault:
        got = str(fault)
    return [] if got == wanted else [f"the oracle's reader: {got}, its grammar: {wanted}"]


def check(case, runs, count):
    """Runs a case beside its oracle, and counts it."""
    for name, content in case.files.items() if case.writes else ():
        (case.folder / name.decode()).write_bytes(content)
    runs.start([os.fsencode(harness.program(case.program)), *case.words], case.stdin)
    wanted = command.ended(case.program, case.words, {name.decode(): content for name, content in case.files.items()}, case.stdin)
    ran = runs.ended()
    if case.program == "radixjoin" and command.explains(case.words) and wanted.stderr and wanted.status:
        # (what is added to an error's line is no matter of the oracle)
        ran.stderr = ran.stderr[: ran.stderr.find(b"\n") + 1]
    faults = faults_of(ran, wanted)
    if case.clause is not None and sum(count.runs.values()) % 20 == 0:
        faults += grammar_faults(case.clause)
    count.add(case.kind, ran.status, ran.memory)
    if faults:
        count.faults.append((case.kind, [shown(case), *faults]))


def work(seed, seconds, most, only):
    """Runs cases until there were as many as that, or the time is over."""
    count = Count()
    until = time.monotonic() + seconds
    with harness.folder() as name:
        folder = pathlib.Path(name)
        cases = fuzz_cases.Cases(random.Random(seed), folder)
        with many.Runs(many.compiled(folder), folder) as runs:
            while sum(count.runs.values()) < most and time.monotonic() < until and len(count.faults) < MOST_FAULTS:
                check(cases.next(only), runs, count)
    return count


def run_jobs(seed, seconds, jobs, most, only=None):
    """The same from several seeds at once."""
    total = Count()
    with multiprocessing.Pool(jobs) as pool:
        for count in pool.starmap(work, [(f"{seed} {job}", seconds, most, only) for job in range(jobs)]):
            total.join(count)
    return total


def run_all(tally, seconds=SECONDS, seed=SEED, jobs=2, most=MOST_CASES, only=None):
    """All kinds for some time; each run counts as one test that passed, or tells its difference."""
    count = run_jobs(seed, seconds, jobs, most, only)
    for kind, faults in count.faults:
        tally.check(f"fuzz: {kind}", faults)
    tally.check("fuzz: some runs of each kind", [] if only or set(count.runs) == set(fuzz_cases.KINDS) else [str(count)])
    print(f"fuzz: {count}")


def main():
    words = argparse.ArgumentParser()
    words.add_argument("--seconds", type=float, default=SECONDS)
    words.add_argument("--seed", default=SEED)
    words.add_argument("--jobs", type=int, default=2)
    words.add_argument("--only", choices=fuzz_cases.KINDS)
    found = words.parse_args()
    tally = harness.Tally()
    run_all(tally, found.seconds, found.seed, found.jobs, math.inf, found.only)
    print(f"{tally.passed} passed, {tally.failed} failed")
    return 1 if tally.failed else 0


if __name__ == "__main__":
    sys.exit(main())
