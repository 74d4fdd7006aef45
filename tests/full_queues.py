"""Refuses memory and starts of threads while the queues between scanners and takers are full: some hundred rows a side go
one by one through queues of one parcel, by 1, 4 and 8 workers and over 1 and 3 lanes.

usage: full_queues.py   refuses each in turn; as a part of run.py it refuses some of them, spread evenly

It refuses one allocation or start of a thread alone, all from one on, and those of each taker. Each run ends with the right
rows, or with `E18 Memory`, status 5 and nothing on standard output; none hangs."""
import functools
import os
import pathlib
import random
import sys

import harness
import reference
import refused_allocations
import soak

# A run ends within so many seconds, or hangs. After so many that hang, no further one is tried.
SECONDS = 20
MOST_HUNG = 4
CREWS = [(workers, lanes) for workers in (1, 4, 8) for lanes in (1, 3)]
# How many allocations of a kind are refused for each setting of workers where not all are.
SOME = 250


def tables(times=1):
    """Two tables of 300 and 200 rows, or that many times as many, whose keys meet now and then."""
    source = random.Random("radixjoin: full queues")
    key = lambda: None if source.random() < 0.03 else source.randrange(200 * times)
    left = reference.Table(["k", "a"], ["int", "int"], [[key(), at] for at in range(300 * times)])
    right = reference.Table(["k", "b"], ["int", "int"], [[key(), at] for at in range(200 * times)])
    return left, right


class Crew:
    """The join of the two tables by so many workers over so many lanes."""

    def __init__(self, folder, refuse, workers, lanes, wanted, hung):
        self.folder = folder
        self.refuse = refuse
        self.workers = workers
        self.name = f"full queues, {workers} workers, {lanes} lanes"
        self.wanted = wanted
        self.hung = hung
        self.words = ["--left", "left.csv", "--left-types", "int,int", "--right", "right.csv", "--right-types", "int,int"]
        self.words += ["--join", "FULL JOIN USING (k)", f"--workers={workers}", f"--lanes={lanes}", "--capacity=1", "--block=1", "--bits1=3"]

    def run(self, told, refused):
        """Runs the program where this is refused. It gives how it ended, and whether it came to the refusal."""
        report = self.folder / f"{self.name}, {told}"
        environment = {**os.environ, "LD_PRELOAD": str(self.refuse), "REFUSE_REPORT": str(report), **refused}
        ran = harness.run([harness.program("radixjoin"), *self.words], self.folder, environment=environment, seconds=SECONDS)
        is_met = report.exists()
        report.unlink(missing_ok=True)
        return ran, is_met

    def count(self, tally, thread=0):
        """How many allocations and starts of threads a run without a refusal makes; or the allocations of a thread."""
        totals = self.folder / f"{self.name}, totals of {thread}"
        ran, _ = self.run("counted", {"REFUSE_TOTALS": str(totals), "REFUSE_OF_THREAD": str(thread)})
        tally.check(f"{self.name}: no refusal", harness.differences(ran, self.wanted))
        return refused_allocations.totals_of(totals)

    def check(self, tally, refused):
        """Checks a run where this is refused. It gives whether the run came to it, and how it ended."""
        told = ", ".join(f"{name}={value}" for name, value in refused.items())
        if len(self.hung) >= MOST_HUNG:
            tally.check(f"{self.name}: {told}", ["not tried, since others hang"])
            return False, None
        ran, is_met = self.run(told, refused)
        if ran.status is None:
            self.hung.append(told)
        faults = refused_allocations.faults_of(ran, "radixjoin", self.wanted) if is_met else harness.differences(ran, self.wanted)
        tally.check(f"{self.name}: {told}", faults)
        return is_met, ran.status

    def refusals(self, tally, most):
        """What is refused: each in turn, or so many of a kind."""
        allocations, threads = self.count(tally)
        found = []
        for times in ("1", "0"):
            found += [{"REFUSE_ALLOCATION": str(n), "REFUSE_TIMES": times} for n in spread(allocations, most)]
            found += [{"REFUSE_THREAD": str(n), "REFUSE_TIMES": times} for n in range(1, threads + 1)]
        # The takers are started first.
        for taker in range(1, self.workers + 1):
            count, _ = self.count(tally, taker)
            found += [{"REFUSE_ALLOCATION": str(n), "REFUSE_OF_THREAD": str(taker)} for n in spread(count, most and most // self.workers)]
        return found


def spread(count, most):
    """The numbers from 1 to a count, or so many of them, evenly; all for no number."""
    if not most or count <= most:
        return range(1, count + 1)
    return [1 + at * count // most for at in range(most)]


def run_all(tally, most=SOME):
    """Refuses some, where nothing else is asked."""
    left, right = tables()
    wanted = soak.full_join(left, right)
    with harness.folder() as at:
        folder = pathlib.Path(at)
        refuse = refused_allocations.library(folder)
        (folder / "left.csv").write_bytes(left.csv())
        (folder / "right.csv").write_bytes(right.csv())
        hung = []
        crews = [Crew(folder, refuse, *crew, wanted, hung) for crew in CREWS]
        asked = [(crew, refused) for crew in crews for refused in crew.refusals(tally, most)]
        found = harness.side_by_side(tally, [functools.partial(crew.check, refused=refused) for crew, refused in asked])
    met = [status for is_met, status in found if is_met]
    tally.check("full queues: runs come to what is refused", [] if len(met) * 10 >= len(found) * 9 else [f"{len(met)} of {len(found)}"])
    tally.check("full queues: runs end with the rows and for want of memory", [] if {0, 5} <= set(met) else [sorted(map(str, set(met)))])
    print(f"full queues: {len(met)} refusals, of which {met.count(0)} runs ended with the rows")


def main():
    tally = harness.Tally()
    run_all(tally, None)
    print(f"{tally.passed} passed, {tally.failed} failed")
    return 1 if tally.failed or not tally.passed else 0


if __name__ == "__main__":
    sys.exit(main())
