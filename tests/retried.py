"""Refuses memory to the scanners alone: a stripe that was refused memory is scanned again, as often as `--retries` allows, and
the right rows come of it. It also looks at what a taker takes memory for, since nothing is held back over one lane."""
import functools
import os
import pathlib

import full_queues
import harness
import refused_allocations
import soak

# The option as it is given, and how often a stripe may be scanned again then.
RETRIES = {"": 1, "--retries=0": 0, "--retries=1": 1, "--retries=2": 2, "--retries=3": 3}


class Scan:
    """A join of two tables in a folder, where memory is refused to one of its threads."""

    def __init__(self, folder, refuse, wanted):
        self.folder = folder
        self.refuse = refuse
        self.wanted = wanted

    def run(self, told, refused, options):
        """Runs the program where this is refused. It gives how it ended, how often it was refused, and what it counted."""
        report, totals = self.folder / f"{told}: report", self.folder / f"{told}: totals"
        environment = {**os.environ, "LD_PRELOAD": str(self.refuse), "REFUSE_REPORT": str(report), "REFUSE_TOTALS": str(totals), **refused}
        words = ["--left", "left.csv", "--left-types", "int,int", "--right", "right.csv", "--right-types", "int,int"]
        words += ["--join", "FULL JOIN USING (k)", *filter(None, options)]
        ran = harness.run([harness.program("radixjoin"), *words], self.folder, environment=environment, seconds=full_queues.SECONDS)
        times = report.read_text().count("\n") if report.exists() else 0
        return ran, times, refused_allocations.totals_of(totals)[0]

    def check(self, tally, thread, first, times, option, more=()):
        """Refuses a thread so many allocations in a row: past the retries that is want of memory, else the right rows."""
        refused = {"REFUSE_OF_THREAD": str(thread), "REFUSE_ALLOCATION": str(first), "REFUSE_TIMES": str(times)}
        told = f"retried, allocation {first} of thread {thread} refused {times} times, {' '.join([option or 'as ever', *more])}"
        ran, met, _ = self.run(told, refused, [option, *more])
        if met > RETRIES[option]:
            tally.check(told, harness.differences(ran, b"", b"radixjoin: E18 Memory\n", 5))
        else:
            tally.check(told, harness.differences(ran, self.wanted))
        return met

    def count(self, tally, thread, options):
        """How many allocations a thread makes where none is refused."""
        told = f"counted, thread {thread}, {' '.join(options)}"
        ran, _, count = self.run(told, {"REFUSE_OF_THREAD": str(thread)}, options)
        tally.check(told, harness.differences(ran, self.wanted))
        return count


def check_each(scan, tally):
    """Each allocation of each scanner alone, as many as one scanner makes that draws one stripe."""
    most = scan.count(tally, 2, ("--bits1=2",))
    tasks = []
    for workers in (1, 4):
        # The takers are started first.
        for thread in range(workers + 1, 2 * workers + 1):
            how = {"thread": thread, "times": 1, "more": ("--bits1=2", f"--workers={workers}")}
            for first in range(1, most + 1):
                tasks += [functools.partial(scan.check, first=first, option=option, **how) for option in ("", "--retries=0", "--retries=1")]
    met = harness.side_by_side(tally, tasks)
    # By one worker all of them lie within its stripe; of four, one may find no stripe left.
    faults = [] if most >= 10 and sum(met[: 3 * most]) == 3 * most else [f"{sum(met)} times, of {most} allocations"]
    tally.check("retried: a scanner is refused each", faults)


def check_in_a_row(scan, tally):
    """The only scanner is refused the first allocation of one try after another."""
    for times in range(1, 6):
        for option, retries in RETRIES.items():
            met = scan.check(tally, thread=2, first=1, times=times, option=option)
            tries = min(times, retries + 1)
            tally.check(f"retried: {times} refusals, {retries} retries", [] if met == tries else [f"{met} refused, and not {tries}"])


def check_held_back(scan, tally):
    """Over one lane a sender's blocks come in their order: the taker takes no memory for blocks that it would hold back."""
    more = ("--bits1=0", "--block=1", "--capacity=1")
    posted = scan.count(tally, 2, more)
    taken = scan.count(tally, 1, more)
    tally.check("retried: a parcel a row", [] if posted >= 4_500 else [f"the scanner made {posted} allocations"])
    tally.check("retried: nothing is held back over one lane", [] if taken <= 200 else [f"the taker made {taken} allocations for more than 4,500 parcels"])


def run_all(tally):
    """Each part in a folder of its own."""
    for check, times in ((check_each, 1), (check_in_a_row, 1), (check_held_back, 10)):
        left, right = full_queues.tables(times)
        with harness.folder() as at:
            folder = pathlib.Path(at)
            (folder / "left.csv").write_bytes(left.csv())
            (folder / "right.csv").write_bytes(right.csv())
            check(Scan(folder, refused_allocations.library(folder), soak.full_join(left, right)), tally)
