"""Runs a program unproved, as where it isn't built yet: compiled with checks from the sources, by tools/run-unproved and the kit's `rt try`."""
import os

import harness

WORDS = ("--partition", "0", "--senders", "1", "--block", "4")


def run_all(tally):
    """The worked example arrivals_first_line of the program `arrivals`, unproved."""
    with harness.folder() as folder:
        words = [harness.ROOT / "tools" / "run-unproved", "arrivals", *WORDS]
        ran = harness.run(words, folder, b"0 0 1 rows 5 7\n", environment=dict(os.environ), seconds=600)
    faults = harness.differences(ran, b"held\nsender 0 waiting 0 rows\nincomplete\n", None)
    if b"NOT PROVED yet on this machine" not in ran.stderr:
        faults.append(f"standard error doesn't say that nothing is proved: {harness.shorten(ran.stderr)}")
    tally.check("arrivals, unproved", faults)
