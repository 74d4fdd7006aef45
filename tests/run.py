"""Runs the tests over the built programs, as many parts side by side as there are processors. The last line is
'N passed, M failed'.

usage: run.py                 all parts
       run.py PART ..         these parts alone, as examples or pages
       run.py --case NAME     the rows of tests/*.toml with this name"""
import concurrent.futures
import contextlib
import importlib
import io
import os
import sys
import time
import tomllib
import traceback

import examples
import harness

# The longest first, so that none is left alone at the end.
PARTS = (
    "beyond_4_gib",
    "refused_allocations",
    "refused_further",
    "full_queues",
    "fuzz",
    "soak",
    "examples",
    "devices",
    "sizes",
    "segments",
    "cluster",
    "cluster_broadcast",
    "cluster_ends",
    "cluster_killed",
    "cluster_machine",
    "cluster_manners",
    "cluster_memory",
    "cluster_merges",
    "cluster_pieces",
    "cluster_random",
    "cluster_runs",
    "cluster_sent",
    "cluster_skew",
    "cluster_slow",
    "python_package",
    "python_types",
    "shards_order",
    "shards_strict",
    "shards",
    "shards_further",
    "shards_scratch",
    "parts_further",
    "amounts",
    "parts",
    "strict",
    "type_lists",
    "threads",
    "retried",
    "installation",
    "unproved",
    "merges",
    "recipes",
    "pages",
    "options",
    "citations",
    "ends",
    "output_file",
    "progress",
    "streams",
    "people",
    "comparisons",
    "max_rows",
    "naming",
)
TABLES = ("examples.toml", "arrivals.toml", "ends.toml", "merges.toml")


def run_part(name):
    """Runs a part in a process of its own. It gives how many passed and failed, and what it told. A part that breaks
    off has failed."""
    tally, told, start = harness.Tally(), io.StringIO(), time.monotonic()
    with contextlib.redirect_stdout(told):
        try:
            importlib.import_module(name).run_all(tally)
        except Exception:
            tally.check(name, traceback.format_exc().splitlines())
    print(f"{name}: {time.monotonic() - start:.0f} s", file=told)
    return tally.passed, tally.failed, told.getvalue()


def run_parts(names, tally):
    """Runs parts side by side, and tells each as it ends."""
    with concurrent.futures.ProcessPoolExecutor(len(os.sched_getaffinity(0))) as pool:
        for ran in concurrent.futures.as_completed([pool.submit(run_part, name) for name in names]):
            passed, failed, told = ran.result()
            tally.passed += passed
            tally.failed += failed
            print(told, end="", flush=True)


def run_case(name, tally):
    """Runs the rows of the tables that have a name."""
    for table in TABLES:
        with open(harness.ROOT / "tests" / table, "rb") as text:
            found = tomllib.load(text)
        for case in found["case"]:
            if case["name"] == name:
                tally.check(f"{table}: {name}", examples.faults_of(case, found.get("file", {})))


def main(words):
    tally = harness.Tally()
    if words[:1] == ["--case"] and len(words) == 2:
        run_case(words[1], tally)
    elif all(word in PARTS for word in words):
        run_parts([name for name in PARTS if not words or name in words], tally)
    else:
        sys.exit(f"{__doc__}\nParts: {', '.join(PARTS)}")
    print(f"{tally.passed} passed, {tally.failed} failed")
    return 1 if tally.failed or not tally.passed else 0


if __name__ == "__main__":
    sys.exit(main(sys.argv[1:]))
