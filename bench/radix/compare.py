"""Times the joins of `radix_bench` beside the same in plain Rust, and checks that both find the same pairs.

usage: compare.py RADIX_BENCH PLAIN_JOIN [--rounds N] [--runs N] [--scale F]

Runs both programs in turn on the same keys, several times, and prints a table: the least CPU time of a round, which is that of a
run of N rounds less that of a run of one round, over N - 1, so that the making of the tables isn't in it; the least
wall time of the two steps; the peak memory of a run of one round, with the tables. It judges nothing."""
import argparse
import os
import subprocess
import sys

RIGHT_ROWS = 1_000_000
LEFT_ROWS = 4_000_000
# What is joined, and by how many bits of the hash in each of two passes.
CASES = [(keys, first, second) for keys in ("int", "text") for first, second in ((0, 0), (8, 0), (5, 5))] + [("pieces", 8, 0)]
# How many times as many rounds are run of one part alone, which takes less time than the making of the tables by far.
SHORTER = {"pieces": 8}


class Measured:
    """One run: seconds of CPU time, peak memory in bytes, milliseconds of its two steps, and the checksum."""

    def __init__(self, cpu, memory, steps, checksum):
        self.cpu = cpu
        self.memory = memory
        self.steps = steps
        self.checksum = checksum


def measure(words):
    child = subprocess.Popen([str(word) for word in words], stdout=subprocess.PIPE, text=True)
    line = child.stdout.read()
    _, status, usage = os.wait4(child.pid, 0)
    child.stdout.close()
    if status != 0:
        sys.exit(f"compare.py: {words[0]} ended with status {os.waitstatus_to_exitcode(status)}")
    # NAME: STEP MICROSECONDS STEP MICROSECONDS sum CHECKSUM
    fields = line.split()
    steps = (int(fields[2]) / 1000, int(fields[4]) / 1000)
    return Measured(usage.ru_utime + usage.ru_stime, usage.ru_maxrss * 1024, steps, fields[6])


class Timed:
    """What one program takes for a case: CPU milliseconds of a round, those of its two steps by the wall, peak memory."""

    def __init__(self, single, several, rounds):
        cpu = min(run.cpu for run in several) - min(run.cpu for run in single)
        self.cpu = 1000 * cpu / (rounds - 1)
        self.first = min(run.steps[0] for run in several)
        self.second = min(run.steps[1] for run in several)
        self.memory = min(run.memory for run in single)
        self.checksum = several[0].checksum


def compare(programs, case, scale, rounds, runs):
    """Both programs in turn, so that both meet the same state of the machine."""
    keys, first, second = case
    rounds *= SHORTER.get(keys, 1)
    words = [keys, int(RIGHT_ROWS * scale), int(LEFT_ROWS * scale), first, second]
    found = [([], []) for _ in programs]
    for _ in range(runs):
        for program, (single, several) in zip(programs, found):
            single.append(measure([program, *words, 1]))
            several.append(measure([program, *words, rounds]))
    return [Timed(single, several, rounds) for single, several in found]


def row(case, ours, theirs):
    keys, first, second = case
    name = {"int": "int keys", "text": "text keys", "pieces": "biggest part of Zipf 1.25, in pieces"}[keys]
    name += f", {first} + {second} bits" if first else ", one part"
    cells = [name]
    cells += [f"{it.cpu:.1f}" for it in (ours, theirs)] + [f"{ours.cpu / theirs.cpu:.2f}"]
    cells += [f"{it.first:.1f} + {it.second:.1f}" for it in (ours, theirs)]
    cells += [f"{it.memory / 1e6:.0f}" for it in (ours, theirs)]
    return "| " + " | ".join(cells) + " |"


def main():
    words = argparse.ArgumentParser(usage=__doc__.split("\n\n")[1][len("usage: "):])
    words.add_argument("programs", nargs=2)
    words.add_argument("--rounds", type=int, default=8)
    words.add_argument("--runs", type=int, default=3)
    words.add_argument("--scale", type=float, default=1.0)
    words.add_argument("--only", default="")
    asked = words.parse_args()
    print("| joined | CPU, ms | plain | ratio | steps by the wall, ms | plain | peak, MB | plain |")
    print("|---|---|---|---|---|---|---|---|")
    for case in CASES:
        if asked.only and asked.only != case[0]:
            continue
        ours, theirs = compare(asked.programs, case, asked.scale, asked.rounds, asked.runs)
        if ours.checksum != theirs.checksum:
            sys.exit(f"compare.py: {case}: the pairs differ")
        print(row(case, ours, theirs), flush=True)


main()
