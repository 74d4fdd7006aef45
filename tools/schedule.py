"""When to prove each of several crates, and with how many jobs, so that all are proved soonest: planned by recorded seconds, and run."""

import os
import random
import threading
import time
from collections import namedtuple
from concurrent.futures import FIRST_COMPLETED, ThreadPoolExecutor, wait

import repository

# About how many seconds of processor time each crate takes from nothing, and the part of them that more jobs don't make shorter, where it is
# much more than of most.
RECORD = repository.ROOT / "tools" / "build.seconds"

# What a check from nothing takes: how many seconds of processor time, and the part of them that further jobs don't make shorter, since libraries
# are read, what the jobs proved is put together, and a program is compiled.
Cost = namedtuple("Cost", ("seconds", "serial"), defaults=(0.43,))
# Where a crate's check runs: with how many jobs, and whether beside those that have all processors.
Lane = namedtuple("Lane", ("jobs", "is_spare"))
# How many jobs a check has at most, how many plans are tried, and what each job beyond the first adds to a check's memory.
MOST_JOBS, PLANS, MORE_MEMORY = 4, 2000, 0.6
# How much a check takes of the memory that the kit plans for it: most take a third, and the largest, that of a program, all of it alone.
TAKEN = 0.5
# How many checks with one job are begun beside those that have all processors, and by how much lower their priority is: a check with several jobs
# ends with one that is at work alone.
SPARE, LOWER = 2, 10


def recorded_costs():
    return {name: Cost(*map(float, numbers)) for name, *numbers in map(str.split, RECORD.read_text().splitlines())}


def minutes(seconds):
    return f"{seconds / 60:.0f} min" if seconds >= 90 else f"{max(seconds, 1):.0f} s"


def minutes_of(program):
    """About how long it takes here to prove and build a program with all that it stands on, beside nothing else."""
    names = [*repository.below(repository.crates(), program), program]
    return minutes(Planned(names, {}, 0, None, plans=300).total)


def elapsed(cost, jobs):
    """How long a check takes."""
    return cost.seconds * (cost.serial + (1 - cost.serial) / jobs)


def behind(below, costs):
    """The seconds of each crate with the longest chain of crates that wait for it."""
    found = {}
    for name in sorted(below, key=lambda it: -len(below[it])):
        found[name] = costs[name].seconds + max((found[it] for it in found if name in below[it]), default=0)
    return found


def ready(left, below, proved, chains):
    """The crates that can be begun now, those that most others wait for first."""
    return sorted((it for it in left if below[it] <= proved), key=chains.get, reverse=True)


def jobs_now(name, left, jobs, chains, idle):
    """How many jobs a crate is begun with: those that it is to have, or fewer where no more lanes are free. The one that most others wait for has its
    jobs all the same, since what runs beside it ends sooner."""
    return jobs[name] if chains[name] >= max(map(chains.get, left)) else min(jobs[name], idle)


def ends_of(below, costs, chains, jobs, lanes):
    """When each crate ends, where each is begun with so many jobs."""
    now, left, running, ends = 0.0, set(below), [], {}
    while left or running:
        idle = lanes - sum(count for _, _, count in running)
        name = next(iter(ready(left, below, ends.keys(), chains)), None) if idle > 0 else None
        if name:
            count = jobs_now(name, left, jobs, chains, idle)
            left.remove(name)
            running.append((now + elapsed(costs[name], count), name, count))
        else:
            now, name, _ = first = min(running)
            running.remove(first)
            ends[name] = now
    return ends


def jobs_of(below, costs, chains, lanes, plans, most):
    """How many jobs each crate is to have, `most` at most: the best of so many plans, each a change of the best one before it."""
    chance, best = random.Random(1), dict.fromkeys(below, 1)
    least = max(ends_of(below, costs, chains, best, lanes).values(), default=0)
    for _ in range(plans if len(below) > 1 else 0):
        tried = {**best, chance.choice(list(below)): chance.randint(1, min(most, lanes))}
        last = max(ends_of(below, costs, chains, tried, lanes).values())
        if last <= least:
            best, least = tried, last
    return best


class Planned:
    """Crates to be proved, and the jobs that each is to have. It tells how far it is, and about how long the rest takes at the pace so far.
    needs: the memory that the kit plans for each with one job; free: what there is."""

    def __init__(self, names, needs, free, say, plans=PLANS, most=MOST_JOBS):
        lines, recorded = repository.crates(), recorded_costs()
        self.lanes, self.memory, self.say = repository.processors(), 0.85 * free, say
        self.needs = {name: TAKEN * needs[name] for name in needs}
        self.below = {name: {it for it in repository.below(lines, name) if it in names} for name in names}
        self.costs = costs = {name: recorded.get(name, Cost(60)) for name in names}
        self.chains = behind(self.below, costs)
        self.jobs = jobs_of(self.below, costs, self.chains, self.lanes, plans, most)
        self.ends = ends_of(self.below, costs, self.chains, self.jobs, self.lanes)
        self.total = max(self.ends.values(), default=0)
        self.left, self.start, self.ended, self.printing = set(self.below), time.monotonic(), [], threading.Lock()

    def tell_end(self, name):
        with self.printing:
            self.ended.append(name)
            taken, reached = time.monotonic() - self.start, max(self.ends[it] for it in self.ended)
            left = (self.total - reached) * taken / reached
            rest = f", about {minutes(left)} left" if len(self.ended) < len(self.ends) else ""
            self.say(f"{len(self.ended)} of {len(self.ends)}, {name} ({minutes(taken)} so far{rest})")

    def can_wait(self, name, running):
        """Whether a crate may take about twice its time, as in a spare lane, and others still take longer with what waits for them."""
        longest = max(self.chains[it] for it in (*self.left, *(it for it, _ in running)))
        return self.chains[name] + self.costs[name].seconds < longest

    def lane_for(self, name, running):
        """Which lane a crate is begun in now, where one is free: one of the processors', which the crate that most others wait for takes in any case, or a
        spare one. running: the lane of each crate that is at work."""
        idle = self.lanes - sum(lane.jobs for _, lane in running if not lane.is_spare)
        if idle > 0 or all(self.chains[name] > self.chains[it] for it, _ in running):
            return Lane(jobs_now(name, self.left, self.jobs, self.chains, idle), False)
        is_free = sum(lane.is_spare for _, lane in running) < SPARE
        return Lane(1, True) if is_free and self.can_wait(name, running) else None

    def next_with_lane(self, proved, running):
        """The crate that is begun now, and its lane, or none."""
        found = ((name, self.lane_for(name, running)) for name in ready(self.left, self.below, proved, self.chains))
        return next(((name, lane) for name, lane in found if lane), (None, None))

    def has_memory(self, name, running):
        """Whether a crate can be begun beside those that are at work, with no more than the memory that is free. One alone can."""
        taken = sum(self.needs[it] * (1 + MORE_MEMORY * (lane.jobs - 1)) for it, lane in running)
        return not running or taken + self.needs[name] <= self.memory

    def run(self, work):
        """Calls work(name, jobs) of each crate in a thread. It ends early where a work gives false, and gives whether none did."""
        running, proved = {}, set()
        with ThreadPoolExecutor(2 * self.lanes) as pool, ThreadPoolExecutor(SPARE, initializer=os.nice, initargs=(LOWER,)) as spare:
            while self.left or running:
                name, lane = self.next_with_lane(proved, running.values())
                if lane and self.has_memory(name, running.values()):
                    self.left.remove(name)
                    running[(spare if lane.is_spare else pool).submit(work, name, lane.jobs)] = name, lane
                    continue
                for it in wait(running, return_when=FIRST_COMPLETED).done:
                    name, _ = running.pop(it)
                    if it.result():
                        self.tell_end(name)
                        proved.add(name)
                    else:
                        self.left.clear()
        return len(proved) == len(self.below)
