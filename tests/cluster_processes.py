"""Starts a Dask cluster of so many processes on this machine: usage: cluster_processes.py N

It prints a line with the scheduler's address, and then, each time that it reads a line, one with the processes' own
numbers. It ends where standard input does. It is run by a Python that has Dask, which may be another one than the tests'."""
import os
import sys

# Has Dask put another process in the place of a lost one whenever that is there: it gives up what isn't there after 15 seconds, as on a
# machine that does other work.
LATE = {"distributed.deploy.lost-worker-timeout": "1 day"}


def main():
    import dask
    from distributed import Client, LocalCluster

    how = {"threads_per_worker": 1, "memory_limit": 0, "dashboard_address": ":0", "silence_logs": 50}
    with dask.config.set(LATE), LocalCluster(n_workers=int(sys.argv[1]), **how) as cluster, Client(cluster) as client:
        print(cluster.scheduler_address, flush=True)
        for _ in sys.stdin:
            print(*client.run(os.getpid).values(), flush=True)


if __name__ == "__main__":
    main()
