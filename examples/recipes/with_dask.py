# Runs the program on a cluster of Dask whose workers see the same files, and writes what one run would write.
# Needs: python3 with distributed
# usage: python3 with_dask.py [SCHEDULER] > rows   (with no SCHEDULER: two workers on this machine)
import os
import subprocess
import sys
from collections import deque
from itertools import islice

from distributed import Client, LocalCluster

LINES = ["1", os.path.abspath("orders.sql"), os.path.abspath("orders.jsonl")]
AHEAD = 100  # parts that are given out before their rows are written


def over(part):
    """The status, the rows and the message of a run over a part of the input."""
    ran = subprocess.run(["sqljson-in-parallel", "--part", part, *LINES], capture_output=True)
    return ran.returncode, ran.stdout, ran.stderr


def run(client, parts):
    """Writes the rows in the order of the parts, and returns the status: 0, or that of the first run that failed."""
    waiting = deque(client.submit(over, it) for it in islice(parts, AHEAD))
    while waiting:
        status, rows, said = waiting.popleft().result()
        sys.stdout.buffer.write(rows)
        sys.stderr.buffer.write(said)
        if status:
            return status
        waiting.extend(client.submit(over, it) for it in islice(parts, 1))
    return 0


def main():
    words = ["sqljson-in-parallel", "--list", "--piece", os.environ.get("PIECE", "64000000"), *LINES]
    listed = subprocess.run(words, stdout=subprocess.PIPE, text=True)
    if listed.returncode:  # as where the file of statements is refused
        return listed.returncode
    where = sys.argv[1] if len(sys.argv) > 1 else LocalCluster(n_workers=2, threads_per_worker=1, dashboard_address=None)
    with Client(where) as client:
        return run(client, iter(listed.stdout.split()))


if __name__ == "__main__":
    sys.exit(main())
