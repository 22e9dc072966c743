#!/usr/bin/env python3
"""Measures how the work of tools/in-parallel grows with its input, beside that of one run.

usage, at the top: bench/parallel.py [PROGRAM]

The input is short lines, N of them and then 4 N, in small pieces, so that there are many: a share of each piece that grew with
the lines before it would show. It gives processor seconds of all processes, the best of some runs, and what one run takes
for the same. The rows are compared.
"""
import hashlib
import os
import resource
import subprocess
import sys
import tempfile
from pathlib import Path

TOP = Path(__file__).resolve().parent.parent
STATEMENT = "SELECT JSON_VALUE(doc, '$.number' RETURNING INTEGER);"
LINE = b'{"text":"x","number":%8d}\n'
LINES = 1_500_000
PIECE = 2_000_000  # bytes
JOBS = 2
RUNS = 3


def seconds_of(words, given):
    """The processor seconds that a command takes, with those of what it starts, and the sum of what it writes."""
    before = resource.getrusage(resource.RUSAGE_CHILDREN)
    with open(given, "rb") as lines, subprocess.Popen(words, stdin=lines, stdout=subprocess.PIPE) as run:
        made = hashlib.md5()
        while block := run.stdout.read(1 << 20):
            made.update(block)
    if run.returncode:
        sys.exit(f"{words} ended with status {run.returncode}")
    after = resource.getrusage(resource.RUSAGE_CHILDREN)
    return after.ru_utime + after.ru_stime - before.ru_utime - before.ru_stime, made.hexdigest()


def measure(program, room, lines):
    """The seconds of one run, and of in-parallel from a file and from a pipe."""
    file, given = room / "file.sql", room / "input"
    file.write_text(STATEMENT, encoding="utf-8")
    with open(given, "wb") as output:
        output.writelines(LINE % number for number in range(lines))
    parallel = [TOP / "tools" / "in-parallel", "--program", program, "--piece", str(PIECE), str(JOBS), file]
    ways = [[program, "run", file], [*parallel, given], ["sh", "-c", 'cat | "$@"', "sh", *parallel]]
    took, sums = zip(*(min(seconds_of(words, given) for _ in range(RUNS)) for words in ways))
    if len(set(sums)) > 1:
        sys.exit("the rows differ")
    return took


def main():
    program = os.path.abspath(sys.argv[1]) if len(sys.argv) > 1 else TOP / "crates" / "sqljson" / "out" / "sqljson"
    print(f"{'lines':>10} {'one run':>8} {'a file':>8} {'a pipe':>8}")
    with tempfile.TemporaryDirectory() as room:
        small, large = (measure(program, Path(room), lines) for lines in (LINES, 4 * LINES))
    for lines, took in [(LINES, small), (4 * LINES, large)]:
        print(f"{lines:>10}", *(f"{it:8.2f}" for it in took))
    print(f"{'ratio':>10}", *(f"{few and many / few:8.2f}" for few, many in zip(small, large)))


if __name__ == "__main__":
    main()
