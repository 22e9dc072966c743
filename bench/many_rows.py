#!/usr/bin/env python3
"""Measures what a short line with very many rows takes of time and memory: `bench/many_rows.py`, at the top.

The line has two arrays of 3,000 elements, and CROSS joins each element of one with each of the other: 9,000,000 rows. They
are counted as they come, in blocks, and none is kept. Told are the seconds and the peak of the program's resident memory.
The script ends with status 1 where the rows are not that many, or the peak is over 32 MB. With `--elements` the arrays are
shorter or longer. The benchmark is no part of the tests, and nothing that it says is proved.
"""
import subprocess
import sys
import tempfile
import time
from pathlib import Path

from runs import peak_of, read, words_taken

STATEMENT = """SELECT * FROM JSON_TABLE(doc, '$' COLUMNS (
    NESTED '$.x[*]' COLUMNS (x INTEGER PATH '$'),
    NESTED '$.y[*]' COLUMNS (y INTEGER PATH '$')) PLAN DEFAULT (OUTER, CROSS));"""
BLOCK = 65_536  # bytes
MOST_MEMORY = 32_000  # kilobytes


def count_rows(program, statements, line):
    """Runs the program, and returns how many rows it wrote and its peak of memory, in kilobytes, as seen at each block."""
    rows = peak = 0
    with open(line, "rb") as given:
        ran = subprocess.Popen([str(program), "run", str(statements)], stdin=given, stdout=subprocess.PIPE)
    with ran.stdout as pipe:
        while block := pipe.read(BLOCK):
            rows += block.count(b"\n")
            peak = max(peak, peak_of(ran.pid))
    if ran.wait():
        sys.exit(f"the program ended with status {ran.returncode}")
    return rows, peak


def write_line(path, elements):
    """Writes the line with two arrays of so many elements."""
    numbers = ",".join(str(number) for number in range(elements))
    path.write_text(f'{{"x":[{numbers}],"y":[{numbers}]}}\n')


def faults(rows, wanted, peak):
    """Says what is wrong with what was measured."""
    found = []
    if rows != wanted:
        found.append(f"there should be {wanted:,} rows")
    if peak > MOST_MEMORY:
        found.append(f"the memory is over {MOST_MEMORY / 1000:.0f} MB")
    if not peak:
        found.append("it ended before its memory was looked at")
    return found


def main():
    words = words_taken(__doc__)
    words.add_argument("--elements", type=int, default=3000, metavar="N", help="the length of each array (default: 3000)")
    given = read(words)
    with tempfile.TemporaryDirectory() as room:
        statements, line = Path(room, "rows.sql"), Path(room, "line.jsonl")
        statements.write_text(STATEMENT)
        write_line(line, given.elements)
        begun = time.perf_counter()
        rows, peak = count_rows(given.program, statements, line)
        seconds = time.perf_counter() - begun
    print(f"{rows:,} rows in {seconds:.1f} s, with {peak / 1000:.1f} MB of memory at most")
    wrong = faults(rows, given.elements**2, peak)
    for fault in wrong:
        print(f"  {fault}")
    return 1 if wrong else 0


if __name__ == "__main__":
    sys.exit(main())
