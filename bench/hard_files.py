#!/usr/bin/env python3
"""Measures how long hard statement files take at a size and at four times that size: `bench/hard_files.py`, at the top.

The larger file of each kind has about a megabyte. Where a statement has a limit, as of 1,000 columns, the larger file
has statements at that limit and the smaller file as many statements of a quarter. Each file is checked, and run over one
line. Told are the least processor times of some rounds, how many times longer the larger file took than the smaller,
how many times more bytes it has, and the peak of memory for it. A time that grows over twice as much as the bytes do is
marked, and then the script ends with status 1. The benchmark is no part of the tests, and nothing that it says is
proved.
"""
import os
import subprocess
import sys
import tempfile
from contextlib import suppress
from pathlib import Path

from runs import read, words_taken

OFTEN = 2  # times more than the bytes grow: a time that grows more is marked
SHORT = 0.01  # seconds: no time below is marked
COMMANDS = ("check", "run")
LINE = b'{"a":1}\n'


def exists(path):
    return f"SELECT JSON_EXISTS(doc, '{path}');"


def columns(count):
    names = ",".join(f"c{number} INT" for number in range(count))
    return f"SELECT * FROM JSON_TABLE(doc, '$' COLUMNS ({names}));"


def paths(count):
    """A table with so many paths, which find nothing in the line: else it would have as many rows as columns."""
    nested = ",".join(f"NESTED '$.b' COLUMNS (c{number} INT)" for number in range(1, count))
    return f"SELECT * FROM JSON_TABLE(doc, '$' COLUMNS ({nested}));"


def variables(count):
    names = ",".join(f"1 AS v{number}" for number in range(count))
    return f"SELECT JSON_EXISTS(doc, '$' PASSING {names});"


# Each kind with a statement of so many, the lesser size, and how often the statement stands in the file.
KINDS = [
    ("statements", lambda n: "SELECT 1;" * n, 29_000, 1),
    ("columns of a table", columns, 250, 90),
    ("nested paths of a table", paths, 16, 450),
    ("members in a path", lambda n: exists("$" + ".a" * n), 64, 1800),
    ("sums in a path", lambda n: exists("1" + "+1" * n), 64, 1800),
    ("filters in a path", lambda n: exists("$" + "?(1==1)" * n), 64, 550),
    ("open filters in a path", lambda n: exists("$" + "?(@" * n + "==1" + ")==1" * (n - 1) + ")"), 16, 2100),
    ("open parentheses in a path", lambda n: exists("(" * n + "$" + ")" * n), 16, 6000),
    ("open parentheses in a statement", lambda n: "SELECT " + "JSON_ARRAY(" * n + ")" * n + ";", 16, 1300),
    ("parentheses without a statement", lambda n: "SELECT " + "(" * n + ";", 250_000, 1),
    ("values in a list, too many", lambda n: "SELECT 1" + ",1" * n + ";", 125_000, 1),
    ("values in an array", lambda n: "SELECT JSON_ARRAY(1" + ",1" * n + ");", 125_000, 1),
    ("members in an object", lambda n: "SELECT JSON_OBJECT('':1" + ",'':1" * n + ");", 50_000, 1),
    ("variables", variables, 22_000, 1),
    ("a string", lambda n: "SELECT '" + "a" * n + "';", 250_000, 1),
    ("a string of quotation marks", lambda n: "SELECT '" + "''" * n + "';", 125_000, 1),
    ("a string of escapes in a path", lambda n: exists('"' + "\\u0041" * n + '"'), 43_000, 1),
    ("a comment of dashes", lambda n: "-" * n, 260_000, 1),
    ("comments of two dashes", lambda n: "--\n" * n, 86_000, 1),
    ("dashes that are signs", lambda n: "SELECT" + " -" * n + ";", 125_000, 1),
]


def spent(program, command, file):
    """The processor time of one run, in seconds, and its peak of memory, in megabytes.

    The peak is never below that of this script, which lends its memory until the program begins.
    """
    how = {"stdin": subprocess.PIPE, "stdout": subprocess.DEVNULL, "stderr": subprocess.DEVNULL}
    with subprocess.Popen([str(program), command, str(file)], **how) as ran:
        with suppress(BrokenPipeError):  # (a check reads no input)
            ran.stdin.write(LINE)
            ran.stdin.close()
        _, status, used = os.wait4(ran.pid, 0)
        ran.returncode = os.waitstatus_to_exitcode(status)
    if ran.returncode not in (0, 2):
        sys.exit(f"{command} ended with status {ran.returncode}")
    return used.ru_utime + used.ru_stime, used.ru_maxrss * 1024 / 1e6


def least(program, command, file, rounds):
    """The least time of some rounds, and the greatest peak."""
    times, peaks = zip(*(spent(program, command, file) for _ in range(rounds)))
    return min(times), max(peaks)


def measure(program, kind, room, rounds, start):
    """Measures one kind, tells it, and returns whether its times are linear."""
    name, make, size, copies = kind
    files = [Path(room, "lesser.sql"), Path(room, "larger.sql")]
    for file, count in zip(files, (size, 4 * size)):
        file.write_text(make(count) * copies)
    lesser_bytes, larger_bytes = (file.stat().st_size for file in files)
    told, linear = f"{name:34}{larger_bytes:>10,}{larger_bytes / lesser_bytes:>7.1f}", True
    for command in COMMANDS:
        (lesser, _), (larger, peak) = (least(program, command, file, rounds) for file in files)
        grown = max(larger - start, 0) / max(lesser - start, 0.001)
        marked = larger > SHORT and grown > OFTEN * larger_bytes / lesser_bytes
        linear &= not marked
        told += f"{lesser:>9.3f}{larger:>8.3f}{grown:>6.1f}{'!' if marked else ' '}{peak:>7.1f} "
    print(told)
    return linear


def main():
    words = words_taken(__doc__)
    words.add_argument("--rounds", type=int, default=5, metavar="N", help="how often each is run (default: 5)")
    given = read(words)
    rounds = max(given.rounds, 1)
    print(f"{'':51}" + "".join(f"{command:>9}{'':22}" for command in COMMANDS))
    print(f"{'':34}{'bytes':>10}{'times':>7}" + f"{'lesser':>9}{'larger':>8}{'times':>6} {'MB':>7} " * len(COMMANDS))
    with tempfile.TemporaryDirectory() as room:
        empty = Path(room, "empty.sql")
        empty.write_text("")
        start, _ = least(given.program, "check", empty, rounds)
        linear = [measure(given.program, kind, room, rounds, start) for kind in KINDS]
    print("each time is linear" if all(linear) else f"{linear.count(False)} kinds are not linear, marked by !")
    return 0 if all(linear) else 1


if __name__ == "__main__":
    sys.exit(main())
