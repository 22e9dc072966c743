#!/usr/bin/env python3
"""Counts the instructions that programs take for a byte of input, statement by statement, by valgrind's callgrind.

usage, at the top: bench/instructions.py [--only NAME] [PROGRAM ..]   (the built program, if none is named)

The statements and lines are those of statements.py, 300 kB of each kind. Unlike times, these figures are the same from run to
run, whatever else the machine does. They do not show stalls, so what is kept is to be timed too. Where two programs write
different rows, the script ends with status 1. `bench/unproved.py` builds a program to be compared within two minutes.
"""
import argparse
import re
import subprocess
import sys
import tempfile
from pathlib import Path

from corpora import write_lines
from runs import BUILT
from statements import NAMES, TASKS

SIZE = 300_000


def count(program, statement, corpus, room):
    """The instructions of a run for each byte, and the rows that it wrote."""
    words = ["valgrind", "--tool=callgrind", f"--callgrind-out-file={room}/counts", str(program), "run", str(statement)]
    with open(corpus, "rb") as given:
        ran = subprocess.run(words, stdin=given, capture_output=True)
    found = re.search(rb"Collected : (\d+)", ran.stderr)
    if not found:
        sys.exit(ran.stderr.decode(errors="replace"))
    return int(found[1]) / corpus.stat().st_size, ran.stdout


def compare(name, text, programs, corpus, room):
    """Tells what each program takes, and returns whether all write the same rows."""
    statement = Path(room, "statement.sql")
    statement.write_text(text)
    found = [count(program, statement, corpus, room) for program in programs]
    print(f"{name:12}" + "".join(f"{each:10.2f}" for each, _ in found) + (f"{found[-1][0] / found[0][0]:8.2f}" if len(found) > 1 else ""), flush=True)
    return all(rows == found[0][1] for _, rows in found)


def main():
    words = argparse.ArgumentParser(description=__doc__, formatter_class=argparse.RawDescriptionHelpFormatter)
    words.add_argument("programs", nargs="*", type=Path, default=[BUILT], metavar="PROGRAM", help="a program to count; of several, the last is told over the first")
    words.add_argument("--only", choices=NAMES, help="one statement alone")
    given = words.parse_args()
    agree = True
    with tempfile.TemporaryDirectory() as room:
        for make, statements in TASKS.items():
            asked = {name: text for name, text in statements.items() if given.only in (None, name)}
            if asked:
                corpus = Path(room, "corpus.jsonl")
                write_lines(make, corpus, SIZE)
                agree &= all([compare(name, text, given.programs, corpus, room) for name, text in asked.items()])
    if not agree:
        print("the rows differ")
    return 0 if agree else 1


if __name__ == "__main__":
    sys.exit(main())
