#!/usr/bin/env python3
"""Measures what a path with a filter costs beside the reading of its line, with the built program.

Over the same small orders the program answers `lax $`, which asks nothing of a document, and the path of the filter. Told is
the processor time of the median round for both, and what the filter costs over reading: their difference over the first.
The benchmark is no part of the tests, and nothing that it says is proved.
"""
import os
import statistics
import subprocess
import tempfile
from pathlib import Path

from corpora import order, write_lines
from runs import MEGABYTE, read, take_size_and_rounds, words_taken

READING = "lax $"
FILTER = "lax $.lines[*] ? (@.qty > 3).sku"


def processor_time(program, file, corpus):
    """The processor time of one run, in seconds."""
    with open(corpus, "rb") as given:
        ran = subprocess.Popen([str(program), "run", str(file)], stdin=given, stdout=subprocess.DEVNULL)
        _, status, used = os.wait4(ran.pid, 0)
    if status:
        raise SystemExit(f"the program ended with status {os.waitstatus_to_exitcode(status)}")
    return used.ru_utime + used.ru_stime


def main():
    words = words_taken(__doc__)
    take_size_and_rounds(words, rounds=5)
    given = read(words)
    with tempfile.TemporaryDirectory() as room:
        corpus = Path(room, "orders.jsonl")
        written = write_lines(order, corpus, int(given.size * MEGABYTE))
        files = [Path(room, "reading.sql"), Path(room, "filter.sql")]
        for file, path in zip(files, [READING, FILTER]):
            file.write_text(f"SELECT JSON_EXISTS(doc, '{path}');\n")
        # (each round runs both, one after the other)
        rounds = [
            [processor_time(given.program, file, corpus) for file in files] for _ in range(max(given.rounds, 1))
        ]
    reading, filtered = (statistics.median(took) for took in zip(*rounds))
    print(f"orders: {written / MEGABYTE:.1f} MB")
    print(f"  {READING:40}{reading:8.3f} s")
    print(f"  {FILTER:40}{filtered:8.3f} s")
    print(f"  the filter costs {(filtered - reading) / reading:.2f} times what reading does")


if __name__ == "__main__":
    main()
