#!/usr/bin/env python3
"""Measures what the depth of a line costs: `bench/deep.py`, at the top.

Each kind of line is taken at a depth of 25,000 and at four times that depth, which is the greatest that a line may have,
and there are so many lines of each that both inputs have about the same bytes. Lines of a flat array of as many bytes
stand beside them. Told are the least processor times of some rounds, less the time of a run without lines, and how many
times longer the deeper lines took. A time that is over twice the other one is marked, and then the script ends with
status 1. The benchmark is no part of the tests, and nothing that it says is proved.
"""
import os
import subprocess
import sys
import tempfile
from pathlib import Path

from runs import read, words_taken

DEEPEST = 100_000
LESSER, LARGER = DEEPEST // 4, DEEPEST
OFTEN = 2  # times: a time that grows more, though the bytes do not, is marked
SHORT = 0.02  # seconds: no time below is marked


def arrays(depth):
    return "[" * depth + "]" * depth


def objects(depth):
    return '{"a":' * depth + "1" + "}" * depth


def flat(depth):
    return "[" + "1," * (depth - 2) + "12]"


# Each kind with its lesser and its larger line.
KINDS = [
    ("arrays in arrays", arrays(LESSER), arrays(LARGER)),
    ("objects in objects", objects(LESSER), objects(LARGER)),
    ("elements side by side", flat(LESSER), flat(LARGER)),
    ("arrays that are not closed", "[" * LESSER, "[" * LARGER),
    ("arrays, and one too deep", arrays(DEEPEST), arrays(DEEPEST + 1)),
]
# What is asked of each line: its name, the words before the file, and the statement.
TASKS = [
    ("IS JSON", [], "SELECT doc IS JSON;"),
    ("$[0][0]", [], "SELECT JSON_EXISTS(doc, 'lax $[0][0]');"),
    ("$.a.a", [], "SELECT JSON_EXISTS(doc, 'lax $.a.a');"),
    ("JSON_QUERY", [], "SELECT JSON_QUERY(doc, 'lax $');"),
    ("unique keys", ["--unique-keys"], "SELECT doc IS JSON;"),
]


def spent(program, words, lines):
    """The processor time of one run over the lines of a file, in seconds."""
    with open(lines, "rb") as given:
        ran = subprocess.Popen([str(program), "run", *words], stdin=given, stdout=subprocess.DEVNULL)
        _, status, used = os.wait4(ran.pid, 0)
    ran.returncode = os.waitstatus_to_exitcode(status)
    if ran.returncode:
        sys.exit(f"a run ended with status {ran.returncode}")
    return used.ru_utime + used.ru_stime


def least(program, words, lines, rounds):
    return min(spent(program, words, lines) for _ in range(rounds))


def written(file, line, size):
    """Fills a file with a line again and again, up to about so many bytes, and returns it."""
    file.write_text((line + "\n") * max(round(size / len(line)), 1))
    return file


def measure(program, kind, room, size, rounds):
    """Measures one kind of line, tells it, and returns whether its times are those of its bytes."""
    name, *lines = kind
    files = [written(Path(room, f"{place}.jsonl"), line, size) for place, line in zip(("lesser", "larger"), lines)]
    nothing = Path(room, "nothing.jsonl")
    nothing.touch()
    told, linear = f"{name:28}", True
    for number, (_, options, _) in enumerate(TASKS):
        words = [*options, str(Path(room, f"{number}.sql"))]
        start = least(program, words, nothing, rounds)
        lesser, larger = (max(least(program, words, file, rounds) - start, 0.001) for file in files)
        marked = larger > SHORT and larger > OFTEN * lesser
        linear &= not marked
        told += f"{lesser:>8.3f}{larger:>7.3f}{larger / lesser:>5.1f}{'!' if marked else ' '}"
    print(told, flush=True)
    return linear


def main():
    words = words_taken(__doc__)
    words.add_argument("--size", type=float, default=10, metavar="MB", help="the size of each input (default: 10)")
    words.add_argument("--rounds", type=int, default=5, metavar="N", help="how often each is run (default: 5)")
    given = read(words)
    print(f"{'':28}" + "".join(f"{name:^21}" for name, _, _ in TASKS))
    print(f"{'':28}" + f"{'lesser':>8}{'larger':>7}{'':6}" * len(TASKS))
    with tempfile.TemporaryDirectory() as room:
        for number, (_, _, statement) in enumerate(TASKS):
            Path(room, f"{number}.sql").write_text(statement)
        linear = [measure(given.program, kind, room, given.size * 1e6, max(given.rounds, 1)) for kind in KINDS]
    print("depth costs no more than length" if all(linear) else f"{linear.count(False)} kinds are slower, marked by !")
    return 0 if all(linear) else 1


if __name__ == "__main__":
    sys.exit(main())
