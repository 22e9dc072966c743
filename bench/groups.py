#!/usr/bin/env python3
"""Measures what `group` takes for one key, a thousand and a million: `bench/groups.py`, at the top.

The lines are `{"k":"..","v":N}`, a million of them, and each group is an array. Beside the program run its `run` on the
same statement and lines, and a loop over orjson that gathers in a dict and has to write the same groups, byte for byte. All
run in turns, and told are medians of their processor times. The peak of the program's memory is told beside what it is
to be at most: that of `run`, 2.5 times the text of the groups, and 100 bytes for each. jq gathers the first lines alone,
since its time grows with their square.

Then come keys that were chosen to have one hash. The map of the groups has a hash with a fixed seed, so anybody can find
such keys. They are told beside other keys of their length. The script ends with status 1 where the groups differ or the
memory is over. The benchmark is no part of the tests, and nothing that it says is proved.
"""
import filecmp
import importlib.util
import itertools
import random
import shutil
import statistics
import sys
import tempfile
from pathlib import Path

from runs import MEGABYTE, Tool, measure, read, with_orjson, words_taken

STATEMENT = "SELECT JSON_VALUE(doc, '$.k'), JSON_VALUE(doc, '$.v' RETURNING INTEGER);\n"
KEYS = [1, 1_000, 1_000_000]
IN_JQ = "reduce inputs as $line ({}; .[$line.k] += [$line.v])"
JQ_LINES = 10_000
CHOSEN = 20_000
# Pairs of texts of 11 bytes. Keys that have one text of each pair, in this order, have one hash, whichever text it is. A
# search over some 2^29 texts found each pair, in about ten seconds of one processor.
PAIRS = """SqHPoP5MJG@ -Wkex4ybJDk mqWCIFjMgC@ BkRuuN2meHu x8OMPboDAE! rtZ0gfgjrG$ 6heI28bOqD@ lEfPxr0CyF| n7qfCkNioD$ vvO4Wiq0SF%
SW1OANI5YG$ X1fEJWAmcE% ofhNszpuDB@ ZR1qhAGe4Bw qGAsC7wKBE! MmgAB2B3jH? N_tCkDZQzA! FuoOoaDCMFw BTS4Q3w_-A! 70gHdHVWnBU
waYNn5-_3F! AfSqvBv3DAK mql7TWvdZC! v-G5TRI4mDA YYIL-4MqtH! -Ev8cjNOpA2 gzMBuDBDCC! nEMlkbZ5HEB wRfpM5eEvC! H84MwrUx2A*""".split()


def numbered_keys(lines, keys):
    """A key for each line: each of the keys in turn, in a mixed order."""
    return (f"key{line % keys * 7919 % 10_000_019:08}" for line in range(lines))


def chosen_keys(count):
    """Keys that have one hash, in a mixed order, and as many others of their length."""
    dice, pairs = random.Random(19), zip(PAIRS[::2], PAIRS[1::2])
    alike = ["".join(parts) for parts in itertools.islice(itertools.product(*pairs), count)]
    dice.shuffle(alike)
    return alike, ["".join(dice.sample(key, len(key))) for key in alike]


def write_lines(path, keys):
    with open(path, "w") as out:
        out.writelines(f'{{"k":"{key}","v":{number}}}\n' for number, key in enumerate(keys))


def in_turns(tools, lines, rounds, room):
    """Runs each tool so often on the lines, in turns, and gives the median of its processor times, by its name."""
    for _ in range(rounds):
        for tool in tools:
            measure(tool, lines, Path(room, tool.name))
    return {tool.name: statistics.median(tool.busy) for tool in tools}


def over_keys(program, keys, given, room):
    """Measures the tools on lines with so many keys. Tells what they took, and returns the faults."""
    lines, statement = Path(room, "lines.jsonl"), str(Path(room, "groups.sql"))
    write_lines(lines, numbered_keys(given.lines, keys))
    own = Tool("group", [program, "group", statement])
    tools = [own, Tool("run", [program, "run", statement])] + ([with_orjson("group")] if importlib.util.find_spec("orjson") else [])
    took = in_turns(tools, lines, given.rounds, room)
    text, groups = Path(room, "group").stat().st_size, min(keys, given.lines)
    most = tools[1].peak / 1000 + (2.5 * text + 100 * groups) / MEGABYTE
    print(f"\n{given.lines:,} lines, {groups:,} groups of {text / MEGABYTE:.1f} MB together")
    for tool in tools:
        ratio, each = took[tool.name] / took["group"], took[tool.name] / given.lines * 1e6
        print(f"  {tool.name:10}{took[tool.name]:8.2f} s{each:8.2f} us a line{ratio:8.2f} times{tool.peak / 1000:8.1f} MB")
    print(f"  {'':10}the memory is to be {most:.1f} MB at most")
    if shutil.which("jq"):
        over_jq(program, lines, statement, room)
    differ = len(tools) > 2 and not filecmp.cmp(Path(room, "group"), Path(room, "orjson"), shallow=False)
    return (["the groups of orjson differ"] if differ else []) + (["the memory is over"] if own.peak / 1000 > most else [])


def over_jq(program, lines, statement, room):
    """Tells what jq takes for the first lines, and the program for the same."""
    first = Path(room, "first.jsonl")
    with open(lines) as whole:
        first.write_text("".join(itertools.islice(whole, JQ_LINES)))
    took = in_turns([Tool("few", [program, "group", statement]), Tool("jq", ["jq", "-nc", IN_JQ])], first, 1, room)
    print(f"  {'jq':10}{took['jq']:8.2f} s for the first {JQ_LINES:,} lines, and {took['few']:.2f} s the program")


def over_chosen_keys(program, given, room):
    """Tells what keys of one hash take beside others."""
    statement, took = str(Path(room, "groups.sql")), {}
    for name, keys in zip(["of one hash", "others"], chosen_keys(CHOSEN)):
        lines = Path(room, "lines.jsonl")
        write_lines(lines, keys)
        took[name] = in_turns([Tool("group", [program, "group", statement])], lines, given.rounds, room)["group"]
    print(f"\n{CHOSEN:,} keys of {len(keys[0])} bytes: {took['of one hash']:.2f} s of one hash, {took['others']:.3f} s others")


def main():
    words = words_taken(__doc__)
    words.add_argument("--lines", type=int, default=1_000_000, metavar="N", help="how many lines (default: 1,000,000)")
    words.add_argument("--rounds", type=int, default=5, metavar="N", help="how often each is run (default: 5)")
    given = read(words)
    for name, there in [("orjson", importlib.util.find_spec("orjson")), ("jq", shutil.which("jq"))]:
        if not there:
            print(f"{name} is left out: it is not installed")
    wrong = []
    with tempfile.TemporaryDirectory() as room:
        Path(room, "groups.sql").write_text(STATEMENT)
        for keys in KEYS:
            wrong += [f"{keys:,} keys: {fault}" for fault in over_keys(str(given.program), keys, given, room)]
        over_chosen_keys(str(given.program), given, room)
    print(*wrong, sep="\n")
    return 1 if wrong else 0


if __name__ == "__main__":
    sys.exit(main())
