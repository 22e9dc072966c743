#!/usr/bin/env python3
"""Shows where the processor waits while a program runs a statement: `bench/waits.py --only NAME`, at the top.

Callgrind counts how often each instruction is done, and `perf` looks at a clock's pace which one the processor is at. Where it
is found more often than the count would have it, it waits: most often for what was just written in smaller pieces, for the
end of a chain of results, or behind a jump that it did not foresee. Told are such instructions, each with the one before it:
how much more often it was found than counted, and how often it is done for a line. It is found a little behind the one
that waits.

It needs valgrind, `perf` (Debian's linux-perf) and objdump. The statements are those of statements.py. It is no part of the
tests, and nothing that it says is proved.
"""
import re
import subprocess
import sys
import tempfile
from collections import Counter
from pathlib import Path

from corpora import write_lines
from runs import MEGABYTE, read, words_taken
from statements import NAMES, TASKS

COUNTED = 300_000  # bytes that are run with callgrind
WATCHED = 200 * MEGABYTE  # bytes that are run with perf
PACE = 9_000  # looks a second
PAGE = 0x1000  # bytes that the code lies behind its place in the file


def output(words, given=None):
    """What a command writes, with this file as its input."""
    ran = subprocess.run([str(it) for it in words], stdin=given, capture_output=True, text=True, errors="replace")
    if ran.returncode:
        sys.exit(ran.stderr)
    return ran.stdout


def counts(program, statement, corpus, room):
    """How often each instruction is done, by its address, and in which function."""
    kept, found, within = Path(room, "counts"), Counter(), {}
    words = ["valgrind", "--tool=callgrind", "--dump-instr=yes", "--compress-strings=no", "--compress-pos=no", f"--callgrind-out-file={kept}", program, "run", statement]
    with open(corpus, "rb") as given:
        output(words, given)
    function, is_call = "", False
    for line in kept.read_text(errors="replace").splitlines():
        if line.startswith("fn="):
            function = line[3:]
        elif line.startswith("calls="):
            is_call = True
        elif line.startswith("0x"):
            address, *_, cost = line.split()
            if not is_call:  # the line behind a call has what was called
                found[int(address, 16)] += int(cost)
                within[int(address, 16)] = function
            is_call = False
    return found, within


def looks(program, statement, corpus, room):
    """How often the program was found at each instruction, by its address in the file."""
    kept, found = Path(room, "looks"), Counter()
    with open(corpus, "rb") as given:
        output(["perf", "record", "-q", "-F", PACE, "-e", "cpu-clock", "-o", kept, program, "run", statement], given)
    begun = re.search(rf"\[0x(\w+)\(0x\w+\) @ 0x(\w+) .*r-xp {re.escape(str(program))}", output(["perf", "script", "-i", kept, "--show-mmap-events"]))
    if not begun:
        sys.exit("perf did not say where the program lay")
    first = int(begun[1], 16) - int(begun[2], 16) - PAGE
    for line in output(["perf", "script", "-i", kept, "-F", "ip"]).split():
        found[int(line, 16) - first] += 1
    return found


def instructions(program):
    """The instructions of a program, in order, by their addresses."""
    lines = re.findall(r"^ *(\w+):\t(.*)$", output(["objdump", "-d", "--no-show-raw-insn", program]), re.MULTILINE)
    return {int(address, 16): words.split("#")[0].strip() for address, words in lines}


def main():
    words = words_taken(__doc__)
    words.add_argument("--only", choices=NAMES, required=True, help="the statement")
    words.add_argument("--most", type=int, default=30, metavar="N", help="how many instructions are told (default: 30)")
    given = read(words)
    make, statement = next((make, texts[given.only]) for make, texts in TASKS.items() if given.only in texts)
    with tempfile.TemporaryDirectory() as room:
        file, few, many = (Path(room, name) for name in ("statement.sql", "few.jsonl", "many.jsonl"))
        file.write_text(statement)
        write_lines(make, few, COUNTED)
        write_lines(make, many, WATCHED)
        done, within = counts(given.program, file, few, room)
        seen = looks(given.program, file, many, room)
        lines = few.read_bytes().count(b"\n")
    code = instructions(given.program)
    before = dict(zip(list(code)[1:], code))
    all_done, all_seen = sum(done.values()), sum(seen.values())
    more = {it: seen[it] / all_seen - done[it] / all_done for it in seen if it in code}
    print("   more    a line  function: the instruction before; the instruction")
    for it in sorted(more, key=lambda it: -more[it])[: given.most]:
        print(f"{more[it]:7.2%}{done[it] / lines:10.2f}  {within.get(it, '')[:60]}: {code.get(before.get(it), '')}; {code[it]}")


if __name__ == "__main__":
    main()
