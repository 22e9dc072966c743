#!/usr/bin/env python3
"""Measures how the cost of the built program grows: with statements, with the length of lines, with small pieces of input,
with what the text of the lines is made of, and with rows that are much longer than their lines.

usage, at the top: bench/growth.py [--only NAME]

Each part prints the processor time of the least of some rounds. The script ends with status 1 where a cost grows past what
is said beside it:

- statements: a hundred statements cost at most 120 times what one does, reading and all;
- lines: a byte of a line of 16 MB costs at most three times what it does in lines of 400 bytes;
- pieces: a hundred statements over packets of 64 to 4,096 bytes cost at most 1.5 times what they do over the same lines in one file;
- kinds: of no kind of text does the program read less than half as many bytes a second as a loop over simdjson's DOM, where
  that is there (with its AVX-512 code nested brackets are past this on some machines);
- memory: rows of 30,000 bytes for lines of one byte, and a thousand statements for each line of two bytes, take at most 8 MB.

The benchmark is no part of the tests, and nothing that it says is proved.
"""
import json
import os
import random
import subprocess
import sys
import tempfile
import threading
from pathlib import Path

from corpora import LONGEST, SEED, order, write_lines
from runs import MEGABYTE, Tool, build_with_simdjson, measure, read, take_size_and_rounds, words_taken

VALUE = "SELECT JSON_VALUE(doc, '$.customer.name');\n"
IS_JSON = "SELECT doc IS JSON, doc IS JSON OBJECT, doc IS JSON ARRAY, doc IS JSON SCALAR;\n"
MOST_MEMORY = 8_000  # kilobytes


class Bench:
    """A program, a folder for its files, and how often and over how much it is measured."""

    def __init__(self, given, room):
        self.program, self.room, self.rounds, self.size = given.program, room, given.rounds, int(given.size * MEGABYTE)

    def tool(self, statements):
        file = Path(self.room, "statements.sql")
        file.write_text(statements)
        return Tool("sqljson", [str(self.program), "run", str(file)])

    def took(self, tool, corpus):
        """The least processor time of the rounds, in seconds, and the peak of memory, in kilobytes."""
        for _ in range(self.rounds):
            measure(tool, corpus, os.devnull)
        return min(tool.busy), tool.peak

    def corpus(self, lines, name="corpus.jsonl"):
        """A file of these lines, over and over, until it has the size."""
        path, written = Path(self.room, name), 0
        with open(path, "wb") as file:
            while written < self.size:
                for line in lines:
                    written += file.write(line + b"\n")
        return path

    def orders(self, size=None):
        path = Path(self.room, "orders.jsonl")
        return path, write_lines(order, path, size or self.size)


def statements(bench):
    corpus, written = bench.orders()
    found = []
    for count in (1, 10, 100):
        seconds, peak = bench.took(bench.tool(VALUE * count), corpus)
        found.append(seconds)
        print(f"  {count:4} statements{seconds:9.3f} s{written / MEGABYTE / seconds:9.1f} MB/s{peak / 1000:8.1f} MB of memory")
    return found[2] <= 120 * found[0]


def lines(bench):
    """Lines that are arrays of orders, up to the greatest length."""
    entries = [json.dumps({"order": n, "name": "Ann", "price": n % 9973 / 100}, separators=(",", ":")).encode() for n in range(400_000)]
    found = {}
    for length in (100, 400, 6_000, 65_536, 1_000_000, LONGEST):
        line, at = [], 0
        room = length - 2
        while room > len(entries[at]):
            line.append(entries[at])
            room -= len(entries[at]) + 1
            at += 1
        corpus = bench.corpus([b"[" + b",".join(line) + b"]"])
        written = corpus.stat().st_size
        seconds, peak = bench.took(bench.tool("SELECT JSON_EXISTS(doc, '$.none');\n"), corpus)
        found[length] = seconds / written
        print(f"  lines of {length:10,} bytes{written / MEGABYTE / seconds:9.1f} MB/s{peak / 1000:8.1f} MB of memory")
    return found[LONGEST] <= 3 * found[400]


def by_packets(words, text, length):
    """The processor time of a run over a pipe in which each packet of so many bytes is read by itself."""
    out_of, into = os.pipe2(os.O_DIRECT)
    ran = subprocess.Popen(words, stdin=out_of, stdout=subprocess.DEVNULL)
    os.close(out_of)

    def feed():
        for at in range(0, len(text), length):
            os.write(into, text[at : at + length])
        os.close(into)

    feeder = threading.Thread(target=feed)
    feeder.start()
    _, status, used = os.wait4(ran.pid, 0)
    ran.returncode = os.waitstatus_to_exitcode(status)
    feeder.join()
    return used.ru_utime


def pieces(bench):
    corpus, _ = bench.orders(min(bench.size, 2 * MEGABYTE))
    text = corpus.read_bytes()
    tool = bench.tool(VALUE * 100)
    for _ in range(bench.rounds):
        measure(tool, corpus, os.devnull)
    whole = min(tool.busy)
    print(f"  one file{whole:22.3f} s")
    longest = 0
    for length in (4_096, 1_024, 342, 64):
        seconds = min(by_packets(tool.words, text, length) for _ in range(bench.rounds))
        longest = max(longest, seconds)
        print(f"  packets of {length:5} bytes{seconds:10.3f} s{seconds / whole:8.2f} times as long")
    return longest <= 1.5 * whole


def kinds_of_text():
    """Lines of each kind of text, as bytes."""
    chance = random.Random(SEED)

    def array(make, count=40):
        return [f"[{','.join(make() for _ in range(count))}]".encode() for _ in range(200)]

    def text(letters, length=20):
        return '"' + "".join(chance.choice(letters) for _ in range(length)) + '"'

    spaced = [json.dumps(json.loads(line), indent=None).encode() for line in (order(Digits(chance), n).encode() for n in range(200))]
    return {
        "small integers": array(lambda: str(chance.randrange(100))),
        "integers of 17 digits": array(lambda: str(chance.randrange(10**16, 10**17))),
        "fractions": array(lambda: f"{chance.randrange(10**6) / 100:.2f}"),
        "exponents": array(lambda: f"{chance.randrange(10**6) / 100:.2f}e{chance.randrange(-20, 20)}"),
        "short texts": array(lambda: text("abcdefgh", 6)),
        "long texts": array(lambda: text("abcdefgh ", 3_000), 2),
        "simple escapes": array(lambda: '"' + "".join(chance.choice(["\\n", "\\t", '\\"', "ab", "cde"]) for _ in range(8)) + '"'),
        "hexadecimal escapes": array(lambda: '"' + "".join(chance.choice(["\\u00e9", "\\u4e2d", "ab"]) for _ in range(8)) + '"'),
        "Latin with accents": array(lambda: text("abcdeéèàüö")),
        "Cyrillic": array(lambda: text("абвгдежзик")),
        "Japanese": array(lambda: text("日本語文字列")),
        "a space behind each separator": spaced,
        "empty arrays, objects and texts": array(lambda: chance.choice(["[]", "{}", '""'])),
        "nested": [b"[" * 256 + b"]" * 256],
    }


class Digits:
    """What `order` of corpora.py asks of its values."""

    def __init__(self, chance):
        self.chance = chance

    def one_of(self, texts):
        return self.chance.choice(texts)


def kinds(bench):
    simdjson = build_with_simdjson(bench.room)
    if not simdjson:
        print("  simdjson is left out: its headers or a C++ compiler are not installed")
    fast = True
    for name, given in kinds_of_text().items():
        corpus = bench.corpus(given)
        written = corpus.stat().st_size
        ours, theirs = bench.tool(IS_JSON), Tool("simdjson", [str(simdjson), "is_json"])
        for _ in range(bench.rounds):
            for tool in [ours, theirs] if simdjson else [ours]:
                measure(tool, corpus, os.devnull)
        speed = written / MEGABYTE / min(ours.busy)
        beside = min(theirs.busy) / min(ours.busy) if simdjson else None
        print(f"  {name:34}{speed:9.1f} MB/s" + (f"{beside:8.2f} times as fast as simdjson" if simdjson else ""))
        fast &= not simdjson or beside >= 0.5
    return fast


def memory(bench):
    literal = "x" * 30_000
    ones = Path(bench.room, "ones.jsonl")
    ones.write_bytes(b"1\n" * 32_768)
    _, long_rows = bench.took(bench.tool(f"SELECT '{literal}';\n"), ones)
    _, many_rows = bench.took(bench.tool("SELECT JSON_EXISTS(doc, '$');\n" * 1_000), ones)
    print(f"  rows of 30,000 bytes for lines of one byte{long_rows / 1000:8.1f} MB of memory")
    print(f"  1,000 statements for lines of two bytes{many_rows / 1000:11.1f} MB of memory")
    return max(long_rows, many_rows) <= MOST_MEMORY


PARTS = {"statements": statements, "lines": lines, "pieces": pieces, "kinds": kinds, "memory": memory}


def main():
    words = words_taken(__doc__)
    take_size_and_rounds(words)
    words.set_defaults(size=16.8)
    words.add_argument("--only", choices=PARTS, help="one part alone")
    given = read(words)
    wrong = []
    with tempfile.TemporaryDirectory() as room:
        for name in [given.only] if given.only else PARTS:
            print(f"\n{name}")
            if not PARTS[name](Bench(given, room)):
                print("  this is more than is said at the head of the script")
                wrong.append(name)
    return 1 if wrong else 0


if __name__ == "__main__":
    sys.exit(main())
