#!/usr/bin/env python3
"""Measures what tools/split-rows takes beside the run whose rows it splits, with the built program.

Over each corpus the program and split-rows run in turns. Told is the least processor time of both, and how often the first
goes into the second. The start of Python is in the second, so it weighs more where there are few rows. The benchmark is no
part of the tests.
"""
import sys
import tempfile
from pathlib import Path

from runs import HERE, Tool, measure, read, words_taken

LINES = 1_000_000
ONE, TWO = "SELECT JSON_VALUE(doc, '$.a');\n", "SELECT JSON_VALUE(doc, '$.b' ERROR ON ERROR);\n"
ORDERS = (HERE.parent / "examples" / "recipes" / "orders.sql").read_text(encoding="utf-8")
ORDER = b'{"id":%d,"customer":{"name":"Ann","vip":true},"note":"ring\\ttwice","lines":[{"sku":"A-1","qty":2,"price":9.95},{"sku":"B-7","qty":1,"price":120}]}\n'


def short(number):
    return b'{"a":%d,"b":1}\n' % (number % 1_000_000)


def damaged(number):
    return short(number) if number % 100 else b'{"a":\n'


CORPORA = [
    ("one statement, a row a line, 16 bytes a row", ONE, short, LINES * 2),
    ("two statements, a row a line each", ONE + TWO, short, LINES),
    ("two statements, one line in a hundred damaged", ONE + TWO, damaged, LINES),
    ("orders and their lines", ORDERS, ORDER.__mod__, LINES // 5),
]


def main():
    words = words_taken(__doc__)
    words.add_argument("--rounds", type=int, default=5, metavar="N", help="how often each is run (default: 5)")
    given = read(words)
    for name, statements, line, count in CORPORA:
        with tempfile.TemporaryDirectory() as made:
            file, lines, rows, said = (Path(made, it) for it in ["statements.sql", "lines", "rows", "said"])
            file.write_text(statements, encoding="utf-8")
            with open(lines, "wb") as written:
                written.writelines(map(line, range(1, count + 1)))
            run = Tool("run", [given.program, "run", file])
            split = Tool("split-rows", [sys.executable, HERE.parent / "tools" / "split-rows", "--allow-error-rows", Path(made, "out")])
            split.words = ["sh", "-c", 'exec "$@" 2>/dev/null', "sh", *split.words]
            for _ in range(given.rounds):
                measure(run, lines, rows)
                measure(split, rows, said)
            own, its = min(run.busy), min(split.busy)
            print(f"{name}: the run {own:.2f} s, split-rows {its:.2f} s: {its / own:.2f} times", flush=True)


if __name__ == "__main__":
    main()
