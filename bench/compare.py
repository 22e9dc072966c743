#!/usr/bin/env python3
"""Measures the built program beside jq and orjson on one question: has the object on each line a member `a`?

For the program the question is `SELECT JSON_EXISTS(doc, 'lax $.a');`, for jq `has("a")`, and for Python a loop over the
lines with orjson. Every line is an object, so lax mode has no array to unwrap. In each round every program runs once
on each corpus, one after the other, and the answers are compared. Told are the speed of the median round, the
program's speed over that of the other, and the peak of resident memory, looked at every hundredth of a second.

A program that is missing is left out: jq comes by `apt-get install -y jq`, orjson by `pip install orjson`. The
benchmark is no part of the tests, and nothing that it says is proved.
"""
import importlib.util
import shutil
import sys
import tempfile
from pathlib import Path

from corpora import KINDS, write_corpus
from runs import MEGABYTE, Tool, measure, read, take_size_and_rounds, tell, with_orjson, words_taken

QUESTION = "SELECT JSON_EXISTS(doc, 'lax $.a');\n"


def tools(program, room):
    """The program, and those of the others that are there."""
    file = Path(room, "question.sql")
    file.write_text(QUESTION)
    found = [Tool("sqljson", [str(program), "run", str(file)])]
    if shutil.which("jq"):
        found.append(Tool("jq", ["jq", 'has("a")']))
    else:
        print("jq is left out: it is not installed")
    if importlib.util.find_spec("orjson"):
        found.append(with_orjson("member"))
    else:
        print("orjson is left out: it is not installed")
    return found


def answers_in(path):
    """The answers of a tool, one for each line, as bytes `T` and `F`."""
    with open(path, "rb") as file:
        return b"".join(line.split()[-1][:1].upper() for line in file)


def compare(kind, size, rounds, with_numbers, found, room):
    """Measures the tools on one corpus, tells what was measured, and returns whether the answers agree."""
    corpus = Path(room, f"{kind}.jsonl")
    written = write_corpus(kind, corpus, size, with_numbers)
    given = {}
    for _ in range(rounds):
        for tool in found:
            measure(tool, corpus, Path(room, tool.name))
            given.setdefault(tool.name, answers_in(Path(room, tool.name)))
    corpus.unlink()
    first = given[found[0].name]
    print(f"\n{kind}: {written / MEGABYTE:.1f} MB, {len(first):,} lines, {first.count(b'T'):,} with the member")
    tell(found, written)
    others = [name for name, answers in given.items() if answers != first]
    for name in others:
        print(f"  {name} gives other answers than {found[0].name}")
    return not others


def main():
    words = words_taken(__doc__)
    take_size_and_rounds(words)
    words.add_argument("--only", choices=KINDS, help="one corpus alone")
    words.add_argument("--numbers", action="store_true", help="numbers among the values, for a program that reads them")
    given = read(words)
    agree = True
    with tempfile.TemporaryDirectory() as room:
        for kind in [given.only] if given.only else KINDS:
            found = tools(given.program, room)
            agree &= compare(kind, int(given.size * MEGABYTE), max(given.rounds, 1), given.numbers, found, room)
    return 0 if agree else 1


if __name__ == "__main__":
    sys.exit(main())
