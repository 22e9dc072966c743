#!/usr/bin/env python3
"""Measures the built program beside loops over orjson and over simdjson's DOM, statement by statement.

usage, at the top: bench/statements.py [--only NAME]

The statements are JSON_EXISTS, JSON_VALUE with three casts, JSON_QUERY with a filter and a wrapper, JSON_TABLE with
arithmetic in a column, two aggregates, IS JSON, and JSON_VALUE of wide objects, of lines of seven bytes and of a leaf in
the depth. The loops of with_orjson.py and with_simdjson.cpp write the same rows, and where one byte differs the script
ends with status 1. In each round each program runs once, one after the other. Told are the speed of the median round, the
program's speed over that of the loop, the same by the least processor time, and the peak of resident memory, looked at
every hundredth of a second.

A loop is left out if what it needs is missing: orjson comes by `pip install orjson`, simdjson by `apt-get install -y
libsimdjson-dev` and a C++ compiler. The benchmark is no part of the tests, and nothing that it says is proved.
"""
import importlib.util
import sys
import tempfile
from itertools import zip_longest
from pathlib import Path

from corpora import DEPTH, deep, mixed, order, small, wide_object, write_lines
from runs import MEGABYTE, Tool, build_with_simdjson, measure, read, take_size_and_rounds, tell, with_orjson, words_taken

# Of each kind of lines the statements, each with the name of its loops.
TASKS = {
    order: {
        "exists": "SELECT JSON_EXISTS(doc, '$.customer.name');",
        "value": """SELECT JSON_VALUE(doc, '$.customer.name' RETURNING VARCHAR), JSON_VALUE(doc, '$.order' RETURNING INTEGER),
    JSON_VALUE(doc, '$.lines[0].price' RETURNING NUMERIC(10,2));""",
        "query": "SELECT JSON_QUERY(doc, '$.lines[*] ? (@.qty > 2)' WITH WRAPPER);",
        "table": """SELECT * FROM JSON_TABLE(doc, '$.lines[*]'
    COLUMNS (sku VARCHAR, qty INTEGER, total NUMERIC(10,2) PATH '$.qty * $.price'));""",
        "aggregate": """SELECT JSON_ARRAYAGG(sku), JSON_OBJECTAGG(sku : qty WITH UNIQUE KEYS)
    FROM JSON_TABLE(doc, '$.lines[*]' COLUMNS (sku VARCHAR, qty INTEGER));""",
    },
    mixed: {"is_json": "SELECT doc IS JSON, doc IS JSON OBJECT, doc IS JSON ARRAY, doc IS JSON SCALAR;"},
    wide_object: {"wide": "SELECT JSON_VALUE(doc, '$.a'), JSON_VALUE(doc, '$.b');"},
    small: {"small": "SELECT JSON_VALUE(doc, '$.a' RETURNING INTEGER);"},
    deep: {"deep": f"SELECT JSON_VALUE(doc, '${'.a' * DEPTH}.leaf' RETURNING BIGINT);"},
}
NAMES = [name for statements in TASKS.values() for name in statements]


def compare_all(statements, make, found, given, room):
    """Measures statements on a corpus of lines that `make` makes, and returns whether all rows are the same."""
    corpus = Path(room, "corpus.jsonl")
    written = write_lines(make, corpus, int(given.size * MEGABYTE))
    print(f"\n{make.__name__}: {written / MEGABYTE:.1f} MB")
    agree = [compare(name, text, found, corpus, written, given, room) for name, text in statements.items()]
    return all(agree)


def compare(name, statement, found, corpus, written, given, room):
    """Measures one statement, tells what was measured, and returns whether the rows of all are the same."""
    file = Path(room, "statement.sql")
    file.write_text(statement)
    tools = [Tool("sqljson", [str(given.program), "run", str(file)]), *[loops(name) for loops in found]]
    rows = [Path(room, f"rows of {tool.name}") for tool in tools]
    for _ in range(max(given.rounds, 1)):
        for tool, path in zip(tools, rows):
            measure(tool, corpus, path)
    print(f"\n{statement}")
    tell(tools, written)
    different = [it for it in (first_difference(rows[0], path, tool.name) for tool, path in zip(tools[1:], rows[1:])) if it]
    print(*[f"  {it}\n" for it in different], sep="", end="")
    return not different


def first_difference(ours, theirs, name):
    """Says in which row two files differ first, or nothing where they don't."""
    with open(ours, "rb") as one, open(theirs, "rb") as other:
        for number, (row, wanted) in enumerate(zip_longest(one, other), 1):
            if row != wanted:
                return f"row {number} is {row} of sqljson, and {wanted} of {name}"
    return None


def loops_that_are_there(room):
    """The sets of loops that can run here: each gives the tool that runs the loop of a name."""
    found = []
    if importlib.util.find_spec("orjson"):
        found.append(with_orjson)
    else:
        print("orjson is left out: it is not installed")
    program = build_with_simdjson(room)
    if program:
        found.append(lambda loop: Tool("simdjson", [str(program), loop]))
    else:
        print("simdjson is left out: its headers or a C++ compiler are not installed")
    return found


def main():
    words = words_taken(__doc__)
    take_size_and_rounds(words)
    words.add_argument("--only", choices=NAMES, help="one statement alone")
    given = read(words)
    agree = True
    with tempfile.TemporaryDirectory() as room:
        found = loops_that_are_there(room)
        for make, statements in TASKS.items():
            asked = {name: text for name, text in statements.items() if given.only in (None, name)}
            if asked:
                agree &= compare_all(asked, make, found, given, room)
    return 0 if agree else 1


if __name__ == "__main__":
    sys.exit(main())
