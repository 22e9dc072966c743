# Reads the values of rows in Python: what was escaped in a text is decoded, and NULL is None.
import re
import subprocess

def field(text):
    plain = {"\\": "\\", "t": "\t", "n": "\n", "r": "\r"}
    return None if text == r"\N" else re.sub(r"\\([\\tnr])", lambda found: plain[found[1]], text)

def rows(file):
    for row in file:
        line, statement, kind, *values = row.rstrip("\n").split("\t")
        yield int(line), int(statement), kind, [field(value) for value in values]

with open("orders.jsonl", "rb") as lines:
    with subprocess.Popen(["sqljson", "run", "orders.sql"], stdin=lines, stdout=subprocess.PIPE, encoding="utf-8") as run:
        for row in rows(run.stdout):
            print(*row)
assert run.returncode == 0
