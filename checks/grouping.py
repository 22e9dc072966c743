"""The groups that `group` writes, compared with those that a plain model makes of the rows that `run` writes for the lines.

The model knows the fields of rows and the types of columns. It gathers rows by their first field, and makes JSON of the others.

usage, at the top of the repository, for many generated inputs: python3 -m checks.grouping PROGRAM [COUNT]
"""
import json
import random
import re
import sys
import tempfile
from concurrent.futures import ThreadPoolExecutor
from pathlib import Path

from checks.program import Ended, Program, difference, shown

GENERATED = 250  # inputs in a run of all checks
SHORT = 20_000  # an input of at most so many bytes comes in packets
NULL, NO_NAME, UNESCAPED = r"\N", "22004", {"t": "\t", "n": "\n", "r": "\r", "\\": "\\"}
TEXT_TYPES = ["VARCHAR", "VARCHAR", "VARCHAR(3)"]
TYPES = [*TEXT_TYPES, "NUMERIC", "NUMERIC(6,2)", "INTEGER", "BOOLEAN", "JSON"]
CLAUSES = ["", "", "", " ERROR ON ERROR", " ERROR ON EMPTY NULL ON ERROR"]
TEXTS = ["a", "b", "x y", "é😀", "", "N", "\\N", "\\\\N", "a\tb", "a\\tb", "l\nf\r", "\\", '"', "\0\x01\x7f", "1", "1.00", "true", "long" * 40]
OTHERS = ["null", "1", "1.0", "10e-1", "-2.50", "19.90", "0.005", "1e400", "true", "false", "[1, 2.0]", '{"q" : "\\\\"}', "[]"]


def check_grouping(tally, program):
    groups, unnamed, problems = tried(program, GENERATED)
    few = None if groups > GENERATED and unnamed else "there are few groups, or no row without a name"
    tally.check(f"group: {groups} groups of {GENERATED} generated inputs", few or "; ".join(problems[:3]))


def tried(program, count):
    """How many groups there are, how many lines end at a row without a name, and what is wrong with some inputs."""
    with tempfile.TemporaryDirectory() as room, ThreadPoolExecutor() as pool:
        found = list(pool.map(lambda number: one(program, room, number), range(count)))
    texts = "".join(text for text, _ in found)
    return len(re.findall("^G", texts, re.M)), texts.count(f"\tE\t{NO_NAME}\n"), [problem for _, problem in found if problem]


def one(program, folder, number):
    """What `group` has to write for one input, and what is wrong with what it does write, or nothing."""
    made = Made(number)
    file, types = made.file()
    lines = "\n".join(made.line() for _ in range(made.one_of(0, 1, 5, 20, 20, 300))).encode() + made.one_of(b"", b"\n")
    Path(folder, f"{number}.sql").write_text(file)
    ran = program.run(["run", f"{number}.sql"], lines, folder)
    text, words, size = grouped(ran.output.decode(), types), ["group", f"{number}.sql"], made.dice.randint(1, 3_000)
    pieces = [lines[at : at + size] for at in range(0, len(lines), size)]
    ended = program.run(words, lines, folder) if len(lines) > SHORT else program.run_in_pieces(words, pieces, folder)
    problem = difference(Ended(0, ran.output, b""), ran) or difference(Ended(0, text.encode()), ended)
    return text, problem and f"{file} over {shown(lines)}: {problem}"


def grouped(rows, types):
    """What `group` has to write where `run` writes these rows."""
    errors, groups, ended = "", {}, None
    for row in rows.split("\n")[:-1]:
        line, _, kind, *fields = row.split("\t")
        if line != ended and (kind == "E" or len(types) == 3 and fields[1] == NULL):
            errors += f"{line}\t1\tE\t{fields[0] if kind == 'E' else NO_NAME}\n"
            ended = line
        elif line != ended:
            groups.setdefault(fields[0], []).append(":".join(map(printed, types[1:], fields[1:])))
    form = "[%s]" if len(types) == 2 else "{%s}"
    made = [(key, len(values), (form % ",".join(values)).replace("\\", "\\\\")) for key, values in groups.items()]
    return errors + "".join("G\t%s\t%d\t%s\n" % group for group in made)


def printed(kind, field):
    """A field of a column of this type as JSON."""
    text = re.sub(r"\\(.)", lambda found: UNESCAPED[found[1]], field) if field != NULL else "null"
    if kind in TEXT_TYPES and field != NULL:
        return json.dumps(text, ensure_ascii=False)
    if kind.startswith("NUMERIC") and "." in text:
        return text.rstrip("0").rstrip(".")
    return text.lower() if kind == "BOOLEAN" else text


class Made:
    """A statement and lines for it."""

    def __init__(self, number):
        self.dice = random.Random(19_000_057 + number)
        self.keys = self.one_of(0, 0, 2_000)  # how many there are; 0: any values

    def one_of(self, *choices):
        return self.dice.choice(choices)

    def file(self):
        """A statement of two items, or of three with a text in the middle, and the types of these."""
        names, second = self.one_of(("kv", TYPES), ("knv", TEXT_TYPES))
        types = [self.one_of(*TYPES), self.one_of(*second), self.one_of(*TYPES)][: len(names)]
        items = [self.item(name, kind) for name, kind in zip(names, types)]
        columns = [f"{name} {'VARCHAR FORMAT JSON' if kind == 'JSON' else kind}{self.one_of(*CLAUSES)}" for name, kind in zip(names, types)]
        table = f"* FROM JSON_TABLE(doc, '$.t[*]' COLUMNS ({', '.join(columns)}){self.one_of('', ' ERROR ON ERROR')})"
        return f"SELECT {self.one_of(table, ', '.join(items))};", types

    def item(self, name, kind):
        call = f"JSON_QUERY(doc, '$.{name}'" if kind == "JSON" else f"JSON_VALUE(doc, '$.{name}' RETURNING {kind}"
        return f"{call}{self.one_of(*CLAUSES)})"

    def line(self):
        rows = ",".join("{%s}" % self.members() for _ in range(self.one_of(0, 1, 2, 5, 5, 50)))
        text = self.one_of(*['{%s,"t":[%s]}' % (self.members(), rows)] * 9, " \t")
        return self.one_of(*[text] * 19, text[:-1])

    def members(self):
        key = f'"k{self.dice.randrange(self.keys)}"' if self.keys else self.value()
        return f'"k":{key}' + "".join(f',"{name}":{self.value()}' for name in "nv" if self.dice.random() < 0.9)

    def value(self):
        return self.one_of(self.one_of(*OTHERS), json.dumps(self.one_of(*TEXTS), ensure_ascii=self.one_of(True, False)))


if __name__ == "__main__":
    groups, unnamed, problems = tried(Program(sys.argv[1]), int(sys.argv[2]) if len(sys.argv) > 2 else 20_000)
    print(f"{groups} groups, {unnamed} lines that end at a row without a name, {len(problems)} problems", *problems, sep="\n")
    sys.exit(1 if problems else 0)
