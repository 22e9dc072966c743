"""The canonical text of statement files: `show` of what `show` wrote is the same, and `run` writes the same rows for both.

The files are those of the tables of `checks/rows/`, of the examples, and generated ones, which are written in odd ways.

usage, at the top of the repository, for many generated files: python3 -m checks.show PROGRAM [COUNT]
"""
import random
import sys
import tempfile
from concurrent.futures import ThreadPoolExecutor
from pathlib import Path

from checks.program import Program, shown as shown_text
from checks.rows import cases_of, runs_of
from checks.tally import Tally

TOP = Path(__file__).resolve().parent.parent
GENERATED = 200  # files in a run of all checks
MANY = 20_000
SEED = 18
REFUSED, TOO_LONG = 2, 8  # statuses
LONGEST_FILE = 1_048_576
LINES = b"""{"a":[1,2.50,{"b":"x"}],"k":"it's","n":null,"o":{"a":-3,"b":[true,"x"]}}
[{"a":1},{"a":"1"},[3]]
"1.5"
{"a":
"""


def check_show(tally, program, top):
    with tempfile.TemporaryDirectory() as room:
        folder = Path(room)
        for kind, pairs in [("the tables", table_files(top)), ("the examples", example_files(top)), ("generated", generated_files(GENERATED))]:
            shown, problems = tried(program, folder, pairs)
            few = None if shown else "none of them is accepted"
            tally.check(f"show: {shown} files, {kind}", few or "; ".join(problems[:5]))


def tried(program, folder, pairs):
    """How many of the files are accepted, and what is wrong with some."""
    with ThreadPoolExecutor() as pool:
        found = list(pool.map(lambda pair: fault(program, folder, *pair), enumerate(pairs)))
    return sum(one is not None for one in found), [one for one in found if one]


def fault(program, folder, number, pair):
    """What is wrong with the text of a file: an empty text where nothing is, and nothing where a file is refused or too long."""
    file, lines, words = pair
    name, shown = f"{number}.sql", f"{number}.shown"
    (folder / name).write_bytes(file)
    first = program.run(["show", name], folder=folder)
    if first.status in (REFUSED, TOO_LONG) or len(first.output) > LONGEST_FILE:
        return None
    if first.status or first.note:
        return f"it ended as {first}: {shown_text(file)}"
    (folder / shown).write_bytes(first.output)
    second = program.run(["show", shown], folder=folder)
    if (second.status, second.output) != (0, first.output):
        return f"{shown_text(first.output)} is shown with status {second.status} as {shown_text(second.output)}"
    one, other = (program.run([*words, it], lines, folder) for it in (name, shown))
    if (one.status, one.output) != (other.status, other.output):
        return f"{shown_text(file)} gives {shown_text(one.output)}, and {shown_text(first.output)} gives {shown_text(other.output)}"
    (folder / name).unlink()
    (folder / shown).unlink()
    return ""


def table_files(top):
    """The files of the tables with their lines."""
    found = []
    for table in sorted((top / "checks" / "rows").glob("*.txt")):
        for case in cases_of(table.read_text(encoding="utf-8")):
            for run in runs_of(case):
                found.append((run.file, run.given, run.words[:-1] if run.words[0] == "run" else ["run"]))
    return found


def example_files(top):
    files = sorted((top / "examples").glob("*.sql"))
    return [(file.read_bytes(), lines_of(file), ["run"]) for file in files]


def lines_of(file):
    lines = file.with_suffix(".jsonl")
    return lines.read_bytes() if lines.is_file() else b""


def generated_files(count):
    return [(Statements(number).file().encode(), LINES, ["run"]) for number in range(count)]


class Statements:
    """Statements that are accepted for the most part, with their words in any case and blanks and comments between them."""

    def __init__(self, number):
        self.dice = random.Random(SEED * 1_000_003 + number)
        self.names = 0

    def file(self):
        return "".join(self.statement() + self.gap() + ";" + self.gap() for _ in range(self.dice.randint(1, 3)))

    def one_of(self, *choices):
        made = self.dice.choice(choices)
        return made() if callable(made) else made

    def maybe(self, text):
        return self.one_of("", text)

    def gap(self):
        return self.one_of("", " ", "\n", "  ", " -- it's a comment\n")

    def words(self, text):
        """The words with blanks between them, each letter in any case."""
        letters = (self.one_of(letter.upper(), letter.lower()) for letter in text)
        return " " + "".join(self.one_of(" ", "\n ", " ") if letter == " " else letter for letter in letters) + " "

    def listed(self, one, most=3):
        return ("," + self.gap()).join(one() for _ in range(self.dice.randint(1, most)))

    def statement(self):
        return self.one_of(self.plain, self.plain, self.of_table)

    def plain(self):
        return self.words("select") + self.listed(lambda: self.value(2) + self.maybe(self.words("as") + self.name()))

    # ---- values

    def value(self, depth):
        simple = [self.literal, self.exists, self.json_value, self.query, self.is_json]
        return self.one_of(*simple, *([self.constructor(depth), self.constructor(depth)] if depth else []))

    def constructor(self, depth):
        value = lambda: self.value(depth - 1)
        member = lambda: self.one_of(
            lambda: self.string() + ":" + value(), lambda: self.words("key") + self.string() + self.words("value") + value(),
            lambda: self.string() + self.words("value") + value(),
        )
        nulls = lambda: self.maybe(self.words(self.one_of("null on null", "absent on null")))
        return self.one_of(
            self.words("json_array") + "()", self.words("json_object") + "()",
            lambda: self.words("json_array") + "(" + self.listed(value) + nulls() + ")",
            lambda: self.words("json_object") + "(" + self.listed(member) + nulls() + self.maybe(self.unique()) + ")",
        )

    def unique(self):
        return self.words(self.one_of("with unique", "without unique", "with unique keys", "without unique keys"))

    def literal(self):
        return self.one_of(self.string, self.number, lambda: self.words(self.one_of("true", "false", "null")))

    def number(self):
        return self.one_of("", "+", "- ", "-") + self.one_of("0", "007", "1.50", "12", "3.0", "99999999999999999999999999999999999999", "0.00000001")

    def string(self):
        return "'" + self.one_of("", "a", "it''s", "''", 'q"q', "é\n\t", "x y -- z", "1.5", "2020-01-01") + "'"

    def name(self):
        self.names += 1
        return self.one_of(f"n{self.names}", f'"n""{self.names}"', f'"Größe {self.names}"', f'"it\'s{self.names}"')

    def document(self):
        return self.one_of(" doc ", '"doc"') + self.maybe(self.words(self.one_of("format json", "format json encoding utf8")))

    def common(self, passing=True):
        passed = f"{self.words('passing')}{self.literal()}{self.words('as')}p, {self.literal()} AS \"q\"" if passing else ""
        return self.document() + "," + self.gap() + self.path(bool(passed)) + passed

    def exists(self):
        action = self.maybe(self.words(self.one_of("true", "false", "unknown", "error") + " on error"))
        return self.words("json_exists") + "(" + self.common(self.one_of(True, False)) + action + ")"

    def json_value(self):
        return self.words("json_value") + "(" + self.common(self.one_of(True, False)) + self.maybe(self.words("returning") + self.type()) + self.value_clauses() + ")"

    def query(self):
        return self.words("json_query") + "(" + self.common(self.one_of(True, False)) + self.query_clauses() + ")"

    def is_json(self):
        kind = self.maybe(self.words(self.one_of("value", "array", "object", "scalar")))
        return self.one_of(" doc", '"doc"') + self.words("is") + self.maybe(self.words("not")) + self.words("json") + kind + self.maybe(self.unique())

    def type(self):
        return self.one_of(*map(self.words, ["varchar", "varchar (7)", "numeric", "decimal(5)", "numeric (10 , 2)", "int", "integer", "bigint", "boolean"]))

    def value_clauses(self):
        return "".join(self.maybe(self.words(self.one_of("null", "error", "default null")) + self.words(f"on {cause}")) for cause in ("empty", "error"))

    def query_clauses(self):
        wrapper = self.one_of(
            "", self.words("without wrapper") + self.maybe(self.words(self.one_of("keep quotes", "omit quotes on scalar string"))),
            self.words(self.one_of("with wrapper", "with array wrapper", "with conditional wrapper", "with unconditional array wrapper")),
        )
        action = lambda: self.words(self.one_of("null", "error", "empty array", "empty object"))
        return wrapper + "".join(self.maybe(action() + self.words(f"on {cause}")) for cause in ("empty", "error"))

    # ---- tables

    def of_table(self):
        columns = []
        table = self.words("json_table") + "(" + self.document() + "," + self.path(False) + self.columns(2, columns)
        table += self.maybe(self.words("plan default") + "(" + self.words(self.one_of("outer", "inner", "union", "cross, inner", "outer , union")) + ")")
        table += self.maybe(self.words(self.one_of("empty", "error") + " on error")) + ")" + self.maybe(self.words("as t"))
        column = lambda: self.one_of(*columns, self.literal())
        aggregate = lambda: self.one_of(
            lambda: self.words("json_arrayagg") + "(" + column() + self.maybe(self.words("null on null")) + ")",
            lambda: self.words("json_objectagg") + "(" + self.string() + ":" + column() + self.maybe(self.unique()) + ")",
        )
        listed = self.one_of("*", lambda: self.listed(column), lambda: self.listed(aggregate, 2))
        return self.words("select") + listed + self.words("from") + table

    def columns(self, depth, names):
        return self.words("columns") + "(" + self.listed(lambda: self.column(depth, names), 4) + ")"

    def column(self, depth, names):
        if depth and self.dice.random() < 0.3:
            return self.words("nested") + self.maybe(self.words("path")) + self.path(False) + self.columns(depth - 1, names)
        name = self.name()
        names.append(name)
        path = self.maybe(self.words("path") + self.path(False))
        return name + self.one_of(
            self.words("for ordinality"), lambda: " " + self.type() + path + self.value_clauses(),
            lambda: self.words("varchar format json") + path + self.query_clauses(),
            lambda: self.words("boolean exists") + path + self.maybe(self.words("unknown on error")),
        )

    # ---- paths

    def path(self, passing):
        return "'" + (self.one_of("", "lax ", "strict ", " ") + self.expression(2, passing)).replace("'", "''") + "'"

    def expression(self, depth, passing, item="$"):
        inner = lambda: self.expression(depth - 1, passing, item)
        simple = [self.chain(item, depth, passing), self.chain(item, depth, passing), self.one_of("1", "1.50", "2e1", '"x"', "true", "null")]
        if passing:
            simple.append(self.one_of("$p", "$q"))
        if not depth:
            return self.one_of(*simple)
        return self.one_of(
            *simple, lambda: f"{inner()}{self.one_of(' + ', '-', ' *', '/ ', '%')}{inner()}", lambda: self.one_of("-", "+", "- ") + inner(), lambda: f"({inner()})",
            lambda: f"({inner()})" + self.accessor(depth, passing),
        )

    def chain(self, item, depth, passing):
        return item + "".join(self.accessor(depth, passing) for _ in range(self.dice.randint(0, 3)))

    def accessor(self, depth, passing):
        index = lambda: self.one_of("0", "1", "last", "last - 1", "-1", "1.0")
        return self.one_of(
            ".a", ' . "b"', ".k", ".\"it's\"", '."a\\u0062\\""', ".*", "[*]", lambda: f"[{index()}]", lambda: f"[ {index()} to {index()},{index()} ]",
            lambda: f".{self.one_of('size', 'type', 'abs', 'number', 'string')}()", lambda: f" ? ({self.predicate(depth, passing)})" if depth else "",
        )

    def predicate(self, depth, passing):
        inner = lambda: self.predicate(depth - 1, passing)
        operand = lambda: self.expression(depth - 1, passing, "@")
        simple = lambda: f"{operand()} {self.one_of('==', '!=', '<>', '<', '<=', '>', '>=')} {operand()}"
        if depth < 1:
            return self.one_of("@ == 1", 'exists(@.a)', '@ starts with "x"')
        return self.one_of(
            simple, lambda: f"exists ({operand()})", lambda: f"!({inner()})", lambda: f"! exists({operand()})", lambda: f"({inner()}) is unknown",
            lambda: f"{inner()} && {inner()}", lambda: f"{inner()} || {inner()}", lambda: f"({inner()}) && ({inner()})", lambda: f"({inner()} || {inner()})",
            lambda: f"{operand()} starts with {self.one_of(chr(34) + 'x' + chr(34), '$p' if passing else chr(34) * 2)}",
        )


def main():
    program, count = Program(Path(sys.argv[1]).resolve()), int(sys.argv[2]) if len(sys.argv) > 2 else MANY
    tally = Tally()
    with tempfile.TemporaryDirectory() as room:
        shown, problems = tried(program, Path(room), generated_files(count))
    tally.check(f"show: {shown} of {count} generated files are accepted", "; ".join(problems[:5]))
    print(f"{shown} of {count} files were accepted; {len(problems)} problems")
    return 1 if tally.failed else 0


if __name__ == "__main__":
    sys.exit(main())
