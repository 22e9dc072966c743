r"""The tables of `checks/rows/`, run through the program: what statements give for lines, and what is said of files.

A table is a text of cases, which may begin with lines of its own that say what it is about. To add a case, write it
where it belongs: its title, the lines that the program reads, and each statement with its rows below it. The rows are
those that the program writes, with tabs between their fields, but without the number of the statement.

    === the title of a case
    {"a":1}
    {"a":"x"}
    > SELECT JSON_VALUE(doc, '$.a');
    1	R	1
    2	R	x
    > SELECT JSON_VALUE(doc, '$.a' RETURNING INTEGER
    >                   ERROR ON ERROR);
    1	R	1
    2	E	2203G

Below the title `$ run --unique-keys FILE` gives other words than `run FILE`; FILE stands for the statement file. A run
that ends with another status than 0 has a last line `! STATUS MESSAGE`; what it writes is then all that stands below
its statements, as it is, and so it is for `show FILE`, `group FILE` and `scan PATH`. Words that name no file have a
line `>` in place of statements, and a blank in a word is written `‹20›`. `‹..›` holds bytes as hexadecimal digits, and
maybe how often they come: `‹FF›`, `‹5B * 64›`.

Where many cases have one form, each is a line, with its answers behind an arrow:

- With `{}` in the statements, the line is put there. The answers are those of the statements, in order; where there are
  fewer, the last one is that of all others too. An answer is the values of a row, with tabs between them, or `E` and
  the state, or `none` where there is no row.

      === the items of a path, in lax and in strict mode
      [1,"x"]
      > SELECT JSON_QUERY(doc, 'lax {}' WITH WRAPPER ERROR ON ERROR);
      > SELECT JSON_QUERY(doc, 'strict {}' WITH WRAPPER ERROR ON ERROR);
      | $[0] => [1]
      | $[2] => \N ; E 22033

- Without `{}` it is a line of the input, and the answers are those of the statements for it.

      === kinds of JSON
      > SELECT doc IS JSON OBJECT;
      > SELECT doc IS JSON ARRAY;
      | [1] => FALSE ; TRUE

- Without statements it is a statement file of its own. All of a case end in the same way.

      === column named twice
      $ check FILE
      | SELECT * FROM JSON_TABLE(doc, '$' COLUMNS (a INT, a INT));
      ! 2 statement 1: column named twice

Each case counts as one check, and each line of the last kind as one too. A case with few lines runs twice, and the
program gets its input a byte at a time then.
"""
import difflib
import re
import tempfile
from dataclasses import dataclass, field
from pathlib import Path

from checks.program import Ended, difference

TITLE = "=== "
HEX = re.compile(r"‹([0-9A-Fa-f ]*)(?:\*\s*(\d+)\s*)?›")
ARROW = " => "
OTHER = " ; "
FILE = "rows.sql"
TAKE_LINES = ["run", "group", "scan"]  # words whose runs read an input
BYTE_BY_BYTE = 400  # so many bytes of input at most are given one at a time
SHOWN = 12  # lines of a difference that are shown


@dataclass
class Case:
    """A case as it is written."""

    title: str
    words: str = "run FILE"
    lines: list = field(default_factory=list)
    statements: list = field(default_factory=list)
    rows: list = field(default_factory=list)  # of each statement
    entries: list = field(default_factory=list)
    ending: str = "0"


@dataclass
class Run:
    """What the program is given, and how that has to end."""

    name: str
    words: list
    file: bytes
    given: bytes
    wanted: Ended


def check_rows(tally, program, folder, most=None):
    """Runs each case of each table of the folder: of those whose files and inputs have at most so many bytes, if a number is given."""
    passed_over = 0
    tables = sorted(folder.glob("*.txt"))
    tally.check(f"{folder.name}/", None if tables else "it has no table")
    for table in tables:
        cases = cases_of(table.read_text(encoding="utf-8"))
        tally.check(table.name, repeated(cases) if cases else "it has no case")
        for case in cases:
            try:
                runs = list(runs_of(case))
            except ValueError as wrong:
                tally.check(f"{table.name}, {case.title}", f"it is not written as a case is: {wrong}")
                continue
            for run in runs:
                if most is not None and len(run.file) + len(run.given) > most:
                    passed_over += 1
                    continue
                tally.check(f"{table.name}, {run.name}", problem(program, run))
    if passed_over:
        print(f"passed over {passed_over} cases of more than {most} bytes", flush=True)


def repeated(cases):
    """Says which title stands twice."""
    titles = [case.title for case in cases]
    return next((f"two cases have the title: {title}" for title in titles if titles.count(title) > 1), None)


def cases_of(text):
    """The cases of a table. A line that is empty and stands before a title, or at the end, is no part of a case."""
    found = []
    for part in re.split(rf"^{TITLE}", text, flags=re.M)[1:]:
        title, *lines = part.rstrip("\n").split("\n")
        found.append(case_of(title, lines))
    return found


def case_of(title, lines):
    case = Case(title)
    for line in lines:
        sign, text = line[:2], line[2:]
        if sign == "$ " and not (case.lines or case.statements):
            case.words = text
        elif sign == "> " and case.statements and not (case.rows[-1] or ends(case.statements[-1])):
            case.statements[-1] += f"\n{text}"
        elif sign == "> ":
            case.statements.append(text)
            case.rows.append([])
        elif line == ">":
            case.statements.append("")
            case.rows.append([])
        elif sign == "| ":
            case.entries.append(text)
        elif sign == "! ":
            case.ending = text
        elif case.statements and line:
            case.rows[-1].append(line)
        elif not case.statements:
            case.lines.append(line)
    return case


def ends(statement):
    return statement.rstrip().endswith(";")


def bytes_of(text):
    """The bytes of a text, with those that are written as digits."""
    made, at = [], 0
    for found in HEX.finditer(text):
        made += [text[at : found.start()].encode(), bytes.fromhex(found[1]) * int(found[2] or 1)]
        at = found.end()
    return b"".join([*made, text[at:].encode()])


def runs_of(case):
    """The runs of a case."""
    words = [FILE if word == "FILE" else bytes_of(word).decode() for word in case.words.split(" ")]
    if case.entries and not case.statements:
        for entry in case.entries:
            yield Run(f"{case.title}: {entry}", words, bytes_of(entry), b"", ending_of(case, case.lines))
    else:
        file, given, rows = filled(case) if case.entries else (case.statements, case.lines, case.rows)
        wanted = ending_of(case, as_written(rows) if case.ending == "0" and words[0] == "run" else sum(rows, []))
        yield Run(case.title, words, bytes_of("\n".join(file)), bytes_of("\n".join(given)), wanted)


def ending_of(case, rows):
    status, _, note = case.ending.partition(" ")
    return Ended(int(status), bytes_of("".join(f"{row}\n" for row in rows)), bytes_of(f"{note}\n" if note else ""))


def filled(case):
    """The statements, the lines and the rows of a case whose entries have answers."""
    statements, lines, rows = [], list(case.lines), []
    in_statements = any("{}" in statement for statement in case.statements)
    if not in_statements:
        statements, rows = case.statements, [[] for _ in case.statements]
    for number, entry in enumerate(case.entries, 1):
        text, arrow, answers = entry.rpartition(ARROW)
        if not arrow:
            raise ValueError(f"an answer is missing behind {entry}")
        answers = answers.split(OTHER)
        answers += answers[-1:] * (len(case.statements) - len(answers))
        if in_statements:
            statements += [statement.replace("{}", text) for statement in case.statements]
            rows += [answer_rows(1, answer) for answer in answers]
        else:
            lines.append(text)
            for of_statement, answer in zip(rows, answers):
                of_statement += answer_rows(number, answer)
    return statements, lines, rows


def answer_rows(line, answer):
    if answer == "none":
        return []
    state = re.fullmatch(r"E (\w{5})", answer)
    return [f"{line}\tE\t{state[1]}" if state else f"{line}\tR\t{answer}"]


def as_written(rows):
    """The rows of all statements with the numbers of these, in the order in which they are written."""
    numbered = []
    for statement, below in enumerate(rows, 1):
        for row in below:
            line, _, others = row.partition("\t")
            if not line.isdigit():
                raise ValueError(f"a row has no number of a line: {row}")
            numbered.append((int(line), statement, f"{line}\t{statement}\t{others}"))
    return [row for _, _, row in sorted(numbered, key=lambda row: row[:2])]


def problem(program, run):
    """Says how a run differs from what is wanted, whole and a byte at a time."""
    with tempfile.TemporaryDirectory() as folder:
        Path(folder, FILE).write_bytes(run.file)
        found = told(run, program.run(run.words, run.given, folder))
        if found or run.words[0] not in TAKE_LINES or not 0 < len(run.given) <= BYTE_BY_BYTE:
            return found
        single = [run.given[at : at + 1] for at in range(len(run.given))]
        found = told(run, program.run_in_pieces(run.words, single, folder))
        return found and f"a byte at a time: {found}"


def told(run, ended):
    """Says how a run ended otherwise, and which rows differ."""
    said = difference(run.wanted, ended)
    if not said or ended.status != run.wanted.status or ended.output == run.wanted.output:
        return said
    texts = [output.decode(errors="backslashreplace").splitlines() for output in (run.wanted.output, ended.output)]
    lines = [line for line in difflib.ndiff(*texts) if line[:1] in "+-"]
    return "it wrote other rows (- wanted, + written):\n    " + "\n    ".join(lines[:SHOWN])
