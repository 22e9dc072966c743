"""The examples of README.md and docs/GUIDE.md, run through the program.

A block tagged `sql` is a statement file and one tagged `jsonl` is an input. A block tagged `output` is what the last
`sql` block before it writes for the last `jsonl` block before it, with status 0. A block tagged `error N` is the
message of such a run that writes nothing and ends with status N. A block tagged `console` has commands behind `$` and
below each what it shows; they run in a copy of examples/recipes/, with the last two blocks as statements.sql and
lines.jsonl, and may go on in a next line behind a backslash. A block tagged with a language and `recipes/NAME` is a
part of that recipe. A block without a tag is not run.

In the table of other dialects the first cell of a row is a text, the second what the program says of it, and the third
a text that it accepts. In the table of texts that are written alike the first cell is a text, the second a line and the
third what the text gives for it. A text that is no statement is a value of one.
"""
import re
import shutil
import tempfile
from pathlib import Path

from checks.program import Ended, difference, shown
from checks.room import room_of

FENCE = re.compile(r"^```(.*)\n((?:.*\n)*?)```$", re.M)
COMMAND = re.compile(r"^\$ ((?:.*\\\n)*.*)\n((?:(?!\$ ).*\n)*)", re.M)
RECIPE = re.compile(r"\w+ (recipes/.*)")
DIALECTS = "## From other dialects"
ALIKE = "### Written alike, answered otherwise"
ROW = re.compile(r"^\| `(.+?)` \| `(.+?)` \| `(.+?)` \|$", re.M)
ALIKE_ROW = re.compile(r"^\| `(.+?)` \| `(.+?)` \| `(.+?)` \| .+ \|$", re.M)
FOLDER = "examples"
OPTIONAL = ["sqlite3"]  # programs whose commands are passed over where they are not installed


def check_guide(tally, program, top):
    """Runs each example of both documents, and looks at the tables of other dialects."""
    for document in [top / "README.md", top / "docs" / "GUIDE.md"]:
        text = document.read_text(encoding="utf-8")
        file, given, runs = None, b"", 0
        for tag, body, line in blocks(text):
            name = f"{document.name}, line {line}"
            if tag == "sql":
                file = body
            elif tag == "jsonl":
                given = body
            elif tag:
                tally.check(name, fault(tag, body, file, given, program, top))
                runs += 1
        tally.check(document.name, None if runs else "it has no example")
    for heading, rows, look in [(DIALECTS, dialect_rows(text), row_fault), (ALIKE, alike_rows(text), alike_fault)]:
        tally.check(heading, None if rows else "it has no row")
        for row in rows:
            tally.check(f"{document.name}, `{row[0]}`", look(program, *row))


def dialect_rows(text):
    """The cells of each row of the table of other dialects."""
    return cells(ROW, text.partition(DIALECTS)[2].partition("\n##")[0])


def alike_rows(text):
    """The tested cells of each row of the table of texts that are answered otherwise elsewhere."""
    return cells(ALIKE_ROW, text.partition(ALIKE)[2].partition("\n##")[0])


def cells(row, text):
    return [[cell.replace("\\|", "|") for cell in found] for found in row.findall(text)]


def blocks(text):
    """Yields the tag, the body and the line number of each fenced block."""
    for found in FENCE.finditer(text):
        yield found[1].strip(), found[2].encode(), text.count("\n", 0, found.start()) + 1


def fault(tag, body, file, given, program, top):
    """Says what is wrong with a block that is run or compared, or nothing."""
    recipe = RECIPE.fullmatch(tag)
    if recipe:
        path = top / FOLDER / recipe[1]
        return None if path.is_file() and body in path.read_bytes() else f"{FOLDER}/{recipe[1]} has no such part"
    if tag == "console":
        return console_fault(body.decode(), file, given, program, top)
    wanted = expected(tag, body)
    if not wanted:
        return f"`{tag}` is no tag of a block"
    return difference(wanted, run(program, file, given)) if file is not None else "there is no block `sql` before it"


def expected(tag, body):
    error = re.fullmatch(r"error (\d+)", tag)
    if error:
        return Ended(int(error[1]), note=body)
    return Ended(0, output=body) if tag == "output" else None


def run(program, file, given):
    with tempfile.TemporaryDirectory() as folder:
        Path(folder, "guide.sql").write_bytes(file)
        return program.run(["run", "guide.sql"], given, folder)


def console_fault(text, file, given, program, top):
    """Says which command shows something else, or nothing."""
    with room_of(program, top) as room:
        (room.folder / "statements.sql").write_bytes(file or b"")
        (room.folder / "lines.jsonl").write_bytes(given)
        for command, wanted in COMMAND.findall(text):
            tool = command.split()[0]
            if tool in OPTIONAL and not shutil.which(tool):
                print(f"passed over `{command}`: {tool} is not installed", flush=True)
                continue
            showed = room.shown(command)
            if showed != wanted.encode():
                return f"`{command}` shows {shown(showed)}, and not {shown(wanted.encode())}"
    return None if COMMAND.match(text) else "it has no command"


def row_fault(program, elsewhere, says, here):
    """Says where the program judges the texts of a row in another way, or nothing."""
    accepted = Ended(0, b"accepted 1\n")
    said = accepted if says == "accepted" else Ended(2, note=f"statement 1: {says}\n".encode())
    return difference(said, checked(program, elsewhere)) or difference(accepted, checked(program, here))


def checked(program, text):
    with tempfile.TemporaryDirectory() as folder:
        Path(folder, "text.sql").write_text(statement(text), encoding="utf-8")
        return program.run(["check", "text.sql"], b"", folder)


def statement(text):
    return text if text.startswith("SELECT") else f"SELECT {text};"


def alike_fault(program, text, line, gives):
    """Says what the text gives for the line, where it is something else, or nothing."""
    ended = run(program, statement(text).encode(), line.encode())
    rows = [row.split("\t")[2:] for row in ended.output.decode().split("\n")[:-1]]
    given = "; ".join(f"error {values[0]}" if kind == "E" else ", ".join(values) for kind, *values in rows) or "no row"
    return None if (ended.status, given) == (0, gives) else f"it gives {given}, with {ended}"
