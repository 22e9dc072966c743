"""What `scan` writes, compared with what `run` writes for the statement that a scan is.

usage, at the top of the repository, for many generated inputs: python3 -m checks.scanning PROGRAM [COUNT]
"""
import json
import random
import sys
import tempfile
from concurrent.futures import ThreadPoolExecutor
from pathlib import Path

from checks.program import Ended, Program, difference, shown

GENERATED = 250  # inputs in a run of all checks
STATEMENT = "SELECT * FROM JSON_TABLE(doc, '%s' COLUMNS (v VARCHAR FORMAT JSON PATH '$') ERROR ON ERROR);\n"
MEMBERS = [".a", ".b", ' . "a"', '."b c"', '.""', '."\\u0061"', '."é\'"']
ELEMENTS = ["[*]", "[ 0 ]", "[1]", "[0 to 1]", "[1 to 99999999999999999999999999999999999999]", "[2 to 1]", "[1.0]"]
OTHERS = [".*", " .*"]
KEYS = ["a", "b", "b c", "", "é'", "x"]
SCALARS = ["null", "true", "1", "-0.0", "1.50e1", "1e400", '"a"', '"\\u0041\\/\\n"', '"\\ud83d\\ude00"', '""']
BROKEN = ["", " \t\r", "{", '{"a":', "[1,]", "01", '"\\udc00"', '{"a":1}}', "\x00", "nul", '["a"']


def check_scanning(tally, program):
    rows, problems = tried(program, GENERATED)
    few = None if rows > GENERATED else "there are few rows"
    tally.check(f"scan: {rows} rows of {GENERATED} generated inputs", few or "; ".join(problems[:3]))


def tried(program, count):
    """How many rows there are, and what is wrong with some inputs."""
    with tempfile.TemporaryDirectory() as room, ThreadPoolExecutor() as pool:
        found = list(pool.map(lambda number: one(program, room, number), range(count)))
    return sum(rows for rows, _ in found), [problem for _, problem in found if problem]


def one(program, folder, number):
    """How many rows `run` writes for one input, and how `scan` writes others, or nothing."""
    dice = random.Random(number)
    path, lines = made_path(dice), [made_line(dice) for _ in range(dice.choice([0, 1, 5, 40]))]
    given = ("\n".join(lines) + dice.choice(["", "\n"])).encode()
    Path(folder, f"{number}.sql").write_text(STATEMENT % path.replace("'", "''"), encoding="utf-8")
    ran = program.run(["run", f"{number}.sql"], given, folder)
    size = dice.randint(1, 400)
    pieces = [given[at : at + size] for at in range(0, len(given), size)]
    ended = program.run_in_pieces(["scan", path], pieces, folder)
    problem = difference(Ended(0, ran.output, b""), ran) or difference(Ended(0, ran.output, b""), ended)
    return ran.output.count(b"\tR\t"), problem and f"{path} over {shown(given)}: {problem}"


def made_path(dice):
    steps = [dice.choice(dice.choice([MEMBERS, MEMBERS, ELEMENTS, OTHERS])) for _ in range(dice.choice([0, 1, 1, 2, 3, 5]))]
    return dice.choice(["$", "lax $", " $ "]) + "".join(steps)


def made_line(dice):
    return dice.choice(BROKEN) if dice.random() < 0.1 else made_value(dice, dice.choice([1, 3, 4]))


def made_value(dice, depth):
    """A JSON text, with white space at some places."""
    blank = dice.choice(["", "", "", " ", "\t "])
    if depth == 0 or dice.random() < 0.2:
        return blank + dice.choice(SCALARS) + blank
    parts = [made_value(dice, depth - 1) for _ in range(dice.choice([0, 1, 2, 3]))]
    if dice.random() < 0.5:
        return f"{blank}[{','.join(parts) or blank}]{blank}"
    members = [f"{json.dumps(dice.choice(KEYS), ensure_ascii=dice.random() < 0.5)}{blank}:{part}" for part in parts]
    return f"{blank}{{{','.join(members) or blank}}}{blank}"


def main():
    program = Program(sys.argv[1])
    rows, problems = tried(program, int(sys.argv[2]) if len(sys.argv) > 2 else GENERATED)
    print("\n".join(problems[:5]))
    print(f"{rows} rows, {len(problems)} problems")
    sys.exit(1 if problems else 0)


if __name__ == "__main__":
    main()
