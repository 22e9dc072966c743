"""The files of examples/, run through the program.

An example is a file NAME.sql and, beside it, what the run is given and what it must do:
NAME.jsonl (standard input; none: empty), NAME.out (standard output; none: empty), NAME.note (standard error; none:
empty) and NAME.status (exit status; none: 0).
"""
from checks.program import Ended, difference

PARTS = {".sql", ".jsonl", ".out", ".note", ".status"}


def check_examples(tally, program, folder):
    """Runs each example of the folder, and looks for files that belong to none."""
    names = sorted(path.stem for path in folder.glob("*.sql"))
    tally.check("examples/", None if names else "it has no example")
    strays = [path.name for path in folder.iterdir() if path.is_file() and (path.suffix not in PARTS or path.stem not in names)]
    tally.check("examples/", strays and f"these files belong to no example: {' '.join(sorted(strays))}")
    for name in names:
        ended = program.run(["run", f"{name}.sql"], part(folder, name, ".jsonl"), folder)
        tally.check(f"examples/{name}.sql", difference(expected(folder, name), ended))


def expected(folder, name):
    status = int(part(folder, name, ".status") or b"0")
    return Ended(status, part(folder, name, ".out"), part(folder, name, ".note"))


def part(folder, name, ending):
    path = folder / f"{name}{ending}"
    return path.read_bytes() if path.is_file() else b""
