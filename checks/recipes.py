"""The recipes of examples/recipes/, run with the program and its companions on the path.

A recipe is a file NAME.sh or NAME.py and NAME.out, which is what it writes. A line `# Needs: ..` at its head names the
programs that it takes. A recipe that needs what isn't installed is passed over, and told.

Each recipe is run again where it has run well, with statement files that are refused, and without its input: then its
status has to tell of the failure, and it may show no row, not even one of the run before. One that needs a server finds a
client that takes everything and shows old rows; bench/databases.py runs it with a server, and with tables that refuse.
"""
import os
import re
import shutil
import subprocess

from checks.program import Ended, difference
from checks.room import room_of

RUNNERS = {".sh": "bash", ".py": "python3"}
NEEDS = re.compile(r"^# Needs: (.*)$", re.M)
WITH_SERVER = ", and a server"
STATEMENTS = ["orders.sql", "objects.sql", "name.sql", "people.sql"]
INPUTS = ["orders.jsonl", "people.jsonl", "pretty.json", "array.json"]
OWN_INPUT = ["several.sh", "coprocess.py"]  # recipes that make their input
REFUSED_BY_SQLITE = [
    ("a key that is null", b'{"id":null}\n'),
    ("a text that SQLite would cut", b'{"id":2,"customer":{"name":"a\\u0000b"}}\n'),
]


def check_recipes(tally, program, top):
    """Runs each recipe in a room of its own."""
    folder = top / "examples" / "recipes"
    recipes = sorted(path for path in folder.iterdir() if path.suffix in RUNNERS)
    tally.check("examples/recipes/", None if recipes else "it has no recipe")
    for recipe in recipes:
        name = f"examples/recipes/{recipe.name}"
        wanted = recipe.with_suffix(".out")
        needs, needs_server = needed(recipe)
        if not wanted.is_file():
            tally.check(name, f"it has no {wanted.name}")
        elif lacking(needs) and not needs_server:
            print(f"passed over {name}: {lacking(needs)} is not installed", flush=True)
        else:
            with room_of(program, top) as room:
                words = [RUNNERS[recipe.suffix], recipe.name]
                if needs_server:
                    words = with_client(room, needs[0], wanted.name, words)
                    ended = room.run(words)
                    tally.check(name, f"it ended with {ended}" if ended.status else None)
                else:
                    ended = room.run(words)
                    tally.check(name, difference(Ended(0, wanted.read_bytes(), ended.note), ended))
                check_failures(tally, name, room, words, wanted.read_bytes())
    with room_of(program, top) as room:
        check_refusing_table(tally, room)


def with_client(room, client, rows, words):
    """The words that run a recipe with a client in the place of the true one. It takes everything, and shows these rows."""
    folder = room.folder / "clients"
    folder.mkdir()
    (folder / client).write_text(f"#!/bin/sh\ncat {room.folder / rows}\n")
    (folder / client).chmod(0o755)
    return ["env", f"PATH={folder}{os.pathsep}{room.surroundings['PATH']}", *words]


def check_failures(tally, name, room, words, rows):
    """A recipe fails with a refused statement file and without its input, and shows none of its rows."""
    kept = {path.name: path.read_bytes() for path in room.folder.glob("*.sql") if path.name in STATEMENTS}
    for statements in kept:
        (room.folder / statements).write_bytes(b"SELECT ;")
    tally.check(f"{name} with a refused file", hidden_failure(room.run(words), rows))
    for statements, text in kept.items():
        (room.folder / statements).write_bytes(text)
    if words[-1] in OWN_INPUT:
        return
    for given in INPUTS:
        (room.folder / given).unlink()
    tally.check(f"{name} without its input", hidden_failure(room.run(words), rows))


def hidden_failure(ended, rows):
    """Says what hides that a recipe failed, or nothing."""
    if not ended.status:
        return f"it ended with {ended}"
    shown = set(ended.output.splitlines()) & set(rows.splitlines())
    return f"it showed {shown}" if shown else None


def check_refusing_table(tally, room):
    """What a table of SQLite refuses leaves the database as it was."""
    if lacking(["sqlite3"]):
        return
    for what, line in REFUSED_BY_SQLITE:
        (room.folder / "orders.jsonl").write_bytes(b'{"id":1}\n' + line)
        ended = room.run(["bash", "sqlite.sh"])
        left = room.run(["sqlite3", "orders.db", ".tables"]).output
        tally.check(f"examples/recipes/sqlite.sh with {what}", hidden_failure(ended, b"1||NULL|\n") or (left and f"it left {left}"))


def needed(recipe):
    """What a recipe needs: the programs, or python3 and its packages, and whether it needs a server too."""
    found = NEEDS.search(recipe.read_text(encoding="utf-8"))
    programs, server, _ = found[1].partition(WITH_SERVER) if found else ("", "", "")
    return re.findall(r"\w+", programs), bool(server)


def lacking(needs):
    """A program or a package of Python that is needed and not there, or nothing."""
    if needs[:1] == ["python3"]:
        return next((it for it in needs[2:] if not has_package(it)), None)
    return next((it for it in needs if not shutil.which(it)), None)


def has_package(name):
    """Whether the python3 on the path has the package; it may be another than the one that runs this."""
    return not subprocess.run(["python3", "-c", f"import {name}"], capture_output=True).returncode
