#!/usr/bin/env python3
"""Loads orders into PostgreSQL and MariaDB with the recipes of examples/recipes/, and compares every value.

A private server of each that is installed is started in a scratch folder, where it listens on a socket alone. The recipe
first loads its own few orders, and what it shows is compared with the file beside it. Then it loads 200,000 orders that
this script makes, with texts that need escapes, and with lines that are wrong in ten ways. Each value in the tables is
compared with the one that the script put into the order, which needs no sqljson; so is each error row. At last the recipe
runs with a statement file that is refused, without its input, and with rows that the tables refuse: then it has to fail,
show no row, and leave no row. Where something differs the script ends with status 1.

The servers come by `apt-get install postgresql mariadb-server`. The script is no part of the tests.
"""
import json
import os
import pwd
import random
import shutil
import subprocess
import sys
import tempfile
import time
from contextlib import contextmanager
from decimal import Decimal
from pathlib import Path

from runs import HERE, read, words_taken

RECIPES = HERE.parent / "examples" / "recipes"
TOOLS = HERE.parent / "tools"
SEED = 20161215
LONGEST_START = 60  # seconds
PLAIN = ["", "Ann", "E", "R", "NULL", "TRUE", '"', "'", ",", "Chloé", "王", "\U0001f600", " x "]
TEXTS = [*PLAIN, "\\N", "\\.", "\\", "\\\\t", "a\tb", "a\nb", "a\rb", "\u2028", "\x01", "a\0b"]


class Made:
    """Orders as JSON lines, and what the tables must have: their rows, in order."""

    def __init__(self, count):
        self.chance = random.Random(SEED)
        self.lines, self.orders, self.items, self.errors = [], [], [], []
        for number in range(1, count + 1):
            self.add(number)

    def add(self, number):
        order, name, note, vip, items = self.order(number)
        kind = self.chance.random()
        if kind < 0.005:
            self.lines.append(self.broken(order))
            self.errors += [(number, 1, "22032"), (number, 2, "22032")]
        elif kind < 0.007:
            wrong, state = self.chance.choice([({"id": "four"}, "2203G"), ({}, "22035"), ({"id": [1]}, "2203F")])
            del order["id"]
            self.lines.append(self.text({**order, **wrong}))
            self.errors += [(number, statement, state) for statement in ([1, 2] if items else [1])]
        else:
            self.lines.append(self.text(order))
            self.add_row(self.orders, (number, name, vip is True, note), 1)
            for item in items:
                self.add_row(self.items, (number, *item), 2)

    def add_row(self, rows, row, statement):
        """Adds a row, or the error row that sqljson-split-rows makes of one with U+0000."""
        if any("\0" in value for value in row if isinstance(value, str)):
            self.errors.append((row[0], statement, "U0000"))
        else:
            rows.append(row)

    def order(self, number):
        """An order, and the values that its rows have."""
        name, note = self.some_text(), self.chance.choice([None, self.some_text()])
        vip = self.chance.choice([True, False, "true", None])
        lines, items = [], []
        for _ in range(self.chance.randrange(4)):
            sku, pieces, price = self.some_text(), self.chance.randrange(1, 100), Decimal(self.chance.randrange(10**6)) / 100
            lines.append({"sku": sku, "qty": pieces, "price": Price(price)})
            items.append((sku, pieces * price))
        return {"id": number, "customer": {"name": name, "vip": vip}, "note": note, "lines": lines}, name, note, vip, items

    def some_text(self):
        return "".join(self.chance.choice(TEXTS) for _ in range(self.chance.choice([1, 1, 1, 2, 5])))

    def text(self, order):
        return json.dumps(order, ensure_ascii=self.chance.random() < 0.5).encode("utf-8", "surrogatepass")

    def broken(self, order):
        """A line that is no JSON, in one of ten ways."""
        text = self.text(order)
        return self.chance.choice([
            text[: self.chance.randrange(1, len(text))], text[:-1] + b",}", text.replace(b'"', b"'"), text + b" more",
            b"\xef\xbb\xbf" + text, b"ERROR at 10:00:01", b'{"id":NaN}', b'{"id":1,"note":"\\x"}',
            b'{"id":1,"note":"\\ud83d"}', b'{"id":1,"note":"\xff"}'])


class Price(float):
    """A number that stands in JSON with two decimals, as `83.50`."""

    def __new__(cls, exact):
        made = super().__new__(cls, exact)
        made.text = f"{exact:.2f}"
        return made

    def __repr__(self):
        return self.text


class Server:
    """A running server, and what its clients have to see of it."""

    def __init__(self, folder, surroundings):
        self.folder, self.surroundings = folder, surroundings

    def run(self, words, room=None):
        """Runs a client or a recipe in a folder, and returns what it writes."""
        ran = self.tried(words, room)
        if ran.returncode:
            sys.exit(f"{words[:2]} ended with status {ran.returncode}: {ran.stderr.decode(errors='replace')}")
        return ran.stdout

    def tried(self, words, room=None):
        return subprocess.run(words, env=self.surroundings, cwd=room, capture_output=True)


@contextmanager
def started(words, folder, is_there, surroundings):
    """A server that runs until the block ends."""
    with open(folder / "log", "wb") as log:
        server = subprocess.Popen(words, stdout=log, stderr=log, **as_other())
    try:
        until = time.monotonic() + LONGEST_START
        while subprocess.run(is_there, env=surroundings, capture_output=True).returncode:
            if server.poll() is not None or time.monotonic() > until:
                sys.exit(f"{words[0]} does not start: {(folder / 'log').read_text(errors='replace')[-2000:]}")
            time.sleep(0.2)
        yield Server(folder, surroundings)
    finally:
        server.terminate()
        server.wait()


def as_other():
    """As whom a server is started: PostgreSQL refuses to be root."""
    return {"user": other().pw_uid, "group": other().pw_gid, "extra_groups": []} if os.geteuid() == 0 else {}


def other():
    names = {it.pw_name: it for it in pwd.getpwall()}
    return names.get("postgres") or names["nobody"]


def given_away(folder):
    folder.mkdir()
    if os.geteuid() == 0:
        os.chown(folder, other().pw_uid, other().pw_gid)
    return folder


@contextmanager
def postgresql(folder, surroundings):
    folder = given_away(folder)
    found = {**surroundings, "PGHOST": str(folder), "PGUSER": "postgres", "PGDATABASE": "postgres"}
    make = ["initdb", "--pgdata", folder / "data", "--username=postgres", "--auth=trust", "--encoding=UTF8", "--locale=C"]
    subprocess.run(make, check=True, stdout=subprocess.DEVNULL, cwd=folder, **as_other())
    words = ["postgres", "-D", folder / "data", "-k", folder, "-c", "listen_addresses="]
    with started(words, folder, ["psql", "-c", "SELECT 1"], found) as server:
        yield server


@contextmanager
def mariadb(folder, surroundings):
    folder = given_away(folder)
    found = {**surroundings, "HOME": str(folder)}
    data = ["--no-defaults", f"--datadir={folder / 'data'}"]
    make = ["mariadb-install-db", *data, "--auth-root-authentication-method=normal", "--skip-test-db"]
    subprocess.run(make, check=True, stdout=subprocess.DEVNULL, stderr=subprocess.DEVNULL, cwd=folder, **as_other())
    (folder / ".my.cnf").write_text(f"[client]\nsocket={folder}/socket\nuser=root\ndefault-character-set=utf8mb4\n")
    program = shutil.which("mariadbd") or "/usr/sbin/mariadbd"
    words = [program, *data, f"--socket={folder}/socket", f"--pid-file={folder}/pid", "--skip-networking", "--local-infile=1"]
    with started(words, folder, ["mariadb", "-e", "SELECT 1"], found) as server:
        server.run(["mariadb", "-e", "CREATE DATABASE orders"])
        with open(folder / ".my.cnf", "a") as file:
            file.write("[mariadb-client]\ndatabase=orders\n")
        yield server


def in_copy_text(rows):
    """Rows in the text format of COPY, made without sqljson."""
    escapes = str.maketrans({"\\": "\\\\", "\t": "\\t", "\n": "\\n", "\r": "\\r"})
    return written(rows, lambda text: text.translate(escapes), {None: "\\N", True: "t", False: "f"})


def in_hex_text(rows):
    """Rows with texts in hexadecimal digits, as the queries for MariaDB ask for them."""
    return written(rows, lambda text: text.encode().hex().upper(), {None: "NULL", True: "1", False: "0"})


def written(rows, of_text, special):
    def field(value):
        if value is None or isinstance(value, bool):
            return special[value]
        return of_text(value) if isinstance(value, str) else plain(value)

    return "".join("\t".join(map(field, row)) + "\n" for row in rows).encode()


def plain(number):
    return f"{number:.2f}" if isinstance(number, Decimal) else str(number)


TABLES = ["orders", "order_lines", "errors"]
KINDS = {
    "postgresql": (postgresql, ["psql", "-q", "-c"], in_copy_text, [f"COPY {table} TO STDOUT" for table in TABLES]),
    "mariadb": (
        mariadb, ["mariadb", "--batch", "--skip-column-names", "-e"], in_hex_text,
        [
            "SELECT id, HEX(name), vip, HEX(note) FROM orders", "SELECT id, HEX(sku), total FROM order_lines",
            "SELECT line, statement, HEX(state) FROM errors",
        ],
    ),
}
GOOD = b'{"id":1,"customer":{"name":"Ann"},"lines":[{"sku":"A","qty":1,"price":1}]}\n'
# What a recipe is run with to fail, and the files that make it so: None for one that is not there.
REFUSED = [
    ("a statement that is refused", {"orders.sql": b"SELECT ;"}),
    ("no input", {"orders.jsonl": None}),
    ("a NULL that a column refuses", {"orders.jsonl": GOOD + b'{"id":null}\n'}),
    ("a number that a column refuses", {"orders.jsonl": GOOD, "orders.sql": b"SELECT JSON_VALUE(doc, '$.id'), 'a', FALSE, 'b';"
     b"SELECT 99999999999999999999, 'a', 1.00;"}),
    ("a text that is no number", {"orders.jsonl": GOOD, "orders.sql": b"SELECT 1, 'a', FALSE, 'b'; SELECT 1, 'a', 'twelve';"}),
]
NEEDED = {"postgresql": ["postgres", "initdb", "psql"], "mariadb": ["mariadb-install-db", "mariadb"]}


def load(kind, server, room, made):
    """Runs the recipe on its own orders and on those that were made, and says what differs."""
    ask, in_text, queries = KINDS[kind][1:]
    wrong = []
    shown = server.run(["bash", f"{kind}.sh"], room)
    if shown != (RECIPES / f"{kind}.out").read_bytes():
        wrong.append(f"the recipe shows {shown}")
    server.run([*ask, "; ".join(f"DROP TABLE {table}" for table in TABLES)])
    (room / "orders.jsonl").write_bytes(b"".join(line + b"\n" for line in made.lines))
    begun = time.perf_counter()
    server.run(["bash", f"{kind}.sh"], room)
    print(f"{kind}: {len(made.lines):,} lines in {time.perf_counter() - begun:.1f} s with the showing of all rows", end="", flush=True)
    for table, query, rows in zip(TABLES, queries, [made.orders, made.items, made.errors]):
        found = server.run([*ask, query])
        print(f"; {table} {found.count(b'%c' % 10):,} rows", end="", flush=True)
        if found != in_text(rows):
            wrong.append(f"{table}: {first_difference(found, in_text(rows))}")
    print()
    return wrong + refused(kind, server, room)


def refused(kind, server, room):
    """Says which failure the recipe hides, or what it loads or shows in spite of one."""
    ask, _, queries = KINDS[kind][1:]
    drop = [*ask, "; ".join(f"DROP TABLE IF EXISTS {table}" for table in TABLES)]
    statements = (room / "orders.sql").read_bytes()
    wrong = []
    for what, files in REFUSED:
        server.run(drop)
        for name, text in {"orders.sql": statements, "orders.jsonl": b"", **files}.items():
            if text is None:
                (room / name).unlink()
            else:
                (room / name).write_bytes(text)
        ended = server.tried(["bash", f"{kind}.sh"], room)
        left = [found for found in (server.tried([*ask, query]).stdout for query in queries) if found]
        if not ended.returncode or ended.stdout or left:
            wrong.append(f"with {what} the recipe ends with {ended.returncode}, shows {ended.stdout} and leaves {left}")
    print(f"{kind}: {len(REFUSED)} failures tried")
    return wrong


def first_difference(found, wanted):
    pairs = zip(found.split(b"\n"), wanted.split(b"\n"))
    return next((f"it has {row}, and not {other}" for row, other in pairs if row != other), "it has more rows or fewer")


def main():
    words = words_taken(__doc__)
    words.add_argument("--orders", type=int, default=200_000, metavar="N", help="how many orders are made (default: 200000)")
    words.add_argument("--only", choices=KINDS, help="one server alone")
    given = read(words)
    made, failed = Made(given.orders), False
    with tempfile.TemporaryDirectory() as scratch:
        Path(scratch).chmod(0o755)
        names = Path(scratch, "names")
        names.mkdir()
        (names / "sqljson").symlink_to(given.program)
        (names / "sqljson-split-rows").symlink_to(TOOLS / "split-rows")
        surroundings = {**os.environ, "PATH": f"{names}{os.pathsep}{os.environ['PATH']}"}
        for kind in [given.only] if given.only else KINDS:
            lacking = [it for it in NEEDED[kind] if not shutil.which(it)]
            if lacking:
                print(f"{kind} is left out: {lacking[0]} is not installed")
                continue
            room = Path(scratch, f"{kind}-recipe")
            shutil.copytree(RECIPES, room)
            with KINDS[kind][0](Path(scratch, kind), surroundings) as server:
                for fault in load(kind, server, room, made):
                    failed = True
                    print(f"  {fault}")
    return 1 if failed else 0


if __name__ == "__main__":
    sys.exit(main())
