#!/usr/bin/env python3
"""Loads orders into SQLite, PostgreSQL and MariaDB by tools/load, compares every value, and lets loads fail in the middle.

200,000 orders are made as bench/databases.py makes them, with texts that need escapes, and with lines that are wrong in ten
ways. Each value in the tables is compared with the one that the script put into the order, which needs no sqljson; so is
each error row; and so are the greatest and the longest numbers, and long texts. Then loads into the full tables fail in four ways: the program ends in the middle, the database refuses a
value, the load is killed, and the input can't be read. What the tables have before and behind is compared. Where something
differs the script ends with status 1.

Told are rows, seconds by the clock, and those of the processor that the load, the program and the client took, beside those
of the program alone; not those of a server.

The servers come by `apt-get install postgresql mariadb-server`. The script is no part of the tests.
"""
import json
import os
import resource
import shutil
import signal
import sqlite3
import subprocess
import sys
import tempfile
import time
from dataclasses import dataclass
from decimal import Decimal
from pathlib import Path

import databases
from runs import HERE, read, words_taken

LOAD = HERE.parent / "tools" / "load"
STATEMENTS = """SELECT id, name, vip, note FROM JSON_TABLE(doc, '$' COLUMNS (
  id BIGINT ERROR ON EMPTY ERROR ON ERROR, name VARCHAR PATH '$.customer.name',
  vip BOOLEAN EXISTS PATH '$ ? (@.customer.vip == true)', note VARCHAR) ERROR ON ERROR) AS orders;
SELECT id, sku, total FROM JSON_TABLE(doc, '$' COLUMNS (id BIGINT ERROR ON EMPTY ERROR ON ERROR,
  NESTED '$.lines[*]' COLUMNS (sku VARCHAR, total NUMERIC(12,2) PATH '$.qty * $.price'))
  PLAN DEFAULT (INNER, UNION) ERROR ON ERROR) AS order_lines;
"""
TABLES = ["orders", "order_lines", "errors"]
EXTREME = """SELECT JSON_VALUE(doc, '$[0]' RETURNING NUMERIC) AS n, JSON_VALUE(doc, '$[1]' RETURNING NUMERIC(38,10)) AS "from",
  JSON_VALUE(doc, '$[2]' RETURNING BIGINT) AS b, JSON_VALUE(doc, '$[3]' RETURNING VARCHAR(3)) AS "s `;", JSON_QUERY(doc, '$[4]') AS j, JSON_VALUE(doc, '$[5]') AS t;
"""
REFUSED, KILLED, ENDED, NO_INPUT = 13, -signal.SIGKILL, 6, 4


class Orders(databases.Made):
    """Orders as JSON lines, and the rows of the tables, where a text keeps its U+0000."""

    def add(self, number):
        order, name, note, vip, items = self.order(number)
        kind = self.chance.random()
        if kind < 0.005:
            self.lines.append(self.broken(order))
            self.errors += [(number, 1, "22032"), (number, 2, "22032")]
        elif kind < 0.01:
            wrong, state = self.chance.choice([({"id": "four"}, "2203G"), ({}, "22035"), ({"id": [1]}, "2203F")])
            del order["id"]
            self.lines.append(self.text({**order, **wrong}))
            self.errors += [(number, statement, state) for statement in ([1, 2] if items else [1])]
        else:
            self.lines.append(self.text(order))
            self.orders.append((number, name, vip is True, note))
            self.items += [(number, sku, total) for sku, total in items]

    def without_nul(self):
        """The rows for a database that has no U+0000: rows with it are error rows."""
        errors, kept = list(self.errors), []
        for statement, rows in enumerate([self.orders, self.items], 1):
            has = [any(isinstance(value, str) and "\0" in value for value in row) for row in rows]
            errors += [(row[0], statement, "22021") for row, lost in zip(rows, has) if lost]
            kept.append([row for row, lost in zip(rows, has) if not lost])
        return [*kept, sorted(errors)]


@dataclass
class Target:
    """A database, and how its tables are read: rows as text, which need no sqljson."""

    name: str
    word: str  # TARGET of the load
    surroundings: dict
    reading: list  # the words that read a table, and in them its name as TABLE; none for SQLite
    in_text: object
    keeps_nul: bool = True

    def table(self, name):
        """All rows of a table, as text."""
        if not self.reading:
            return in_sqlite(self.word, name)
        words = [word.replace("TABLE", name) for word in self.reading]
        return subprocess.run(words, env=self.surroundings, check=True, capture_output=True).stdout

    def all(self):
        return [self.table(name) for name in TABLES]

    def change(self, text):
        """Lets the database run a statement."""
        if self.reading:
            words = [word.replace("TABLE", "") for word in self.reading[:-1]]
            subprocess.run([*words, text], env=self.surroundings, check=True, capture_output=True)
        else:
            with sqlite3.connect(self.word) as connection:
                connection.execute(text)
            connection.close()


def in_sqlite(path, table):
    with sqlite3.connect(path) as connection:
        found = connection.execute(f"SELECT * FROM {table}").fetchall()
    connection.close()
    return databases.in_copy_text(found)


def sqlite_text(rows):
    """Rows as SQLite has them: 1 and 0 for truth values, and texts for decimals."""
    flat = lambda value: int(value) if isinstance(value, bool) else databases.plain(value) if isinstance(value, Decimal) else value
    return databases.in_copy_text([tuple(map(flat, row)) for row in rows])


def targets(given, scratch):
    """Yields each database that can be had."""
    found = {**os.environ, "SQLJSON": str(given.program), "TMPDIR": str(scratch)}
    if given.only in (None, "sqlite"):
        yield Target("sqlite", str(scratch / "orders.db"), found, [], sqlite_text)
    for kind, (start, _, in_text, _) in databases.KINDS.items():
        lacking = [it for it in databases.NEEDED[kind] if not shutil.which(it)]
        if given.only not in (None, kind) or lacking:
            print(f"{kind} is left out" + (f": {lacking[0]} is not installed" if lacking else ""))
            continue
        with start(scratch / kind, found) as server:
            yield of_server(kind, server, in_text)


def of_server(kind, server, in_text):
    """The target for a server of bench/databases.py."""
    if kind == "postgresql":
        word = f"postgresql://postgres@/postgres?host={server.folder}"
        return Target(kind, word, server.surroundings, ["psql", "-q", "-c", "COPY TABLE TO STDOUT"], in_text, keeps_nul=False)
    queries = {"orders": "id, HEX(name), vip, HEX(note)", "order_lines": "id, HEX(sku), total", "errors": "line, statement, HEX(state)",
               "extreme": "n, `from`, b, HEX(`s ``;`), HEX(j), HEX(t)"}
    choice = "".join(f"IF 'TABLE' = '{name}' THEN SELECT {columns} FROM {name}; END IF; " for name, columns in queries.items())
    reading = ["mariadb", "--batch", "--skip-column-names", "--delimiter=//", "-e", f"BEGIN NOT ATOMIC {choice}END//"]
    return Target(kind, "mariadb://", server.surroundings, reading, in_text)


def load(target, room, words=(), given="orders.jsonl", file="orders.sql"):
    """Loads the orders, and returns the status, the message and the seconds by the clock and of the processor."""
    begun, before = time.perf_counter(), resource.getrusage(resource.RUSAGE_CHILDREN)
    command = [sys.executable, "-B", LOAD, *words, target.word, file, given]
    ran = subprocess.run(command, cwd=room, env=target.surroundings, stdin=subprocess.DEVNULL, capture_output=True)
    after = resource.getrusage(resource.RUSAGE_CHILDREN)
    busy = after.ru_utime + after.ru_stime - before.ru_utime - before.ru_stime
    return ran.returncode, ran.stderr.decode(errors="replace"), time.perf_counter() - begun, busy


def full_load(target, room, made):
    """Loads into a database without tables, and says what differs."""
    status, said, seconds, busy = load(target, room)
    if status:
        return [f"the load ended with status {status}: {said}"]
    print(f"{target.name}: {seconds:.1f} s, {busy:.1f} s of the processor; ", end="", flush=True)
    wanted = [made.orders, made.items, made.errors] if target.keeps_nul else made.without_nul()
    wrong = []
    for name, rows in zip(TABLES, wanted):
        found, text = target.table(name), target.in_text(rows)
        print(f"{name} {found.count(b'%c' % 10):,} rows, ", end="", flush=True)
        if found != text:
            wrong.append(f"{name}: {databases.first_difference(found, text)}")
    print("all as they were made" if not wrong else "not as they were made")
    return wrong


@dataclass(frozen=True)
class Number:
    """A number as it is written."""

    text: str

    def __str__(self):
        return self.text


def extreme_load(target, room):
    """Loads numbers and texts at their limits, and says what differs."""
    texts = [None, "", " x ", "\\N", "\n\t\r\\", "\x01\u2028\U0010ffff", "é" * 3_000_000, '"' * 4_000_000]
    numbers = ["0", "-0.5", "123456789012345678901234567", "0." + "1" * 38, "-99999999999999999999.123456789012345678", "7", "1.1", "12345678901234567.89"]
    fixed = ["0", "1234567890123456789012345678.0123456789", "-0.0000000001", "0.1", "5", "6", "7", "8"]
    whole = [2**63 - 1, -(2**63), 0, 1, None, 2**53 + 1, -1, 7]
    lines, rows = [], []
    for index, (n, m, b, t) in enumerate(zip(numbers, fixed, whole, texts)):
        j = "[" * (index * 30) + '"\\u0000\\t"' + "]" * (index * 30)
        lines.append(f'[{n},{m},{"null" if b is None else b},"a\U0001f600é",{j},{json.dumps(t, ensure_ascii=False)}]')
        shown = (f"{Decimal(n):.38f}" if target.name == "mariadb" else n, f"{Decimal(m):.10f}")
        rows.append((*(number if target.name == "sqlite" else Number(number) for number in shown), b, "a\U0001f600é", j, t))
    (room / "extreme.sql").write_text(EXTREME)
    (room / "extreme.jsonl").write_text("\n".join(lines))
    status, said, _, _ = load(target, room, ["--table", "extreme", "--errors", "extreme_errors"], "extreme.jsonl", "extreme.sql")
    found, text = target.table("extreme"), target.in_text(rows)
    return [f"extreme: status {status}, {said}"] * bool(status) + [f"extreme: {databases.first_difference(found, text)[:2000]}"] * (found != text)


def failing_loads(target, room, made, program):
    """Loads that fail in the middle, and says which of them changed something. Only the later half of the orders is refused."""
    target.change(f"DELETE FROM orders WHERE id < {len(made.lines) // 2}")
    target.change("CREATE UNIQUE INDEX one ON orders (id)")
    before, wrong = target.all(), []
    (room / "half").write_text(f"""#!/bin/sh
[ "$1" = run ] || exec {program} "$@"
{program} "$@" | head -c {20 * len(made.lines)}
exit {ENDED}
""")
    (room / "half").chmod(0o755)
    for name, wanted, words, given in [
        ("the program ends", ENDED, ["--append", "--program", room / "half"], "orders.jsonl"),
        ("the program ends, replacing", ENDED, ["--replace", "--program", room / "half"], "orders.jsonl"),
        ("there is no input", NO_INPUT, ["--append"], "none.jsonl"),
        ("the input is a folder", NO_INPUT, ["--append"], "."),
        ("there are such tables", REFUSED, [], "orders.jsonl"),
        ("the database refuses a row", REFUSED, ["--append"], "orders.jsonl"),
    ]:
        status, said, _, _ = load(target, room, words, given)
        wrong += verdict(target, name, before, status, wanted, said)
    _, _, seconds, _ = load(target, room, ["--append"])
    for share in (0.2, 0.5, 0.8):
        status = killed(target, room, seconds * share)
        if status == 0:
            print(f"  a load ended before it was killed at {share:.0%} of {seconds:.1f} s")
            break
        wrong += verdict(target, f"the load is killed at {share:.0%} of its time", before, status, KILLED, "")
    return wrong


def killed(target, room, seconds):
    """The status of a load that is killed behind so many seconds."""
    words = [sys.executable, "-B", LOAD, "--replace", target.word, "orders.sql", "orders.jsonl"]
    run = subprocess.Popen(words, cwd=room, env=target.surroundings, stdin=subprocess.DEVNULL, stderr=subprocess.DEVNULL)
    time.sleep(seconds)
    run.kill()
    return run.wait()


def verdict(target, name, before, status, wanted, said):
    """Says what is wrong behind a load that failed, or nothing."""
    print(f"  {name}: status {status}, {(said.strip().splitlines() or [''])[-1][:150]}")
    changed = [table for table, rows in zip(TABLES, before) if target.table(table) != rows]
    return [f"{name}: {it} was changed" for it in changed] + ([f"{name}: the status is not {wanted}"] if status != wanted else [])


def main():
    words = words_taken(__doc__)
    words.add_argument("--orders", type=int, default=200_000, metavar="N", help="how many orders are made (default: 200000)")
    words.add_argument("--only", choices=["sqlite", *databases.KINDS], help="one database alone")
    given = read(words)
    made, failed = Orders(given.orders), False
    with tempfile.TemporaryDirectory() as scratch:
        Path(scratch).chmod(0o755)
        room = Path(scratch, "room")
        room.mkdir()
        (room / "orders.sql").write_text(STATEMENTS)
        (room / "orders.jsonl").write_bytes(b"".join(line + b"\n" for line in made.lines))
        tell_program_alone(given.program, room)
        for target in targets(given, Path(scratch)):
            for fault in full_load(target, room, made) + extreme_load(target, room) or failing_loads(target, room, made, given.program):
                failed = True
                print(f"  wrong: {fault}")
    return 1 if failed else 0


def tell_program_alone(program, room):
    begun, before = time.perf_counter(), os.times()
    with open(room / "orders.jsonl", "rb") as given:
        subprocess.run([program, "run", "orders.sql"], cwd=room, stdin=given, stdout=subprocess.DEVNULL, check=True)
    after = os.times()
    busy = after.children_user + after.children_system - before.children_user - before.children_system
    print(f"the program alone: {time.perf_counter() - begun:.1f} s, {busy:.1f} s of the processor")


if __name__ == "__main__":
    sys.exit(main())
