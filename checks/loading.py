"""The companions load and why, run on the program. Loads go into SQLite here; bench/loads.py has servers."""
import json
import random
import re
import runpy
import sqlite3
from contextlib import closing

from checks.program import Ended, difference
from checks.room import room_of

SHOP = b"""SELECT * FROM JSON_TABLE(doc, '$' COLUMNS (id BIGINT ERROR ON EMPTY ERROR ON ERROR, name VARCHAR PATH '$.customer.name',
  vip BOOLEAN EXISTS PATH '$ ? (@.customer.vip == true)', note VARCHAR, gone VARCHAR) ERROR ON ERROR) AS shop;
SELECT id, sku, total FROM JSON_TABLE(doc, '$' COLUMNS (id BIGINT ERROR ON ERROR, NESTED '$.lines[*]'
  COLUMNS (sku VARCHAR, total NUMERIC(12,2) PATH '$.qty * $.price')) PLAN DEFAULT (INNER, UNION) ERROR ON ERROR) AS "shop lines";
"""
LOADED = {
    "shop": [(1, "Ann", 1, None, None), (2, "E", 0, "ring\ttwice", None)],
    "shop lines": [(1, "A-1", "19.90"), (1, "B-7", "120.00"), (2, "A-1", "9.95")],
    "errors": [(3, 1, "22032"), (3, 2, "22032"), (4, 1, "2203G")],
}
SAID = b"""shop: 2 rows, 2 error rows (22032: 1, 2203G: 1)
shop: gone is NULL in all rows
shop lines: 3 rows, 1 error row (22032: 1)
"""
NOTHING = "nothing was loaded\n"
VALUE = b"SELECT * FROM JSON_TABLE(doc, '$' COLUMNS (v VARCHAR PATH '$') ERROR ON ERROR) AS t;"

# Statements, the words of the load, and what it says of them.
REFUSED = [
    ("SELECT JSON_VALUE(doc, '$.a');", [], 1, "statement 1 has no name for its table: write --table NAME for each statement in their order"),
    ("SELECT 1 AS a FROM JSON_TABLE(doc, '$' COLUMNS (a INTEGER));", [], 1, "write a name behind JSON_TABLE(..), or --table NAME for each"),
    ("SELECT 1 AS a, JSON_VALUE(doc,\n  '$.a') ;", ["--table", "t"], 1, "statement 1: value 2 has no name: write JSON_VALUE(doc, '$.a') AS name"),
    ("SELECT 1 AS a, 2 AS b, 3 AS \"A\";", ["--table", "t"], 1, "values 1 and 3 both have the name A: write another name behind AS"),
    ("SELECT 1 AS a; SELECT 2 AS b;", ["--table", "t", "--table", "T"], 1, "statements 1 and 2 both have the table T: write another name behind"),
    ("SELECT 1 AS a;", ["--table", "t", "--table", "u"], 1, "--table is given 2 times, and FILE has 1 statements"),
    ("SELECT 1 AS a;", ["--table", "errors"], 1, "a statement has the table errors too: write --errors NAME"),
    ("-- nothing\n", [], 1, "FILE has no statement"),
    ("SELECT 1 AS a;", ["--table", "sqlite_x"], 13, "object name reserved for internal use"),
    ("SELECT 1 AS \"a\0b\";", ["--table", "t"], 1, "statement 1: the name of value 1 has U+0000 in it"),
    ("SELECT 1 AS;", [], 2, "statement 1: syntax error\nsqljson-load: the program ended with status 2"),
]

# Statements, the words of the load, and the tables of each database.
TYPES = """SELECT "a""b", for, n, m, p, q, o, j, k, e, 'x' AS s, 1.5 AS f, -2 AS w, NULL AS "select", TRUE AS t FROM JSON_TABLE(doc, '$' AS columns
  PASSING 1 AS columns COLUMNS (for FOR ORDINALITY, -- COLUMNS (
  "a""b" VARCHAR(7), n NUMERIC, m DECIMAL(5), NESTED PATH '$.x' COLUMNS (p INT, NESTED '$[*]' AS y COLUMNS (q BOOLEAN, o BIGINT)),
  j VARCHAR FORMAT JSON, k VARCHAR FORMAT JSON OMIT QUOTES, e BOOLEAN EXISTS)) "order";
SELECT doc IS JSON AS is, JSON_VALUE(doc, '$' PASSING 1 AS returning RETURNING NUMERIC(4,1)) AS v, JSON_VALUE(doc, '$') AS x,
  JSON_QUERY(doc, '$' PASSING 1 AS omit KEEP QUOTES) AS q, JSON_QUERY(doc, '$' OMIT QUOTES) AS u, JSON_ARRAY(doc IS JSON) AS y, JSON_EXISTS(doc, '$') AS h;
"""
MADE = {
    "x.db": ["TEXT BIGINT TEXT TEXT INTEGER BOOLEAN BIGINT TEXT TEXT BOOLEAN TEXT TEXT BIGINT TEXT BOOLEAN", "BOOLEAN TEXT TEXT TEXT TEXT TEXT BOOLEAN"],
    "postgresql://": [
        "varchar(7) bigint numeric numeric(5,0) integer boolean bigint json text boolean text numeric bigint text boolean",
        "boolean numeric(4,1) text json text json boolean",
    ],
    "mariadb://": [
        "varchar(7) BIGINT decimal(65,38) NUMERIC(5,0) INTEGER BOOLEAN BIGINT longtext longtext BOOLEAN longtext decimal(65,38) BIGINT longtext BOOLEAN",
        "BOOLEAN NUMERIC(4,1) longtext longtext longtext longtext BOOLEAN",
    ],
}

# A program in the place of sqljson that checks as it does and whose run does this, the status of the load, and what it says.
WRONG_RUNS = [
    ("sqljson \"$@\" | head -c 40; exit 6", 6, "the program ended with status 6"),
    ("sqljson \"$@\" | head -c 40", 11, "the last row of the program is cut off"),
    ("echo no row", 11, "the program wrote what is no row"),
    ("printf '1\\t3\\tR\\t1\\n'", 11, "the program wrote what is no row"),
    ("printf 'a\\t1\\tE\\t22032\\n'", 11, "the program wrote what is no row"),
    ("printf '1\\t1\\tR\\t1\\n'", 11, "a row of shop has 1 values, and not 5"),
    ("kill -9 $$", 137, "the program ended with status 137"),
]

# A statement, a line, and what `why` tells of the error that the line raises.
TOLD = [
    ("SELECT 1, JSON_VALUE(doc, '$.a' RETURNING INTEGER ERROR ON ERROR) AS a;", '{"a":"x"}',
     "value 2: 2203G, an item cannot be cast, by RETURNING or by a method; a method casts no null\n"
     "    JSON_VALUE(doc, '$.a' RETURNING INTEGER ERROR ON ERROR)\n    found: \"x\""),
    ("SELECT JSON_OBJECT('k' VALUE JSON_VALUE(doc, '$.a' PASSING 1 AS x, 'y' AS y ERROR ON EMPTY));", '{"b":1}',
     "value 1: 22035, nothing is found, with ERROR ON EMPTY\n    JSON_VALUE(doc, '$.a' PASSING 1 AS x, 'y' AS y ERROR ON EMPTY)\n    found: nothing"),
    ("SELECT JSON_VALUE(doc, '$.a[*]' ERROR ON ERROR);", '{"a":[1,"\\u0007"]}',
     "value 1: 22034, JSON_VALUE, or JSON_QUERY without a wrapper, finds more than one item\n"
     "    JSON_VALUE(doc, '$.a[*]' ERROR ON ERROR)\n    found: several items: [1,\"\\u0007\"]"),
    ("SELECT JSON_OBJECT(JSON_VALUE(doc, '$.k') VALUE 1);", "{}",
     "value 1: 22004, a key of a constructed object is NULL\n    JSON_OBJECT(JSON_VALUE(doc, '$.k') VALUE 1)"),
    ("SELECT a FROM JSON_TABLE(doc, '$[*]' COLUMNS (o FOR ORDINALITY, b INTEGER ERROR ON ERROR,\n  a VARCHAR(2) ERROR ON ERROR));", '[{"a":"ok"},{"a":"long"}]',
     "row 2, column a: 22001, a text is longer than its VARCHAR(n)\n    a VARCHAR(2) ERROR ON ERROR\n    found: \"long\""),
    ("SELECT * FROM JSON_TABLE(doc, '$[*]' COLUMNS (NESTED '$.x[*]' COLUMNS (\"a'\"\"b\" VARCHAR ERROR ON EMPTY)));", '[{"x":[{"a\'\\"b":1},{}]}]',
     "row 2, column a'\"b: 22035, nothing is found, with ERROR ON EMPTY\n    \"a'\"\"b\" VARCHAR ERROR ON EMPTY\n    found: nothing"),
    ("SELECT * FROM JSON_TABLE(doc, '$[*]' COLUMNS (a INTEGER, NESTED 'strict $.x[*]' AS n COLUMNS (b INTEGER)) ERROR ON ERROR);", '[{"x":[]},{}]',
     "row 2, the nested path: 2203A, in strict mode, there is no such member\n    NESTED 'strict $.x[*]' AS n"),
    ("SELECT c FROM JSON_TABLE(doc, '$' AS r COLUMNS (NESTED '$.e[*]' AS e COLUMNS (c INTEGER PATH '$.v' ERROR ON ERROR, \"0\" VARCHAR),\n"
     "NESTED '$.f[*]' AS f COLUMNS (d INTEGER PATH '$' ERROR ON ERROR)) PLAN (r OUTER (e CROSS f)));", '{"e":[{"v":1},{"v":[2]}],"f":[1,2]}',
     "row 3, column c: 2203F, an array or object is cast, by RETURNING or by a method\n    c INTEGER PATH '$.v' ERROR ON ERROR\n    found: [2]"),
    ("SELECT * FROM JSON_TABLE(doc, 'strict $.x' COLUMNS (a INTEGER) ERROR ON ERROR);", "{}",
     "row 1, the row path: 2203A, in strict mode, there is no such member\n    doc, 'strict $.x'"),
    ("SELECT JSON_OBJECTAGG(k : v WITH UNIQUE KEYS) FROM JSON_TABLE(doc, '$[*]' COLUMNS (k VARCHAR PATH '$', v INTEGER));", '["a","a"]',
     "value 1: 22030, a key of a constructed object comes again, WITH UNIQUE KEYS\n    JSON_OBJECTAGG(k : v WITH UNIQUE KEYS)"),
    ("SELECT JSON_EXISTS(doc, '$' ERROR ON ERROR);", '{"a":1,}',
     "value 1: 22032, the line is not JSON\n    JSON_EXISTS(doc, '$' ERROR ON ERROR)\n    the line: no JSON from character 8 on: }, behind {\"a\":1,"),
    ("SELECT JSON_EXISTS(doc, '$' ERROR ON ERROR);", "[1",
     "value 1: 22032, the line is not JSON\n    JSON_EXISTS(doc, '$' ERROR ON ERROR)\n    the line: it ends too early, behind [1"),
    ("SELECT JSON_EXISTS(doc, '$' ERROR ON ERROR);", "NaN",
     "value 1: 22032, the line is not JSON\n    JSON_EXISTS(doc, '$' ERROR ON ERROR)\n    the line: it begins NaN"),
]


def check_loading(tally, program, top):
    with room_of(program, top) as room:
        (room.folder / "shop.sql").write_bytes(SHOP)
        (room.folder / "value.sql").write_bytes(VALUE)
        for check in [check_whole, check_ways, check_refused, check_types, check_texts, check_numbers, check_columns, check_runs, check_streams]:
            check(tally, room)
        check_why(tally, room)
        meanings = runpy.run_path(str(top / "tools" / "why"))["MEANINGS"]
        guide = dict(re.findall(r"^\| (22\w{3}) \| (.*) \|$", (top / "docs" / "GUIDE.md").read_text(encoding="utf-8"), re.M))
        lost = [state for state, text in guide.items() if meanings.get(state) != text.replace("`", "")]
        tally.check("why, the SQLSTATEs", f"it does not say the same as the guide of {lost}" if lost or not guide else None)


def tables(room, name="x.db"):
    """All rows of each table of a file of SQLite, or nothing where it is not there."""
    if not (room.folder / name).exists():
        return None
    with closing(sqlite3.connect(room.folder / name)) as connection:
        names = [row[0] for row in connection.execute("SELECT name FROM sqlite_master WHERE type = 'table' ORDER BY rowid")]
        return {name: connection.execute(f'SELECT * FROM "{name}" ORDER BY rowid').fetchall() for name in names}


def gone(room):
    """Removes the database of a check before."""
    (room.folder / "x.db").unlink(missing_ok=True)


def loaded(room, *words, given=b""):
    """Loads into a new database, and returns how that ended and the tables."""
    gone(room)
    ended = room.run(["sqljson-load", *words], given)
    return ended, tables(room)


def fault(wanted, found):
    return None if wanted == found else f"it is {str(found)[:500]}, and not {str(wanted)[:500]}"


def message_fault(ended, status, text):
    """Says where a load did not end with this status and text in its message, or nothing."""
    fits = ended.status == status and text in ended.note.decode() and not ended.output and b"Traceback" not in ended.note
    return None if fits else f"it ended with {ended}, and not with {status} and {text!r}"


def check_whole(tally, room):
    """All rows are in the tables, from each kind of input."""
    orders = (room.folder / "orders.jsonl").read_bytes()
    for name, words, given in [
        ("standard input", ["x.db", "shop.sql"], orders),
        ("a file", ["x.db", "shop.sql", "orders.jsonl"], b""),
    ]:
        ended, found = loaded(room, *words, given=given)
        tally.check(f"load, {name}", difference(Ended(0, note=SAID), ended) or fault(LOADED, found))
    gone(room)
    pipes = "sqljson-load x.db <(cat shop.sql) <(cat orders.jsonl)"
    tally.check("load, pipes", difference(Ended(0, note=SAID), room.run(["bash", "-c", pipes])) or fault(LOADED, tables(room)))
    gone(room)
    behind = "{ read -r line; sqljson-load x.db shop.sql; } < orders.jsonl"
    ended = room.run(["bash", "-c", behind])
    tally.check("load, the rest of a file", fault([row for row in LOADED["shop"] if row[0] > 1], (tables(room) or {}).get("shop")) or status_fault(ended, 0))
    for name, given, rows in [("no line", b"", []), ("blank lines", b"\n \n\n", []), ("a line without its end", b"\n\n1", [("1",)])]:
        ended, found = loaded(room, "x.db", "value.sql", given=given)
        tally.check(f"load, {name}", status_fault(ended, 0) or fault({"t": rows, "errors": []}, found))
    ended, found = loaded(room, "--unique-keys", "x.db", "value.sql", given=b'{"a":1,"a":2}\n')
    tally.check("load --unique-keys", status_fault(ended, 0) or fault([(1, 1, "22037")], found["errors"]))


def status_fault(ended, status):
    return None if ended.status == status else f"it ended with {ended}"


def check_ways(tally, room):
    """Tables that are there are refused, added to or replaced, and keep what they have where a load fails."""
    loaded(room, "x.db", "shop.sql", "orders.jsonl")
    again = ["x.db", "shop.sql", "orders.jsonl"]
    said = f"there is already: shop, shop lines, errors; --append adds rows to it, --replace puts rows in the place of its own; {NOTHING}"
    tally.check("load into tables that are there", message_fault(room.run(["sqljson-load", *again]), 13, said) or fault(LOADED, tables(room)))
    ended = room.run(["sqljson-load", "--append", *again])
    tally.check("load --append", status_fault(ended, 0) or fault({name: rows * 2 for name, rows in LOADED.items()}, tables(room)))
    ended = room.run(["sqljson-load", "--replace", *again])
    tally.check("load --replace", status_fault(ended, 0) or fault(LOADED, tables(room)))
    ended = room.run(["sqljson-load", "--append", "--errors", "more", *again])
    wanted = {**{name: rows * 2 for name, rows in LOADED.items()}, "errors": LOADED["errors"], "more": LOADED["errors"]}
    tally.check("load --append with a new table", status_fault(ended, 0) or fault(wanted, tables(room)))
    for made, said in [
        ("CREATE TABLE t (v TEXT CHECK (v <> 'c'))", "t, line 4 of the input: CHECK constraint failed"),
        ("CREATE TABLE t (v INTEGER)", "the table t would change values of v: the type of that column is INTEGER, and not TEXT"),
        ("CREATE TABLE t (w TEXT)", "the table t has no column v"),
    ]:
        gone(room)
        with closing(sqlite3.connect(room.folder / "x.db")) as connection:
            connection.executescript(f"{made}; INSERT INTO t VALUES ('0');")
        before = tables(room)
        ended = room.run(["sqljson-load", "--replace", "x.db", "value.sql"], b'"a"\n\n"b"\n"c"\n"d"\n')
        tally.check(f"load, a refused value: {made}", message_fault(ended, 13, said) or fault(before, tables(room)))


def check_refused(tally, room):
    """What can't be loaded is refused with its reason, and makes no file."""
    for text, words, status, said in REFUSED:
        (room.folder / "refused.sql").write_text(text, encoding="utf-8")
        ended, found = loaded(room, *words, "x.db", "refused.sql", "orders.jsonl")
        tally.check(f"load of {text}", message_fault(ended, status, said) or fault(None, found))
    for name, words, status, said in [
        ("no statement file", ["x.db", "none.sql"], 3, "none.sql: No such file or directory"),
        ("a folder of statements", ["x.db", "."], 3, ".: Is a directory"),
        ("no input", ["x.db", "shop.sql", "none"], 4, "none: No such file or directory"),
        ("a folder as input", ["x.db", "shop.sql", "."], 4, "input failed"),
        ("a folder as input, kept", ["--error-text", "x.db", "shop.sql", "."], 4, "INPUT can't be read: Is a directory"),
        ("no program", ["--program", "none", "x.db", "shop.sql"], 12, "none: No such file or directory"),
        ("another kind of target", ["oracle://x", "shop.sql"], 1, "TARGET is the name of a file, or begins with"),
        ("a target with more", ["mariadb://h/d?ssl=1", "shop.sql"], 1, "behind ? may stand socket=PATH alone"),
        ("a folder as target", [".", "shop.sql"], 13, "unable to open database file"),
        ("a target in no folder", ["none/x.db", "shop.sql"], 13, "unable to open database file"),
        ("a target that is no database", ["orders.jsonl", "shop.sql"], 13, "file is not a database"),
        ("two ways", ["--append", "--replace", "x.db", "shop.sql"], 1, "not allowed with"),
    ]:
        ended, found = loaded(room, *words)
        tally.check(f"load, {name}", message_fault(ended, status, said) or fault(None, found))
    (room.folder / "endless.sql").write_bytes(b"-" * 1_048_577)
    tally.check("load of a long file", message_fault(loaded(room, "x.db", "endless.sql")[0], 8, "statement file too long"))


def check_types(tally, room):
    """--tables-only writes the tables of each database, with each name quoted."""
    (room.folder / "types.sql").write_text(TYPES, encoding="utf-8")
    for target, made in MADE.items():
        ended = room.run(["sqljson-load", "--tables-only", "--table", "first", "--table", "b", target, "types.sql"])
        mark = "`" if target.startswith("mariadb") else '"'
        found = re.findall(rf"^  {mark}(?:.*?){mark} (.*?),?$", ended.output.decode(), re.M)
        wanted = " ".join(made).split()
        tally.check(f"load --tables-only {target}", status_fault(ended, 0) or fault(wanted, found[: len(wanted)]))
    ended = room.run(["sqljson-load", "--tables-only", "--table", "first", "--table", "b", "x.db", "types.sql"])
    names = re.findall(r"^  (.*) [A-Z]+,?$", ended.output.decode(), re.M)[:15]
    tally.check("load, the names", fault('"a""b" "for" "n" "m" "p" "q" "o" "j" "k" "e" "s" "f" "w" "select" "t"'.split(), names))
    (room.folder / "types.sql").write_text(f'SELECT 1 AS {"n" * 64};')
    ended = room.run(["sqljson-load", "--table", "t", "postgresql://", "types.sql"])
    tally.check("load, a name too long for PostgreSQL", message_fault(ended, 1, "PostgreSQL would cut this name to 63 bytes"))


def check_texts(tally, room):
    """Texts come back as they were, whatever is in them, and so do the lines of error rows."""
    chance = random.Random(48)
    marks = ["\\", "\t", "\n", "\r", "\0", "N", "t", "n", "r", "\\N", "\\.", "'", '"', "\x0b", "\x1c", "\x85", "\u2028", "\ufeff", "é", "\U0010ffff", ""]
    values = ["".join(chance.choice(marks) for _ in range(chance.randrange(7))) for _ in range(2000)]
    values += ["\\N", "E", "R", "\\", "\\\\t", "x" * 3_000_000, ",", "NULL"]
    lines = b"".join(json_text(value) + b"\n" for value in values)
    ended, found = loaded(room, "x.db", "value.sql", given=lines)
    tally.check("load, texts", status_fault(ended, 0) or fault({"t": [(value,) for value in values], "errors": []}, found))
    broken = [b"{", b"\xff\x00\t\\N\r", b"  \xc3\xa9", b"x" * 16_777_217, b"\\"]
    given = b"1\n\n" + b"\n".join(broken)
    texts = [(number, 1, "22032", is_text(line)) for number, line in enumerate(broken, 3)]
    ended, found = loaded(room, "--error-text", "x.db", "value.sql", given=given)
    tally.check("load --error-text of a pipe", status_fault(ended, 0) or fault(texts, (found or {}).get("errors")))
    (room.folder / "broken").write_bytes(given)
    ended, found = loaded(room, "--error-text", "x.db", "value.sql", "broken")
    tally.check("load --error-text of a file", status_fault(ended, 0) or fault(texts, (found or {}).get("errors")))


def is_text(line):
    """How the line of an error row is stored."""
    if len(line) > 16_777_216:
        return None
    try:
        return line.decode()
    except UnicodeDecodeError:
        return line


def json_text(value):
    return b'"' + "".join(f"\\u{ord(it):04x}" if it < " " or it in '"\\' else it for it in value).encode() + b'"'


def check_numbers(tally, room):
    """Numbers are exact: NUMERIC to its last digit, and whole numbers as such."""
    (room.folder / "numbers.sql").write_text(
        "SELECT JSON_VALUE(doc, '$[0]' RETURNING NUMERIC) AS n, JSON_VALUE(doc, '$[1]' RETURNING BIGINT) AS b, JSON_VALUE(doc, '$[2]' RETURNING BOOLEAN) AS t;")
    rows = [("12345678901234567890123456789012345678", 9223372036854775807, 1), ("0.10000000000000000000000000000000000001", -9223372036854775808, 0), ("12345678901234.57", 0, None)]
    words = {1: "true", 0: "false", None: "null"}
    given = "".join(f"[{n},{b},{words[t]}]\n" for n, b, t in rows).encode()
    ended, found = loaded(room, "--table", "t", "x.db", "numbers.sql", given=given)
    tally.check("load, numbers", status_fault(ended, 0) or fault(rows, (found or {}).get("t")))
    kinds = [{type(value) for value in column} for column in zip(*(found or {}).get("t", []))]
    tally.check("load, numbers", fault([{str}, {int}, {int, type(None)}], kinds))


def check_columns(tally, room):
    """A thousand columns, and the columns that are NULL in all rows."""
    values = ", ".join(f"JSON_VALUE(doc, '$.c{it}') AS c{it}" for it in range(1000))
    (room.folder / "wide.sql").write_text(f"SELECT {values};")
    rows = [tuple(f"v{row}" if it % 20 == row and it < 998 else None for it in range(1000)) for row in range(20)]
    given = "".join(json.dumps({f"c{it}": value for it, value in enumerate(row) if value}) + "\n" for row in rows).encode()
    ended, found = loaded(room, "--table", "t", "x.db", "wide.sql", given=given)
    said = b"t: 20 rows, 0 error rows\nt: c998 is NULL in all rows\nt: c999 is NULL in all rows\n"
    tally.check("load, a thousand columns", difference(Ended(0, note=said), ended) or fault(rows, (found or {}).get("t")))


def check_runs(tally, room):
    """A run that fails, or writes what is no row, loads nothing."""
    for run, status, said in WRONG_RUNS:
        (room.folder / "wrong").write_text(f'#!/bin/sh\n[ "$1" = run ] || exec sqljson "$@"\n{run}\n')
        (room.folder / "wrong").chmod(0o755)
        for words in [["x.db"], ["--error-text", "x.db"]]:
            ended, found = loaded(room, "--program", "./wrong", *words, "shop.sql", given=(room.folder / "orders.jsonl").read_bytes() * 9)
            tally.check(f"load, {run}", message_fault(ended, status, f"sqljson-load: {said}; {NOTHING}") or fault(None, found))
    gone(room)
    ended = room.run(["bash", "-c", "(echo 1; sleep 9) | { sqljson-load x.db value.sql & sleep 2; kill $!; wait $!; }"])
    tally.check("load, a signal", status_fault(ended, 143) or fault(None, tables(room)))


def check_streams(tally, room):
    """Closed streams give the stated status, and no traceback."""
    for command, status, rows in [
        ("sqljson-load x.db shop.sql <&-", 4, None),
        ("sqljson-load x.db shop.sql orders.jsonl <&- >&- 2>&-", 0, LOADED),
        ("sqljson-load x.db shop.sql < orders.jsonl 2>/dev/full", 0, LOADED),
        ("sqljson-load --tables-only x.db shop.sql >/dev/full", 5, None),
        ("sqljson-load --tables-only x.db shop.sql >&-", 5, None),
    ]:
        gone(room)
        ended = room.run(["bash", "-c", command])
        tally.check(command, status_fault(ended, status) or fault(rows, tables(room)) or (str(ended) if b"Traceback" in ended.note else None))


def check_why(tally, room):
    """The part that raised an error is told, with what it found."""
    for text, line, told in TOLD:
        (room.folder / "why.sql").write_text(text, encoding="utf-8")
        (room.folder / "why.jsonl").write_text(f"\n{line}\n", encoding="utf-8")
        rows = room.run(["sqljson", "run", "why.sql"], f"\n{line}\n".encode()).output
        ended = room.run(["sqljson-why", "why.sql", "-", "why.jsonl"], rows)
        tally.check(f"why of {text}", difference(Ended(0, f"line 2, statement 1, {told}\n".encode()), ended))
    split = room.run(["bash", "-c", "sqljson run shop.sql < orders.jsonl > rows; sqljson-why <(cat shop.sql) <(cut -f 1,2,4 rows | grep 22.3) <(cat orders.jsonl)"])
    same = room.run(["sqljson-why", "shop.sql", "rows", "orders.jsonl"])
    tally.check("why of pipes", None if split.status == 0 and same == split and split.output.count(b"line ") == 3 + 2 else f"{split} and {same}")
    for name, words, given, status, said in [
        ("no statement file", ["none.sql", "rows", "orders.jsonl"], b"", 3, b"none.sql: No such file"),
        ("no errors", ["shop.sql", "none", "orders.jsonl"], b"", 12, b"none: No such file"),
        ("no input", ["shop.sql", "rows", "none"], b"", 4, b"none: No such file"),
        ("no rows", ["shop.sql", "orders.jsonl", "orders.jsonl"], b"", 11, b"ERRORS: row 1 is no row"),
        ("a line that is not there", ["shop.sql", "-", "orders.jsonl"], b"9\t1\t22032\n", 11, b"INPUT has no line 9"),
        ("another error", ["shop.sql", "-", "orders.jsonl"], b"1\t1\t22032\n", 11, b""),
        ("another statement", ["shop.sql", "-", "orders.jsonl"], b"1\t7\t22032\n", 11, b""),
        ("no error", ["shop.sql", "-", "orders.jsonl"], b"1\t1\tR\tE\t22032\n", 0, b""),
        ("a refused file", ["orders.jsonl", "rows", "orders.jsonl"], b"", 2, b"statement 1: "),
        ("U+0000", ["shop.sql", "-", "orders.jsonl"], b"1\t1\t22021\n", 0, b""),
    ]:
        ended = room.run(["sqljson-why", *words], given)
        fits = ended.status == status and said in ended.note and b"Traceback" not in ended.note
        tally.check(f"why, {name}", None if fits else f"it ended with {ended}")
    full = room.run(["bash", "-c", "sqljson-why shop.sql rows orders.jsonl >/dev/full"])
    tally.check("why onto a full disk", difference(Ended(5, note=b"sqljson-why: output failed\n"), full))
