"""Each limit of the program at its value and one past it. Every run is held to the stack that the guide names."""
import tempfile
from pathlib import Path
from resource import RLIMIT_STACK

from checks.json_texts import DEEPEST, LONGEST as LONGEST_LINE
from checks.program import Ended, difference

STACK = [(RLIMIT_STACK, 512 << 10)]
SMALL_STACK = [(RLIMIT_STACK, 256 << 10)]
TOO_MANY, TOO_DEEP, NO_SYNTAX = "too many columns or paths", "path: too deep", "syntax error"


def check_limits(tally, program):
    with tempfile.TemporaryDirectory() as room:
        folder = Path(room)
        check_statements(tally, program, folder)
        check_refused(tally, program, folder)
        check_stack(tally, program, folder)
        check_lines(tally, program, folder)
        check_depths(tally, program, folder)


def exists(path):
    return f"SELECT JSON_EXISTS(doc, '{path}');"


def cast(type_name):
    return f"SELECT JSON_VALUE(doc, '$' RETURNING {type_name});"


def columns(count):
    names = ",".join(f"c{number} FOR ORDINALITY" for number in range(count))
    return f"SELECT * FROM JSON_TABLE(doc, '$' COLUMNS ({names}));"


def siblings(count, plan=""):
    """A table of so many paths: that of its rows, and the others side by side below it."""
    nested = ",".join(f"NESTED '$' AS p{number} COLUMNS (c{number} INT PATH '$')" for number in range(1, count))
    return f"SELECT * FROM JSON_TABLE(doc, '$' AS p0 COLUMNS ({nested}) {plan});"


def named(count, kind, front="", behind=""):
    """A table with so many columns of a kind behind others, and what stands behind them."""
    numbered = "".join(f", c{number} {kind}" for number in range(count))
    return f"SELECT * FROM JSON_TABLE(doc, '$' COLUMNS ({front}a INT{numbered}{behind}));"


def paths_below(count):
    """A table with so many paths behind a column, all below that of its rows."""
    return "".join(f", NESTED '$' COLUMNS (p{number} INT)" for number in range(count))


def union(operators):
    """A table with a plan of so many operators, each between two of its paths."""
    paths = " UNION ".join(f"p{number}" for number in range(1, operators + 2))
    return siblings(operators + 2, f"PLAN (p0 OUTER ({paths}))")


def nested(depth):
    """A table whose paths stand each in the one before it."""
    head, tail = "COLUMNS (c{0} INT PATH '$', NESTED '$' ", ")" * depth
    inner = "".join(head.format(number) for number in range(depth - 1))
    return f"SELECT * FROM JSON_TABLE(doc, '$' {inner}COLUMNS (c INT PATH '$'{tail});"


def negations(count):
    """A path with so many signs: a `?`, a `!` behind each `||` but the last, and a `.` where they are odd."""
    return exists("$" + ".a" * (count % 2) + "?(1==2" + "||!(1==1)" * (count // 2 - 1) + "||1==2)")


# What has a limit, a statement with so many of it, the greatest number, and the reason for which one more is refused.
LIMITS = [
    ("values in a list", lambda n: "SELECT 1" + ",1" * (n - 1) + ";", 1000, TOO_MANY),
    ("values in a list over a table", lambda n: "SELECT a" + ",1" * (n - 1) + " FROM JSON_TABLE(doc, '$' COLUMNS (a INT));",
     1000, TOO_MANY),
    ("columns of a table", columns, 1000, TOO_MANY),
    ("EXISTS columns of a table", lambda n: named(n - 1, "BOOLEAN EXISTS"), 1000, TOO_MANY),
    ("columns of two paths", lambda n: named(n - 2, "INT", "b INT, NESTED '$' COLUMNS (", ")"), 1000, TOO_MANY),
    ("paths beside a column", lambda n: named(0, "", "", paths_below(n - 1)), 64, TOO_MANY),
    ("paths of a table", siblings, 64, TOO_MANY),
    ("open parentheses of arrays", lambda n: "SELECT " + "JSON_ARRAY(" * n + ")" * n + ";", 64, NO_SYNTAX),
    ("open parentheses of objects", lambda n: "SELECT " + "JSON_OBJECT('k':" * n + "1" + ")" * n + ";", 64, NO_SYNTAX),
    ("open parentheses of a table", lambda n: nested(n - 1), 64, NO_SYNTAX),
    ("open parentheses in a path", lambda n: exists("(" * n + "$" + ")" * n), 64, TOO_DEEP),
    ("open brackets in a path", lambda n: exists("$[" * n + "0" + "]" * n), 64, TOO_DEEP),
    ("open negations in a path", lambda n: exists("$?(" + "!(" * (n - 1) + "1==1" + ")" * n), 64, TOO_DEEP),
    ("open filters in a path", lambda n: exists("$" + "?(@" * n + "==1" + ")==1" * (n - 1) + ")"), 64, TOO_DEEP),
    ("signs . in a path", lambda n: exists("$" + ".a" * n), 256, TOO_DEEP),
    ("signs [ in a path", lambda n: exists("$" + "[0]" * n), 256, TOO_DEEP),
    ("signs , in a path", lambda n: exists("$[0" + ",0" * (n - 1) + "]"), 256, TOO_DEEP),
    ("signs ? in a path", lambda n: exists("$" + "?(1==1)" * n), 256, TOO_DEEP),
    ("signs + in a path", lambda n: exists("1" + "+1" * n), 256, TOO_DEEP),
    ("signs - in a path", lambda n: exists("-" * n + "1"), 256, TOO_DEEP),
    ("signs * in a path", lambda n: exists("1" + "*1" * n), 256, TOO_DEEP),
    ("signs / in a path", lambda n: exists("1" + "/1" * n), 256, TOO_DEEP),
    ("signs % in a path", lambda n: exists("1" + "%1" * n), 256, TOO_DEEP),
    ("signs && in a path", lambda n: exists("$?(1==1" + "&&1==1" * (n - 1) + ")"), 256, TOO_DEEP),
    ("signs || in a path", lambda n: exists("$?(1==2" + "||1==2" * (n - 1) + ")"), 256, TOO_DEEP),
    ("signs ! and || in a path", negations, 256, TOO_DEEP),
    ("digits of a number", lambda n: "SELECT " + "9" * n + ";", 38, "lexical error"),
    ("digits of a number in a path", lambda n: exists("9" * n), 38, "path: lexical error"),
    ("the length of a VARCHAR", lambda n: cast(f"VARCHAR({n})"), 1_000_000, NO_SYNTAX),
    ("the digits of a NUMERIC", lambda n: cast(f"NUMERIC({n})"), 38, NO_SYNTAX),
    ("the decimals of a NUMERIC(38)", lambda n: cast(f"NUMERIC(38,{n})"), 38, NO_SYNTAX),
    ("the decimals of a NUMERIC(1)", lambda n: cast(f"NUMERIC(1,{n})"), 1, NO_SYNTAX),
]


def check_statements(tally, program, folder):
    """A statement at each limit is accepted and can be run, and with one more it is refused for the stated reason."""
    for what, make, greatest, reason in LIMITS:
        (folder / "within.sql").write_text(make(greatest))
        (folder / "beyond.sql").write_text(make(greatest + 1))
        within = program.run(["check", "within.sql"], folder=folder, limits=STACK)
        tally.check(f"{greatest} {what}", difference(Ended(0, b"accepted 1\n"), within))
        ran = program.run(["run", "within.sql"], b'{"a":[1,"x"]}', folder, limits=STACK)
        well = ran.status == 0 and ran.output and not ran.note
        tally.check(f"{greatest} {what}, run", None if well else f"it ended as {ran}")
        beyond = program.run(["check", "beyond.sql"], folder=folder, limits=STACK)
        tally.check(f"one more {what}", difference(Ended(2, note=f"statement 1: {reason}\n".encode()), beyond))


def check_refused(tally, program, folder):
    """Numbers below the least of a type, and tables that go beyond two limits at once, or break a later rule too."""
    for statement, reason in [
        (cast("VARCHAR(0)"), NO_SYNTAX),
        (cast("VARCHAR(1.0)"), NO_SYNTAX),
        (cast("NUMERIC(0)"), NO_SYNTAX),
        (cast("NUMERIC(1,-1)"), NO_SYNTAX),
        (union(62), None),
        (union(63), TOO_MANY),
        (union(64), NO_SYNTAX),
        (named(998, "INT", "a INT, "), "column named twice"),
        (named(999, "INT", "a INT, "), TOO_MANY),
        (named(0, "", "a INT, ", paths_below(64)), TOO_MANY),
        # about as many columns as a file can have, which are counted in a loop
        (named(80_000, "INT", "a INT, "), TOO_MANY),
    ]:
        (folder / "refused.sql").write_text(statement)
        ended = program.run(["check", "refused.sql"], folder=folder)
        wanted = Ended(2, note=f"statement 1: {reason}\n".encode()) if reason else Ended(0, b"accepted 1\n")
        tally.check(statement[-60:], difference(wanted, ended))


def check_stack(tally, program, folder):
    """Statements that are deep in two ways at once, and take more stack than the others."""
    deepest = "$?(1==1" + "&&1==1" * 255 + ")"
    query, column = f"JSON_QUERY(doc,'{deepest}')", "COLUMNS (c INT PATH '$')"
    for name, statement in [
        ("objects", "SELECT " + "JSON_OBJECT('k':" * 62 + query + ")" * 62 + ";"),
        ("arrays", "SELECT " + "JSON_ARRAY(" * 62 + query + ")" * 62 + ";"),
        ("tables", "SELECT * FROM JSON_TABLE(doc,'$' " + "COLUMNS (NESTED '$' " * 60 + f"COLUMNS (NESTED '{deepest}' {column}"
         + ")" * 62 + ";"),
    ]:
        (folder / "deep.sql").write_text(statement)
        ended = program.run(["run", "deep.sql"], b'{"a":1}', folder, limits=STACK)
        tally.check(f"a path in deep {name}", None if ended.status == 0 and ended.output else f"it ended as {ended}")
    path, line = "$" + ".a" * 256, b'{"a":[' * 255 + b'{"a":1}' + b"]}" * 255
    (folder / "deep.sql").write_text(f"SELECT JSON_EXISTS(doc, '{path}'), JSON_VALUE(doc, '{path}');")
    ended = program.run(["run", "deep.sql"], line, folder, limits=STACK)
    tally.check("a path of 256 members, each in an array", difference(Ended(0, b"1\t1\tR\tTRUE\t1\n"), ended))


def string(length):
    return b'"' + b"a" * (length - 2) + b'"'


def nested_arrays(depth):
    return b"[" * depth + b"]" * depth


def nested_objects(depth):
    return b'{"k":' * depth + b"0" + b"}" * depth


def check_lines(tally, program, folder):
    """The limits of length and depth, and blank lines up to the limit of length."""
    (folder / "root.sql").write_bytes(b"SELECT JSON_EXISTS(doc, 'lax $');\n")
    cases = [
        ("no input", b"", b""),
        ("the longest line", string(LONGEST_LINE), b"1\t1\tR\tTRUE\n"),
        ("a longer line", string(LONGEST_LINE + 1) + b"\ntrue", b"1\t1\tR\tFALSE\n2\t1\tR\tTRUE\n"),
        ("long blank lines", b" " * LONGEST_LINE + b"\n" + b" " * (LONGEST_LINE + 1), b"2\t1\tR\tFALSE\n"),
        ("the deepest line", nested_arrays(DEEPEST), b"1\t1\tR\tTRUE\n"),
        ("a deeper line", nested_arrays(DEEPEST + 1) + b"\ntrue", b"1\t1\tR\tFALSE\n2\t1\tR\tTRUE\n"),
        ("the deepest objects", nested_objects(DEEPEST), b"1\t1\tR\tTRUE\n"),
        ("deeper objects", nested_objects(DEEPEST + 1) + b"\ntrue", b"1\t1\tR\tFALSE\n2\t1\tR\tTRUE\n"),
    ]
    for name, given, output in cases:
        tally.check(name, difference(Ended(0, output), program.run(["run", "root.sql"], given, folder, limits=STACK)))


# A line by its depth, what is asked of it, and what its row has, by whether the line is deep.
IN_LITTLE_STACK = [
    (nested_arrays, "doc IS JSON ARRAY, doc IS JSON WITH UNIQUE KEYS", lambda line, deep: b"TRUE\tTRUE"),
    (nested_arrays, "JSON_EXISTS(doc, 'lax $[0][0]'), JSON_QUERY(doc, 'lax $')",
     lambda line, deep: (b"TRUE\t" if deep else b"FALSE\t") + line),
    (nested_arrays, "JSON_ARRAY(JSON_QUERY(doc, '$' WITH WRAPPER))", lambda line, deep: b"[[" + line + b"]]"),
    (nested_objects, "doc IS JSON OBJECT, doc IS JSON WITH UNIQUE KEYS", lambda line, deep: b"TRUE\tTRUE"),
    (nested_objects, "JSON_EXISTS(doc, 'strict $.k.k'), JSON_QUERY(doc, 'lax $')",
     lambda line, deep: (b"TRUE\t" if deep else b"FALSE\t") + line),
    (nested_objects, "JSON_OBJECT('k':JSON_QUERY(doc, '$'))", lambda line, deep: b'{"k":' + line + b"}"),
]


def check_depths(tally, program, folder):
    """A line of any depth is read, looked through for equal keys, printed and given up with the same small stack."""
    for make, asked, fields in IN_LITTLE_STACK:
        (folder / "deep.sql").write_text(f"SELECT {asked};")
        for depth in (1, DEEPEST):
            line = make(depth)
            wanted = Ended(0, b"1\t1\tR\t%s\n" % fields(line, depth > 1))
            for options in ([], ["--unique-keys"]):
                ended = program.run(["run", *options, "deep.sql"], line, folder, limits=SMALL_STACK)
                words = " ".join(["in little stack:", *options, asked, "of", make.__name__, f"{depth} deep"])
                tally.check(words, difference(wanted, ended))
    repeated = b"[" * (DEEPEST - 1) + b'{"k":1,"k":2}' + b"]" * (DEEPEST - 1)
    (folder / "deep.sql").write_text("SELECT doc IS JSON WITH UNIQUE KEYS; SELECT JSON_EXISTS(doc, '$' ERROR ON ERROR);")
    ended = program.run(["run", "--unique-keys", "deep.sql"], repeated, folder, limits=SMALL_STACK)
    tally.check("equal keys in the depth", difference(Ended(0, b"1\t1\tR\tFALSE\n1\t2\tE\t22037\n"), ended))
