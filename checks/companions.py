"""The companions in tools/: split-rows and in-parallel, each run on the program."""
import random

from checks.parallel import check_parallel
from checks.program import Ended, difference, status_fault
from checks.room import COMPANIONS, room_of

VALUES = b"SELECT JSON_VALUE(doc, '$.s' ERROR ON ERROR), 'E';\nSELECT JSON_VALUE(doc, '$.n' RETURNING INTEGER ERROR ON ERROR);\n"
LINES = b'{"s":"a\\u0000b","n":1}\n\n{"s":\n{"s":"E\\tR","n":"x"}\n'
SPLIT = {
    "1.tsv": b"E\\tR\tE\n",
    "2.tsv": b"1\n",
    "3.tsv": b"",
    "errors.tsv": b"1\t1\tU0000\n3\t1\t22032\n3\t2\t22032\n4\t2\t2203G\n",
}
SAID = b"""statement 1: 1 row, 2 error rows (22032: 1, U0000: 1)
statement 2: 1 row, 2 error rows (22032: 1, 2203G: 1)
statement 3: 0 rows, 0 error rows
U+0000 is in 1 row: see U0000 in errors.tsv
"""
# Two keys that differ by U+0000 alone, and what each way of taking them makes of them.
TWO_KEYS = b"1\t1\tR\tno\0t\n1\t1\tR\tnot\n"
NUL_WAYS = [
    ([], 10, {"1.tsv": b"not\n", "errors.tsv": b"1\t1\tU0000\n"}, b"statement 1: 1 row, 1 error row (U0000: 1)\n"
     b"U+0000 is in 1 row: see U0000 in errors.tsv\n"),
    (["--keep-nul"], 0, {"1.tsv": b"no\0t\nnot\n", "errors.tsv": b""}, b"statement 1: 2 rows, 0 error rows\n"),
    (["--drop-nul"], 0, {"1.tsv": b"not\nnot\n", "errors.tsv": b""}, b"statement 1: 2 rows, 0 error rows\n"
     b"U+0000 was left out of 1 row\n"),
]
# What looks like a row of sqljson, and is none.
NO_ROW = [
    b"", b"{}", b"1\t1\tR", b"1\t1\tE", b"0\t1\tR\tx", b"1\t01\tR\tx", b"1\t12345678\tR\tx", b" 1\t1\tR\tx", b"1\t1\tQ\tx",
    b"1 1\tR\tx", b"1\t1\tE\t2203", b"1\t1\tE\t2203g", b"1\t1\tE\t22032\tx", b"\0001\t1\tR\tx", b"1\t1\tE\t2203\0",
    "\u0661\t1\tR\tx".encode(),
]
MANY = 300  # statements, more than a process may have files open on some systems


def check_companions(tally, program, top):
    with room_of(program, top) as room:
        for name in COMPANIONS:
            helped, wrong = room.run([f"sqljson-{name}", "--help"]), room.run([f"sqljson-{name}", "--no-such-word"])
            tells = helped.status == 0 and b"exit status" in helped.output
            tally.check(f"{name} --help", None if tells else "it doesn't tell of itself")
            tally.check(f"{name} with a wrong word", None if wrong.status == 1 and b"usage:" in wrong.note else f"it ended with {wrong}")
        check_split(tally, room)
        check_parallel(tally, room)


def check_split(tally, room):
    """Rows go where they belong, and the status tells of errors in the rows, in the run and in what was read."""
    (room.folder / "values.sql").write_bytes(VALUES)
    split = ["sqljson-split-rows", "--statements", "3", "split"]
    command = ["--", "sqljson", "run", "values.sql"]
    tally.check("split-rows", difference(Ended(10, note=SAID), room.run([*split, *command], LINES)) or in_folder(room, SPLIT))
    rows = room.run(command[1:], LINES).output
    tally.check("split-rows over a pipe", difference(Ended(10, note=SAID), room.run(split, rows)) or in_folder(room, SPLIT))
    allowing = [split[0], "--allow-error-rows", *split[1:]]
    tally.check("split-rows that allows error rows", difference(Ended(0, note=SAID), room.run([*allowing, *command], LINES)))
    tally.check("split-rows that allows error rows", in_folder(room, SPLIT))
    ended = room.run([*allowing, *command[:-1], "none.sql"])
    tally.check("split-rows that allows error rows, and a run that fails", status_fault(3, ended))
    quiet = b"statement 1: 1 row, 0 error rows\n"
    cases = [
        ("no error row", split[:1] + split[3:], b"1\t1\tR\tE\n", Ended(0, note=quiet)),
        ("a row that is cut off", split[:1] + split[3:], b"1\t1\tR\tE\n1\t2\tR\ta", Ended(11, note=quiet + b"split-rows: row 2 is cut off\n")),
        ("a run that fails", [*split[:1], *split[3:], *command[:-1], "none.sql"], b"", Ended(3)),
        ("a command that writes no rows", [*split, "--", "seq", "1000000"], b"", Ended(11)),
        ("a command that isn't there", [*split, "--", "no-such-command"], b"", Ended(12)),
        ("two ways for U+0000", [*split[:1], "--keep-nul", "--drop-nul", "split"], b"", Ended(1)),
    ]
    for name, words, given, wanted in cases:
        ended = room.run(words, given)
        tally.check(f"split-rows: {name}", difference(wanted, ended if wanted.note else Ended(ended.status, ended.output)))
    for text in NO_ROW:
        ended = room.run(split[:1] + split[3:], b"1\t1\tR\tE\n" + text + b"\n1\t1\tR\tF\n")
        wanted = Ended(11, note=quiet + b"split-rows: row 2 is no row of sqljson\n")
        tally.check(f"split-rows: {text} is no row", difference(wanted, ended) or in_folder(room, {"1.tsv": b"E\n"}))
    for words, status, files, said in NUL_WAYS:
        ended = room.run([split[0], *words, "split"], TWO_KEYS)
        tally.check(f"split-rows {words} of U+0000", difference(Ended(status, note=said), ended) or in_folder(room, files))
    room.run(split, b"")
    tally.check("split-rows empties older files", in_folder(room, {"1.tsv": b"", "2.tsv": b"", "3.tsv": b"", "errors.tsv": b""}))
    check_split_columns(tally, room)
    check_split_blocks(tally, room)
    check_split_streams(tally, room)


def check_split_columns(tally, room):
    """Line numbers stand before the values, and columns that are NULL in every row are told."""
    rows = b"1\t1\tR\t\\N\ta\t\\N\n1\t2\tR\t\\N\n2\t1\tR\t\\N\t\\N\t\\N\n2\t3\tR\t\\N\n2\t3\tR\t\\\\N\n"
    ended = room.run(["sqljson-split-rows", "--numbers", "--null-columns", "split"], rows)
    said = b"""statement 1: 2 rows, 0 error rows
statement 1: NULL in every row: columns 1, 3
statement 2: 1 row, 0 error rows
statement 2: NULL in every row: column 1
statement 3: 2 rows, 0 error rows
"""
    files = {"1.tsv": b"1\t\\N\ta\t\\N\n2\t\\N\t\\N\t\\N\n", "2.tsv": b"1\t\\N\n", "3.tsv": b"2\t\\N\n2\t\\\\N\n"}
    tally.check("split-rows with numbers and columns of NULL", difference(Ended(0, note=said), ended) or in_folder(room, files))


def check_split_blocks(tally, room):
    """Rows are split alike wherever the input is cut into blocks, whatever a block has in it, and for any number of statements."""
    chance = random.Random(1)
    kinds = [lambda _: 1, lambda line: 1 + line % 3, lambda _: chance.choice([1, 2, 3])]
    for number, (statement, errors, longest) in enumerate([(of, share, most) for of in kinds for share in (0, 0.1) for most in (5, 200_000)]):
        wanted, rows = {"errors": [], 1: [], 2: [], 3: []}, []
        for line in range(1, 20_000 if longest == 5 else 12):
            name, text = statement(line), b"x\tE\t22032" if chance.random() < 0.1 else b"\\N" * chance.randrange(longest)
            wrong = chance.random() < errors
            rows.append(b"%d\t%d\t" % (line, name) + (b"E\t22012" if wrong else b"R\t" + text))
            wanted["errors" if wrong else name].append(b"%d\t%d\t22012" % (line, name) if wrong else text)
        ended = room.run(["sqljson-split-rows", "--statements", "3", "split"], b"".join(row + b"\n" for row in rows))
        files = {f"{name}.tsv": b"".join(row + b"\n" for row in found) for name, found in wanted.items()}
        tally.check(f"split-rows over blocks {number}", status_fault(10 if wanted["errors"] else 0, ended) or in_folder(room, files))
    rows = b"".join(b"1\t%d\tR\t%d\n" % (it, it) for it in range(1, MANY + 1))
    ended = room.run(["bash", "-c", "ulimit -n 64; exec sqljson-split-rows split"], rows)
    tally.check("split-rows with many statements", status_fault(0, ended))
    tally.check("split-rows with many statements", in_folder(room, {"1.tsv": b"1\n", f"{MANY}.tsv": b"%d\n" % MANY}))


def check_split_streams(tally, room):
    """A statement file may be a descriptor of the shell, and closed streams give a stated status and no traceback."""
    cases = [
        ("of a statement file from <(..)", "sqljson-split-rows split -- sqljson run <(echo 'SELECT 1;') <<< '{}'", 0, b"statement 1: 1 row, 0 error rows\n"),
        ("without standard input", "sqljson-split-rows split <&-", 12, b"split-rows: standard input: Bad file descriptor\n"),
        ("of a run without standard input", "sqljson-split-rows split -- sqljson run orders.sql <&-", 4, b"input failed\n"
         b"statement 1: 0 rows, 0 error rows\nsplit-rows: sqljson ended with status 4\n"),
        ("without standard error", "sqljson-split-rows split -- sqljson run orders.sql < orders.jsonl 2>&-", 10, b""),
        ("with standard error on a full disk", "sqljson-split-rows split -- sqljson run orders.sql < orders.jsonl 2>/dev/full", 10, b""),
        ("with wrong words and without standard error", "sqljson-split-rows --no-such-word 2>&- >&-", 1, b""),
        ("without standard output", "sqljson-split-rows split -- sqljson run <(echo 'SELECT 1;') <<< '{}' >&-", 0, b"statement 1: 1 row, 0 error rows\n"),
    ]
    for name, command, status, said in cases:
        tally.check(f"split-rows {name}", difference(Ended(status, note=said), room.run(["bash", "-c", command])))


def in_folder(room, wanted):
    """Says which file of the split has something else, or nothing."""
    for name, text in wanted.items():
        path = room.folder / "split" / name
        if not path.is_file() or path.read_bytes() != text:
            return f"{name} has {path.read_bytes() if path.is_file() else 'gone'}, and not {text}"
    return None
