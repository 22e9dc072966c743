"""The companion in-parallel, run on the program: what it writes, says and ends with is what one run does."""
import random

from checks.program import Ended, difference, status_fault

STATEMENTS = b"SELECT JSON_VALUE(doc, '$.s' ERROR ON ERROR), 'E';\nSELECT JSON_VALUE(doc, '$.n' RETURNING INTEGER ERROR ON ERROR);\n"
REFUSED = Ended(2, note=b"statement 1: syntax error\n")
FAILED = Ended(5, note=b"output failed\n")
# Stands for the program: tells how much it was given, and writes nothing.
COUNTER = "#!/bin/sh\nwc -c >> taken\n"
BLANK_LINES = 2.5  # for each line, at most: a piece of N lines gets up to 2.2 N blank lines
IN_PARALLEL = "sqljson-in-parallel 2 values.sql"
# What is wrong, the command, and the status and message.
WRONG = [
    ("a refused file", "sqljson-in-parallel 2 refused.sql input", REFUSED),
    ("a refused file and no input", "sqljson-in-parallel 2 refused.sql none", REFUSED),
    ("a refused file and a closed input", "sqljson-in-parallel 2 refused.sql <&-", REFUSED),
    ("an absent file", "sqljson-in-parallel 2 none.sql input", Ended(3, note=b"statement file cannot be read\n")),
    ("a file without end", "sqljson-in-parallel 2 <(yes 'SELECT 1;') input", Ended(8, note=b"statement file too long\n")),
    ("a full disk", f"{IN_PARALLEL} input > /dev/full", FAILED),
    ("a closed output", f"{IN_PARALLEL} input >&-", FAILED),
    ("all streams closed", f"{IN_PARALLEL} input <&- >&- 2>&-", Ended(5)),
    ("no input", f"{IN_PARALLEL} none", Ended(126, note=b"in-parallel: none: No such file or directory\n")),
    ("a folder as input", f"{IN_PARALLEL} .", Ended(126, note=b"in-parallel: .: Is a directory\n")),
    ("a closed input", f"{IN_PARALLEL} <&-", Ended(126, note=b"in-parallel: standard input: Bad file descriptor\n")),
    ("no program", "sqljson-in-parallel --program ./none 2 values.sql input", Ended(126, note=b"in-parallel: ./none: No such file or directory\n")),
]
# Ways to give the file and the input. Each has the rows of one run.
GIVEN = [
    "sqljson-in-parallel --piece 700 3 values.sql < input",
    "sqljson-in-parallel --piece 700 3 values.sql - < input",
    "cat input | sqljson-in-parallel --piece 700 3 values.sql",
    "cat input | sqljson-in-parallel --piece 700 3 values.sql /dev/stdin",
    "sqljson-in-parallel --piece 700 3 <(cat values.sql) <(cat input)",
    "sqljson-in-parallel 2 ./-x.sql ./-",
    "sqljson-in-parallel 2 'a\nb' input 2>&-",
    "{ head -c 0; sqljson-in-parallel --piece 700 2 values.sql; } < input",
]


def check_parallel(tally, room):
    folder = room.folder
    given = lines_of(random.Random(1), 400)
    for name in ["values.sql", "-x.sql", "a\nb"]:
        (folder / name).write_bytes(STATEMENTS)
    (folder / "refused.sql").write_bytes(b"SELECT ;")
    for jobs, piece, text in [(1, 1000, given), (3, 700, given), (3, 700, given + b"\n"), (2, 10**6, given), (3, 1, given[:900]), (2, 10, b"\n\n"), (2, 10, b"")]:
        words = [str(jobs), "values.sql"]
        (folder / "input").write_bytes(text)
        one = room.run(["sqljson", "run", "values.sql"], text)
        for way in [["input"], []]:
            ended = room.run(["sqljson-in-parallel", "--piece", str(piece), *words, *way], text)
            tally.check(f"in-parallel with {jobs} jobs and pieces of {piece} bytes", difference(one, ended))
    for name in ["input", "-"]:
        (folder / name).write_bytes(given)
    one = room.run(["sqljson", "run", "values.sql"], given)
    for command in GIVEN:
        tally.check(command, difference(one, room.run(["bash", "-c", command])))
    for name, command, wanted in WRONG:
        tally.check(f"in-parallel with {name}", difference(wanted, room.run(["bash", "-c", command])))
    ended = room.run(["bash", "-c", f"yes '{{\"s\":1}}' | {IN_PARALLEL} | head -n 1"])
    tally.check("in-parallel before head", difference(Ended(0, b"1\t1\tR\t1\tE\n", FAILED.note), ended))
    check_parts(tally, room, given)
    check_numbers(tally, room, given)
    check_growth(tally, room, given)


def lines_of(chance, count):
    """Lines of which some are blank and one is cut off. The last has no line end."""
    lines = [b"" if chance.random() < 0.2 else b'{"s":"%s"}' % (b"x" * chance.randrange(60)) for _ in range(count)]
    return b"\n".join([*lines, b'{"s":', b'{"s":"last"}'])


def check_parts(tally, room, given):
    """The parts that are listed have, one after the other, the rows of one run."""
    one = room.run(["sqljson", "run", "values.sql"], given)
    listed = room.run(["sqljson-in-parallel", "--list", "--piece", "700", "1", "values.sql", "input"]).output.decode().split()
    rows = [room.run(["sqljson-in-parallel", "--part", part, "1", "values.sql", "input"]) for part in listed]
    ended = Ended(max(it.status for it in rows), b"".join(it.output for it in rows), b"".join(it.note for it in rows))
    tally.check(f"in-parallel of {len(listed)} parts", difference(one, ended) or (None if len(listed) > 9 else "they are too few"))
    for name, words, wanted in [
        ("a part that isn't there", ["--part", f"0:{len(given) + 1}:0", "1", "values.sql", "input"], "input: it has no such part"),
        ("a part of a pipe", ["--part", "0:10:0", "1", "values.sql"], "standard input: it has no such part"),
        ("the parts of a pipe", ["--list", "1", "values.sql"], "standard input: only a file has parts"),
    ]:
        ended = room.run(["sqljson-in-parallel", *words], given)
        tally.check(f"in-parallel of {name}", difference(Ended(126, note=f"in-parallel: {wanted}\n".encode()), ended))


def check_numbers(tally, room, given):
    """A part of an input has the numbers of the whole: around each power of ten, and for parts of a few lines and of many."""
    rows = room.run(["sqljson", "run", "values.sql"], given).output.splitlines(keepends=True)
    for before in [1, 9, 10, 98, 99, 100, 599, 600, 8_999, 9_999, 99_999, 123_456, 10**9 - 200, 2**32 - 7]:
        wanted = b"".join(b"%d\t%s" % (int(number) + before, rest) for number, _, rest in (row.partition(b"\t") for row in rows))
        for piece in [900, 10**6]:
            words = ["--part", f"0:{len(given)}:{before}", "--piece", str(piece), "2", "values.sql", "input"]
            ended = room.run(["sqljson-in-parallel", *words])
            tally.check(f"in-parallel behind {before} lines", difference(Ended(0, wanted), ended))


def check_growth(tally, room, given):
    """What the runs are given altogether grows as the input does, in however many pieces."""
    counter = room.folder / "counter"
    counter.write_text(COUNTER, encoding="utf-8")
    counter.chmod(0o755)
    ended = room.run(["sqljson-in-parallel", "--program", counter, "--piece", "700", "2", "values.sql"], given)
    taken = sum(int(it) for it in (room.folder / "taken").read_text(encoding="utf-8").split())
    most = len(given) + BLANK_LINES * given.count(b"\n")
    fault = status_fault(0, ended) or (None if len(given) <= taken <= most else f"{taken} bytes were given, and {most} are right at most")
    tally.check("in-parallel is linear in its input", fault)
