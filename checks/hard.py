"""Files and lines that are hard within the limits, and runs with little memory.

Each hard line is read while the input stays open behind it, so that the peak of resident memory can be read once its
row has come. It is held to a bound of its own.
"""
import re
import socket
import tempfile
import threading
from contextlib import suppress
from pathlib import Path
from resource import RLIMIT_AS

from checks.limits import DEEPEST, LONGEST_LINE, STACK, nested_arrays, nested_objects, string
from checks.program import Ended, difference, front_problem

LONGEST_FILE = 1_048_576
MEGABYTE = 1_000_000


def check_hard(tally, program):
    with tempfile.TemporaryDirectory() as room:
        folder = Path(room)
        check_files(tally, program, folder)
        check_lines(tally, program, folder)
        check_small_pieces(tally, program, folder)
        check_little_memory(tally, program, folder)


def filled(head, piece, tail):
    """A file of the greatest length at most: a piece again and again, between a head and a tail."""
    return head + piece * ((LONGEST_FILE - len(head) - len(tail)) // len(piece)) + tail


def passing(count, last=b""):
    names = b",".join(b"1 AS v%d" % number for number in range(count))
    return b"SELECT JSON_EXISTS(doc, '$' PASSING %s%s);" % (names, last)


def refused(number, reason):
    return Ended(2, note=b"statement %d: %s\n" % (number, reason))


def check_files(tally, program, folder):
    """Files of a megabyte that are hard to read."""
    some, one, none = LONGEST_FILE // 9, Ended(0, b"accepted 1\n"), Ended(0, b"accepted 0\n")
    exists_head, exists_tail = b"SELECT JSON_EXISTS(doc, '", b"');"
    cases = [
        ("spaces", filled(b"", b" ", b""), none),
        ("a space more", b" " * (LONGEST_FILE + 1), Ended(8, note=b"statement file too long\n")),
        ("a comment of dashes", filled(b"", b"-", b""), none),
        ("comments of two dashes", filled(b"", b"--\n", b""), none),
        ("signs of one dash", filled(b"SELECT", b" -", b" 1;"), refused(1, b"syntax error")),
        ("ends of statements", filled(b"", b";", b""), refused(1, b"syntax error")),
        ("statements", filled(b"", b"SELECT 1;", b""), Ended(0, b"accepted %d\n" % some)),
        ("statements before a refused one", filled(b"", b"SELECT 1;", b"SELECT;"), refused(some, b"syntax error")),
        ("open parentheses", filled(b"SELECT ", b"(", b";"), refused(1, b"syntax error")),
        ("commas", filled(b"SELECT 1", b",", b";"), refused(1, b"syntax error")),
        ("values in a list", filled(b"SELECT 1", b",1", b";"), refused(1, b"too many columns or paths")),
        ("values in an array", filled(b"SELECT JSON_ARRAY(1", b",1", b");"), one),
        ("members in an object", filled(b"SELECT JSON_OBJECT('':1", b",'':1", b");"), one),
        ("a string", filled(b"SELECT '", b"a", b"';"), one),
        ("a string of quotation marks", filled(b"SELECT '", b"''", b"';"), one),
        ("a string that isn't closed", filled(b"SELECT '", b"''", b""), refused(1, b"lexical error")),
        ("a quoted name", filled(b'SELECT 1 AS "', b"a", b'";'), one),
        ("variables", passing(80_000), one),
        ("variables, the first twice", passing(80_000, b",1 AS v0"), refused(1, b"variable passed twice")),
        ("spaces in a path", filled(exists_head + b"$", b" ", exists_tail), one),
        ("a key in a path", filled(exists_head + b"$.", b"a", exists_tail), one),
        ("a string in a path", filled(exists_head + b'"', b"\\u0041", b'"' + exists_tail), one),
        ("digits in a path", filled(exists_head, b"9", exists_tail), refused(1, b"path: lexical error")),
        ("parentheses in a path", filled(exists_head, b"(", exists_tail), refused(1, b"path: too deep")),
        ("members in a path", filled(exists_head + b"$", b".a", exists_tail), refused(1, b"path: too deep")),
    ]
    for name, file, wanted in cases:
        (folder / "hard.sql").write_bytes(file)
        ended = program.run(["check", "hard.sql"], b"true\n", folder, limits=STACK)
        tally.check(f"a file of {name}", difference(wanted, ended))


def repeated(head, piece, tail):
    """A line of the greatest length at most: a piece again and again, between a head and a tail."""
    return head + piece * ((LONGEST_LINE - len(head) - len(tail)) // len(piece)) + tail


def different_keys(width):
    """A line of the greatest length at most: an object whose keys have so many characters, and differ in the last."""
    count = (LONGEST_LINE - 2) // (width + 5)
    return b"{" + b",".join(b'"%s":0' % (b"%07d" % number).rjust(width, b"k") for number in range(count)) + b"}"


def deep_elements(make):
    """A line of the greatest length at most: an array whose elements are all one short of the greatest depth."""
    deep = make(DEEPEST - 1)
    return repeated(b"[" + deep, b"," + deep, b"]")


IS_JSON = "SELECT doc IS JSON;"
ANY = "SELECT JSON_EXISTS(doc, '$' ERROR ON ERROR);"
TEXT = "SELECT JSON_VALUE(doc, '$');"
SUM = "SELECT JSON_VALUE(doc, '$ + 1');"
SIZE = "SELECT JSON_VALUE(doc, '$.size()');"
ESCAPES = (LONGEST_LINE - 2) // 6
DEEP_ARRAYS = (LONGEST_LINE - 1) // (2 * DEEPEST - 1)
# What a line is, the line, the statement, its row but for its numbers, and the most memory, in megabytes.
HARD_LINES = [
    ("open brackets", lambda: b"[" * LONGEST_LINE, IS_JSON, lambda: b"R\tFALSE", 60),
    ("open objects", lambda: repeated(b"", b'{"":', b""), IS_JSON, lambda: b"R\tFALSE", 60),
    ("backslashes", lambda: repeated(b'"', b"\\", b'"'), IS_JSON, lambda: b"R\tTRUE", 60),
    ("a broken end", lambda: repeated(b'"', "ü".encode(), b'\xc3"'), IS_JSON, lambda: b"R\tFALSE", 60),
    ("spaces before a value", lambda: repeated(b"", b" ", b"1"), IS_JSON, lambda: b"R\tTRUE", 60),
    ("escapes", lambda: repeated(b'"', b"\\u0000", b'"'), "SELECT JSON_QUERY(doc, '$');",
     lambda: b'R\t"' + b"\\\\u0000" * ESCAPES + b'"', 100),
    ("digits", lambda: b"1" * LONGEST_LINE, TEXT, lambda: b"R\t" + b"1" * LONGEST_LINE, 100),
    ("decimals", lambda: repeated(b"0.", b"0", b"1"), TEXT, lambda: b"R\t" + repeated(b"0.", b"0", b"1"), 100),
    ("zeros that an exponent takes back", lambda: repeated(b"1", b"0", b"e-16777205"), SUM, lambda: b"R\t2", 60),
    ("elements", lambda: repeated(b"[0", b",0", b"]"), SIZE, lambda: b"R\t%d" % ((LONGEST_LINE - 1) // 2), 700),
    ("empty arrays", lambda: repeated(b"[[]", b",[]", b"]"), SIZE, lambda: b"R\t%d" % ((LONGEST_LINE - 1) // 3), 300),
    ("deep arrays", lambda: deep_elements(nested_arrays), SIZE, lambda: b"R\t%d" % DEEP_ARRAYS, 400),
    ("members", lambda: repeated(b'{"":0', b',"":0', b"}"), ANY, lambda: b"R\tTRUE", 300),
]
HARD_KEYS = [
    ("one key again and again", lambda: repeated(b'{"k":0', b',"k":0', b"}"), ANY, lambda: b"E\t22037", 300),
    ("keys that differ at their end", lambda: different_keys(7), ANY, lambda: b"R\tTRUE", 200),
    ("long keys that differ at their end", lambda: different_keys(4000), ANY, lambda: b"R\tTRUE", 60),
    ("deep objects", lambda: deep_elements(nested_objects), ANY, lambda: b"R\tTRUE", 200),
]
BLANK_LINES = 8_000_000


def check_lines(tally, program, folder):
    """Lines of 16 MiB that are hard to read, and very many lines without anything, each within its memory."""
    blank = ("no blank", lambda: b"\n" * BLANK_LINES + b"true", IS_JSON, lambda: b"R\tTRUE", 10)
    tables = [([], 1, HARD_LINES), (["--unique-keys"], 1, HARD_KEYS), ([], BLANK_LINES + 1, [blank])]
    for options, number, table in tables:
        for name, line, statement, row, most in table:
            (folder / "hard.sql").write_text(statement)
            wanted = Ended(0, b"%d\t1\t%s\n" % (number, row()))
            ended, peak = while_open(program, ["run", *options, "hard.sql"], folder, line() + b"\n", len(wanted.output))
            tally.check(f"a line of {name}", difference(wanted, ended))
            within = 0 < peak <= most
            tally.check(f"the memory for {name}", None if within else f"it took {peak:.1f} MB, and not {most} at most")


def while_open(program, words, folder, given, length):
    """Runs the program, and ends its input once it has written so many bytes.

    Gives how it ended, and its peak of resident memory up to there, in megabytes.
    """
    with program.start(words, folder) as run:
        feeding = threading.Thread(target=feed, args=(run.stdin, given))
        feeding.start()
        output = run.stdout.read(length)
        peak = peak_of(run.pid)
        feeding.join()
        rest, note = run.communicate()
    return Ended(run.returncode, output + rest, note), peak


def feed(stream, given):
    with suppress(BrokenPipeError):  # (a program that ended reads no more)
        stream.write(given)


def peak_of(process):
    """The peak of resident memory of a process, in megabytes, or 0 where it has ended."""
    status = Path(f"/proc/{process}/status").read_text()
    found = re.search(r"VmHWM:\s*(\d+) kB", status)
    return int(found[1]) * 1024 / MEGABYTE if found else 0


def check_small_pieces(tally, program, folder):
    """A line of 16 MiB without LF that comes 64 bytes at each read."""
    (folder / "root.sql").write_text(ANY)
    line, piece = string(LONGEST_LINE), 64
    ours, theirs = socket.socketpair(socket.AF_UNIX, socket.SOCK_SEQPACKET)

    def send():
        with ours, suppress(OSError):  # (a program that ended reads no more)
            for at in range(0, len(line), piece):
                ours.send(line[at : at + piece])

    sending = threading.Thread(target=send)
    with theirs:
        sending.start()
        ended = program.run(["run", "root.sql"], folder=folder, stdin=theirs)
    sending.join()
    tally.check("a long line in small pieces", difference(Ended(0, b"1\t1\tR\tTRUE\n"), ended))


ORDER = b'{"id":%d,"lines":[{"sku":"A-%d","qty":2,"tags":["x","y"]},{"sku":"B-7","qty":1,"tags":[]}]}\n'
SHORT_LINES = b"".join(ORDER % (number, number) for number in range(3000))
LONG_LINE = b'{"lines":[%s]}\n' % b",".join(b'{"sku":"C-%d","qty":3,"tags":[]}' % number for number in range(30_000))
# What is run with little memory, its options, its statements, and its lines.
LITTLE_MEMORY = [
    ("a table", [], """SELECT * FROM JSON_TABLE(doc, '$.lines[*]' COLUMNS (o FOR ORDINALITY, sku VARCHAR,
        j VARCHAR FORMAT JSON PATH '$.*' WITH WRAPPER, NESTED '$.tags[*]' COLUMNS (tag VARCHAR PATH '$')));""",
     SHORT_LINES + LONG_LINE),
    ("aggregates", ["--unique-keys"], """SELECT JSON_ARRAYAGG(JSON_ARRAY(sku, JSON_OBJECT('q':qty))),
        JSON_OBJECTAGG(sku:qty) FROM JSON_TABLE(doc, '$.lines[*]' COLUMNS (sku VARCHAR, qty INTEGER));""",
     SHORT_LINES + LONG_LINE),
    ("many statements", [], "SELECT JSON_VALUE(doc, '$.id' RETURNING INTEGER);\n" * 2000, ORDER % (1, 1) * 20),
    ("deep lines", ["--unique-keys"], "SELECT JSON_QUERY(doc, '$'), doc IS JSON WITH UNIQUE KEYS;",
     nested_arrays(DEEPEST) + b"\n" + nested_objects(DEEPEST) + b"\n"),
]
LEAST_MEMORY = 4_000_000  # bytes of address space: with less no program begins


def check_little_memory(tally, program, folder):
    """Whatever memory there is, a run ends well, or says that it lacks memory and wrote a beginning of its rows."""
    for name, options, statements, lines in LITTLE_MEMORY:
        (folder / "little.sql").write_text(statements)
        (folder / "lines").write_bytes(lines)
        words = ["run", *options, "little.sql"]
        whole = program.run(words, lines, folder)
        room, ended = LEAST_MEMORY, None
        while ended != whole and room < 1 << 30:
            with open(folder / "lines", "rb", buffering=0) as given:
                ended = program.run(words, folder=folder, stdin=given, limits=[(RLIMIT_AS, room)])
                taken = given.tell()
            gave_up = difference(Ended(6, ended.output, b"out of memory\n"), ended) if ended != whole else None
            problem = gave_up or front_problem(whole.output, lines, taken, ended.output)
            tally.check(f"{name} in {room / MEGABYTE:.1f} MB", problem)
            room = room * 5 // 4
