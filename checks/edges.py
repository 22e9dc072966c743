"""What no proof sees: the program on real files and streams.

The contracts speak of the traits of the outside. That the objects over real files and streams pass faults on and make
none up, and that rows come while the input is still open, is tried here, on files and descriptors as users have them.
"""
import os
import selectors
import signal
import subprocess
import tempfile
import threading
import time
from contextlib import ExitStack
from pathlib import Path
from resource import RLIMIT_FSIZE

from checks import streams
from checks.answers import accepted, refusal
from checks.program import CLOSED, Ended, difference, front_problem

USAGE = b"usage: sqljson run [--unique-keys] FILE | check FILE | selfrun N FILE | show FILE | group FILE | scan PATH\n"
UNREADABLE = Ended(3, note=b"statement file cannot be read\n")
TOO_LONG = Ended(8, note=b"statement file too long\n")
MEMBER = b"SELECT JSON_EXISTS(doc, 'lax $.a');\n"
GROUPS = b"SELECT JSON_VALUE(doc, 'strict $.a' ERROR ON ERROR), 'x';\n"
NUMBER = b"SELECT JSON_VALUE(doc, 'lax $.n' RETURNING INTEGER ERROR ON ERROR);\n"
MANY = b"SELECT JSON_VALUE(doc, '$.a' RETURNING NUMERIC(10,2) DEFAULT 0 ON EMPTY), doc IS JSON OBJECT;\n" * 1000
LONGEST_FILE = 1_048_576
PIECE = 65_536  # bytes that are read at once
LONGEST_PIPE = 65_536  # bytes that a pipe holds where nobody reads it
LONGEST_WAIT = 20  # seconds: within it a pipe is opened, and a row comes
RUN, CHECK, SELFRUN = ["run", "member.sql"], ["check", "member.sql"], ["selfrun", "3", "member.sql"]
GROUP = ["group", "groups.sql"]
INPUT_FAILED, OUTPUT_FAILED = b"input failed\n", b"output failed\n"
TRUE_ROW, FALSE_ROW, NUMBER_ROW = b"%d\t1\tR\tTRUE\n", b"%d\t1\tR\tFALSE\n", b"%d\t1\tR\t%d\n"
ROWS = TRUE_ROW % 1 + FALSE_ROW % 2  # of the whole lines among streams.LINES
ALL_ROWS = ROWS + FALSE_ROW % 3
NO_MEMBER, GROUPED = b"2\t1\tE\t2203A\n", b'2\t1\tE\t2203A\n3\t1\tE\t22032\nG\ttrue\t1\t["x"]\n'  # of GROUPS
NO_INPUT, BROKEN_INPUT = Ended(4, note=INPUT_FAILED), Ended(4, ROWS, INPUT_FAILED)
NO_OUTPUT = Ended(5, note=OUTPUT_FAILED)
REFUSED = Ended(2, note=b"statement 1: syntax error\n")
ENTRIES = b"SELECT * FROM JSON_TABLE(doc, '$.x[*]' COLUMNS (n INTEGER PATH '$' ERROR ON ERROR));\n"
OWN_ROWS = b"%(k)d\t1\tR\tFALSE\n%(k)d\t2\tR\t%(n)d\n"
SHORT = (b'{"n":%(n)d,"x":[1,%(n)d]}\n', OWN_ROWS + b"%(k)d\t3\tR\t1\n%(k)d\t3\tR\t%(n)d\n")
PACKETS = [  # lines, each with the rows of MEMBER, NUMBER and ENTRIES; k is its number
    *[SHORT] * 6,
    (b'{"n":%(n)d,"a":"' + b"long" * 700 + b'","x":[%(n)d]}\n', OWN_ROWS.replace(b"FALSE", b"TRUE") + b"%(k)d\t3\tR\t%(n)d\n"),
    (b"\n", b""),
    (b'{"n":%(n)d,"x":[%(n)d,true]}\n', OWN_ROWS + b"%(k)d\t3\tR\t%(n)d\n%(k)d\t3\tE\t2203G\n"),
    (b'{"n":%(n)d,"x":[%(n)d\n', b"%(k)d\t1\tR\tFALSE\n%(k)d\t2\tE\t22032\n"),
]


def check_edges(tally, program):
    with tempfile.TemporaryDirectory() as room:
        folder = Path(room)
        too_long = MEMBER + b" " * (LONGEST_FILE + 1 - len(MEMBER))
        files = {"member": MEMBER, "number": NUMBER, "groups": GROUPS, "many": MANY, "none": b"", "refused": b"SELECT", "too_long": too_long}
        for name, file in files.items():
            (folder / f"{name}.sql").write_bytes(file)
        check_words(tally, program, folder)
        check_files(tally, program, folder)
        check_piped_files(tally, program, folder)
        check_changing_files(tally, program, folder)
        check_generated(tally, program, folder)
        check_cuts(tally, program, folder)
        check_packets(tally, program, folder)
        check_streams(tally, program, folder)
        check_broken_reads(tally, program, folder)
        check_broken_writes(tally, program, folder)
        check_early_end(tally, program, folder)
        check_unread_input(tally, program, folder)


def check_words(tally, program, folder):
    """Words that are no command are refused, and a file may have any name that is UTF-8 and does not begin with `-`."""
    refused = [
        [], ["run"], ["run", ""], ["run", "-x"], ["run", "member.sql", "more"], ["RUN", "member.sql"], ["check", "-x"],
        ["run", "--unique-keys"], ["selfrun", "1000000", "member.sql"], ["selfrun", "", "member.sql"],
        ["selfrun", "-1", "member.sql"], ["selfrun", "member.sql"], ["member.sql"], ["show", "-x"], ["group"], ["group", "-x"],
        ["group", "--unique-keys", "groups.sql"], ["scan"], ["scan", "$", "$"], ["scan", "--unique-keys", "$"],
    ]
    for words in refused:
        tally.check(f"the words {words}", difference(Ended(1, note=USAGE), program.run(words, b"true\n", folder)))
    for name in ["a b.sql", "größer.sql", "'\"\\.sql", "two\nlines.sql"]:
        (folder / name).write_bytes(MEMBER)
        ended = program.run(["run", name], streams.LINES, folder)
        tally.check(f"a file {name!r}", difference(Ended(0, ALL_ROWS), ended))
    tally.check("a word that isn't UTF-8", difference(Ended(9), program.run(["run", b"\xff.sql"], b"true\n", folder)))


def check_files(tally, program, folder):
    """Files that are absent, can't be read or are too long, in every command."""
    (folder / "astray.sql").symlink_to("absent.sql")
    (folder / "loop.sql").symlink_to("loop.sql")
    cases = [
        ("an absent file", "absent.sql", UNREADABLE),
        ("a folder for a file", ".", UNREADABLE),
        ("a file for a folder", "member.sql/member.sql", UNREADABLE),
        ("a link to nothing", "astray.sql", UNREADABLE),
        ("a link to itself", "loop.sql", UNREADABLE),
        ("too long a name", "a" * 300, UNREADABLE),
        ("a file whose first read fails", "/proc/self/mem", UNREADABLE),
        ("a longer file", "too_long.sql", TOO_LONG),
        ("a file without an end", "/dev/zero", TOO_LONG),
    ]
    for name, file, wanted in cases:
        for words in [["run", file], ["run", "--unique-keys", file], ["check", file], ["selfrun", "3", file], ["show", file], ["group", file]]:
            tally.check(f"{name}, {words[0]}", difference(wanted, program.run(words, b"true\n", folder)))
    whole = program.run(["run", "/dev/stdin"], MEMBER, folder)
    tally.check("the input for a file, which leaves no line", difference(Ended(0), whole))


def check_piped_files(tally, program, folder):
    """A statement file may be a pipe: it may come in pieces, lose its name once it is open, and have no end."""
    pieces = [MEMBER[k : k + 1] for k in range(len(MEMBER))]
    tally.check("a file a byte at a time", difference(Ended(0, ALL_ROWS), through_pipe(program, folder, pieces)[0]))
    tally.check("a pipe without a byte", difference(Ended(0), through_pipe(program, folder, [])[0]))
    ended, taken = through_pipe(program, folder, [b" " * 4096] * 1000)
    tally.check("a pipe that goes on", difference(TOO_LONG, ended))
    most = LONGEST_FILE + PIECE + LONGEST_PIPE
    tally.check("what it goes on with", None if taken <= most else f"{taken - LONGEST_PIPE} bytes of it were read")


def through_pipe(program, folder, pieces):
    """Runs a statement file that comes through a pipe, and is unlinked between its opening and its reading.

    Gives how the run ended, and how many bytes the pipe took.
    """
    path, taken = folder / "pipe.sql", 0
    os.mkfifo(path)
    with program.start(["run", path.name], folder) as run:
        pipe = opened_pipe(path)
        path.unlink()
        try:
            for piece in pieces:
                taken += os.write(pipe, piece)
        except BrokenPipeError:
            pass
        finally:
            os.close(pipe)
        output, note = run.communicate(streams.LINES)
    return Ended(run.returncode, output, note), taken


def opened_pipe(path):
    """Opens a named pipe for writing, as soon as it is open for reading."""
    last = time.monotonic() + LONGEST_WAIT
    while True:
        try:
            pipe = os.open(path, os.O_WRONLY | os.O_NONBLOCK)
            os.set_blocking(pipe, True)
            return pipe
        except OSError:
            if time.monotonic() > last:
                raise
            time.sleep(0.001)


def check_changing_files(tally, program, folder):
    """A file that changes while it is read has the answer of some file, and one that comes and goes is read or isn't."""
    path, away = folder / "changing.sql", folder / "away.sql"
    path.write_bytes(MANY)

    def rewrite():
        path.write_bytes(MANY[: len(MANY) // 2])
        path.write_bytes(MANY)

    def come_and_go():
        path.rename(away)
        away.rename(path)

    for name, change, allowed in [
        ("a file that changes", rewrite, lambda ended: accepted(ended) is not None or refusal(ended)),
        ("a file that comes and goes", come_and_go, lambda ended: accepted(ended) == 1000 or ended == UNREADABLE),
    ]:
        answers = while_repeated(change, lambda: program.run(["check", path.name], folder=folder), 100)
        wrong = [ended for ended in answers if not allowed(ended)]
        tally.check(name, wrong and f"it ended as {wrong[0]}")


def while_repeated(change, ask, times):
    """Asks so many times while another thread goes on changing, and gives the answers."""
    over = threading.Event()

    def change_on():
        while not over.is_set():
            change()

    changing = threading.Thread(target=change_on)
    changing.start()
    try:
        return [ask() for _ in range(times)]
    finally:
        over.set()
        changing.join()


def generated(number):
    """The lines that `selfrun` makes: each tenth is cut off."""
    tail = lambda i: b",\n" if i % 10 == 0 else b',"v":[%d,%d],"s":"k%d"}\n' % (i % 7, i % 3, i % 5)
    return b"".join(b'{"n":%d' % i + tail(i) for i in range(1, number + 1))


def check_generated(tally, program, folder):
    """A run over generated lines tells how much the same run over these lines writes."""
    number = 2000
    values = b"SELECT JSON_VALUE(doc, '$.v[0]' ERROR ON ERROR), JSON_VALUE(doc, '$.s');\n"
    (folder / "generated.sql").write_bytes(values + MEMBER)
    written = program.run(["run", "generated.sql"], generated(number), folder).output
    rows = written.splitlines()
    errors = sum(row.split(b"\t")[2] == b"E" for row in rows)
    summary = b"lines %d rows %d errors %d bytes %d\n" % (number, len(rows) - errors, errors, len(written))
    ended = program.run(["selfrun", str(number), "generated.sql"], b"true\n", folder)
    tally.check("a run over generated lines", difference(Ended(0, summary), ended))


def check_cuts(tally, program, folder):
    """Input in any pieces gives the same rows, which come while it is open, also to a run that was stopped for a while."""
    given = b'\n{"a":"x"}\r\n \t\n{"a"\n{"b":[{"a":null}]}'
    wanted = Ended(0, TRUE_ROW % 2 + FALSE_ROW % 4 + FALSE_ROW % 5)
    tally.check("a byte at a time", difference(wanted, program.run_in_pieces(RUN, [bytes([byte]) for byte in given], folder)))
    for cut in range(1, len(given)):
        ended = program.run_in_pieces(RUN, [given[:cut], given[cut:]], folder)
        tally.check(f"a cut before byte {cut}", difference(wanted, ended))
    with program.start(RUN, folder, bufsize=0) as run:
        answers = []
        for line in (b'{"a":true}\n', b'{"b":true}\n'):
            run.stdin.write(line[:4])
            run.send_signal(signal.SIGSTOP)
            os.waitid(os.P_PID, run.pid, os.WSTOPPED)
            run.stdin.write(line[4:])
            run.send_signal(signal.SIGCONT)
            answers.append(next_row(run.stdout))
        run.communicate()
    wanted = [TRUE_ROW % 1, FALSE_ROW % 2]
    tally.check("rows while the input is open", None if answers == wanted else f"it wrote {answers}, and not {wanted}")


def check_packets(tally, program, folder):
    """A few lines in each piece have their rows as they have all in one, through many pieces, short lines and long ones."""
    (folder / "packets.sql").write_bytes(MEMBER + NUMBER + ENTRIES)
    numbered = [(*PACKETS[k % len(PACKETS)], {b"k": k + 1, b"n": 7 * k}) for k in range(300)]
    lines = [line % numbers for line, _, numbers in numbered]
    wanted = Ended(0, b"".join(rows % numbers for _, rows, numbers in numbered))
    words = ["run", "packets.sql"]
    tally.check("all lines in one piece", difference(wanted, program.run(words, b"".join(lines), folder)))
    for name, sizes in {"one line": [1], "a few lines": [1, 2, 3], "few lines and many": [1, 20, 2, 70, 5]}.items():
        groups, at = [], 0
        while at < len(lines):
            size = sizes[len(groups) % len(sizes)]
            groups.append(b"".join(lines[at : at + size]))
            at += size
        tally.check(f"{name} in each piece", difference(wanted, program.run_in_pieces(words, groups, folder)))
        cut = [part for group in groups for part in (group[:-1], group[-1:]) if part]
        tally.check(f"{name} in each piece, the LF of the last in one more", difference(wanted, program.run_in_pieces(words, cut, folder)))


def next_row(stream):
    """Reads up to the next LF, or what came before the wait was over."""
    row = b""
    with selectors.DefaultSelector() as ready:
        ready.register(stream, selectors.EVENT_READ)
        while not row.endswith(b"\n") and ready.select(LONGEST_WAIT):
            byte = stream.read(1)
            if not byte:
                break
            row += byte
    return row


# What is tried, the words, the streams that are no plain pipes, and how it ends.
BROKEN_STREAMS = [
    ("no stream that fails", RUN, {}, Ended(0, ALL_ROWS)),
    ("a closed input", RUN, {"stdin": CLOSED}, NO_INPUT),
    ("a folder for the input", RUN, {"stdin": streams.a_folder}, NO_INPUT),
    ("an input for writing", RUN, {"stdin": streams.for_writing}, NO_INPUT),
    ("a terminal that hangs up", RUN, {"stdin": streams.terminal_that_hangs_up}, BROKEN_INPUT),
    ("a connection that breaks", RUN, {"stdin": streams.broken_connection}, BROKEN_INPUT),
    ("an input that isn't waited for", RUN, {"stdin": streams.without_waiting}, BROKEN_INPUT),
    ("a full disk", RUN, {"stdout": streams.full_disk}, NO_OUTPUT),
    ("an output for reading", RUN, {"stdout": streams.for_reading}, NO_OUTPUT),
    ("an output without a reader", RUN, {"stdout": streams.unread_pipe}, NO_OUTPUT),
    ("an output without a peer", RUN, {"stdout": streams.unread_socket}, NO_OUTPUT),
    ("a full pipe that isn't waited for", RUN, {"stdout": streams.full_pipe}, NO_OUTPUT),
    ("a closed output", RUN, {"stdout": CLOSED}, NO_OUTPUT),
    ("a checked file and a full disk", CHECK, {"stdout": streams.full_disk}, NO_OUTPUT),
    ("groups", GROUP, {}, Ended(0, GROUPED)),
    ("groups and a connection that breaks", GROUP, {"stdin": streams.broken_connection}, Ended(4, NO_MEMBER, INPUT_FAILED)),
    ("groups and a closed input", GROUP, {"stdin": CLOSED}, NO_INPUT),
    ("groups and a full disk", GROUP, {"stdout": streams.full_disk}, NO_OUTPUT),
    ("generated lines and a full disk", SELFRUN, {"stdout": streams.full_disk}, NO_OUTPUT),
    ("no row for a full disk", ["run", "none.sql"], {"stdout": streams.full_disk}, Ended(0)),
    ("no row for a closed output", ["run", "none.sql"], {"stdout": CLOSED}, Ended(0)),
    ("a check without an input", CHECK, {"stdin": CLOSED}, Ended(0, b"accepted 1\n")),
    ("generated lines without an input", SELFRUN, {"stdin": CLOSED}, Ended(0, b"lines 3 rows 3 errors 0 bytes 36\n")),
    ("a check without a stream", CHECK, {"stdin": CLOSED, "stdout": CLOSED}, NO_OUTPUT),
    # Where two things are wrong, the one that is met first decides.
    ("no command", ["walk"], {"stdin": streams.a_folder, "stdout": streams.full_disk}, Ended(1, note=USAGE)),
    ("a refused file", ["run", "refused.sql"], {"stdin": streams.a_folder, "stdout": streams.full_disk}, REFUSED),
    ("an absent file", ["run", "absent.sql"], {"stdin": streams.a_folder, "stdout": streams.full_disk}, UNREADABLE),
    ("a longer file", ["run", "too_long.sql"], {"stdin": streams.a_folder, "stdout": streams.full_disk}, TOO_LONG),
    ("an unread folder", RUN, {"stdin": streams.a_folder, "stdout": streams.full_disk}, NO_INPUT),
    ("an unwritten row", RUN, {"stdin": streams.broken_connection, "stdout": streams.full_disk}, NO_OUTPUT),
]


def check_streams(tally, program, folder):
    """Faults of streams are told by the status and one message, and a message that can't be written changes nothing."""
    for name, words, broken, wanted in BROKEN_STREAMS:
        tally.check(name, difference(wanted, with_streams(program, folder, words, broken)))
        unsaid = Ended(wanted.status, wanted.output)
        for which, messages in [("full", streams.full_disk), ("unread", streams.unread_pipe), ("closed", CLOSED)]:
            ended = with_streams(program, folder, words, {**broken, "stderr": messages})
            tally.check(f"{name}, and {which} messages", difference(unsaid, ended))


def with_streams(program, folder, words, broken, given=streams.LINES):
    """Runs the program where some streams are of the module streams, or CLOSED."""
    with ExitStack() as opened:
        made = {name: stream if stream is CLOSED else stream(opened, folder) for name, stream in broken.items()}
        return program.run(words, given, folder, **made)


def check_broken_reads(tally, program, folder):
    """An input that fails behind any of its bytes has the rows of the whole lines before, and one that ends, of all."""
    given = generated(3)
    length, rows = len(given) // 3, [NUMBER_ROW % (number, number) for number in (1, 2, 3)]
    for count in range(len(given) + 1):
        whole, beside = divmod(count, length)
        with ExitStack() as opened:
            broken = streams.broken_connection(opened, folder, given[:count])
            ended = program.run(["run", "number.sql"], folder=folder, stdin=broken)
        wanted = Ended(4, b"".join(rows[:whole]), INPUT_FAILED)
        tally.check(f"an input that fails behind byte {count}", difference(wanted, ended))
        # (the last line may lack its LF, and nothing else)
        last = [rows[whole] if beside == length - 1 else b"%d\t1\tE\t22032\n" % (whole + 1)] if beside else []
        ended = program.run(["run", "number.sql"], given[:count], folder)
        tally.check(f"an input of {count} bytes", difference(Ended(0, b"".join(rows[:whole] + last)), ended))


def check_broken_writes(tally, program, folder):
    """An output that may have so many bytes has just these, where a write beyond them is refused and raises no signal."""
    whole = b"".join(NUMBER_ROW % (number, number) for number in (1, 2, 3))
    for room in range(len(whole) + 1):
        ended, _ = into_file(program, folder, ["run", "number.sql"], generated(3), room)
        wanted = Ended(0, whole) if room == len(whole) else Ended(5, whole[:room], OUTPUT_FAILED)
        tally.check(f"an output with room for {room} bytes", difference(wanted, ended))
    for room in range(len(GROUPED)):
        ended, _ = into_file(program, folder, GROUP, streams.LINES, room)
        tally.check(f"groups with room for {room} bytes", difference(Ended(5, GROUPED[:room], OUTPUT_FAILED), ended))
    lines, room = b'{"a":true}\n' * 200_000, 1_000_000
    rows = b"".join(TRUE_ROW % number for number in range(1, 200_001))
    ended, taken = into_file(program, folder, RUN, lines, room)
    tally.check("a long output with little room", difference(Ended(5, rows[:room], OUTPUT_FAILED), ended))
    tally.check("the rows that are owed", front_problem(rows, lines, taken, ended.output))


def into_file(program, folder, words, lines, room):
    """Runs the program from a file into a file that may have so many bytes.

    Gives how the run ended, with what is in the file, and how many bytes of the input it took. The signal that a write
    beyond the limit raises is ignored, as Python does, so the write is refused.
    """
    (folder / "lines").write_bytes(lines)
    with open(folder / "lines", "rb", buffering=0) as given, open(folder / "rows", "w+b", buffering=0) as rows:
        limits = [(RLIMIT_FSIZE, room)]
        how = {"stdin": given, "stdout": rows, "limits": limits, "restore_signals": False}
        ended = program.run(words, folder=folder, **how)
        rows.seek(0)
        return Ended(ended.status, rows.read(), ended.note), given.tell()


def check_early_end(tally, program, folder):
    """A reader that ends early ends the run, with one message, while most of the input is unread."""
    (folder / "lines").write_bytes(b'{"a":true}\n' * 500_000)
    with open(folder / "lines", "rb", buffering=0) as given:
        with program.start(RUN, folder, bufsize=0, stdin=given) as run:
            row = next_row(run.stdout)
            run.stdout.close()
            note = run.stderr.read()
            run.wait()
        taken = given.tell()
    ended = Ended(run.returncode, row, note)
    tally.check("a reader that ends early", difference(Ended(5, TRUE_ROW % 1, OUTPUT_FAILED), ended))
    tally.check("what is unread then", None if taken < 1_000_000 else f"it read {taken} bytes")
    piped = 'set -o pipefail; "$0" run member.sql < lines | head -n 1'
    ran = subprocess.run(["bash", "-c", piped, program.path], cwd=folder, capture_output=True, timeout=LONGEST_WAIT)
    ended = Ended(ran.returncode, ran.stdout, ran.stderr)
    tally.check("a pipe into head", difference(Ended(5, TRUE_ROW % 1, OUTPUT_FAILED), ended))


def check_unread_input(tally, program, folder):
    """The input is left alone where the words or the file are refused, in a check and in a run over generated lines."""
    (folder / "lines").write_bytes(streams.LINES)
    for words in [["walk"], ["run", "refused.sql"], ["run", "absent.sql"], ["run", "too_long.sql"], ["group", "member.sql"], ["scan", "$["], ["scan", "$.a.size()"], CHECK, SELFRUN]:
        with open(folder / "lines", "rb", buffering=0) as given:
            program.run(words, folder=folder, stdin=given)
            taken = given.tell()
        tally.check(f"the input of {words}", taken and f"it took {taken} bytes")
