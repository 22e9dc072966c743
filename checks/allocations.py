"""Each allocation of a run failing in turn: the run says that memory ran out, and what it wrote is a beginning of its rows;
or it can do without, and is as it was.

The allocations that fail are those of the C library, which a small library in C stands before. It is made here, where a
C compiler is installed; elsewhere this check is passed over.

usage, at the top of the repository: python3 -m checks.allocations [PROGRAM]
"""
import itertools
import os
import shutil
import subprocess
import sys
import tempfile
from concurrent.futures import ThreadPoolExecutor
from pathlib import Path

from checks.program import Ended, Program, difference, front_problem, shown
from checks.tally import Tally

SOURCE = Path(__file__).parent / "fail_alloc.c"
COMPILER = "cc"
AT_ONCE = 64
LEAST = 20  # allocations: with fewer the library would not stand where the program takes its memory
ORDER = (b'{"order":1001,"customer":{"name":"Ann"},"lines":[{"sku":"A-1","qty":2,"price":9.95},'
         b'{"sku":"B-7","qty":1,"price":120}]}\n')
# Between the lines that have rows there is more than one piece of the input, of lines that take no memory.
LINES = (b"\n" * 70_000).join([ORDER, ORDER.replace(b"1001", b"1e400").replace(b"120", b'"x"'), b"{}\n"])
# What is run, the words, the statements, and the lines.
RUNS = [
    ("a table", ["run"], """SELECT * FROM JSON_TABLE(doc,'lax $.lines[*]' COLUMNS (o FOR ORDINALITY, sku VARCHAR,
        total NUMERIC(10,2) PATH 'lax $.qty * $.price')) AS t;""", LINES),
    ("aggregates", ["run"], """SELECT JSON_ARRAYAGG(sku), JSON_OBJECTAGG(KEY sku VALUE qty)
        FROM JSON_TABLE(doc,'lax $.lines[*]' COLUMNS (sku VARCHAR, qty INTEGER));""", LINES),
    ("nested tables", ["run", "--unique-keys"], """SELECT id, sku, j, JSON_OBJECT('sku' : sku, 'all' : JSON_ARRAY(j, 1.50))
        FROM JSON_TABLE(doc, '$' AS r PASSING 'A' AS front, 1 AS least COLUMNS (
            id VARCHAR(9) PATH '$.order' DEFAULT 'none' ON EMPTY,
            NESTED '$.lines[*] ? (@.qty >= $least)' AS l COLUMNS (sku VARCHAR, j VARCHAR FORMAT JSON PATH '$.*' WITH WRAPPER,
                NESTED '$.sku ? (@ starts with $front)' AS s COLUMNS (t VARCHAR PATH '$')))
        PLAN (r OUTER (l OUTER s)));""", LINES),
    ("aggregates of constructors", ["run", "--unique-keys"], """SELECT
        JSON_ARRAYAGG(JSON_ARRAY(sku, JSON_OBJECT('q' : qty)) NULL ON NULL),
        JSON_OBJECTAGG(sku : qty ABSENT ON NULL WITH UNIQUE KEYS)
        FROM JSON_TABLE(doc, '$.lines[*]' COLUMNS (sku VARCHAR, qty NUMERIC(5,1) PATH '$.qty ? (@ > 0) + 1',
            NESTED '$.price' COLUMNS (p INT PATH '$')));""", LINES),
    ("functions", ["run", "--unique-keys"], """SELECT JSON_VALUE(doc, '$.customer.name'),
        JSON_QUERY(doc, '$.lines[*].sku' WITH WRAPPER), JSON_QUERY(doc, '$.customer' WITH CONDITIONAL WRAPPER),
        JSON_EXISTS(doc, '$.keyvalue() ? (@.name starts with $f)' PASSING 'l' AS f),
        JSON_OBJECT('a' : JSON_VALUE(doc, '$.order'), 'b' : JSON_ARRAY('x', doc IS JSON WITH UNIQUE KEYS));
        SELECT JSON_QUERY(doc, '$'); SELECT JSON_VALUE(doc, '$.lines[last].price' RETURNING NUMERIC ERROR ON ERROR);""", LINES),
    ("a check", ["check"], """SELECT JSON_VALUE(doc, '$.a.b' PASSING 1 AS x), 'text';
        SELECT a FROM JSON_TABLE(doc, '$[1, 2 to last]' AS p COLUMNS (a VARCHAR DEFAULT 'none' ON EMPTY,
            NESTED '$' AS q COLUMNS (b INT)) PLAN (p OUTER q));""", b""),
    ("a canonical text", ["show"], """SELECT JSON_QUERY(doc, '$.a[1, 2] ? (@ starts with "it''s")' PASSING 1 AS x), 'text';
        SELECT a FROM JSON_TABLE(doc, '$' AS p COLUMNS (a INT, NESTED '$.b' AS q COLUMNS (b INT)) PLAN (p OUTER q));""", b""),
    ("groups", ["group"], """SELECT qty, sku, JSON_ARRAY(total, 'x') FROM JSON_TABLE(doc, '$.lines[*]' COLUMNS (
        sku VARCHAR, qty INTEGER, total NUMERIC(10,2) PATH '$.qty * $.price' ERROR ON ERROR));""", LINES),
    ("generated lines", ["selfrun", "3"], "SELECT JSON_QUERY(doc, '$'), JSON_VALUE(doc, '$.n' RETURNING INTEGER);", b""),
]


def check_allocations(tally, program):
    """Tries each run whole, and then with its first allocation failing, with its second, and so on to the last."""
    if not shutil.which(COMPILER):
        print(f"passed over the allocations: {COMPILER} is not installed", flush=True)
        return
    with tempfile.TemporaryDirectory() as room:
        folder = Path(room)
        library = folder / "fail_alloc.so"
        made = subprocess.run([COMPILER, "-O1", "-shared", "-fPIC", "-o", library, SOURCE], capture_output=True, text=True)
        tally.check("fail_alloc.c", None if made.returncode == 0 else f"{COMPILER} says {made.stderr}")
        for name, words, statements, lines in RUNS if made.returncode == 0 else []:
            (folder / "statements.sql").write_text(statements)
            (folder / "lines").write_bytes(lines)
            one = Run(program, folder, library, [*words, "statements.sql"], lines)
            problems = list(one.problems())
            wrong = [f"allocation {number}: {problem}" for number, problem in enumerate(problems, 1) if problem]
            few = None if len(problems) >= LEAST else f"there are {len(problems)} alone"
            tally.check(f"{name}, each of {len(problems)} allocations failing", few or "; ".join(wrong[:5]))


class Run:
    """One run of the program, which can be made with an allocation that fails."""

    def __init__(self, program, folder, library, words, lines):
        self.program, self.folder, self.library, self.words, self.lines = program, folder, library, words, lines
        self.whole = self.ended(0)[0]

    def ended(self, number):
        """How it ends with this allocation failing, how many bytes of the lines it took, and whether it came to that allocation."""
        mark = self.folder / f"failed.{number}"
        names = {"LD_PRELOAD": str(self.library), "FAIL_ALLOC": str(number), "FAIL_MARK": str(mark)}
        with open(self.folder / "lines", "rb", buffering=0) as given:
            ended = self.program.run(self.words, folder=self.folder, stdin=given, env={**os.environ, **names})
            came = mark.is_file()
            mark.unlink(missing_ok=True)
            return ended, given.tell(), came

    def problems(self):
        """Yields for each allocation what is wrong with the run in which it fails, or nothing."""
        if self.whole.status or self.whole.note or not self.whole.output:
            yield f"the whole run ended as {self.whole}"
        with ThreadPoolExecutor(os.cpu_count()) as pool:
            for start in itertools.count(1, AT_ONCE):
                for ended, taken, came in pool.map(self.ended, range(start, start + AT_ONCE)):
                    if not came:
                        problem = difference(self.whole, ended)
                        if problem:
                            yield f"behind the last one {problem}"
                        return
                    yield self.problem(ended, taken)

    def problem(self, ended, taken):
        rows = self.whole.output
        if not difference(self.whole, ended):
            return None  # it did without, as where a closed stream has no number to hold
        if not ended.output and not ended.note and ended.status == 6:
            return None  # it ran out before it could take its words
        gave_up = difference(Ended(6, ended.output, b"out of memory\n"), ended)
        if gave_up or self.lines:
            return gave_up or front_problem(rows, self.lines, taken, ended.output)
        return None if rows.startswith(ended.output) else f"it wrote {shown(ended.output)}, which is no beginning of {shown(rows)}"


class Telling(Tally):
    """Tells of the checks that passed, too."""

    def check(self, name, problem):
        super().check(name, problem)
        if not problem:
            print(f"passed {name}", flush=True)


def main():
    built = Path(__file__).resolve().parent.parent / "crates" / "sqljson" / "out" / "sqljson"
    tally, program = Telling(), Program(sys.argv[1] if len(sys.argv) > 1 else built)
    check_allocations(tally, program)
    print(f"{tally.passed} passed, {tally.failed} failed")
    return 1 if tally.failed else 0


if __name__ == "__main__":
    sys.exit(main())
