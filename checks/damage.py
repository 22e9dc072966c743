"""Damaged texts: whatever a line, a statement file or a path is, the program has one answer, and no crash and no hang.

From a few rich texts every beginning is taken, every byte is replaced by each of some telling bytes, and every two
neighbouring pieces are exchanged. Whether a line is JSON is compared with Python's own reading, also of a few lines at
the limit of depth. Of files and paths it is known apart from the program where they do not break into tokens; all others
have one of the stated answers.
"""
import os
import re
import tempfile
from concurrent.futures import ThreadPoolExecutor
from itertools import chain, zip_longest
from pathlib import Path

from checks.answers import accepted, refusal
from checks.json_texts import DEEPEST, Kinds, is_blank
from checks.lexing import file_tokens, is_utf8, path_refusal
from checks.program import shown

TELLING = b'\x00\n\x1f "\\,:[]{}0-.e\x80\xc0\xed\xff'
PIECE = re.compile(rb"""[A-Za-z_]\w*|[0-9]+|"(?:\\.|[^"\\])*"|\s+|.""", re.S)
LEAST_LINES = 100_000

KINDS = b"SELECT doc IS JSON, doc IS JSON OBJECT, doc IS JSON ARRAY, doc IS JSON SCALAR, doc IS JSON WITH UNIQUE KEYS;"
REPEATS = b"SELECT JSON_EXISTS(doc, '$' ERROR ON ERROR);"
DOCUMENTS = (Path(__file__).parent / "documents.jsonl").read_bytes().rstrip(b"\n").split(b"\n")
FILES = [
    b"""SELECT JSON_VALUE(doc, '$.a' RETURNING NUMERIC(5,2) DEFAULT -1.5 ON EMPTY) AS "a b", doc IS NOT JSON;
-- it's; one
SELECT JSON_OBJECT(KEY 'k' VALUE JSON_QUERY(doc, 'strict $x[0]' PASSING 1 AS x WITH WRAPPER) ABSENT ON NULL),
'o''k';""",
    b"""SELECT JSON_OBJECTAGG(s : q WITH UNIQUE KEYS) FROM JSON_TABLE(doc, '$.l[*]' AS r COLUMNS (o FOR ORDINALITY,
s VARCHAR(9), q INT PATH '$.q' ERROR ON ERROR, NESTED '$.t' AS t COLUMNS (j VARCHAR FORMAT JSON OMIT QUOTES, e BOOLEAN EXISTS UNKNOWN ON ERROR))
PLAN (r INNER t)) AS z;""",
]
PATHS = [
    rb'lax $.a[0 to last].b ? (@.c * 2 >= -1.5e1 && !(exists(@."k\u0041")) || @ starts with $x).size()',
    rb"strict $.lines[*].keyvalue() ? ((@.name == $x) is unknown || @.id < 10) [0, last - 1].value.string().number() % 7",
]
AFTER_TOKENS = {"path: syntax error", "path: misplaced @ or last", "unsupported double", "unsupported datetime",
                "unsupported like_regex", "unknown variable"}
ROW = re.compile(rb"1\t1\t(?:R\t(.*)|E\t(22[0-9A-Z]{3}))\n", re.S)


def check_damage(tally, program):
    with tempfile.TemporaryDirectory() as room:
        check_documents(tally, program, Path(room))
        check_lines(tally, program, Path(room), "deep", b"\n".join(deep_lines()))
        check_texts(tally, program, Path(room), "a damaged file", FILES, ask_file)
        check_texts(tally, program, Path(room), "a damaged path", PATHS, ask_path)


def damaged(text):
    """A text, its beginnings, it with a byte replaced, and it with two neighbouring pieces exchanged, each once."""
    pieces = PIECE.findall(text)
    cuts = (text[:end] for end in range(len(text)))
    replaced = (text[:at] + bytes([byte]) + text[at + 1 :] for at in range(len(text)) for byte in TELLING)
    exchanged = (
        b"".join([*pieces[:at], pieces[at + 1], pieces[at], *pieces[at + 2 :]]) for at in range(len(pieces) - 1)
    )
    return dict.fromkeys(chain([text], cuts, replaced, exchanged))


def check_documents(tally, program, folder):
    """All damaged documents are the lines of one run."""
    given = b"\n".join(text for document in DOCUMENTS for text in damaged(document))
    count = given.count(b"\n") + 1
    tally.check("damaged lines", None if count >= LEAST_LINES else f"they are {count} alone")
    check_lines(tally, program, folder, "damaged", given)


def deep_lines():
    """Yields lines of arrays and objects at the limit of depth, one beyond it, and such lines with a byte replaced."""
    pairs = DEEPEST // 2
    for head, inner, tail in [(b'[{"k":', b"0", b"}]"), (b' [ {"k":1, "\\u006b" :', b' "]" ', b"} , {} ]")]:
        deep = head * pairs + inner + tail * pairs
        yield deep
        yield head * pairs + b"[]" + tail * pairs
        for at in (len(deep) // 2, len(deep) - 1):
            yield from (deep[:at] + bytes([byte]) + deep[at + 1 :] for byte in b']"' if deep[at] != byte)


def check_lines(tally, program, folder, which, given):
    """All lines are given to a run for their kinds, and to one for equal keys."""
    lines = given.split(b"\n")
    answers = list(expected_rows(lines))
    for name, statement, words, rows in [
        (f"kinds of {which} lines", KINDS, ["run"], [kinds for kinds, _ in answers]),
        (f"equal keys of {which} lines", REPEATS, ["run", "--unique-keys"], [keys for _, keys in answers]),
    ]:
        (folder / "lines.sql").write_bytes(statement)
        ended = program.run([*words, "lines.sql"], given, folder)
        wrong = f"status {ended.status}" if ended.status or ended.note else first_difference(rows, ended.output, lines)
        tally.check(name, wrong)


def expected_rows(lines):
    """The rows of both statements, for each line that isn't blank."""
    kinds = Kinds()
    for number, line in enumerate(lines, 1):
        if is_blank(line):
            continue
        kind = kinds.kind(line)
        fields = [bool(kind), *(kind == it for it in ("OBJECT", "ARRAY", "SCALAR")), kind and not kinds.repeats]
        told = b"\t".join(b"TRUE" if field else b"FALSE" for field in fields)
        answer = b"E\t22032" if not kind else b"E\t22037" if kinds.repeats else b"R\tTRUE"
        yield b"%d\t1\tR\t%s" % (number, told), b"%d\t1\t%s" % (number, answer)


def first_difference(wanted, output, lines):
    """Says in which row an output differs first, or nothing where it doesn't."""
    for wanted_row, row in zip_longest(wanted, output.split(b"\n")[:-1]):
        if row != wanted_row:
            number = int((wanted_row or row).split(b"\t")[0])
            return f"it wrote {row}, and not {wanted_row}, for the line {shown(lines[number - 1])}"
    return None


def check_texts(tally, program, folder, name, texts, ask):
    """Asks of each damaged text by itself, as many at once as there are processors."""
    asked = list(chain.from_iterable(map(damaged, texts)))
    with ThreadPoolExecutor(os.cpu_count()) as pool:
        problems = pool.map(lambda pair: ask(program, folder / f"{pair[0]}.sql", pair[1]), enumerate(asked))
        wrong = [f"{shown(text)}: {problem}" for text, problem in zip(asked, problems) if problem]
    tally.check(f"{name}, of {len(asked)}", wrong and f"{len(wrong)} are wrong: {'; '.join(wrong[:5])}")


def ask_file(program, path, text):
    """Checks a file, and says what is wrong with the answer.

    A lexical error belongs to the statement in which it stands: the one behind the last `;` is refused for it, or for
    having no end. A statement before that one may be refused for another reason.
    """
    path.write_bytes(text)
    ended = program.run(["check", path.name], b"", path.parent)
    path.unlink()
    found, broken = file_tokens(text)
    whole = found.count(b";")
    last = "lexical error" if broken else "syntax error" if found[-1:] not in ([], [b";"]) else None
    refused = refusal(ended)
    if refused:
        number, reason = refused
        right = reason == last if number == whole + 1 else number <= whole and reason != "lexical error"
    else:
        right = not last and accepted(ended) == whole
    return None if right else f"it ended as {ended}"


def ask_path(program, path, text):
    """Runs a query with a path, and says what is wrong with the answer."""
    quoted = text.replace(b"'", b"''")
    path.write_bytes(b"SELECT JSON_QUERY(doc, '%s' PASSING 'A' AS x WITH WRAPPER ERROR ON ERROR);" % quoted)
    ended = program.run(["run", path.name], DOCUMENTS[0], path.parent)
    path.unlink()
    wanted = path_refusal(text) if is_utf8(text) else "lexical error"
    refused, row = refusal(ended), ROW.fullmatch(ended.output)
    if refused:
        right = refused == (1, wanted) if wanted else refused[0] == 1 and refused[1] in AFTER_TOKENS
    else:
        right = not wanted and ended.status == 0 and not ended.note and row and (row[2] or is_array(row[1]))
    return None if right else f"it ended as {ended}"


def is_array(field):
    """Whether a field of a row is NULL or the text of an array."""
    return field == b"\\N" or Kinds().kind(field.replace(b"\\\\", b"\\")) == "ARRAY"
