"""The companion where: of usual slips in statements it says the line, the column and the word, and a hint.

Its grammar is compared with the program over the statement files of `checks/rows/`: it takes what is accepted, and finds a
word in what is refused.
"""
import contextlib
import io
import re
import types

from checks.guide import dialect_rows
from checks.program import Ended, difference
from checks.room import room_of
from checks.rows import cases_of, runs_of

# Texts of statements, and what `where` writes of each behind the name of the file, and its hints.
REFUSED = [
    (
        "-- a ; in a comment, and a '\nSELECT 'it''s; so';\n\n"
        "SELECT JSON_VALUE(doc, '$.a'), -- one\n  JSON_VALUE(doc, '$.b' RETURNING VARCHAR2(9)),\n  2;\nSELECT ;\n",
        [
            "lines 4 to 6: statement 2: syntax error",
            "line 5: value 2: JSON_VALUE(doc, '$.b' RETURNING VARCHAR2(9))",
            "line 5, column 35: VARCHAR2",
        ],
        ["VARCHAR2 is no type here: write VARCHAR"],
    ),
    (
        "SELECT * FROM JSON_TABLE(doc, '$.x[*]' COLUMNS (\n  a VARCHAR,\n  NESTED '$.y' COLUMNS (\n    b INTEGER PATH '$.c = 1')));",
        ["lines 1 to 4: statement 1: path: lexical error", "line 4: column 2.1: b INTEGER PATH '$.c = 1'", "line 4, column 25: ="],
        ["in a path, equal is written ==", "a path that is a predicate is written as a filter: $ ? (@.x == 1)"],
    ),
    (
        "SELECT 1;\nSELECT 2, 'a;\nSELECT 'b';",
        ["line 2: statement 2: lexical error", "line 2: value 2: 'a;", "line 2, column 11: 'a;"],
        ["a string has no closing quotation mark"],
    ),
    (
        "SELECT 1\nSELECT 2;",
        ["line 1: statement 1: syntax error", "line 1: value 1: 1", "line 2, column 1: SELECT"],
        ["no ; ends the statement"],
    ),
    (
        "SELECT a, b FROM JSON_TABLE(doc, '$' COLUMNS (a INTEGER));",
        ["line 1: statement 1: unknown column", "line 1: value 2: b", "line 1, column 11: b"],
        [],
    ),
    (
        "SELECT * FROM JSON_TABLE(doc, '$.x[*' COLUMNS (a VARCHAR, b INTEGER));",
        ["line 1: statement 1: path: syntax error", "line 1, column 37: the end of the path"],
        ["the path has 1 opening and 0 closing brackets"],
    ),
    (
        "SELECT 1",
        ["line 1: statement 1: syntax error", "line 1, column 9: the end of the file"],
        ["no ; ends the statement"],
    ),
]

# Hints that stand there more than once, or that are long.
OVER_TABLE = "over a table, a list has its columns, literals, JSON_OBJECT, JSON_ARRAY and aggregates: make {} a column of the table"
VALUES = "a value is a literal, JSON_EXISTS, JSON_VALUE, JSON_QUERY, IS JSON, JSON_OBJECT or JSON_ARRAY"
JSON_TYPE = "{} is no type here: write VARCHAR FORMAT JSON in a column, and nothing in JSON_QUERY"
ONLY_TABLES = "FROM takes JSON_TABLE alone: leave it out where each line gives one row"
NO_WHERE = "a statement has no WHERE: put a filter into the path of its rows"
TEXT_MARKS = "a text or a path stands between two ', and the name of a column may stand between two \""
OTHER_KEY = "a key with other signs than letters, digits and _ stands between quotation marks: "
ONLY_AGGREGATES = "a list with an aggregate has aggregates alone: make a statement of its own for the others"
NO_TEXT_KEY = "a key is a text between ', NULL, a column of VARCHAR or a JSON_VALUE of VARCHAR"
NO_APPROXIMATE = "write NUMERIC, which is exact, or VARCHAR, and cast it in the database"
NO_ARGUMENT = "nothing stands between the parentheses of a method: name a type after RETURNING"

# Slips of beginners and of those who know another dialect. The word at fault stands between ⟦ and ⟧; a hint follows.
SLIPS = [
    # Types.
    ("SELECT JSON_VALUE(doc, '$.a' RETURNING ⟦TEXT⟧);", "TEXT is no type here: write VARCHAR"),
    ("SELECT JSON_VALUE(doc, '$.a' RETURNING ⟦VARCHAR2⟧(5));", "VARCHAR2 is no type here: write VARCHAR"),
    ("SELECT JSON_VALUE(doc, '$.a' RETURNING ⟦CHARACTER⟧ VARYING(5));", "CHARACTER is no type here: write VARCHAR"),
    ("SELECT JSON_VALUE(doc, '$.a' RETURNING ⟦CHAR⟧(5));", "CHAR is no type here: write VARCHAR"),
    ("SELECT JSON_VALUE(doc, '$.a' RETURNING ⟦INT8⟧);", "INT8 is no type here: write BIGINT"),
    ("SELECT JSON_VALUE(doc, '$.a' RETURNING ⟦SMALLINT⟧);", "SMALLINT is no type here: write INTEGER"),
    ("SELECT JSON_VALUE(doc, '$.a' RETURNING ⟦UNSIGNED⟧);", "UNSIGNED is no type here: write NUMERIC(20)"),
    ("SELECT JSON_VALUE(doc, '$.a' RETURNING ⟦NUMBER⟧);", "NUMBER is no type here: write NUMERIC"),
    ("SELECT JSON_VALUE(doc, '$.a' RETURNING ⟦DEC⟧(10,2));", "DEC is no type here: write NUMERIC"),
    ("SELECT JSON_VALUE(doc, '$.a' RETURNING ⟦BOOL⟧);", "BOOL is no type here: write BOOLEAN"),
    ("SELECT JSON_VALUE(doc, '$.a' RETURNING ⟦DATE⟧);", "write VARCHAR, and cast it in the database"),
    ("SELECT JSON_VALUE(doc, '$.a' RETURNING ⟦TIMESTAMP⟧);", "write VARCHAR, and cast it in the database"),
    ("SELECT JSON_VALUE(doc, '$.a' RETURNING ⟦DOUBLE⟧ PRECISION);", NO_APPROXIMATE),
    ("SELECT JSON_VALUE(doc, '$.a' RETURNING ⟦REAL⟧);", NO_APPROXIMATE),
    ("SELECT JSON_VALUE(doc, '$.a' RETURNING NUMERIC(⟦39⟧));", "NUMERIC(p,s) has p from 1 to 38 and s from 0 to p"),
    ("SELECT JSON_VALUE(doc, '$.a' RETURNING NUMERIC(5,⟦6⟧));", "NUMERIC(p,s) has p from 1 to 38 and s from 0 to p"),
    ("SELECT JSON_VALUE(doc, '$.a' RETURNING NUMERIC(⟦10.2⟧));", "a comma stands between digits and decimals: 10,2"),
    ("SELECT JSON_VALUE(doc, '$.a' RETURNING VARCHAR(⟦0⟧));", "VARCHAR(n) has n from 1 to 1,000,000"),
    ("SELECT JSON_VALUE(doc, '$.a' RETURNING VARCHAR(10 ⟦CHAR⟧));", "a length is counted in characters: leave CHAR out"),
    ("SELECT JSON_VALUE(doc, '$.a' RETURNING INTEGER⟦(⟧10));", "INTEGER has no length"),
    ("SELECT * FROM JSON_TABLE(doc, '$' COLUMNS (a ⟦JSONB⟧ PATH '$.a'));", JSON_TYPE.format("JSONB")),
    (
        "SELECT * FROM JSON_TABLE(doc, '$' COLUMNS (a VARCHAR(5) ⟦FORMAT⟧ JSON));",
        "FORMAT JSON stands behind VARCHAR alone, without a length",
    ),
    ("SELECT * FROM JSON_TABLE(doc, '$' COLUMNS (a INTEGER ⟦EXISTS⟧ PATH '$.a'));", "a column EXISTS has the type BOOLEAN"),
    # Clauses.
    ("SELECT JSON_QUERY(doc, '$.a' ⟦RETURNING⟧ JSONB);", "JSON_QUERY has no RETURNING: leave it out"),
    ("SELECT JSON_QUERY(doc, '$.a' ⟦RETURNING⟧ VARCHAR);", "JSON_QUERY has no RETURNING: leave it out"),
    ("SELECT JSON_EXISTS(doc, '$.a' ⟦RETURNING⟧ BOOLEAN);", "JSON_EXISTS has no RETURNING: leave it out"),
    ("SELECT JSON_VALUE(doc, '$.a' DEFAULT 0 ON EMPTY ⟦RETURNING⟧ INTEGER);", "RETURNING stands before ON EMPTY and ON ERROR"),
    ("SELECT JSON_VALUE(doc, '$.a' NULL ON ERROR ⟦ERROR⟧ ON EMPTY);", "ON EMPTY stands before ON ERROR"),
    ("SELECT JSON_VALUE(doc, '$.a' DEFAULT ⟦NOW⟧() ON EMPTY);", "DEFAULT takes literals alone"),
    ('SELECT JSON_VALUE(doc, \'$.a\' DEFAULT ⟦"x"⟧ ON EMPTY);', "a text or a path stands between two ': 'x'"),
    ("SELECT JSON_VALUE(doc, '$.a' NULL ON ⟦EMTPY⟧);", None),
    ("SELECT JSON_EXISTS(doc, '$.a > $x' PASSING ⟦least⟧ AS x);", "PASSING takes literals alone"),
    ("SELECT JSON_VALUE(doc, '$.a' ⟦WITH⟧ WRAPPER);", "JSON_VALUE has no wrapper: JSON_QUERY has one"),
    (
        "SELECT * FROM JSON_TABLE(doc, '$' COLUMNS (a BOOLEAN EXISTS PATH '$.a' FALSE ON ⟦EMPTY⟧));",
        "there is ON ERROR alone here, and no ON EMPTY",
    ),
    (
        "SELECT * FROM JSON_TABLE(doc, '$' COLUMNS (a INTEGER NULL ON EMPTY ⟦PATH⟧ '$.a'));",
        "PATH stands directly behind the type",
    ),
    # Values.
    ("SELECT JSON_VALUE(⟦DOC⟧, '$.a');", "the line is called doc, in small letters"),
    ("SELECT 1.5, ⟦DOC⟧ IS JSON;", "the line is called doc, in small letters"),
    ("SELECT JSON_VALUE(t⟦.⟧doc, '$.a');", "the line is called doc, without the name of a table"),
    ("SELECT JSON_VALUE(doc, '$.a') ⟦a⟧;", "the name of a value stands behind AS: AS a"),
    ("SELECT JSON_VALUE(doc, '$.a') AS ⟦key⟧;", 'key is a reserved word: as a name it stands between quotation marks, "key"'),
    ("SELECT JSON_VALUE(doc, '$.a') AS ⟦'a b'⟧;", 'a name stands without quotation marks, or between two "'),
    ("SELECT doc ⟦->>⟧ 'a';", "write JSON_VALUE(doc, '$.key') for a member of doc"),
    ("SELECT doc⟦.⟧a;", "write JSON_VALUE(doc, '$.key') for a member of doc"),
    ("SELECT doc⟦[⟧'a'];", "write JSON_VALUE(doc, '$.key') for a member of doc"),
    ("SELECT id⟦;⟧", "without FROM, a member of the line is JSON_VALUE(doc, '$.id')"),
    ("SELECT ⟦COALESCE⟧(JSON_VALUE(doc, '$.a'), '-');", VALUES),
    ("SELECT ⟦CAST⟧(JSON_VALUE(doc, '$.a') AS INTEGER);", VALUES),
    ("SELECT JSON_VALUE(doc, '$.a') ⟦||⟧ '!';", "texts are not put together here: name each as a value of its own"),
    ("SELECT JSON_VALUE(doc, '$.a') ⟦=⟧ 1;", "there is no comparison of values: put a filter into a path"),
    ("SELECT JSON_OBJECT('a'⟦,⟧ 1);", "a member is written key VALUE value, or key : value"),
    ("SELECT 1 ⟦/*⟧ one */;", "a comment begins with -- and ends with its line"),
    ("SELECT 1⟦e5⟧;", "a number has no exponent here"),
    ("SELECT ⟦.⟧5;", "digits stand on both sides of a point"),
    ("SELECT ⟦123456789012345678901234567890123456789⟧;", "a number has at most 38 digits"),
    # Statements.
    ("⟦SELCT⟧ 1;", "a statement begins with SELECT: there is no SELCT"),
    ("⟦WITH⟧ a AS (SELECT 1) SELECT 2;", "a statement begins with SELECT: there is no WITH"),
    ("⟦INSERT⟧ INTO t SELECT 1;", "a statement begins with SELECT: there is no INSERT"),
    ("SELECT JSON_VALUE(doc, '$.a') ⟦FROM⟧ t;", ONLY_TABLES),
    ("SELECT a FROM ⟦t⟧, JSON_TABLE(doc, '$' COLUMNS (a INTEGER));", ONLY_TABLES),
    ("SELECT doc IS JSON ⟦WHERE⟧ TRUE;", NO_WHERE),
    ("SELECT a FROM JSON_TABLE(doc, '$' COLUMNS (a INTEGER)) ⟦WHERE⟧ a;", NO_WHERE),
    (
        "SELECT a FROM JSON_TABLE(doc, '$' COLUMNS (a INTEGER)) AS t ⟦GROUP⟧ BY a;",
        "a statement has no GROUP BY: an aggregate takes all rows of a line",
    ),
    (
        "SELECT jt⟦.⟧a FROM JSON_TABLE(doc, '$' COLUMNS (a INTEGER)) AS jt;",
        "a column is written by its name alone, without the name of its table",
    ),
    (
        "SELECT a,\n  ⟦JSON_VALUE⟧(doc, '$.b')\nFROM JSON_TABLE(doc, '$' COLUMNS (a INTEGER));",
        OVER_TABLE.format("the JSON_VALUE"),
    ),
    (
        "SELECT JSON_VALUE(doc, '$.b') ⟦FROM⟧ JSON_TABLE(doc, '$' COLUMNS (a INTEGER));",
        OVER_TABLE.format("each value of the line"),
    ),
    (
        "SELECT JSON_ARRAYAGG(a ⟦ORDER⟧ BY a) FROM JSON_TABLE(doc, '$' COLUMNS (a INTEGER));",
        "there is no ORDER BY: rows and aggregates have the order of the items",
    ),
    ("SELECT ⟦COUNT⟧(*) FROM JSON_TABLE(doc, '$.a[*]' COLUMNS (a INTEGER));", "the number of elements is .size() in a path"),
    ("SELECT 1, ⟦;⟧", "a comma is too many before it"),
    ("SELECT 1 ⟦2⟧;", "a comma is missing before it"),
    ("SELECT JSON_VALUE(doc, '$.a'⟦;⟧", "there are 1 opening and 0 closing parentheses"),
    ("SELECT JSON_VALUE(doc, '$.a')⟦)⟧;", "there are 1 opening and 2 closing parentheses"),
    ("SELECT 1;\nSELECT 2\n\n⟦SELECT⟧ 3;", "no ; ends the statement"),
    ("SELECT 'a', ⟦'b;⟧\n\nSELECT 'c';", "a string has no closing quotation mark"),
    ("SELECT JSON_VALUE(doc, ⟦'$.a RETURNING INTEGER),⟧\n  JSON_VALUE(doc, '$.b');", "a string has no closing quotation mark"),
    ("SELECT 'it'⟦s⟧ one';", "inside a string, ' is written ''"),
    ("SELECT JSON_VALUE(doc, ⟦\N{LEFT SINGLE QUOTATION MARK}⟧$.a\N{RIGHT SINGLE QUOTATION MARK});", TEXT_MARKS),
    ("⟦\ufeff⟧SELECT 1;", "the file begins with a byte order mark: save it without one"),
    ("SELECT 1; -- f⟦\udcfc⟧r", "the file is not UTF-8: if it is Latin 1, iconv -f LATIN1 -t UTF-8 makes it so"),
    ("SELECT⟦\u00a0⟧1;", "it is no space of a statement: write U+0020"),
    # Tables.
    ("SELECT * FROM JSON_TABLE(doc, '$.x[*⟦⟧' COLUMNS (a VARCHAR, b INTEGER));", "the path has 1 opening and 0 closing brackets"),
    ("SELECT * FROM JSON_TABLE(doc ⟦'$.x[*]'⟧ COLUMNS (a VARCHAR, b INTEGER));", "a comma is missing before it"),
    (
        "SELECT * FROM JSON_TABLE(doc, '$.x[*] ? (@.p > ⟦$min⟧)' COLUMNS (a VARCHAR));",
        "a variable gets its value behind the path: PASSING 1 AS min",
    ),
    (
        "SELECT * FROM JSON_TABLE(doc, '$.x[*] ? (@.p > ⟦$min⟧)' PASSING 1 AS MIN COLUMNS (a VARCHAR));",
        "names are compared exactly: what is passed is MIN",
    ),
    ("SELECT * FROM JSON_TABLE(doc, '$' COLUMNS ⟦a⟧ INTEGER);", "columns stand in parentheses"),
    ("SELECT * FROM JSON_TABLE(doc, '$' COLUMNS (a INTEGER ⟦b⟧ INTEGER));", "a comma is missing before it"),
    ("SELECT * FROM JSON_TABLE(doc, '$' COLUMNS (a INTEGER, ⟦)⟧);", "a comma is too many before it"),
    (
        "SELECT * FROM JSON_TABLE(doc, '$' COLUMNS (⟦key⟧ VARCHAR));",
        'key is a reserved word: as a name it stands between quotation marks, "key"',
    ),
    ("SELECT * FROM JSON_TABLE(doc, '$' COLUMNS (a FOR ⟦ORDINALTY⟧));", None),
    (
        "SELECT * FROM JSON_TABLE(doc, '$' COLUMNS (\n  id BIGINT,\n  NESTED '$.payload' COLUMNS (\n    NESTED '$.commits[*]' COLUMNS (\n"
        "      n FOR ORDINALITY,\n      author VARCHAR PATH '$.author-⟦name⟧'))));",
        OTHER_KEY + '."author-name"',
    ),
    (
        "SELECT * FROM JSON_TABLE(doc, '$' AS r COLUMNS (NESTED '$.x' COLUMNS (x INTEGER)) PLAN DEFAULT (⟦LEFT⟧));",
        "FROM takes one JSON_TABLE: nest paths in it, and join them by PLAN",
    ),
    # Paths.
    ('SELECT JSON_VALUE(doc, ⟦"$.id"⟧);', "a text or a path stands between two ': '$.id'"),
    ("SELECT JSON_VALUE(doc, '$.order-⟦id⟧');", OTHER_KEY + '."order-id"'),
    ("SELECT JSON_VALUE(doc, '$.gr⟦ö⟧ße');", OTHER_KEY + '."größe"'),
    ("SELECT JSON_VALUE(doc, '$.first ⟦name⟧');", 'a key with a space stands between quotation marks: ."first name"'),
    ("SELECT JSON_VALUE(doc, '$.⟦1⟧st');", OTHER_KEY + '."1st"'),
    ("SELECT JSON_VALUE(doc, '$.⟦@⟧type');", OTHER_KEY + '."@type"'),
    ("SELECT JSON_VALUE(doc, '$.⟦$ref⟧');", OTHER_KEY + '."$ref"'),
    ("SELECT JSON_VALUE(doc, '$.dc⟦:⟧title');", OTHER_KEY + '."dc:title"'),
    ("SELECT JSON_VALUE(doc, '$[⟦''⟧a'']');", 'a member is written .key or ."any key"'),
    ("SELECT JSON_VALUE(doc, '⟦a⟧.b');", "a path begins with $"),
    ("SELECT JSON_VALUE(doc, '⟦STRICT⟧ $.a');", "the mode is written in small letters"),
    ("SELECT JSON_VALUE(doc, '$.a.⟦⟧');", "a key is missing behind the point"),
    ("SELECT JSON_QUERY(doc, '$.⟦.⟧a');", "a path has no step to all depths: name each member on the way"),
    ("SELECT JSON_QUERY(doc, '$.**⟦.⟧a');", "a path has no step to all depths: name each member on the way"),
    ("SELECT JSON_QUERY(doc, '$[0⟦:⟧2]');", "a range of subscripts is written [0 to 2]"),
    ("SELECT JSON_EXISTS(doc, '$.a[⟦?⟧(@.b > 1)]');", "a filter is written ? (..), without brackets"),
    ("SELECT JSON_EXISTS(doc, '$.a ? ⟦@⟧.b > 1');", "a filter stands in parentheses: ? (..)"),
    ("SELECT JSON_EXISTS(doc, '$.a ⟦==⟧ 1');", "a path that is a predicate is written as a filter: $ ? (@.x == 1)"),
    ("SELECT JSON_EXISTS(doc, '$ ? (@.a ⟦=⟧ 1)');", "in a path, equal is written =="),
    ("SELECT JSON_EXISTS(doc, '$ ? (@.a > 1 ⟦and⟧ @.b > 1)');", "in a path, `and` is written &&"),
    ("SELECT JSON_EXISTS(doc, '$ ? (@.a > 1 ⟦&⟧ @.b > 1)');", "in a path, `and` is written &&"),
    ("SELECT JSON_EXISTS(doc, '$ ? (@.a > 1 ⟦or⟧ @.b > 1)');", "in a path, `or` is written ||"),
    ("SELECT JSON_EXISTS(doc, '$ ? (⟦not⟧ @.a > 1)');", "in a path, `not p` is written !(p)"),
    ("SELECT JSON_EXISTS(doc, '$ ? (@.a ⟦in⟧ (1, 2))');", "`in (1, 2)` is written @.a == 1 || @.a == 2"),
    ("SELECT JSON_EXISTS(doc, '$ ? (@.a ⟦is⟧ null)');", "`is null` is written == null, and `is unknown` stands behind (..)"),
    ("SELECT JSON_EXISTS(doc, '$ ? (@.a == ⟦TRUE⟧)');", "it is written true"),
    ("SELECT JSON_EXISTS(doc, '$ ? (@.a == ⟦''⟧x'')');", 'a text in a path stands between two "'),
    ("SELECT JSON_EXISTS(doc, '$ ? (@.a == ⟦\"x)⟧');", "a text has no closing quotation mark"),
    ("SELECT JSON_EXISTS(doc, '$.a ? (@ ⟦like_regex⟧ \"^A\")');", "a path has `starts with`, and no patterns"),
    ("SELECT JSON_VALUE(doc, '$.a.⟦double⟧()');", "write .number(), which is exact"),
    ("SELECT JSON_VALUE(doc, '$.a.decimal(⟦5⟧,2)');", NO_ARGUMENT),
    ("SELECT JSON_VALUE(doc, '$.a.⟦numberOnly⟧()');", 'a path has no such method: write ? (@.type() == "number")'),
    ("SELECT JSON_VALUE(doc, '$.a.⟦date⟧()');", "a path has no such method: name a type after RETURNING"),
    ("SELECT JSON_VALUE(doc, '$.a.⟦datetime⟧()');", "a path has no dates: let the value be VARCHAR, and cast it in the database"),
    ("SELECT JSON_VALUE(doc, '$[⟦@⟧]');", "outside of a filter the item is $"),
    ("SELECT JSON_VALUE(doc, '$.a + ⟦last⟧');", "`last` stands in a list of subscripts: [last]"),
    ("SELECT JSON_VALUE(doc, '⟦$order⟧.id');", "a member of the line is $.order"),
    # Names, variables, defaults, plans and keys.
    ("SELECT * FROM JSON_TABLE(doc, '$' COLUMNS (a INTEGER, NESTED '$.x' COLUMNS (⟦a⟧ INTEGER)));", None),
    ("SELECT * FROM JSON_TABLE(doc, '$' AS r COLUMNS (NESTED '$.x' AS ⟦r⟧ COLUMNS (a INTEGER)));", None),
    (
        "SELECT * FROM JSON_TABLE(doc, ⟦'$'⟧ COLUMNS (NESTED '$.x' AS x COLUMNS (a INTEGER)) PLAN (r OUTER x));",
        "a plan with names needs AS and a name behind each path",
    ),
    (
        "SELECT * FROM JSON_TABLE(doc, '$' AS r COLUMNS (NESTED '$.x' AS x COLUMNS (a INTEGER)) PLAN (⟦x⟧ OUTER r));",
        "a plan begins with the row path: r OUTER (..)",
    ),
    (
        "SELECT * FROM JSON_TABLE(doc, '$' AS r COLUMNS (\n  NESTED '$.x' AS x COLUMNS (a INTEGER),\n"
        "  NESTED '$.y' AS ⟦y⟧ COLUMNS (b INTEGER)) PLAN (r OUTER x));",
        "the plan lacks y under r",
    ),
    ("SELECT JSON_VALUE(doc, '$.a + $x' PASSING 1 AS x, 2 AS ⟦x⟧);", None),
    ("SELECT JSON_QUERY(doc, '$.a' WITH WRAPPER ⟦OMIT⟧ QUOTES);", "leave out the wrapper, or the QUOTES clause"),
    (
        "SELECT JSON_VALUE(doc, '$.a' DEFAULT '-' ON EMPTY), JSON_VALUE(doc, '$.a' RETURNING INTEGER DEFAULT ⟦'-'⟧ ON EMPTY);",
        "it is no INTEGER",
    ),
    ("SELECT a, ⟦JSON_ARRAYAGG⟧(a) FROM JSON_TABLE(doc, '$' COLUMNS (a INTEGER));", ONLY_AGGREGATES),
    ("SELECT ⟦ID⟧ FROM JSON_TABLE(doc, '$' COLUMNS (id INTEGER));", "names are compared exactly: the column is id"),
    ("SELECT JSON_OBJECT(⟦a⟧ : 1) FROM JSON_TABLE(doc, '$' COLUMNS (a INTEGER));", NO_TEXT_KEY),
    (
        "SELECT JSON_VALUE(doc FORMAT JSON ENCODING ⟦UTF16⟧, '$.a');",
        "the lines are UTF-8: leave ENCODING out, and let iconv make them so",
    ),
]
MARKED = re.compile("⟦(.*?)⟧", re.S)

# What is accepted, with a mark at each place that finds nothing, and the hints.
EMPTY = """SELECT 'a[-1]', JSON_VALUE(doc, '$ ? (@ == "[-1]")'),
  JSON_VALUE(doc, '$[ ⟦"x"⟧].a[⟦-⟧1, last]'), JSON_VALUE(doc, '$.keyvalue() ? (@.⟦key⟧ == "a").value'),
  JSON_VALUE(doc, '$.keyvalue()[*].⟦key⟧'), JSON_VALUE(doc, '$.keyvalue().value.key');
SELECT * FROM JSON_TABLE(doc, '$.keyvalue()' COLUMNS (⟦"key"⟧ VARCHAR, k VARCHAR PATH '$.⟦key⟧', name VARCHAR,
  NESTED '$.value' COLUMNS (o FOR ORDINALITY, v VARCHAR PATH '$.key')));
"""
UNFIT = b"not a statement to group\n"  # the file is accepted, and only `group` refuses it
EMPTY_HINTS = [
    'a subscript that is a text finds nothing: a member is written .key or ."any key"',
    "a subscript below 0 finds nothing: the last element is [last]",
    *["the pairs of .keyvalue() have name, value and id, and no key: the name is .name"] * 4,
]


def check_where(tally, program, top):
    """A refused statement is found, to the word, with the value or the column, and hints."""
    where = module_of(top / "tools" / "where")
    checker = where.Checker(program.path)
    for marked, hint in SLIPS:
        tally.check(f"where of {shown(marked)}", slip_fault(where, checker, marked, hint))
    check_dialects(tally, top)
    check_grammar(tally, where, checker, top / "checks" / "rows")
    with room_of(program, top) as room:
        for number, (text, places, hints) in enumerate(REFUSED, 1):
            wanted = [f"refused.sql: {place}" for place in places] + [f"hint: {hint}" for hint in hints]
            write(room, "refused.sql", text)
            tally.check(f"where, text {number}", difference(Ended(2, lines(wanted)), room.run(["sqljson-where", "refused.sql"])))
        check_accepted(tally, room)
        check_odd_files(tally, room)


def module_of(path):
    """The script as a module: many texts are tried without a new process for each."""
    module = types.ModuleType("where")
    exec(compile(path.read_text(encoding="utf-8"), "where", "exec"), module.__dict__)
    return module


def write(room, name, text):
    (room.folder / name).write_bytes(text.encode("utf-8", "surrogateescape"))


def lines(texts):
    return "".join(f"{text}\n" for text in texts).encode()


def shown(text):
    return text.encode("ascii", "backslashreplace").decode()


def slip_fault(where, checker, marked, hint):
    """Says what `where` says else of a slip than the place and the word that are marked, and the hint; or nothing."""
    text, found = re.sub("[⟦⟧]", "", marked), MARKED.search(marked)
    number, reason, _ = checker.refusal(text)
    if number is None:
        return "the program accepts it"
    with contextlib.redirect_stdout(io.StringIO()) as output:
        where.tell(where.Source("slip.sql", text), number, reason, checker)
    told = output.getvalue().split("\n")
    wanted = f"slip.sql: {place_of(marked, found.start())}: {word_of(marked, found)}"
    if wanted not in told:
        return f"it says {told}, and not {wanted}"
    hints = [line.partition(": ")[2] for line in told if line.startswith("hint: ")]
    return None if hints[:1] == ([hint] if hint else []) else f"its hints are {hints}, and not {hint}"


def place_of(marked, start):
    """The line and the column of a mark."""
    before = re.sub("[⟦⟧]", "", marked[:start])
    return f"line {before.count(chr(10)) + 1}, column {len(before) - before.rfind(chr(10))}"


def word_of(marked, found):
    """A marked word as `where` shows it. The end of a path is marked by nothing."""
    word = found[1]
    if not word:
        return "the end of the path"
    if "\udc80" <= word <= "\udcff":
        return f"<byte {ord(word) - 0xDC00:02X}>"
    return word if word.isprintable() else f"<U+{ord(word):04X}>"


def check_dialects(tally, top):
    """Each text of the guide's table of other dialects that is refused is a slip above."""
    rows = dialect_rows((top / "docs" / "GUIDE.md").read_text(encoding="utf-8"))
    refused = [elsewhere for elsewhere, says, _ in rows if says != "accepted"]
    known = {re.sub("[⟦⟧]", "", slip[0]) for slip in SLIPS}
    unknown = [text for text in refused if text not in known and f"SELECT {text};" not in known]
    tally.check("where of other dialects", unknown and f"no slip is {unknown}")


def check_accepted(tally, room):
    """Of an accepted file, what finds nothing is told with its place."""
    tally.check("where of an accepted file", difference(Ended(0, b"accepted 2\n"), room.run(["sqljson-where", "orders.sql"])))
    write(room, "empty.sql", re.sub("[⟦⟧]", "", EMPTY))
    places = [place_of(EMPTY, found.start()) for found in MARKED.finditer(EMPTY)]
    wanted = ["accepted 2", *(f"hint: empty.sql: {place}: {hint}" for place, hint in zip(places, EMPTY_HINTS))]
    tally.check("where of paths that find nothing", difference(Ended(0, lines(wanted)), room.run(["sqljson-where", "empty.sql"])))


def check_odd_files(tally, room):
    """Any bytes are answered without a traceback, in a time that grows as the file does; a file may be a pipe, or absent."""
    write(room, "slip.sql", "SELECT ;")
    piped = room.run(["bash", "-c", "sqljson-where <(cat slip.sql) | tail -n 1"])
    tally.check("where of a pipe", None if b"column 8: ;\n" in piped.output else str(piped))
    many = {
        "actions": "SELECT JSON_VALUE(doc, '$.a' " + "NULL ON ERROR " * 8000 + ");",
        "spaces": "SELECT 1" + " " * 500_000 + "2;",
        "parentheses": "SELECT " + "(" * 200_000,
        "strings": "SELECT" + " 'a\nSELECT" * 40_000,
        "signs of a path": f"SELECT JSON_EXISTS(doc, '{'.' * 200_000}');",
        "any bytes": "".join(chr(0xDC80 + byte % 128) if byte > 127 else chr(byte) for byte in range(256)) * 400,
    }
    for name, text in many.items():
        write(room, "many.sql", text)
        ended = room.run(["sqljson-where", "many.sql"])
        tally.check(f"where of many {name}", None if (ended.status, ended.note) == (2, b"") else str(ended)[:300])
    absent = room.run(["sqljson-where", "none.sql"])
    tally.check("where without a file", None if absent.status == 126 else f"it ended with {absent}")


def check_grammar(tally, where, checker, folder):
    """The grammar of `where` takes what the program accepts in the tables of rows, and finds a word in what it refuses."""
    for table in sorted(folder.glob("*.txt")):
        runs = [run for case in cases_of(table.read_text(encoding="utf-8")) for run in runs_of(case)]
        files = {run.file: run.wanted for run in runs if run.wanted.status in (0, 2)}
        found = [fault for file, wanted in files.items() if (fault := grammar_fault(where, checker, file, wanted))]
        tally.check(f"where over {table.name}", "; ".join(found[:3]))


def grammar_fault(where, checker, file, wanted):
    """Says of which file the grammar differs from the program, or nothing."""
    text = file.decode("utf-8", "surrogateescape")
    statements = where.statements_of(where.tokens_of(text, where.IN_FILE))
    if wanted.status == 0 or wanted.note.endswith(UNFIT):
        readers = [where.StatementReader(tokens) for tokens in statements]
        return None if all(where.read(reader, reader.statement) for reader in readers) else f"it doesn't take {shown(text)}"
    number, reason = where.REFUSAL.match(wanted.note.decode()).groups()
    spot = where.find(statements[int(number) - 1], reason, checker)[0]
    return None if spot else f"it finds no word for {reason} in {shown(text)}"
