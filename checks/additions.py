"""What one more of a kind touches: a table of docs/ARCHITECTURE.md, made by looking for one that is there.

A row has a thing, and every file that names it. So it says which files one more of its kind will touch, as far as a name
tells. The check says where page and sources differ.

usage, at the top of the repository: python3 -B -m checks.additions
"""
import re
import sys
from dataclasses import dataclass
from pathlib import Path

PAGE = "docs/ARCHITECTURE.md"
HEAD = "| One more | Definitions | Code | Proofs | Files | Tests, edits and rows | Documents |"
RULE = "|---|---|---|---|---|---|---|"
KINDS = {"specs": "*.antt", "src": "*.rt", "proofs": "*.antt"}
PATHS = ["sj_path_token", "sj_path_tree", "sj_path_grammar", "sj_path", "sj_path_text", "sj_step", "sj_walk", "sj_plain_path", "sj_method", "sj_cursor", "sj_fault_free"]
STATEMENTS = ["sj_sql_token", "sj_sql_grammar", "sj_sql_tree", "sj_sql_text", "sj_sql_phrase", "sj_sql", "sj_bound", "sj_bind"]
TELLING = ["GUIDE", "DECISIONS", "PROOFS", "TERMS"]


@dataclass(frozen=True)
class Addition:
    """A thing that is there: what the page calls it, its names in the sources, how users see it, and the crates that mean it by these names."""

    what: str
    named: str
    seen: str
    crates: list


ADDITIONS = [
    Addition("item method (`ceiling`)", r"\bCeiling\b", r"\bceiling\(\)", PATHS),
    # (DOUBLE PRECISION of SQL is another word)
    Addition("part of a path that is refused by name (`.double()`)", r"\bDouble\b(?! ts\b)(?! ∷ the w\.Precision)", r"\bdouble\b", [*PATHS, "sj_sql_grammar"]),
    Addition("operator of arithmetic (`%`)", r"\b(?:Percent|Rem)\b", r" % ", PATHS),
    Addition("comparison of a path (`!=`)", r"\bNe\b", r"!=", [*PATHS, "sj_decimal", "sj_item"]),
    Addition("keyword of statements (`KEEP`)", r"\bKeep\b|\"KEEP\"", r"\bKEEP\b", ["sj_sql_token", "sj_sql_grammar", "sj_sql_phrase"]),
    Addition("clause of a function (QUOTES of JSON_QUERY)", r"(?<!specs\.)\bQuotes\b|(?:\b|_)quotes(?:\b|_)", r"\bQUOTES\b", [*STATEMENTS[1:], "sj_value", "sj_func"]),
    Addition("kind of column of a table (EXISTS)", r"\bExistence\b|\bExistsColumn\b|\bColumn::Exists\b", r"\bBOOLEAN EXISTS\b", [*STATEMENTS, "sj_select"]),
    Addition("type of RETURNING (BIGINT)", r"\bBigint\b", r"\bBIGINT\b", [*STATEMENTS, "sj_item", "sj_value", "sj_rows"]),
    Addition("refusal and its message (`column named twice`)", r"\bColumnTwice\b", r"column named twice", STATEMENTS),
    Addition("SQLSTATE (22034)", r"22034", r"22034", ["sj_base", "sj_cursor", "sj_func"]),
    Addition("word of the command line (`selfrun`)", r"\bselfrun\b|\b(?:Form::)?Generated\b|\bgenerat(?:ing|ed)\b|_generated\b|IfGenerates", r"\bselfrun\b", ["sj_file", "sj_run"]),
]


def page(top):
    """The table, with its head."""
    return "\n".join([HEAD, RULE, *(row(top, it) for it in ADDITIONS)])


def row(top, addition):
    found = {kind: naming(top, addition, kind) for kind in KINDS}
    total = sum(len(files) for files in found.values())
    cells = [addition.what, *(told(files) for files in found.values()), str(total), tests(top, addition), documents(top, addition)]
    return f"| {' | '.join(cells)} |"


def naming(top, addition, kind):
    """The files of the crates that name it, each as its crate and its place there."""
    pattern = re.compile(addition.named)
    found = []
    for crate in addition.crates:
        folder = top / "crates" / crate / kind
        files = (it for it in sorted(folder.rglob(KINDS[kind])) if pattern.search(it.read_text(encoding="utf-8")))
        found += [(crate, str(it.relative_to(folder)).removesuffix(".antt")) for it in files]
    return found


def told(files):
    """Files by their crates, or a dash where there are none."""
    by_crate = {}
    for crate, name in files:
        by_crate.setdefault(crate, []).append(f"`{name}`")
    return "; ".join(f"{crate} {', '.join(names)}" for crate, names in by_crate.items()) or "–"


def tests(top, addition):
    """The test crates, the edits and the tables of rows that know it."""
    named, seen = re.compile(addition.named), re.compile(addition.seen)
    either = re.compile(f"{addition.named}|{addition.seen}")
    crates = [it.name for it in sorted((top / "crates").glob("*_tests")) if any(either.search(file.read_text(encoding="utf-8")) for file in it.rglob("*.rt"))]
    edits = [crate for crate in addition.crates if any(named.search(it.read_text(encoding="utf-8")) for it in (top / "crates" / crate / "must-fail").glob("*.edit"))]
    rows = [f"`{it.name}`" for it in sorted((top / "checks" / "rows").glob("*.txt")) if seen.search(it.read_text(encoding="utf-8"))]
    parts = [", ".join(crates), f"edits of {', '.join(edits)}" if edits else "", f"rows {', '.join(rows)}" if rows else ""]
    return "; ".join(part for part in parts if part) or "–"


def documents(top, addition):
    seen = re.compile(addition.seen)
    pages = [name for name in TELLING if seen.search((top / "docs" / f"{name}.md").read_text(encoding="utf-8"))]
    manual = ["`sqljson.1`"] if seen.search((top / "docs" / "sqljson.1").read_text(encoding="utf-8")) else []
    return ", ".join([*pages, *manual]) or "–"


def check_additions(tally, top):
    there = page(top) in (top / PAGE).read_text(encoding="utf-8")
    tally.check(f"{PAGE}, what one addition touches", None if there else "the table is not what `python3 -B -m checks.additions` makes")


if __name__ == "__main__":
    sys.stdout.write(page(Path(__file__).resolve().parent.parent) + "\n")
