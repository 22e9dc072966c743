"""Calls that the program does not make: that a test makes them.

A public call that no code of the program makes says so in its comment, with the words "its tests do" or "is for tests". A
proof says what such a call gives if it gives something; that it does so where memory suffices, a test shows. This check
looks at each such comment: a test makes the call below it, or the one that makes the type below it.
"""
import re

from checks.crates import listed as listed_crates
from checks.refusals import end_of, generics_end, split

SAYS = re.compile(r"\b(?:its tests do|is for tests)\b")
# A public item, with the comment above it.
ITEM = re.compile(r"^(?P<comment>(?:[ \t]*///[^\n]*\n)+)(?:[ \t]*#\[[^\n]*\n)*[ \t]*pub (?P<kind>fn|struct|enum|trait) (?P<name>\w+)", re.M)
BLOCK = re.compile(r"^(?:impl\b(?:<[^{]*?>)?\s+(?:[\w:]+(?:<[^{]*?>)? for )?|pub trait )(\w+)[^{;]*\{$.*?^\}$", re.M | re.S)
COMMENT = re.compile(r"//[^\n]*")


def check_called(tally, top):
    crates = top / "crates"
    files = {path: path.read_text(encoding="utf-8") for crate in listed_crates(top) for path in sorted((crates / crate / "src").rglob("*.rt"))}
    tests = [COMMENT.sub("", text) for path, text in files.items() if path.relative_to(crates).parts[0].endswith("_tests")]
    told = {(path, call): count for path, text in files.items() for call, count in told_in(text)}
    lost = [f"{path.relative_to(crates)}: {call}" for (path, call), count in told.items() if not any(makes(text, call, count) for text in tests)]
    tally.check("calls that tests alone make", lost and f"their comments say that tests make them, and none does: {'; '.join(lost)}")
    tally.check("comments of calls that tests alone make", None if told else "none was found")


def told_in(text):
    """The calls whose comment says that tests make them, as `function`, `Type::method`, or `Type::new` of a type, with the number of their arguments."""
    blocks = [(found.start(), found.end(), found[1]) for found in BLOCK.finditer(text)]
    for found in ITEM.finditer(text):
        if SAYS.search(re.sub(r"\s*\n\s*///\s*", " ", found["comment"])):
            of = next((name for start, end, name in blocks if start < found.start() < end), None)
            if found["kind"] != "fn":
                yield f"{found['name']}::new", None
            else:
                yield f"{of}::{found['name']}" if of else found["name"], arguments(text, found.end(), of)


def arguments(text, at, of):
    """How many arguments stand in the parentheses that are opened behind a place, without the `self` of a method."""
    at = text.index("(", generics_end(text, at))
    inside = [it.strip() for it in split(text[at + 1 : end_of(text, at) - 1]) if it.strip()]
    return len([it for it in inside if not (of and re.fullmatch(r"(?:&(?:'\w+ )?)?(?:mut )?self", it))])


def makes(text, call, count):
    """Whether a file of tests makes a call: a function by its name, a method by its type, or behind a dot where the file names the type."""
    of, _, name = call.rpartition("::")
    if count is None:
        return re.search(rf"\b{of}::{name}\(", text) is not None
    if of and not re.search(rf"\b{of}\b", text):
        return False
    before = r"\.\s*" if of else r"(?<![\w.:])(?<!fn )"
    return any(arguments(text, found.end(), None) == count for found in re.finditer(rf"{before}{name}(?=\()", text)) or bool(of and re.search(rf"\b{of}::{name}\(", text))
