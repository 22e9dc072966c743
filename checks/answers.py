"""What the program may answer of a statement file."""
import re

REASONS = [
    "lexical error",
    "syntax error",
    "path: lexical error",
    "path: too deep",
    "path: syntax error",
    "path: misplaced @ or last",
    "unsupported like_regex",
    "unsupported double",
    "unsupported datetime",
    "unsupported approximate type",
    "unsupported datetime type",
    "unsupported encoding",
    "too many columns or paths",
    "column named twice",
    "path named twice",
    "path without a name",
    "plan does not match the paths",
    "variable passed twice",
    "unknown variable",
    "QUOTES with WRAPPER",
    "default cannot be cast",
    "unknown column",
    "aggregate beside a plain value",
    "key is not a text",
]
REFUSED = re.compile(rf"statement ([1-9]\d*): ({'|'.join(map(re.escape, REASONS))})\n")
ACCEPTED = re.compile(r"accepted (\d+)\n")


def refusal(ended):
    """The number and the reason of the statement that a run refused, or nothing where it ended in another way."""
    found = REFUSED.fullmatch(ended.note.decode("utf-8", "replace"))
    refused = ended.status == 2 and not ended.output and found
    return (int(found[1]), found[2]) if refused else None


def accepted(ended):
    """How many statements a check accepted, or nothing where it ended in another way."""
    found = ACCEPTED.fullmatch(ended.output.decode("utf-8", "replace"))
    return int(found[1]) if ended.status == 0 and not ended.note and found else None
