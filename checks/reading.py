"""The blocks of docs/READING.md that name a file: that the file has them, word for word.

A block whose tag is a language and a path from the top of the repository is a part of that file. A block with another
tag, or with none, shows commands and what they print, and is not looked at.
"""
import re

PAGE = "docs/READING.md"
BLOCK = re.compile(r"^```\w+ (\S+)\n((?:.*\n)*?)```$", re.M)


def check_reading(tally, top):
    """Looks for each block of the page in the file that it names."""
    blocks = BLOCK.findall((top / PAGE).read_text(encoding="utf-8"))
    tally.check(PAGE, None if blocks else "no block names a file")
    for file, part in blocks:
        path = top / file
        has_it = path.is_file() and f"\n{part}" in "\n" + path.read_text(encoding="utf-8")
        tally.check(f"{PAGE}, {file}", None if has_it else f"the file has no such part: {part!r}")
