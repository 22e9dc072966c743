"""Checks of the repository's own texts."""
import os
import re
from pathlib import Path

from checks.crates import listed as listed_crates

HANDLES = "Handles allowed: none.\n"
# Folders of one machine, written apart so that this file doesn't name one.
PLACE = re.compile(r"(?<![\w./-])/(?:" + "|".join(["home", "root", "tmp", "opt", "mnt", "srv", "work", "farm", "Users"]) + r")/\w")
LINK = re.compile(r"\]\(([^)#\s]+)[^)\s]*\)")
KEPT_OUT = {".git", "out", "__pycache__"}
TOLD_IN = ["docs/ARCHITECTURE.md", "docs/PROOFS.md"]
# What a call's documentation gives as an example, up to the closing parenthesis, and the tests or tables that it names there.
EXAMPLE = re.compile(r"^ *///? Example: (?:.*\n *///? )*?.*\(([^()]*)\)\.$", re.M)
NAMED = re.compile(r"`([^`]+)`")
WITH_EXAMPLES = ["sj_run", "sj_path", "sj_read", "sj_func", "sj_decimal"]


def check_texts(tally, top):
    """Looks at HANDLES, at every text, and at what the documents link to and tell of."""
    handles = text_of(top / "HANDLES")
    tally.check("HANDLES", None if handles == HANDLES else f"it is {handles!r}, and not {HANDLES!r}")
    read = {path: text_of(path) for path in texts(top)}
    documents = {path: text for path, text in read.items() if path.suffix == ".md" and text is not None}
    tally.check("places on one machine are named", listed(top, read, places))
    tally.check("links to what isn't there", listed(top, documents, lost_links))
    code = {path: text for path, text in read.items() if path.suffix == ".rt" and text is not None}
    tally.check("examples whose test isn't there", listed(top, code, lambda path, text: lost_tests(top, path, text)))
    for crate in WITH_EXAMPLES:
        shown = any(EXAMPLE.search(text) for path, text in code.items() if top / "crates" / crate in path.parents)
        tally.check(f"examples of {crate}", None if shown else "no call's documentation has one")
    for name in TOLD_IN:
        untold = [crate for crate in listed_crates(top) if not re.search(rf"\b{crate}\b", documents.get(top / name, ""))]
        tally.check(name, untold and f"it says nothing of {', '.join(untold)}")


def listed(top, texts, look):
    """Says what the search found in each text, or nothing where it found nothing."""
    found = [f"{path.relative_to(top)} ({', '.join(look(path, text))})" for path, text in texts.items() if text and look(path, text)]
    return "; ".join(found)


def places(path, text):
    return [f"line {number}" for number, line in enumerate(text.split("\n"), 1) if PLACE.search(line)]


def lost_links(path, text):
    return [link for link in LINK.findall(text) if "://" not in link and not (path.parent / link).exists()]


def lost_tests(top, path, text):
    """The tests that examples name and that are not there: `crate::module::test`, without the crate where it is the same, or a table of the checks."""
    crates = top / "crates"
    own = path.relative_to(crates).parts[0]
    lost = []
    for name in (name for example in EXAMPLE.findall(text) for name in NAMED.findall(example)):
        if "/" in name:
            is_there = (top / name).is_file()
        else:
            *modules, test = name.split("::")
            crate = modules.pop(0) if (crates / modules[0]).is_dir() else own
            file = crates / crate / "src" / Path(*modules).with_suffix(".rt")
            is_there = f"fn {test}(" in (text_of(file) or "")
        lost += [] if is_there else [name]
    return lost


def texts(top):
    """Yields each file of the repository, but for what git and the builds keep there."""
    for folder, folders, names in os.walk(top):
        folders[:] = sorted(name for name in folders if name not in KEPT_OUT)
        yield from (Path(folder, name) for name in sorted(names))


def text_of(path):
    """Reads a text, or nothing where the file is absent or no UTF-8."""
    try:
        return path.read_bytes().decode("utf-8")
    except (FileNotFoundError, UnicodeDecodeError):
        return None
