"""The counter of steps: that `main` and tests alone make one.

`Steps::new` takes the runtime, which `main` and tests alone are handed. A library could have a counter of its own only by
code that names the runtime's type, as a trait that an object of `main` meets, or by raw pointers. So no library's code has
the words for that, but in the places of ALLOWED. And the type gives no other way: what it derives copies no counter, and
one function makes one.
"""
import re

from checks.crates import listed as listed_crates

# (the attribute of what C calls has the last of the words, and lets no code do more)
WORDS = re.compile(r"\b(?:HostRuntime|LibcRuntime)\b|\bSteps\s*>?\s*::\s*new\b|\bunsafe\b(?!\(no_mangle\)\])")
# The places where one stands, with how often: the runtime in `main`, the counter that it makes, the counter's own maker, and
# two texts of bytes that are UTF-8.
ALLOWED = {
    ("sqljson/src/main.rt", "HostRuntime"): 1,
    ("sqljson/src/main.rt", "Steps::new"): 1,
    ("sj_base/src/steps.rt", "HostRuntime"): 1,
    ("sj_doc/src/doc.rt", "unsafe"): 1,
    ("sj_read/src/utf8.rt", "unsafe"): 1,
}
TYPE = "sj_base/src/steps.rt"
# What is no code: a text, a character and a comment.
ASIDE = re.compile(r'''\bb?r(#*)".*?"\1|"(?:\\.|[^"\\])*"|'(?:\\[^']+|[^'\\])'|//[^\n]*|/\*.*?\*/''', re.S)
DERIVED = re.compile(r"#\[derive\(([^)]*)\)\]\s*pub struct Steps \{([^}]*)\}")
GIVES = re.compile(r"\bfn (\w+)[^{}]*?\)\s*->\s*[^{}]*?\b(?:Steps|Self)\b")
MADE = re.compile(r"(?<!struct )\b(?:Steps|Self)\s*\{\s*count\b")
TRAIT = re.compile(r"\bimpl\b[^{};]*?\b(\w+)(?:<[^{};]*>)? for Steps\b")


def check_counters(tally, top):
    crates = top / "crates"
    libraries = [crate for crate in listed_crates(top) if not crate.endswith("_tests")]
    read = {str(path.relative_to(crates)): code_of(path) for crate in libraries for path in sorted((crates / crate / "src").rglob("*.rt"))}
    found = {}
    for name, code in read.items():
        for word in WORDS.findall(code):
            key = name, re.sub(r"[\s>]", "", word)
            found[key] = found.get(key, 0) + 1
    odd = [f"{name}: `{word}` stands {found.get((name, word), 0)} times, and may stand {ALLOWED.get((name, word), 0)}" for name, word in sorted({*found, *ALLOWED}) if found.get((name, word)) != ALLOWED.get((name, word))]
    tally.check("who makes a counter of steps", "; ".join(odd))
    tally.check("the type of the counter of steps", "; ".join(loose(read[TYPE], "\n".join(read.values()))))


def code_of(path):
    """The code of a file, without texts, characters and comments."""
    return ASIDE.sub(" ", path.read_text(encoding="utf-8"))


def loose(own, whole):
    """By what a counter could be made or copied, as the type's file and all code have it."""
    declared = DERIVED.search(own)
    if not declared:
        return [f"{TYPE} has no `pub struct Steps` that derives something"]
    derived = sorted(it.strip() for it in declared[1].split(","))
    traits = sorted(TRAIT.findall(whole))
    gives, made = GIVES.findall(own), len(MADE.findall(own))
    wrong = {
        f"it derives {', '.join(derived)}, and not Debug and Drop alone": derived != ["Debug", "Drop"],
        f"a field of it is public:{declared[2].rstrip()}": re.search(r"\bpub\b", declared[2]),
        f"it has the traits {', '.join(traits)}, and not Model alone": traits != ["Model"],
        f"it is given by {', '.join(gives)}, and not by `new` alone": gives != ["new"],
        f"it is made in {made} places, and not in one": made != 1,
    }
    return [problem for problem, is_so in wrong.items() if is_so]
