"""What the contract of `run` rests on: the definitions that a reader has to believe, with their size: docs/DEFINITIONS.md.

The page is made of the sources. It begins with the definitions that the contract of `run` names, and goes on with those
that they name. Where a function has a law, it goes on with what the law says, and not with the way in which the function
finds its value. This check says where the page differs, where there is more to believe than MOST_LINES, where one of the
modules is a view, and which definition stands in two crates.

usage, at the top of the repository: python3 -m checks.definitions > docs/DEFINITIONS.md
"""
import functools
import re
import sys
import textwrap
from dataclasses import dataclass, field
from pathlib import Path

from checks.crates import listed as listed_crates

PAGE = "docs/DEFINITIONS.md"
MOST_LINES = 5100
# Modules that say how the code holds, finds or reads a value, and not what a contract of `run` means.
VIEWS = {"Boxes", "Building", "Cells", "Coding", "Filling", "Found", "HeldLines", "MadeValues", "SoFar", "Layouts", "Looks", "Machine", "Nodes", "Reading", "Seen", "Sequel", "View"}
IMPORT = re.compile(r"^[ \t]*(?:pub )?(?:ghost )?use Rattle\.(\w+)\.specs\.([\w.]+?)(?:\.\{([^}]*)\}| as (\w+))?;?$", re.M)
# The first line of a definition, or of a block of several; and the name that a line within a block defines.
WORDS = r"(?:(?:abbrev|unfoldable|pub|data|record) )*"
TYPED = re.compile(rf"^\s*{WORDS}([^\s(){{}}:;,]+)(?: [({{][^:]*:[^:]*[)}}])* : ")
RECORD = re.compile(r"^\s*(?:pub )?record\b")
BEGINS = re.compile(rf"^(?:abbrev|unfoldable|pub|data|record|mutual|module)\b|{TYPED.pattern}")
GROUP = re.compile(r"^module _ .*\bwhere$")
BESIDE = re.compile(r"^(?:use|mod|pub mod|infix[lr]?)\b")
TOKEN = re.compile(r"[^\s(){},;]+")
# The functions that have a law: where each is defined, and the call whose contract is the law.
LAWS = {
    ("sj_json/specs/Document.antt", "document"): ("sj_json/src/lib.rt", "one_document"),
    ("sj_path_grammar/specs/Accepted.antt", "accepted_path"): ("sj_path_grammar/src/law.rt", "one_path"),
    ("sj_json/specs/Numbers.antt", "number_of"): ("sj_value/src/law.rt", "one_number"),
    ("sj_json/specs/UniqueKeys.antt", "has_unique_keys"): ("sj_json/src/lib.rt", "unique_keys"),
}
# The traits whose ghost members the contract of `run` names, and the module that says what the objects in memory tell: without such objects
# the contract speaks of no bytes.
TRAITS = "sj_outside/src/outside.rt"
IN_MEMORY = "sj_outside/specs/InMemory.antt"
TRAIT = re.compile(r"^pub trait (\w+) \{\n(.*?)^\}", re.M | re.S)
GHOST = re.compile(r"^    ghost (\w+): \{ Self →", re.M)
TYPE = re.compile(r"^pub (?:struct|enum) (\w+)\b")
NUMBER = re.compile(r"(?:pub )?@0 : \S*ℕ\n@0 = \d+(?: \S+ \d+)*")  # a limit, maybe as 2 ^ 32: that two have one value is chance
INTRODUCTION = """# The definitions behind the contract of `run`

A proof shows that the code does what its contract says. Whether the contract says what it should, a reader has to judge,
and for that the definitions that it names have to be read. This page lists them with their lines, so that they can be
counted. `checks/definitions.py` makes it of the sources, and fails where the page differs, where the sum grows past
{most:,} lines, and where one of the modules is a view: one that says how the code holds or reads something, as the
`Layouts` of a document or the `Machine` of the reader do. [PROOFS.md](PROOFS.md) says what the
definitions of each crate are.

The list begins with what the contract of `run` names (`crates/sj_run/src/command.rt`), and goes on with what these
definitions name. Lines are counted with the comments above a definition, and without imports and empty lines. What
[stands in the code](#what-stands-in-the-code) and what the kit defines is counted apart.

Four definitions are functions with a law. A reader has to believe what the law says, so the list goes on with that. The
way in which such a function finds its value is [at the end](#ways-of-functions-that-have-a-law), and needs no belief.
"""

IN_CODE = """The contract of `run` speaks of the shelf, the input and the output by ghost members of three traits:

{traits}.

What they mean is said by the clauses of the traits: {lines} lines of `crates/{file}`.
The clauses on bytes hold of objects that tell their bytes, as those in memory do: `InMemory` of sj_outside, {memory} lines.
The adapters over files and standard streams tell none.

Also named are {types} types of the code, with {type_lines} lines of fields, variants and comments, and {kit} definitions of
the kit, of lists, numbers and texts."""


@dataclass
class Module:
    """A file of definitions: its text by the name that each part defines, and where the names that it uses are from."""

    parts: dict = field(default_factory=dict)
    named: dict = field(default_factory=dict)  # each name that is imported: the module, and its name there
    typed: dict = field(default_factory=dict)  # each name that is imported of a type of the code: the crate, and the type
    kit: dict = field(default_factory=dict)  # each name that is imported of the kit: its whole path
    called: dict = field(default_factory=dict)  # each module that is imported whole, by the name that it has here


@dataclass
class Rests:
    """The definitions that were found, as (module, first line): its lines."""

    crates: Path
    found: dict = field(default_factory=dict)
    told: set = field(default_factory=set)
    ways: dict = field(default_factory=dict)
    types: set = field(default_factory=set)  # the types of the code that were named, as (crate, type)
    kit: set = field(default_factory=set)  # the whole paths of the kit's definitions that were named

    def follow(self, names, by_law=True):
        left = list(names)
        while left:
            name = left.pop()
            if name in self.told:
                continue
            self.told.add(name)
            if by_law and name in LAWS:
                left += self.cited(*LAWS[name])
            elif part := self.module(name[0]).parts.get(name[1]):
                start, lines = part
                self.found |= {(name[0], it.number): 1 for it in lines if isinstance(it, Head)}
                self.found[name[0], start] = sum(not isinstance(it, Head) for it in lines)
                left += self.used(self.module(name[0]), name[0], "\n".join(it for it in lines if not it.strip().startswith("--")))

    def cited(self, file, call):
        """The names that the contract of a public call uses."""
        text = (self.crates / file).read_text(encoding="utf-8")
        imports = Module()
        self.read_imports(imports, text)
        return self.used(imports, file, re.search(rf"^pub fn {call}\b.*?^\{{", text, re.M | re.S)[0])

    def used(self, module, file, text):
        names = []
        for token in TOKEN.findall(text):
            head, _, rest = token.partition(".")
            for word in {token, head, f"◌{token}◌"}:
                if word in module.parts:
                    names.append((file, word))
                elif word in module.named:
                    names.append(module.named[word])
                elif word in module.typed:
                    self.types.add(module.typed[word])
                elif word in module.kit:
                    self.kit.add(module.kit[word])
            if head in module.called and rest:
                names.append((module.called[head], rest.split(".")[0]))
        return names

    @functools.cache
    def module(self, file):
        it = Module()
        text = (self.crates / file).read_text(encoding="utf-8")
        self.read_imports(it, text)
        for start, lines in blocks(text):
            for name in defined(lines):
                it.parts[name] = start, lines
        return it

    def read_imports(self, module, text):
        for crate, path, some, alias in IMPORT.findall(text):
            file, parts = self.file(crate, path.split(".")), path.split(".")
            if file and not some:
                module.called[alias or parts[-1]] = file
            for it in some.split(",") if some else []:
                there, _, here = it.strip().partition(" as ")
                if file:
                    module.named[here or there] = file, there
                elif parts[0] == "declared":
                    module.typed[here or there] = crate, next(it for it in parts[1:] if it[0].isupper())
                elif not (self.crates / crate).is_dir():
                    module.kit[here or there] = f"{crate}.{path}.{there}"
            if not file and not some and parts[0] == "declared":
                module.typed[alias or parts[-1]] = crate, next(it for it in parts[1:] if it[0].isupper())

    def file(self, crate, parts):
        """The file of a module of definitions. The compiler makes those of the types of the code, which have none."""
        name = f"{crate}/specs/{'/'.join(parts)}.antt"
        return name if (self.crates / name).is_file() else None

    def __hash__(self):
        return id(self)


class Head(str):
    """The line with the parameters that several definitions share. It is read once."""

    def __new__(cls, line, number):
        it = super().__new__(cls, line)
        it.number = number
        return it


def blocks(text, first=1):
    """The definitions of a file with the comments above them, each with the number of its first line."""
    found, above, group = [], [], None
    for number, line in enumerate(text.splitlines(), first):
        if group and (not line.strip() or line[0].isspace()):
            group[2].append(line)
            continue
        if group:
            found += grouped(*group)
            group = None
        if not line.strip():
            above = []
        elif line.startswith("--"):
            above.append(line)
        elif line[0].isspace():
            if found and not BESIDE.match(line.strip()):
                found[-1][1].append(line)
        elif GROUP.match(line):
            group, above = (number, line, []), []
        elif not BESIDE.match(line):
            if found and not BEGINS.match(line):
                found[-1][1].append(line)  # an equation
            else:
                found.append((number - len(above), [*above, line]))
            above = []
    return found + (grouped(*group) if group else [])


def grouped(number, head, lines):
    """The definitions that share parameters, each with the line of these."""
    inner = blocks(textwrap.dedent("\n".join(lines)), number + 1)
    return [(start, [Head(head, number), *part]) for start, part in inner]


def defined(lines):
    """The names that a definition or a block of several defines, with the constructors of types. The members of a record are named by its type."""
    names, record = set(), None
    for line in lines:
        indent = len(line) - len(line.lstrip())
        if record is not None and indent > record:
            continue
        record = indent if RECORD.match(line) else None
        if match := TYPED.match(line):
            names.add(match[1])
    return names


def rests(top):
    it = Rests(top / "crates")
    it.follow(it.cited("sj_run/src/command.rt", "run"))
    whole = Rests(top / "crates")
    whole.follow(it.told & LAWS.keys(), by_law=False)
    it.ways = {part: lines for part, lines in whole.found.items() if part not in it.found}
    return it


def page(top):
    it = rests(top)
    parts = [INTRODUCTION.format(most=MOST_LINES), f"Together: {summary(it.found)}.", "", table(top, it.found)]
    parts += ["", "## What stands in the code", "", *in_code(top, it)]
    parts += ["", "## Ways of functions that have a law", ""]
    parts += [f"- `{name}`: the law is `{call}` in `crates/{file}`{';' if at < len(LAWS) else '.'}" for at, ((_, name), (file, call)) in enumerate(LAWS.items(), 1)]
    parts += ["", f"How they find their values: {summary(it.ways)}.", "", table(top, it.ways)]
    return "\n".join(parts) + "\n"


def in_code(top, it):
    """What the list leaves out: ghost members of traits, objects in memory, types of the code, names of the kit."""
    traits = TRAIT.findall((top / "crates" / TRAITS).read_text(encoding="utf-8"))
    members = [f"- `{trait}`: {', '.join(f'`{ghost}`' for ghost in GHOST.findall(body))}" for trait, body in traits]
    lines = sum(full_lines(body) + 2 for _, body in traits)
    memory = sum(len(part) for _, part in blocks((top / "crates" / IN_MEMORY).read_text(encoding="utf-8")))
    types = sum(type_lines(top / "crates" / crate / "src", name) for crate, name in it.types)
    return [IN_CODE.format(
        traits=";\n".join(members), file=TRAITS, lines=lines, memory=memory, types=len(it.types), type_lines=types, kit=len(it.kit))]


def full_lines(text):
    return sum(1 for line in text.splitlines() if line.strip())


def type_lines(folder, name):
    """How many lines a type of the code has, with the comments above it, or 0 where it is a name of the compiler's own."""
    for file in sorted(folder.glob("**/*.rt")):
        above = 0
        lines = file.read_text(encoding="utf-8").splitlines()
        for number, line in enumerate(lines):
            found = TYPE.match(line)
            if found and found[1] == name:
                end = number if line.rstrip().endswith(";") else next(at for at in range(number, len(lines)) if lines[at].startswith("}"))
                return above + full_lines("\n".join(lines[number : end + 1]))
            above = above + 1 if line.startswith(("///", "#[")) else 0
    return 0


def summary(found):
    return f"{len(found):,} definitions with {sum(found.values()):,} lines in {len({file for file, _ in found})} modules"


def table(top, found):
    rows = ["| Crate | Modules, with the lines of what is needed of each | Lines |", "|---|---|---|"]
    for crate in listed_crates(top):
        mine = {}
        for (file, _), lines in sorted(found.items()):
            if file.startswith(f"{crate}/"):
                module = file.split("/specs/")[1].removesuffix(".antt")
                mine[module] = mine.get(module, 0) + lines
        if mine:
            rows.append(f"| {crate} | {', '.join(f'`{module}` {lines}' for module, lines in mine.items())} | {sum(mine.values()):,} |")
    return "\n".join(rows)


def twins(top):
    """The definitions that stand in two crates under whatever names, each as the places where it stands."""
    places = {}
    for file in sorted((top / "crates").glob("*/specs/**/*.antt")):
        crate = file.relative_to(top / "crates").parts[0]
        text = file.read_text(encoding="utf-8")
        imported = imported_paths(text)
        for _, lines in blocks(text):
            meaning, name = meant(lines, imported)
            if meaning and not NUMBER.fullmatch(meaning):
                places.setdefault(meaning, []).append((crate, f"{crate}/specs/{file.stem} {name}"))
    several = (found for found in places.values() if len({crate for crate, _ in found}) > 1)
    return [tuple(place for _, place in found) for found in several]


def imported_paths(text):
    """Each name that a file imports, with the whole path of what it means."""
    paths = {}
    for crate, path, some, alias in IMPORT.findall(text):
        for it in some.split(",") if some else []:
            there, _, here = it.strip().partition(" as ")
            paths[(here or there).strip("◌")] = f"{crate}.{path}.{there}"
        if not some:
            paths[alias or path.split(".")[-1]] = f"{crate}.{path}"
    return paths


def meant(lines, imported):
    """What a definition of two lines and more says, whatever it and its names are called, and what it is called here."""
    code = [line.strip() for line in lines if not line.strip().startswith("--")]
    names = sorted(defined(lines))
    if len(code) < 2 or not names:
        return None, None
    own = {name: f"@{number}" for number, name in enumerate(names)}

    def whole(token):
        head, dot, rest = token[0].partition(".")
        return own.get(token[0]) or imported.get(token[0]) or (imported[head] + dot + rest if head in imported else token[0])

    return re.sub(r"^(?:abbrev|unfoldable) ", "", TOKEN.sub(whole, "\n".join(code))), names[0]


def check_definitions(tally, top):
    it = rests(top)
    lines, views = sum(it.found.values()), sorted({file for file, _ in it.found if Path(file).stem in VIEWS})
    tally.check("views among the definitions to believe", ", ".join(views))
    tally.check("the definitions to believe", None if lines <= MOST_LINES else f"they have {lines} lines, and {MOST_LINES} are the most")
    tally.check("definitions that stand in two crates", "; ".join(" and ".join(places) for places in twins(top)))
    differs = (top / PAGE).read_text(encoding="utf-8") != page(top)
    tally.check(PAGE, f"it is not what the sources say: make it anew by `python3 -m checks.definitions > {PAGE}`" if differs else None)


if __name__ == "__main__":
    sys.stdout.write(page(Path(__file__).resolve().parent.parent))
