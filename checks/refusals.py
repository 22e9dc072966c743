"""What a refused call leaves in its `&mut` arguments, by the clauses of the contracts: docs/REFUSALS.md.

The page is made of the sources. This check says where it differs from them, which argument of a public call has no clause
that holds when the call is refused, and which may change where memory runs out, though it is none of the few that may.

usage, at the top of the repository: python3 -m checks.refusals > docs/REFUSALS.md
"""
import re
import sys
from dataclasses import dataclass, replace
from pathlib import Path

from checks.crates import listed

PAGE = "docs/REFUSALS.md"
EVERY, OK, REFUSED = "every answer", "Ok", "a refusal"
ITEM = re.compile(r"^(?:impl|pub trait|trait)\b.*?\{$.*?^\}$", re.M | re.S)
HEAD = re.compile(r"^(impl\b(?:<[^{]*?>)?\s+(?:(\w+)(?:<[^{]*?>)? for )?(\w+)|(?:pub )?trait (\w+))", re.M)
FUNCTION = re.compile(r"^[ \t]*(pub )?fn (\w+)", re.M)
PUBLIC = re.compile(r"^pub (?:fn|struct|enum|trait) (\w+)", re.M)
PUBLIC_MODULE = re.compile(r"^pub mod (\w+);", re.M)
EXPORTED = re.compile(r"^pub use \w+::(?:\{(.*?)\}|(\w+));", re.M | re.S)
CLAUSE = re.compile(r"\s*(requires|ensures|decreases)\s*(\w*)\s*\{")
COMMENT = re.compile(r"//[^\n]*")
# What speaks of one kind of answer alone, and the kinds of its parts in parentheses.
ANSWERS = {"OnOk": [OK], "IfOk": [OK], "OnErr": [REFUSED], "IfErr": [REFUSED], "MatchResult": [OK, REFUSED]}
CASE = re.compile(r"\b(" + "|".join(ANSWERS) + r") result (?=\()")
STATUS = re.compile(r"\s*(?:(?:\((?:\w+ )+: \w+\) )+→ )?(?:result ≡ Status\.(\w+)|(IsBefore result))[^→]*→")
NO_FAULT = re.compile(r"¬ \(Rose [^→]*→")
PAIRS = {"(": ")", "[": "]", "{": "}"}
AS_IT_WAS, LONGER, BY_CLAUSES = "as it was", "as it was, and a front of the text", "by its clauses"
# The arguments of which a call that is out of memory says only in part what they are, and why that does.
LEFT_ANYWHERE = {
    ("read_over", "buffer"): "nothing in it is read again",
    ("json_value", "inquiry"): "it begins anew at its next use",
    ("json_value_field", "inquiry"): "it begins anew at its next use",
    ("json_query", "cursor"): "it is rewound before its next use",
    ("json_query_field", "cursor"): "it is rewound before its next use",
    ("escape_from", "out"): "it is cut back to what stood there",
    ("tabbed_cast", "out"): "it is cut back to what stood there",
    ("outcome_field", "out"): "it is cut back to what stood there",
    ("json_value_field", "out"): "it is cut back to what stood there",
    ("json_query_field", "out"): "it is cut back to what stood there",
    ("print_list", "out"): "it is cut back to what stood there",
    ("print_list", "operations"): "their inquiries and cursors begin anew at their next use",
    ("print_list", "stack"): "it is cleared before its next use",
    ("find_list", "operations"): "their inquiries and cursors begin anew at their next use",
    ("find_list", "stack"): "it is cleared before its next use",
    ("take_all", "all"): "they begin anew before their next use",
    ("take_all", "stack"): "it is cleared before its next use",
    ("finish_all", "all"): "they begin anew before their next use",
    ("finish_all", "values"): "they are cleared before their next use",
    ("ValueCall::outcome", "self"): "its inquiry begins anew at its next use",
    ("QueryCall::outcome", "self"): "its cursor is rewound before its next use",
    ("RowHead::begin", "self"): "it is turned to the next row's line and statement",
    ("RowsOf::print", "self"): "the rows are rewound before their next use",
    ("RowsOf::next", "self"): "the rows are rewound before their next use",
}
# The arguments of which no clause says what a refusal leaves, since nothing uses them afterwards.
USED_NO_MORE = {
    ("TakesPieces::take_piece", "self"): "the run is over",
    ("TakesPieces::finish", "self"): "the run is over",
    ("LinesOf::take_piece", "self"): "the run is over",
    ("LinesOf::finish", "self"): "the run is over",
    ("PrintsLines::print_lines", "self"): "the run is over",
    ("PrintsLines::print_lines", "lines"): "the run is over",
    ("Batch::read_on", "self"): "the run is over",
    ("Batch::read_on", "waiting"): "the run is over",
    ("Recognizer::piece", "self"): "`start` begins a text anew",
    ("line_rows", "steps"): "no bound on them is promised, since lines are tried again",
    ("document_rows", "steps"): "no bound on them is promised, as of line_rows",
}
INTRODUCTION = """# What a refused call leaves

For each public call that can refuse, by a `Result` or a `Status`, and each of its `&mut` arguments: what the argument is
after a refusal, and the clauses of the contract that say what it is. [PROOFS.md](PROOFS.md) has the claim
as a whole.

- *At every answer*: the clause says it whatever the call answers. What it says of each answer is in the definition that
  it cites.
- *When refused*: it says it if the call is refused, also because memory ran out if that is a refusal of the call. Of a
  `Status` the one that it speaks of is in parentheses; *before the input* is each that comes before any input is read.
- *At Ok*: it says it of the good answer alone.

A call of a trait is listed with the trait, and again with each object that meets it, which has the trait's clauses if it
states none of its own. `checks/refusals.py` makes this page of the sources, and fails if the page differs, if an argument
has no clause in the columns *at every answer* and *when refused* and its row does not say why nothing uses it afterwards,
or if it may change when memory runs out and its row does not say why that does no harm. It looks at names and forms alone:
whether a clause says all that is to be said, a reader has to judge.
"""


@dataclass(frozen=True)
class Call:
    """A public call that can refuse."""

    name: str
    refusal: str
    mutable: list  # the names of its `&mut` arguments
    clauses: list  # the names and the texts of its `ensures`
    met: str = ""  # the name of the trait's call that it meets, if it does


def check_refusals(tally, top):
    calls = calls_of(top)
    tally.check(PAGE, None if any(calls.values()) else "no call was found in the sources")
    page = top / PAGE
    same = page.is_file() and page.read_text(encoding="utf-8") == page_of(calls)
    tally.check(PAGE, None if same else "it is not what python3 -m checks.refusals makes")
    bare = {(call.name, argument) for found in calls.values() for call in found for argument in without_clause(call)}
    told = [", ".join(it) for it in sorted(bare ^ USED_NO_MORE.keys())]
    tally.check("what a refused call leaves", told and f"no clause says it, or USED_NO_MORE says that none does: {'; '.join(told)}")
    loose = {(call.name, argument) for found in calls.values() for call in found for argument in changed_without_memory(call)}
    odd = [" of ".join(reversed(it)) for it in sorted(loose ^ LEFT_ANYWHERE.keys())]
    tally.check("what a call out of memory leaves", odd and f"it is not as LEFT_ANYWHERE says: {'; '.join(odd)}")


def calls_of(top):
    """The public calls that can refuse and have a `&mut` argument, by the names of the crates, in the order of crates.txt."""
    return {crate: found for crate in listed(top) if (found := sorted(with_met(in_crate(top / "crates" / crate / "src")), key=lambda call: call.name))}


def with_met(calls):
    """The calls of a crate. One with no clause of its own has those of the trait's call that it meets."""
    calls = list(calls)
    stated = {call.name: call.clauses for call in calls}
    return [call if call.clauses else replace(call, clauses=stated.get(call.met, [])) for call in calls]


def in_crate(folder):
    root = folder / "lib.rt"
    told = root.read_text(encoding="utf-8") if root.is_file() else ""
    names = exported(told) if told else {"run"}
    opened = {folder / f"{module}.rt" for module in PUBLIC_MODULE.findall(told)}
    for path in sorted(folder.rglob("*.rt")):
        if "tests" not in path.relative_to(folder).parts and path.name != "tests.rt":
            text = COMMENT.sub("", path.read_text(encoding="utf-8"))
            yield from in_file(text, names | set(PUBLIC.findall(text)) if path in opened else names)


def exported(text):
    """The names that a crate gives to others."""
    return {name.split(" as ")[-1].strip() for many, one in EXPORTED.findall(text) for name in (many or one).split(",")}


def in_file(text, names):
    items = [(found.start(), found.end(), HEAD.match(found[0])) for found in ITEM.finditer(text)]
    for found in FUNCTION.finditer(text):
        head = next((head for start, end, head in items if start < found.start() < end), None)
        trait, kind = (head[2] or head[4], head[3] or head[4]) if head else (None, None)
        is_public = (kind or found[2]) in names and bool(found[1] or trait)
        if is_public:
            call = call_at(text, found.end(), f"{kind}::{found[2]}" if kind else found[2], f"{trait}::{found[2]}")
            if call:
                yield call


def call_at(text, at, name, met):
    """The call whose name ends at this place, or nothing where it can't refuse or has no `&mut` argument."""
    opened = text.index("(", generics_end(text, at))
    closed = end_of(text, opened)
    mutable = [it for part in split(text[opened + 1 : closed - 1]) if (it := mutable_name(part))]
    told = re.compile(r"\s*->\s*(.*?)(?=\s*(?:\brequires\b|\bensures\b|\bdecreases\b|\bwhere\b|\{|;))", re.S).match(text, closed)
    refusal = refusal_of(told[1]) if told else None
    if not refusal or not mutable:
        return None
    return Call(name, refusal, mutable, list(clauses_from(text, told.end())), met)


def generics_end(text, at):
    """The end of what stands in `<..>` at a place, or the place."""
    if text[at] != "<":
        return at
    depth = 0
    for end in range(at, len(text)):
        depth += (text[end] == "<") - (text[end] == ">" and text[end - 1] != "-")
        if depth == 0:
            return end + 1
    raise ValueError(text[at : at + 50])


def end_of(text, at):
    """The end of what stands in parentheses, brackets or braces that are opened at a place."""
    waiting = []
    for end in range(at, len(text)):
        if text[end] in PAIRS:
            waiting.append(PAIRS[text[end]])
        elif waiting and text[end] == waiting[-1]:
            waiting.pop()
            if not waiting:
                return end + 1
    raise ValueError(text[at : at + 50])


def split(text):
    """The parts of a list between its commas, which may have lists in them."""
    parts, depth, start = [], 0, 0
    for at, sign in enumerate(text):
        depth += (sign in "([<") - (sign in ")]" or (sign == ">" and text[at - 1] != "-"))
        if sign == "," and depth == 0:
            parts.append(text[start:at])
            start = at + 1
    return [*parts, text[start:]]


def mutable_name(parameter):
    """The name of a `&mut` parameter, or nothing for another."""
    found = re.match(r"\s*&(?:'\w+ )?mut (self)\b|\s*(\w+)\s*:\s*&(?:'\w+ )?mut\b", parameter)
    return found and (found[1] or found[2])


def refusal_of(answer):
    """The type of the refusal in an answer, or nothing."""
    if answer.startswith("Result<"):
        return re.sub(r"<.*>", "", split(answer[len("Result<") : -1])[-1].strip())
    return answer if answer == "Status" else None


def clauses_from(text, at):
    """Yields the name and the text of each `ensures` of a contract that begins at a place."""
    while True:
        clause = CLAUSE.match(text, at)
        if not clause:
            return
        at = end_of(text, clause.end() - 1)
        if clause[1] == "ensures":
            yield clause[2] or "(without a name)", text[clause.end() : at - 1]


def answers_of(text, argument):
    """The answers at which a clause speaks of an argument as it is afterwards."""
    text = NO_FAULT.sub("", text)
    spoken = [found.start() for found in re.finditer(rf"(?<![\w.]){argument}\.new\b", text)]
    status = STATUS.match(text)
    if spoken and status:
        return {OK if status[1] == "Done" else status[1] or "before the input"}
    return {next((kind for start, end, kind in cases(text) if start < at < end), EVERY) for at in spoken}


def cases(text):
    """Where a clause speaks of one kind of answer alone: the places and the kind."""
    found = []
    for case in CASE.finditer(text):
        at = case.end()
        for kind in ANSWERS[case[1]]:
            end = end_of(text, at)
            found.append((at, end, kind))
            at = end + 1
    return found


def told_of(call, argument):
    """The names of the clauses that speak of an argument, by the answer."""
    told = {}
    for name, text in call.clauses:
        for answer in answers_of(text, argument):
            told.setdefault(answer, []).append(name)
    return told


def without_clause(call):
    """The arguments of which no clause says what they are where the call is refused."""
    return [argument for argument in call.mutable if not {EVERY, REFUSED} & told_of(call, argument).keys()]


def left_by(call, argument):
    """What a refusal leaves in an argument, as far as the form of the clauses tells. A list is as it was if it has the same items."""
    told = [text for name, text in call.clauses if {EVERY, REFUSED} & answers_of(text, argument)]
    if any(re.fullmatch(rf"\s*(?:OnErr result \()?{argument}\.new((?:\.items)?) ≡ {argument}\.old\1\)?\s*", text) for text in told):
        return AS_IT_WAS
    return LONGER if any(f"AppendsPrefix {argument}.old " in text for text in told) else BY_CLAUSES


def changed_without_memory(call):
    """The arguments, but for the counter, that may be something else where such a call is out of memory."""
    wants = call.refusal == "Memory" or call.refusal.endswith("Refusal")
    used = [argument for argument in call.mutable if argument != "steps" and (call.name, argument) not in USED_NO_MORE]
    return [argument for argument in used if wants and left_by(call, argument) == BY_CLAUSES]


def page_of(calls):
    parts = [INTRODUCTION]
    for crate, found in calls.items():
        rows = [row_of(call, argument) for call in found for argument in call.mutable]
        heads = "| Call | Refusal | Argument | After a refusal | At every answer | When refused | At Ok |\n" + "|---" * 7 + "|"
        parts.append("\n".join([f"## {crate}\n", heads, *rows, ""]))
    return "\n".join(parts)


def row_of(call, argument):
    told = told_of(call, argument)
    others = [f"{name} ({it})" for it in told if it not in (EVERY, OK, REFUSED) for name in told[it]]
    why, over = LEFT_ANYWHERE.get((call.name, argument)), USED_NO_MORE.get((call.name, argument))
    left = f"{BY_CLAUSES}; {why}" if why else f"anything; {over}" if over else left_by(call, argument)
    cells = [left, ", ".join(told.get(EVERY, [])), ", ".join([*told.get(REFUSED, []), *others]), ", ".join(told.get(OK, []))]
    return f"| `{call.name}` | `{call.refusal}` | `{argument}` | " + " | ".join(cell or "–" for cell in cells) + " |"


if __name__ == "__main__":
    sys.stdout.write(page_of(calls_of(Path(__file__).resolve().parent.parent)))
