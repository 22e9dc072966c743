"""The arithmetic of the program over generated numbers, compared with Python's whole numbers and fractions, which have no limit.

The answers do not come from the program. Numbers are short and long, at the limit of 38 digits, or one digit with zeros.
"""
import tempfile
from fractions import Fraction
from pathlib import Path

from checks.program import Ended, difference

LIMIT = 10**38
ROUNDS = 500
RANGE, ZERO_DIVIDE = "22003", "22012"  # the states of answers that are no numbers


class Source:
    def __init__(self):
        self.state = 2016

    def below(self, bound):
        self.state = (self.state * 6364136223846793005 + 1442695040888963407) % 2**64
        return (self.state >> 33) % bound

    def digits(self, count):
        number = 0
        for _ in range(count):
            number = number * 10 + self.below(10)
        return number

    def magnitude(self):
        kind = self.below(10)
        if kind == 0:
            return 0
        if kind <= 4:
            return self.below(1000000)
        if kind <= 7:
            return self.digits(1 + self.below(37))
        if kind == 8:
            return LIMIT - 1 - self.below(3)
        return (1 + self.below(9)) * 10 ** self.below(38)

    def scale(self):
        return [0, 0, 0, 1, 2, 3, 5, 8, 16, 17, 30, 37, 38][self.below(13)]

    def number(self):
        magnitude = self.magnitude()
        scale = self.scale()
        return normal(-magnitude if self.below(5) < 2 else magnitude, scale)

    def spelling(self):
        text = "-" if self.below(2) == 0 else ""
        if self.below(4) == 0:
            text += "0"
        else:
            text += str(1 + self.below(9))
            text += self.many(self.below(40))
        if self.below(2) == 0:
            text += "."
            text += self.many(1 + self.below(42))
        if self.below(4) != 0:
            text += "e" if self.below(2) == 0 else "E"
            text += ["-", "+", ""][self.below(3)]
            text += self.many(1 + self.below(2))
        return text

    def many(self, count):
        text = ""
        for _ in range(count):
            text += "0" if self.below(2) == 0 else str(self.below(10))
        return text


def normal(c, s):
    while s > 0 and c % 10 == 0:
        c //= 10
        s -= 1
    return c, s


def text(d):
    c, s = d
    digits = str(abs(c)).rjust(s + 1, "0")
    return ("-" if c < 0 else "") + (digits if s == 0 else digits[:-s] + "." + digits[-s:])


def value(d):
    return Fraction(d[0], 10 ** d[1])


def cut(x):
    n = abs(x.numerator) // x.denominator
    return -n if x < 0 else n


def limited(c, s):
    if abs(c) >= LIMIT:
        return RANGE
    c, s = normal(c, s)
    return text((c, s)) if s <= 38 else RANGE


def at_larger_scale(operation, a, b):
    s = max(a[1], b[1])
    x, y = a[0] * 10 ** (s - a[1]), b[0] * 10 ** (s - b[1])
    return limited(operation(x, y), s) if abs(x) < LIMIT and abs(y) < LIMIT else RANGE


def quotient(a, b):
    if b[0] == 0:
        return ZERO_DIVIDE
    c, s = normal(cut(value(a) / value(b) * 10**16), 16)
    return text((c, s)) if abs(c) < LIMIT else RANGE


def remainder(a, b):
    if b[0] == 0:
        return ZERO_DIVIDE
    return at_larger_scale(lambda x, y: x - y * cut(Fraction(x, y)), a, b)


def rounded(a, p, s):
    """A number that is rounded to p digits, s of them behind the point, with so many decimals."""
    x = abs(value(a)) * 10**s
    n = (2 * x.numerator + x.denominator) // (2 * x.denominator)
    return text((-n if a[0] < 0 else n, s)) if n < 10**p else RANGE


def read(spelling):
    mantissa, _, exponent = spelling.lower().partition("e")
    whole, _, fraction = mantissa.partition(".")
    x = Fraction(int(whole + fraction), 10 ** len(fraction)) * Fraction(10) ** int(exponent or "0")
    for s in range(39):
        if (x * 10**s).denominator == 1:
            c, s = normal(int(x * 10**s), s)
            return text((c, s)) if abs(c) < LIMIT else RANGE
    return RANGE


OPERATIONS = {
    "+": lambda a, b: at_larger_scale(lambda x, y: x + y, a, b),
    "-": lambda a, b: at_larger_scale(lambda x, y: x - y, a, b),
    "*": lambda a, b: limited(a[0] * b[0], a[1] + b[1]),
    "/": quotient,
    "%": remainder,
}
COMPARISONS = {
    "<": lambda a, b: a < b,
    "<=": lambda a, b: a <= b,
    "==": lambda a, b: a == b,
    "!=": lambda a, b: a != b,
    ">=": lambda a, b: a >= b,
    ">": lambda a, b: a > b,
}


def check_decimals(tally, program):
    """Each operation on the same generated numbers, and the numbers as they are rounded, cast and read."""
    with tempfile.TemporaryDirectory() as made:
        folder = Path(made)
        source = Source()
        pairs = [(source.number(), source.number()) for _ in range(ROUNDS)]
        given = [f"[{text(a)},{text(b)}]" for a, b in pairs]
        for sign, operation in OPERATIONS.items():
            wanted = [operation(a, b) for a, b in pairs]
            compare(tally, program, folder, f"decimals by {sign}", of_path(f"$[0] {sign} $[1]"), given, wanted)
        for sign, holds in COMPARISONS.items():
            asked = f"SELECT JSON_EXISTS(doc, '$ ? ($[0] {sign} $[1])');"
            wanted = [str(holds(value(a), value(b))).upper() for a, b in pairs]
            compare(tally, program, folder, f"decimals by {sign}", asked, given, wanted)
        numbers = [number for number, _ in pairs]
        given = [text(number) for number in numbers]
        for method, whole in [("floor", Fraction.__floor__), ("ceiling", Fraction.__ceil__)]:
            wanted = [str(whole(value(number))) for number in numbers]
            compare(tally, program, folder, f"decimals by {method}", of_path(f"$.{method}()"), given, wanted)
        spellings = [source.spelling() for _ in range(2 * ROUNDS)]
        wanted = [read(spelling) for spelling in spellings]
        compare(tally, program, folder, "spellings of decimals", of_path("+$"), spellings, wanted)
        check_roundings(tally, program, folder, source)


def of_path(path):
    return f"SELECT JSON_VALUE(doc, '{path}' ERROR ON ERROR);"


def compare(tally, program, folder, name, statement, given, wanted):
    """Compares the answers of a statement, a line each."""
    (folder / "decimals.sql").write_text(statement)
    ended = program.run(["run", "decimals.sql"], "\n".join(given).encode(), folder)
    rows = [row_of(line, 1, answer) for line, answer in enumerate(wanted, 1)]
    tally.check(name, first_difference(given, rows, ended))


def check_roundings(tally, program, folder, source):
    """Numbers that are cast to a NUMERIC of so many digits and decimals, a statement each."""
    statements, rows = [], []
    for number in range(1, ROUNDS + 1):
        a, p = source.number(), 1 + source.below(38)
        s = source.below(p + 1)
        statements.append(f"SELECT JSON_VALUE(doc, '{text(a)}' RETURNING NUMERIC({p},{s}) ERROR ON ERROR);")
        rows.append(row_of(1, number, rounded(a, p, s)))
    (folder / "decimals.sql").write_text("\n".join(statements))
    ended = program.run(["run", "decimals.sql"], b"null", folder)
    tally.check("rounded decimals", first_difference(statements, rows, ended))


def row_of(line, statement, answer):
    return f"{line}\t{statement}\t{'E' if answer in (RANGE, ZERO_DIVIDE) else 'R'}\t{answer}"


def first_difference(given, rows, ended):
    """Says what is given where the first row differs, or how a run ended otherwise."""
    found = ended.output.decode(errors="backslashreplace").split("\n")
    for asked, row, wrote in zip(given, rows, found):
        if row != wrote:
            return f"{asked} gives {wrote!r}, and not {row!r}"
    return difference(Ended(0, "".join(f"{row}\n" for row in rows).encode()), ended)
