"""Makes the inputs of the benchmark: JSON texts, one a line, each an object.

Every corpus is the same at every call: the values come from a fixed seed. Without numbers the values are strings,
true, false and null. Two corpora have escapes in their strings, and the others have none.
"""
import random

SEED = 20161215
ELEMENTS = 1_000_000
WIDTH = 30
DEPTH = 32
NAMES = ["Ann", "Bo", "Chloé", "Dmitri", "Eun-ji", "Fatima", "Gábor", "Hana"]
LONGEST = 16_777_216  # bytes of the longest line that the program reads
WORDS = ["lorem", "ipsum", "dolor", "sit", "amet", "consectetur", "adipiscing", "elit", "größer", "naïve"]
ESCAPES = ["\\n", "\\t", '\\"', "\\\\", "\\/", "\\u00e9", "\\u0000", "\\ud83d\\ude00"]
CITIES = ["Oslo", "Kraków", "Lima", "Nairobi", "Osaka", "Turin"]


class Values:
    """Gives values of JSON as texts, numbers among them where they are wanted."""

    def __init__(self, with_numbers):
        self.chance = random.Random(SEED)
        self.with_numbers = with_numbers

    def happens(self):
        return self.chance.random() < 0.5

    def one_of(self, texts):
        return texts[int(self.chance.random() * len(texts))]

    def scalar(self):
        kind = self.chance.random()
        if kind < 0.15:
            return self.one_of(["true", "false", "null"])
        return self.amount() if kind < 0.55 else f'"{self.one_of(NAMES)}"'

    def amount(self):
        """A number where numbers are wanted, else a string of the same digits."""
        kind, whole = self.chance.random(), int(self.chance.random() * 1_000_000)
        digits = f"{whole}" if kind < 0.6 else f"-{whole}.{whole % 97:02}" if kind < 0.95 else f"{whole % 10}.{whole}e-3"
        return digits if self.with_numbers else f'"{digits}"'

    def element(self):
        """A short value: a million of them fit into a line."""
        digits = f"{int(self.chance.random() * 100_000)}"
        kind = self.chance.random()
        if kind < 0.2:
            return "true" if kind < 0.1 else "null"
        return digits if self.with_numbers else f'"{digits}"'


def record(values, number):
    """A small record of about 130 bytes. Half of them have the member `a`, in the middle."""
    found = f'"a":{values.amount()},' if values.happens() else ""
    active = "true" if values.happens() else "false"
    return (
        f'{{"id":"r{number:07}","name":"{values.one_of(NAMES)}",{found}'
        f'"address":{{"city":"{values.one_of(CITIES)}","zip":{values.amount()}}},"active":{active},"tags":["x","y"]}}'
    )


def wide_object(values, number):
    """An object of thirty members. Half of them have the member `a` as their last."""
    members = [f'"column_{k}":{values.scalar()}' for k in range(WIDTH - 1)]
    members.append(f'"{"a" if values.happens() else "b"}":"{number}"')
    return "{" + ",".join(members) + "}"


def long_array(values, number):
    """An object with an array of a million elements. Half of them have the member `a` behind it."""
    elements = ",".join(values.element() for _ in range(ELEMENTS))
    return f'{{"number":"{number}","elements":[{elements}],"{"a" if number % 2 else "b"}":null}}'


def long_text(values, between):
    """A string of some thousand letters: words, each with one of the texts behind it."""
    count = 200 + int(values.chance.random() * 1800)
    return '"' + "".join(values.one_of(WORDS) + values.one_of(between) for _ in range(count)) + '"'


def long_strings(values, number, between=(" ",)):
    """An object with three long strings without escapes. Half of them have the member `a` behind the first."""
    found = "a" if values.happens() else "b"
    first, second, third = (long_text(values, between) for _ in range(3))
    return f'{{"first":{first},"{found}":"{number}","next":[{second},{third}]}}'


def escaped_strings(values, number):
    """The same with an escape behind each word."""
    return long_strings(values, number, ESCAPES)


def escapes_alone(values, number):
    """A line of the greatest length, of one string that is escapes alone."""
    begun = f'{{"{"a" if number % 2 else "b"}":"'
    return begun + "\\u0000" * ((LONGEST - len(begun) - 2) // 6) + '"}'


def order(values, number):
    """A small order with two lines, each of 1 to 4 pieces. It needs numbers, and the price has two decimals."""
    lines = ",".join(
        f'{{"sku":"{values.one_of("ABC")}-{int(values.chance.random() * 99) + 1}",'
        f'"qty":{int(values.chance.random() * 4) + 1},"price":{values.chance.random() * 100:.2f}}}'
        for _ in range(2)
    )
    return f'{{"order":{number},"customer":{{"name":"{values.one_of(NAMES)}"}},"lines":[{lines}]}}'


def mixed(values, number):
    """An order, an array of one, a scalar, or an order that is cut off, which is no JSON: a quarter of the lines each."""
    kind, whole = int(values.chance.random() * 4), order(values, number)
    if kind == 0:
        return whole
    if kind == 1:
        return f"[{whole}]"
    return values.scalar() if kind == 2 else whole[: 1 + int(values.chance.random() * (len(whole) - 1))]


def small(_values, number):
    """A line of seven bytes: an object of one member, a digit."""
    return f'{{"a":{number % 10}}}'


def deep(_values, number):
    """A leaf behind 32 members `a`, each of them behind another member."""
    return '{"k":1,"a":' * DEPTH + f'{{"leaf":{number}}}' + "}" * DEPTH


KINDS = {
    "records": record,
    "wide": wide_object,
    "array": long_array,
    "strings": long_strings,
    "escaped": escaped_strings,
    "escapes": escapes_alone,
}


def write_corpus(kind, path, size, with_numbers):
    """Writes whole lines of this kind until there are at least `size` bytes, and returns the number of bytes."""
    return write_lines(KINDS[kind], path, size, with_numbers)


def write_lines(make, path, size, with_numbers=True):
    """Writes whole lines, each made by `make`, until there are at least `size` bytes, and returns the number of bytes."""
    values, number, written = Values(with_numbers), 0, 0
    with open(path, "wb") as file:
        while written < size:
            number += 1
            line = make(values, number).encode() + b"\n"
            file.write(line)
            written += len(line)
    return written
