"""Whether a text is JSON, and of which kind, by Python's reader with its leniencies taken out.

The answers do not come from the program, so it can be compared with them. Python's reader takes NaN, Infinity and lone
surrogates; here they are no JSON, nor is what isn't UTF-8. Numbers are kept as texts, since a number of any length is
JSON. An object may have a key more than once, which is told.

Python's reader recurses, and gives up at some hundreds of arrays and objects inside one another. A text with more of
them is read from the inside out: each array or object that has none in it is read by itself, and null stands in its
place. No two pieces of a text make a null together, and nothing beside a null does, so the text is JSON exactly if all
that is read is.
"""
import json
import re

LONGEST = 16_777_216
DEEPEST = 100_000
SHALLOW = 400  # so many arrays and objects are surely within the reach of Python's reader
BLANKS = b" \t\r"
SURROGATE = re.compile(r"\\u[dD][89a-fA-F]")
# A string, one end of an array or object, or what stands between these. A quotation mark alone begins no string.
PIECE = re.compile(r'"(?:[^"\\]|\\.)*"|[][{}]|[^][{}"]+|"', re.S)


class NotJson(ValueError):
    """The text is not JSON."""


class Kinds:
    """Reads texts, and keeps whether an object of the last one has two equal keys."""

    def __init__(self):
        self.repeats = False
        self.decoder = json.JSONDecoder(
            object_pairs_hook=self.members, parse_int=str, parse_float=str, parse_constant=self.refuse_constant
        )

    def members(self, pairs):
        """An object as the tuple of its members: so it is no list, and keeps equal keys."""
        if len(pairs) > 1 and len({key for key, _ in pairs}) < len(pairs):
            self.repeats = True
        return tuple(pairs)

    def refuse_constant(self, word):
        raise NotJson(word)

    def kind(self, line):
        """The kind of a line's value: `OBJECT`, `ARRAY` or `SCALAR`, or nothing where the line is not JSON."""
        self.repeats = False
        if len(line) > LONGEST:
            return None
        try:
            text = line.decode("utf-8")
            if text.count("[") + text.count("{") > SHALLOW:
                self.read_inside_out(text)
            else:
                self.read(text)
        except ValueError:  # (a text that can't be decoded or encoded is a ValueError too)
            return None
        return {"{": "OBJECT", "[": "ARRAY"}.get(text.strip(" \t\n\r")[:1], "SCALAR")

    def read(self, text):
        value = self.decoder.decode(text)
        if SURROGATE.search(text):
            json.dumps(value, ensure_ascii=False).encode("utf-8")

    def read_inside_out(self, text):
        """Reads each array and object with null in the place of those in it, and at last the text itself."""
        around, pieces = [], []
        for piece in PIECE.findall(text):
            if piece in ("[", "{"):
                around.append(pieces)
                pieces = [piece]
                if len(around) > DEEPEST:
                    raise NotJson("it is too deep")
            elif piece in ("]", "}"):
                self.read("".join([*pieces, piece]))
                if not around:
                    raise NotJson("it closes what isn't open")
                pieces = [*around.pop(), "null"]
            else:
                pieces.append(piece)
        self.read("".join(pieces))


def is_blank(line):
    return len(line) <= LONGEST and not line.strip(BLANKS)
