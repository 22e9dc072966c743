"""Where a statement file and a path break into tokens, found apart from the program.

The answers do not come from the program, so it can be compared with them: a statement is refused for a lexical error
exactly where its text does not break into tokens, and so is a path, which is too deep exactly by its tokens.
"""
import re

WORD = rb"[A-Za-z_][A-Za-z0-9_]*"
HEX = rb"[0-9a-fA-F]"
# Two escapes of a surrogate pair are one character; one of a surrogate alone is none.
UNIT = rb"\\u(?:(?:[0-9abcefABCEF]" + HEX + rb"|[dD][0-7])" + HEX + HEX + rb")"
PAIR = rb"\\u[dD][89abAB]" + HEX + HEX + rb"\\u[dD][c-fC-F]" + HEX + HEX
JSON_STRING = rb'"(?:[^"\\\x00-\x1f]|\\["\\/bfnrt]|' + PAIR + rb"|" + UNIT + rb')*"'
JSON_NUMBER = rb"(?:0|[1-9][0-9]*)(?:\.[0-9]+)?(?:[eE][+-]?[0-9]+)?"

SQL_SPACE = re.compile(rb"(?:[ \t\n\r]|--[^\n]*(?:\n|$))+")
SQL_NUMBER = re.compile(rb"[0-9]+(?:\.[0-9]+)?")
SQL_OTHER = re.compile(rb"""[(),;:*+-]|""" + WORD + rb"""|'(?:[^']|'')*'|"(?:[^"]|"")+\"""")
PATH_SPACE = re.compile(rb"[ \t\n\r]+")
PATH_NUMBER = re.compile(JSON_NUMBER)
PATH_OTHER = re.compile(
    rb"==|!=|<>|<=|>=|&&|\|\||[.*\[\](),?+\-/%<>!@]|\$" + WORD + rb"|\$|" + WORD + rb"|" + JSON_STRING
)
MOST_DIGITS = 38
DEEPEST = 64
MOST_SIGNS = 256
SIGNS = set(b"+ - * / % && || ! . [ ? ,".split())


def tokens(text, space, number, other):
    """The tokens of a text up to the first piece that is none, and whether there is such a piece."""
    found, at = [], 0
    while at < len(text):
        piece = space.match(text, at) or number.match(text, at) or other.match(text, at)
        if not piece or not is_utf8(piece[0]) or (piece.re is number and not is_exact(piece[0])):
            return found, True
        if piece.re is not space:
            found.append(piece[0])
        at = piece.end()
    return found, False


def is_utf8(piece):
    try:
        piece.decode("utf-8")
        return True
    except UnicodeDecodeError:
        return False


def is_exact(number):
    """Whether a number is a whole number below 10^38 in magnitude over a power of ten of at most 38."""
    spelt, _, power = number.lower().partition(b"e")
    whole, _, fraction = spelt.partition(b".")
    digits = (whole + fraction).lstrip(b"0")
    coefficient = digits.rstrip(b"0")
    scale = len(fraction) - int(power or 0) - (len(digits) - len(coefficient))
    if not coefficient:
        return True
    return len(coefficient) - min(scale, 0) <= MOST_DIGITS and scale <= MOST_DIGITS


def file_tokens(text):
    return tokens(text, SQL_SPACE, SQL_NUMBER, SQL_OTHER)


def path_refusal(text):
    """The reason for which the tokens of a path are refused, or nothing where there is none."""
    found, broken = tokens(text, PATH_SPACE, PATH_NUMBER, PATH_OTHER)
    if broken:
        return "path: lexical error"
    open_now = deepest = 0
    for token in found:
        open_now += (token in (b"(", b"[")) - (token in (b")", b"]"))
        deepest = max(deepest, open_now)
    return "path: too deep" if deepest > DEEPEST or sum(token in SIGNS for token in found) > MOST_SIGNS else None
