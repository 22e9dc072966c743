"""Answers the questions of the benchmark with orjson: `with_orjson.py NAME` runs the loop of that name over its input.

Each loop writes the rows that the program writes for its statement, byte for byte: the line's number, the statement's,
which is 1, `R` and the values, or `E` and the SQLSTATE. A loop is made for the lines that corpora.py writes, as one
would write it by hand for a known input: `member` for lines that are objects, `is_json` for any lines, `wide`, `small`
and `deep` for lines of these kinds, `group` for those of groups.py, and the others for orders, which have all their
members.
"""
import sys
from collections import defaultdict

from orjson import JSONDecodeError, dumps, loads

NULL = b"\\N"
OBJECT = b"TRUE\tTRUE\tFALSE\tFALSE"
ARRAY = b"TRUE\tFALSE\tTRUE\tFALSE"
SCALAR = b"TRUE\tFALSE\tFALSE\tTRUE"
NO_JSON = b"FALSE\tFALSE\tFALSE\tFALSE"


def member(lines, write):
    for number, line in enumerate(lines, 1):
        write(b"%d\t1\tR\t%s\n" % (number, b"TRUE" if "a" in loads(line) else b"FALSE"))


def value(lines, write):
    for number, line in enumerate(lines, 1):
        order = loads(line)
        name, price = text(order["customer"]["name"]), order["lines"][0]["price"]
        # (the float next to a price of two decimals, printed with two, is that price)
        write(f"{number}\t1\tR\t{name}\t{order['order']}\t{price:.2f}\n".encode())


def query(lines, write):
    for number, line in enumerate(lines, 1):
        found = [item for item in loads(line)["lines"] if item["qty"] > 2]
        for item in found:
            item["price"] = plain(item["price"])
        write(b"%d\t1\tR\t%s\n" % (number, json(found) if found else NULL))


def table(lines, write):
    for number, line in enumerate(lines, 1):
        for item in loads(line)["lines"]:
            total = item["qty"] * cents(item["price"])
            write(f"{number}\t1\tR\t{text(item['sku'])}\t{item['qty']}\t{total // 100}.{total % 100:02}\n".encode())


def is_json(lines, write):
    for number, line in enumerate(lines, 1):
        write(b"%d\t1\tR\t%s\n" % (number, kind_of(line)))


def aggregate(lines, write):
    for number, line in enumerate(lines, 1):
        items = loads(line)["lines"]
        pieces = {item["sku"]: item["qty"] for item in items}
        if len(pieces) < len(items):  # a key that comes again
            write(b"%d\t1\tE\t22030\n" % number)
        else:
            write(b"%d\t1\tR\t%s\t%s\n" % (number, json([item["sku"] for item in items]), json(pieces)))


def exists(lines, write):
    for number, line in enumerate(lines, 1):
        write(b"%d\t1\tR\t%s\n" % (number, b"TRUE" if "name" in loads(line)["customer"] else b"FALSE"))


def wide(lines, write):
    for number, line in enumerate(lines, 1):
        found = loads(line)
        a, b = (text(found[key]) if key in found else "\\N" for key in "ab")
        write(f"{number}\t1\tR\t{a}\t{b}\n".encode())


def small(lines, write):
    for number, line in enumerate(lines, 1):
        write(b"%d\t1\tR\t%d\n" % (number, loads(line)["a"]))


def deep(lines, write):
    for number, line in enumerate(lines, 1):
        found = loads(line)
        while "a" in found:
            found = found["a"]
        write(b"%d\t1\tR\t%d\n" % (number, found["leaf"]))


def group(lines, write):
    groups = defaultdict(list)
    for line in lines:
        found = loads(line)
        groups[found["k"]].append(found["v"])
    for key, values in groups.items():
        write(b"G\t%s\t%d\t%s\n" % (text(key).encode(), len(values), json(values)))


def text(value):
    """A text as it stands in a row. (On short texts `translate` takes longer.)"""
    return value.replace("\\", "\\\\").replace("\t", "\\t").replace("\n", "\\n").replace("\r", "\\r")


def json(value):
    """JSON as it stands in a row. Of what is escaped there it has no character but the backslash."""
    return dumps(value).replace(b"\\", b"\\\\")


def cents(price):
    """A price of two decimals in whole cents. orjson gives the float next to it, which is far nearer than half a cent, and
    whole numbers go on from here, so every row is exact. Decimal gives the same rows and takes longer."""
    return round(price * 100)


def plain(number):
    """A number that is printed in JSON as the program prints it: 83.00 is `83` there, and `83.0` in orjson."""
    return int(number) if number == int(number) else number


def kind_of(line):
    """Whether a line is JSON, an object, an array and a scalar."""
    try:
        found = type(loads(line))
    except JSONDecodeError:
        return NO_JSON
    return OBJECT if found is dict else ARRAY if found is list else SCALAR


LOOPS = {loop.__name__: loop for loop in (member, exists, value, query, table, is_json, aggregate, wide, small, deep, group)}


if __name__ == "__main__":
    LOOPS[sys.argv[1]](sys.stdin.buffer, sys.stdout.buffer.write)
