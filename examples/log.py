"""A list as a SARIF log, after document 02, §1, and a tree whose log has all that a log can have.

This shares nothing with the Rattle but the names, severities and reasons of tools/codes.txt. examples/check, compare/sarif and the
gate (tools/desk-cases.py) hold the logs of the program desk against it, byte for byte.
"""
import codecs
import pathlib
import re
import struct

import export

ROOT = pathlib.Path(__file__).resolve().parent.parent
TABLE = (ROOT / "tools" / "codes.txt").read_text()
SCHEMA = "https://docs.oasis-open.org/sarif/sarif/v2.1.0/errata01/os/schemas/sarif-schema-2.1.0.json"
PHRASES = {
    1: "Unused load of",
    2: "Unused assignment of",
    3: "Unused argument",
    4: "Use of unassigned variable",
    5: "Use of undefined variable",
    6: "Use of potentially undefined variable",
    7: "This return lacks an expression, which is wanted by function",
    8: "No return at the end of function",
    9: "Unreachable statement",
    10: "Redundant return at the end of a function",
    11: "Redundant continue at the end of a loop",
    12: "A load statement not at the top of the file",
    13: "Statement has no effect",
    14: "Incompatible check of a type against",
    15: "Duplicate top-level assignment of",
    16: "Duplicate dictionary key",
    17: "Statement that does nothing or fails: variable",
}
# Why two keys are equal, by the number that stands in the place of a third span; their code alone has one.
REASONS = {int(number): words for number, words in re.findall(r"^reason (\d+)\n  says: (.*)$", TABLE, re.MULTILINE)}
EQUAL_KEYS = 16
# What a message says of a value before it, by the value's kind.
KINDS = (" ", " string ", " bytes ", " integer 0x", " float of bytes ")
# Words for the second span, then for the third.
OTHERS = {
    7: ("the function", "why the function wants a value"),
    8: ("why the function wants a value",),
    15: ("first defined here",),
    16: ("the equal key after it",),
}
# "warning, or none for disabled"; a level none belongs beside a kind other than fail.
LEVELS = {"warning": "warning", "disabled": "none"}
SORTS = {"warning": "fail", "none": "informational"}

# Levels warning and none; second spans and a third; a string that would be a placeholder and a link outside an argument,
# bytes, integers (0 has no bytes) and floats as keys, equal for either reason; one pair that only strict keys hold for equal.
SCRIPT = r"""# globals: print
load("names.star", "sidereal")
def odd(comet):
    if comet:
        return
    return 1
odd = {"\"\u20ac\n{0} [a](b)": 1, "\"\u20ac\n{0} [a](b)": 2, b"\xff": 3, b"\xff": 4, 0: 5, 0: 6, 1: 7, 1.0: 8, 10000000000: 9, 1e10: 10}
print(stray)
2
""".encode()
# A name of a tree is any bytes. The last three here begin a character and don't end it.
NAMES = {
    b"odd": b'odd"\\/\x00\x1f\x7f',
    b"stray": b"stray \xc3\xa9\xe2\x82\xac\xf0\x9f\x94\xad\xff\xc0\x80\xed\xa0\x80\xf0\x9f\x94",
}


def sample():
    """The tree of SCRIPT under those names."""
    root = export.Script(SCRIPT).module()
    for node, _ in root.walk():
        if node.value and node.value[0] == 0:
            node.value = 0, NAMES.get(node.value[1], node.value[1])
    return export.packed(root, [b"print"])


def codes():
    """Short name and severity of each code of tools/codes.txt."""
    heads = [line.split() for line in TABLE.splitlines() if line[:1].isdigit()]
    return {int(number): (name, severity) for number, name, severity in heads}


def values_of(tree):
    """The value table of a valid tree file."""
    nodes, count = struct.unpack_from("<HH", tree, 5)
    at, out = 11 + 16 * nodes, []
    for _ in range(count):
        kind, length = struct.unpack_from("<BH", tree, at)
        out.append((kind, tree[at + 3 : at + 3 + length]))
        at += 3 + length
    return out


# "a replacement character for each byte outside well-formed UTF-8"; Python's own `replace` gives one for several.
codecs.register_error("each byte", lambda wrong: ("\ufffd" * (wrong.end - wrong.start), wrong.end))


def shown(value):
    """ "names and keys as text, numbers in hex of their value bytes" """
    kind, data = value
    return data.decode("utf-8", "each byte") if kind <= 2 else data.hex()


class Rows(list):
    """An array with each item on a line of its own."""


def text(x):
    """The JSON text of a value, characters that must be escaped by their numbers."""
    if isinstance(x, int):
        return str(x)
    if isinstance(x, str):
        return '"' + "".join(f"\\u{ord(c):04x}" if c < " " or c in '"\\' else c for c in x) + '"'
    if isinstance(x, dict):
        return "{" + ",".join(f"{text(k)}:{text(v)}" for k, v in x.items()) + "}"
    before = "\n" if isinstance(x, Rows) else ""
    return "[" + ",".join(before + text(item) for item in x) + "]"


def location(begin, end, says=None):
    place = {"uri": "script.star", "index": 0}
    region = {"byteOffset": begin, "byteLength": end - begin}
    out = {"physicalLocation": {"artifactLocation": place, "region": region}}
    return out | {"message": {"text": says}} if says else out


def rule(code, entry):
    return {"id": str(code), "name": entry[0], "defaultConfiguration": {"level": LEVELS[entry[1]]}}


def phrase(numbers):
    """What a message says before the value of a record: the code's phrase, and of equal keys the reason."""
    code, reason = numbers[0], numbers[6]
    return PHRASES[code] + (f", {REASONS[reason]}:" if code == EQUAL_KEYS else "")


def message(phrased, value):
    """A phrase and a value, whose kind stands in the text; what it is is an argument."""
    if value is None:
        return {"text": phrased, "arguments": []}
    return {"text": phrased + KINDS[value[0]] + "{0}", "arguments": [shown(value)]}


def result(numbers, level, index, values):
    code, begin, end, value = numbers[:4]
    spans = (numbers[4:6], numbers[6:8])
    return {
        "ruleId": str(code),
        "ruleIndex": index,
        "locations": [location(begin, end)],
        "kind": SORTS[level],
        "level": level,
        "message": message(phrase(numbers), None if value == export.NONE else values[value]),
        "relatedLocations": [location(*at, says) for at, says in zip(spans, OTHERS.get(code, ()))],
    }


def log(tree, records):
    """The log of a valid tree whose list is these records; of nodes a log says nothing."""
    table, values = codes(), values_of(tree)
    present = sorted({numbers[0] for numbers in records})
    results = [result(r, LEVELS[table[r[0]][1]], present.index(r[0]), values) for r in records]
    driver = {"name": "Yudronkha", "rules": Rows(rule(code, table[code]) for code in present)}
    run = {
        "tool": {"driver": driver},
        "artifacts": [{"location": {"uri": "script.star"}}],
        "results": Rows(results),
    }
    return (text({"$schema": SCHEMA, "version": "2.1.0", "runs": [run]}) + "\n").encode()


def records(listing):
    """The records of a listing that ends in a total."""
    return [[int(n) for n in line.split()] for line in listing.splitlines()[:-1]]
