"""Valid tree files and their scripts, as the commands show them: names and values, lines and columns. Not proved.

A script stands beside its tree, with the suffix .star. Lines end with a line feed; lines and columns count from 1; the mark
that a file may begin with is no column.
"""
import ast
import bisect
import os
import re
import stat
import struct
import warnings

from ends import named, printable

HEAD, NODE = 11, struct.Struct("<BBHIIHH")
NAME, STRING, BYTES, INTEGER = range(4)
# Kinds of nodes that hold a name; a loaded name may stand as a string.
NAMED, LOADED = {20, 40, 43, 47}, 47
MARK = b"\xef\xbb\xbf"
# What may be a string literal of a name.
LITERAL = re.compile(rb"""[rR]?(["']).{1,2000}\1""", re.DOTALL)


class NotAtHand(Exception):
    """Why no lines of a script can be shown."""


class Absent(NotAtHand):
    """There is no script."""


class Stale(NotAtHand):
    """The script is not the one that the tree was exported from."""


def nodes_of(tree):
    (count,) = struct.unpack_from("<H", tree, 5)
    return NODE.iter_unpack(tree[HEAD : HEAD + NODE.size * count])


def values_of(tree):
    """The value table: a kind and bytes for each."""
    nodes, count = struct.unpack_from("<HH", tree, 5)
    at, out = HEAD + NODE.size * nodes, []
    for _ in range(count):
        kind, length = struct.unpack_from("<BH", tree, at)
        out.append((kind, tree[at + 3 : at + 3 + length]))
        at += 3 + length
    return out


def shown_float(number):
    """A float; where an integer of a tree can equal it, with every digit."""
    if number == float("inf"):
        return "infinity"
    return f"{number:.1f}" if number.is_integer() and number < 2.0**512 else repr(number)


def shown(value):
    """A value of the table, as a script has it."""
    kind, data = value
    if kind == BYTES:
        return repr(data)
    if kind == INTEGER:
        return str(int.from_bytes(data, "big"))
    if kind > INTEGER:
        return shown_float(struct.unpack("<d", data)[0])
    if kind == STRING:
        data = data.replace(b"\\", b"\\\\").replace(b'"', b'\\"')
    text = printable(data.decode("utf-8", "backslashreplace"))
    return f"`{text}`" if kind == NAME else f'"{text}"'


# The script that a tree was exported from.


def script_of(path):
    return os.path.splitext(path)[0] + ".star"


def literal(text):
    """The bytes of a string literal, or None."""
    if not LITERAL.fullmatch(text):
        return None
    try:
        with warnings.catch_warnings():
            warnings.simplefilter("ignore")
            value = ast.literal_eval(text.decode("utf-8"))
    except (ValueError, SyntaxError, RecursionError, MemoryError):
        return None
    return value.encode("utf-8", "surrogatepass") if isinstance(value, str) else None


def spells(kind, text, name):
    return text == name or kind == LOADED and literal(text) == name


def fits(tree, script):
    """Whether the tree can be this script's: no span passes its end, and at each name's span stands that name."""
    values = values_of(tree)
    for kind, _, _, begin, end, value, _ in nodes_of(tree):
        if end > len(script) or kind in NAMED and not spells(kind, script[begin:end], values[value][1]):
            return False
    return True


class Script:
    """A script, its places and its lines."""

    def __init__(self, path, data):
        self.path, self.data = path, data
        self.starts = [0, *(found.end() for found in re.finditer(b"\n", data))]

    def line(self, offset):
        """The number of the line that an offset is on, from 0."""
        return bisect.bisect_right(self.starts, offset) - 1

    def before(self, offset):
        """What stands before an offset on its line."""
        start = self.starts[self.line(offset)]
        if start == 0 and self.data.startswith(MARK):
            start = len(MARK)
        return self.data[start:offset]

    def after(self, offset):
        """What stands on the line of an offset from there on."""
        end = self.data.find(b"\n", offset)
        return self.data[offset : None if end < 0 else end].rstrip(b"\r")

    def place(self, offset):
        """Line and column in characters; a byte that is no part of one counts as one."""
        return self.line(offset) + 1, len(self.before(offset).decode("utf-8", "surrogateescape")) + 1

    def unit(self, offset):
        """Line and column in UTF-16 code units; None past the end, inside a character, or after bytes that are no UTF-8."""
        try:
            units = len(self.before(offset).decode("utf-8").encode("utf-16-le")) // 2
        except UnicodeDecodeError:
            return None
        return (self.line(offset) + 1, units + 1) if offset <= len(self.data) else None


def script_bytes(path):
    # A pipe of that name must not hold the command up.
    number = os.open(path, os.O_RDONLY | os.O_NONBLOCK)
    with open(number, "rb", buffering=0) as file:
        if not stat.S_ISREG(os.fstat(number).st_mode):
            raise NotAtHand(f"{named(path)} is no file")
        return file.read()


def beside(path, tree):
    """The script beside a valid tree."""
    script = script_of(path)
    if path in ("-", script):
        raise Absent("no script stands beside it")
    try:
        data = script_bytes(script)
    except FileNotFoundError:
        raise Absent(f"there is no {named(script)}") from None
    except OSError as why:
        raise NotAtHand(f"{named(script)} can't be read: {why.strerror}") from None
    if not fits(tree, data):
        raise Stale(f"{named(script)} was changed after this tree was exported: export it again")
    return Script(script, data)
