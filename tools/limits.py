#!/usr/bin/env python3
"""Writes the cases of crates/limits: tools/limits.py > crates/limits/stdin

A case is a label's length (a byte), the label, the file's length (32 bits, little-endian), the file.
What each must be judged to be stands in crates/limits/stdout, written by hand from document 01.
"""
import struct
import sys

NONE = 65535


def node(kind, role, size, begin=0, end=0, value=NONE, last=0):
    return struct.pack("<BBHIIHH", kind, role, size, begin, end, value, last)


def value(kind, data, length=None):
    return struct.pack("<BH", kind, len(data) if length is None else length) + data


def tree(nodes, values=(), listed=None, version=1, mark=b"SLT", counts=None, tail=b""):
    n, v, g = counts or (len(nodes), len(values), NONE if listed is None else len(listed))
    head = mark + struct.pack("<HHHH", version, n, v, g)
    return head + b"".join(nodes) + b"".join(values) + b"".join(struct.pack("<H", x) for x in listed or ()) + tail


def names(n):
    return [value(0, struct.pack(">H", 0x4141 + i)) for i in range(n)]


def passes(n):
    """statements with n - 1 pass below it: n nodes"""
    return [node(8, 0, n)] + [node(3, 0, 1)] * (n - 1)


def nested(depth):
    """statements in statements, depth of them"""
    return [node(8, 0, depth - i) for i in range(depth)]


def dict_of(roles):
    """an expression statement of a dict whose children are identifiers with these roles"""
    n = len(roles)
    return [node(5, 0, n + 2), node(29, 4, n + 1)] + [node(20, r, 1, value=0) for r in roles]


ROOT = [node(8, 0, 1)]
ONE = value(3, b"\x01")
X = value(0, b"x")
FLOAT = struct.pack("<d", 1.0)
INF = struct.pack("<d", float("inf"))

CASES = [
    ("no bytes", b""),
    ("ten bytes", tree(ROOT)[:10]),
    ("another mark", tree(ROOT, mark=b"SLI")),
    ("eleven bytes of version 1 with no nodes", tree([])),
    ("version 0", tree(ROOT, version=0)),
    ("version 2", tree(ROOT, version=2)),
    ("version 3", tree(ROOT, version=3)),
    ("version 258, whose low byte is 2", tree(ROOT, version=258)),
    ("version 65535", tree(ROOT, version=65535)),
    ("eleven bytes of version 2 with no nodes", tree([], version=2)),
    ("version 3 and no nodes: 2 before 3", tree([], version=3)),
    ("another mark and version 3: 1 before 2", tree(ROOT, version=3, mark=b"slt")),
    ("the example of 47 bytes, globals not given", tree([node(5, 0, 2, 0, 1), node(21, 4, 1, 0, 1, 0)], [ONE])),
    ("the example of 47 bytes in version 2", tree([node(5, 0, 2, 0, 1), node(21, 4, 1, 0, 1, 0)], [ONE], version=2)),
    ("the example of 47 bytes, no globals", tree([node(5, 0, 2, 0, 1), node(21, 4, 1, 0, 1, 0)], [ONE], [])),
    ("1,024 nodes", tree(passes(1024))),
    ("1,025 nodes", tree(passes(1025))),
    ("512 values", tree(ROOT, names(512))),
    ("513 values", tree(ROOT, names(513))),
    ("512 globals", tree(ROOT, names(512), range(512))),
    ("513 globals", tree(ROOT, names(512), range(513))),
    ("globals 65534", tree(ROOT, counts=(1, 0, 65534))),
    ("a byte short", tree(ROOT, [ONE])[:-1]),
    ("a byte over", tree(ROOT, [ONE], tail=b"\0")),
    ("a value of 255 bytes", tree(ROOT, [value(1, b"s" * 255)])),
    ("a value of 256 bytes", tree(ROOT, [value(1, b"s" * 256)])),
    ("a length of 256 that the bytes don't have: 4 before 5", tree(ROOT, [value(1, b"s" * 9, 256)])),
    ("an integer of 64 bytes", tree(ROOT, [value(3, b"\xff" * 64)])),
    ("an integer of 65 bytes", tree(ROOT, [ONE, value(3, b"\xff" * 65)])),
    ("the integer 0", tree(ROOT, [value(3, b"")])),
    ("a leading zero byte", tree(ROOT, [ONE, value(3, b"\0\1")])),
    ("an empty string, an empty bytes", tree(ROOT, [value(1, b""), value(2, b"")])),
    ("an empty name", tree(ROOT, [value(0, b"")])),
    ("a float of 7 bytes", tree(ROOT, [ONE, value(4, FLOAT[:7])])),
    ("infinity", tree(ROOT, [value(4, INF)])),
    ("NaN", tree(ROOT, [value(4, struct.pack("<d", float("nan")))])),
    ("a negative float", tree(ROOT, [value(4, struct.pack("<d", -0.0))])),
    ("a value of kind 5", tree(ROOT, [X, value(5, b"")])),
    ("two equal values", tree(ROOT, [X, ONE, ONE])),
    ("values out of order by kind", tree(ROOT, [X, ONE, value(2, b"")])),
    ("values out of order by length", tree(ROOT, [value(0, b"bb"), value(0, b"a")])),
    ("values out of order by their bytes", tree(ROOT, [value(0, b"ab"), value(0, b"aa")])),
    ("a bad form before a bad order", tree(ROOT, [X, value(3, b"\0"), value(2, b"")])),
    ("an unknown kind", tree([node(8, 0, 3), node(3, 0, 1), node(14, 0, 1)])),
    ("begin above end", tree([node(8, 0, 3), node(3, 0, 1), node(3, 0, 1, 2, 1)])),
    ("the last field not 0", tree([node(8, 0, 3), node(3, 0, 1), node(3, 0, 1, last=1)])),
    ("a size of 0", tree([node(8, 0, 3), node(3, 0, 1), node(3, 0, 0)])),
    ("a size beyond the parent", tree([node(8, 0, 4), node(8, 0, 2), node(8, 0, 2), node(3, 0, 1)])),
    ("a size beyond the file", tree([node(8, 0, 2), node(3, 0, 2)])),
    ("node 0 beyond the file", tree([node(8, 0, 3), node(3, 0, 1)])),
    ("outside node 0, measured against the file", tree([node(8, 0, 1), node(8, 0, 2), node(8, 0, 2), node(8, 0, 1)])),
    ("a value number beyond the table", tree([node(8, 0, 3), node(5, 0, 2), node(20, 4, 1, value=1)], [X])),
    ("a name missing", tree([node(8, 0, 3), node(5, 0, 2), node(20, 4, 1)], [X])),
    ("a value forbidden", tree([node(8, 0, 3), node(5, 0, 2, value=0), node(20, 4, 1, value=0)], [X])),
    ("an identifier of an integer", tree([node(8, 0, 3), node(5, 0, 2), node(20, 4, 1, value=1)], [X, ONE])),
    ("a literal of a name", tree([node(8, 0, 3), node(5, 0, 2), node(21, 4, 1, value=0)], [X])),
    ("node 0 short of the count", tree([node(8, 0, 1), node(3, 0, 1)])),
    ("the root no statement", tree([node(22, 0, 1)])),
    ("the root with a role", tree([node(3, 1, 1)])),
    ("a child of a role that is not listed", tree([node(8, 0, 3), node(8, 0, 2), node(3, 1, 1)])),
    ("a child of another class", tree([node(8, 0, 3), node(3, 0, 1), node(22, 0, 1)])),
    ("a child that is missing", tree([node(8, 0, 3), node(3, 0, 1), node(5, 0, 1)])),
    ("one child too many", tree([node(8, 0, 4), node(4, 0, 3), node(22, 4, 1), node(22, 4, 1)])),
    ("a child below a leaf", tree([node(8, 0, 3), node(3, 0, 2), node(3, 0, 1)])),
    ("a def's name of kind 41", tree([node(8, 0, 4), node(12, 0, 3), node(41, 6, 1), node(3, 1, 1)])),
    ("a dict of two pairs", tree(dict_of([8, 4, 8, 4]), [X])),
    ("a dict with the value first", tree(dict_of([4, 8]), [X])),
    ("a dict with a key and no value", tree(dict_of([8, 4, 8]), [X])),
    ("a comprehension that begins with an if", tree([node(5, 0, 8), node(25, 4, 7), node(22, 4, 1), node(46, 0, 2), node(22, 4, 1), node(45, 0, 3), node(41, 5, 1), node(22, 4, 1)])),
    ("a comprehension with the result last", tree([node(5, 0, 6), node(25, 4, 5), node(45, 0, 3), node(22, 4, 1), node(41, 5, 1), node(22, 4, 1)])),
    ("a comprehension without a clause", tree([node(5, 0, 3), node(25, 4, 2), node(22, 4, 1)])),
    ("a conditional of two", tree([node(5, 0, 4), node(30, 4, 3), node(22, 0, 1), node(22, 0, 1)])),
    ("a depth of 48", tree(nested(48))),
    ("a depth of 49", tree(nested(49))),
    ("a depth of 49 after others", tree([node(8, 0, 51), node(3, 0, 1), node(3, 0, 1)] + nested(48))),
    ("a global that is no name", tree(ROOT, [X, ONE], [0, 1])),
    ("a global beyond the table", tree(ROOT, [X], [0, 1])),
    ("a global 65535", tree(ROOT, [X], [0, NONE])),
    ("a global twice", tree(ROOT, names(3), [0, 2, 2])),
    ("globals that descend", tree(ROOT, names(3), [1, 2, 0])),
    ("5 before 6", tree([node(14, 0, 1)], [X, X])),
    ("6 at a later node before 7 at node 0", tree([node(8, 0, 1), node(3, 0, 1), node(14, 0, 1)])),
    ("7 before 8", tree([node(8, 0, 50)] + [node(8, 0, 49 - i) for i in range(48)] + [node(22, 0, 1)])),
    ("8 before 9", tree(nested(49), [ONE], [0])),
]


def main():
    out = sys.stdout.buffer
    for label, data in CASES:
        text = label.encode()
        out.write(struct.pack("<B", len(text)) + text + struct.pack("<I", len(data)) + data)


main()
