#!/usr/bin/env python3
"""deep.py FOLDER: writes trees of depth 48 there, each of one construct or of two by turns, nested as deep as the limit lets them."""
import itertools
import os
import struct
import sys

DEPTH = 48
NONE = 65535

# A tree is (kind, role, value number, children); every name is value 0.


def leaf(kind, role):
    return (kind, role, 0 if kind in (20, 40, 43) else NONE, [])


def node(kind, role, *children):
    return (kind, role, NONE, list(children))


def clause(*over):
    return node(45, 0, leaf(40, 5), *over)


STATEMENTS = {
    "if": lambda r, s: node(9, r, leaf(20, 4), s(1)),
    "else": lambda r, s: node(10, r, leaf(20, 4), leaf(3, 1), s(2)),
    "for": lambda r, s: node(11, r, leaf(40, 5), leaf(20, 4), s(1)),
    "def": lambda r, s: node(12, r, leaf(40, 6), s(1)),
    "statements": lambda r, s: node(8, r, s(0)),
}
EXPRESSIONS = {
    "other": lambda r, e: node(33, r, e(0)),
    "call": lambda r, e: node(23, r, e(7)),
    "conditional": lambda r, e: node(30, r, e(0), leaf(20, 0), leaf(20, 0)),
    "lambda": lambda r, e: node(24, r, e(1)),
    "lambda's default": lambda r, e: node(24, r, (43, 0, 0, [e(0)]), leaf(20, 1)),
    "comprehension's result": lambda r, e: node(25, r, e(4), clause(leaf(20, 4))),
    "comprehension's over": lambda r, e: node(25, r, leaf(20, 4), clause(e(4))),
    "comprehension's if": lambda r, e: node(25, r, leaf(20, 4), clause(leaf(20, 4)), node(46, 0, e(4))),
    "comprehension's key": lambda r, e: node(26, r, e(8), leaf(20, 4), clause(leaf(20, 4))),
}
# Where an expression stands: as a statement, assigned, assigned by an operator, returned.
HOLDERS = {
    "statement": lambda e: node(5, 0, e(4)),
    "assign": lambda e: node(6, 0, leaf(40, 5), e(4)),
    "modify": lambda e: node(7, 0, leaf(40, 5), e(4)),
    "return": lambda e: node(4, 0, e(4)),
}


def size(tree):
    return 1 + sum(map(size, tree[3]))


def depth(tree):
    return 1 + max(map(depth, tree[3]), default=0)


def nested(forms, inmost, room):
    made, turn = inmost, 0
    while True:
        further = lambda r, f=forms[turn % len(forms)], m=made: f(r, m)
        if depth(further(0)) > room:
            return made
        made, turn = further, turn + 1


def written(tree, out):
    kind, role, value, children = tree
    at = len(out)  # each node has a span of its own
    out.append(struct.pack("<BBHIIHH", kind, role, size(tree), at, at, value, 0))
    for child in children:
        written(child, out)


def main():
    folder = sys.argv[1]
    os.makedirs(folder, exist_ok=True)
    trees = {}
    ways = lambda forms: [(a,) for a in forms] + list(itertools.permutations(forms, 2))
    for way in ways(STATEMENTS):
        inmost = lambda r: node(5, r, leaf(20, 4))
        trees[" in ".join(way)] = nested([STATEMENTS[w] for w in way], inmost, DEPTH)(0)
    for way in ways(EXPRESSIONS):
        inside = nested([EXPRESSIONS[w] for w in way], lambda r: leaf(20, r), DEPTH - 1)
        for name, holder in HOLDERS.items():
            trees[" in ".join(way) + ", " + name] = holder(inside)
    for name, tree in trees.items():
        out = []
        written(tree, out)
        assert len(out) <= 1024 and depth(tree) <= DEPTH
        data = b"SLT" + struct.pack("<HHHH", 1, len(out), 1, NONE) + b"".join(out) + struct.pack("<BH", 0, 1) + b"x"
        with open(os.path.join(folder, name), "wb") as file:
            file.write(data)


main()
