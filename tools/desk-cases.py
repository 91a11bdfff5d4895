#!/usr/bin/env python3
"""usage: tools/desk-cases.py [--check]

Writes crates/desk/stdin and crates/desk/stdout, on which the gate runs the program desk: requests, and what must be answered.
With --check it writes nothing, and says whether they are as it would write them. Exit status: 0, 1 they aren't, 2 wrong use.

No answer comes from the program itself: lists are the Rust's (compare/recorded, examples/listings.txt), with nodes, the reasons
of equal keys and code 15 of version 2 by document 01's rules as compare/ has them, or, with strict keys, those of the rules;
logs are written by examples/log.py from these lists; the rest is counted here. Whether an integer and a float are one number
(02, §2) is said by Python, which compares them by exact value.
"""
import math
import pathlib
import struct
import sys

ROOT = pathlib.Path(__file__).resolve().parent.parent
sys.dont_write_bytecode = True
sys.path.insert(0, str(ROOT / "examples"))
import asking
import log
from asking import ACCEPTED, LOG, LONGEST, STRICT, TALLY, TWO, request
from export import Node, packed

DESK = ROOT / "crates" / "desk"
SCRIPTS = ROOT / "examples" / "scripts"
RECORDED = ROOT / "compare" / "recorded"
WORK, RECORD, CODES = 32768, 10, 17
# More than the program has of any room, which is taken as all that it has.
AMPLE = 2**32 - 1
# Recorded trees whose list is shorter in version 2, and versions that there aren't.
EXPORTS = "known 7: load x, x = x, x = x", "x = x, then another assign"
VERSIONS = 0, 3, 258, 65535
# An integer and a float that is equal or near: at 0, around the bounds of i32, of 2^53 and of words, up to the largest integer
# of 64 bytes, and floats that no integer of a file equals. 02's own pair has its log too.
LARGEST = 2**512 - 1
TICKS = 2**53, 2.0**53
PAIRS = (
    (0, 0.0),
    (0, 5e-324),
    (2**52 - 1, 2.0**52 - 0.5),
    (2**31 - 1, 2.0**31 - 1),
    (2**31, 2.0**31),
    (2**53 - 1, 2.0**53 - 1),
    TICKS,
    (2**53 + 1, 2.0**53),
    (2**53 + 2, 2.0**53 + 2),
    (2**63 - 1, 2.0**63),
    (2**63, 2.0**63),
    (2**64, 2.0**64),
    (2**64 + 1, 2.0**64),
    (2**511 - 1, 2.0**511),
    (2**511, 2.0**511),
    (2**512 - 2**459, 2.0**512 - 2.0**459),
    (LARGEST, 2.0**512 - 2.0**459),
    (LARGEST, 2.0**512),
    (0, 2.0**512),
    (2**511, 2.0**1023),
    (LARGEST, sys.float_info.max),
    (LARGEST, math.inf),
    (0, math.inf),
)


def refused(number, place):
    return f"refused {number} {place}\n".encode()


def total(listing):
    """How many records a listing has."""
    return len(log.records(listing.decode()))


def tally(listing):
    codes = [numbers[0] for numbers in log.records(listing.decode())]
    return " ".join(["tally", *(str(codes.count(code)) for code in range(1, CODES + 1))]).encode() + b"\n"


# Each case is a request and its answer.


def samples(listings):
    """The sample trees, ordinary keys and strict: among them 01's starred examples."""
    for (name, strict), listing in listings.items():
        yield request(STRICT if strict else 0, tree_of(name)), listing


def tree_of(name):
    return log.sample() if name == "log.py" else (SCRIPTS / name).read_bytes()


def pairs():
    """The recorded trees, each with its list."""
    return zip(asking.files(RECORDED / "recorded.bin"), asking.lists(RECORDED / "recorded.list"))


def recorded(_):
    for tree, listing in pairs():
        yield request(0, tree), listing


def logs(listings):
    """The log of log.py's tree, and the logs of a tree without records and of one that is refused."""
    for strict in (False, True):
        yield request(LOG | strict * STRICT, log.sample()), logged(log.sample(), listings["log.py", strict])
    empty = tree_of("known-empty.slt")
    yield request(LOG, empty), logged(empty, listings["known-empty.slt", False])
    yield request(LOG, b"SLT"), refused(1, 0)


def logged(tree, listing):
    return log.log(tree, log.records(listing.decode()))


def rooms(listings):
    """Each room one short and exactly enough, and all larger than the program's own."""
    tree, listing = log.sample(), listings["log.py", False]
    strict, count = listings["log.py", True], total(listing)
    text, words = logged(tree, listing), RECORD * total(listing)
    for choices, sizes, answer in (
        (0, (WORK - 1, AMPLE, AMPLE, AMPLE), refused(10, 0)),
        (0, (WORK, words - 1, AMPLE, AMPLE), refused(11, count)),
        (0, (WORK, words, 0, 0), listing),
        (0, (AMPLE, AMPLE, AMPLE, AMPLE), listing),
        (STRICT, (WORK, words, 0, 0), refused(11, total(strict))),
        (STRICT, (WORK, RECORD * total(strict), 0, 0), strict),
        (LOG, (WORK - 1, 0, 0, 0), refused(10, 0)),
        (LOG, (WORK, words - 1, len(text) - 1, 0), refused(11, count)),
        (LOG, (WORK, words, len(text) - 1, AMPLE), refused(12, len(text))),
        (LOG, (WORK, words, len(text), 0), text),
        (LOG, (AMPLE, AMPLE, AMPLE, AMPLE), text),
        (TALLY, (WORK, words, 0, 0), listing + tally(listing)),
        (TALLY, (WORK, words - 1, 0, 0), refused(11, count)),
    ):
        yield request(choices, tree, rooms=sizes), answer
    yield request(0, b"", rooms=(1, 0, 0, 0)), refused(1, 0)
    yield request(0, tree_of("known-empty.slt"), rooms=(WORK, 0, 0, 0)), b"total 0\n"


def tallies(listings):
    for (name, strict), listing in listings.items():
        if name in ("log.py", "every-kind.slt", "known-empty.slt"):
            yield request(TALLY | strict * STRICT, tree_of(name)), listing + tally(listing)
    yield request(TALLY, bytes(11)), refused(1, 0)


def literal(number):
    """A number as a value: a float's eight bytes, or an integer's without a zero byte in front."""
    if isinstance(number, float):
        return 4, struct.pack("<d", number)
    return 3, number.to_bytes((number.bit_length() + 7) // 8, "big")


def dict_alone(keys):
    """The tree of a dict with these keys that is a statement, each key and each value on a byte of its own."""
    pairs = [(Node(21, (at, at + 1), value=literal(key)), Node(22, (at + 1, at + 2))) for at, key in zip((0, 2), keys)]
    kids = [node.in_role(role) for pair in pairs for node, role in zip(pair, (8, 4))]
    return packed(Node(5, (0, 4), [Node(29, (0, 4), kids).in_role(4)]), None)


def two_keys(keys, strict):
    """Its list: it has no effect, and its keys are equal or not; with ordinary keys only a whole i32 is one key in both forms."""
    equal = keys[0] == keys[1] and (strict or keys[0] < 2**31)
    later = int(isinstance(keys[1], float))
    lines = ["13 0 4 65535 0 0 0 0 1 65535"] + [f"16 0 1 {later} 2 3 2 0 2 4"] * equal
    return "".join(line + "\n" for line in [*lines, f"total {len(lines)}"]).encode()


def floats(_):
    """An integer and a float as keys, in either order, ordinary and strict."""
    for pair in PAIRS:
        for keys in (pair, pair[::-1]):
            tree = dict_alone(keys)
            for strict in (False, True):
                listing = two_keys(keys, strict)
                yield request(strict * STRICT, tree), listing
                if pair == TICKS:
                    yield request(LOG | strict * STRICT, tree), logged(tree, listing)


def dialect(_):
    """Trees of version 2 (02, §9), one without records and one with, in rooms too small for version 1; other versions."""
    names = (line.split(" ", 1)[1] for line in (RECORDED / "recorded.txt").read_text().splitlines())
    named = dict(zip(names, pairs()))
    for how in EXPORTS:
        (first, more), (tree, listing) = named[how], named[f"version 2: {how}"]
        text, words = logged(tree, listing), RECORD * total(listing)
        for keys in (0, STRICT):
            yield request(keys, tree, rooms=(WORK, words, 0, 0)), listing
            yield request(keys | TALLY, tree), listing + tally(listing)
            yield request(keys | LOG, tree, rooms=(WORK, words, len(text), 0)), text
            yield request(keys | LOG, tree, rooms=(WORK, words, len(text) - 1, 0)), refused(12, len(text))
            yield request(keys, first, rooms=(WORK, words, 0, 0)), refused(11, total(more))
    for version in VERSIONS:
        other = tree[:3] + struct.pack("<H", version) + tree[5:]
        yield from ((request(choices, other), refused(2, 0)) for choices in (STRICT, TALLY, LOG))


def strange(listings):
    """Choices that there aren't, with all that such a request has, and after each a good request: nothing is lost."""
    tree, listing = tree_of("no-effect.slt"), listings["no-effect.slt", False]
    second = bytes(range(256))
    asked = [request(1 << bit, tree, *([second] if 1 << bit in (ACCEPTED, TWO) else [])) for bit in (*range(2, 14), 16, 31)]
    asked += [
        request(LOG | TALLY, tree),
        request(ACCEPTED, tree, b""),
        request(ACCEPTED | TWO, tree, second),
        request(1 << 2, tree, rooms=(WORK, 0, 0, 0)),
        request(TWO, b"", second, rooms=(0, 0, 0, 0)),
    ]
    for wrong in asked:
        yield wrong, b"no such request\n"
        yield request(0, tree), listing


def longest():
    """The longest valid tree, its list and its 17th count: an identifier alone, which is a global, among passes."""
    names = [b"%0255d" % i for i in range(512)]
    alone = Node(5, (1, 4), [Node(20, (2, 3), value=(0, names[-1])).in_role(4)])
    tree = packed(Node(8, (0, 5), [Node(3, (0, 0)) for _ in range(1021)] + [alone]), names)
    if len(tree) != LONGEST:
        raise ValueError(f"a tree of {len(tree)} bytes")
    return tree, b"17 2 3 511 0 0 0 0 1023 65535\ntotal 1\n"


def lengths(listings):
    """The longest tree, one byte more, and none, with good requests between them."""
    tree, listing = longest()
    good = request(0, tree_of("rate.slt")), listings["rate.slt", False]
    yield request(0, tree), listing
    yield request(0, tree + b"\0"), b"too long\n"
    yield good
    yield request(1 << 2, tree + b"\0"), b"no such request\n"
    yield request(0, b""), refused(1, 0)
    yield good


def cut_short():
    """Last, since the program ends there."""
    return request(0, bytes(47))[:-1], b"cut short\n"


def cases():
    listings = asking.listings()
    for part in (samples, logs, rooms, tallies, floats, dialect, strange, lengths, recorded):
        yield from part(listings)
    yield cut_short()


def made():
    """The two files and what goes into them."""
    every = list(cases())
    stdin, stdout = b"".join(asked for asked, _ in every), b"".join(answer + b"--\n" for _, answer in every)
    return len(every), {DESK / "stdin": stdin, DESK / "stdout": stdout}


def main(words):
    if words in (["-h"], ["--help"]):
        print(__doc__.strip())
        return 0
    if words not in ([], ["--check"]):
        print("tools/desk-cases.py: --help has the use", file=sys.stderr)
        return 2
    count, files = made()
    differ = [path for path, data in files.items() if not path.exists() or path.read_bytes() != data]
    for path in differ:
        if not words:
            path.parent.mkdir(exist_ok=True)
            path.write_bytes(files[path])
        print(f"tools/desk-cases.py: {path.relative_to(ROOT)} {'is not as it should be' if words else 'written'}")
    sizes = " and ".join(f"{len(data):,}" for data in files.values())
    print(f"tools/desk-cases.py: {count} requests, {sizes} bytes")
    return 1 if words and differ else 0


if __name__ == "__main__":
    sys.exit(main(sys.argv[1:]))
