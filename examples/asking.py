"""Requests to the program desk, its answers, and the listings that the samples must have.

A request is numbers of 32 bits, little-endian: the choices; with ROOMS four sizes, of work room (16-bit words), answer room
(32-bit words), output room (bytes) and one that no choice here uses; then an input after its length, with ACCEPTED or TWO a
second one. An answer is lines, then a line `--`.
"""
import pathlib
import re
import struct
import subprocess

ROOT = pathlib.Path(__file__).resolve().parent.parent
STRICT, LOG, ACCEPTED, TWO, TALLY, ROOMS = (1 << bit for bit in (0, 1, 3, 5, 14, 15))
# No valid tree has more bytes.
LONGEST = 11 + 1024 * 16 + 512 * (3 + 255) + 512 * 2
LISTINGS = ROOT / "examples" / "listings.txt"
HEAD = """\
# Listings of the sample trees and of the tree of examples/log.py: by the Rust, and with --strict by document 01's rules as
# compare/ has them, since the Rust has no strict keys. The reasons of equal keys (the seventh and eighth number of code 16) and the
# nodes (the last two numbers of each record) are the rules' too. Written by `examples/check --write`.
"""


def request(choices, *inputs, rooms=None):
    """The bytes of a request; rooms are the sizes that ROOMS asks for."""
    head = struct.pack("<I", choices | (ROOMS if rooms else 0)) + (struct.pack("<4I", *rooms) if rooms else b"")
    return head + b"".join(struct.pack("<I", len(data)) + data for data in inputs)


def answers(output):
    """Each answer's bytes, without the line -- that ends it."""
    out, lines = [], []
    for line in output.splitlines(keepends=True):
        if line == b"--\n":
            out.append(b"".join(lines))
            lines = []
        else:
            lines.append(line)
    return out + ([b"".join(lines)] if lines else [])


def asked(program, requests):
    """What a program answers to these requests in one start."""
    ran = subprocess.run(program, input=b"".join(requests), stdout=subprocess.PIPE)
    return answers(ran.stdout)


def files(path):
    """The files of a heap, each of which stands after its length."""
    data, out, at = path.read_bytes(), [], 0
    while at < len(data):
        (length,) = struct.unpack_from("<I", data, at)
        out.append(data[at + 4 : at + 4 + length])
        at += 4 + length
    return out


def lists(path):
    return answers(path.read_bytes())


def first_eight(listing):
    """A listing, of each record the eight numbers of document 01, of code 16 the six before the reason."""
    lines = re.sub(rb"^(\d+(?: \d+){7})(?: \d+)*$", rb"\1", listing, flags=re.MULTILINE)
    return re.sub(rb"^(16(?: \d+){5}) \d+ \d+$", rb"\1", lines, flags=re.MULTILINE)


def beside_rust(tree, listing):
    """What of a tree's listing the Rust has: in version 2, which it doesn't know, no code 15, and so no total."""
    if tree[3:5] == b"\x02\x00":
        listing = re.sub(rb"^(15|total) .*\n", b"", listing, flags=re.MULTILINE)
    return first_eight(listing)


# examples/listings.txt: a line `$ NAME` or `$ --strict NAME`, then the listing.


def listings():
    """The listings by name and whether keys are strict."""
    out = {}
    for part in LISTINGS.read_text().split("$ ")[1:]:
        head, text = part.split("\n", 1)
        out[head.removeprefix("--strict "), head.startswith("--strict ")] = text.encode()
    return out


def write_listings(found):
    parts = [f"$ {'--strict ' if strict else ''}{name}\n{text.decode()}" for (name, strict), text in found.items()]
    LISTINGS.write_text(HEAD + "".join(parts))
