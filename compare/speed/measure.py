#!/usr/bin/env python3
"""Runs crate speed and compare/speed over the same files and prints docs/SPEED.md's tables; compare/speed/run starts it.

A call's cost is what N repeats more than one take, over N: starting, loading, the emulator's translating and reading standard input
fall away; judging and reading the file into a tree are in each call. Both programs must print the same counts of warnings.
"""
import argparse
import os
import resource
import struct
import subprocess
import sys

PARTS = ["judge", "names", "flow", "incompatible", "dubious", "joined"]
JOINED = 5
READING = 6
SORTS = ["straight", "loops", "dicts", "names"]


def files(path):
    data = open(path, "rb").read()
    out, at = [], 0
    while at < len(data):
        (n,) = struct.unpack_from("<I", data, at)
        out.append(data[at + 4 : at + 4 + n])
        at += 4 + n
    return out


def nodes(file):
    return struct.unpack_from("<H", file, 5)[0]


def request(part, repeats, heap):
    return struct.pack("<II", part, repeats) + b"".join(struct.pack("<I", len(f)) + f for f in heap)


class Side:
    def __init__(self, program, emulator, counter, made):
        self.timed = emulator.split() + program.split()
        self.counted = counter.split() + program.split() if counter else None
        self.to = os.path.join(made, "count")

    def run(self, command, given):
        said = subprocess.run(command, input=given, stdout=subprocess.PIPE, env=dict(os.environ, COUNT_TO=self.to))
        if said.returncode != 0:
            sys.exit(f"{' '.join(command)}: status {said.returncode}")
        return said.stdout

    def seconds(self, given):
        before = resource.getrusage(resource.RUSAGE_CHILDREN)
        said = self.run(self.timed, given)
        after = resource.getrusage(resource.RUSAGE_CHILDREN)
        return after.ru_utime - before.ru_utime + after.ru_stime - before.ru_stime, said

    def time(self, part, repeats, heap, rounds):
        """Microseconds for the heap, and what was printed; of the fastest round."""
        low = min(self.seconds(request(part, 1, heap))[0] for _ in range(rounds))
        runs = [self.seconds(request(part, 1 + repeats, heap)) for _ in range(rounds)]
        return (min(r[0] for r in runs) - low) / repeats * 1e6, runs[0][1]

    def count(self, part, repeats, heap):
        """Instructions for the heap."""
        if not self.counted:
            return None
        found = []
        for n in (1, 1 + repeats):
            self.run(self.counted, request(part, n, heap))
            found.append(int(open(self.to).read()))
        return (found[1] - found[0]) / repeats


def both(sides, part, repeats, heap, rounds):
    """Times and instruction counts of the two sides."""
    times = [s.time(part, repeats, heap, rounds) for s in sides]
    if part == JOINED and times[0][1] != times[1][1]:
        sys.exit("the two sides print different counts of warnings")
    return [t[0] for t in times], [s.count(part, 1, heap) for s in sides]


def number(x):
    return "" if x is None else f"{x:,.0f}"


def ratio(pair):
    return "" if None in pair else f"{pair[0] / pair[1]:.2f}"


def row(label, times, counts):
    cells = [label, *map(number, times), ratio(times), *map(number, counts), ratio(counts)]
    print("| " + " | ".join(cells) + " |", flush=True)


def head(first):
    print(f"| {first} | Rattle, µs | Rust, µs | ratio | Rattle, instructions | Rust, instructions | ratio |")
    print("|---|--:|--:|--:|--:|--:|--:|")


def tables(sides, made, vectors, rounds):
    for sort in SORTS:
        print(f"\n### {sort}\n")
        head("nodes")
        for file in files(os.path.join(made, sort + ".bin")):
            row(number(nodes(file)), *both(sides, JOINED, 40, [file], rounds))
    heap = files(os.path.join(vectors, "valid.bin"))
    print(f"\n### vectors: {len(heap)} valid files, {sum(map(nodes, heap)):,} nodes\n")
    head("part")
    for part, name in enumerate(PARTS):
        row(name, *both(sides, part, 1, heap, rounds))
    time, _ = sides[1].time(READING, 1, heap, rounds)
    row("judging and reading into the Rust's tree", [None, time], [None, sides[1].count(READING, 1, heap)])


def main():
    words = argparse.ArgumentParser()
    for name in ("rattle", "rust", "emulator", "counter", "made", "vectors"):
        words.add_argument("--" + name, default="")
    words.add_argument("--rounds", type=int, default=3)
    given = words.parse_args()
    sides = [Side(p, given.emulator, given.counter, given.made) for p in (given.rattle, given.rust)]
    tables(sides, given.made, given.vectors, given.rounds)


main()
