"""The program `desk`: trees go in, their answers come out in the same order, by one start for all of them.

A request is the choices, the tree's length and its bytes, numbers in 32 bits, little-endian. An answer is lines, then `--`.
"""
import os
import queue
import re
import stat
import struct
import subprocess
import sys
import threading

import kit
from ends import Stopped, named

# No valid tree has more bytes.
MOST = 149515
STRICT, LOG = 1 << 0, 1 << 1
# So many trees are read before their turn.
AHEAD = 32


class Wrong(Exception):
    """Why a file has no answer."""


class Unread(Wrong):
    def __init__(self, why):
        super().__init__(f"can't be read: {why.strerror}")


class Refused(Wrong):
    """The program's line for a file that is no valid tree: `refused NUMBER PLACE` or `too long`."""


# The files.


def name_of(path):
    return "standard input" if path == "-" else named(path)


def searched(words):
    """The files that the words name, those of folders too: of each its path, and why it can't be read, or None."""
    for word in words:
        if word != "-" and os.path.isdir(word):
            yield from trees_in(word)
        else:
            yield named_file(word)


def named_file(path):
    try:
        if path != "-":
            os.stat(path)
        return path, None
    except OSError as why:
        return path, Unread(why)


def trees_in(folder):
    """The trees of a folder and of the folders in it, in the order of their paths. Links to folders are not followed."""
    found = []
    for inside, _, names in os.walk(folder, onerror=lambda why: found.append((why.filename, Unread(why)))):
        found += [(os.path.join(inside, name), None) for name in names if name.endswith(".slt")]
    return sorted(found, key=lambda item: os.fsencode(item[0])) or [(folder, Wrong("no tree (*.slt) is in this folder"))]


class Tree:
    """A file's bytes, at most one more than a valid tree has, and the file's size, None where that can't be told."""

    def __init__(self, path):
        try:
            self.data, about = opened(path)
        except OSError as why:
            raise Unread(why) from None
        if not self.data and stat.S_ISFIFO(about.st_mode) and path != "-":
            raise Wrong("can't be read: nothing came through this pipe")
        self.size = about.st_size if stat.S_ISREG(about.st_mode) else None


def version(tree):
    """The version that a valid tree file says it is of."""
    return int.from_bytes(tree.data[3:5], "little")


def opened(path):
    if path == "-":
        if sys.stdin is None:
            raise Wrong("can't be read: it is closed")
        return start_of(0), os.fstat(0)
    # A pipe that nobody writes to must not hold the command up; one that somebody does is read to its end.
    number = os.open(path, os.O_RDONLY | os.O_NONBLOCK)
    try:
        os.set_blocking(number, True)
        return start_of(number), os.fstat(number)
    finally:
        os.close(number)


def start_of(number):
    data = b""
    while len(data) <= MOST:
        part = os.read(number, MOST + 1 - len(data))
        if not part:
            break
        data += part
    return data


# The program.


def feed(choices, files, program, ahead):
    """Sends each tree that can be read, and hands it on to whoever waits for its answer."""
    for path, wrong in files:
        try:
            if wrong:
                raise wrong
            tree = Tree(path)
        except Wrong as why:
            ahead.put((path, why))
            continue
        ahead.put((path, tree))
        try:
            program.stdin.write(struct.pack("<II", choices, len(tree.data)) + tree.data)
            program.stdin.flush()
        except OSError:
            # The program ended: whoever waits for its answer says so.
            return
    program.stdin.close()


def answer(program, path):
    """The lines of the next answer."""
    lines = []
    for line in program.stdout:
        if line == b"--\n":
            return lines
        lines.append(line)
    raise Stopped(f"{how(program)} without its answer to {name_of(path)}; files after that weren't looked at")


def how(program):
    status = program.wait()
    return f"the program desk ended by signal {-status}" if status < 0 else f"the program desk ended with status {status}"


def answers(choices, files):
    """Of each file its path, its tree or the Wrong that stands in the way, and the lines of its answer."""
    files = list(files)
    if all(wrong for _, wrong in files):
        yield from ((path, wrong, []) for path, wrong in files)
        return
    program = subprocess.Popen(kit.command("desk"), stdin=subprocess.PIPE, stdout=subprocess.PIPE)
    ahead = queue.Queue(AHEAD)
    threading.Thread(target=feed, args=(choices, files, program, ahead), daemon=True).start()
    try:
        for _ in files:
            path, tree = ahead.get()
            yield path, tree, [] if isinstance(tree, Wrong) else answer(program, path)
        if program.stdout.read():
            raise Stopped("the program desk said more than its answers")
        if program.wait():
            raise Stopped(how(program))
    finally:
        program.kill()
        program.wait()


# What an answer says.

RECORD = re.compile(rb"\d+( \d+){9}\n")
REFUSAL = re.compile(rb"refused \d+ \d+\n|too long\n")


def accepted(lines):
    """The lines of an answer; Refused where that is a refusal."""
    if len(lines) == 1 and REFUSAL.fullmatch(lines[0]):
        raise Refused(lines[0].decode().strip())
    return lines


def records(lines):
    """The records of a list, ten numbers each; Wrong where the lines are no list."""
    rows = lines[:-1]
    if lines[-1:] != [b"total %d\n" % len(rows)] or not all(map(RECORD.fullmatch, rows)):
        raise Wrong("the program desk gave no list of it")
    return [[int(number) for number in row.split()] for row in rows]
