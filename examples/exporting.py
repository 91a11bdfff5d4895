"""Cases of examples/export.py: scripts with the places of their leaves, or with the line that refuses them; command lines.

examples/check runs them, alone with --exporter; no program of Rattle takes part.
"""
import os
import pathlib
import struct
import subprocess
import sys
import tempfile

import export

EXPORT = pathlib.Path(__file__).resolve().parent / "export.py"
# Kinds whose span spells what they hold: identifier, literal, name, named parameter, loaded name.
LEAVES = 20, 21, 40, 43, 47
MARK = "\N{ZERO WIDTH NO-BREAK SPACE}"

# A script, and what stands at the spans of its leaves, the first beginning there.
SPANS = [
    (MARK + "x = y\n", 3, "x y"),
    (MARK + "# globals: y\nx = y\n", 16, "x y"),
    ("x = 1\ry = x\r", 0, "x 1 y x"),
    ("x = 1\r\ny = x\r\n", 0, "x 1 y x"),
    ("x = 1\r\r\n\n\ry = x", 0, "x 1 y x"),
    ('"\N{TELESCOPE}"; x\r"\N{EURO SIGN}"; y', 0, '"\N{TELESCOPE}" x "\N{EURO SIGN}" y'),
    ("'''a\rb''';x\r\n'''\r\n''';y", 0, "'''a\rb''' x '''\r\n''' y"),
    ("x = \\\r\n  y", 0, "x y"),
    ("def \\\n f(a, # *, *\n  *, b = (1)): pass", 7, "f a b 1"),
    ("f = lambda a = (1), *, b: a", 0, "f a 1 b a"),
    ('load("m", "a", b = "c")', 10, '"a" b'),
    ("x = r'\\d', b'\\xff', '''it's'''", 0, "x r'\\d' b'\\xff' '''it's'''"),
    ("\N{LATIN SMALL LETTER E WITH ACUTE} = 1", 0, "\N{LATIN SMALL LETTER E WITH ACUTE} 1"),
]

# A script, and the version of its tree.
VERSIONS = [
    ("x = 1\n", 1),
    ("# dialect: 2\nx = 1\n", 2),
    (MARK + "# dialect: 2\n", 2),
    ("x = 1\r# dialect:2 \r", 2),
    ("# dialect: 1\r\n# globals: x\r\n# dialect: 1\r\n", 1),
    ("x = 1 # dialect: 2\n", 1),
    ("# a dialect\n", 1),
    ("# Dialect 2 lets a table repeat the line.\n", 1),
]

# Lines that give globals, and the numbers of those that the tree of NAMED lists: what the script doesn't name is left out.
NAMED = "x = f(y)\n"
GLOBALS = [
    ("", None),
    ("# globals:", []),
    ("# globals: y f", [0, 2]),
    ("# globals: y\n# globals: x y", [1, 2]),
    ("# globals: sin cos " + "n" * 256 + " f", [0]),
    ("# globals:" + "".join(f" g{i}" for i in range(600)), []),
]

# Python that is no Starlark: a script of one line, where in it, and what is named.
FOREIGN = [
    ("while x: pass", 1, "`while`"), ("class A: pass", 1, "`class`"), ("import a", 1, "`import`"),
    ("from a import b", 1, "`import`"), ("with a: pass", 1, "`with`"), ("def f(): yield 1", 10, "`yield`"),
    ("def f(): yield from a", 10, "`yield`"), ("async def f(): pass", 1, "`async`"),
    ("[x async for x in y]", 14, "`async`"), ("x = (y := 1)", 6, "`:=`"), ("global a", 1, "`global`"),
    ("nonlocal a", 1, "`nonlocal`"), ("del a", 1, "`del`"), ("raise a", 1, "`raise`"), ("assert a", 1, "`assert`"),
    ("x = a is b", 5, "`is`"), ("x = a is not b", 5, "`is`"), ("x = a ** b", 5, "`**` as an operator"),
    ("x = a @ b", 5, "`@`"), ("a @= b", 1, "`@`"), ("x = a < b < c", 5, "a chain of comparisons"),
    ("x = {1}", 5, "a set"), ("x = {a for a in b}", 5, "a set comprehension"),
    ("f(a for a in b)", 2, "a generator expression"), ("a, *b = c", 4, "a star outside a call"),
    ("x = [*a]", 6, "a star outside a call"), ("a = b = c", 1, "a chain of assignments"),
    ("x: int", 1, "a type without a value"), ("def f(a, /): pass", 7, "`/` among parameters"),
    ("{**a}", 1, "`**` in a dict"), ("x[1:2, 3]", 3, "a slice among several indices"),
    ("x = 1_000", 5, "a number with j or _"), ("x = 1j", 5, "a number with j or _"), ("x = u'a'", 5, "a prefix u"),
    ("x = 'a' 'b'", 5, "a string beside a string"), ("x = load('m')", 5, "`load` as a name"),
    ('x = """a""" """b"""', 5, "a string beside a string"), ("load()", 1, "a load without a module"),
    ("load(m)", 6, "a load of anything but strings"), ("load('m', a = b)", 15, "a load of anything but strings"),
    ("load('m', **a)", 13, "a load of anything but strings"), ("load('m', 'a b')", 11, "a load of what is no name"),
    ("load('m', '')", 11, "a load of what is no name"),
]

# A script, and what the line that refuses it has after the script's name and a colon: the place alone, where the words are
# Python's own.
REFUSED = [
    ("try:\n  pass\nfinally:\n  pass", "1:1: `try` is no Starlark"),
    ("@d\ndef f(): pass", "1:2: a decorator is no Starlark"),
    ("for a in b:\n  pass\nelse:\n  pass", "1:1: a for with an else is no Starlark"),
    ("x = 1\ry = {1}\r", "2:5: a set is no Starlark"),
    (MARK + "'\N{TELESCOPE}'; {1}", "1:6: a set is no Starlark"),
    ("f'{a}'", "1:1: an f-string; this exporter takes none"),
    ("x = 1\ny = ;", "2:5: "),
    ("\N{EURO SIGN} = 1", "1:1: "),
    ("if a:\npass", "2:1: "),
    ("x = '\\d'", "1:5: "),
    ("x = '\\ud800'", "1:5: a string with half of a surrogate pair, which is no character"),
    ("x\n\0", "2:1: a NUL byte"),
    (b"x = '\xed\xa0\x80'", "1:6: a byte that is no UTF-8"),
    (MARK.encode() + b"x = '\xff'", "1:6: a byte that is no UTF-8"),
    ("\N{LATIN SMALL LIGATURE FI} = 1", "1:1: a name that Python spells otherwise, fi"),
    ("def f(\N{LATIN SMALL LIGATURE FI}): pass", "1:7: a name that Python spells otherwise, fi"),
    ("# globals: a b,c", "1:14: a global that is no name"),
    ("# dialect: 3", "1:12: a dialect that is neither 1 nor 2"),
    ("x = 1\n# dialect:\n", "2:11: a dialect that is neither 1 nor 2"),
    ("# dialect: 2\n# dialect: 1", "2:12: another dialect than the script declared before"),
    ("x = 1\n #dialect 2\n", "2:2: a dialect that is declared otherwise than by a line `# dialect: 2`"),
    ("# Dialect: 2\n", "1:1: a dialect that is declared otherwise than by a line `# dialect: 2`"),
    ("## dialect=2", "1:1: a dialect that is declared otherwise than by a line `# dialect: 2`"),
    # Limits, each one past its number.
    ("-" * 47 + "x", "1:48: nested deeper than 48; a tree takes at most that depth"),
    ("x = a" + " and a" * 47, "1:5: nested deeper than 48; a tree takes at most that depth"),
    ("pass\nf(" + "[" * 46 + "]" * 46 + ")", "2:48: nested deeper than 48; a tree takes at most that depth"),
    ("x = '" + "s" * 256 + "'", "1:5: a string of 256 bytes; a tree takes at most 255"),
    ("x = b'" + "s" * 256 + "'", "1:5: a bytes literal of 256 bytes; a tree takes at most 255"),
    ("x = '" + "\N{EURO SIGN}" * 86 + "'", "1:5: a string of 258 bytes; a tree takes at most 255"),
    (f"x = {2**512}", "1:5: an integer of 65 bytes; a tree takes at most 64"),
    ("x = " + "9" * 5000, "1:5: an integer of 2,077 bytes; a tree takes at most 64"),
    ("n" * 256 + " = 1", "1:1: a name of 256 bytes; a tree takes at most 255"),
    ("pass\n" * 1024, "1024:1: one node more than 1,024; a tree takes at most so many, and the script has 1,025"),
    ("[" + ",".join(f"a{i}" for i in range(513)) + "]", "1:2452: one value more than 512; "),
    # Past what Python itself can nest, where the parser gives no place.
    ("-" * 30000 + "x", ": nested deeper than Python's parser goes; a tree takes at most a depth of 48"),
    ("(" * 300 + ")" * 300, "1:201: "),
]

# Exactly at the limits: these have trees.
AT_LIMITS = [
    "-" * 46 + "x",
    "x = a" + " and a" * 46,
    "x = '" + "s" * 255 + "'",
    f"x = {2**512 - 1}",
    "n" * 255 + " = 1",
    "pass\n" * 1023,
    "[" + ",".join(f"a{i}" for i in range(512)) + "]",
    "[" + ",".join(f"a{i}" for i in range(512)) + "]\n# globals:" + "".join(f" a{i}" for i in range(600)),
    "(" * 199 + "x" + ")" * 199,
]


def as_bytes(source):
    return source if isinstance(source, bytes) else source.encode()


def refusal(source):
    """The line that refuses a script, after its name and a colon; None where it has a tree."""
    try:
        export.tree_file(as_bytes(source))
        return None
    except export.Refused as why:
        line, column = why.place
        return f"{line}:{column}: {why}"


def leaves(source):
    data = as_bytes(source)
    spans = [node.span for node, _ in export.Script(data).module().walk() if node.kind in LEAVES]
    return spans[0][0], " ".join(data[begin:end].decode() for begin, end in spans)


def globals_of(tree):
    """The globals that a tree lists, which are its last numbers; None where they aren't given."""
    (count,) = struct.unpack_from("<H", tree, 9)
    return None if count == export.NONE else list(struct.unpack(f"<{count}H", tree[len(tree) - 2 * count:]))


def script_faults():
    for source, first, texts in SPANS:
        if refusal(source) or leaves(source) != (first, texts):
            yield f"export.py: of {source[:40]!r} the leaves are {refusal(source) or leaves(source)}"
    for source, version in VERSIONS:
        if export.tree_file(as_bytes(source))[3:5] != bytes((version, 0)):
            yield f"export.py: of {source[:40]!r} the tree is not of version {version}"
    for lines, numbers in GLOBALS:
        if globals_of(export.tree_file(as_bytes(NAMED + lines))) != numbers:
            yield f"export.py: with {lines[:40]!r} the tree doesn't list the globals {numbers}"
    foreign = [(source, f"1:{column}: {what} is no Starlark") for source, column, what in FOREIGN]
    for source, said in foreign + REFUSED + [(source, None) for source in AT_LIMITS]:
        found = refusal(source)
        fits = found == said if said is None or found is None else said in found
        if not fits or (said and "\n" in found):
            yield f"export.py: of {source[:40]!r} it says {found!r}, not {said!r}"


# The command: words after its name in a folder with a.star (a script), b.star (refused), c.star (its tree would be a folder),
# d.star (its tree can't be written in full) and folder/; its exit status, and what standard error has.
COMMANDS = [
    (["a.star"], 0, ""),
    (["--", "a.star"], 0, ""),
    (["-h"], 0, ""),
    (["a.star", "--help"], 0, ""),
    ([], 2, "examples/export.py: no script is named; --help has the use\n"),
    (["--"], 2, "examples/export.py: no script is named; --help has the use\n"),
    (["--lines", "a.star"], 2, "examples/export.py: unknown option --lines; --help has the use\n"),
    (["-x"], 2, "examples/export.py: unknown option -x; --help has the use\n"),
    (["--", "-h"], 2, "-h: can't be read: No such file or directory\n"),
    (["no.star"], 2, "no.star: can't be read: No such file or directory\n"),
    (["no\n.star"], 2, "no\\n.star: can't be read: No such file or directory\n"),
    (["folder"], 2, "folder: can't be read: Is a directory\n"),
    (["/"], 2, "/: can't be read: Is a directory\n"),
    ([""], 2, ": can't be read: "),
    (["a.slt"], 2, "a.slt: is called as a tree is; a script is wanted\n"),
    (["b.star", "a.star"], 2, "b.star:1:5: "),
    (["c.star"], 2, "c.star: its tree c.slt can't be written: Is a directory\n"),
    (["d.star"], 2, "d.star: its tree d.slt can't be written: No space left on device\n"),
    (["folder/no/e.star"], 2, "folder/no/e.star: can't be read: No such file or directory\n"),
]
FULL = "examples/export.py: standard output can't be written: No space left on device\n"


def lay_out(folder):
    for name, text in (("a", "x = 1\n"), ("b", "x = ;\n"), ("c", "x = 1\n"), ("d", "x = 1\n")):
        (folder / f"{name}.star").write_text(text)
    (folder / "folder").mkdir()
    (folder / "c.slt").mkdir()
    os.symlink("/dev/full", folder / "d.slt")


def ran(folder, words, **given):
    given = {"stdout": subprocess.PIPE, "stderr": subprocess.PIPE, **given}
    return subprocess.run([sys.executable, EXPORT, *words], cwd=folder, **given)


def command_faults():
    with tempfile.TemporaryDirectory() as name:
        folder = pathlib.Path(name)
        lay_out(folder)
        for words, status, said in COMMANDS:
            (folder / "a.slt").unlink(missing_ok=True)
            end = ran(folder, words)
            text = end.stderr.decode()
            if end.returncode != status or not text.startswith(said) or text.count("\n") != (status == 2):
                yield f"export.py {words}: status {end.returncode}, {text!r}"
            if "a.star" in words and "--lines" not in words and "--help" not in words:
                if (folder / "a.slt").read_bytes() != export.tree_file(b"x = 1\n"):
                    yield f"export.py {words}: not the tree of a.star"
        yield from stream_faults(folder)


def stream_faults(folder):
    """`-`, and a standard output that is full."""
    end = ran(folder, ["-"], input=b"x = 1\n")
    if (end.returncode, end.stdout, end.stderr) != (0, export.tree_file(b"x = 1\n"), b""):
        yield f"export.py -: status {end.returncode}, {end.stderr!r}"
    end = ran(folder, ["-"], input=b"x\n{1}")
    if (end.returncode, end.stdout, end.stderr) != (2, b"", b"standard input:2:1: a set is no Starlark\n"):
        yield f"export.py - of a set: status {end.returncode}, {end.stderr!r}"
    with open("/dev/full", "wb") as full:
        for words in (["--help"], ["-"]):
            end = ran(folder, words, input=b"x = 1\n", stdout=full)
            if (end.returncode, end.stderr.decode()) != (2, FULL):
                yield f"export.py {words} > /dev/full: status {end.returncode}, {end.stderr!r}"
        if ran(folder, ["b.star"], stderr=full).returncode != 2:
            yield "export.py b.star 2> /dev/full: not status 2"
    for closed in (0, 1):
        end = ran(folder, ["-"], input=b"x = 1\n", preexec_fn=lambda: os.close(closed))
        if end.returncode != 2 or end.stderr.count(b"\n") != 1 or b"closed" not in end.stderr:
            yield f"export.py - with {closed} closed: status {end.returncode}, {end.stderr!r}"


def faults():
    yield from script_faults()
    yield from command_faults()


def count():
    return len(SPANS) + len(VERSIONS) + len(GLOBALS) + len(FOREIGN) + len(REFUSED) + len(AT_LIMITS) + len(COMMANDS) + 7
