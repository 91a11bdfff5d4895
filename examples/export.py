#!/usr/bin/env python3
"""usage: examples/export.py [--] SCRIPT.star ..

Writes the tree of each script beside it, as SCRIPT.slt, in the form of docs/TREE.md. `-` is a script on standard input,
whose tree goes to standard output.

This is a script for the samples and not the office's exporter, which is written in Rust over the crate's own parser. It
parses by Python's `ast`, so it takes only what is the same in Starlark and Python, and refuses the rest by name. Children
stand in the order of docs/TREE.md's table; a body of one statement is that statement itself, as in the example of 47 bytes.

Spans are byte offsets of the script as it stands in the file: a byte order mark counts as the three bytes that it is. A line
ends with LF, CR LF or CR alone, as for Python. Lines `# globals: NAME ..` give the globals; without one they aren't given. The tree
lists those that the script names, since no warning can be at another: so, where these lines stand last, a release of the host that
adds globals changes neither nodes nor values, and a host may have any number of them. A line `# dialect: 2` declares dialect 2, and the tree is of version 2;
without one, or with `# dialect: 1`, it is of version 1. Such lines begin at the margin, and count inside a string too.

A script that can't be read or exported gets one line on standard error and no tree:

    SCRIPT.star:LINE:COLUMN: what stands there, or which limit of the tree file it passes

Columns count characters from 1; a byte order mark is none. Needs Python 3.9 or later.
Exit status: 0, or 2 where a script can't be read or exported, a tree can't be written, or wrong use.
"""
import ast
import bisect
import os
import pathlib
import re
import struct
import sys
import warnings

NONE = 65535
NODES, VALUES, DEPTH = 1024, 512, 48
# What a value of each kind is, and how many bytes it may have.
SORTS = ("a name", 255), ("a string", 255), ("a bytes literal", 255), ("an integer", 64), ("a float", 8)

MARK = b"\xef\xbb\xbf"
LINE_END = re.compile(rb"\r\n?|\n")
LISTED = re.compile(rb"(?:\A(?:\xef\xbb\xbf)?|[\r\n])# globals:([^\r\n]*)")
DECLARED = re.compile(rb"(?:\A(?:\xef\xbb\xbf)?|[\r\n])# dialect:[ \t]*([^\r\n]*)")
NEARLY = re.compile(rb"(?:\A(?:\xef\xbb\xbf)?|[\r\n])[ \t]*(#[# \t]*(?i:dialect)[ \t]*[:=]?[ \t]*\d+)[ \t]*(?![^\r\n])")
# What may stand between `def` and the name, and between a parameter and a lone star after it.
BEFORE_NAME = re.compile(rb"def(?:[ \t\f]|\\(?:\r\n?|\n))*")
BEFORE_STAR = re.compile(rb"(?:[\s,()\\]|#[^\r\n]*)*")
ONE_STRING = re.compile(
    rb"""(?:[rR]|[bB]|[rR][bB]|[bB][rR])?(?:\"{3}(?:\\.|(?!\"{3})[^\\])*\"{3}|'{3}(?:\\.|(?!'{3})[^\\])*'{3}"""
    rb"""|"(?:\\.|[^"\\])*"|'(?:\\.|[^'\\])*')""",
    re.DOTALL,
)
# Python that is no Starlark, under `ast`'s names.
FOREIGN = {
    "While": "`while`", "ClassDef": "`class`", "Import": "`import`", "ImportFrom": "`import`", "Try": "`try`",
    "TryStar": "`try`", "With": "`with`", "AsyncFunctionDef": "`async`", "AsyncFor": "`async`",
    "AsyncWith": "`async`", "Await": "`await`", "Yield": "`yield`", "YieldFrom": "`yield`", "NamedExpr": "`:=`",
    "Global": "`global`", "Nonlocal": "`nonlocal`", "Delete": "`del`", "Raise": "`raise`", "Assert": "`assert`",
    "Match": "`match`", "TypeAlias": "`type`", "Set": "a set", "SetComp": "a set comprehension",
    "GeneratorExp": "a generator expression", "Starred": "a star outside a call",
    "Slice": "a slice among several indices", "Is": "`is`", "IsNot": "`is`", "MatMult": "`@`",
    "Pow": "`**` as an operator",
}


class Refused(Exception):
    """Why a script has no tree, and where: line and column."""

    def __init__(self, place, what):
        super().__init__(what)
        self.place = place


class Node:
    def __init__(self, kind, span, kids=(), value=None):
        self.kind, self.span, self.value = kind, span, value
        self.kids = list(kids)
        self.size = 1 + sum(kid.size for kid in self.kids)
        self.role = 0

    def in_role(self, role):
        self.role = role
        return self

    def walk(self):
        """It and all below it in file order, each with its depth; a tree too deep for Python's own stack is walked too."""
        rest = [(self, 1)]
        while rest:
            node, depth = rest.pop()
            yield node, depth
            rest += [(kid, depth + 1) for kid in reversed(node.kids)]


class Script:
    """The tree of a script, node by node."""

    def __init__(self, source):
        self.source, self.depth = source, 0
        # `ast` doesn't count the mark among the columns of line 1.
        self.starts = [len(MARK) if source.startswith(MARK) else 0] + [end.end() for end in LINE_END.finditer(source)]

    # Places.

    def at(self, line, column):
        return self.starts[line - 1] + column

    def span(self, x):
        return self.at(x.lineno, x.col_offset), self.at(x.end_lineno, x.end_col_offset)

    def text(self, x):
        return self.source[slice(*self.span(x))]

    def place(self, offset):
        """Line and column of a byte offset."""
        line = max(1, bisect.bisect_right(self.starts, offset))
        return line, len(self.source[self.starts[line - 1] : offset].decode("utf-8", "replace")) + 1

    def stop(self, offset, what):
        raise Refused(self.place(offset), what)

    def foreign(self, x, what):
        self.stop(self.span(x)[0], f"{what} is no Starlark")

    def refuse(self, x):
        self.foreign(x, FOREIGN.get(type(x).__name__, type(x).__name__))

    # The parser.

    def module(self):
        return self.body(self.parsed().body)

    def parsed(self):
        text = self.decoded()
        try:
            return parse(text)
        except SyntaxError as why:
            raise Refused((max(1, why.lineno or 1), max(1, why.offset or 1)), why.msg) from None
        except (RecursionError, MemoryError):
            offset = len(shortest_deep(text).encode()) + self.starts[0]
            self.stop(offset, f"nested deeper than Python's parser goes; a tree takes at most a depth of {DEPTH}")

    def decoded(self):
        """The script's text, without the mark."""
        if b"\0" in self.source:
            self.stop(self.source.index(0), "a NUL byte")
        try:
            return self.source[self.starts[0] :].decode("utf-8")
        except UnicodeDecodeError as why:
            self.stop(self.starts[0] + why.start, "a byte that is no UTF-8")

    def made(self, sort, x):
        """The node of a statement, expression or target. `ast` nests no deeper than the tree, so its depth is held already."""
        self.depth += 1
        if self.depth > DEPTH:
            self.too_deep(self.span(x)[0])
        out = getattr(self, sort + type(x).__name__, self.refuse)(x)
        self.depth -= 1
        return out

    # Names.

    def name(self, kind, begin, text, kids=()):
        """A node of a name that begins there, spelled so: Python writes some characters of a name as others."""
        data = text.encode()
        if not self.source.startswith(data, begin):
            self.stop(begin, f"a name that Python spells otherwise, {text}")
        if text == "load":
            self.stop(begin, "`load` as a name is no Starlark")
        return Node(kind, (begin, begin + len(data)), kids, (0, data))

    # Statements.

    def body(self, statements):
        kids = [self.statement(s) for s in statements]
        if len(kids) == 1:
            return kids[0]
        return Node(8, (kids[0].span[0], kids[-1].span[1]) if kids else (0, 0), kids)

    def statement(self, s):
        return self.made("s_", s)

    def s_Break(self, s):
        return Node(1, self.span(s))

    def s_Continue(self, s):
        return Node(2, self.span(s))

    def s_Pass(self, s):
        return Node(3, self.span(s))

    def s_Return(self, s):
        return Node(4, self.span(s), [self.expr(s.value, 4)] if s.value else [])

    def s_Expr(self, s):
        call = s.value
        if isinstance(call, ast.Call) and isinstance(call.func, ast.Name) and call.func.id == "load":
            return self.load(s, call)
        return Node(5, self.span(s), [self.expr(s.value, 4)])

    def load(self, s, call):
        """A name loaded as itself stands where its string does; `a = "b"` sets a."""
        if not call.args:
            self.foreign(s, "a load without a module")
        for x in call.args + [k.value for k in call.keywords]:
            if not isinstance(x, ast.Constant) or not isinstance(x.value, str):
                self.foreign(x, "a load of anything but strings")
        loaded = [self.loaded(x) for x in call.args[1:]]
        for k in call.keywords:
            if k.arg is None:
                self.foreign(k, "`**` in a load")
            loaded.append(self.name(47, self.span(k)[0], k.arg))
        return Node(13, self.span(s), sorted(loaded, key=lambda n: n.span))

    def loaded(self, x):
        if not x.value.isidentifier():
            self.foreign(x, "a load of what is no name")
        return Node(47, self.span(x), value=(0, x.value.encode()))

    def s_Assign(self, s):
        if len(s.targets) != 1:
            self.foreign(s, "a chain of assignments")
        return Node(6, self.span(s), [self.target(s.targets[0], 5), self.expr(s.value, 4)])

    def s_AnnAssign(self, s):
        if s.value is None:
            self.foreign(s, "a type without a value")
        return Node(6, self.span(s), [self.target(s.target, 5), self.expr(s.annotation, 3), self.expr(s.value, 4)])

    def s_AugAssign(self, s):
        self.operator(s, s.op)
        return Node(7, self.span(s), [self.target(s.target, 5), self.expr(s.value, 4)])

    def s_If(self, s):
        kids = [self.expr(s.test, 4), self.body(s.body).in_role(1)]
        if not s.orelse:
            return Node(9, self.span(s), kids)
        return Node(10, self.span(s), kids + [self.body(s.orelse).in_role(2)])

    def s_For(self, s):
        if s.orelse:
            self.foreign(s, "a for with an else")
        return Node(11, self.span(s), [self.target(s.target, 5), self.expr(s.iter, 4), self.body(s.body).in_role(1)])

    def s_FunctionDef(self, s):
        if s.decorator_list:
            self.foreign(s.decorator_list[0], "a decorator")
        if getattr(s, "type_params", []):
            self.foreign(s.type_params[0], "a type parameter")
        name = self.name(40, BEFORE_NAME.match(self.source, self.span(s)[0]).end(), s.name).in_role(6)
        kids = [name] + self.parameters(s.args, name.span[1])
        if s.returns:
            kids.append(self.expr(s.returns, 3))
        return Node(12, self.span(s), kids + [self.body(s.body).in_role(1)])

    def parameters(self, args, begin):
        """The parameters, which stand from begin on."""
        if args.posonlyargs:
            self.foreign(args.posonlyargs[0], "`/` among parameters")
        defaults = [None] * (len(args.args) - len(args.defaults)) + list(args.defaults)
        out = [self.parameter(a, d) for a, d in zip(args.args, defaults)]
        if args.vararg:
            out.append(self.parameter(args.vararg, None))
        elif args.kwonlyargs:
            out.append(self.star(max([begin] + [self.span(x)[1] for x in args.args + args.defaults])))
        out += [self.parameter(a, d) for a, d in zip(args.kwonlyargs, args.kw_defaults)]
        if args.kwarg:
            out.append(self.parameter(args.kwarg, None))
        return out

    def parameter(self, a, default):
        kids = [self.expr(x) for x in (a.annotation, default) if x is not None]
        return self.name(43, self.span(a)[0], a.arg, kids)

    def star(self, begin):
        """The lone star after what ends at begin; `ast` doesn't say where it stands."""
        at = BEFORE_STAR.match(self.source, begin).end()
        return Node(44, (at, at + 1))

    # Targets.

    def target(self, t, role=0):
        return self.made("t_", t).in_role(role)

    def t_Name(self, t):
        return self.name(40, self.span(t)[0], t.id)

    def t_Tuple(self, t):
        return Node(41, self.span(t), [self.target(x) for x in t.elts])

    def t_Attribute(self, t):
        return Node(42, self.span(t), self.e_Attribute(t).kids)

    t_List, t_Subscript = t_Tuple, t_Attribute

    # Expressions.

    def expr(self, e, role=0):
        return self.made("e_", e).in_role(role)

    def each(self, exprs):
        return [self.expr(e) for e in exprs]

    def operator(self, x, op):
        if type(op).__name__ in FOREIGN:
            self.foreign(x, FOREIGN[type(op).__name__])

    def e_Name(self, e):
        return self.name(20, self.span(e)[0], e.id)

    def e_Constant(self, e):
        v = e.value
        if v is None or isinstance(v, bool):
            return self.name(20, self.span(e)[0], str(v))
        if v is Ellipsis:
            return Node(22, self.span(e))
        return Node(21, self.span(e), value=self.text_value(e) if isinstance(v, (str, bytes)) else self.number(e))

    def text_value(self, e):
        if not ONE_STRING.fullmatch(self.text(e)):
            self.foreign(e, "a prefix u" if self.text(e)[:1] in b"uU" else "a string beside a string")
        if isinstance(e.value, bytes):
            return 2, e.value
        try:
            return 1, e.value.encode()
        except UnicodeEncodeError:
            self.stop(self.span(e)[0], "a string with half of a surrogate pair, which is no character")

    def number(self, e):
        if b"_" in self.text(e) or isinstance(e.value, complex):
            self.foreign(e, "a number with j or _")
        if isinstance(e.value, int):
            return 3, e.value.to_bytes((e.value.bit_length() + 7) // 8, "big")
        return 4, struct.pack("<d", e.value)

    def e_JoinedStr(self, e):
        self.stop(self.span(e)[0], "an f-string; this exporter takes none")

    def e_Call(self, e):
        given = e.args + [k.value for k in e.keywords]
        given.sort(key=self.span)
        plain = [x.value if isinstance(x, ast.Starred) else x for x in given]
        return Node(23, self.span(e), [self.expr(e.func, 7)] + self.each(plain))

    def e_Lambda(self, e):
        return Node(24, self.span(e), self.parameters(e.args, self.span(e)[0] + len("lambda")) + [self.expr(e.body, 1)])

    def clauses(self, e):
        out = []
        for g in e.generators:
            if g.is_async:
                self.foreign(g.target, "`async`")
            over, target = self.expr(g.iter, 4), self.target(g.target, 5)
            out.append(Node(45, (target.span[0], over.span[1]), [target, over]))
            out += [Node(46, self.span(c), [self.expr(c, 4)]) for c in g.ifs]
        return out

    def e_ListComp(self, e):
        return Node(25, self.span(e), [self.expr(e.elt, 4)] + self.clauses(e))

    def e_DictComp(self, e):
        return Node(26, self.span(e), [self.expr(e.key, 8), self.expr(e.value, 4)] + self.clauses(e))

    def e_Tuple(self, e):
        return Node(27, self.span(e), self.each(e.elts))

    def e_List(self, e):
        return Node(28, self.span(e), self.each(e.elts))

    def e_Dict(self, e):
        if None in e.keys:
            self.foreign(e, "`**` in a dict")
        pairs = [(self.expr(k, 8), self.expr(v, 4)) for k, v in zip(e.keys, e.values)]
        return Node(29, self.span(e), [x for pair in pairs for x in pair])

    def e_IfExp(self, e):
        return Node(30, self.span(e), self.each([e.test, e.body, e.orelse]))

    def e_Compare(self, e):
        if len(e.ops) != 1:
            self.foreign(e, "a chain of comparisons")
        self.operator(e, e.ops[0])
        kind = {ast.Eq: 31, ast.NotEq: 32}.get(type(e.ops[0]))
        if kind:
            return Node(kind, self.span(e), [self.expr(e.left, 1), self.expr(e.comparators[0], 2)])
        return Node(33, self.span(e), self.each([e.left, e.comparators[0]]))

    def e_BoolOp(self, e):
        """`a and b and c` is two operators, the left one inside."""
        made = self.expr(e.values[0])
        for v in e.values[1:]:
            right = self.expr(v)
            made = Node(33, (made.span[0], right.span[1]), [made, right])
        return made

    def e_BinOp(self, e):
        self.operator(e, e.op)
        return Node(33, self.span(e), self.each([e.left, e.right]))

    def e_UnaryOp(self, e):
        return Node(33, self.span(e), self.each([e.operand]))

    def e_Attribute(self, e):
        """An index, slice or dot: the expressions below it."""
        kids = [e.value]
        if isinstance(e, ast.Subscript):
            kids += [e.slice.lower, e.slice.upper, e.slice.step] if isinstance(e.slice, ast.Slice) else [e.slice]
        return Node(33, self.span(e), self.each([x for x in kids if x]))

    e_Subscript = e_Attribute

    # Limits of the tree file.

    def too_deep(self, offset):
        self.stop(offset, f"nested deeper than {DEPTH}; a tree takes at most that depth")

    def globals(self):
        """The globals' names; None where no line gives them."""
        lines = list(LISTED.finditer(self.source))
        words = [
            (line.start(1) + word.start(), word.group())
            for line in lines
            for word in re.finditer(rb"\S+", line.group(1))
        ]
        for offset, word in words:
            if not word.decode("utf-8", "replace").isidentifier():
                self.stop(offset, "a global that is no name")
        return [word for _, word in words] if lines else None

    def dialect(self):
        """The dialect that the script declares, which is its tree's version; 1 where no line does."""
        found = list(DECLARED.finditer(self.source))
        for line in NEARLY.finditer(self.source):
            if line.start() not in [right.start() for right in found]:
                self.stop(line.start(1), "a dialect that is declared otherwise than by a line `# dialect: 2`")
        lines = [(line.start(1), line.group(1).strip()) for line in found]
        for offset, word in lines:
            if word not in (b"1", b"2"):
                self.stop(offset, "a dialect that is neither 1 nor 2")
            if word != lines[0][1]:
                self.stop(offset, "another dialect than the script declared before")
        return int(lines[0][1]) if lines else 1

    def hold(self, root):
        """Refuses what passes a limit."""
        entries = []
        for count, (node, depth) in enumerate(root.walk()):
            if depth > DEPTH:
                self.too_deep(node.span[0])
            if count == NODES:
                most = f"one node more than {NODES:,}; a tree takes at most so many"
                self.stop(node.span[0], f"{most}, and the script has {root.size:,}")
            entries.append((node.span[0], node.value))
        self.hold_values(entries)

    def hold_values(self, entries):
        """Globals are values of nodes, so that there can't be too many of them alone."""
        seen = set()
        for offset, value in entries:
            if value is None:
                continue
            sort, most = SORTS[value[0]]
            if len(value[1]) > most:
                self.stop(offset, f"{sort} of {len(value[1]):,} bytes; a tree takes at most {most}")
            seen.add(value)
            if len(seen) > VALUES:
                self.stop(offset, f"one value more than {VALUES}; a tree takes at most so many names and literals")


def parse(text):
    """What Python only warns of, such as an escape that there is not, is wrong in Starlark. The tree alone bounds digits."""
    getattr(sys, "set_int_max_str_digits", id)(0)
    with warnings.catch_warnings():
        warnings.simplefilter("error")
        return ast.parse(text)


def deep(text):
    try:
        parse(text)
    except (RecursionError, MemoryError):
        return True
    except (SyntaxError, ValueError):
        pass
    return False


def shortest_deep(text):
    """The shortest beginning on which the parser gives up too, since it doesn't say where it does."""
    low, high = 0, len(text)
    while low < high:
        middle = (low + high) // 2
        low, high = (low, middle) if deep(text[:middle]) else (middle + 1, high)
    return text[:low]


def tree_file(source):
    """The tree file of a script's bytes."""
    script = Script(source)
    root, listed = script.module(), script.globals()
    script.hold(root)
    named = {node.value for node, _ in root.walk()}
    return packed(root, None if listed is None else [word for word in listed if (0, word) in named], script.dialect())


def packed(root, listed, version=1):
    """The tree file of a root and of the globals' names, None where they aren't given, in a version."""
    nodes = [node for node, _ in root.walk()]
    names = {(0, word) for word in listed or ()}
    values = sorted({n.value for n in nodes if n.value} | names, key=lambda v: (v[0], len(v[1]), v[1]))
    number = {v: i for i, v in enumerate(values)}
    out = [b"SLT", struct.pack("<HHHH", version, len(nodes), len(values), NONE if listed is None else len(names))]
    for n in nodes:
        value = NONE if n.value is None else number[n.value]
        out.append(struct.pack("<BBHIIHH", n.kind, n.role, n.size, *n.span, value, 0))
    out += [struct.pack("<BH", kind, len(data)) + data for kind, data in values]
    out += [struct.pack("<H", i) for i in sorted(number[n] for n in names)]
    return b"".join(out)


# The command.


class Wrong(Exception):
    """What to say of a script, or of the command line."""


def printable(text):
    """No text of a script or a file's name may steer the terminal or break the line."""
    return "".join(c if c.isprintable() else c.encode("unicode_escape").decode() for c in text)


def shown(path):
    return printable(os.fsencode(path).decode("utf-8", "backslashreplace"))


def tell(text):
    """A line on standard error, if it can be written; the exit status says that something is wrong in any case."""
    try:
        if sys.stderr:
            print(printable(text), file=sys.stderr, flush=True)
    except OSError:
        os.dup2(os.open(os.devnull, os.O_WRONLY), sys.stderr.fileno())


def read(path):
    if path == "-" and sys.stdin is None:
        raise Wrong("can't be read: it is closed")
    try:
        return sys.stdin.buffer.read() if path == "-" else pathlib.Path(path).read_bytes()
    except OSError as why:
        raise Wrong(f"can't be read: {why.strerror}") from None
    except ValueError as why:
        raise Wrong(f"can't be read: {why}") from None


def write(path, tree):
    if path == "-":
        if sys.stdout is None:
            raise Wrong("its tree can't be written: standard output is closed")
        sys.stdout.buffer.write(tree)
        return
    out = pathlib.Path(path).with_suffix(".slt")
    try:
        out.write_bytes(tree)
    except OSError as why:
        raise Wrong(f"its tree {shown(out)} can't be written: {why.strerror}") from None


def export(path):
    """Writes the tree of one script; whether that went well."""
    name = "standard input" if path == "-" else shown(path)
    try:
        if pathlib.Path(path).suffix == ".slt":
            raise Wrong("is called as a tree is; a script is wanted")
        write(path, tree_file(read(path)))
        return True
    except Refused as why:
        line, column = why.place
        tell(f"{name}:{line}:{column}: {why}")
    except Wrong as why:
        tell(f"{name}: {why}")
    return False


def scripts(words):
    """The scripts that a command line names. After -- everything is one."""
    if "--" in words:
        at = words.index("--")
        return scripts(words[:at]) + words[at + 1 :]
    for word in words:
        if word.startswith("-") and word != "-":
            raise Wrong(f"unknown option {shown(word)}; --help has the use")
    return words


def main(words):
    asked = words[: words.index("--")] if "--" in words else words
    if "-h" in asked or "--help" in asked:
        print(__doc__.strip())
        return 0
    paths = scripts(words)
    if not paths:
        raise Wrong("no script is named; --help has the use")
    return 0 if all([export(path) for path in paths]) else 2


def run(words):
    try:
        status = main(words)
        if sys.stdout:
            sys.stdout.flush()
        return status
    except Wrong as why:
        tell(f"examples/export.py: {why}")
    except OSError as why:
        tell(f"examples/export.py: standard output can't be written: {why.strerror}")
        # What is still held back must not fail once more when Python ends.
        os.dup2(os.open(os.devnull, os.O_WRONLY), sys.stdout.fileno())
    return 2


if __name__ == "__main__":
    sys.exit(run(sys.argv[1:]))
