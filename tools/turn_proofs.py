#!/usr/bin/env python3
"""Turns the walks Proof.antt of a crate into Invariants.antt and Answers.antt, by the names that
`rt check --generated DIR --old-names` writes. It proves nothing: rt check says what is left.

usage: tools/turn_proofs.py NAMES.json crates/NAME     at the top of the repository
"""
import json
import os
import re
import sys

TOK = re.compile(r"[^\s(){}\[\],;.@«»`]+")
ALONE = {"search rules", "search needs"}


def norm(s):
    """A name whatever script spelled it."""
    return re.sub(r"[-_]", "", re.sub(r"_lem$", "", s).lower())


class Lts:
    def __init__(self, d, cycle=False):
        self.d = d
        self.cycle = cycle
        self.places = {p[0]: (i, p) for i, p in enumerate(d["places"])}
        self.needs = {}
        for (old, new), at in zip(d["needs"], d["asked_at"]):
            self.needs.setdefault(norm(old), (new, at[0]))
        self.loops = {norm(l[0][0]): (l[0][1], l[1], d["changed"][i] if i < len(d["changed"]) else [False] * len(l[1])) for i, l in enumerate(d["loops"])}

    def need(self, name):
        n = norm(name)
        for c in (n, re.sub(r"^overflow", "", n), re.sub(r"^(overflow|bounds|nonzero|slicebounds)", "", n), re.sub(r"^slicebounds", "part", n), re.sub(r"^arrayread", "elementcopyout", n)):
            if c in self.needs:
                return self.needs[c]
        return None

    def chain(self, place, path):
        """The new path, without `c.`, of the old path (a list of fields) that starts at a place; None where it is not known."""
        path = list(path)
        while path and path[0] == "before":
            path = path[1:]
        if not path:
            return None
        f = path[0]
        at = place
        while at is not None:
            i, p = self.places[at]
            if p[2][0] and norm(p[2][0]) == norm(f):
                break
            at = p[1]
        if at is not None:
            arm = self.d["arms"][i]
            if arm:
                for new, step, old in arm[2]:
                    if norm(step) == norm(f) and path[1 : 1 + len(old)] == old and old:
                        return [arm[0], new] + path[1 + len(old) :]
                for new, step, old in arm[2]:
                    if norm(step) == norm(f) and not old and len(path) > 1:
                        return [arm[0], new] + path[1:]
            step, rest = p[2][1], path[1:]
            if rest[:1] in (["new"], ["auto"]) and len(rest) > 1 and p[3] in self.d["params"]:
                ps = self.d["params"][p[3]]
                k, j = 0, 1
                while j < len(rest) and rest[j] == "1":
                    k, j = k + 1, j + 1
                if j < len(rest) and rest[j] == "0" and k < len(ps):
                    rest = [rest[0], ps[k]] + rest[j + 1 :]
            return [step] + rest
        if f == "well-formed":
            return ["well_formed"] + path[1:]
        if f == "requires" and self.cycle:
            if path[1:2] == ["0"]:
                return ["decreases"] + path[2:]
            return ["requires"] + path[2:] if path[1:2] == ["1"] else None
        if f in ("args", "ranges", "requires", "well-formed", "well_formed", "lifetimes"):
            out = path
            text = "".join(" ." + x for x in out)
            for a, b in self.d["args"]:
                if text.startswith(" " + a if not a.startswith(" ") else a):
                    rest = text[len(a) + (0 if a.startswith(" ") else 1) :]
                    if rest == "" or rest.startswith(" ."):
                        text = " " + b + rest
            return [x for x in text.replace(" ", "").split(".") if x]
        return None


def blocks(text):
    """Top-level declarations of a file: comments above, signature, unfolding lines, clauses."""
    lines = text.split("\n")
    out, cur = [], []
    for l in lines:
        starts = l and not l[0].isspace()
        if starts and re.match(r"(use |abbrev |pub |module |unfoldable |data |record |[^\s]+ :(?: |$))", l) or (starts and l.startswith("--")):
            if cur and not (all(x.startswith("--") for x in cur if x.strip()) and any(x.strip() for x in cur)):
                out.append(cur)
                cur = []
        cur.append(l)
    out.append(cur)
    return [b for b in ("\n".join(b).strip("\n") for b in out) if b.strip()]


def rewrite(lts, place, body, var, said):
    """Old paths in a term, as new ones."""
    # a let that names a step only
    while True:
        m = re.search(rf"let (\S+) = {re.escape(var)}((?:\.before)*) in\s*", body)
        if not m:
            break
        body = body[: m.start()] + body[m.end() :]
        body = re.sub(rf"(?<![\w.'-]){re.escape(m[1])}(?=\.)", lambda _: var + m[2], body)

    def sub(m):
        path = [x for x in m[1].split(".") if x]
        tail = []
        got = lts.chain(place, path)
        if got is None:
            said.append(f"{m[0]} at {place}")
            return m[0]
        return "c." + ".".join(got + tail)

    body = re.sub(rf"(?<![\w.'-]){re.escape(var)}((?:\.[^\s(){{}}\[\],;.@«»`]+)+)", sub, body)
    # a test of `!x` says now what x is
    body = re.sub(r"\(not-(true|false) \S+ (c\.if-not-\S+?\.\1)\)", r"\2", body)
    body = re.sub(r"(?<![\w.'-])not-(true|false) (?:\([^()]*\)|\S+) (c\.if-not-[^\s(),]+\.\1)(?![\w.'-])", r"\2", body)
    if re.search(r"c\.if-not-[^\s(),]+\.(true|false)", body):
        said.append("a test of !x: " + place)
    return body


def turned(path, names, module, folder):
    """(invariants, answers, left) of one Proof.antt, with the files of its folder Proof."""
    files = [path] + sorted(os.path.join(folder, "Proof", f) for f in (os.listdir(os.path.join(folder, "Proof")) if os.path.isdir(os.path.join(folder, "Proof")) else []))
    cyc = os.path.basename(folder).startswith("+")
    uses, invs, answers, others, left, heads = {}, [], [], [], [], []
    local = {}
    if cyc:
        ltss = {k.rsplit(".Lts", 1)[1].lstrip("-"): Lts(v, True) for k, v in names.items() if k.startswith(module + ".Lts")}
    else:
        ltss = {"": Lts(names[module + ".Lts"])} if module + ".Lts" in names else {}
    if not ltss:
        return None
    measures = {}
    for f in files:
        text = open(f, encoding="utf-8").read()
        aliases = {}
        for b in blocks(text):
            comment = []
            ls = b.split("\n")
            while ls and ls[0].startswith("--"):
                if not re.match(r"-- src/\S+:\d+", ls[0]):
                    comment.append(ls[0])
                ls = ls[1:]
            b = "\n".join(ls)
            if not b.strip():
                heads += comment
                continue
            if b.startswith("use "):
                if f == path:
                    heads += comment
                for l in b.split("\n"):
                    if re.match(r"(pub )?mod ", l):
                        continue
                    m = re.match(r"use (\S+?)(?:\.\{(.*)\}| as (\S+))?$", l.strip())
                    if not m:
                        left.append("use? " + l)
                        continue
                    last = m[1].split(".")[-1]
                    if m[3]:
                        aliases[m[3]] = m[1]
                    if last in ("Tie", "Statement", "Kinds") or last.startswith("Lts") or m[1].startswith("borrow.Fn.") or ".Proof." in m[1] or re.search(r"\.\+\w+$", m[1]):
                        continue
                    if m[2] is not None:
                        for it in m[2].split(","):
                            uses.setdefault(m[1], [])
                            if it.strip() and it.strip() not in uses[m[1]]:
                                uses[m[1]].append(it.strip())
                    else:
                        uses.setdefault(l.strip(), None)
                continue
            if "statement M" in b or re.search(r"→ In \d", b.split("\n")[0]) or re.search(r"-?calls : ", b.split("\n")[0]) or re.match(r"(abbrev )?(pub )?\S+-lts\.Claims", b) or ".Claims" in b.split("\n")[0]:
                continue
            sig = re.match(r"((?:abbrev |pub |unfoldable )*)(\S+) :", b)
            if not sig:
                others.append((comment, b))
                continue
            name = sig[2]
            if "Measures" in b.split("\n")[0]:
                m = re.search(rf"^{re.escape(name)} (\S+) (\S+) =\s*(.*)$", b, re.M | re.S)
                measures[name] = (m[2], m[3])
                continue
            # signature up to the first clause
            m = re.search(rf"^{re.escape(name)}( [^=\n]*)? =", b, re.M)
            head, clause = (b[: m.start()], b[m.start() :]) if m else (b, "")
            inv = re.search(r"([\w+<>:-]+)\.(invariant|decreases)-(\S+)", head)
            need = re.search(r"([\w+<>:-]+)\.Need-(\S+)", head)
            unf = re.findall(r"^unfolding .*$", head, re.M)
            stem = ""
            if cyc and (inv or need):
                al = (inv or need)[1]
                mod = aliases.get(al, "")
                stem = mod.rsplit(".Lts", 1)[1].lstrip("-") if ".Lts" in mod else ""
            lts = ltss.get(stem) or (next(iter(ltss.values())) if len(ltss) == 1 else None)
            pre = lts.d["stem"] if lts else ""
            if inv and lts:
                if norm(inv[3]) not in lts.loops:
                    left.append(f"no loop {inv[3]}")
                    continue
                new, vs, changed = lts.loops[norm(inv[3])]
                cl = re.match(rf"{re.escape(name)}((?: \S+)*?) =\s*(.*)$", clause, re.S)
                ps = cl[1].split()
                body = cl[2]
                order = [("l.initial." if ch else "l.") + v for v, ch in zip(vs, changed)] + ["l." + v for v, ch in zip(vs, changed) if ch]
                if len(ps) != len(order):
                    left.append(f"{name}: {len(ps)} parameters, {len(order)} wanted: {vs} {changed}")
                sub = {p: o for p, o in zip(ps, order) if p != "_"}
                body = re.sub(r"(?<![\w'₀₁₂.-])([^\s(){}\[\],;.@«»`]+)", lambda m: sub.get(m[1], m[1]), body)
                goal = f"{inv[2]}-{pre}{new}"
                invs.append((comment, f"abbrev pub {goal} : goal.{goal}\n" + "".join(u + "\n" for u in unf) + f"{goal} l ={' ' if chr(10) not in body else chr(10) + '    '}{body}"))
                continue
            if need and lts:
                got = lts.need(need[2].rstrip(")"))
                if not got:
                    if norm(need[2]) in {norm(x) for x in lts.d["settled"]} or re.match(r"(enum|known|told|slice-aggregate|array-read|slice-relend|nonzero)", need[2]):
                        continue
                    left.append(f"no need {need[2]} of {stem}")
                    continue
                goal, place = got
                goal = pre + goal
                cls = re.split(rf"(?m)^(?={re.escape(name)} )", clause)
                outs, alone = [], True
                for cl in cls:
                    if not cl.strip():
                        continue
                    m = re.match(rf"{re.escape(name)}((?: [^=]*?)?) =\s*(.*)$", cl, re.S)
                    ps, body = m[1].split(), m[2].rstrip()
                    t = []
                    if cyc and ps and ps[0] != "c" and len(ps) > 1 and ps[1] == "c":
                        t = [ps[0]]
                        ps = ps[1:]
                    if not ps:
                        left.append(f"{goal}: no parameter: {cl[:80]}")
                        continue
                    var = ps[0]
                    rest = [p for p in ps[1:] if p != "κs"]
                    if rest:
                        left.append(f"{goal}: more parameters {rest}")
                    if body.strip() not in ALONE or unf:
                        alone = False
                    body = rewrite(lts, place, body, var, left)
                    outs.append(f"{goal} {' '.join(t + ['c'] + rest)} =" + ("\n    " if "\n" in body or len(body) > 100 else " ") + body)
                if outs and not alone:
                    local[name] = goal
                    answers.append((comment, f"pub {goal} : goal.{goal}\n" + "".join(u + "\n" for u in unf) + "\n".join(outs)))
                continue
            others.append((comment, b))
    for name, (var, body) in measures.items():
        fn = re.sub(r"^μ-", "", name)
        lts = ltss.get(fn) or next(iter(ltss.values()))
        params = PARAMS.get(norm(fn))

        def sub(m):
            path = m[1].split(".")[1:]
            k, j = 0, 0
            while j < len(path) and path[j] == "1":
                k, j = k + 1, j + 1
            if j < len(path) and path[j] == "0" and params and k < len(params):
                return ".".join(["l", params[k]] + path[j + 1 :])
            left.append("measure " + m[0])
            return m[0]

        body = re.sub(rf"(?<![\w.'-]){re.escape(var)}((?:\.[^\s(){{}}\[\],;.@«»`]+)+)", sub, body)
        real = PARAMS_NAME.get(norm(fn), fn)
        invs.append(([], f"abbrev pub decreases-{real} : goal.decreases-{real}\ndecreases-{real} l = {body.strip()}"))
    return heads, uses, invs, answers, others, left, local


PARAMS, PARAMS_NAME = {}, {}


def main():
    names = json.load(open(sys.argv[1], encoding="utf-8"))
    crate = sys.argv[2].rstrip("/")
    cname = os.path.basename(crate)
    for folder, _, files in os.walk(os.path.join(crate, "src")):
        for f in files:
            t = open(os.path.join(folder, f), encoding="utf-8").read()
            for m in re.finditer(r"\bfn (\w+)\s*\(([^)]*)\)", t):
                ps = [("self" if "self" in p.split(":")[0] else p.split(":")[0].replace("mut ", "").strip()) for p in re.split(r",(?![^<\[]*[>\]])", m[2]) if p.strip()]
                PARAMS[norm(m[1])] = ps
                PARAMS_NAME[norm(m[1])] = m[1]
    count = 0
    for folder, dirs, files in list(os.walk(os.path.join(crate, "proofs"))):
        if "Proof.antt" not in files:
            continue
        rel = os.path.relpath(folder, os.path.join(crate, "proofs")).split(os.sep)
        module = f"Rattle-{cname}-proofs." + ".".join(rel)
        got = turned(os.path.join(folder, "Proof.antt"), names, module, folder)
        if not got:
            print(f"left: {folder}: no names of {module}")
            continue
        heads, uses, invs, answers, others, left, local = got
        for l in left:
            print(f"left: {folder}: {l}")
        mod = f"Rattle.{cname}.proofs." + ".".join(rel)
        imports = "".join(f"use {p}.{{{', '.join(v)}}}\n" if v is not None else p + "\n" for p, v in uses.items())
        texts = {"Invariants": invs, "Answers": answers}
        made = []
        for kind, items in texts.items():
            if kind == "Answers" and (items or others):
                items = others + items
            if not items:
                continue
            head = "" if kind == "Invariants" and answers else "".join(h + "\n" for h in heads)
            body = "\n\n".join("".join(x + "\n" for x in c) + b for c, b in items)
            open(os.path.join(folder, kind + ".antt"), "w", encoding="utf-8").write(head + imports + f"use {mod}.{'Given' if kind == 'Invariants' else 'Goals'} as goal\n\n" + body + "\n")
            made.append(kind)
        os.remove(os.path.join(folder, "Proof.antt"))
        if os.path.isdir(os.path.join(folder, "Proof")):
            for f in os.listdir(os.path.join(folder, "Proof")):
                os.remove(os.path.join(folder, "Proof", f))
            os.rmdir(os.path.join(folder, "Proof"))
        if not os.listdir(folder):
            os.rmdir(folder)
        count += 1
    print(f"turned {count}")


if __name__ == "__main__":
    main()
