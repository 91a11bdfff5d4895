#!/usr/bin/env python3
"""Brings this repository's own words to the spelling of today's Rattle, once, right after port.py: definitions, lemmas
and labels of specs/ and proofs/ in snake case, types in camel case, and the crates log and json, whose names the kit
has, under the names sarif_log and json_text. Functions of src/, exported names, strings, inputs and outputs stay.

usage: tools/respell.py     at the top of the repository, after port.py
"""
import collections
import os
import re
import subprocess
import sys

CRATES = {"log": "sarif_log", "json": "json_text"}
# names that would fall together with another one, or that a lemma shares with what it is about
BY_HAND = {
    "values-from": "values_agree", "value-from": "value_agrees", "globals-from": "globals_agree", "parent-in": "parents_agree",
    "bytes-from": "bytes_from_fit", "isLiteral": "is_literal_at", "isName": "is_name_at", "level-of": "standing_level",
    "sure-of": "sure_as_level", "abort-of": "stop_abort", "idle-here": "here_idle", "kind-at": "kind_among",
    "node-of": None, "span-of": "spot_span", "Same-trans": "same_values_trans", "Same-sym": "same_values_sym", "B-ends": "b_ends", "P-one": "p_one",
    "headAt": "node_head", "spotAt": "node_spot", "allStand": "kids_stand", "allFilled": "kids_filled", "forFirst": "kids_for_first",
    "inOrder": "kids_in_order", "depth-in": "depths_agree", "forest-in": "forests_agree", "useOf": "node_use", "bindOf": "node_bind",
    "kids-of": "kids_held", "warn-count": "warn_count_is", "unknown-lines": "unknown_lines_are", "resets-in": "resets_are",
    "join-end": "join_end_is", "pass-lines": "pass_lines_are",
}
# two lemmas of one name
BY_FILE = {("node-of", "tree"): "node_bytes", ("node-of", "rules"): "node_bytes", ("node-of", "names"): "node_in_part", ("level-of", "log"): "level_of", ("level-of", "sarif_log"): "level_of"}
# words that port.py spelled after a type of the kit
MISSPELT = {
    "in_List": "in_list", "no_Abort": "no_abort", "pick_Any_set": "pick_any_set", "pick_Use": "pick_use", "no_Use": "no_use",
    "no_Any_set": "no_any_set", "no_Inner": "no_inner", "pick_Inner": "pick_inner", "IsRefused-as": "refused_as",
}
SKIP = re.compile(r'--[^\n]*|//[^\n]*|"(?:[^"\\\n]|\\.)*"')
WORD = re.compile(r"[^\s(){}\[\],;.@«»`]+")
DEF = re.compile(r"^\s*(?:(?:abbrev|unfoldable|pub|data|record|mutual|\|)\s+)*([^\s(){}\[\],;.:=→]+)\s*(?::(?!=)|[({].*:|where)")
USE = re.compile(r"^[ \t]*(?:pub\s+)?(?:ghost\s+)?use\s+([^\s{;]+?)(?:\.\{([^}]*)\}|\s+as\s+(\S+?))?;?[ \t]*$", re.M)
MADE = {"Tie", "Reads", "Kinds", "Goals", "Given", "Statement", "TheConstants"}


def texts(root):
    for folder, dirs, files in os.walk(os.path.join(root, "crates")):
        dirs[:] = sorted(d for d in dirs if d != "out")
        for f in sorted(files):
            if f.endswith((".antt", ".rt")):
                yield os.path.join(folder, f)


def walked(p):
    return p.endswith("/Proof.antt") or "/Proof/" in p


def is_made(path):
    parts = path.split(".")
    return parts[0] == "Rattle" and (parts[-1] in MADE or parts[-1].startswith("Lts") or "declared" in parts or "TheVariants" in parts)


def own(root):
    """The names that the repository's specs/ and lemma files give to something, with a hyphen or in mixed case."""
    found = set()
    for p in texts(root):
        if p.endswith(".antt") and not walked(p):
            for l in SKIP.sub("", open(p, encoding="utf-8").read()).split("\n"):
                several = re.match(r"^\s*(?:(?:abbrev|unfoldable|pub|\|)\s+)*((?:[^\s(){}\[\],;.:=→]+\s+)+):(?!=)", l)
                for w in several[1].split() if several else []:
                    if "-" in w or re.match(r"^[a-z]+[a-z0-9]*[A-Z]", w):
                        found.add(w)
                m = DEF.match(l)
                if m and ("-" in m[1] or re.match(r"^[a-z]+[a-z0-9]*[A-Z]", m[1])):
                    found.add(m[1])
    return found


def spelled(n, crate):
    if (n, crate) in BY_FILE:
        return BY_FILE[n, crate]
    if BY_HAND.get(n):
        return BY_HAND[n]
    if n[0].isupper():
        return "".join(p[:1].upper() + p[1:] for p in n.split("-"))
    return re.sub(r"(?<=[a-z0-9])([A-Z])", lambda m: "_" + m[1].lower(), n.replace("-", "_"))


def turn(text, names, crate, walk):
    kit, aliases, made = set(), set(), set()
    for m in USE.finditer(text):
        path, items, alias = m[1], m[2], m[3]
        if not path.startswith("Rattle.") or path.startswith("Rattle.std.") or is_made(path):
            for it in (items or "").split(","):
                kit.add(it.strip().split(" as ")[0].strip())
            if alias:
                made.add(alias)
        elif alias:
            aliases.add(alias)
    out, i = [], 0
    spans = [(m.start(), m.end()) for m in SKIP.finditer(text)]

    def part(t):
        def sub(m):
            w = m[0]
            if w in MISSPELT:
                return MISSPELT[w]
            if w not in names or w in kit:
                return w
            if m.start() and t[m.start() - 1] == ".":
                before = re.search(r"([^\s(){}\[\],;.@«»`]+)\.$", t[: m.start()])
                base = before[1] if before else ""
                if base in made or (walk and base not in aliases and w not in names.labels and not base[:1].isupper()):
                    return w
            return spelled(w, crate)

        return WORD.sub(sub, t)

    for a, b in spans:
        out += [part(text[i:a]), text[a:b] if text[a] == '"' else comment(text[a:b], names, crate)]
        i = b
    return "".join(out) + part(text[i:])


def comment(t, names, crate):
    """In a comment a name in mixed case or between backticks is surely meant as a name; others are words of English."""
    t = re.sub(r"`[^`\n]+`", lambda q: WORD.sub(lambda m: spelled(m[0], crate) if m[0] in names else m[0], q[0]), t)
    return WORD.sub(lambda m: spelled(m[0], crate) if m[0] in names and (re.search(r"[a-z][A-Z]", m[0])) else m[0], t)


def aliases(text):
    """The names that a file's use lines give by `as`, in snake case too, where the file has no such word."""
    words = set(WORD.findall(SKIP.sub("", text)))
    turned = {}
    for line in re.findall(r"(?m)^[ \t]*(?:pub )?(?:ghost )?use .*$", text):
        for a in re.findall(r" as ([A-Za-z][\w']*(?:-[\w']+)+)", line):
            b = a[0].lower() + a[1:].replace("-", "_") if not line.rstrip(";").endswith("as " + a) or "{" in line else a.replace("-", "_")
            if b not in words:
                turned[a] = b
    return WORD.sub(lambda m: turned.get(m[0], m[0]), text)


class Names(set):
    labels = frozenset()


def labels(root):
    found = set()
    for p in texts(root):
        if p.endswith(".antt"):
            t = SKIP.sub("", open(p, encoding="utf-8").read())
            for m in re.finditer(r"^(\s*)(?:pub\s+)?record\s[^\n]*where\n((?:\1[ ]+[^\n]*\n|\n)*)", t, re.M):
                for l in m[2].split("\n"):
                    k = re.match(r"^\s+(?:pub\s+)?([^\s(){}\[\],;.:=→]+)\s*:", l)
                    if k:
                        found.add(k[1])
    return found


def main():
    root = os.getcwd()
    names = Names(own(root))
    names.labels = labels(root)
    for p in texts(root):
        crate = os.path.relpath(p, os.path.join(root, "crates")).split(os.sep)[0]
        old = open(p, encoding="utf-8").read()
        new = turn(old, names, crate, walked(p))
        for a, b in CRATES.items():
            new = re.sub(rf"\bRattle\.{a}\.", f"Rattle.{b}.", new)
            if p.endswith(".rt"):
                new = re.sub(rf"(?m)^(\s*(?:pub\s+)?use ){a}::", rf"\1{b}::", new)
                new = re.sub(rf"(?<![\w:]){a}::(?=[a-z_]+\()", f"{b}::", new)
        new = aliases(new)
        if new != old:
            open(p, "w", encoding="utf-8").write(new)
    for a, b in CRATES.items():
        if os.path.isdir(f"crates/{a}"):
            subprocess.run(["git", "mv", f"crates/{a}", f"crates/{b}"], check=True)
    lines = open("crates.txt").read()
    for a, b in CRATES.items():
        lines = re.sub(rf"\b{a}\b", b, lines)
    open("crates.txt", "w").write(lines)
    for c in sorted(os.listdir("crates")):
        if os.path.isdir(f"crates/{c}/src"):
            subprocess.run(["rt", "fmt"], cwd=f"crates/{c}", stdout=subprocess.DEVNULL, stderr=subprocess.DEVNULL)
    return 0


if __name__ == "__main__":
    sys.exit(main())
