#!/usr/bin/env python3
"""Brings the names of definitions and lemmas in the pages to the spelling of the crates, once: what stands between backticks and is
a name that LANDED's specs/ and proofs/ give to something.

usage: tools/respell_pages.py LANDED PAGE..     at the top of the repository; LANDED: a folder with LANDED's crates/
"""
import os
import re
import sys

sys.path.insert(0, os.path.dirname(os.path.realpath(__file__)))
import respell


def defined(root):
    """The names that each file defines, in their order."""
    found = {}
    for p in respell.texts(root):
        if not p.endswith(".antt") or respell.walked(p) or os.path.basename(p) in ("Answers.antt", "Invariants.antt"):
            continue
        crate, rest = os.path.relpath(p, os.path.join(root, "crates")).split(os.sep, 1)
        names = found.setdefault((respell.CRATES.get(crate, crate), rest), [])
        for l in respell.SKIP.sub("", open(p, encoding="utf-8").read()).split("\n"):
            several = re.match(r"^\s*(?:(?:abbrev|unfoldable|pub|\|)\s+)*((?:[^\s(){}\[\],;.:=→]+\s+)+):(?!=)", l)
            one = respell.DEF.match(l)
            names += several[1].split() if several else [one[1]] if one else []
    return found


def main():
    old, new = defined(sys.argv[1]), defined(".")
    turned, several = {}, set()
    for f, names in old.items():
        here = new.get(f, [])
        if len(here) != len(names):
            print(f"left: {f}: {len(names)} names, {len(here)} here")
            continue
        for a, b in zip(names, here):
            if a != b:
                if turned.setdefault(a, b) != b:
                    several.add(a)
    for a in sorted(several):
        print(f"two names: {a}: {sorted({b for f, n in old.items() if f in new and len(new[f]) == len(n) for x, b in zip(n, new[f]) if x == a})}")
    strings = {os.path.splitext(f)[0] for _, _, fs in os.walk("examples/scripts") for f in fs}
    for l in open("crates/rules/specs/Codes.antt", encoding="utf-8"):
        strings.update(re.findall(r'"([a-z-]+)"', l))
    both = sorted(set(turned) & strings)
    print(f"also a sample's or a code's name, left: {both}")

    def word(m):
        return turned[m[0]] if m[0] in turned and m[0] not in strings else m[0]

    for page in sys.argv[2:]:
        t = open(page, encoding="utf-8").read()
        u = re.sub(r"`[^`\n]+`", lambda m: re.sub(r"[^\s(){}\[\],;.@«»`:]+", word, m[0]), t)
        if os.path.basename(page) == "RULES.md":
            # its tables name definitions plainly, in the last column
            u = re.sub(r"(?m)^(\|.*\|)([^|\n]*)\|$", lambda m: m[1] + re.sub(r"[A-Za-z][\w'-]*(?:-[\w'-]+|[a-z][A-Z])[\w'-]*", word, m[2]) + "|", u)
        if u != t:
            open(page, "w", encoding="utf-8").write(u)
            print(f"{page}: {sum(a != b for a, b in zip(t.split(), u.split()))} words")


if __name__ == "__main__":
    sys.exit(main())
