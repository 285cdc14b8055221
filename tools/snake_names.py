#!/usr/bin/env python3
"""Gives the repository's own definitions and lemmas the spelling of today's Rattle: words in snake case, types in camel case.

usage: python3 tools/snake_names.py      at the top of the repository, once, after port.py

Own names are those that a file of specs/ or proofs/ declares. Of these, a name with a dash (or an old prime) is respelled wherever
it stands in an .antt file, in a clause or ghost item of an .rt file, and in the text of a must-fail edit. Functions, exported
names, strings, inputs and outputs are left. It stops, and writes nothing, where two of these names would fall together, and says where a name comes to equal another that a
file has already: --force goes on past those, which are modules named after a function.
"""

import os
import re
import sys

DELIMITERS = "\\s(){}\\[\\].;,:|"
NAME = re.compile(f"[^{DELIMITERS}]+")
DECLARED = re.compile(r"^\s*(?:(?:abbrev|unfoldable)\s+)?(?:pub\s+)?(?:(record|data)\s+)?([^\s(){}\[\].;,:|]+)\s*(?:[({].*)?\s*:\s")
# The helpers that the files of proofs/F/ declare for themselves: their other names are those of goals, which Rattle makes.
HELPERS = {"by-stage", "filled-as", "refused-in"}
# Names that a proof gives a step with let.
STEPS = {"at-r", "at-s", "commits-same", "ends-k", "is-wounded-now", "no-commit", "on-k", "only-k", "over-k", "records-same", "show-same", "starts-it"}


def files(end):
    for folder, dirs, names in os.walk("crates"):
        dirs[:] = sorted(d for d in dirs if d != "out")
        for n in sorted(names):
            if n.endswith(end):
                yield os.path.join(folder, n)


def respelled(name):
    words = [w for w in re.split("-", name.replace("′", "'")) if w]
    if name[0].isupper():
        return words[0] + "".join(w[0].upper() + w[1:] for w in words[1:])
    return "_".join(words)


def own_names():
    own = HELPERS | STEPS
    for p in files(".antt"):
        if p.split(os.sep)[2] == "proofs" and len(p.split(os.sep)) > 4:
            continue
        with open(p, encoding="utf-8") as f:
            for line in f:
                m = DECLARED.match(line)
                if m and ("-" in m.group(2) or "′" in m.group(2)) and m.group(2)[0].isalpha():
                    own.add(m.group(2))
    return own


def turned(text, table):
    return NAME.sub(lambda m: table.get(m.group(0), m.group(0)), text)


def turned_rt(text, table):
    """Only what is neither a comment nor a string: Rust has no names with a dash, so these are clauses and ghost items."""
    out, i = [], 0
    for m in re.finditer(r'//[^\n]*|"(?:[^"\\]|\\.)*"', text):
        out += [turned(text[i:m.start()], table), m.group(0)]
        i = m.end()
    return "".join(out + [turned(text[i:], table)])


def main():
    own = own_names()
    table = {n: respelled(n) for n in own}
    back = {}
    for n, m in sorted(table.items()):
        if m in back:
            print(f"fall together: {back[m]} and {n} -> {m}")
            return 1
        back[m] = n
    clash = False
    texts = {}
    for p in list(files(".antt")) + list(files(".rt")) + list(files(".edit")):
        with open(p, encoding="utf-8") as f:
            texts[p] = f.read()
    for p, t in texts.items():
        if not p.endswith(".antt"):
            continue
        there = set(NAME.findall(t))
        for m in there & set(back):
            if back[m] in there:
                print(f"equal in {p}: {back[m]} with {m}")
                clash = True
    if clash and "--force" not in sys.argv:
        return 1
    for p, t in texts.items():
        new = turned(t, table) if p.endswith(".antt") else turned_rt(t, table)
        if new != t:
            with open(p, "w", encoding="utf-8") as f:
                f.write(new)
    print(f"{len(table)} names respelled")
    return 0


if __name__ == "__main__":
    raise SystemExit(main())
