#!/usr/bin/env python3
"""Spells the repository's own definitions and lemmas in words joined by underscores, and facts in words with capitals.

usage: python3 tools/respell_names.py [--list]      at the top of the repository; --list only shows what it would do

It reads which names the files of specs/ and proofs/ define: definitions, lemmas, constructors, aliases, and what they bind inside. `number-back` and
`numberBack` become `number_back`, `Comes-to` becomes `ComesTo`. Names that the toolchain makes, as `returns-in_ok`, stay. Two names that would fall
together get different ones by the table FALL. It was run once, when the repository moved to a newer Rattle.
"""

import collections
import os
import re
import sys

WORD = r"[^\s(){}\[\];,.⟨⟩\"@|]+"
# names that would fall together, and what the second is called
FALL = {"fault-number": "fault_number_lem", "put-mid": "put_mid_lem"}
# what the toolchain makes in the folders of functions
MADE = re.compile(r"^(returns|loop|invariant-loop|decreases|overflow|in-[A-Z]|if-|then-|else-)|-requires(-\d+)?$")


def files(ends):
    for folder, dirs, names in os.walk("crates"):
        dirs[:] = sorted(d for d in dirs if d != "out")
        for n in sorted(names):
            if n.endswith(ends):
                yield os.path.join(folder, n)


def odd(name):
    return bool(re.search(r"[A-Za-z]", name)) and ("-" in name.strip("-") or re.match(r"^[a-z]+[A-Z]", name))


def of_function(path):
    parts = path.split(os.sep)
    return not (parts[2] in ("specs", "proofs") and len(parts) == 4)


def own():
    found = collections.defaultdict(set)
    for p in files(".antt"):
        text = re.sub(r"--.*", "", open(p, encoding="utf-8").read())
        names = set()
        for m in re.finditer(r"^[ ]*((?:(?:abbrev|pub|unfoldable|data|record)\s+)*)(%s)(?=[\s(]+.*?:)" % WORD, text, re.M):
            line = text[m.start() : text.find("\n", m.start())]
            if re.match(r"^\s*(?:(?:abbrev|pub|unfoldable|data|record)\s+)*%s\s+(?:\([^)]*\)\s+|\{[^}]*\}\s+)*:(\s|$)" % WORD, line):
                if not (of_function(p) and MADE.search(m.group(2))):
                    names.add(m.group(2))
        for m in re.finditer(r"\bas (%s)(?=[,}\s])" % WORD, text):
            names.add(m.group(1))
        for m in re.finditer(r"\blet (%s)\s*[:=]" % WORD, text):
            names.add(m.group(1))
        for m in re.finditer(r"[({]((?:%s\s+)+):\s" % WORD, text):
            names.update(m.group(1).split())
        for n in names:
            if odd(n):
                found[n].add(p)
    return found


def turned(name):
    if name in FALL:
        return FALL[name]
    if name[0].isupper():
        return "".join(w[0].upper() + w[1:] for w in name.split("-"))
    return re.sub(r"([a-z])([A-Z])", lambda m: m.group(1) + "_" + m.group(2).lower(), name).replace("-", "_")


def main():
    found = own()
    table = {n: turned(n) for n in found}
    back = collections.defaultdict(set)
    for n, t in table.items():
        back[t].add(n)
    clash = {t: ns for t, ns in back.items() if len(ns) > 1}
    if clash:
        raise SystemExit(f"these fall together: {clash}")
    if "--list" in sys.argv[1:]:
        for n in sorted(table):
            print(n, table[n], *sorted(found[n]))
        return
    word = re.compile(WORD)
    for p in files((".antt", ".rt", ".edit")):
        text = open(p, encoding="utf-8").read()
        new = word.sub(lambda m: table.get(m.group(0), m.group(0)), text)
        if new != text:
            with open(p, "w", encoding="utf-8") as f:
                f.write(new)


main()
