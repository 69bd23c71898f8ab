#!/usr/bin/env python3
"""Lists the places in crates/*/src that a reading of the design looks at, point by point.

    python3 tools/places.py [FOLDER]

FOLDER is a checkout, the current one if none is given. Each line has a point, a file, a line and what stands there.
The lists are candidates: docs/DESIGN-PASS.md says which of them are places.
"""
import collections
import pathlib
import re
import sys

ROOT = pathlib.Path(sys.argv[1] if len(sys.argv) > 1 else ".")
FILES = sorted(ROOT.glob("crates/*/src/**/*.rt"))

LINES = {
    "1 own Option or Result": r"^\s+(Wrong|Absent|Missing|Invalid|Failed)(\(.*\))?,$",
    "1 flag": r"\b\w+: bool\b",
    "1 number for a kind": r"\(u8, usize\)|\[u16; 8\]|\b(number|part): u8\b",
    "3 counted loop": r"\bwhile\b(?! let)|\bloop \{|\bfor \w+ in [^{]*\.\.",
    "3 cursor loop": r"\bwhile let\b|\bfor _ in\b",
    "4 conversion": r"\bas [ui](8|16|32|64|size)\b|/ 0x100\b|\* 0x100\b",
    "4 by hand": r"fn (same|number|reason|kind_name|item_name|signed|digit)\b|refused \{number\}",
    "6 buffer or parallel arrays": r"\[\w+; \d+\] =|\[b?'?\w+'?; \d+\];|\.truncate\(",
    "7 switch": r"\bif (binary|minus|first|inside)\b|\bdyn\b|\bfn\(",
}


def functions(text):
    """Name, line, parameters, clauses and body of each function."""
    for m in re.finditer(r"\bfn (\w+)", text):
        depth, i = 0, m.end()
        while i < len(text) and not (depth == 0 and text[i] in "{;"):
            if text[i] in "([":
                depth += 1
            if text[i] in ")]":
                depth -= 1
            clause = re.match(r"\n\s+(requires|ensures)[^{\n]*\{", text[i:])
            if depth == 0 and clause:
                i += clause.end()
                inner = 1
                while inner:
                    inner += {"{": 1, "}": -1}.get(text[i], 0)
                    i += 1
                continue
            i += 1
        head = text[m.end():i]
        body = ""
        if i < len(text) and text[i] == "{":
            j, inner = i + 1, 1
            while inner:
                inner += {"{": 1, "}": -1}.get(text[j], 0)
                j += 1
            body = text[i:j]
        yield m.group(1), text[:m.start()].count("\n") + 1, head, body


def shape(body):
    words = re.findall(r"[A-Za-z_]\w*|\d\w*|b?'[^']*'|b?\"[^\"]*\"|[^\s\w]", re.sub(r"//.*", "", body))
    keep = {"match", "if", "else", "let", "for", "in", "while", "loop", "return", "mut", "self"}
    return " ".join(w if w in keep or not re.match(r"[\w'\"b]", w) else "x" for w in words)


for label, pattern in LINES.items():
    for path in FILES:
        for n, line in enumerate(path.read_text().splitlines(), 1):
            code = line.split("//")[0]
            if re.search(pattern, code) and not re.match(r"\s*(requires|ensures|ghost)\b", code):
                print(f"{label}: {path.relative_to(ROOT)}:{n}: {line.strip()}")

shapes, facts, pairs = (collections.defaultdict(list) for _ in range(3))
for path in FILES:
    for name, line, head, body in functions(path.read_text()):
        where = f"{path.relative_to(ROOT)}:{line} {name}"
        if len(shape(body).split()) > 12:
            shapes[shape(body)].append(where)
        for fact in set(re.findall(r"requires(?: \w+)? \{ (.*) \}", head)):
            facts[re.sub(r"\b\w+\.(?=now|old)|\b(bytes|text|body|out)\b", "_", fact)].append(where)
        params = re.findall(r"(\w+): ([^,()]+(?:\([^()]*\))?)", head.split("->")[0])
        for (a, s), (b, t) in zip(params, params[1:]):
            pairs[(a, re.sub(r"'\w+ ", "", s).strip(), b, t.strip())].append(where)
for label, table, least in (("2 same shape", shapes, 2), ("5 fact", facts, 3), ("5 travel together", pairs, 3)):
    for key, where in sorted(table.items(), key=lambda kv: -len(kv[1])):
        if len(where) >= least:
            print(f"{label}: {len(where)}: {key if label[0] == '5' else ''} {'; '.join(where)}")
