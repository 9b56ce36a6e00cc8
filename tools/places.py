#!/usr/bin/env python3
"""Counts the places where the code of crates/ has an older form, point by point of docs/DESIGN-PASS.md.

Usage: places.py [ROOT] [--list]     (ROOT: a checkout, by default the one that this file is in; --list names each place)

The code is read as text, as `rt fmt` lays it out. A place is one to look at, not a fault: the page says which stay and why.
"""
import collections
import pathlib
import re
import sys

ROOT = pathlib.Path([a for a in sys.argv[1:] if a != "--list"][0] if len([a for a in sys.argv[1:] if a != "--list"]) else pathlib.Path(__file__).parent.parent)
WORD = re.compile(r"[A-Za-z_][A-Za-z_0-9]*|\d+|<=|>=|==|!=|&&|\|\||->|=>|::|\.\.|\S")
KEPT = {"if", "else", "while", "let", "mut", "fn", "pub", "return", "match", "for", "in", "true", "false", "usize", "u64", "i64", "u8", "bool", "self", "Self", "break", "continue"}
# u8 by these names is a byte of a text or a digit, no number of a kind.
BYTES = {"b", "d", "a", "c", "low", "high", "byte"}
BYTE_FUNCTIONS = {"at", "digit", "from", "letter", "wide"}


class Function:
    def __init__(self, place, indent, lines):
        self.place = place
        text = "\n".join(lines)
        head = re.search(r"fn (\w+)", text)
        self.name = head.group(1)
        open_at = text.index("(", head.end())
        depth, i = 0, open_at
        while True:
            depth += {"(": 1, ")": -1}.get(text[i], 0)
            if depth == 0:
                break
            i += 1
        self.parameters = [p.strip() for p in split_top(text[open_at + 1:i]) if p.strip()]
        body_at = re.search(r"^%s\{$|\{$" % indent, text[i:], re.M)
        self.head = text[i + 1:i + body_at.start()]
        result = re.match(r"\s*->\s*([^\n{]+)", self.head)
        self.result = result.group(1).strip() if result else ""
        self.body = text[i + body_at.end():].rstrip()[:-1].strip()

    def requires(self):
        for clause in re.findall(r"requires(?: \w+)? \{(.*?)\}\s*(?=$|requires|ensures)", self.head, re.S):
            yield from (c.strip() for c in split_top(clause.strip(), "×"))


def split_top(text, mark=","):
    parts, depth, part = [], 0, ""
    for ch in text:
        depth += {"(": 1, "[": 1, "<": 1, ")": -1, "]": -1, ">": -1}.get(ch, 0) if mark == "," else {"(": 1, ")": -1}.get(ch, 0)
        if ch == mark and depth <= 0:
            parts.append(part)
            part = ""
        else:
            part += ch
    return parts + [part]


def read(path):
    lines = [l.rstrip("\n") for l in open(path, encoding="utf-8")]
    crate = path.parts[path.parts.index("crates") + 1]
    functions, types, others, i = [], [], [], 0
    while i < len(lines):
        start = re.match(r"( *)(pub(\(\w+\))? )?(const |unsafe |extern \"C\" )*fn \w+|( *)(pub )?(enum|struct) (\w+)", lines[i])
        if not start:
            others.append((crate, path, i + 1, lines[i]))
            i += 1
            continue
        indent = re.match(r" *", lines[i]).group()
        j = i
        if not re.search(r"[;}]$", lines[i]) or lines[i].endswith("{"):
            while j < len(lines) and lines[j] != indent + "}" and not (lines[j].endswith(";") and j == i):
                j += 1
        chunk = lines[i:j + 1]
        place = f"{crate}/{path.name}:{i + 1}"
        if re.search(r"\bfn \w+", lines[i]):
            if any(l.endswith("{") for l in chunk):
                functions.append(Function(place, indent, chunk))
        else:
            types.append((place, chunk))
        i = j + 1
    return functions, types, others


functions, types, others = [], [], []
for path in sorted((ROOT / "crates").glob("*/src/**/*.rt")):
    f, t, o = read(path)
    functions += f
    types += t
    others += o

places = collections.OrderedDict((n, []) for n in ("1 enums", "1 fields", "1 numbers", "2 twins", "3 loops", "4 by hand", "5 facts", "5 groups", "6 lengths", "7 switches"))

for place, chunk in types:
    name = re.search(r"(enum|struct) (\w+)", chunk[0]).groups()
    fields = [l.strip().rstrip(",") for l in chunk[1:-1] if l.strip() and not l.strip().startswith(("//", "ghost", "#"))]
    if name[0] == "enum":
        bare = [f for f in fields if re.fullmatch(r"\w+", f)]
        full = [f for f in fields if "(" in f or "{" in f]
        if full and (bare or any(re.search(r"\((u8|u8, usize)\)$", f) for f in full)):
            places["1 enums"].append(f"{place} {name[1]}")
    else:
        flags = [f for f in fields if re.search(r": (bool|u8)$", f)]
        if flags and len(fields) > 1:
            places["1 fields"].append(f"{place} {name[1]}: {', '.join(flags)}")
        if any(re.search(r": \[.*; ", f) for f in fields) and any(f.endswith(": usize") for f in fields):
            places["6 lengths"].append(f"{place} {name[1]}")

for crate, path, n, line in others:
    if re.match(r"\s*(pub )?const \w+: u8 = \d", line):
        places["1 numbers"].append(f"{crate}/{path.name}:{n} {line.strip()}")

shapes = collections.defaultdict(list)
facts = collections.defaultdict(set)
groups = collections.defaultdict(set)
for f in functions:
    named = [(p.split(":")[0].strip(), p.split(":")[1].strip()) for p in f.parameters if ":" in p]
    where = f"{f.place} {f.name}"
    numbers = [n for n, t in named if t == "u8" and n not in BYTES]
    if numbers or (f.result == "u8" and f.name not in BYTE_FUNCTIONS):
        places["1 numbers"].append(f"{where}({', '.join(numbers)}) {'-> u8' if f.result == 'u8' else ''}")
    code = re.sub(r"//.*", "", f.body)
    tokens = WORD.findall(code)
    if len(tokens) >= 12:
        shape = " ".join(t if t in KEPT or not re.match(r"\w", t) else "_" for t in tokens)
        shapes[(shape, f.result if f.result in KEPT else "_", len(f.parameters))].append(where)
    for k in range(len(re.findall(r"^\s*(?:'\w+: )?while ", f.body, re.M))):
        places["3 loops"].append(where)
    plain = " ".join(code.split())
    if (re.fullmatch(r"[\w.]+ (<=|<|==|!=|>|>=) [\w.]+", plain) or re.fullmatch(r"\(?[\w.]+ as \w+\)?", plain) or re.fullmatch(r"if [\w.]+ \{ [\w.]+ \} else \{ [\w.]+ \}", plain)
            or re.fullmatch(r"if [\w.()]+ (<=|<|==) [\w.()]+ \{ [\w.]+ \} else \{ [\w.]+ \}|if le\(a, b\) \{ \w \} else \{ \w \}", plain)
            or re.fullmatch(r"match \w+ \{ .* \}", plain) and len(named) == 1 and not re.search(r"[a-z_]\(|\[", plain)
            or "% 10" in plain):
        places["4 by hand"].append(f"{where}: {plain[:70]}")
    names = {n for n, _ in named} | {"self", "result"}
    for fact in f.requires():
        shape = re.sub(r"[A-Za-z_]\w*", lambda m: "_" if m.group() in names else m.group(), fact)
        facts[shape].add(where)
    for size in (2, 3, 4, 5):
        for at in range(len(named) - size + 1):
            groups[", ".join(f"{n}: {t}" for n, t in named[at:at + size])].add(where)
    if any(t.startswith("&mut [") or t.startswith("&'a mut [") for _, t in named) and f.result == "usize":
        places["6 lengths"].append(where)
    if re.search(r"\bmatch (op|call|kind|kind_of\(op\))\b", f.body) and len(re.findall(r"=> [\w:]+\(", f.body)) > 1:
        places["7 switches"].append(where)

for shape, where in shapes.items():
    if len(where) > 1:
        places["2 twins"].append(f"{len(where)}: {', '.join(where)}")
for fact, where in facts.items():
    if len(where) > 2:
        places["5 facts"].append(f"{len(where)}: {fact}")
wide = {g: w for g, w in groups.items() if len(w) > 2}
for group, where in wide.items():
    if not any(group != other and group in other and len(w) == len(where) for other, w in wide.items()):
        places["5 groups"].append(f"{len(where)}: {group}")

for point, found in places.items():
    print(f"{point}: {len(found)}")
    if "--list" in sys.argv:
        for p in found:
            print(f"    {p}")
proofs = list((ROOT / "crates").glob("*/proofs/**/*.antt"))
proofs = [p for p in proofs if "laws" not in p.parts]
print(f"8 proofs outside laws: {len(proofs)} files, {sum(len(open(p, encoding='utf-8').readlines()) for p in proofs)} lines")
