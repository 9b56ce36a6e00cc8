#!/usr/bin/env python3
"""Writes the repository's own definitions, lemmas and fields in the spelling of today's Rattle.

usage: python3 tools/respell.py [--clashes]     at the top of the repository, once, after /opt/rattle/port/port.py and before any edit by hand

Types and modules keep their upper camel case; every other name is in snake case, words joined by an underscore: `startSets` is `start_sets`,
`inside-all` is `inside_all`. A lemma that would have its function's name gets `_lem`. Names of the libraries, names that the check generates and
functions of src/ keep theirs. The file meaning/specs/Contracts.antt is Promises.antt, since a crate may have no file of that name in specs/.
With --clashes it writes nothing, and prints the names of a file that would be spelled alike.
"""

import os
import re
import sys

NAME = r"[A-Za-zℕℤℚα-ωΑ-Ω_][\w'ℕℤα-ωΑ-Ω]*(?:-[\w'ℕℤα-ωΑ-Ω]+)*"
TOKEN = re.compile(r"--[^\n]*|//[^\n]*|\"(?:[^\"\\\n]|\\.)*\"|" + NAME)
USE = re.compile(r"(?m)^\s*(?:pub )?(?:ghost )?(?:pub )?use ([\w+'-]+(?:\.[\w+'-]+)*)(?:\.\{([^}]*)\})?(?: as ([\w'-]+))?;?")
DECLARED = re.compile(r"(?m)^\s*(?:(?:abbrev|unfoldable|pub|ruleset) )*(" + NAME + r")(?: \{[^}\n]*\}| \([^)\n]*\))*\s*(?::(?!:)|= \($)")
WORDS = {"record", "data", "module", "where", "let", "in", "elim", "use", "pub", "mod", "unfolding", "open", "as", "abbrev", "unfoldable", "ruleset"}


def snake(name):
    """The spelling of a name: a part that begins with a capital is a type's or a constant's and keeps it."""
    parts = []
    for part in name.split("-"):
        if re.match(r"[A-ZΑ-Ω]", part):
            parts.append(part)
        else:
            parts.append(re.sub(r"(?<=[a-z0-9'])([A-Z])", lambda m: "_" + m[1].lower(), part))
    return "_".join(parts)


LEMMAS = {}


def turn(name):
    """The new spelling of one of the repository's own names."""
    return LEMMAS.get(name) or snake(name)


def name_lemmas(names):
    """Finds the lemmas that would have the name of a function, which is in camel case or, since the port's script turned it, in snake case."""
    groups = {}
    for name in names:
        groups.setdefault(snake(name), set()).add(name)
    for to, of in groups.items():
        camel = {n for n in of if "-" not in n and n != to}
        for n in of - camel:
            if len(of) > 1 and (camel or n != to):
                LEMMAS[n] = to + "_lem"


def read(path):
    with open(path, encoding="utf-8", newline="") as f:
        return f.read()


def files(end):
    for folder, dirs, names in os.walk("crates"):
        dirs[:] = sorted(d for d in dirs if d not in ("out", "target"))
        for name in sorted(names):
            if name.endswith(end):
                yield os.path.join(folder, name)


def of_a_function(path):
    """Whether the file is part of the proof of one function, whose goals have generated names."""
    return re.search(r"/proofs/(?:[^/]+/)+[^/]+$", path) is not None


def code_of(text):
    return re.sub(r"--[^\n]*", "", text)


def own_crates():
    return {re.match(r"(\w+)", line)[1] for line in read("crates.txt").split("\n") if re.match(r"\w", line)}


def imports(text, crates):
    """The names that a file imports from this repository, those from the libraries, and the aliases of each."""
    own, library, own_alias, library_alias = set(), set(), set(), set()
    for module, names, alias in USE.findall(text):
        parts = module.split(".")
        is_own = parts[0] == "Rattle" and len(parts) > 1 and parts[1] in crates
        generated = is_own and re.search(r"\.(Goals|Given|Tie|Statement|Code|Met|Lts|Reads|Kinds)(\.|$)", module) is not None
        for one in names.split(","):
            words = one.split(" as ")
            word = words[-1].strip()
            if word:
                (own if is_own and not generated else library).add(word)
                if len(words) > 1 and is_own and not generated:
                    own.add(words[0].strip())
        if not names:
            (own_alias if is_own and not generated else library_alias).add(alias or parts[-1])
    return own, library, own_alias, library_alias


def declared(text):
    return {name for name in DECLARED.findall(code_of(text)) if name not in WORDS}


def turned(text, may_turn):
    """The text with each name turned for which `may_turn` says so, given the name and what stands right before it."""
    out, last = [], 0
    for m in TOKEN.finditer(text):
        token = m[0]
        if token.startswith(("--", "//", '"')):
            continue
        before = text[max(0, m.start() - 60) : m.start()]
        if turn(token) != token and may_turn(token, before):
            out.append(text[last : m.start()])
            out.append(turn(token))
            last = m.end()
    return "".join(out) + text[last:]


def comments(text, known):
    """The text with the repository's own names turned in its comments, where they stand between backquotes or in camel case."""

    def one(m):
        return re.sub(NAME, lambda n: turn(n[0]) if n[0] in known and re.search("[a-z][A-Z]", n[0]) else n[0], re.sub(r"`[^`]*`", lambda q: re.sub(NAME, lambda n: turn(n[0]) if n[0] in known else n[0], q[0]), m[0]))

    return re.sub(r"(--|//)[^\n]*", one, text)


def main():
    crates = own_crates()
    antt = {p: read(p) for p in files(".antt")}
    lemma_files = {p: t for p, t in antt.items() if not of_a_function(p)}
    known = set()
    for text in lemma_files.values():
        known |= declared(text)
    name_lemmas(known)
    known = {n for n in known if turn(n) != n}
    changed, clashes = {}, []
    for path, text in antt.items():
        own, library, own_alias, library_alias = imports(text, crates)
        local = declared(text)

        def may_turn(token, before, own=own, library=library, own_alias=own_alias, library_alias=library_alias, local=local, path=path):
            if re.match("[A-Z]", token) and "-" not in token:
                return False
            if token in LEMMAS and "-" not in token and (before.endswith(".") or not (token in own or token in local)):
                return False
            dot = re.search(r"([\w'-]+)\.$", before)
            if dot:
                if dot[1] in library_alias:
                    return False
                if dot[1] in own_alias:
                    return True
                return token in known
            if token in library and token not in own:
                return False
            if of_a_function(path):
                return token in own or (re.search("[a-z][A-Z]", token) is not None and "-" not in token) or (token in known and re.search(r"[{;,]\s*$", before) is not None)
            return True

        new = turned(text, may_turn)
        pairs = {}
        for token in set(TOKEN.findall(code_of(text))):
            if turn(token) != token and may_turn(token, ""):
                pairs.setdefault(turn(token), set()).add(token)
        present = set(re.findall(NAME, re.sub(r"(?m)^(pub )?use [\w.+']+", "", code_of(text))))
        for to, of in pairs.items():
            if len(of) > 1 or (to in present and turn(to) == to):
                clashes.append(f"{path}: {', '.join(sorted(of))} -> {to}")
        new = comments(new, known)
        new = new.replace("specs.Contracts", "specs.Promises")
        if path == "crates/meaning/specs/Lib.antt":
            new = new.replace("pub mod Contracts", "pub mod Promises")
        if new != text:
            changed[path] = new
    for path in files(".rt"):
        text = read(path)
        own, library, own_alias, library_alias = imports(text, crates)

        def may_turn(token, before, own=own, own_alias=own_alias):
            if re.match("[A-Z]", token) and "-" not in token:
                return False
            if token in LEMMAS and "-" not in token and token not in own:
                return False
            dot = re.search(r"([\w'-]+)\.$", before)
            if dot:
                return dot[1] in own_alias or token in known
            return token in own or token in known

        new = comments(turned(text, may_turn), known).replace("specs.Contracts", "specs.Promises")
        if new != text:
            changed[path] = new
    if "--clashes" in sys.argv:
        print("\n".join(clashes))
        return 1
    for path, new in changed.items():
        with open(path, "w", encoding="utf-8", newline="") as f:
            f.write(new)
    if os.path.exists("crates/meaning/specs/Contracts.antt"):
        os.rename("crates/meaning/specs/Contracts.antt", "crates/meaning/specs/Promises.antt")
    print(f"{len(known)} names, {len(changed)} files")
    return 0


if __name__ == "__main__":
    sys.exit(main())
