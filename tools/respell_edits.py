#!/usr/bin/env python3
"""Writes the wrong answers in crates/*/must-fail/ in the spelling of today's Rattle, each with the wrong meaning that it had.

usage: python3 tools/respell_edits.py COMMIT [--write]     at the top of the repository; COMMIT is the last one in the older spelling

/opt/rattle/port/port.py and tools/respell.py turn no edit. An edit is read as it stands in COMMIT, its place is found there, and the line that
stands for it today is found by setting the lines of both files side by side. Names are turned as the lines of the whole repository were turned,
from COMMIT to today: `leZ` is `le_z`, `i .lo` is `i.lo`, `_-_` is `◌-◌`. What an edit changes stays what it changed.
It prints each turned edit beside what it was, then what is left to do by hand: a line that is not the old one respelled, a text that does not
stand exactly once in today's file, a name that is not in scope there. It writes only with --write.
"""

import collections
import difflib
import glob
import os
import re
import subprocess
import sys

MOVED = {
    "crates/meaning/specs/Contracts.antt": "crates/meaning/specs/Promises.antt",
    "crates/exports/src/sets.rt": "crates/exports/src/interval_sets.rt",
}
# Where the change of a name would stand before the wrong answer: today's goals and facts have the names of the tests, and a number with no type is another one.
BY_HAND = {
    "crates/lines/must-fail/lo_past_hi_accepted.edit": [
        ("                return LineForm::Refused(UNGRAMMATICAL);", "                return LineForm::Refused(UNGRAMMATICAL) ;"),
        ("return LineForm::Refused(UNGRAMMATICAL);", "let kept = [LineForm::In(r, lo, hi), LineForm::Hold(r, lo, hi)]; return kept[held as usize];"),
    ],
    "crates/literals/must-fail/scale_of_no_decimals_for_all.edit": [("    let mut i = d;", "    let mut i: usize = 0;")],
    "crates/number/must-fail/abs_keeps_minus_one.edit": [("    if x < 0 { neg(x) } else { x }", "    if x == -1 { return x; } if x < 0 { neg(x) } else { x }")],
    "crates/number/must-fail/abs_keeps_the_negative.edit": [("    if x < 0 { neg(x) } else { x }", "    if x < 0 { neg(neg(x)) } else { neg(x) }")],
    "crates/number/must-fail/next_stops_at_zero.edit": [("    if x < MAX {", "    if 0 <= x { return Maybe::Nothing; } if x < MAX {")],
    "crates/number/must-fail/prev_stops_at_zero.edit": [("    if MIN < x {", "    if x <= 0 { return Maybe::Nothing; } if MIN < x {")],
    "crates/products/must-fail/narrow_is_too_wide.edit": [("        false", "        (-4294967296 <= s) & (e <= 2147483648)")],
    "crates/replies/must-fail/odd_before_many.edit": [("        return TOO_MANY;", "        let fine = is_normal(s); return NOT_NORMAL + fine as u8;")],
    "crates/replies/must-fail/over_eight_intervals_refused.edit": [("if ENDS < s.len() {", "if 16 < s.len() { return TOO_MANY; } if ENDS < s.len() {")],
    "crates/run/must-fail/sixteen_numbers_refused.edit": [
        ("if lent.len() < REGISTERS {", "if lent.len() < 17 { return Answer::Refused(TOO_SHORT, 0); } if lent.len() < REGISTERS {"),
    ],
    "crates/set_values/must-fail/crowded_zero_is_closed.edit": [
        (
            "    if flag {",
            "    if flag { if ENDS < count { let m = closing::close(work, count, INTERVALS); if m <= ENDS { if m <= work.len() { let mut ends = [0i64; ENDS];"
            " let done = slices::copy_front(&mut ends, work, m); return SetV { stop: 0, count: m / 2, ends: ends }; } } }",
        ),
    ],
    "crates/set_values/must-fail/flag_turned_round.edit": [("    if flag {", "    let flag = !flag; if flag {")],
    "crates/set_values/must-fail/zero_alone_passed.edit": [
        (
            "    if flag {",
            "    if flag { if count <= ENDS { let mut ends = [0i64; ENDS]; let done = slices::copy_front(&mut ends, work, count);"
            " return SetV { stop: 0, count: count / 2, ends: ends }; }",
        ),
    ],
    "crates/setpoints/must-fail/end_for_a_member.edit": [("    } else if hi < x {", "    } else if lo < x { hi } else if hi < x {")],
    "crates/setpoints/must-fail/one_interval_is_empty.edit": [("    if s.len() == 0 {", "    if s.len() < 3 { return EMPTY_SET; } if s.len() == 0 {")],
    "crates/sets/must-fail/two_left_unjoined.edit": [("if n < 4 {", "if n < 6 { return n; } if n < 4 {")],
    "crates/sheet/must-fail/line_of_121_bytes_accepted.edit": [
        ("if LINE < e - at {", "if (std::num::wrapping_sub_usize(e, at) == 121) & (n < LINES) { n += 1; at = e + 1; continue; } if LINE < e - at {"),
    ],
    "crates/sheet_check/must-fail/sets_of_528_refused.edit": [
        ("if sets.len() < SETS {", "if sets.len() < 529 { return Answer::Refused(TOO_SHORT, 0); } if sets.len() < SETS {"),
    ],
    "crates/sorting/must-fail/two_left_as_they_came.edit": [("if n < 4 {", "if n < 6 { return; } if n < 4 {")],
    "crates/wide/must-fail/half_the_range_is_far.edit": [
        ("    if v < 18446744073709551615 {", "    let v = v / 9223372036854775808 * 18446744073709551615; if v < 18446744073709551615 {"),
    ],
    "crates/wide/must-fail/next_window_always_far.edit": [("                return false;", "                return true;")],
    "crates/words/must-fail/loses_a_half_word.edit": [
        (
            "    let mixed = std::num::wrapping_add_u64(a1 * b0, a0 * b1);",
            "    let mixed = { let (a0, b1) = (a1, b0); std::num::wrapping_add_u64(a1 * b0, a0 * b1) };",
        ),
    ],
}
WORD = r"[A-Za-zℕℤℚα-ωΑ-Ω_◌][\w'′ℕℤα-ωΑ-Ω◌]*(?:-[\w'′ℕℤα-ωΑ-Ω]+)*"
OPERATOR = r"_[^\w\s(){},;.\"]+[ℕℤ]?_|◌[^\w\s(){},;.\"◌]+[ℕℤ]?◌"
TOKEN = re.compile(r'--[^\n]*|//[^\n]*|b?"(?:[^"\\\n]|\\.)*"|' + OPERATOR + "|" + WORD + r"|\d+|\s+|.")
STRUCTURE = [
    (re.compile(r"Rattle·(\w+)(?:·specs)?\.specs\.(?:specs\.)?"), r"Rattle.\1.specs."),
    (re.compile(r"(?<![\w.])(?:lib\.(?:ListN|Dec|IntN)|mathlib\.Core\.(?:Bool|List|Path)|Prim\.Native\.Nat)\.(?=[\w])"), "Rattle.std.specs.Prelude."),
    (re.compile(r"\((" + WORD + r") \.(\w+)\)"), r"\1.\2"),
    (re.compile(r"(?<=[\w'′]) \.(?=[a-z])"), "."),
]


def git(*words):
    return subprocess.run(["git", *words], check=True, capture_output=True, text=True).stdout


def read(path):
    with open(path, encoding="utf-8", newline="") as f:
        return f.read()


def structured(text):
    """The text with paths, projections and operators in today's form, and names as they were."""
    for pattern, to in STRUCTURE:
        text = pattern.sub(to, text)
    return re.sub(r"(?<![\w'◌])_([^\w\s(){},;.\"]+[ℕℤ]?)_(?![\w'])", r"◌\1◌", text).replace("′", "'")


def words(text):
    return [t for t in TOKEN.findall(text) if not t.isspace()]


def beside(old, new):
    """For each line of the older file the lines of today's that may stand for it, by their neighbours."""
    a = [re.sub(r"[_-]", "", structured(line)).lower().strip() for line in old]
    b = [re.sub(r"[_-]", "", line).lower().strip() for line in new]
    pairs = {}
    for kind, i1, i2, j1, j2 in difflib.SequenceMatcher(None, a, b, autojunk=False).get_opcodes():
        for i in range(i1, i2):
            pairs[i] = [j1 + i - i1] if kind == "equal" else sorted(range(j1, j2), key=lambda j: -difflib.SequenceMatcher(None, a[i], b[j]).ratio())
    return pairs


def learn(files):
    """How names were turned: those that stand in the same place of a line whose other tokens did not change."""
    seen = collections.defaultdict(collections.Counter)
    for old, new in files.values():
        old, new = old.split("\n"), new.split("\n")
        for i, lines in beside(old, new).items():
            if len(lines) != 1:
                continue
            a, b = words(structured(old[i])), words(new[lines[0]])
            if len(a) == len(b) and all(x == y or re.fullmatch(WORD, x) for x, y in zip(a, b)):
                for x, y in zip(a, b):
                    if re.fullmatch(WORD, x):
                        seen[x][y] += 1
    return {x: to.most_common(1)[0][0] for x, to in seen.items() if to.most_common(1)[0][0] != x}


def tail(line, text):
    """The last names of an import, as many as stand once in the file."""
    parts = line.split(", ")
    return next(t for t in (", ".join(parts[-n:]) for n in range(2, len(parts) + 1)) if text.count(t) == 1)


def edit_of(text):
    path, pairs, old = None, [], None
    for line in text.split("\n"):
        if line.startswith("file: "):
            path = line[6:]
        elif line.startswith("old: "):
            old = line[5:]
        elif line.startswith("new: "):
            pairs.append((old, line[5:]))
    return path, pairs


def in_scope(text):
    """The names that a file declares, binds or imports: for a name that an edit brings in."""
    return set(re.findall(OPERATOR + "|" + WORD, re.sub(r"(?m)(--|//).*$", "", text)))


def brought(pairs, antt):
    """The names and operators that the new texts have: a path brings in no name, nor does a text between quotes."""
    found = set()
    for old, new in pairs:
        text = re.sub(r"b?'[^'\n]*'|Rattle(\.\w+)+", " ", new) if not antt else re.sub(r"Rattle(\.\w+)+", " ", new)
        found |= {w for w in words(text) if re.fullmatch(WORD, w)}
        if antt and not new.startswith("use "):
            found |= {f"◌{w}◌" for w in re.findall(r"(?<!\S)([^\w\s(){}\[\],;.\"'=λ]+ℤ?)(?!\S)", re.sub(r'"[^"]*"', "", new))}
    return found


def importable(name, text, files):
    """Today's import line of this file from a module that another file imports the name from."""
    for line in text.split("\n"):
        module = re.match(r"use ([\w.]+)\.\{.*\}$", line)
        if module and any(re.search(rf"(?m)^use {re.escape(module[1])}\.\{{(?:.*, )?{re.escape(name)}(?:,.*)?\}}$", other) for _, other in files.values()):
            return line
    return None


def imports(old, new, was, now):
    """An edit of an import: the names that it adds, added to today's import of the names that it had."""
    had = re.findall(r"[^\s,{}]+", structured(old.split("{")[1]))
    added = [n for n in re.findall(r"[^\s,{}]+", structured(new.split("{")[1])) if n not in had]
    for line in now.split("\n"):
        if line.startswith("use ") and all(re.search(r"[{ ]" + re.escape(n) + "[,}]", line) for n in had):
            end = tail(line, now)
            return end, end[:-1] + "".join(", " + n for n in added if not re.search(r"[{ ]" + re.escape(n) + "[,}]", line)) + "}"
    return None


def turn(text, names, antt):
    if not antt:
        return text
    return "".join(names.get(t, t) for t in TOKEN.findall(structured(text)))


def turned(path, pairs, files, names):
    """The pairs in today's spelling, and what is not right about them."""
    out, wrong, antt = [], [], path.endswith(".antt")
    was, now = files[path]
    first = now
    for old, new in pairs:
        if was.count(old) != 1:
            return None, [f"stands {was.count(old)} times in the older file: {old}"]
        if antt and old.startswith("use "):
            pair = imports(old, new, was, now)
            if not pair:
                return None, [f"no such import today: {old}"]
        else:
            i = was[: was.index(old)].count("\n")
            a, b = was.split("\n"), now.split("\n")
            pair = turn(old, names, antt), turn(new, names, antt)
            lines = [j for j in beside(a, b)[i] if pair[0] in b[j]]
            if not lines:
                wrong.append(f"today's line is another one: {a[i].strip()}\n        today: {' | '.join(b[j].strip() for j in beside(a, b)[i][:2])}")
            elif now.count(pair[0]) == 1 and now[: now.index(pair[0])].count("\n") != lines[0]:
                wrong.append(f"stands at another place: {pair[0]}")
            elif turn(a[i], names, antt) != b[lines[0]]:
                wrong.append(f"the line differs by more than its spelling (look): {b[lines[0]].strip()}")
        if now.count(pair[0]) != 1:
            wrong.append(f"stands {now.count(pair[0])} times: {pair[0]}")
        if pair[0] == pair[1]:
            wrong.append(f"nothing is changed: {pair[0]}")
        out.append(pair)
        was, now = was.replace(old, new, 1), now.replace(pair[0], pair[1], 1)
    scope = in_scope(first) | {"true", "false"}
    for _, new in out:
        if new.endswith("}") and "," in new:
            scope |= in_scope(new)
    for name in sorted(brought(out, antt) - scope):
        line = importable(name, first, files) if antt else None
        if line:
            end = tail(line, first)
            out.insert(0, (end, end[:-1] + f", {name}}}"))
        else:
            wrong.append(f"not in today's file: {name}")
    return out, wrong


def main():
    if len(sys.argv) < 2 or sys.argv[1].startswith("-"):
        print(__doc__)
        return 1
    commit, write = sys.argv[1], "--write" in sys.argv[2:]
    files = {}
    for path in git("ls-tree", "-r", "--name-only", commit, "crates").split("\n"):
        today = MOVED.get(path, path)
        if re.search(r"/(specs/.*\.antt|proofs/[^/]+\.antt|src/.*\.rt)$", path) and os.path.exists(today):
            files[today] = git("show", f"{commit}:{path}"), read(today)
    names = learn(files)
    left, same, written = [], 0, 0
    for edit in sorted(glob.glob("crates/*/must-fail/*.edit")):
        path, pairs = edit_of(git("show", f"{commit}:{edit}"))
        path = os.path.join(edit.split("/must-fail/")[0], path)
        path = MOVED.get(path, path)
        out, wrong = (BY_HAND[edit], []) if edit in BY_HAND else turned(path, pairs, files, names)
        left += [f"{edit}: {w}" for w in wrong]
        if out is None:
            continue
        text = f"file: {path.split('/', 2)[2]}\n" + "".join(f"old: {o}\nnew: {n}\n" for o, n in out)
        if text == git("show", f"{commit}:{edit}"):
            same += 1
            continue
        written += 1
        print(edit)
        for sign, those in (("-", pairs), ("+", out)):
            print("".join(f"    {sign} {old}\n    {sign} {new}\n" for old, new in those), end="")
        if write:
            with open(edit, "w", encoding="utf-8", newline="") as f:
                f.write(text)
    print(f"{same} edits stand as they are, {written} turned, {len(left)} to look at:")
    print("\n".join("    " + line for line in left))
    return 0


if __name__ == "__main__":
    sys.exit(main())
