#!/usr/bin/env python3
"""Compares worked examples with the library: cases.py FILE.. (each line of a file a JSON object; JUWENFO_LIBRARY names the shared object).

An object has `call` and what is given to it, and what it is to answer; texts are strings of bytes (latin-1), numbers are thousandths:

    listing  text; written
    check    text; number, line, and on a pass sets: the ends of each register
    run      text, lent; number, line, left: the numbers afterwards
    page     text; number, line, written
    nearest  set, x; number, member
    within   set, x, distance, out: how many numbers are lent, all 7; number, count, left: out afterwards
    mul      left, right: normal sets, flag false; number, answer

It says for each call how many agree and shows the first that differs. A call that is not listed here is counted apart.
"""
import collections
import json
import os
import sys

sys.path.insert(0, os.path.join(os.path.dirname(os.path.dirname(os.path.abspath(__file__))), "bindings", "python"))
import juwenfo


def text(case):
    return case["text"].encode("latin-1")


def listing(case):
    return {"written": juwenfo.listing(text(case)).decode("latin-1")}


def check(case):
    try:
        sets = juwenfo.check(text(case))
    except juwenfo.Trouble as t:
        return {"number": t.number, "line": t.line}
    return {"number": 0, "line": 0, "sets": [[x for interval in s for x in interval] for s in sets]}


def run(case):
    try:
        return {"number": 0, "line": 0, "left": juwenfo.run(text(case), case["lent"])}
    except juwenfo.Trouble as t:
        return {"number": t.number, "line": t.line, "left": list(t.registers) or case["lent"]}


def page(case):
    try:
        return {"number": 0, "line": 0, "written": juwenfo.page(text(case)).decode("latin-1")}
    except juwenfo.Trouble as t:
        return {"number": t.number, "line": t.line, "written": ""}


def mul(case):
    try:
        answer, flag = juwenfo.set_mul(juwenfo._pairs(case["left"]), juwenfo._pairs(case["right"]))
    except juwenfo.Refused as r:
        return {"number": r.number, "answer": []}
    got = {"number": 0, "answer": juwenfo._ends(answer)}
    return dict(got, flag=True) if flag else got  # no case has a flag, which is false


# The two calls below are the C functions themselves: a slice that is no list of intervals, and an out of any length, have no place in the Python calls.

def nearest(case):
    given = juwenfo._slice(case["set"])
    a = juwenfo._nearest(given, len(given), case["x"])
    return {"number": a.number, "member": a.member}


def within(case):
    given, out = juwenfo._slice(case["set"]), juwenfo._slice([7] * case["out"])
    a = juwenfo._within(given, len(given), case["x"], case["distance"], out, len(out))
    got = {"number": a.number, "count": a.count, "left": out[:]}
    return dict(got, flag=True) if a.flag else got  # no case has a flag, which is false


if len(sys.argv) < 2:
    sys.exit("usage: cases.py FILE..")
CALLS = {"listing": listing, "check": check, "run": run, "page": page, "nearest": nearest, "within": within, "mul": mul}
ANSWERS = ("written", "number", "line", "sets", "left", "member", "count", "answer")
agree, differ, unknown = collections.Counter(), collections.Counter(), collections.Counter()
for name in sys.argv[1:]:
    for line in open(name):
        case = json.loads(line)
        call = case["call"]
        if call not in CALLS:
            unknown[call] += 1
            continue
        got = CALLS[call](case)
        want = {k: case[k] for k in ANSWERS if k in case and (call, k) != ("mul", "left")}  # the left of mul is given
        if got == want:
            agree[call] += 1
            continue
        if not differ[call]:
            print("%s differs:\n%s\nbut the library says\n%s" % (call, line, got))
        differ[call] += 1
for call in CALLS:
    print("%s: %d agree, %d differ" % (call, agree[call], differ[call]))
for call, n in sorted(unknown.items()):
    print("%s: %d not compared" % (call, n))
sys.exit(sum(differ.values()) > 0)
