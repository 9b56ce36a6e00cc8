#!/usr/bin/env python3
"""Compares reading.py with the original Rust on random and edge cases, outside document 01's named differences. The original's product is intersected
with the range of products first, by document 02 (vii).

    compare.py ORACLE SEED CASES

ORACLE is as in vectors.py. CASES is how many random cases each operation gets; as many again are one interval by one at the edges.
Writes every disagreement, and a line for each operation.
"""
import random
import sys

import reading as rules
import vectors
from vectors import EDGES, ONE_SET, TWO_SETS, edge, named, number, some


def size(r):
    return r.choice((0, 1, 1, 1, 1, 2, 2, 3, 4, 7, 15, 16)) if r.random() < .6 else 1


def compare_set(op, oracle, r, n):
    one = op in ONE_SET
    cases = [(some(r, size(r)), r.random() < .5, [] if one else some(r, size(r))) for _ in range(n)]
    cases += [([edge(r)], r.random() < .5, [] if one else [edge(r)]) for _ in range(n)]
    answers = oracle.ask([vectors.request(op, rules.flat(a), f, rules.flat(b)) for a, f, b in cases])
    wrong = under = 0
    for (a, f, b), answer in zip(cases, answers):
        words = answer.split()
        theirs = None if words[0] == 'panic' else (sorted(rules.pairs(vectors.compared(op, [int(w) for w in words[1:]]))), words[0] == '1')
        if theirs == rules.value(op, a, f, b): continue
        if named(op, a, b): under += 1
        else:
            wrong += 1
            print('differs:', op, a, f, b, 'original', answer)
    print('%-9s %6d cases, %d differ outside the named differences, %d inside' % (op, len(cases), wrong, under), flush=True)
    return wrong


def compare_point(op, oracle, r, n):
    pairs = [(a, r.choice(EDGES)) for a in EDGES for _ in range(10)] + [(number(r), number(r)) for _ in range(n)]
    rule = {**rules.POINT1, **rules.POINT2, 'next': rules.p_next, 'prev': rules.p_prev}[op]
    wrong = 0
    for (a, b), answer in zip(pairs, oracle.ask(['.%s %d %d' % (op, a, b) for a, b in pairs])):
        value = rule(a, b) if op in rules.POINT2 else rule(a)
        if answer != ('none' if value is None else str(value)):
            wrong += 1
            print('differs:', op, a, b, 'original', answer)
    print('.%-8s %6d cases, %d differ' % (op, len(pairs), wrong), flush=True)
    return wrong


def main():
    oracle, r, n = vectors.Oracle(sys.argv[1]), random.Random(int(sys.argv[2])), int(sys.argv[3])
    wrong = sum(compare_set(op, oracle, r, n) for op in ONE_SET + TWO_SETS)
    wrong += sum(compare_point(op, oracle, r, n) for op in ('neg', 'abs', 'not', 'add', 'sub', 'mul', 'div', 'rem', 'next', 'prev'))
    print(wrong, 'disagreements, seed', sys.argv[2])


if __name__ == '__main__': main()
