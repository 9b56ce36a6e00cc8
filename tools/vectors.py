#!/usr/bin/env python3
"""Writes crates/vectors/data: cases of the set calls and of the point operations, with the answers of the original Rust; and of nearest and within, which it
does not have, with those of reading.py.

    vectors.py ORACLE DATA

ORACLE is a program that runs the original's operators: a line `OP FLAG ends.. / ends..` gives `FLAG ends..`, and a line `.OP A B` a number or `none`.
DATA is the folder to write. The format is in DATA/README.md. The same call writes the same files.
"""
import os
import random
import struct
import subprocess
import sys

import reading as rules
from reading import MIN, MAX, GREATEST

SEED = 64
ONE_SET = ['neg', 'abs', 'not']
TWO_SETS = ['add', 'sub', 'mul', 'div', 'rem', 'and', 'or', 'le', 'lt', 'ne', 'union', 'intersect']
FLAGGED = ['neg', 'abs', 'add', 'sub', 'mul', 'div', 'rem']
POINTS = ['neg', 'abs', 'not', 'add', 'sub', 'mul', 'div', 'rem', 'and', 'or', 'le', 'lt', 'ne', 'next', 'prev']
CORNERS = (MIN, MAX, 0, 1000, -1000, 2**62, -2**62, 2**31, 2**32, -2**32, 3037000499, -3037000500, 9223372036854775, -9223372036854775,
           18446744073709551, -18446744073709551, 27670116110564327, -27670116110564327, 36893488147419103, 2**61, -2**61, 10**16, -10**16,
           6917529027641081855, MAX // 3, MIN // 3)
EDGES = sorted({min(MAX, max(MIN, c + d)) for c in CORNERS for d in range(-2, 3)})
NEAR = [z for z in EDGES if abs(z) < 5 or z < MIN + 5 or z > MAX - 5]


# ---- random sets

def number(r):
    k = r.random()
    if k < .4: return r.choice(NEAR)
    if k < .65: return r.choice(EDGES)
    if k < .8: return r.randint(-20, 20)
    return r.choice((-1, 1)) * r.randrange(2**r.randint(1, 63))


def interval(r):
    a = number(r)
    k = r.random()
    b = a if k < .3 else number(r) if k < .7 else min(MAX, a + r.randrange(2**r.randint(0, 62)))
    return (min(a, b), max(a, b))


def some(r, n):
    """A normal set of n intervals."""
    while n <= 2 and r.random() < .7:
        got = rules.join([interval(r) for _ in range(n)])
        if len(got) == n: return got
    wide = r.random() < .5
    ends = []
    for z in sorted({number(r) if wide else r.randint(-40 * n, 40 * n) for _ in range(30 * n)} | {10 * i for i in range(2 * n)}):
        if not ends or ends[-1] + 1 < z: ends.append(z)
    at = sorted(r.sample(ends, 2 * n))
    return [(at[i], at[i + 1] if r.random() < .6 else at[i]) for i in range(0, 2 * n, 2)]


# ---- the named differences of document 01

def named(op, left, right):
    """Some pair is under a named difference."""
    if op == 'lt': return True
    if op == 'abs': return any(s < 0 < e or (s, e) == (MIN, MIN) for s, e in left)
    if op not in ('mul', 'div'): return False
    return any(named_pair(op, l, r) for l in left for r in right)


def compared(op, ends):
    """The original's answer as it is compared: that of mul is intersected with [-GREATEST, GREATEST], by document 02 (vii)."""
    if op != 'mul': return ends
    return [z for s, e in rules.pairs(ends) if s <= GREATEST and e >= -GREATEST for z in (max(s, -GREATEST), min(e, GREATEST))]


def named_pair(op, l, r):
    if op == 'div' and r == (0, 0): return False
    ends = [a * b for a in l for b in r] if op == 'mul' else [1000 * l[0], 1000 * l[1]]
    p, q = min(ends), max(ends)
    if q - p >= 2**64 - 1: return op == 'div' and q - p < 1000 * (2**64 - 1)
    return rules.window(p) != rules.window(q) and rules.window(p) != 0 and rules.window(q) != 0


LEAST = {
    'abs': [([(-1, 1)], []), ([(MIN, MIN)], [])],
    'lt': [([(0, 0)], [(0, 0)]), ([(0, 1)], [(1, 1)])],
    'le': [([(0, 1)], [(0, 0)])],
    'mul': [([(MAX, MAX)], [(3, 4)]), ([(MAX, MAX)], [(3, 5)]), ([(6917529027641081855, 6917529027641082856)], [(4, 4)])],
    'div': [([(27670116110564327, 27670116110564328)], [(1, 1)]), ([(0, 18446744073709552)], [(1, 1)]), ([(-10**16, 10**16)], [(1000, 1000)])],
}
MARKED_VALUES = {
    'neg': [([(MIN, -1)], [])],
    'abs': [([(-5, 3)], [])],
    'add': [([(MAX - 2, MAX)], [(1, 1)]), ([(MIN, -1)], [(0, MAX)]), ([(MIN, 0)], [(0, MAX)])],
    'div': [([(0, 0)], [(-1, 1)])],
    'rem': [([(7, 7)], [(0, 0)]), ([(MIN, MIN)], [(-1, -1)]), ([(7, 9)], [(4, 4)]), ([(MIN, MAX)], [(MIN, MAX)])],
    'lt': [([(3, 3)], [(3, 3)])],
}


# ---- the sets of one operation

def arguments(op, r):
    """Pairs of normal sets."""
    got = list(MARKED_VALUES.get(op, [])) + list(LEAST.get(op, []))
    one = op in ONE_SET
    for _ in range(200): got.append(([edge(r)], [edge(r)]))
    sizes = [0, 1, 2, 3, 4, 5, 8, 12, 15, 16]
    for n in range(17): got.append((some(r, n), some(r, r.choice((1, 1, 2)))))
    for n in range(17): got.append((some(r, 1), some(r, n)))
    for n in sizes: got.append((some(r, n), []))
    for n in sizes: got.append(([], some(r, n)))
    for _ in range(150): got.append((some(r, r.choice((1, 1, 2, 3))), some(r, r.choice((1, 1, 2, 3)))))
    for n, m in ((16, 16), (15, 16), (7, 9), (16, 3), (4, 16)): got.append((some(r, n), some(r, m)))
    for d in (0, MIN, -1): got.append(([edge(r)], rules.join([(d, d), edge(r)])))
    if op in ('mul', 'div', 'abs', 'lt'):
        while sum(named(op, a, b) for a, b in got) < 60:
            a, b = some(r, 1), some(r, 1)
            if named(op, a, b): got.append((a, b))
    return [(a, [] if one else b) for a, b in got]


def edge(r):
    a, b = r.choice(NEAR if r.random() < .7 else EDGES), r.choice(NEAR if r.random() < .7 else EDGES)
    return (min(a, b), max(a, b))


# ---- products cut to their thousandths: document 02 (vii)

LATE = 6917529027641081855    # four times it is 3 below the end of window 1
PRODUCTS = [
    # split in windows 1 and 2, and -2 and -1: the marked product and its neighbours; pieces of one number at either end
    ([(LATE, LATE + 1001)], [(-4, -4)]), ([(-LATE - 1001, -LATE)], [(4, 4)]), ([(4, 4)], [(LATE, LATE + 1001)]), ([(LATE, LATE + 1)], [(4, 4)]), ([(LATE - 2000, LATE + 1)], [(4, 4)]),
    ([(LATE, LATE + 3000)], [(4, 4)]), ([(LATE, LATE)], [(4, 4)]), ([(LATE + 1, LATE + 1)], [(4, 4)]), ([(LATE + 1, LATE + 1001)], [(4, 4)]), ([(LATE - 1000, LATE)], [(4, 4)]),
    ([(3, 4)], [(MAX, MAX)]), ([(MIN, MIN)], [(3, 4)]), ([(MIN, MIN)], [(-4, -3)]), ([(MAX, MAX)], [(-4, -3)]), ([(MAX - 1, MAX)], [(3, 3)]), ([(MIN, MIN + 1)], [(3, 3)]),
    # in windows 0 and 1, and -1 and 0: apart, and joined to the whole range
    ([(MAX, MAX)], [(1, 2)]), ([(MIN, MIN)], [(1, 2)]), ([(2**62, 2**62)], [(1, 2)]), ([(2**62, 2**62)], [(1, 3)]), ([(2**62, 2**62)], [(2, 3)]), ([(-2**62, -2**62)], [(2, 3)]), ([(2**61, 2**61)], [(3, 5)]),
    ([(2**61, 2**61 + 2**60)], [(2, 4)]), ([(-2**61, -2**61)], [(3, 5)]), ([(MIN, MAX - 1)], [(-1, -1)]), ([(2**62 - 500, 2**62 + 500)], [(2, 2)]), ([(-2**62 - 500, -2**62 + 500)], [(2, 2)]),
    # far: a distance of 2^64 - 1, one less and more, and the whole range
    ([(0, 2**32 - 1)], [(2**32 + 1, 2**32 + 1)]), ([(0, 2**32 - 1)], [(-2**32 - 1, -2**32 - 1)]), ([(0, MAX)], [(2, 2)]), ([(MIN, 0)], [(2, 2)]), ([(MIN, MAX)], [(2, 2)]), ([(0, MAX)], [(3, 3)]),
    ([(MIN, MAX)], [(MIN, MAX)]), ([(MIN, MAX)], [(MAX, MAX)]), ([(MIN, MIN)], [(MIN, MAX)]), ([(MIN, MAX)], [(1000, 1000)]), ([(MIN, -1)], [(1, MAX)]), ([(MIN, MAX)], [(0, 1)]),
    # one window: products that come to -GREATEST and GREATEST, or just not
    ([(MIN, MAX)], [(1, 1)]), ([(MIN, MAX)], [(-1, -1)]), ([(MIN, MAX)], [(0, 0)]), ([(MIN, MIN)], [(1, 1)]), ([(MAX, MAX)], [(1, 1)]), ([(MIN, MIN)], [(-1, -1)]), ([(MAX, MAX)], [(-1, -1)]),
    ([(MIN, MIN)], [(MIN, MIN)]), ([(MIN, MIN)], [(MAX, MAX)]), ([(MAX, MAX)], [(MAX, MAX)]), ([(2**62, 2**62)], [(2, 2)]), ([(-GREATEST, GREATEST)], [(1000, 1000)]), ([(GREATEST, GREATEST)], [(1000, 1000)]),
    ([(-GREATEST, -GREATEST)], [(1000, 1000)]), ([(-GREATEST, GREATEST)], [(1001, 1001)]), ([(GREATEST, GREATEST + 1)], [(1000, 1000)]), ([(-GREATEST - 1, -GREATEST)], [(1000, 1000)]), ([(-GREATEST - 1, GREATEST + 1)], [(1000, 1000)]),
    ([(MAX - 808, MAX)], [(1, 1)]), ([(MAX - 807, MAX)], [(1, 1)]), ([(MIN, MIN + 809)], [(1, 1)]), ([(MIN, MIN + 808)], [(1, 1)]),
    # sets of several intervals: a set between its cut neighbours, and one where every piece is cut
    ([(-1145, -1144), (LATE, LATE + 1)], [(4, 4)]), ([(MIN, MIN), (0, 0), (MAX, MAX)], [(1, 1)]), ([(MIN, MIN), (MAX, MAX)], [(MIN, MIN), (MAX, MAX)]), ([(MAX, MAX)], [(3, 4), (1000, 1000)]),
]


def evenly(n, first, step, width):
    return [(first + i * step, first + i * step + width) for i in range(n)]


def products(r):
    """Pairs of normal sets whose products are split, far, or end at -GREATEST and GREATEST; up to 16 by 16."""
    got = list(PRODUCTS)
    for n, m in ((16, 1), (16, 2), (1, 16), (7, 9), (16, 16)):
        got.append((evenly(n, LATE - 8004, 1001, 1), evenly(m, 4, 8, 0)))
        got.append((evenly(n, MIN + 5, 2**60, 10**9), evenly(m, -2**40, 2**37 + 1, 3)))
        got.append((evenly(n, -GREATEST - 8, 3, 1), evenly(m, 992, 2, 0)))
        got.append((some(r, n), some(r, m)))
    got.append((evenly(16, MIN, 2**60 + 1, 2**30), evenly(16, MIN + 2**40, 2**60 - 1, 2**31)))
    got.append((evenly(16, MAX - 31, 2, 0), evenly(16, 1, 2, 0)))
    reach = 0
    while reach < 25:
        a, b = some(r, 1), some(r, r.choice((1, 1, 2)))
        if any(MAX in i or MIN in i for x in a for y in b for i in rules.r_uncut_mul(x, y)):
            got.append((a, b))
            reach += 1
    return got


# ---- slices as they are lent, refused ones too

def damaged(r):
    """Slices that are refused, with their numbers."""
    long = rules.flat(some(r, 16))
    return [([1], 1), ([1, 2, 3], 1), (long[:31], 1), ([5, 1], 1), ([1, 2, 3, 4], 1), ([1, 2, 2, 4], 1), ([3, 4, 1, 2], 1), ([1, 5, 2, 3], 1),
            ([MIN, MAX, MAX, MAX], 1), ([0, MIN], 1), (long[:30] + [7, 6], 1), (long + [1], 2), (long + [1, 2], 2), ([0] * 33, 2), ([0] * 34, 2), ([1, 0] * 20, 2)]


def need(op, left, right):
    return 2 * rules.K.get(op, 0) * (len(left) // 2) * (1 if op in ONE_SET else len(right) // 2)


def lent_cases(op, r):
    """left, flag, right, work length, out length."""
    got = []
    for i, (a, b) in enumerate(arguments(op, r)):
        left, right = rules.flat(a), rules.flat(b)
        size = 2 * len(rules.value(op, a, False, b)[0])
        flag = i % 2 == 1 and op in FLAGGED
        got.append((left, flag, right, need(op, left, right) + r.choice((0, 0, 1, 3)), size + r.choice((0, 0, 1, 4))))
        if i < 40 and size > 0: got.append((left, flag, right, need(op, left, right), r.choice((0, size - 1))))
        if i < 40 and need(op, left, right) > 0: got.append((left, flag, right, need(op, left, right) - 1, r.choice((0, size - 1, size))))
    good = rules.flat(some(r, 2))
    for bad, _ in damaged(r):
        got.append((bad, op in FLAGGED, good if op not in ONE_SET else [], r.choice((0, 500)), r.choice((0, 8))))
        if op in ONE_SET: continue
        got.append((good, False, bad, r.choice((0, 500)), r.choice((0, 8))))
        got.append((bad, False, r.choice(damaged(r))[0], 0, 0))
    if op == 'mul': got += cut_cases(r)
    return [(l, f, x, w if op in rules.K else 0, o) for l, f, x, w, o in got]


def cut_cases(r):
    """The products above: with enough lent, and every fourth with a work or an out that is one number short."""
    got = []
    for i, (a, b) in enumerate(products(r)):
        left, right = rules.flat(a), rules.flat(b)
        size, work = 2 * len(rules.value('mul', a, False, b)[0]), need('mul', left, right)
        got.append((left, i % 2 == 1, right, work + r.choice((0, 0, 1, 3)), size + r.choice((0, 0, 1, 4))))
        if i % 4 == 0: got.append((left, i % 2 == 1, right, work - i // 4 % 2, size - 1))
    return got


# ---- the closest setpoint: a set, and a number to ask about

FAR = 2**64 - 1
MARKED_SETS = [[(1, 1), (5, 5)], [(MIN, MIN)], [(MAX, MAX)], [(MIN, MAX)], [(MIN, MIN), (MAX, MAX)], [(MIN, MIN), (MAX - 1, MAX)], [(MIN, MIN + 1), (MAX, MAX)],
               [(MIN + 1, MIN + 1), (MAX, MAX)], [(MIN, -2), (0, MAX)], [(MIN, -1), (1, MAX)], [(-1, 1)], [(0, 0)]]


def asked(a, r):
    """Numbers in the set, at its ends, beside them, in the middle of its gaps, beyond all, and any."""
    got = [MIN, MAX, -1, 0, number(r)]
    for s, e in a: got += [s - 1, s, (s + e) // 2, e, e + 1]
    for (_, e), (s, _) in zip(a, a[1:]): got += [(e + s) // 2 + d for d in (-1, 0, 1)]
    return sorted({x for x in got if MIN <= x <= MAX})


def distances(a, x, r):
    """Distances at which an end just falls out or in, those beside them, and the extremes."""
    got = [0, 1, 2**63 - 1, 2**63, FAR - 1, FAR, r.randrange(2**r.randint(1, 64))]
    for m in rules.flat(a): got += [abs(m - x) + d for d in (-1, 0, 1)]
    return sorted({d for d in got if 0 <= d <= FAR})


def most(r, n, values):
    return values if len(values) <= n else r.sample(values, n)


def asked_sets(r):
    return MARKED_SETS + [[edge(r)] for _ in range(10)] + [some(r, n) for n in range(1, 17) for _ in range(2)]


def refused_setpoints(r):
    """Slices that are refused, each with a number."""
    return [(bad, number(r)) for bad, _ in damaged(r)] + [([], x) for x in (MIN, -1, 0, 1, 1000, MAX)]


def nearest_cases(r):
    got = []
    for a in asked_sets(r):
        ties = [(e + s) // 2 for (_, e), (s, _) in zip(a, a[1:]) if (e + s) % 2 == 0]
        got += [(rules.flat(a), x) for x in most(r, 8, asked(a, r)) + most(r, 2, ties)]
    return got + refused_setpoints(r)


def within_cases(r):
    """set, number, distance, out length."""
    got = []
    for a in asked_sets(r):
        ends, numbers = rules.flat(a), asked(a, r)
        pairs = [(x, d) for x in most(r, 3, numbers) for d in most(r, 2, distances(a, x, r))] + [(r.choice(numbers), FAR)]
        for x in most(r, 1, [x for x in numbers if not rules.member(x, a)]):
            least = abs(rules.nearest(ends, x)[1] - x)
            pairs += [(x, least - 1), (x, least)]
        for x, d in pairs:
            size = rules.within(ends, x, d, [0] * 32)[1]
            got.append((ends, x, d, size + r.choice((0, 0, 1, 4))))
            if size > 0 and r.random() < .2: got.append((ends, x, d, r.choice((0, size - 1))))
    for bad, x in refused_setpoints(r): got += [(bad, x, r.choice((0, 1, FAR)), 0), (bad, x, r.choice((0, 1, FAR)), 40)]
    return got


# ---- writing

class Oracle:
    def __init__(self, path):
        self.path = path

    def ask(self, lines):
        done = subprocess.run([self.path], input=''.join(l + '\n' for l in lines), capture_output=True, text=True, check=True)
        got = done.stdout.split('\n')[:-1]
        assert len(got) == len(lines)
        return got


def request(op, left, flag, right):
    words = [op, str(int(flag))] + [str(z) for z in left]
    return ' '.join(words if op in ONE_SET else words + ['/'] + [str(z) for z in right])


def stored(left, right, flag, number, flag_after, mark, work, room, zeroed, answer):
    head = struct.pack('<6B4H2x', len(left), len(right), flag, number, flag_after, mark, len(answer), work, room, zeroed)
    return head + struct.pack('<%dq' % (len(left) + len(right) + len(answer)), *left, *right, *answer)


def set_file(op, oracle, r):
    cases = lent_cases(op, r)
    answers = oracle.ask([request(op, l, f, x) if rules.judge_set(l) == 0 and rules.judge_set(x) == 0 else '.neg 0' for l, f, x, w, o in cases])
    out, marks, refused = [], 0, [0] * 5
    for (left, flag, right, work, room), answer in zip(cases, answers):
        number, count, flag_after, work_after, out_after = rules.set_call(op, left, flag, right, [-1] * work, [-2] * room)
        mark = False
        if number == 0:
            words = [int(w) for w in answer.split()]
            theirs = compared(op, words[1:])
            ends = theirs if op != 'le' else [z for i in sorted(rules.pairs(theirs)) for z in i]
            if (ends, words[0]) != (out_after[:count], int(flag_after)):
                assert named(op, rules.pairs(left), rules.pairs(right)), (op, left, right, answer)
                mark = True
            mark = mark or theirs != out_after[:count]
        marks += mark
        refused[number] += 1
        zeroed = need(op, left, right) if number in (0, 4) else 0
        assert work_after == [0] * zeroed + [-1] * (work - zeroed) and out_after[count:] == [-2] * (room - count)
        out.append(stored(left, right, flag, number, flag_after, mark, work, room, zeroed, out_after[:count]))
    print('%-9s %4d cases, %3d marked, refused 1 to 4: %s, %d bytes' % (op, len(cases), marks, refused[1:], sum(map(len, out))))
    return b''.join(out)


def nearest_file(r):
    out, refused = [], [0] * 11
    for ends, x in nearest_cases(r):
        number, member = rules.nearest(ends, x)
        refused[number] += 1
        out.append(stored(ends, [x], False, number, False, False, 0, 0, 0, [] if number else [member]))
    print('nearest   %4d cases, refused 1, 2, 10: %s, %d bytes' % (len(out), [refused[n] for n in (1, 2, 10)], sum(map(len, out))))
    return b''.join(out)


def within_file(r):
    out, refused, empty = [], [0] * 11, 0
    for ends, x, distance, room in within_cases(r):
        number, count, flag, out_after = rules.within(ends, x, distance, [-2] * room)
        assert out_after[count:] == [-2] * (room - count)
        refused[number] += 1
        empty += (number, count) == (0, 0)
        out.append(stored(ends, [x, rules.wrap(distance)], False, number, flag, False, 0, room, 0, out_after[:count]))
    print('within    %4d cases, %d empty, refused 1, 2, 4, 10: %s, %d bytes' % (len(out), empty, [refused[n] for n in (1, 2, 4, 10)], sum(map(len, out))))
    return b''.join(out)


def point_file(op, oracle, r):
    ones = sorted({z for z in EDGES} | {number(r) for _ in range(40)}) if op in ('neg', 'abs', 'not', 'next', 'prev') else None
    pairs = [(z, 0) for z in ones] if ones else [(a, b) for a in NEAR for b in (MIN, -1, 0, 1, 1000, MAX)] + [(number(r), number(r)) for _ in range(80)]
    rule = {**rules.POINT1, **rules.POINT2, 'next': rules.p_next, 'prev': rules.p_prev}[op]
    asked = oracle.ask(['.%s %d %d' % (op, a, b) for a, b in pairs])
    out = []
    for (a, b), answer in zip(pairs, asked):
        value = rule(a) if ones else rule(a, b)
        if op not in ('and', 'or', 'le', 'lt', 'ne'): assert answer == ('none' if value is None else str(value)), (op, a, b, answer)
        out.append(struct.pack('<4q', a, b, 0 if value is None else 1, value or 0))
    print('%-9s %4d point cases' % (op, len(pairs)))
    return b''.join(out)


def main():
    oracle, folder = Oracle(sys.argv[1]), sys.argv[2]
    for op in ONE_SET + TWO_SETS:
        with open(os.path.join(folder, op), 'wb') as f: f.write(set_file(op, oracle, random.Random('%d %s' % (SEED, op))))
    for op, file in (('nearest', nearest_file), ('within', within_file)):
        with open(os.path.join(folder, op), 'wb') as f: f.write(file(random.Random('%d %s' % (SEED, op))))
    for op in POINTS:
        with open(os.path.join(folder, 'point_' + op), 'wb') as f: f.write(point_file(op, oracle, random.Random('%d point %s' % (SEED, op))))


if __name__ == '__main__': main()
