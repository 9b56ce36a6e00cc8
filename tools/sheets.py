#!/usr/bin/env python3
"""Writes crates/sheets/data/sheets: small sheets, good and damaged, with what reading, run, check, listing, line finder and page give.

    sheets.py DATA

The answers are those of reading.py. The format is in DATA/README.md. The same call writes the same file.
"""
import os
import random
import struct
import sys

import reading as rules
from reading import MIN, MAX

SEED = 16
ZEROS = [0] * 16
CASES = []


def add(text, lent=None, sets=528, work=8192):
    text = text.encode('latin-1') if isinstance(text, str) else text
    CASES.append((text, list(ZEROS if lent is None else lent), sets, work))


def first_and_later(line, lent=None):
    """The line alone, and behind a good one."""
    add(line + '\n', lent)
    add('(put 1 1)\n' + line + '\n', lent)


def lent_at(**registers):
    got = list(ZEROS)
    for name, z in registers.items(): got[int(name[1:])] = z
    return got


# ---- 5

def texts():
    good = '(put 0 1)\n'
    add('')
    add('\n')
    add('\n\n')
    add(good)
    add(good[:-1])
    add(good * 2 + good[:-1])
    add('x')
    add(good * 256)
    add(good * 257)
    add(good * 256 + 'x')
    add(good * 255 + 'x\n')
    add('x\n' * 257)
    add('x\n' * 256)
    for n in (119, 120, 121):
        add(line_of(n) + '\n')
        add(good + line_of(n) + '\n')
        add(line_of(n) + '\r\n')
        add('x\n' + line_of(n) + '\n')
        add('x' * n + '\n')
        add('(put 0 ' + '9' * (n - 8) + ')\n')
    add(line_of(121))
    add((line_of(120) + '\n') * 3)
    add((line_of(120) + '\n') * 256)
    add('(put 0 1)\r\n')
    add('(put 0 1)\n\r')
    add('(put 0 1)\n\n(put 1 2)\n')
    add('\n(put 0 1)\n')
    add('(put 0 1)\n(put 1 2)\n\n')


def line_of(n):
    """A good line of n bytes."""
    for total in range(8, 100):
        for k in (5, 6):
            shape = '(put 0 ' + '(add ' * (k - 1) + '%s' + ' %s)' * (k - 1) + ')'
            digits = n - (len(shape) - 2 * k)
            if k <= digits <= 15 * k:
                sizes = [digits // k + (1 if i < digits % k else 0) for i in range(k)]
                return shape % tuple('1' + '0' * (s - 1) for s in sizes)


# ---- 6

DAMAGED = [
    'x', ' ', '()', '(put)', '(put 0)', '(put 0 )', '(put  0 1)', '(put 0  1)', ' (put 0 1)', '(put 0 1) ', '( put 0 1)', '(put 0 1 )', '(put 0 1))', '((put 0 1))',
    '(put 0 1)(put 1 1)', '(put 0 1) (put 1 1)', '(Put 0 1)', '(PUT 0 1)', '(put\t0 1)', '(put 0\t1)', '(put 0 1)\t', '(put 0 1)\r', '(put 0 1)\0', '\0', '(put 0 \0)',
    '(put 0 1\0)', '(put 0 \x801)', '\xff(put 0 1)', '(put 0 1)\xff', '(put 0 \xb1)', 'put 0 1', '(put 0 1', 'put 0 1)', '(put 0 (1))', '(put 0 (reg))', '(put 0 (reg ))',
    '(put 0 (reg 0)', '(put 0 (reg 0 ))', '(put 0 (reg  0))', '(put 0 (reg (reg 0)))', '(put 0 (reg 16))', '(put 0 (reg 00))', '(put 0 (reg -0))', '(put 0 (reg 1.0))',
    '(put 16 1)', '(put 00 1)', '(put 01 1)', '(put -0 1)', '(put 1.0 1)', '(put 100 1)', '(put ' + '9' * 40 + ' 1)', '(put x 1)', '(put (reg 0) 1)',
    '(put 0 00)', '(put 0 01)', '(put 0 -01)', '(put 0 00.5)', '(put 0 1.)', '(put 0 .5)', '(put 0 -.5)', '(put 0 -)', '(put 0 +1)', '(put 0 --1)', '(put 0 1.0000)', '(put 0 1e3)',
    '(put 0 1.-5)', '(put 0 1..5)', '(put 0 1,5)', '(put 0 0x1)', '(put 0 -0.0000)', '(put 0 1 2)', '(put 0 1. )', '(put 0 (neg))', '(put 0 (neg ))', '(put 0 (neg 1 2))',
    '(put 0 (neg  1))', '(put 0 (neg 1) )', '(put 0 (add 1))', '(put 0 (add 1 2 3))', '(put 0 (add 1  2))', '(put 0 (add 1 2)', '(put 0 (add (neg 1) (neg 2))', '(put 0 (sum 1 2))',
    '(put 0 (xor 1 2))', '(put 0 (eq 1 2))', '(put 0 (ge 1 2))', '(put 0 (le 1))', '(put 0 (not 1 1))', '(put 0 (or 1))', '(put 0 (negg 1))', '(put 0 (ne 1))', '(put 0 (leq 1 2))',
    '(put 0 (neg(reg 0)))', '(put 0 (add(reg 0) 1))', '(put 0 (add (reg 0)(reg 1)))', '(in 0 1)', '(in 0 1 2 3)', '(in 0 (neg 1) 2)', '(in 0 1 (reg 0))', '(in 16 0 1)', '(in 0 0 1',
    '(in  0 0 1)', '(in 0 2 1)', '(in 0 0.001 0)', '(in 0 01 2)', '(in 0 1 2.)', '(hold 0)', '(hold 0 1)', '(hold 0 2 1)', '(hold 0 0 -0.001)', '(hold 16 0 1)', '(hold 0 0 (reg 0))',
    '(when 1 (put 0 1))', '(hol 0 0 1)', '(holds 0 0 1)', '(inn 0 0 1)', '(i 0 0 1)', '(reg 0)', '(add 1 2)', '1', '-', '(', ')', '(put 0 1)x', '; put', '#', '(put 0 1) ;',
]


def damaged():
    for line in DAMAGED: first_and_later(line)
    # 6 comes before 7 over the whole line
    first_and_later('(put 0 ' + '9' * 20 + '.1234)')
    first_and_later('(put 0 ' + '9' * 20)
    first_and_later('(put 0 (add ' + '9' * 20 + ' 01))')
    first_and_later('(put 16 ' + '9' * 20 + ')')


# ---- brackets, registers, literals

def depths():
    for n in (6, 7):
        first_and_later('(put 0 ' + '(neg ' * n + '(reg 0)' + ')' * n + ')')
        first_and_later('(put 0 ' + '(neg ' * (n + 1) + '2' + ')' * (n + 1) + ')')
    add('(put 0 ' + '(add ' * 6 + '(reg 0)' + ' 1)' * 6 + ')\n')
    add('(put 0 ' + '(add 1 ' * 6 + '(reg 0)' + ')' * 6 + ')\n')
    add('(put 0 ' + '(add 1 ' * 7 + '(reg 0)' + ')' * 7 + ')\n')
    add('(put 0 (add ' + '(neg ' * 6 + '1' + ')' * 6 + ' (reg 1)))\n')
    add('(put 0 (add (reg 1) ' + '(neg ' * 7 + '1' + ')' * 7 + '))\n')
    for r in range(16): add('(in %d 0 %d)\n(put %d (add (reg %d) 1))\n' % (r, r + 1, 15 - r, r), lent_at(**{'r%d' % r: 500}))
    add(''.join('(in %d %d %d)\n' % (r, -r, r) for r in range(16)), [100 * r - 700 for r in range(16)])
    add('(hold 15 0 0)\n')
    add('(put 0 (reg 15))\n')


LIMITS = ['9223372036854775', '9223372036854775.8', '9223372036854775.80', '9223372036854775.807']
BEYOND = ['9223372036854776', '9223372036854775.9', '9223372036854775.81', '9223372036854775.808', '10000000000000000', '9' * 25, '9' * 100, '18446744073709551.616']
GOOD = ['0', '-0', '0.0', '-0.000', '1', '1.0', '1.000', '0.5', '-0.5', '0.05', '0.005', '-0.001', '10', '100', '999999.999', '-12.34']


def literals():
    for z in LIMITS + GOOD: add('(put 0 %s)\n' % z)
    for z in LIMITS: add('(put 0 -%s)\n' % z)
    add('(put 0 -9223372036854775.808)\n')
    for z in BEYOND: first_and_later('(put 0 %s)' % z)
    for z in BEYOND[:3] + ['9223372036854775.809'] + BEYOND[4:]: first_and_later('(put 0 -%s)' % z)
    for kind in ('in', 'hold'):
        first_and_later('(%s 0 9223372036854776 1)' % kind)
        first_and_later('(%s 0 0 9223372036854776)' % kind)
        add('(%s 0 -9223372036854775.808 9223372036854775.807)\n' % kind)
        add('(%s 0 0 0)\n' % kind)
    first_and_later('(put 0 (neg (add 1 (mul 9223372036854775.808 2))))')


# ---- order of 6, 7, 8

def orders():
    add('(put 0 9999999999999999)\nx\n')
    add('x\n(put 0 9999999999999999)\n')
    add('(put 0 1)\n(in 0 2 1)\n')
    add('(put 0 1)\n(in 0 1 2)\n')
    add('(put 0 1)\n(in 1 1 2)\n')
    add('(hold 0 0 1)\n(in 1 1 2)\n')
    add('(in 0 1 2)\n(in 0 1 2)\n')
    add('(in 0 1 2)\n(in 1 1 2)\n(in 0 1 2)\n')
    add('(in 0 1 2)\n(put 1 1)\n(in 1 1 2)\n')
    add('(in 0 1 2)\n(hold 0 1 2)\n(in 0 1 2)\n')
    add('(put 0 1)\n(in 1 1 2)\nx\n')
    add('(put 0 1)\nx\n(in 1 1 2)\n')
    add('(put 0 1)\n(in 1 9999999999999999 2)\n')
    add('(in 0 9999999999999999 1)\n')
    add('(in 0 1 2)\n(in 0 2 1)\n')
    add('(in 0 1 2)\n(in 0 1 9999999999999999)\n')
    add('(in 0 1 2)\n(in 0 1 2)\n(put 0 (div 1 0))\n')
    add('(put 0 (div 1 0))\n(in 0 1 2)\n')
    add('(put 0 (div 1 0))\nx\n')


# ---- every operation

def operations():
    ones, twos = ('neg', 'abs', 'not'), ('add', 'sub', 'mul', 'div', 'rem', 'le', 'lt', 'ne', 'and', 'or')
    ends = [('-1.5', '2.5', 700), ('-9223372036854775.808', '-9223372036854775.8', MIN + 3), ('9223372036854775.8', '9223372036854775.807', MAX - 2), ('3', '3', 3000)]
    for op in ones:
        for lo, hi, z in ends: add('(in 0 %s %s)\n(put 1 (%s (reg 0)))\n' % (lo, hi, op), lent_at(r0=z))
        add('(put 1 (%s 0))\n' % op)
    for op in twos:
        for lo, hi, z in ends: add('(in 0 %s %s)\n(in 2 2 3)\n(put 1 (%s (reg 0) (reg 2)))\n(put 3 (%s 1 (reg 0)))\n' % (lo, hi, op, op), lent_at(r0=z, r2=2500))
        add('(put 1 (%s 7 -2))\n(put 2 (%s -7 4))\n' % (op, op))
        add('(put 1 (%s 5 5))\n(put 2 (%s (reg 1) (reg 0)))\n' % (op, op))
    add('(put 0 (mul -0.001 0.001))\n(put 1 (div 7 -0.002))\n(put 2 (rem -0.007 0.004))\n')
    add('(put 0 (div 1152921504606846.976 -0.001))\n')
    add('(put 0 (rem -9223372036854775.808 -0.001))\n(put 1 (neg -9223372036854775.808))\n(put 2 (abs -9223372036854775.808))\n')


# ---- 20, 21, 22, the state before

def stops():
    ins = '(in 0 0 9)\n(in 1 0 1)\n'
    add(ins, lent_at(r0=5000, r1=9000))
    add(ins, lent_at(r0=9001, r1=500))
    add(ins, lent_at(r0=-1, r1=500))
    add(ins, lent_at(r0=9000, r1=1000))
    add(ins, lent_at(r0=0, r1=0))
    add('(in 3 -1 1)\n', lent_at(r3=1001))
    add('(in 3 -1 1)\n', [77] * 16)
    add('(put 2 4)\n(hold 2 0 3)\n', [5] * 16)
    add('(put 2 4)\n(hold 2 4 4)\n', [5] * 16)
    add('(hold 0 0 0)\n(hold 0 1 2)\n')
    add('(in 0 0 9)\n(put 1 (add (reg 0) 1))\n(hold 1 0 5)\n(put 2 3)\n', lent_at(r0=6000))
    add('(in 0 0 9)\n(put 1 (add (reg 0) 1))\n(hold 1 0 5)\n(put 2 3)\n', lent_at(r0=4000))
    add('(put 0 7)\n(put 1 (div (reg 0) (reg 2)))\n', [1] * 16)
    add('(put 0 7)\n(put 1 (rem (reg 0) (reg 2)))\n', [1] * 16)
    add('(in 0 -1 1)\n(put 1 (div 6 (reg 0)))\n', lent_at(r0=500))
    add('(in 0 -1 1)\n(put 1 (div 6 (reg 0)))\n', lent_at(r0=0))
    add('(in 0 1 2)\n(put 1 (div 6 (reg 0)))\n(hold 1 3 6)\n', lent_at(r0=1500))
    add('(put 0 (and 0 (div 1 0)))\n')
    add('(put 0 (or 1 (rem 1 0)))\n')
    add('(put 0 (div (div 1 0) 0))\n')
    add('(put 0 (div 0 0))\n')
    add('(put 0 1)\n(put 0 (add (reg 0) 1))\n(put 0 (add (reg 0) (reg 0)))\n(hold 0 4 4)\n')
    add('(put 0 1)\n(hold 0 1 1)\n(hold 0 0 0.999)\n(put 0 (div 1 0))\n')
    add('(put 0 1)\n(put 1 (div 1 0))\n(hold 0 5 6)\n')
    add('(in 0 0 9)\n(put 0 2)\n(hold 0 2 2)\n', lent_at(r0=8000))
    add('(in 0 0 9)\n(hold 0 0 9)\n(hold 0 0 8.999)\n', lent_at(r0=9000))


# ---- crowded sets

def bits(n, step, to=1):
    """Lines that leave a set of 2^n numbers, `step` apart, in register `to`; r0 is an `in` of [-1,1]."""
    lines = ['(in 0 -1 1)', '(put %d (mul %d (le (reg 0) 0)))' % (to, step)]
    for i in range(1, n): lines.append('(put %d (add (reg %d) (mul %d (le (reg 0) 0))))' % (to, to, step * 2**i))
    return '\n'.join(lines) + '\n'


def crowds():
    for n in (1, 2, 3, 4, 5): add(bits(n, 1))
    sixteen = bits(4, 2)
    add(sixteen + '(put 2 (neg (reg 1)))\n(put 3 (abs (reg 2)))\n')
    add(sixteen + '(put 2 (add (reg 1) (le (reg 0) 0)))\n')
    add(sixteen + '(put 2 (add (le (reg 0) 0) (reg 1)))\n')
    add(sixteen + '(put 2 (not (add (reg 1) (le (reg 0) 0))))\n')
    add(sixteen + '(put 2 (not (reg 1)))\n(put 3 (and (reg 1) (reg 2)))\n')
    crowded, zero = '(add (reg 1) (le (reg 0) 0))', '(div 1 (reg 0))'
    add(sixteen + '(put 2 (add %s %s))\n' % (zero, crowded))
    add(sixteen + '(put 2 (add %s %s))\n' % (crowded, zero))
    add(sixteen + '(put 2 (le %s %s))\n' % (crowded, crowded))
    # a divisor that may be 0, and the second form is crowded too
    add(sixteen + '(put 2 (div (reg 1) (mul 0.001 (le (reg 0) 0))))\n')
    add(sixteen + '(put 2 (div (add (reg 1) 1) (sub (mul 3 (le (reg 0) 0)) (le (reg 0) -0.5))))\n')
    add(sixteen + '(put 2 (rem (reg 1) (mul 7 (le (reg 0) 0))))\n')
    # neg of 16 intervals that gives 17
    low = bits(4, 2).replace('(put 1 (mul 2 ', '(put 1 (add -9223372036854775.808 (mul 2 ', 1)
    low = low.replace('(put 1 (add -9223372036854775.808 (mul 2 (le (reg 0) 0)))', '(put 1 (add -9223372036854775.808 (mul 2 (le (reg 0) 0))))', 1)
    add(low)
    add(low + '(put 2 (neg (reg 1)))\n')
    wide = '(in 0 -1 1)\n(in 4 -9223372036854775.808 -9223372036854775.8)\n' + low.split('\n', 1)[1].replace('-9223372036854775.808', '(reg 4)')
    add(wide)
    add(wide + '(put 2 (neg (reg 1)))\n')
    add(wide + '(put 2 (abs (reg 1)))\n')


# ---- lent slices

def slices():
    good, late = '(in 0 0 9)\n(put 1 (add (reg 0) 1))\n', '(in 0 0 9)\n(hold 0 1 2)\n'
    for text in (good, late, 'x\n', 'x', ''):
        for lent, sets, work in ((15, 528, 8192), (0, 528, 8192), (16, 527, 8192), (16, 528, 8191), (16, 0, 0), (20, 540, 8200)):
            add(text, [3000 + i for i in range(lent)], sets, work)


# ---- wrap-around and nested forms

def wraps():
    top = '(in 0 9223372036854775 9223372036854775.807)\n'
    add(top + '(put 1 (add (reg 0) 1))\n', lent_at(r0=MAX))
    add(top + '(put 1 (add (reg 0) 1))\n(hold 1 0 9223372036854775.807)\n', lent_at(r0=MAX - 900))
    add(top + '(put 1 (mul (reg 0) 2))\n', lent_at(r0=MAX - 5))
    add(top + '(put 1 (sub -2 (reg 0)))\n', lent_at(r0=MAX - 5))
    add(top + '(put 1 (div (reg 0) 3))\n', lent_at(r0=MAX - 5))
    add('(in 0 0 9223372036854.775)\n(put 1 (mul (reg 0) (reg 0)))\n', lent_at(r0=4 * 10**15))
    add('(in 0 -100 100)\n(put 1 (mul (sub (reg 0) 3) (add (abs (reg 0)) 0.5)))\n(put 2 (rem (reg 1) 7))\n', lent_at(r0=-99999))
    add('(in 0 -100 100)\n(put 1 (div (sub (reg 0) 3) (add (abs (reg 0)) 0.5)))\n(hold 1 -250 250)\n', lent_at(r0=-99999))
    add('(in 0 0 5)\n(in 1 0 5)\n(put 2 (and (le (reg 0) (reg 1)) (not (lt (reg 0) 2))))\n(put 3 (or (reg 2) (ne (reg 0) (reg 1))))\n', lent_at(r0=3000, r1=3000))
    add('(in 0 1 5)\n(put 1 (div (reg 0) (reg 0)))\n(hold 1 0.2 5)\n', lent_at(r0=3000))
    add('(in 0 -5 5)\n(put 0 (abs (reg 0)))\n(put 0 (add (reg 0) 1))\n(put 0 (div 10 (reg 0)))\n(hold 0 0 10)\n', lent_at(r0=-4000))


# ---- random sheets

def literal(r):
    if r.random() < .7: return r.choice(('0', '1', '2', '2.5', '-3', '0.001', '-0.5', '4', '100', '-7.25', '10'))
    z = r.choice((-1, 1)) * r.randrange(2**r.randint(1, 63))
    return '%s%d.%03d' % ('-' if z < 0 else '', abs(z) // 1000, abs(z) % 1000)


def form(r, depth):
    k = r.random()
    if depth == 0 or k < .25: return literal(r)
    if k < .55: return '(reg %d)' % r.randrange(4)
    if k < .68: return '(%s %s)' % (r.choice(('neg', 'abs', 'not')), form(r, depth - 1))
    op = r.choice(('add', 'sub', 'mul', 'div', 'rem', 'le', 'lt', 'ne', 'and', 'or'))
    return '(%s %s %s)' % (op, form(r, depth - 1), form(r, depth - 1) if op not in ('div', 'rem') or r.random() < .4 else r.choice(('3', '-2', '0.007', '1000')))


def bounds(r):
    a, b = sorted((literal(r), literal(r)), key=lambda s: rules.literal(s.encode(), 0)[0])
    return a + ' ' + b


def rambles():
    r = random.Random(SEED)
    for _ in range(90):
        lines = ['(in %d %s)' % (i, bounds(r)) for i in range(r.randrange(4))]
        for _ in range(r.randrange(1, 7)):
            lines.append('(put %d %s)' % (r.randrange(4), form(r, r.choice((1, 2, 3, 5)))) if r.random() < .85 else '(hold %d %s)' % (r.randrange(4), bounds(r)))
        text = ''.join(l + '\n' for l in lines if len(l) <= 120)
        lent = [r.randrange(-5000, 5000) for _ in range(16)]
        for line in rules.judge(text.encode()):
            if line[0] == 'in' and r.random() < .9: lent[line[1]] = r.randint(line[2], line[3])
        add(text, lent)
        if r.random() < .3:
            broken = bytearray(text.encode())
            broken[r.randrange(len(broken))] = r.choice(b' ()-.01\n\ra\xff')
            add(bytes(broken), lent)


# ---- pages

def pages():
    low, high = '-9223372036854775.808', '9223372036854775.807'
    add('(in 15 %s %s)\n' % (low, high), lent_at(r15=-1))
    add('(in 15 %s 9223372036854775.806)\n(in 10 -9223372036854775.807 %s)\n(in 9 %s 0)\n(in 1 0 %s)\n' % (low, high, low, high), lent_at(r15=MIN, r10=MAX, r9=-5, r1=5))
    add('(in 0 %s -0.001)\n(put 11 (neg (reg 0)))\n(put 2 (abs (reg 0)))\n' % low, lent_at(r0=-1))
    add('(put 12 %s)\n(put 3 %s)\n(put 7 -0.001)\n(put 0 0)\n(put 10 -9223372036854775.807)\n' % (low, high))
    add('(in 9 -1 1)\n(in 15 2 3)\n(in 0 -5 -4)\n(put 14 (reg 3))\n(put 1 (reg 9))\n(hold 8 0 0)\n', lent_at(r9=1, r15=2500, r0=-4500))
    add('(in 4 0 9)\n(put 4 (add (reg 4) 1))\n(put 4 (mul (reg 4) 2))\n(hold 4 2 20)\n', lent_at(r4=3000))
    add('(hold 3 0 0)\n(hold 12 -1 1)\n')
    add('(put 5 (reg 6))\n')
    # 16 intervals: of one number in all registers, the longest page; wider ones and their longest numbers in some
    sixteen = bits(4, 2)
    wider = '(put 2 (add (reg 1) (reg 0)))\n'
    add(sixteen.replace('(in 0 -1 1)', '(in 0 -0.5 0.5)') + wider)
    add(sixteen + ''.join('(put %d (reg 1))\n' % r for r in range(16)))
    add(sixteen.replace('(in 0 -1 1)', '(in 0 -0.5 0.5)') + wider + '(put 1 (sub (reg 2) 9223372036854775))\n' + ''.join('(put %d (reg 1))\n' % r for r in (15, 8, 0)))
    # one more line, and there is no page
    add(sixteen + '(put 2 (add (reg 1) (le (reg 0) 0)))\n(hold 3 1 1)\n')
    add(sixteen + '(hold 1 0 29.999)\n')
    add(sixteen + '(put 2 (div 1 (reg 1)))\n')
    add(sixteen + 'x\n')


# ---- a zero divisor at a crowded form: document 02 (iii)

def hidden_zeros():
    sixteen, bit = bits(4, 2), '(le (reg 0) 0)'
    crowded, zero = '(add (reg 1) %s)' % bit, '(div 1 (reg 0))'
    divided = '(div (reg 1) (sub (mul 9 %s) (mul 7 %s)))' % (bit, bit)
    left_over = '(rem (reg 1) (add (mul 29 %s) (mul 71 %s)))' % (bit, bit)
    stops, runs = lent_at(r0=1000), lent_at(r0=-1000)
    # both at one form: 20. The run stops there too, or divides by 2 and 100
    for both in (divided, left_over):
        add(sixteen + '(put 2 %s)\n' % both, stops)
        add(sixteen + '(put 2 %s)\n' % both, runs)
        add(sixteen + '(put 2 (not %s))\n' % both)
    # a zero divisor and 15 to 18 intervals
    eight = bits(3, 2).replace('\n', '\n(in 3 -0.001 0.001)\n', 1)
    nine = eight + '(put 1 (add (reg 1) (mul 2 %s)))\n' % bit
    for some in (eight, nine):
        add(some + '(put 2 (div (reg 1) (reg 3)))\n')
        add(some + '(put 2 (div (add (reg 1) 1) (reg 3)))\n', lent_at(r3=1))
    add(sixteen + '(put 2 (rem (reg 1) (mul 100 %s)))\n' % bit)
    add(sixteen + '(put 2 (rem (neg (reg 1)) (mul 100 %s)))\n' % bit)
    # a zero divisor alone, which leaves no interval, and all numbers as divisors
    add(sixteen + '(put 2 (div (reg 1) 0))\n')
    add(sixteen + '(put 2 (rem (reg 1) (reg 2)))\n')
    # crowded, and 0 is no divisor: gaps are closed. In the first two it lies between the divisors
    add(sixteen + '(put 2 (div (reg 1) (sub (mul 2 %s) 1)))\n' % bit)
    add(sixteen + '(put 2 (rem (reg 1) (sub (mul 129 %s) 29)))\n' % bit)
    add(sixteen + '(put 2 (div (reg 1) (add 1 %s)))\n' % bit)
    add(sixteen + '(put 2 (rem (reg 1) (add 29 (mul 71 %s))))\n' % bit)
    # 0 inside an interval of the divisors, and at either end of one; rem is not crowded there
    for low, high in (('-0.001', '0.001'), ('0', '0.001'), ('-0.001', '0')):
        ends = sixteen.replace('\n', '\n(in 3 %s %s)\n' % (low, high), 1)
        add(ends + '(put 2 (div (reg 1) (add (reg 3) (mul 5 %s))))\n' % bit, lent_at(r0=500))
        add(ends + '(put 2 (rem (reg 1) (add (reg 3) (mul 5 %s))))\n' % bit, lent_at(r0=500))
    # intervals on the left that are no single numbers, and numbers that wrap around
    wide = sixteen.replace('(in 0 -1 1)', '(in 0 -0.3 0.3)') + '(put 1 (add (reg 1) (reg 0)))\n'
    add(wide + '(put 2 %s)\n' % divided)
    add(wide + '(put 2 %s)\n' % left_over)
    add(nine + '(put 1 (add (reg 1) 1152921504606846.976))\n(put 2 (div (reg 1) (reg 3)))\n', lent_at(r3=-1))
    add(nine + '(put 1 (add (reg 1) -9223372036854775.808))\n(put 2 (rem (reg 1) (reg 3)))\n', lent_at(r3=-1))
    # an inner crowded form and an outer zero divisor: 20
    add(sixteen + '(put 2 (div %s (reg 0)))\n' % crowded)
    add(sixteen + '(put 2 (rem %s (reg 0)))\n' % crowded)
    add(sixteen + '(put 2 (div %s 0))\n' % crowded)
    add(sixteen + '(put 2 (div 1 %s))\n' % crowded)
    add(sixteen + '(put 2 (rem (reg 1) %s))\n' % crowded)
    add(sixteen + '(put 2 (div (neg (not %s)) (reg 0)))\n' % crowded)
    # an inner zero divisor and an outer crowded form: 20
    add(sixteen + '(put 2 (add (div (reg 1) %s) %s))\n' % (bit, bit))
    add(sixteen + '(put 2 (add %s (rem (reg 1) (mul 100 %s))))\n' % (bit, bit))
    add(sixteen + '(put 2 (div (div (reg 1) %s) (add 1 %s)))\n' % (bit, bit))
    # both at the inner form, and trouble at the outer one too: 20
    add(sixteen + '(put 2 (div %s (reg 0)))\n' % divided)
    add(sixteen + '(put 2 (add %s %s))\n' % (left_over, bit))
    add(sixteen + '(put 2 (rem 1 %s))\n' % divided)
    # one argument has a zero divisor, the other is crowded: 20 on either side
    for op in ('add', 'div', 'rem', 'and'):
        add(sixteen + '(put 2 (%s %s %s))\n' % (op, crowded, zero))
        add(sixteen + '(put 2 (%s %s %s))\n' % (op, zero, crowded))
    more = sixteen + '(put 2 (mul 29 %s))\n(put 3 (mul 7 %s))\n(put 4 (mul 71 %s))\n' % (bit, bit, bit)
    for both in ('(div (reg 1) (sub (reg 2) (reg 3)))', '(rem (reg 1) (add (reg 2) (reg 4)))'):
        for other in (crowded, zero):
            add(more + '(put 5 (add %s %s))\n' % (both, other))
            add(more + '(put 5 (add %s %s))\n' % (other, both))
    # the first finding of several, behind a crowded line too
    add(sixteen + '(put 2 %s)\n(put 3 %s)\n' % (divided, crowded))
    add(sixteen + '(put 2 %s)\n(put 3 %s)\n' % (crowded, divided))
    add(sixteen + '(put 2 %s)\n(hold 1 0 1)\n' % left_over)
    add(sixteen + '(hold 1 0 1)\n(put 2 %s)\n' % left_over)
    add(sixteen + '(put 2 %s)\n(in 2 0 1)\n' % divided)
    # ranges that leave one number on the left and one divisor: a pass; all numbers in their place: 20
    add(sixteen.replace('(in 0 -1 1)', '(in 0 -1 0)') + '(put 2 %s)\n(put 3 %s)\n' % (divided, left_over), runs)
    add(sixteen.split('\n', 1)[1] + '(put 2 %s)\n(put 3 %s)\n' % (divided, left_over))
    # behind lines that pass: on the second line, behind every kind of line, and on the last of 256
    flag = '(not (reg 0))'
    add('(in 0 -0.001 0.001)\n(put 1 (div (add (add %s (mul 2 %s)) (mul 4 (add %s %s))) (reg 0)))\n' % (flag, flag, flag, flag), lent_at(r0=1))
    add(sixteen + '(hold 1 0 30)\n(put 4 (div (reg 1) 3))\n(put 5 (rem (reg 4) 7))\n(put 1 (reg 1))\n(put 2 %s)\n(hold 0 -1 1)\n' % divided)
    add(sixteen + '(hold 1 0 30)\n' * 250 + '(put 2 %s)\n' % left_over, stops)
    # lent slices that are longer than needed, and too short
    for lent, sets, work in ((20, 540, 8200), (15, 527, 8192), (16, 528, 8191)): add(sixteen + '(put 2 %s)\n' % divided, [500 + i for i in range(lent)], sets, work)


# ---- crowded forms with their gaps closed: document 02 (v)

BIT = '(le (reg 0) 0)'


def sums(to, base, *steps):
    """Lines that leave in register `to` the base with any of the steps added; r0 is an `in` around 0."""
    return '(put %d %s)\n' % (to, base) + ''.join('(put %d (add (reg %d) (mul %s %s)))\n' % (to, to, step, BIT) for step in steps)


def whole_and_cut(lines, crowded, lent=None):
    """The sheet, and the sheet cut before its crowded line."""
    add(lines + crowded, lent)
    add(lines, lent)


def closings():
    start, runs = '(in 0 -1 1)\n', lent_at(r0=-500)
    more = '(put 1 (add (reg 1) (mul %s ' + BIT + ')))\n'
    sixteen = start + sums(1, '0', '1', '2', '4', '8')
    # 16 intervals, of which no gap is closed, and 17, 18, 31 and 32, all gaps equal
    add(start + sums(1, '-3', '1', '2', '4', '7') + more % 1, runs)
    for steps in (1, 2, 15, 16): add(sixteen + more % steps, runs)
    # many intervals: 256 of mul, 257 of add and of rem, 272 of div
    add(start + sums(1, '1', '2', '4', '8', '16') + sums(2, '1000', '34', '68', '136', '272') + '(put 1 (mul (reg 1) (reg 2)))\n', runs)
    high = start + '(in 2 9223372036854775.001 9223372036854775.003)\n' + sums(1, '(reg 2)', '0.005', '0.01', '0.02', '0.04')
    whole_and_cut(high + sums(2, '0', '0.08', '0.16', '0.32', '0.64'), '(put 1 (add (reg 1) (reg 2)))\n', lent_at(r0=-500, r2=MAX - 805))
    wide = start + '(in 2 38645.224 38645.508)\n' + sums(1, '(reg 2)', '3674.92', '3855.862', '5288.388', '1674.374')
    add(wide + sums(2, '2319.833', '6135.031', '491.18', '8778.343', '1310.986') + '(put 1 (rem (reg 1) (reg 2)))\n', lent_at(r0=500, r2=38645300))
    low = start + '(in 2 -9223372036854.797 -9223372036854.796)\n' + sums(1, '(reg 2)', '0.003', '0.006', '0.012', '0.024')
    for base in ('0.001', '-0.031'): add(low + sums(3, base, '0.002', '0.004', '0.008', '0.016') + '(put 1 (div (reg 1) (reg 3)))\n', lent_at(r2=-9223372036854796))
    # the lowest of equals: behind a wider gap, behind smaller ones that are all closed, in the middle, on a second crowded line
    add(start + sums(1, '0', '7', '10', '20', '40') + more % 10, runs)
    add(start + sums(1, '-80', '10', '20', '40', '80') + more % 13, runs)
    add(start + sums(1, '-80', '10', '20', '40', '80') + '(put 1 (neg (add (reg 1) (mul 23 %s))))\n' % BIT, runs)
    add(sixteen + '(put 1 (rem (mul 39 (reg 1)) (add 41 (mul 38 %s))))\n' % BIT, runs)
    add(start + sums(1, '0', '1', '3', '9', '27') + more % 81 + more % 5, runs)
    # gaps that grow from the lowest to the highest, and that shrink
    for whole in ('1000', '-1000'): add(start + sums(1, '1', '1', '2', '4', '8') + '(put 1 (div (add %s (mul 100 %s)) (reg 1)))\n' % (whole, BIT), runs)
    # one number missing, in all gaps, in some, and beside gaps of two
    whole_and_cut(start + sums(1, '-0.005', '0.002', '0.004', '0.008', '0.016'), more % '0.002', runs)
    add(start + sums(1, '0', '0.005', '0.01', '0.02', '0.04') + more % '0.002', runs)
    add(start + sums(1, '0', '0.005', '0.01', '0.02', '0.04') + more % '0.003', runs)
    # intervals of several sizes: the fewest missing numbers are between the longest ones
    widths = start + '(in 2 1 1.01)\n'
    whole_and_cut(widths + sums(1, '1', '1', '2', '4', '8'), '(put 1 (mul (reg 1) (mul (reg 2) (add 1 %s))))\n' % BIT, lent_at(r0=-1, r2=1005))
    add(widths + sums(1, '-16', '1', '2', '4', '8') + '(put 1 (mul (reg 1) (mul (reg 2) (add 1 %s))))\n' % BIT, lent_at(r0=-1, r2=1005))
    add(widths + sums(1, '-7.5', '1', '2', '4', '8') + '(put 1 (mul (reg 1) (mul (reg 2) (add 1 (mul 2 %s)))))\n' % BIT, lent_at(r0=-1, r2=1005))
    # both ends of the range: MIN and MAX are no neighbours, and the gap between the outermost intervals has nearly 2^64 numbers
    add(start + sums(1, '9223372036854775.791', '0.002', '0.004', '0.008', '0.016') + more % '0.002', runs)
    for base in ('786', '762'): add(start + sums(1, '(add 9223372036854775.%s (mul 0.001 %s))' % (base, BIT), '0.003', '0.006', '0.012', '0.024'), runs)
    add(start + sums(1, '9223372036854775.671', '0.009', '0.018', '0.036', '0.072') + more % '0.138', runs)
    # a gap of 2^63 + 807 numbers, and of 2^63 - 193; gaps near 2^60, equal ones and such that differ by a few numbers
    for far in ('9223372036854.806', '9223372036854.805'):
        add(start + sums(1, '-9223372036854775.808', '2', '4', '8', '16') + '(put 1 (add (reg 1) (div (mul %s %s) 0.001)))\n' % (far, BIT), runs)
    steps = ['(div (mul %s %s) 0.001)' % (t, BIT) for t in ('1085102592571.15', '2170205185142.3', '4340410370284.6', '8680820740569.2')]
    spaced = start + '(put 1 -9223372036854775.808)\n' + ''.join('(put 1 (add (reg 1) %s))\n' % step for step in steps)
    whole_and_cut(spaced, '(put 1 (add (reg 1) %s))\n' % steps[0], runs)
    for apart in ('0.01', '0.004'): add(spaced + '(put 1 (div (reg 1) (sub 0.003 (mul %s %s))))\n' % (apart, BIT), runs)
    # 17 of 16 by neg and abs
    least = start + '(in 2 -9223372036854775.808 -9223372036854775.8)\n' + sums(1, '(reg 2)', '2', '4', '8', '16')
    for form in ('(neg (reg 1))', '(abs (reg 1))', '(neg (neg (reg 1)))', '(sub (abs (reg 1)) (neg (reg 2)))'): add(least + '(put 1 %s)\n' % form, lent_at(r0=-500, r2=MIN + 5))
    # each operation crowded under another
    crowded = '(add (reg 1) %s)' % BIT
    for form in ('(neg (add (reg 1) %s))', '(abs (sub %s (reg 1)))', '(sub 0 (mul (reg 1) (add 3 %s)))', '(mul -2 (div (reg 1) (add 1 %s)))',
                 '(div (rem (mul 39 (reg 1)) (add 41 (mul 38 %s))) -0.5)', '(rem (add (reg 1) %s) 1.5)', '(rem 100 (add 1 (add (reg 1) %s)))'): add(sixteen + '(put 1 %s)\n' % (form % BIT), runs)
    add(sixteen + '(put 1 (add %s (mul 3.5 %s)))\n' % (crowded, BIT), runs)
    add(sixteen + '(put 1 (sub (mul 3 %s) %s))\n' % (crowded, crowded), runs)
    odd = start + sums(1, '-0.001', '0.002', '0.004', '0.008', '0.016')
    inner = '(add (reg 1) (mul 0.002 %s))' % BIT
    for form in ('(not %s)', '(and %s 1)', '(or 0 %s)', '(ne %s 0)', '(abs %s)'): add(odd + '(put 1 %s)\n' % (form % inner), runs)
    add(odd + '(put 1 (le %s 0))\n(put 2 (lt 0 (reg 1)))\n' % inner, runs)
    # divisors that have 0 by closing alone, and divisors that just have not
    for op in ('div', 'rem'):
        add(odd + '(put 2 (%s 7 %s))\n' % (op, inner), runs)
        add(odd.replace('-0.001', '-0.003') + '(put 2 (%s 7 %s))\n' % (op, inner), runs)
    add(odd + '(put 1 %s)\n(put 2 (rem 7 (reg 1)))\n' % inner, runs)
    add(odd + '(put 2 (rem 7 (reg 1)))\n', runs)
    add(odd.replace('-0.001', '-0.003') + more % '0.004' + '(put 1 (div 7 (reg 1)))\n', runs)
    # crowded, and a divisor may be 0, at one form and at its inner form
    add(sixteen + '(put 1 (div (add 1 (reg 1)) (reg 1)))\n', runs)
    add(odd + '(put 1 (div (reg 1) %s))\n' % inner, runs)
    # a hold that a closed gap breaks, one that just passes, and holds at both ends of the closed set
    for between in ('0.5', '2.5'): add(sixteen + more % 1 + '(put 2 (ne (reg 1) %s))\n(hold 2 1 1)\n' % between, runs)
    for base in ('-0.001', '-0.003'): add(odd.replace('-0.001', base) + more % '0.002' + '(put 2 (abs (reg 1)))\n(hold 2 0.001 0.04)\n', runs)
    add(start + sums(1, '0', '2', '4', '8', '16') + more % 2 + '(put 2 (rem (reg 1) 2))\n(hold 2 0 0)\n', runs)
    add(start + sums(1, '0', '2', '4', '8', '16') + '(put 2 (rem (reg 1) 2))\n(hold 2 0 0)\n', runs)
    for ends in ('0 16', '0.001 16', '0 15.999'): add(sixteen + more % 1 + '(hold 1 %s)\n' % ends, runs)
    # gaps closed again and again: on later lines, at three forms of one line, on 250 lines
    add(sixteen + more % 1 + more % 20 + '(put 1 (neg (reg 1)))\n' + more % 0.3 + more % 7 + more % 100, runs)
    add(sixteen + '(put 1 (sub (mul 1000 (mul (reg 1) (reg 1))) (add (reg 1) (mul 16 (reg 1)))))\n', runs)
    add(sixteen + '(put 1 (mul (add (reg 1) (mul 16 (reg 1))) (add 1 (sub (mul 16 (reg 1)) (reg 1)))))\n', runs)
    add(sixteen + '(put 2 (add (reg 1) (mul 3.5 %s)))\n' % BIT * 250, runs)
    # lent slices that are longer than needed, and too short
    for lent, sets, work in ((20, 540, 8200), (15, 527, 8192), (16, 528, 8191)): add(sixteen + more % 1, [500 + i for i in range(lent)], sets, work)


# ---- registers that start with what was there: document 02 (vi)

LEFT = [7001, -5, MAX, MIN, 250, -9000, MAX - 1, MIN + 1, 1, -1, 3000, 42, -77, 123456789, -1000000, 15]
WHOLE = '-9223372036854775.808 9223372036854775.807'


def lent_but(**registers):
    got = list(LEFT)
    for name, z in registers.items(): got[int(name[1:])] = z
    return got


def dirty():
    # no lines: the numbers stay, whatever they are, and those past the first 16
    for lent in (LEFT, [MIN] * 16, [MAX] * 16, LEFT + [5, 6, 7, 8]): add('', lent)
    # a hold of a register that no line wrote: only the whole range holds it, and a run goes by its number
    for r in (0, 7, 15):
        add('(hold %d 0 0)\n' % r)
        add('(hold %d %s)\n' % (r, WHOLE), LEFT)
    add('(hold 0 0 0)\n', LEFT)
    for ends in ('-9223372036854775.807 9223372036854775.807', '-9223372036854775.808 9223372036854775.806'):
        for z in (MIN, MAX, 0): add('(hold 3 %s)\n' % ends, lent_but(r3=z))
    add(('(hold 3 %s)\n' % WHOLE) * 255 + '(hold 3 0 0)\n', LEFT)
    # sheets that relied on the 0, and the same with a line that writes it
    relied = ('(put 1 (add (reg 1) 1))\n(hold 1 1 1)\n', '(put 2 (add 5 (reg 1)))\n(hold 2 5 5)\n', '(put 2 (mul 5 (reg 1)))\n(hold 2 0 0)\n', '(put 2 (not (reg 1)))\n(hold 2 1 1)\n',
              '(put 2 (div 6 (add (reg 1) 2)))\n(hold 2 3 3)\n')
    for text in relied:
        add(text, LEFT)
        for line in ('(in 1 0 0)\n', '(put 1 0)\n'): add(line + text, lent_but(r1=0))
    # a 20 that became a pass: the wider set of a remainder joins what was apart, and other gaps are closed; and the same with a 0 in register 15
    joined = ('(put 1 (lt (reg 0) 0.5))\n(put 2 (add (mul (reg 1) 10) (add (mul (reg 1) 20) (mul (reg 1) 40))))\n(put 2 (add (reg 2) (sub (mul (reg 1) 0.002) 0.001)))\n'
              '(put 3 (add (abs (rem (reg 15) 0.3)) (add 1 (mul (reg 1) 0.3))))\n(put 4 (div 1 (mul (reg 2) (reg 3))))\n')
    add('(in 0 0 1)\n' + joined, lent_but(r0=250))
    add('(in 0 0 1)\n(put 15 0)\n' + joined, lent_but(r0=250))
    # divisors that no line wrote: 20 in the check, by the number in a run
    for op in ('div', 'rem'):
        for z in (0, 2000): add('(put 0 7)\n(put 1 (%s (reg 0) (reg 2)))\n' % op, lent_but(r2=z))
    for z in (-1000, 0): add('(put 1 (div 6 (add (reg 0) 1)))\n', lent_but(r0=z))
    add('(in 1 1 2)\n(put 2 (div (reg 0) (reg 1)))\n(put 3 (rem (reg 0) (reg 1)))\n(hold 3 -1.999 1.999)\n', lent_but(r1=1500))
    # each operation on whole sets
    for op in ('neg', 'abs', 'not'): add('(put 1 (%s (reg 2)))\n(put 4 (%s (reg 3)))\n' % (op, op), LEFT)
    for op in ('add', 'sub', 'mul', 'le', 'lt', 'ne', 'and', 'or'): add('(put 1 (%s (reg 2) (reg 6)))\n(put 4 (%s (reg 3) 1))\n(put 5 (%s (reg 9) (reg 9)))\n' % (op, op, op), LEFT)
    add('(put 0 (reg 1))\n(put 1 (reg 2))\n(put 2 (reg 0))\n', LEFT)
    for z in (MIN, MAX): add('(put 0 (add (reg 0) 1))\n(put 0 (neg (reg 0)))\n', lent_but(r0=z))
    # `in` lines: cut before each of them; a lent number outside, at line 1, 2 and 3, and at both ends of a range; the numbers stay
    ins = ('(in 5 0 9)\n', '(in 0 -1 1)\n', '(in 15 2 3)\n')
    inside = lent_but(r5=9000, r0=-1000, r15=2500)
    for n in (1, 2, 3): add(''.join(ins[:n]), inside)
    for r, z in ((5, -1), (5, 9001), (0, -1001), (0, 1001), (15, 1999), (15, 3001)): add(''.join(ins), inside[:r] + [z] + inside[r + 1:])
    add(''.join(ins), LEFT)
    add(''.join(ins) + '(put 5 1)\n(put 4 (add (reg 0) (reg 15)))\n(hold 15 2 3)\n', inside)
    add('(in 2 %s)\n(in 3 %s)\n(put 4 (reg 2))\n' % (WHOLE, WHOLE), LEFT)
    # runs that stop behind puts, and on the first line: what no line wrote stays
    add(''.join(ins) + '(put 5 1)\n(put 1 2)\n(hold 2 0 0)\n(put 3 3)\n', inside)
    add('(put 0 1)\n(put 4 2)\n(put 0 (div (reg 4) (sub (reg 0) 1)))\n', LEFT)
    add('(put 3 4)\n(put 4 (add (reg 3) (reg 5)))\n(put 1 (rem 1 (sub (reg 4) (reg 4))))\n', LEFT + [8, 9])
    add('(put 9 (div (reg 8) 0))\n', LEFT)
    # texts that are refused, and a slice that is too short
    for text in ('x\n', '(put 0 1)\n(in 1 0 1)\n'): add(text, LEFT)
    add('(put 0 1)\n', LEFT[:15])
    # what is listed: an `in` or a `put`, with a whole set too, and no `hold` or `reg`
    add('(in 3 0 1)\n(put 3 (reg 4))\n', lent_but(r3=500))
    add('(hold 3 %s)\n(hold 12 %s)\n' % (WHOLE, WHOLE), LEFT)
    add('(in 9 -1 1)\n(in 15 2 3)\n(in 0 -5 -4)\n(put 14 (reg 3))\n(put 1 (reg 9))\n(hold 8 %s)\n' % WHOLE, lent_at(r9=1, r15=2500, r0=-4500))
    # a 0 that a line puts: as a right argument, as the only divisor of a crowded set, before a division and a remainder
    for op in ('add', 'sub', 'mul', 'div', 'rem', 'le', 'lt', 'ne', 'and', 'or'): add('(put 0 0)\n(put 1 (%s 5 5))\n(put 2 (%s (reg 1) (reg 0)))\n' % (op, op), LEFT)
    add(bits(4, 2) + '(put 2 0)\n(put 2 (rem (reg 1) (reg 2)))\n', lent_but(r0=500))
    add('(put 0 0)\n' + sums(1, '0', '2', '4', '8', '16') + '(put 2 (div (reg 1) (mul 2 %s)))\n(put 3 (rem (reg 1) (mul 100 %s)))\n' % (BIT, BIT), LEFT)


# ---- products cut to their thousandths: document 02 (vii)

ANY = '(mul (reg 0) (reg 2))'
GREATEST = '9223372036854.775'
LATE = 6917529027641081855    # four times it is 3 below the end of window 1
CLOSED_BY_CUT = ('(in 0 0 1)\n', '(in 7 -1.145 -1.144)\n', '(put 1 (lt (reg 0) 0.5))\n', '(put 5 (add (div (mul (reg 1) 6917529027641.083) 0.001) (reg 7)))\n',
                 '(put 2 (add (mul (reg 1) 0.002) (add (mul (reg 1) 0.005) (mul (reg 1) 0.011))))\n', '(put 3 (add (add (mul (reg 5) 0.004) 0.003) (reg 2)))\n', '(put 4 (div 1 (reg 3)))\n')


def cut_products():
    late = '(in 0 6917529027641081.855 6917529027641082.856)\n'
    # a product of any two numbers: held between both ends, one short of either, and at the ends themselves
    for ends in ('-%s %s' % (GREATEST, GREATEST), '-9223372036854.774 %s' % GREATEST, '-%s 9223372036854.774' % GREATEST): add('(put 1 %s)\n(hold 1 %s)\n' % (ANY, ends), lent_but(r0=MIN, r2=1))
    add('(put 1 (mul (reg 0) 0.001))\n(hold 1 -%s %s)\n(put 2 (mul -0.001 (reg 0)))\n(hold 2 -%s %s)\n' % (GREATEST, GREATEST, GREATEST, GREATEST), lent_but(r0=MAX))
    add('(put 1 (mul -9223372036854775.808 0.001))\n(hold 1 -%s -%s)\n(put 2 (mul 9223372036854775.807 0.001))\n(hold 2 %s %s)\n' % (GREATEST, GREATEST, GREATEST, GREATEST), LEFT)
    low, high = '-9223372036854775.808', '9223372036854775.807'
    add(''.join('(put %d (mul %s %s))\n' % (r, a, b) for r, (a, b) in enumerate(((low, low), (low, high), (high, low), (high, high), (low, '-0.001'), (high, '-0.001')))), LEFT)
    # split: the marked product, one number at either end, {MAX} by 3 and 4, windows 0 and 1; with a page of each
    for z in (LATE, LATE + 1, LATE + 1001): add(late + '(put 1 (mul (reg 0) 0.004))\n', lent_but(r0=z))
    add('(in 0 6917529027641081.855 6917529027641081.856)\n(put 1 (mul (reg 0) 0.004))\n(put 3 (mul -0.004 (reg 0)))\n(put 4 (neg (reg 1)))\n', lent_but(r0=LATE + 1))
    add('(in 0 0.003 0.004)\n(put 1 (mul %s (reg 0)))\n(put 3 (mul (reg 0) %s))\n' % (high, low), lent_but(r0=3))
    add('(in 0 4611686018427387 4611686018427389)\n(put 1 (mul (reg 0) 0.002))\n(put 3 (mul (reg 0) (reg 0)))\n', lent_but(r0=2**62))
    for ends in ('-%s %s' % (GREATEST, GREATEST), '-9223372036854.774 %s' % GREATEST, '-%s 9223372036854.774' % GREATEST): add(late + '(put 1 (mul (reg 0) 0.004))\n(hold 1 %s)\n' % ends, lent_but(r0=LATE))
    # under add and sub: a divisor that a product cannot make 0, and one that it just can
    for term in ('776', '775'):
        add('(put 3 (add %s 9223372036854.%s))\n(put 4 (div 6 (reg 3)))\n' % (ANY, term), lent_but(r0=MIN, r2=1))
        add('(put 4 (rem 6 (sub -9223372036854.%s %s)))\n' % (term, ANY), lent_but(r0=MIN, r2=1))
    add('(put 1 (add %s (mul (reg 3) (reg 4))))\n(hold 1 -18446744073709.55 18446744073709.55)\n(put 5 (sub (reg 1) %s))\n' % (ANY, ANY), lent_but(r0=MAX, r2=1, r3=MAX, r4=1))
    add('(put 1 (add %s (reg 3)))\n' % ANY, LEFT)
    # under div and rem: 1000 times a product is a number, so no quotient wraps
    add('(put 1 (div %s 1))\n(hold 1 -%s %s)\n(put 3 (div %s -4))\n(hold 3 -2305843009213.693 2305843009213.693)\n' % (ANY, GREATEST, GREATEST, ANY), lent_but(r0=MIN, r2=-1))
    add('(put 1 (div %s 0.001))\n(put 3 (div 1 (add 1 (abs %s))))\n(put 4 (rem %s 7))\n' % (ANY, ANY, ANY), lent_but(r0=MAX, r2=1))
    add(late + '(put 1 (div (mul (reg 0) 0.004) 3))\n(put 3 (div 1 (mul (reg 0) 0.004)))\n(put 4 (rem (mul (reg 0) 0.004) 1000))\n', lent_but(r0=LATE + 500))
    # under neg, abs and mul, and compared with what no product comes to
    add('(put 1 (abs %s))\n(hold 1 0 %s)\n(put 3 (neg %s))\n(hold 3 -%s %s)\n' % (ANY, GREATEST, ANY, GREATEST, GREATEST), lent_but(r0=MIN, r2=1))
    add('(put 1 (mul %s 0.5))\n(hold 1 -4611686018427.387 4611686018427.387)\n(put 3 (mul 1 %s))\n(put 4 (mul 1.001 %s))\n' % (ANY, ANY, ANY), lent_but(r0=MIN, r2=1))
    add('(put 1 (and (lt %s 9223372036854.776) (le -%s %s)))\n(hold 1 1 1)\n' % (ANY, GREATEST, ANY), LEFT)
    add('(put 1 (ne %s 9223372036854.776))\n(hold 1 1 1)\n(put 3 (lt %s %s))\n(hold 3 1 1)\n' % (ANY, ANY, GREATEST), LEFT)
    # gaps closed behind a cut: a sheet that passed while products reached MIN and MAX, whole, cut before its last line, and with a divisor that keeps clear of the gaps
    seven = ''.join(CLOSED_BY_CUT)
    whole_and_cut(''.join(CLOSED_BY_CUT[:-1]), CLOSED_BY_CUT[-1], lent_but(r0=500, r7=-1145))
    add(seven.replace('0.003)', '0.021)'), lent_but(r0=0, r7=-1144))
    add('(in 0 -1 1)\n' + sums(1, '(reg 3)', '2', '4', '8', '16') + '(put 1 (mul (reg 1) (add 0.5 %s)))\n(hold 1 -%s %s)\n' % (BIT, GREATEST, GREATEST), lent_but(r0=-500))
    add('(in 0 -1 1)\n(in 3 6917529027641065.5 6917529027641066.1)\n' + sums(1, '(reg 3)', '2', '4', '8', '16') + '(put 1 (mul (reg 1) 0.004))\n(put 4 (rem (reg 1) 9))\n', lent_but(r0=-500, r3=6917529027641065900))
    # on the last of 256 lines, and lent slices that are longer than needed, and too short
    add(('(put 1 %s)\n' % ANY) * 255 + '(hold 1 -%s %s)\n' % (GREATEST, GREATEST), LEFT)
    for lent, sets, work in ((20, 540, 8200), (15, 527, 8192), (16, 528, 8191)): add('(put 1 %s)\n(hold 1 -%s %s)\n' % (ANY, GREATEST, GREATEST), [500 + i for i in range(lent)], sets, work)


# ---- writing

KINDS = {'done': 0, 'pass': 0, 'stop': 1, 'refused': 2}


def verdict(v):
    """kind, number, line or line count"""
    return (KINDS[v[0]], 0, v[1]) if len(v) == 2 else (KINDS[v[0]], v[1], v[2])


def record(i, text, lent, sets, work):
    read = rules.judge(text)
    judged = ('refused',) + read if isinstance(read, tuple) else ('done', len(read))
    ran, left = rules.run(text, lent)
    checked, sets_after, work_after = rules.check(text, [-3] * sets, [-4] * work)
    cleared = 8192 if checked[0] != 'refused' else 0
    assert work_after == [0] * cleared + [-4] * (work - cleared) and (checked[0] == 'pass' or sets_after == [-3] * sets)
    pairs = [(n, z) for n, z in enumerate(sets_after[:528]) if z != 0] if checked[0] == 'pass' else []
    listed = rules.listing(text)
    number, at, page = rules.page(text)
    assert checked[1:] in ((number, at), (3, 0)) if number else checked[0] == 'pass' or checked[1] == 3
    line = i % 5
    part = rules.line_part(text, line)
    start = 0 if not part else sum(len(l) + 1 for l in text.split(b'\n')[:line - 1])
    assert text[start:start + len(part)] == part
    head = struct.pack('<H2B', len(text), len(lent), cleared // 8192)
    for v in (judged, ran, checked): head += struct.pack('<2BH', *verdict(v))
    head += struct.pack('<8H', sets, work, len(pairs), len(listed), line, start, start + len(part), len(page))
    head += struct.pack('<2BH', 0 if number == 0 else 1 if number >= 20 else 2, number, at)
    numbers = lent + left
    return head + text + struct.pack('<%dq' % len(numbers), *numbers) + b''.join(struct.pack('<Hq', *p) for p in pairs) + listed + page


def main():
    own = '(in 0 -1 2)\n(put 1 (mul (reg 0) 2.5))\n(hold 1 -3 5)\n'
    add(own, lent_at(r0=1500))
    for part in (texts, damaged, depths, literals, orders, operations, stops, crowds, slices, wraps, rambles, pages, hidden_zeros, closings, dirty, cut_products): part()
    seen = {}
    for text, lent, sets, work in CASES:
        v = rules.check(text, [0] * sets, [0] * work)[0]
        seen[v[:2] if len(v) == 3 else v[0]] = seen.get(v[:2] if len(v) == 3 else v[0], 0) + 1
    data = b''.join(record(i, *case) for i, case in enumerate(CASES))
    with open(os.path.join(sys.argv[1], 'sheets'), 'wb') as f: f.write(data)
    print(len(CASES), 'sheets,', len(data), 'bytes;', ', '.join('%s %d' % (k if isinstance(k, str) else '%s %d' % k, n) for k, n in sorted(seen.items(), key=str)))
    stops_seen = {}
    for text, lent, sets, work in CASES:
        v = rules.run(text, lent)[0]
        stops_seen[v[:2] if len(v) == 3 else v[0]] = stops_seen.get(v[:2] if len(v) == 3 else v[0], 0) + 1
    print('runs:', ', '.join('%s %d' % (k if isinstance(k, str) else '%s %d' % k, n) for k, n in sorted(stops_seen.items(), key=str)))


if __name__ == '__main__': main()
