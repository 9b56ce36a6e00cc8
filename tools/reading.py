"""Document 01, as the requests of document 02 amend it, and what they add, in plain Python integers: point operations, set calls on lent slices, sheets.
It uses nothing of crates/meaning, and is used to make the stored cases of crates/vectors and crates/sheets."""
MIN, MAX = -2**63, 2**63 - 1
FULL = 2**64
ONE = 1000
GREATEST = 9223372036854775    # no product of two numbers, divided by 1000, is past it, nor below its negative: 02 (vii)

# ---------------------------------------------------------------- numbers
def wrap(z):
    return (z + 2**63) % FULL - 2**63

def window(z):
    return (z + 2**63) // FULL

def quot(a, b):           # truncates toward 0
    q = abs(a) // abs(b)
    return q if (a < 0) == (b < 0) else -q

def trem(a, b):
    return a - b * quot(a, b)

def p_neg(a): return wrap(-a)
def p_abs(a): return wrap(abs(a))
def p_add(a, b): return wrap(a + b)
def p_sub(a, b): return wrap(a - b)
def p_mul(a, b): return quot(wrap(a * b), 1000)
def p_div(a, b): return None if b == 0 else wrap(quot(wrap(1000 * a), b))
def p_rem(a, b): return None if b == 0 else wrap(trem(a, b))
def p_next(a): return None if a == MAX else a + 1
def p_prev(a): return None if a == MIN else a - 1
def truth(b): return ONE if b else 0
def p_not(a): return truth(a == 0)
def p_and(a, b): return truth(a != 0 and b != 0)
def p_or(a, b): return truth(a != 0 or b != 0)
def p_le(a, b): return truth(a <= b)
def p_lt(a, b): return truth(a < b)
def p_ne(a, b): return truth(a != b)

POINT1 = dict(neg=p_neg, abs=p_abs, **{'not': p_not})
POINT2 = dict(add=p_add, sub=p_sub, mul=p_mul, div=p_div, rem=p_rem, le=p_le, lt=p_lt, ne=p_ne)
POINT2['and'] = p_and
POINT2['or'] = p_or

# ---------------------------------------------------------------- pair rules; an interval is (s, e)
def has(i, z): return i[0] <= z <= i[1]

def without(i, z):
    """the parts of i with z cut out, 0, 1 or 2"""
    if not has(i, z): return [i]
    return [p for p in ((i[0], z - 1), (z + 1, i[1])) if p[0] <= p[1]]

def r_neg(L):
    s, e = L
    if s == MIN and e == MIN: return [(MIN, MIN)]
    if s == MIN: return [(-e, MAX), (MIN, MIN)]
    return [(-e, -s)]

def r_abs(L):
    s, e = L
    got = []
    if s == MIN:
        got.append((MIN, MIN))
        if e == MIN: return got
        s = -MAX
    if s >= 0: got.append((s, e))
    elif e <= 0: got.append((-e, -s))
    else: got.append((0, max(-s, e)))
    return got

def split_sum(p, q):
    if q - p >= FULL - 1: return [(MIN, MAX)]
    u, v = wrap(p), wrap(q)
    if window(p) == window(q): return [(u, v)]
    return [(u, MAX), (MIN, v)]

def r_add(L, R): return split_sum(L[0] + R[0], L[1] + R[1])
def r_sub(L, R): return split_sum(L[0] - R[1], L[1] - R[0])

def spread(p, q, scale=lambda z: z):
    u, v = scale(wrap(p)), scale(wrap(q))
    kp, kq = window(p), window(q)
    if kp == kq: return [(u, v)]
    assert kq == kp + 1
    if kp == 0: return [(v, MAX), (MIN, u)]
    return [(u, MAX), (MIN, v)]

def r_uncut_mul(L, R):
    """01's rule, as it was before request (vii)"""
    corners = [a * b for a in L for b in R]
    p, q = min(corners), max(corners)
    if q - p >= FULL - 1: return [(MIN, MAX)]
    return spread(p, q, lambda z: quot(z, 1000))

def r_mul(L, R):
    """what 01's rule leaves from -GREATEST to GREATEST: 02 (vii). No interval is lost."""
    uncut = r_uncut_mul(L, R)
    got = [(max(s, -GREATEST), min(e, GREATEST)) for s, e in uncut if s <= GREATEST and e >= -GREATEST]
    assert len(got) == len(uncut)
    return got

def plain_div(D, R):
    corners = [quot(a, b) for a in D for b in R]
    return (min(corners), max(corners))

def piece_div(D, R):
    if has(D, MIN) and has(R, -1):
        got = [(MIN, MIN)]
        got += [plain_div(d, R) for d in without(D, MIN)]
        got += [plain_div(D, r) for r in without(R, -1)]
        return got
    return [plain_div(D, R)]

def r_div(L, R):
    """pieces, flag"""
    if has(R, 0):
        got = []
        for part in without(R, 0): got += r_div(L, part)[0]
        return got, True
    p, q = 1000 * L[0], 1000 * L[1]
    if q - p >= FULL - 1: return [(MIN, MAX)], False
    got = []
    for D in spread(p, q): got += piece_div(D, R)
    return got, False

def magnitudes(I):
    a, b = abs(I[0]), abs(I[1])
    return (min(a, b), max(a, b))

def rem_f(L, R):
    (a, b), (c, d) = magnitudes(L), magnitudes(R)
    if d <= b - a: got = [(0, d - 1)]
    elif c == d:
        top = b - b % c
        if top >= a:
            got = [(0, b % c)]
            if a != top: got.append((a % c, c - 1))
        else: got = [(a % c, b % c)]
    else: got = [(0, d - 1)]
    if L[0] < 0: got = [(-e, -s) for s, e in got]
    return got

def r_rem(L, R):
    got = []
    if has(R, 0):
        for part in without(R, 0): got += r_rem(L, part)[0]
        return got, True
    if has(L, MIN) and has(R, -1):
        for l in without(L, MIN): got += r_rem(l, R)[0]
        for r in without(R, -1): got += r_rem(L, r)[0]
        return got + [(0, 0)], False
    if has(L, 0):
        for l in without(L, 0): got += r_rem(l, R)[0]
        return got + [(0, 0)], False
    if has(R, MIN):
        for r in without(R, MIN): got += r_rem(L, r)[0]
        if L == (MIN, MIN): got.append((0, 0))
        elif has(L, MIN): got.append((MIN, 0))
        else: got.append(L)
        return got, False
    if has(L, MIN):
        for l in without(L, MIN): got += r_rem(l, R)[0]
        d = magnitudes(R)[1]
        return got + [(1 - d, 0)], False
    return rem_f(L, R), False

# ---------------------------------------------------------------- sets; a set is a list of intervals
def join(pieces):
    out = []
    for s, e in sorted(pieces):
        assert s <= e and MIN <= s and e <= MAX, (s, e)
        if out and s <= out[-1][1] + 1: out[-1] = (out[-1][0], max(out[-1][1], e))
        else: out.append((s, e))
    return out

def one(rule):
    return lambda A, f: (join([x for L in A for x in rule(L)]), f)
def two(rule):
    return lambda A, f, B: (join([x for L in A for R in B for x in rule(L, R)]), f)
def twoflag(rule):
    def call(A, f, B):
        got = []
        for L in A:
            for R in B:
                pieces, zero = rule(L, R)
                got += pieces
                f = f or zero
        return join(got), f
    return call

def member(z, A): return any(s <= z <= e for s, e in A)
def to_bools(A): return (member(0, A), A != [] and A != [(0, 0)])
def from_bools(f, t): return ([(0, 0)] if f else []) + ([(ONE, ONE)] if t else [])

def s_not(A):
    f, t = to_bools(A)
    return from_bools(t, f), False
def s_and(A, B):
    (f, t), (g, u) = to_bools(A), to_bools(B)
    return from_bools(f or g, t and u), False
def s_or(A, B):
    (f, t), (g, u) = to_bools(A), to_bools(B)
    return from_bools(f and g, t or u), False
def s_le(A, B):
    return from_bools(any(l[1] > r[0] for l in A for r in B), any(l[0] <= r[1] for l in A for r in B)), False
def s_lt(A, B):
    return from_bools(any(l[1] >= r[0] for l in A for r in B), any(l[0] < r[1] for l in A for r in B)), False
def s_union(A, B): return join(A + B), False
def s_intersect(A, B):
    got = []
    for l in A:
        for r in B:
            s, e = max(l[0], r[0]), min(l[1], r[1])
            if s <= e: got.append((s, e))
    return join(got), False
def s_ne(A, B):
    if not s_intersect(A, B)[0]: return from_bools(False, True), False
    const = len(A) == 1 and len(B) == 1 and A[0][0] == A[0][1] and B[0][0] == B[0][1] and A[0][0] == B[0][0]
    return from_bools(True, not const), False

SETS1 = {'neg': one(r_neg), 'abs': one(r_abs)}
SETS2 = {'add': two(r_add), 'sub': two(r_sub), 'mul': two(r_mul), 'div': twoflag(r_div), 'rem': twoflag(r_rem)}
PLAIN2 = {'and': s_and, 'or': s_or, 'le': s_le, 'lt': s_lt, 'ne': s_ne, 'union': s_union, 'intersect': s_intersect}
K = dict(neg=2, abs=2, add=2, sub=2, mul=2, div=12, rem=16)

def value(op, A, f=False, B=None):
    """(set, flag)"""
    if op in SETS1: return SETS1[op](A, f)
    if op in SETS2: return SETS2[op](A, f, B)
    if op == 'not': return s_not(A)
    return PLAIN2[op](A, B)

def flat(A): return [x for i in A for x in i]
def pairs(ends): return [(ends[i], ends[i + 1]) for i in range(0, len(ends), 2)]
def normal(ends):
    if len(ends) % 2: return False
    P = pairs(ends)
    return all(s <= e for s, e in P) and all(P[i][1] + 1 < P[i + 1][0] for i in range(len(P) - 1))

def judge_set(ends):
    if len(ends) > 32: return 2
    if not normal(ends): return 1
    return 0

def set_call(op, left, flag, right, work, out):
    """The call on lent slices: (refusal, count, flag, work after, out after)."""
    one_op = op in ('neg', 'abs', 'not')
    for ends in ([left] if one_op else [left, right]):
        r = judge_set(ends)
        if r: return r, 0, False, work, out
    A, B = pairs(left), (None if one_op else pairs(right))
    need = 0
    if op in K:
        need = 2 * K[op] * len(A) * (1 if one_op else len(B))
        if len(work) < need: return 3, 0, False, work, out
    got, f = value(op, A, flag, B)
    ends = flat(got)
    clean = [0] * need + work[need:]
    if len(ends) > len(out): return 4, 0, False, clean, out
    return 0, len(ends), f, clean, ends + out[len(ends):]

# ---------------------------------------------------------------- sheet
REGS, LINES, BYTES, DEPTH, LIMIT = 16, 256, 120, 8, 16

class Bad(Exception):
    pass

def split_lines(text):
    """Lines without LF, or None for cause 5."""
    if text and text[-1] != 10: return None
    lines = text.split(b'\n')[:-1]
    if len(lines) > LINES or any(len(l) > BYTES for l in lines): return None
    return lines

def line_part(text, n):
    if n == 0: return b''
    parts = text.split(b'\n')[:-1]
    return parts[n - 1] if n <= len(parts) else b''

def digits(b, i):
    j = i
    while j < len(b) and 48 <= b[j] <= 57: j += 1
    if j == i or (b[i] == 48 and j > i + 1): raise Bad
    return j

def literal(b, i):
    """(thousandths, unbounded), next place"""
    neg = b[i:i + 1] == b'-'
    if neg: i += 1
    j = digits(b, i)
    z = int(b[i:j]) * 1000
    if b[j:j + 1] == b'.':
        k = j + 1
        while k < len(b) and 48 <= b[k] <= 57: k += 1
        n = k - j - 1
        if not 1 <= n <= 3: raise Bad
        z += int(b[j + 1:k]) * (1000, 100, 10, 1)[n]
        j = k
    return (-z if neg else z), j

def register(b, i):
    j = digits(b, i)
    if int(b[i:j]) >= REGS: raise Bad
    return int(b[i:j]), j

def expect(b, i, word):
    if b[i:i + len(word)] != word: raise Bad
    return i + len(word)

def expr(b, i, depth):
    """depth: brackets still allowed"""
    if b[i:i + 1] != b'(':
        z, i = literal(b, i)
        return ('lit', z), i
    if depth == 0: raise Bad
    j = i + 1
    while j < len(b) and 97 <= b[j] <= 122: j += 1
    op = b[i + 1:j].decode('latin-1')
    i = expect(b, j, b' ')
    if op == 'reg':
        r, i = register(b, i)
        return ('reg', r), expect(b, i, b')')
    if op in POINT1:
        x, i = expr(b, i, depth - 1)
        return (op, x), expect(b, i, b')')
    if op in POINT2:
        x, i = expr(b, i, depth - 1)
        i = expect(b, i, b' ')
        y, i = expr(b, i, depth - 1)
        return (op, x, y), expect(b, i, b')')
    raise Bad

def read_line(b):
    for word in (b'in', b'hold'):
        head = b'(' + word + b' '
        if b.startswith(head):
            r, i = register(b, len(head))
            i = expect(b, i, b' ')
            lo, i = literal(b, i)
            i = expect(b, i, b' ')
            hi, i = literal(b, i)
            i = expect(b, i, b')')
            if i != len(b): raise Bad
            return (word.decode(), r, lo, hi)
    if b.startswith(b'(put '):
        r, i = register(b, 5)
        i = expect(b, i, b' ')
        e, i = expr(b, i, DEPTH - 1)
        i = expect(b, i, b')')
        if i != len(b): raise Bad
        return ('put', r, e)
    raise Bad

def literals(e):
    if isinstance(e, int): return [e]
    if e[0] == 'lit': return [e[1]]
    if e[0] == 'reg': return []
    return [z for x in e[1:] for z in literals(x)]

def judge(text):
    """(refusal, line) or the list of lines"""
    lines = split_lines(text)
    if lines is None: return (5, 0)
    got, seen, other = [], set(), False
    for n, b in enumerate(lines, 1):
        try: line = read_line(b)
        except Bad: return (6, n)
        zs = [line[2], line[3]] if line[0] != 'put' else literals(line[2])
        if any(not MIN <= z <= MAX for z in zs): return (7, n)
        if line[0] != 'put' and line[2] > line[3]: return (6, n)
        if line[0] == 'in':
            if other or line[1] in seen: return (8, n)
            seen.add(line[1])
        else: other = True
        got.append(line)
    return got

# ---------------------------------------------------------------- plain run
class Stop(Exception):
    pass

def point(e, state):
    if e[0] == 'lit': return e[1]
    if e[0] == 'reg': return state[e[1]]
    xs = [point(x, state) for x in e[1:]]
    if e[0] in ('div', 'rem') and xs[1] == 0: raise Stop(20)
    return (POINT1 if len(xs) == 1 else POINT2)[e[0]](*xs)

def run(text, lent):
    """('done', N) / ('stop', n, line) / ('refused', n, line), and the slice afterwards"""
    if len(lent) < REGS: return ('refused', 3, 0), lent
    lines = judge(text)
    if isinstance(lines, tuple): return ('refused',) + lines, lent
    state = lent[:REGS]    # what was there: the controllers clear nothing, 02 (vi)
    try:
        for n, line in enumerate(lines, 1):
            if line[0] == 'in':
                z = lent[line[1]]
                if not line[2] <= z <= line[3]: raise Stop(22)
                state = state[:line[1]] + [z] + state[line[1] + 1:]
            elif line[0] == 'put':
                z = point(line[2], state)
                state = state[:line[1]] + [z] + state[line[1] + 1:]
            elif not line[2] <= state[line[1]] <= line[3]: raise Stop(21)
    except Stop as s: return ('stop', s.args[0], n), state + lent[REGS:]
    return ('done', len(lines)), state + lent[REGS:]

# ---------------------------------------------------------------- check
def close(limit, A):
    """A with gaps closed until `limit` intervals remain, for a limit of one or more: first the gap with the fewest missing numbers, the lowest of equals."""
    while len(A) > limit:
        missing = [after[0] - before[1] - 1 for before, after in zip(A, A[1:])]
        i = missing.index(min(missing))    # the first place where it stands
        A = A[:i] + [(A[i][0], A[i + 1][1])] + A[i + 2:]
    return A

def setof(e, sets):
    """A form's set: left, right, form. At each form 20 is judged on the answer of its set call, and then gaps are closed: 01 as requests (iii) and (v) amend it."""
    if e[0] == 'lit': return [(e[1], e[1])]
    if e[0] == 'reg': return sets[e[1]]
    xs = [setof(x, sets) for x in e[1:]]
    got, flag = value(e[0], xs[0], False, xs[1] if len(xs) > 1 else None)
    if flag: raise Stop(20)
    return close(LIMIT, got)

def check_sets(text):
    """('pass', N, sets) / ('stop', n, line) / ('refused', n, line), for long enough slices"""
    lines = judge(text)
    if isinstance(lines, tuple): return ('refused',) + lines
    sets = [[(MIN, MAX)] for _ in range(REGS)]    # whatever number was there, 02 (vi)
    try:
        for n, line in enumerate(lines, 1):
            if line[0] == 'in': sets[line[1]] = [(line[2], line[3])]
            elif line[0] == 'put': sets[line[1]] = setof(line[2], sets)
            elif any(s < line[2] or e > line[3] for s, e in sets[line[1]]): raise Stop(21)
    except Stop as s: return ('stop', s.args[0], n)
    return ('pass', len(lines), sets)

def layout(sets):
    got = []
    for A in sets:
        ends = flat(A)
        got += [len(A)] + ends + [0] * (32 - len(ends))
    return got

def check(text, sets, work):
    """verdict, sets after, work after"""
    if len(sets) < 33 * REGS or len(work) < 8192: return ('refused', 3, 0), sets, work
    v = check_sets(text)
    if v[0] == 'refused': return v, sets, work
    clean = [0] * 8192 + work[8192:]
    if v[0] == 'pass': return v[:2], layout(v[2]) + sets[33 * REGS:], clean
    return v, sets, clean

def shown(lines):
    """the registers with an `in` or `put`, ascending"""
    return sorted({l[1] for l in lines if l[0] != 'hold'})

def listing(text):
    v = check_sets(text)
    if v[0] != 'pass': return ('%s %d %d\n' % v).encode()
    got = 'pass %d\n' % v[1]
    for r in shown(judge(text)):
        got += 'r%d' % r + ''.join(' %d..%d' % i for i in v[2][r]) + '\n'
    return got.encode()

# ---------------------------------------------------------------- page, document 02 (i)
def page_line(r, s, e):
    """72 columns, counted from 1, and LF; each field is given its first and last column"""
    columns = [' '] * 72
    fields = ((1, 3, 'r%d' % r, str.ljust), (5, 24, str(s), str.rjust), (25, 26, '..', str.ljust), (27, 46, str(e), str.rjust), (48, 67, str(e - s + 1), str.rjust))
    for first, last, word, set_to in fields:
        width = last - first + 1
        assert len(word) <= width, word
        columns[first - 1:last] = set_to(word, width)
    return ''.join(columns) + '\n'

def page(text):
    """(0, 0, bytes written) / (number, line, none) as the check, for a long enough output"""
    v = check_sets(text)
    if v[0] != 'pass': return v[1], v[2], b''
    return 0, 0, ''.join(page_line(r, s, e) for r in shown(judge(text)) for s, e in sorted(v[2][r])).encode()

# ---------------------------------------------------------------- closest setpoint, document 02 (ii)
def judge_setpoint(ends):
    return judge_set(ends) or (10 if ends == [] else 0)

def nearest(ends, x):
    """(refusal, member); the closest member is x itself or an end"""
    r = judge_setpoint(ends)
    if r: return r, 0
    members = [x] * member(x, pairs(ends)) + ends
    return 0, min(members, key=lambda m: (abs(m - x), m))

def within(ends, x, distance, out):
    """The call on lent slices: (refusal, count, flag, out after)."""
    r = judge_setpoint(ends)
    if r: return r, 0, False, out
    got = flat(s_intersect(pairs(ends), [(x - distance, x + distance)])[0])
    if len(got) > len(out): return 4, 0, False, out
    return 0, len(got), False, got + out[len(got):]

if __name__ == '__main__':
    own = b'(in 0 -1 2)\n(put 1 (mul (reg 0) 2.5))\n(hold 1 -3 5)\n'
    assert listing(own) == b'pass 3\nr0 -1000..2000\nr1 -2500..5000\n'
    assert page(own)[2] == b'r0                 -1000..                2000                 3001     \nr1                 -2500..                5000                 7501     \n'
    assert page(b'(in 15 -9223372036854775.808 9223372036854775.807)\n')[2] == b'r15 -9223372036854775808.. 9223372036854775807 18446744073709551616     \n'
    v = lambda op, A, B=None: value(op, A, False, B)
    assert v('neg', [(MIN, -1)])[0] == [(MIN, MIN), (1, MAX)]
    assert v('add', [(MAX - 2, MAX)], [(1, 1)])[0] == [(MIN, MIN), (MAX - 1, MAX)]
    assert v('add', [(MIN, -1)], [(0, MAX)])[0] == [(MIN, MAX - 1)]
    assert v('add', [(MIN, 0)], [(0, MAX)])[0] == [(MIN, MAX)]
    assert v('mul', [(6917529027641081855, 6917529027641082856)], [(4, 4)])[0] == [(-GREATEST, -9223372036854771), (GREATEST, GREATEST)]
    assert (quot(MIN, 1000), quot(MAX, 1000)) == (-GREATEST, GREATEST) and p_mul(MIN, 1) == -GREATEST and p_mul(MAX, 1) == GREATEST
    assert v('mul', [(MAX, MAX)], [(3, 4)])[0] == [(-GREATEST, 0), (GREATEST, GREATEST)] and v('mul', [(MAX, MAX)], [(3, 5)])[0] == [(-GREATEST, GREATEST)]
    assert v('mul', [(MIN, MAX)], [(MIN, MAX)])[0] == [(-GREATEST, GREATEST)] and v('mul', [(MIN, MIN)], [(1, 1)])[0] == [(-GREATEST, -GREATEST)]
    assert v('div', [(-10**16, 10**16)], [(1000, 1000)])[0] == [(MIN, MAX)]
    assert v('div', [(0, 0)], [(-1, 1)]) == ([(0, 0)], True)
    assert v('rem', [(7, 7)], [(0, 0)]) == ([], True)
    assert v('rem', [(MIN, MIN)], [(-1, -1)])[0] == [(0, 0)]
    assert v('rem', [(7, 9)], [(4, 4)])[0] == [(0, 1), (3, 3)]
    assert v('abs', [(-5, 3)])[0] == [(0, 5)]
    assert v('lt', [(3, 3)], [(3, 3)])[0] == [(0, 0)]
    assert nearest([1, 1, 5, 5], 3) == (0, 1) and nearest([1, 1, 5, 5], 4) == (0, 5) and nearest([], 3) == (10, 0)
    assert nearest([MIN, MIN, MAX, MAX], 0) == (0, MAX) and nearest([MIN, MIN, MAX, MAX], -1) == (0, MIN)
    assert within([1, 1, 5, 5], 3, 1, [7]) == (0, 0, False, [7]) and within([1, 9], 3, 1, [7]) == (4, 0, False, [7])
    assert within([MIN, MIN, 5, MAX], MAX, 2**64 - 1, [7] * 5) == (0, 4, False, [MIN, MIN, 5, MAX, 7])
    eight = b'(in 0 -1 1)\n(put 1 (le (reg 0) 0))\n(put 2 (add (reg 1) (mul 2 (reg 1))))\n(put 2 (add (reg 2) (mul 4 (add 1 (reg 1)))))\n'
    assert listing(eight + b'(put 3 (div (reg 2) (sub (mul 9 (reg 1)) (mul 7 (reg 1)))))\n') == b'stop 20 5\n'
    singles = lambda *zs: [(z, z) for z in zs]
    assert close(3, singles(0, 2, 4, 9)) == [(0, 2), (4, 4), (9, 9)] and close(2, singles(0, 2, 4, 9)) == [(0, 4), (9, 9)] and close(1, singles(0, 2, 4, 9)) == [(0, 9)]
    assert close(3, singles(0, 5, 7, 9)) == [(0, 0), (5, 7), (9, 9)] and close(4, singles(0, 2, 4, 9)) == singles(0, 2, 4, 9)
    assert close(2, singles(MIN, 0, MAX)) == [(MIN, MIN), (0, MAX)] and close(1, singles(MIN, MAX)) == [(MIN, MAX)]
    assert listing(eight + b'(put 3 (div (reg 2) (sub (mul 9 (reg 1)) (add 1 (mul 7 (reg 1))))))\n').endswith(b'r3 -11000..-9000 -8000..-8000 -7000..-7000 -6000..-6000 -5000..-5000 '
        b'-4000..-4000 -1375..-500 500..1375 4000..4000 5000..5000 6000..6000 7000..7000 8000..8000 9000..9000 10000..10000 11000..11000\n')
    assert listing(b'(hold 0 0 0)\n') == b'stop 21 1\n' and listing(b'(hold 0 -9223372036854775.808 9223372036854775.807)\n') == b'pass 1\n'
    assert check_sets(b'')[2] == [[(MIN, MAX)]] * REGS and check_sets(b'(in 1 0 2)\n')[2][:3] == [[(MIN, MAX)], [(0, 2000)], [(MIN, MAX)]]
    dirty = list(range(MAX - 15, MAX + 1))
    assert run(b'', dirty + [7]) == (('done', 0), dirty + [7]) and run(b'(put 1 5)\n(in 0 0 1)\n', dirty) == (('refused', 8, 2), dirty)
    assert run(b'(put 1 5)\n(hold 2 0 1)\n', dirty) == (('stop', 21, 2), dirty[:1] + [5000] + dirty[2:])
    assert run(b'(in 0 0 9)\n(in 1 0 1)\n', [5000, 9000] + dirty[2:]) == (('stop', 22, 2), [5000, 9000] + dirty[2:])
    closed_by_cut = (b'(in 0 0 1)\n(in 7 -1.145 -1.144)\n(put 1 (lt (reg 0) 0.5))\n(put 5 (add (div (mul (reg 1) 6917529027641.083) 0.001) (reg 7)))\n'
        b'(put 2 (add (mul (reg 1) 0.002) (add (mul (reg 1) 0.005) (mul (reg 1) 0.011))))\n(put 3 (add (add (mul (reg 5) 0.004) 0.003) (reg 2)))\n(put 4 (div 1 (reg 3)))\n')
    assert listing(closed_by_cut) == b'stop 20 7\n'
    print('marked values agree')
