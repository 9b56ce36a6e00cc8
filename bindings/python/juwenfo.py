"""Calls of Juwenfo from Python, over ctypes.

A shared object is made from the archive, once:

    (cd crates/exports && rt lib)
    cc -shared -I include -o libjuwenfo.so bindings/python/version.c -Wl,--whole-archive crates/exports/out/libexports.a -Wl,--no-whole-archive

It is looked for at the path in JUWENFO_LIBRARY, else beside this file.

Numbers are ints from MIN to MAX, counts of thousandths. A set is a list of (start, end) in order. A call that is refused raises Refused; a sheet that
is refused, or meets a finding, raises Trouble.
"""
import ctypes
import os

MIN, MAX, ONE = -(1 << 63), (1 << 63) - 1, 1000
REGISTERS, SLOT, WORK = 16, 33, 8192
LISTING, PAGE = 11081, 18688  # bytes that hold any listing, and any page

WORDS = {  # each number that there is, with what it means: 1 to 8 and 10 are refusals, 20 to 22 findings
    1: "a set has an odd number of ends, or is not sorted with a gap between its intervals",
    2: "a set has over 16 intervals",
    3: "a lent slice is too short to work in",
    4: "the answer is longer than `out`",
    5: "over 256 lines, a line over 120 bytes, or the last line feed is missing",
    6: "the line is outside the grammar, or its LO is past its HI",
    7: "a number is beyond MIN..MAX",
    8: "an `in` behind another kind of line, or a second one for a register",
    10: "the set is empty",
    20: "a divisor may be 0, or is 0 in a run",
    21: "a held register may have a value outside, or has one in a run",
    22: "a lent number is outside its `in` line",
}


class Refused(Exception):
    """A set call was refused: 1 not normal, 2 more than 16 intervals, 10 empty (nearest, within)."""

    def __init__(self, number):
        super().__init__(number)
        self.number = number

    def __str__(self):
        return "refused with %d: %s" % (self.number, WORDS.get(self.number, "unknown"))


class Trouble(Exception):
    """A sheet's refusal (5 to 8) or finding (20 to 22), and its line; of a run that stops also the 16 registers before that line."""

    def __init__(self, number, line, registers=()):
        super().__init__(number, line, registers)
        self.number, self.line, self.registers = number, line, registers

    def __str__(self):
        return "number %d at line %d: %s" % (self.number, self.line, WORDS.get(self.number, "unknown"))


class _Maybe(ctypes.Structure):
    _fields_ = [("number", ctypes.c_int64), ("there", ctypes.c_bool)]


class _Answer(ctypes.Structure):
    _fields_ = [("count", ctypes.c_size_t), ("number", ctypes.c_uint8), ("flag", ctypes.c_bool)]


class _Member(ctypes.Structure):
    _fields_ = [("member", ctypes.c_int64), ("number", ctypes.c_uint8)]


class _Part(ctypes.Structure):
    _fields_ = [("start", ctypes.c_size_t), ("length", ctypes.c_size_t)]


class _Verdict(ctypes.Structure):
    _fields_ = [("line", ctypes.c_size_t), ("count", ctypes.c_size_t), ("number", ctypes.c_uint8)]


class _Text(ctypes.Structure):
    _fields_ = [("count", ctypes.c_size_t), ("line", ctypes.c_size_t), ("number", ctypes.c_uint8)]


_lib = ctypes.CDLL(os.environ.get("JUWENFO_LIBRARY") or os.path.join(os.path.dirname(os.path.abspath(__file__)), "libjuwenfo.so"))
VERSION = ctypes.string_at(ctypes.addressof(ctypes.c_char.in_dll(_lib, "juwenfo_version"))).decode()
_SLICE = [ctypes.POINTER(ctypes.c_int64), ctypes.c_size_t]
_TEXT = [ctypes.c_char_p, ctypes.c_size_t]
_BYTES = [ctypes.POINTER(ctypes.c_char), ctypes.c_size_t]


def _declared(name, arguments, result):
    f = getattr(_lib, "juwenfo_" + name)
    f.argtypes, f.restype = arguments, result
    return f


def _number(x):
    """ctypes would cut a number to 64 bits without a word."""
    if not MIN <= x <= MAX:
        raise OverflowError("%d is beyond MIN..MAX" % x)
    return x


# ---- numbers

def _point(name, operands, result):
    f = _declared("number_" + name, [ctypes.c_int64] * operands, result)

    def call(*numbers):
        r = f(*map(_number, numbers))
        if result is not _Maybe:
            return r
        return r.number if r.there else None

    call.__name__ = "number_" + name
    return call


number_neg, number_abs, number_not = (_point(n, 1, ctypes.c_int64) for n in ("neg", "abs", "not"))
number_next, number_prev = (_point(n, 1, _Maybe) for n in ("next", "prev"))  # None after MAX, before MIN
number_as_bool = _point("as_bool", 1, ctypes.c_bool)
number_add, number_sub, number_mul = (_point(n, 2, ctypes.c_int64) for n in ("add", "sub", "mul"))  # a product is from -9223372036854775 to 9223372036854775
number_div, number_rem = (_point(n, 2, _Maybe) for n in ("div", "rem"))  # None for a divisor 0
number_and, number_or = (_point(n, 2, ctypes.c_int64) for n in ("and", "or"))
number_le, number_lt, number_ne = (_point(n, 2, ctypes.c_int64) for n in ("le", "lt", "ne"))


# ---- sets

def _slice(values):
    return (ctypes.c_int64 * len(values))(*map(_number, values))


def _ends(s):
    return [x for interval in s for x in interval]


def _pairs(values):
    return list(zip(values[::2], values[1::2]))


def _written(f, *arguments):
    """Calls with an out that holds every answer: the set, and its flag."""
    out = (ctypes.c_int64 * WORK)()
    a = f(*arguments, out, len(out))
    if a.number:
        raise Refused(a.number)
    return _pairs(out[: a.count]), a.flag


def _set_work(name, operands):
    f = _declared("set_" + name, _SLICE + [ctypes.c_bool] + _SLICE * operands + _SLICE, _Answer)

    def call(left, *right, flag=False):
        if len(right) != operands - 1:
            raise TypeError("%s takes %d sets" % (name, operands))
        work = (ctypes.c_int64 * WORK)()
        slices = [_slice(_ends(s)) for s in (left, *right)]
        rest = [x for s in slices[1:] for x in (s, len(s))]
        return _written(f, slices[0], len(slices[0]), flag, *rest, work, len(work))

    call.__name__ = "set_" + name
    return call


def _set_plain(name, operands):
    f = _declared("set_" + name, _SLICE * operands + _SLICE, _Answer)

    def call(*sets):
        if len(sets) != operands:
            raise TypeError("%s takes %d sets" % (name, operands))
        slices = [_slice(_ends(s)) for s in sets]
        return _written(f, *(x for s in slices for x in (s, len(s))))[0]

    call.__name__ = "set_" + name
    return call


# A set and its flag; the keyword `flag` is the left set's, and no call asks for the right set's. That of mul has nothing outside -9223372036854775 to 9223372036854775.
set_neg, set_abs = (_set_work(n, 1) for n in ("neg", "abs"))
set_add, set_sub, set_mul, set_div, set_rem = (_set_work(n, 2) for n in ("add", "sub", "mul", "div", "rem"))
# A set alone: the flag of these is always false. So who chains calls keeps the OR of the flags of all answers on the way.
set_not = _set_plain("not", 1)
set_and, set_or, set_le, set_lt, set_ne = (_set_plain(n, 2) for n in ("and", "or", "le", "lt", "ne"))
set_union, set_intersect = (_set_plain(n, 2) for n in ("union", "intersect"))

_nearest = _declared("set_nearest", _SLICE + [ctypes.c_int64], _Member)
_within = _declared("set_within", _SLICE + [ctypes.c_int64, ctypes.c_uint64] + _SLICE, _Answer)


def set_nearest(s, x):
    """The member closest to x; of two at the same distance the lower one."""
    ends = _slice(_ends(s))
    m = _nearest(ends, len(ends), _number(x))
    if m.number:
        raise Refused(m.number)
    return m.member


def set_within(s, x, distance):
    """Just the members at most `distance` away from x, a set alone; a distance is an int from 0 to 2**64 - 1."""
    if not 0 <= distance < 1 << 64:
        raise OverflowError("the distance %d is not from 0 to 2**64 - 1" % distance)
    ends = _slice(_ends(s))
    return _written(_within, ends, len(ends), _number(x), distance)[0]


# ---- sheets: a text is bytes

_line = _declared("line", _TEXT + [ctypes.c_size_t], _Part)
_judge = _declared("judge", _TEXT, _Verdict)
_check = _declared("check", _TEXT + _SLICE + _SLICE, _Verdict)
_run = _declared("run", _TEXT + _SLICE, _Verdict)
_listing = _declared("listing", _TEXT + _BYTES, _Text)
_page = _declared("page", _TEXT + _BYTES, _Text)


def _count(v):
    if v.number:
        raise Trouble(v.number, v.line)
    return v.count


def line(text, n):
    """Line n, counted from 1, without its LF; line 0, and a line that no LF ends, are empty."""
    part = _line(text, len(text), n)
    return text[part.start : part.start + part.length]


def judge(text):
    """Reads a sheet without working it: how many lines it has."""
    return _count(_judge(text, len(text)))


def check(text):
    """Checks a sheet: the set of each of the 16 registers after the last line; of one that no line wrote, [(MIN, MAX)]."""
    sets, work = (ctypes.c_int64 * (SLOT * REGISTERS))(), (ctypes.c_int64 * WORK)()
    _count(_check(text, len(text), sets, len(sets), work, len(work)))
    slots = [sets[SLOT * r : SLOT * (r + 1)] for r in range(REGISTERS)]
    return [_pairs(s[1 : 1 + 2 * s[0]]) for s in slots]


def run(text, lent=()):
    """Runs a sheet on the numbers that registers 0, 1 .. hold before it (0 where none is lent): the 16 numbers after the last line. A register that no line
    puts keeps its number. Trouble 20 to 22 has the numbers before its line."""
    if len(lent) > REGISTERS:
        raise ValueError("%d numbers are lent to %d registers" % (len(lent), REGISTERS))
    numbers = _slice(list(lent) + [0] * (REGISTERS - len(lent)))
    v = _run(text, len(text), numbers, len(numbers))
    if v.number >= 20:
        raise Trouble(v.number, v.line, numbers[:REGISTERS])
    _count(v)
    return numbers[:REGISTERS]


def _printed(f, text, most):
    """Calls with an out that holds every text of the part."""
    out = (ctypes.c_char * most)()
    return out[: _count(f(text, len(text), out, len(out)))]


def listing(text):
    """The listing of any text, as the program prints it, in bytes: no text is refused."""
    return _printed(_listing, text, LISTING)


def page(text):
    """The page of a sheet that passes, in bytes: a line of 72 characters for each interval of the registers with an `in` or a `put`."""
    return _printed(_page, text, PAGE)
