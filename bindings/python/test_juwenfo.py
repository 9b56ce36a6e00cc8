"""Every call once, with an answer that document 01 marks or that is plain to see."""
import ctypes
import os
import unittest

import juwenfo as j
from juwenfo import MAX, MIN

HEADER = os.path.join(os.path.dirname(os.path.abspath(__file__)), "../../include/juwenfo.h")
SHEET = b"(in 0 -1 2)\n(put 1 (mul (reg 0) 2.5))\n(hold 1 -3 5)\n"


def written(call, text, room):
    """The number, line and count of a call on an out of `room` bytes 7, and what is left there and in one more byte 7 behind it."""
    out = (ctypes.c_char * (room + 1))(*b"\7" * (room + 1))
    t = call(text, len(text), out, room)
    return t.number, t.line, t.count, out.raw


class Calls(unittest.TestCase):
    def test_numbers(self):
        self.assertEqual([j.number_neg(MIN), j.number_abs(-5), j.number_add(MAX, 1), j.number_sub(MIN, 1), j.number_mul(2500, -2000)], [MIN, 5, MIN, MAX, -5000])
        self.assertEqual([j.number_div(7, -2), j.number_div(1, 0), j.number_rem(-7, 4), j.number_rem(1, 0)], [-3500, None, -3, None])
        self.assertEqual([j.number_next(MAX), j.number_next(0), j.number_prev(MIN), j.number_prev(0)], [None, 1, None, -1])
        self.assertEqual([j.number_as_bool(0), j.number_not(0), j.number_and(1, 0), j.number_or(0, 1)], [False, 1000, 0, 1000])
        self.assertEqual([j.number_le(3, 3), j.number_lt(3, 3), j.number_ne(3, 4)], [1000, 0, 1000])
        self.assertRaises(OverflowError, j.number_neg, MAX + 1)

    def test_sets(self):
        self.assertEqual(j.set_neg([(MIN, -1)]), ([(MIN, MIN), (1, MAX)], False))
        self.assertEqual(j.set_abs([(-5, 3)], flag=True), ([(0, 5)], True))
        self.assertEqual(j.set_add([(MAX - 2, MAX)], [(1, 1)]), ([(MIN, MIN), (MAX - 1, MAX)], False))
        self.assertEqual(j.set_sub([(5, 7)], [(1, 2)]), ([(3, 6)], False))
        self.assertEqual(j.set_mul([(2, 3)], [(1000, 2000)]), ([(2, 6)], False))
        self.assertEqual(j.set_div([(0, 0)], [(-1, 1)]), ([(0, 0)], True))
        self.assertEqual(j.set_rem([(7, 9)], [(4, 4)]), ([(0, 1), (3, 3)], False))
        self.assertEqual([j.set_not([(0, 1)]), j.set_and([(1, 1)], [(0, 0)]), j.set_or([(1, 1)], [(0, 0)])], [[(0, 0), (1000, 1000)], [(0, 0)], [(1000, 1000)]])
        self.assertEqual([j.set_le([(0, 1)], [(0, 0)]), j.set_lt([(3, 3)], [(3, 3)]), j.set_ne([(3, 3)], [(3, 3)])], [[(0, 0), (1000, 1000)], [(0, 0)], [(0, 0)]])
        self.assertEqual([j.set_union([(1, 2)], [(3, 4)]), j.set_intersect([(1, 5)], [(4, 9)])], [[(1, 4)], [(4, 5)]])

    def test_products(self):
        greatest = 9223372036854775  # in thousandths: no product is past it, nor below its negative
        self.assertEqual([j.number_mul(MIN, 1), j.number_mul(MAX, 1), j.number_mul(MIN, -1), j.number_mul(MIN, MIN)], [-greatest, greatest, -greatest, 0])
        self.assertEqual(j.set_mul([(6917529027641081855, 6917529027641082856)], [(4, 4)]), ([(-greatest, -9223372036854771), (greatest, greatest)], False))
        self.assertEqual(j.set_mul([(MAX, MAX)], [(3, 4)]), ([(-greatest, 0), (greatest, greatest)], False))
        self.assertEqual(j.set_mul([(MIN, MAX)], [(MIN, MAX)], flag=True), ([(-greatest, greatest)], True))
        self.assertEqual(j.set_div([(-(10**16), 10**16)], [(1000, 1000)]), ([(MIN, MAX)], False))  # a quotient may be any number
        held = b"(put 2 (mul (reg 0) (reg 1)))\n(hold 2 %s)\n"
        self.assertEqual(j.listing(held % b"-9223372036854.775 9223372036854.775"), b"pass 2\nr2 -9223372036854775..9223372036854775\n")
        for short in (b"-9223372036854.774 9223372036854.775", b"-9223372036854.775 9223372036854.774"):
            self.assertEqual(j.listing(held % short), b"stop 21 2\n")

    def test_refusals(self):
        for left, number in (([(1, 2), (3, 4)], 1), ([(3 * i, 3 * i) for i in range(17)], 2)):
            with self.assertRaises(j.Refused) as e:
                j.set_neg(left)
            self.assertEqual(e.exception.number, number)

    def test_nearest(self):
        far = [(MIN, MIN), (MAX, MAX)]
        self.assertEqual([j.set_nearest([(1, 1), (5, 5)], x) for x in (3, 4, 5, MIN, MAX)], [1, 5, 5, 1, 5])  # 3 is a tie
        self.assertEqual(j.set_nearest([(-9, -2), (4, 8)], -5), -5)
        self.assertEqual([j.set_nearest(far, 0), j.set_nearest(far, -1), j.set_nearest([(-MAX, -MAX), (MAX, MAX)], 0)], [MAX, MIN, -MAX])
        self.assertEqual([j.set_nearest(far[:1], MAX), j.set_nearest(far[1:], MIN)], [MIN, MAX])

    def test_within(self):
        two, far, greatest = [(1, 1), (5, 5)], [(MIN, MIN), (MAX, MAX)], (1 << 64) - 1
        self.assertEqual([j.set_within(two, 3, d) for d in (2, 1)] + [j.set_within(two, 5, 0)], [two, [], two[1:]])
        self.assertEqual(j.set_within([(-9, -2), (4, 8)], 0, 6), [(-6, -2), (4, 6)])
        self.assertEqual([j.set_within([(MIN, MAX)], 0, MAX), j.set_within([(MIN, MAX)], MIN, greatest - 1)], [[(-MAX, MAX)], [(MIN, MAX - 1)]])
        self.assertEqual([j.set_within(far, MAX, greatest), j.set_within(far, MAX, greatest - 1)], [far, far[1:]])
        for room, want in ((5, (0, 4, False, [1, 1, 5, 5, 7])), (4, (0, 4, False, [1, 1, 5, 5])), (3, (4, 0, False, [7] * 3)), (0, (4, 0, False, []))):
            out = (ctypes.c_int64 * room)(*[7] * room)
            a = j._within((ctypes.c_int64 * 4)(1, 1, 5, 5), 4, 3, 2, out, room)
            self.assertEqual((a.number, a.count, a.flag, out[:]), want)

    def test_around_a_number_refused(self):
        for left, number, words in (([(3 * i, 3 * i) for i in range(17)], 2, "over 16"), ([(1, 2), (3, 4)], 1, "not sorted"), ([], 10, "is empty")):
            for call in (lambda: j.set_nearest(left, 3), lambda: j.set_within(left, 3, 2)):
                with self.assertRaises(j.Refused) as e:
                    call()
                self.assertEqual(e.exception.number, number)
                self.assertIn(words, str(e.exception))
        for x in (MIN - 1, MAX + 1):
            self.assertRaises(OverflowError, j.set_nearest, [(1, 1)], x)
            self.assertRaises(OverflowError, j.set_within, [(1, 1)], x, 0)
        for distance in (-1, 1 << 64):
            self.assertRaises(OverflowError, j.set_within, [(1, 1)], 0, distance)

    def test_sheets(self):
        self.assertEqual([j.line(SHEET, 1), j.line(SHEET, 0), j.line(SHEET, 4), j.judge(SHEET)], [b"(in 0 -1 2)", b"", b"", 3])
        self.assertEqual(j.check(SHEET)[:3], [[(-1000, 2000)], [(-2500, 5000)], [(MIN, MAX)]])
        self.assertEqual(j.run(SHEET, [1500])[:3], [1500, 3750, 0])
        for call, number, line in ((lambda: j.check(b"(hold 0 1 2)\n"), 21, 1), (lambda: j.judge(b"x"), 5, 0), (lambda: j.run(SHEET, [2001]), 22, 1)):
            with self.assertRaises(j.Trouble) as e:
                call()
            self.assertEqual((e.exception.number, e.exception.line), (number, line))
        with self.assertRaises(j.Trouble) as e:
            j.run(b"(in 0 0 9)\n(put 1 2)\n(hold 0 0 1)\n", [5000])
        self.assertEqual((e.exception.number, e.exception.line, e.exception.registers[:3]), (21, 3, [5000, 2000, 0]))
        self.assertRaises(ValueError, j.run, SHEET, [0] * 17)

    def test_dirty_start(self):
        text, left = b"(in 0 0 9)\n(in 1 0 1)\n(put 2 (add (reg 0) (reg 3)))\n(hold 4 0 0)\n", [100 * i for i in range(16)]
        self.assertEqual([j.check(b""), j.run(b"", left), j.listing(b"(hold 0 0 0)\n")], [[[(MIN, MAX)]] * 16, left, b"stop 21 1\n"])
        self.assertEqual(j.listing(b"(hold 0 -9223372036854775.808 9223372036854775.807)\n"), b"pass 1\n")
        self.assertEqual(j.run(text, left[:4] + [0] + left[5:]), left[:2] + [300, 300, 0] + left[5:])
        stops = ((left[:3] + [MAX, MIN] + left[5:], 21, 4, left[:2] + [MAX, MAX, MIN] + left[5:]), ([0, 1001] + left[2:], 22, 2, [0, 1001] + left[2:]), ([-1] + left[1:], 22, 1, [-1] + left[1:]))
        for lent, number, line, after in stops:
            with self.assertRaises(j.Trouble) as e:
                j.run(text, lent)
            self.assertEqual((e.exception.number, e.exception.line, e.exception.registers), (number, line, after))

    def test_closed_gaps(self):
        sheet = b"(in 0 0 9)\n(put 1 (lt (reg 0) 5))\n(put 2 (add (reg 1) (mul 2 (reg 1))))\n(put 3 (add (reg 2) (mul 4 (reg 2))))\n(put 4 (add (reg 3) (reg 1)))\n"
        self.assertEqual(j.check(sheet)[3:5], [[(1000 * i, 1000 * i) for i in range(16)], [(0, 1000)] + [(1000 * i, 1000 * i) for i in range(2, 17)]])

    def test_listings(self):
        self.assertEqual(j.listing(SHEET), b"pass 3\nr0 -1000..2000\nr1 -2500..5000\n")
        self.assertEqual([j.listing(b""), j.listing(b"x"), j.listing(b"(hold 0 1 2)\n"), j.listing(b"\0\n")], [b"pass 0\n", b"refused 5 0\n", b"stop 21 1\n", b"refused 6 1\n"])

    def test_pages(self):
        answer = b"r0                 -1000..                2000                 3001     \nr1                 -2500..                5000                 7501     \n"
        self.assertEqual(j.page(SHEET), answer)
        whole = b"(in 15 -9223372036854775.808 9223372036854775.807)\n"
        self.assertEqual(j.page(whole), b"r15 -9223372036854775808.. 9223372036854775807 18446744073709551616     \n")
        self.assertEqual([j.page(b""), j.page(b"(hold 0 -9223372036854775.808 9223372036854775.807)\n")], [b"", b""])
        troubles = ((b"(put 0 1)\n(hold 0 2 3)\n", 21, 2), (b"(put 0 (div 1 0))\n", 20, 1), (b"(put 0 1)\nx\n", 6, 2), (b"x", 5, 0))
        for text, number, line in troubles:
            with self.assertRaises(j.Trouble) as e:
                j.page(text)
            self.assertEqual((e.exception.number, e.exception.line), (number, line))
            for room in (0, 146):
                self.assertEqual(written(j._page, text, room), (number, line, 0, b"\7" * (room + 1)))
        self.assertEqual(written(j._page, SHEET, 150), (0, 0, 146, answer + b"\7" * 5))
        self.assertEqual(written(j._page, SHEET, 146), (0, 0, 146, answer + b"\7"))
        for room in (145, 0):
            self.assertEqual(written(j._page, SHEET, room), (4, 0, 0, b"\7" * (room + 1)))
        self.assertEqual(written(j._page, b"", 0), (0, 0, 0, b"\7"))
        self.assertEqual(written(j._listing, b"", 6), (4, 0, 0, b"\7" * 7))

    def test_longest_page(self):
        steps = b"".join(b"(put 1 (add (reg 1) (mul %d (le (reg 0) 0))))\n" % step for step in (4, 8, 16))
        copies = b"".join(b"(put %d (reg 1))\n" % r for r in range(j.REGISTERS))  # 16 intervals each
        text = b"(in 0 -1 1)\n(put 1 (mul 2 (le (reg 0) 0)))\n" + steps + copies
        self.assertEqual(len(j.page(text)), j.PAGE)
        self.assertEqual(written(j._page, text, j.PAGE - 1)[:3], (4, 0, 0))

    def test_words_and_version(self):
        self.assertEqual(list(j.WORDS), [*range(1, 9), 10, 20, 21, 22])
        for number, words in j.WORDS.items():
            self.assertEqual(str(j.Trouble(number, 3)), "number %d at line 3: %s" % (number, words))
            self.assertEqual(str(j.Refused(number)), "refused with %d: %s" % (number, words))
        with open(HEADER) as f:
            self.assertIn('#define JUWENFO_VERSION "%s"' % j.VERSION, f.read())


if __name__ == "__main__":
    unittest.main()
