/* Calls every function of juwenfo.h at least once, so that a declaration that differs from the archive's function shows. */
#include "juwenfo.h"
#include <stdio.h>
#include <string.h>

_Static_assert(sizeof(juwenfo_maybe) == 16 && sizeof(juwenfo_answer) == 16 && sizeof(juwenfo_member) == 16 && sizeof(juwenfo_part) == 16 && sizeof(juwenfo_verdict) == 24 && sizeof(juwenfo_text) == 24, "sizes");

static int faults;

static void expect(bool ok, const char *what) {
    if (!ok) {
        faults++;
        printf("FAULT: %s\n", what);
    }
}

static void numbers(void) {
    expect(juwenfo_number_neg(INT64_MIN) == INT64_MIN && juwenfo_number_neg(5) == -5, "number_neg");
    expect(juwenfo_number_abs(-5) == 5, "number_abs");
    expect(juwenfo_number_add(INT64_MAX, 1) == INT64_MIN, "number_add");
    expect(juwenfo_number_sub(3, 5) == -2, "number_sub");
    expect(juwenfo_number_mul(2500, -2000) == -5000, "number_mul");
    juwenfo_maybe d = juwenfo_number_div(7, -2), z = juwenfo_number_div(7, 0), r = juwenfo_number_rem(-7, 4);
    expect(d.there && d.number == -3500 && !z.there && z.number == 0, "number_div");
    expect(r.there && r.number == -3 && !juwenfo_number_rem(1, 0).there, "number_rem");
    expect(juwenfo_number_next(1).number == 2 && !juwenfo_number_next(INT64_MAX).there, "number_next");
    expect(juwenfo_number_prev(1).there && !juwenfo_number_prev(INT64_MIN).there, "number_prev");
    expect(juwenfo_number_as_bool(-1) && !juwenfo_number_as_bool(0), "number_as_bool");
    expect(juwenfo_number_not(0) == 1000 && juwenfo_number_and(1, 0) == 0 && juwenfo_number_or(1, 0) == 1000, "number_not, and, or");
    expect(juwenfo_number_le(2, 3) == 1000 && juwenfo_number_lt(3, 2) == 0 && juwenfo_number_ne(2, 3) == 1000, "number_le, lt, ne");
}

static int64_t work[JUWENFO_WORK], out[8];

static void is(juwenfo_answer a, bool flag, size_t count, const int64_t *ends, const char *what) {
    expect(a.number == 0 && a.flag == flag && a.count == count && memcmp(out, ends, count * sizeof *out) == 0, what);
}

static void sets(void) {
    const int64_t l[] = {-5, 3}, r[] = {2, 2};
#define W work, JUWENFO_WORK, out, 8
#define E(...) (const int64_t[]){__VA_ARGS__}
    is(juwenfo_set_neg(l, 2, true, W), true, 2, E(-3, 5), "set_neg");
    is(juwenfo_set_abs(l, 2, false, W), false, 2, E(0, 5), "set_abs");
    is(juwenfo_set_add(l, 2, true, r, 2, W), true, 2, E(-3, 5), "set_add");
    is(juwenfo_set_sub(l, 2, false, r, 2, W), false, 2, E(-7, 1), "set_sub");
    is(juwenfo_set_mul(E(-5000, 3000), 2, false, E(2000, 2000), 2, W), false, 2, E(-10000, 6000), "set_mul");
    is(juwenfo_set_div(r, 2, false, E(0, 1), 2, W), true, 2, E(2000, 2000), "set_div");
    is(juwenfo_set_rem(E(7, 9), 2, false, E(4, 4), 2, W), false, 4, E(0, 1, 3, 3), "set_rem");
    is(juwenfo_set_not(l, 2, out, 8), false, 4, E(0, 0, 1000, 1000), "set_not");
    is(juwenfo_set_and(r, 2, r, 2, out, 8), false, 2, E(1000, 1000), "set_and");
    is(juwenfo_set_or(r, 2, l, 2, out, 8), false, 2, E(1000, 1000), "set_or");
    is(juwenfo_set_le(l, 2, r, 2, out, 8), false, 4, E(0, 0, 1000, 1000), "set_le");
    is(juwenfo_set_lt(r, 2, r, 2, out, 8), false, 2, E(0, 0), "set_lt");
    is(juwenfo_set_ne(r, 2, r, 2, out, 8), false, 2, E(0, 0), "set_ne");
    is(juwenfo_set_union(l, 2, E(4, 9), 2, out, 8), false, 2, E(-5, 9), "set_union");
    is(juwenfo_set_intersect(l, 2, E(0, 9), 2, out, 8), false, 2, E(0, 3), "set_intersect");
    expect(juwenfo_set_add(l, 1, false, r, 2, W).number == 1, "1");
    expect(juwenfo_set_neg(l, 2, false, work, 3, out, 8).number == 3, "3");
    expect(juwenfo_set_neg(l, 2, false, work, 4, out, 1).number == 4, "4");
    expect(juwenfo_set_not(NULL, 0, NULL, 0).number == 0, "an empty set");
}

/* No product, in thousandths, is past GREATEST or below its negative. */
#define GREATEST INT64_C(9223372036854775)

static void products(void) {
    expect(juwenfo_number_mul(INT64_MIN, 1) == -GREATEST && juwenfo_number_mul(INT64_MAX, 1) == GREATEST && juwenfo_number_mul(INT64_MIN, INT64_MIN) == 0, "number_mul, both ends");
    const int64_t late[] = {INT64_C(6917529027641081855), INT64_C(6917529027641082856)}, most[] = {INT64_MAX, INT64_MAX}, all[] = {INT64_MIN, INT64_MAX};
    is(juwenfo_set_mul(late, 2, false, E(4, 4), 2, W), false, 4, E(-GREATEST, INT64_C(-9223372036854771), GREATEST, GREATEST), "set_mul, split");
    is(juwenfo_set_mul(most, 2, false, E(3, 4), 2, W), false, 4, E(-GREATEST, 0, GREATEST, GREATEST), "set_mul, MAX by 3 and 4");
    is(juwenfo_set_mul(all, 2, true, all, 2, W), true, 2, E(-GREATEST, GREATEST), "set_mul, any two numbers");
    is(juwenfo_set_div(E(INT64_C(-10000000000000000), INT64_C(10000000000000000)), 2, false, E(1000, 1000), 2, W), false, 2, all, "set_div, any number");
}

static int64_t copy[34];

/* nearest gives this number and member, and leaves the set as lent. */
static void nearest(const int64_t *set, size_t n, int64_t x, uint8_t number, int64_t member, const char *what) {
    memcpy(copy, set, n * sizeof *set);
    juwenfo_member m = juwenfo_set_nearest(copy, n, x);
    expect(m.number == number && m.member == member && memcmp(copy, set, n * sizeof *set) == 0, what);
}

/* within, with `room` numbers of out, gives this number, writes these ends and no number behind them, and leaves the set as lent. */
static void within(const int64_t *set, size_t n, int64_t x, uint64_t distance, size_t room, uint8_t number, size_t count, const int64_t *ends, const char *what) {
    memcpy(copy, set, n * sizeof *set);
    for (size_t i = 0; i < 8; i++)
        out[i] = 7;
    juwenfo_answer a = juwenfo_set_within(copy, n, x, distance, out, room);
    bool kept = memcmp(copy, set, n * sizeof *set) == 0;
    for (size_t i = count; i < 8; i++)
        kept = kept && out[i] == 7;
    expect(a.number == number && !a.flag && a.count == count && memcmp(out, ends, count * sizeof *out) == 0 && kept, what);
}

static void members(void) {
    const int64_t two[] = {1, 1, 5, 5}, all[] = {INT64_MIN, INT64_MAX}, far[] = {INT64_MIN, INT64_MIN, INT64_MAX, INT64_MAX};
    int64_t many[34]; /* 17 intervals */
    for (int i = 0; i < 34; i++)
        many[i] = 3 * i;
    nearest(two, 4, 3, 0, 1, "nearest, a tie");
    nearest(two, 4, 4, 0, 5, "nearest, the upper one");
    nearest(two, 4, 5, 0, 5, "nearest, a member");
    nearest(E(-9, -2, 4, 8), 4, -5, 0, -5, "nearest, inside an interval");
    nearest(two, 4, INT64_MIN, 0, 1, "nearest, below all");
    nearest(two, 4, INT64_MAX, 0, 5, "nearest, above all");
    nearest(far, 4, 0, 0, INT64_MAX, "nearest, 2^63 - 1 above");
    nearest(far, 4, -1, 0, INT64_MIN, "nearest, 2^63 - 1 below");
    nearest(E(-INT64_MAX, -INT64_MAX, INT64_MAX, INT64_MAX), 4, 0, 0, -INT64_MAX, "nearest, the widest tie");
    nearest(far, 2, INT64_MAX, 0, INT64_MIN, "nearest, 2^64 - 1 below");
    nearest(far + 2, 2, INT64_MIN, 0, INT64_MAX, "nearest, 2^64 - 1 above");
    within(two, 4, 3, 2, 8, 0, 4, two, "within, both ends included");
    within(two, 4, 3, 1, 0, 0, 0, two, "within, no member, no out");
    within(two, 4, 5, 0, 2, 0, 2, two + 2, "within, distance 0");
    within(E(-9, -2, 4, 8), 4, 0, 6, 4, 0, 4, E(-6, -2, 4, 6), "within, cut on both sides");
    within(all, 2, 0, INT64_MAX, 2, 0, 2, E(-INT64_MAX, INT64_MAX), "within, all but MIN");
    within(all, 2, INT64_MIN, UINT64_MAX - 1, 2, 0, 2, E(INT64_MIN, INT64_MAX - 1), "within, all but MAX");
    within(all, 2, INT64_MAX, UINT64_MAX, 2, 0, 2, all, "within, the longest distance");
    within(far, 4, INT64_MAX, UINT64_MAX, 4, 0, 4, far, "within, the longest distance, of two");
    within(far, 4, INT64_MAX, UINT64_MAX - 1, 4, 0, 2, far + 2, "within, one less than the longest distance");
    const struct {
        const int64_t *set;
        size_t n;
        uint8_t number;
        const char *what;
    } refused[] = {{many, 34, 2, "2"}, {many, 33, 2, "2, of odd length"}, {E(1, 2, 3, 4), 4, 1, "1"}, {two, 3, 1, "1, of odd length"}, {two, 0, 10, "10"}};
    for (size_t i = 0; i < sizeof refused / sizeof *refused; i++) {
        nearest(refused[i].set, refused[i].n, 3, refused[i].number, 0, refused[i].what);
        within(refused[i].set, refused[i].n, 3, 2, 8, refused[i].number, 0, two, refused[i].what);
        within(refused[i].set, refused[i].n, 3, 2, 0, refused[i].number, 0, two, refused[i].what);
    }
    within(two, 4, 3, 2, 3, 4, 0, two, "4");
    within(two, 4, 3, 2, 0, 4, 0, two, "4, no out");
    expect(juwenfo_set_nearest(NULL, 0, 3).number == 10 && juwenfo_set_within(NULL, 0, 3, 2, NULL, 0).number == 10, "10, no numbers at all");
}

static int64_t bands[JUWENFO_SETS];

/* A product of any two numbers can be held between both ends, and no closer. */
static void held_product(void) {
    static const uint8_t held[] = "(put 2 (mul (reg 0) (reg 1)))\n(hold 2 -9223372036854.775 9223372036854.775)\n",
                         shorter[] = "(put 2 (mul (reg 0) (reg 1)))\n(hold 2 -9223372036854.775 9223372036854.774)\n";
    juwenfo_verdict v = juwenfo_check(held, sizeof held - 1, bands, JUWENFO_SETS, work, JUWENFO_WORK);
    const int64_t *two = bands + 2 * JUWENFO_SLOT;
    expect(v.number == 0 && v.count == 2 && two[0] == 1 && two[1] == -GREATEST && two[2] == GREATEST, "check, a product held");
    v = juwenfo_check(shorter, sizeof shorter - 1, bands, JUWENFO_SETS, work, JUWENFO_WORK);
    expect(v.number == 21 && v.line == 2, "check, a product held too closely");
}

static void sheets(void) {
    const uint8_t text[] = "(in 0 -1 2)\n(put 1 (mul (reg 0) 2.5))\n(hold 1 -3 5)\n";
    size_t n = sizeof text - 1;
    juwenfo_part p = juwenfo_line(text, n, 2);
    expect(p.start == 12 && p.length == 25 && juwenfo_line(text, n, 9).length == 0, "line");
    juwenfo_verdict v = juwenfo_judge(text, n - 1);
    expect(v.number == 5 && v.line == 0 && v.count == 0, "judge");
    v = juwenfo_check(text, n, bands, JUWENFO_SETS, work, JUWENFO_WORK);
    expect(v.number == 0 && v.count == 3 && bands[33] == 1 && bands[34] == -2500 && bands[35] == 5000, "check");
    int64_t lent[JUWENFO_LENT] = {1500};
    v = juwenfo_run(text, n, lent, JUWENFO_LENT);
    expect(v.number == 0 && v.count == 3 && lent[1] == 3750, "run");
    lent[0] = 9000;
    v = juwenfo_run(text, n, lent, JUWENFO_LENT);
    expect(v.number == 22 && v.line == 1 && lent[0] == 9000 && lent[1] == 3750, "run, stopped");
}

/* A register that no line has written holds what was left there. */
static void dirty(void) {
    static const uint8_t held[] = "(hold 0 0 0)\n", text[] = "(in 0 0 9)\n(in 1 0 1)\n(put 2 (add (reg 0) (reg 3)))\n(hold 4 0 0)\n";
    juwenfo_verdict v = juwenfo_check(held, sizeof held - 1, bands, JUWENFO_SETS, work, JUWENFO_WORK);
    expect(v.number == 21 && v.line == 1, "check, a hold of what was left");
    v = juwenfo_check(NULL, 0, bands, JUWENFO_SETS, work, JUWENFO_WORK);
    const int64_t *last = bands + 15 * JUWENFO_SLOT;
    expect(v.number == 0 && last[0] == 1 && last[1] == INT64_MIN && last[2] == INT64_MAX && last[3] == 0, "check, no lines");
    int64_t lent[JUWENFO_LENT + 1];
    for (int i = 0; i <= JUWENFO_LENT; i++)
        lent[i] = 100 * i;
    lent[4] = 0;
    v = juwenfo_run(text, sizeof text - 1, lent, JUWENFO_LENT + 1);
    expect(v.number == 0 && lent[0] == 0 && lent[1] == 100 && lent[2] == 300 && lent[3] == 300 && lent[15] == 1500 && lent[16] == 1600, "run, numbers left");
    lent[3] = INT64_MAX;
    lent[4] = INT64_MIN;
    v = juwenfo_run(text, sizeof text - 1, lent, JUWENFO_LENT);
    expect(v.number == 21 && v.line == 4 && lent[2] == INT64_MAX && lent[3] == INT64_MAX && lent[4] == INT64_MIN && lent[15] == 1500, "run, stopped at a hold of what was left");
    lent[1] = 1001;
    lent[2] = -7;
    v = juwenfo_run(text, sizeof text - 1, lent, JUWENFO_LENT);
    expect(v.number == 22 && v.line == 2 && lent[0] == 0 && lent[1] == 1001 && lent[2] == -7 && lent[4] == INT64_MIN, "run, stopped, as lent");
    expect(juwenfo_run(NULL, 0, lent, JUWENFO_LENT).number == 0 && lent[1] == 1001 && lent[4] == INT64_MIN, "run, no lines");
}

static uint8_t lines[JUWENFO_PAGE + 1];

/* The call on `text` with `room` bytes of out answers with this number and line, writes `answer`, and no byte behind it. */
static void writes(juwenfo_text call(const uint8_t *, size_t, uint8_t *, size_t), const char *text, size_t room, uint8_t number, size_t line, const char *answer, const char *what) {
    memset(lines, 7, sizeof lines);
    juwenfo_text t = call((const uint8_t *)text, strlen(text), lines, room);
    size_t n = strlen(answer), end = n;
    while (end < sizeof lines && lines[end] == 7)
        end++;
    expect(t.number == number && t.line == line && t.count == n && memcmp(lines, answer, n) == 0 && end == sizeof lines, what);
}

static const char *const scope = "(in 0 -1 2)\n(put 1 (mul (reg 0) 2.5))\n(hold 1 -3 5)\n";

static void listings(void) {
    const char *answer = "pass 3\nr0 -1000..2000\nr1 -2500..5000\n";
    size_t n = strlen(answer);
    writes(juwenfo_listing, scope, JUWENFO_LISTING, 0, 0, answer, "listing");
    writes(juwenfo_listing, scope, n, 0, 0, answer, "listing, of the length of out");
    writes(juwenfo_listing, scope, n - 1, 4, 0, "", "listing, longer than out");
    writes(juwenfo_listing, "x\n", JUWENFO_LISTING, 0, 0, "refused 6 1\n", "listing of a refusal");
    writes(juwenfo_listing, "x\n", 0, 4, 0, "", "listing of a refusal, longer than out");
}

/* Seventeen single numbers on line 5: the lowest of the gaps, which are all equal, is closed. */
static const char *const crowded = "(in 0 0 9)\n(put 1 (lt (reg 0) 5))\n(put 2 (add (reg 1) (mul 2 (reg 1))))\n(put 3 (add (reg 2) (mul 4 (reg 2))))\n(put 4 (add (reg 3) (reg 1)))\n";

static void closed(void) {
    static int64_t sets[JUWENFO_SETS], room[JUWENFO_WORK];
    juwenfo_verdict v = juwenfo_check((const uint8_t *)crowded, strlen(crowded), sets, JUWENFO_SETS, room, JUWENFO_WORK);
    const int64_t *four = sets + 4 * JUWENFO_SLOT;
    expect(v.number == 0 && v.count == 5 && four[0] == 16 && four[1] == 0 && four[2] == 1000 && four[3] == 2000 && four[4] == 2000 && four[32] == 16000, "check, a gap closed");
}

/* Sixteen registers with 16 intervals each. */
#define COPY(r) "(put " #r " (reg 1))\n"
static const char *const most = "(in 0 -1 1)\n(put 1 (mul 2 (le (reg 0) 0)))\n(put 1 (add (reg 1) (mul 4 (le (reg 0) 0))))\n"
                                "(put 1 (add (reg 1) (mul 8 (le (reg 0) 0))))\n(put 1 (add (reg 1) (mul 16 (le (reg 0) 0))))\n" COPY(0) COPY(2) COPY(3) COPY(4) COPY(5)
                                    COPY(6) COPY(7) COPY(8) COPY(9) COPY(10) COPY(11) COPY(12) COPY(13) COPY(14) COPY(15);

static void pages(void) {
    const char *answer = "r0                 -1000..                2000                 3001     \n"
                         "r1                 -2500..                5000                 7501     \n";
    size_t n = strlen(answer);
    writes(juwenfo_page, scope, JUWENFO_PAGE, 0, 0, answer, "page");
    writes(juwenfo_page, scope, n, 0, 0, answer, "page, of the length of out");
    writes(juwenfo_page, scope, n - 1, 4, 0, "", "page, longer than out");
    writes(juwenfo_page, scope, 0, 4, 0, "", "page, no out");
    writes(juwenfo_page, "(in 15 -9223372036854775.808 9223372036854775.807)\n", JUWENFO_PAGE, 0, 0,
           "r15 -9223372036854775808.. 9223372036854775807 18446744073709551616     \n", "page of the whole range");
    writes(juwenfo_page, "", JUWENFO_PAGE, 0, 0, "", "page of an empty sheet");
    writes(juwenfo_page, "(hold 0 -9223372036854775.808 9223372036854775.807)\n", 0, 0, 0, "", "page without lines, no out");
    writes(juwenfo_page, "(put 5 (reg 6))\n", JUWENFO_PAGE, 0, 0, "r5  -9223372036854775808.. 9223372036854775807 18446744073709551616     \n", "page of what was left");
    expect(juwenfo_page(NULL, 0, NULL, 0).number == 0, "page, no bytes at all");
    writes(juwenfo_page, "(put 0 1)\n(hold 0 2 3)\n", 0, 21, 2, "", "page of a finding, no out");
    writes(juwenfo_page, "(put 0 (div 1 0))\n", JUWENFO_PAGE, 20, 1, "", "page of a finding");
    writes(juwenfo_page, "(put 0 1)\nx\n", 0, 6, 2, "", "page of a refusal, no out");
    writes(juwenfo_page, "x", JUWENFO_PAGE, 5, 0, "", "page of a refusal");
    juwenfo_text t = juwenfo_page((const uint8_t *)most, strlen(most), lines, JUWENFO_PAGE);
    expect(t.number == 0 && t.count == JUWENFO_PAGE, "the longest page");
    writes(juwenfo_page, most, JUWENFO_PAGE - 1, 4, 0, "", "the longest page, longer than out");
}

int main(void) {
    numbers();
    sets();
    products();
    members();
    sheets();
    held_product();
    dirty();
    closed();
    listings();
    pages();
    printf("%d faults\n", faults);
    return faults != 0;
}
