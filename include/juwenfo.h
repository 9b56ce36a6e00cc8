/* Juwenfo for C: the functions of libexports.a, which `rt lib` makes in crates/exports, the Rattle side.
 *
 * Numbers are counts of thousandths, from MIN (INT64_MIN) to MAX (INT64_MAX). A slice is a pointer and the length that follows it; a length counts
 * elements. A set of numbers is the ends of its intervals in a slice, start and end in turn, in order; it is normal if every start is at most its end
 * and at least one number is missing between neighbours. The empty set has length 0. docs/SHEETS.md teaches sheets: forms, registers, `in`, `hold`, LO
 * and HI.
 *
 * A flag stands beside the set that a set call answers. div and rem set it where the left set has a member and the right set holds 0; they, neg, abs, add,
 * sub and mul keep it set where it is lent set with the left set. No call asks for the right set's flag, and not, and, or, le, lt, ne, union, intersect
 * and within answer false. So one flag does not speak for the calls before it: who chains calls keeps the OR of the flags of all answers on the way.
 *
 * Every call is total: it has no precondition on the numbers, bytes and lengths that it is given, and refuses by number instead.
 * What the caller sees to, for every call: each pointer is good for the length that follows it (NULL only with length 0), and what is behind a
 * pointer without const overlaps nothing else that is lent to the same call and is used by nobody else until it returns. docs/CALLERS.md says more.
 *
 * Numbers of refusals (1 to 8 and 10) and findings (20 to 22); 9 is no longer given, as the check closes gaps instead:
 *    1  a set of odd length, or not normal                         6  a line outside the grammar, or LO past HI
 *    2  a set of more than 32 numbers                              7  a literal beyond MIN..MAX
 *    3  a lent slice shorter than its call needs                   8  an `in` after another kind, or a second one for a register
 *    4  an answer or a text longer than out                       10  an empty set (nearest, within)
 *    5  over 256 lines, a line over 120 bytes, last LF missing
 *   20  a divisor may be 0 (check), or is 0 (run)     21  a hold is broken     22  a lent number outside its `in` (run)
 */
#ifndef JUWENFO_H
#define JUWENFO_H
#include <stdbool.h>
#include <stddef.h>
#include <stdint.h>

#define JUWENFO_VERSION "0.7.0" /* the one place of it: the callers in Rust and Python take it from here */

/* An answer that is dropped may be a refusal: compilers that know how warn of it. */
#if (defined __cplusplus && __cplusplus >= 201703L) || (defined __STDC_VERSION__ && __STDC_VERSION__ >= 202311L)
#define JUWENFO_ANSWERS [[nodiscard]]
#elif defined __GNUC__
#define JUWENFO_ANSWERS __attribute__((warn_unused_result))
#else
#define JUWENFO_ANSWERS
#endif

#ifdef __cplusplus
extern "C" {
#endif

#define JUWENFO_ONE 1000    /* the number 1, in thousandths */
#define JUWENFO_SETS 528    /* numbers that the check needs for its sets: for each of the 16 registers its count of intervals, then 32 for their ends */
#define JUWENFO_SLOT 33     /* the numbers of one register: register R's begin at JUWENFO_SLOT * R */
#define JUWENFO_WORK 8192   /* numbers of work that the check needs; the most that any set call needs */
#define JUWENFO_LENT 16     /* numbers that the run needs, one a register */
#define JUWENFO_TEXT 30976  /* bytes of the longest text that is not refused with 5 */
#define JUWENFO_LISTING 11081 /* bytes that hold any listing: an out of so many is never too short */
#define JUWENFO_PAGE 18688  /* bytes that hold any page: 73 for each of 16 intervals in each of 16 registers */

/* ---- point operations */

/* A number, or none: then `there` is false and `number` 0. */
typedef struct {
    int64_t number;
    bool there;
} juwenfo_maybe;

JUWENFO_ANSWERS int64_t juwenfo_number_neg(int64_t x);                   /* wraps: that of MIN is MIN */
JUWENFO_ANSWERS int64_t juwenfo_number_abs(int64_t x);                   /* wraps: that of MIN is MIN */
JUWENFO_ANSWERS int64_t juwenfo_number_add(int64_t x, int64_t y);        /* wraps */
JUWENFO_ANSWERS int64_t juwenfo_number_sub(int64_t x, int64_t y);        /* wraps */
JUWENFO_ANSWERS int64_t juwenfo_number_mul(int64_t x, int64_t y);        /* wraps the product, then divides by 1000: from -9223372036854775 to 9223372036854775 */
JUWENFO_ANSWERS juwenfo_maybe juwenfo_number_div(int64_t x, int64_t y);  /* wraps 1000 times x, then divides, wrapping; none if y is 0 */
JUWENFO_ANSWERS juwenfo_maybe juwenfo_number_rem(int64_t x, int64_t y);  /* with the sign of x; none if y is 0 */
JUWENFO_ANSWERS juwenfo_maybe juwenfo_number_next(int64_t x);            /* none after MAX */
JUWENFO_ANSWERS juwenfo_maybe juwenfo_number_prev(int64_t x);            /* none before MIN */
JUWENFO_ANSWERS bool juwenfo_number_as_bool(int64_t x);                  /* x is not 0 */
JUWENFO_ANSWERS int64_t juwenfo_number_not(int64_t x);                   /* from here on: 1000 if it is so, else 0 */
JUWENFO_ANSWERS int64_t juwenfo_number_and(int64_t x, int64_t y);
JUWENFO_ANSWERS int64_t juwenfo_number_or(int64_t x, int64_t y);
JUWENFO_ANSWERS int64_t juwenfo_number_le(int64_t x, int64_t y);
JUWENFO_ANSWERS int64_t juwenfo_number_lt(int64_t x, int64_t y);
JUWENFO_ANSWERS int64_t juwenfo_number_ne(int64_t x, int64_t y);

/* ---- set operations
 *
 * Judged in this order: left 2, left 1, right 2, right 1, 3 (work is too short), 4 (out is too short).
 * After 1, 2 and 3 every slice is as lent. After 4 out is as lent. After success the first `count` numbers of out hold the answer, and the rest is
 * as lent. After success and after 4 the first NEED numbers of work are 0, and the rest is as lent. left and right are never written.
 * NEED is 2 * K * n * m for n and m intervals of left and right, with m = 1 where there is no right set; K stands at each call.
 * Never too short is an out of NEED numbers for neg, abs, add, sub, mul, div and rem, of 4 for not, and, or, le, lt and ne, and of left_len + right_len
 * for union and intersect.
 */

/* number 0: `count` numbers were written to out, and the answer's flag. Else the refusal's number, count 0 and flag false. */
typedef struct {
    size_t count;
    uint8_t number;
    bool flag;
} juwenfo_answer;

/* K = 2. The flag of the answer is the left set's. neg and abs hold just the results of the members. */
JUWENFO_ANSWERS juwenfo_answer juwenfo_set_neg(const int64_t *left, size_t left_len, bool flag, int64_t *work, size_t work_len, int64_t *out, size_t out_len);
JUWENFO_ANSWERS juwenfo_answer juwenfo_set_abs(const int64_t *left, size_t left_len, bool flag, int64_t *work, size_t work_len, int64_t *out, size_t out_len);

/* K = 2. The flag of the answer is the left set's. add and sub hold just the results of the members; mul holds at least these, and nothing below
 * -9223372036854775 or past 9223372036854775, as no product of two numbers is. */
JUWENFO_ANSWERS juwenfo_answer juwenfo_set_add(const int64_t *left, size_t left_len, bool flag, const int64_t *right, size_t right_len, int64_t *work, size_t work_len, int64_t *out, size_t out_len);
JUWENFO_ANSWERS juwenfo_answer juwenfo_set_sub(const int64_t *left, size_t left_len, bool flag, const int64_t *right, size_t right_len, int64_t *work, size_t work_len, int64_t *out, size_t out_len);
JUWENFO_ANSWERS juwenfo_answer juwenfo_set_mul(const int64_t *left, size_t left_len, bool flag, const int64_t *right, size_t right_len, int64_t *work, size_t work_len, int64_t *out, size_t out_len);

/* K = 12 for div, 16 for rem. The flag of the answer is set too where a left set with members meets a right set that holds 0. */
JUWENFO_ANSWERS juwenfo_answer juwenfo_set_div(const int64_t *left, size_t left_len, bool flag, const int64_t *right, size_t right_len, int64_t *work, size_t work_len, int64_t *out, size_t out_len);
JUWENFO_ANSWERS juwenfo_answer juwenfo_set_rem(const int64_t *left, size_t left_len, bool flag, const int64_t *right, size_t right_len, int64_t *work, size_t work_len, int64_t *out, size_t out_len);

/* No work is needed, so never 3; the flag of the answer is false. not, and, or, le, lt and ne give a set of 0 and 1000: at most 4 numbers.
 * Of an empty set not, le and lt give the empty set, and ne gives 1000. and with an empty set gives 0 if the other set holds 0, else the empty set; or gives 1000
 * if the other set holds a number that is not 0, else the empty set. */
JUWENFO_ANSWERS juwenfo_answer juwenfo_set_not(const int64_t *left, size_t left_len, int64_t *out, size_t out_len);
JUWENFO_ANSWERS juwenfo_answer juwenfo_set_and(const int64_t *left, size_t left_len, const int64_t *right, size_t right_len, int64_t *out, size_t out_len);
JUWENFO_ANSWERS juwenfo_answer juwenfo_set_or(const int64_t *left, size_t left_len, const int64_t *right, size_t right_len, int64_t *out, size_t out_len);
JUWENFO_ANSWERS juwenfo_answer juwenfo_set_le(const int64_t *left, size_t left_len, const int64_t *right, size_t right_len, int64_t *out, size_t out_len);
JUWENFO_ANSWERS juwenfo_answer juwenfo_set_lt(const int64_t *left, size_t left_len, const int64_t *right, size_t right_len, int64_t *out, size_t out_len);
JUWENFO_ANSWERS juwenfo_answer juwenfo_set_ne(const int64_t *left, size_t left_len, const int64_t *right, size_t right_len, int64_t *out, size_t out_len);
JUWENFO_ANSWERS juwenfo_answer juwenfo_set_union(const int64_t *left, size_t left_len, const int64_t *right, size_t right_len, int64_t *out, size_t out_len);     /* just the members of either set */
JUWENFO_ANSWERS juwenfo_answer juwenfo_set_intersect(const int64_t *left, size_t left_len, const int64_t *right, size_t right_len, int64_t *out, size_t out_len); /* just the members of both sets */

/* ---- the members of a set around a number
 *
 * Distances are exact, from 0 to 2^64 - 1: none wraps. Judged in this order: 2, 1, 10 (the set is empty), and for within then 4 (out is too short).
 * After a refusal every slice is as lent. After success the first `count` numbers of within's out hold the answer, and the rest is as lent.
 * The set is never written. No flag is asked for, and no work is needed, so never 3.
 */

/* number 0: the member. Else the refusal's number, and member 0. */
typedef struct {
    int64_t member;
    uint8_t number;
} juwenfo_member;

/* The member closest to x; of two at the same distance the lower one. */
JUWENFO_ANSWERS juwenfo_member juwenfo_set_nearest(const int64_t *set, size_t set_len, int64_t x);

/* Just the members at most `distance` away from x; there may be none: count 0. The flag of the answer is false. An out of set_len numbers is never too short. */
JUWENFO_ANSWERS juwenfo_answer juwenfo_set_within(const int64_t *set, size_t set_len, int64_t x, uint64_t distance, int64_t *out, size_t out_len);

/* ---- sheets */

/* Where a line stands in its text. */
typedef struct {
    size_t start;
    size_t length;
} juwenfo_part;

/* Line `n` of any bytes, counted from 1, without its LF (byte 10). Line 0, and a line that no LF ends, are empty: start 0, length 0. Refuses nothing. */
JUWENFO_ANSWERS juwenfo_part juwenfo_line(const uint8_t *text, size_t text_len, size_t n);

/* number 0: fine, `count` lines, line 0. Else the number of the refusal or finding, its line (0 for 3 and 5), and count 0. */
typedef struct {
    size_t line;
    size_t count;
    uint8_t number;
} juwenfo_verdict;

/* Reads a sheet without working it: 5 over the whole text, then line by line 6, 7, LO past HI (6), 8. */
JUWENFO_ANSWERS juwenfo_verdict juwenfo_judge(const uint8_t *text, size_t text_len);

/* Checks a sheet: 3 (sets shorter than JUWENFO_SETS or work than JUWENFO_WORK), the refusals of juwenfo_judge, then the lines in order: 20, 21.
 * A register that no line has written may hold any number: its set is that from MIN to MAX.
 * Where a form's set has over 16 intervals, gaps are closed until 16 remain: first the gap with the fewest missing numbers, the lowest of equals.
 * number 0 is a pass: the first JUWENFO_SETS numbers of sets hold the set of each register after the last line, unused ones 0.
 * Otherwise sets is as lent. After a pass, 20 and 21 the first JUWENFO_WORK numbers of work are 0; after 3 and 5 to 8 work is as lent. */
JUWENFO_ANSWERS juwenfo_verdict juwenfo_check(const uint8_t *text, size_t text_len, int64_t *sets, size_t sets_len, int64_t *work, size_t work_len);

/* Runs a sheet on lent numbers: 3 (fewer than JUWENFO_LENT), the refusals of juwenfo_judge, then the lines in order: 20, 21, 22. The first JUWENFO_LENT numbers are
 * what the registers hold before the first line; an `in` line is 22 where its register's number is outside. Any number may stand in a register without an `in` line.
 * number 0: done, and the first JUWENFO_LENT numbers are the registers after the last line. After 20, 21 or 22 they are the registers before that
 * line, where those that no line has put are as lent; after 22 all are. After a refusal all are as lent. */
JUWENFO_ANSWERS juwenfo_verdict juwenfo_run(const uint8_t *text, size_t text_len, int64_t *lent, size_t lent_len);

/* ---- parts that write text
 *
 * 4 (out is too short) is judged last. After success the first `count` bytes of out are the text, and the rest is as lent; otherwise all of out is as lent.
 * Each line of a text ends with LF, and no byte 0 follows.
 */

/* number 0: `count` bytes were written to out, line 0. Else the number of the refusal or finding, its line (0 for 4 and 5), and count 0. */
typedef struct {
    size_t count;
    size_t line;
    uint8_t number;
} juwenfo_text;

/* The listing of any text, what the program prints for it: "pass N" and the sets of the registers with an `in` or a `put`, or "refused K L" or
 * "stop K L". Refuses nothing but 4. */
JUWENFO_ANSWERS juwenfo_text juwenfo_listing(const uint8_t *text, size_t text_len, uint8_t *out, size_t out_len);

/* The page of a sheet that passes: a line of 72 characters for each interval of the registers with an `in` or a `put`, registers ascending, then starts.
 * Columns 1 to 3 hold the register's name, left-set; 5 to 24 the start, right-set; 25 and 26 two points; 27 to 46 the end, right-set; 48 to 67 how many members
 * the interval has, right-set; the others are blank. Starts and ends are in thousandths. The page may be empty: count 0.
 * A sheet that does not pass has the number and line that juwenfo_check gives it where its slices are long enough: 5 to 8, 20, 21. Never 3. */
JUWENFO_ANSWERS juwenfo_text juwenfo_page(const uint8_t *text, size_t text_len, uint8_t *out, size_t out_len);

#ifdef __cplusplus
}
#endif
#endif
