/* Runs the sheet on standard input on the numbers lent to registers 0, 1 .. (0 where none is), and prints the registers in thousandths: those after
 * the last line, or those before the line at which the run stops: run NUMBER.. < SHEET. A number is written as in a sheet. The status is 0 after the
 * last line, 1 after a refusal or a finding, and 2 where there is no answer. */
#include "juwenfo.h"
#include <inttypes.h>
#include <stdio.h>

static int fail(const char *why) {
    fprintf(stderr, "%s\n", why);
    return 2;
}

static int finish(int status) {
    return ferror(stdout) || fclose(stdout) != 0 ? fail("the answer cannot be written") : status;
}

static uint8_t text[JUWENFO_TEXT + 1]; /* one byte more than a sheet can have: a longer text is refused with 5 */
static int64_t lent[JUWENFO_LENT];

/* Why `word` is no number, or NULL: the check of the line `(in 0 WORD WORD)` gives register 0 the set of WORD alone just where WORD is a literal. */
static const char *thousandths(const char *word, int64_t *number) {
    static int64_t sets[JUWENFO_SETS], work[JUWENFO_WORK];
    static char line[JUWENFO_TEXT + 1]; /* the longest text and a byte 0: a longer one is refused with 5 */
    juwenfo_verdict v = {.number = 5};
    int n = snprintf(line, sizeof line, "(in 0 %s %s)\n", word, word);
    if (n > 0 && n < (int)sizeof line)
        v = juwenfo_check((const uint8_t *)line, (size_t)n, sets, JUWENFO_SETS, work, JUWENFO_WORK);
    if (v.number == 0 && v.count == 1) {
        *number = sets[1];
        return NULL;
    }
    return v.number == 7 ? "is beyond the range" : "is not a number as in sheets";
}

int main(int argc, char **argv) {
    for (int i = 1; i < argc; i++) {
        const char *why = i > JUWENFO_LENT ? "is one number too many" : thousandths(argv[i], &lent[i - 1]);
        if (why != NULL) {
            fprintf(stderr, "'%s' ", argv[i]);
            return fail(why);
        }
    }
    size_t n = fread(text, 1, sizeof text, stdin);
    if (ferror(stdin))
        return fail("the sheet cannot be read");
    juwenfo_verdict v = juwenfo_run(text, n, lent, JUWENFO_LENT);
    if (v.number != 0) {
        juwenfo_part p = juwenfo_line(text, n, v.line);
        printf("number %d at line %zu: ", v.number, v.line);
        fwrite(text + p.start, 1, p.length, stdout); /* a refused line may hold a byte 0 */
        printf("\n");
    }
    for (int r = 0; r < JUWENFO_LENT && (v.number == 0 || v.number >= 20); r++)
        printf("r%d %" PRId64 "\n", r, lent[r]);
    return finish(v.number != 0);
}
