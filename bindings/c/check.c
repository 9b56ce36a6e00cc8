/* Checks the sheet on standard input and prints the set of each register: check < SHEET. The status is 0 after a pass, 1 after a refusal or a finding,
 * and 2 where there is no answer. */
#include "juwenfo.h"
#include <inttypes.h>
#include <stdio.h>

static int fail(const char *why) {
    fprintf(stderr, "%s\n", why);
    return 2;
}

static int finish(int status) {
    return ferror(stdout) || fclose(stdout) != 0 ? fail("the answer cannot be written") : status;
}

static uint8_t text[JUWENFO_TEXT + 1]; /* one byte more than a sheet can have: a longer text is refused with 5 */
static int64_t sets[JUWENFO_SETS];
static int64_t work[JUWENFO_WORK];

int main(int argc, char **argv) {
    (void)argv;
    if (argc > 1)
        return fail("usage: check < SHEET");
    size_t n = fread(text, 1, sizeof text, stdin);
    if (ferror(stdin))
        return fail("the sheet cannot be read");
    juwenfo_verdict v = juwenfo_check(text, n, sets, JUWENFO_SETS, work, JUWENFO_WORK);
    if (v.number != 0) {
        juwenfo_part p = juwenfo_line(text, n, v.line);
        printf("number %d at line %zu: ", v.number, v.line);
        fwrite(text + p.start, 1, p.length, stdout); /* a refused line may hold a byte 0 */
        printf("\n");
        return finish(1);
    }
    for (int r = 0; r < JUWENFO_LENT; r++) {
        const int64_t *slot = sets + JUWENFO_SLOT * r;
        printf("r%d", r);
        for (int64_t i = 0; i < slot[0]; i++)
            printf(" %" PRId64 "..%" PRId64, slot[1 + 2 * i], slot[2 + 2 * i]);
        printf("\n");
    }
    return finish(0);
}
