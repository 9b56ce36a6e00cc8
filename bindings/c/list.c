/* Prints the listing of the sheet on standard input: list < SHEET. The status is 0, and 2 where there is no listing. */
#include "juwenfo.h"
#include <stdio.h>

static int fail(const char *why) {
    fprintf(stderr, "%s\n", why);
    return 2;
}

static int finish(int status) {
    return ferror(stdout) || fclose(stdout) != 0 ? fail("the answer cannot be written") : status;
}

static uint8_t text[JUWENFO_TEXT + 1]; /* one byte more than a sheet can have: a longer text is refused with 5 */
static uint8_t out[JUWENFO_LISTING];

int main(int argc, char **argv) {
    (void)argv;
    if (argc > 1)
        return fail("usage: list < SHEET");
    size_t n = fread(text, 1, sizeof text, stdin);
    if (ferror(stdin))
        return fail("the sheet cannot be read");
    juwenfo_text l = juwenfo_listing(text, n, out, sizeof out);
    fwrite(out, 1, l.count, stdout);
    return finish(0);
}
