/* Prints the page of the sheet on standard input: page < SHEET. A sheet that does not pass gets the line of its listing. The status is 0 after a page, 1 after a
 * refusal or a finding, and 2 where there is no answer. */
#include "juwenfo.h"
#include <stdio.h>

static int fail(const char *why) {
    fprintf(stderr, "%s\n", why);
    return 2;
}

static int finish(int status) {
    return ferror(stdout) || fclose(stdout) != 0 ? fail("the answer cannot be written") : status;
}

static uint8_t text[JUWENFO_TEXT + 1]; /* one byte more than a sheet can have: a longer text is refused with 5 */
static uint8_t out[JUWENFO_PAGE];

int main(int argc, char **argv) {
    (void)argv;
    if (argc > 1)
        return fail("usage: page < SHEET");
    size_t n = fread(text, 1, sizeof text, stdin);
    if (ferror(stdin))
        return fail("the sheet cannot be read");
    juwenfo_text p = juwenfo_page(text, n, out, sizeof out);
    if (p.number != 0)
        printf("%s %d %zu\n", p.number < 20 ? "refused" : "stop", p.number, p.line);
    fwrite(out, 1, p.count, stdout);
    return finish(p.number != 0);
}
