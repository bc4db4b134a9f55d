/* Numbers of sites above 1,023, up to the greatest of the type: each is refused, and none is cut to a smaller one. It is C99, C11 and
 * C++11, so that the header is compiled in each; from C11 and C++11 on the header asserts how its structs are laid out. */
#include "cotpad.h"
#include <stdio.h>
#include <string.h>

static const uint8_t log_of_nothing[] = {'C', 'O', 'T', 'L', 'O', 'G', '1', '\n'};

static int failed;

static void must(const char *call, uint32_t number, cotpad_status is, cotpad_status wanted) {
    if (is == wanted) return;
    printf("%s of %lu: status %u, not %u\n", call, (unsigned long)number, (unsigned)is, (unsigned)wanted);
    failed = 1;
}

/* No site is made, and none is undone or redone: the site has made one insert, which is in force. */
static void refused(cotpad_site *site, uint32_t number) {
    static cotpad_verdict why, blank;
    cotpad_site none = COTPAD_SITE_EMPTY;
    must("open", number, cotpad_open(&none, number), COTPAD_SITE_OUT);
    must("load", number, cotpad_load(&none, number, log_of_nothing, sizeof log_of_nothing, &why), COTPAD_SITE_OUT);
    must("undo", number, cotpad_undo(site, number, 1), COTPAD_NO_NAME);
    must("redo", number, cotpad_redo(site, number, 1), COTPAD_NO_NAME);
    if (none.inside || memcmp(&why, &blank, sizeof why) != 0 || cotpad_operations(site) != 1) {
        printf("a call that was refused %lu did something\n", (unsigned long)number);
        failed = 1;
    }
}

int main(void) {
    static const uint32_t out[] = {1024, 65535, 65536, 65536 + 63, 16777216, 2147483648u, 4294967295u - 65535, 4294967295u};
    static cotpad_verdict why;
    cotpad_site site = COTPAD_SITE_EMPTY, last = COTPAD_SITE_EMPTY;
    if (cotpad_version() != COTPAD_VERSION) return 2;
    must("open", 0, cotpad_open(&site, 0), COTPAD_OK);
    must("insert", 0, cotpad_insert(&site, 0, 'a'), COTPAD_OK);
    for (size_t i = 0; i < sizeof out / sizeof *out; i++) refused(&site, out[i]);
    must("undo", 1023, cotpad_undo(&site, 1023, 1), COTPAD_UNKNOWN);
    must("load", 1023, cotpad_load(&last, 1023, log_of_nothing, sizeof log_of_nothing, &why), COTPAD_OK);
    if (failed) return 1;
    cotpad_close(&last);
    cotpad_close(&site);
    puts("no number of a site is cut");
    return 0;
}
