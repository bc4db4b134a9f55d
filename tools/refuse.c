/* Preloaded by tools/refuse-allocations. The allocation whose number COTPAD_REFUSE gives is refused, or each one from that
 * number on where COTPAD_ON is set; at the end the number of allocations is written to file descriptor 3. */
#include <stddef.h>
#include <stdio.h>
#include <stdlib.h>
#include <unistd.h>

void *__libc_malloc(size_t count);
void *__libc_realloc(void *old, size_t count);

static long allocations, refused;
static int on;

__attribute__((constructor)) static void begin(void) {
    const char *number = getenv("COTPAD_REFUSE");
    refused = number ? atol(number) : 0;
    on = getenv("COTPAD_ON") != NULL;
    allocations = 0;
}

static int refuse(void) {
    ++allocations;
    return refused > 0 && (on ? allocations >= refused : allocations == refused);
}

void *malloc(size_t count) {
    return refuse() ? NULL : __libc_malloc(count);
}

void *realloc(void *old, size_t count) {
    return refuse() ? NULL : __libc_realloc(old, count);
}

__attribute__((destructor)) static void end(void) {
    char told[32];
    int count = snprintf(told, sizeof told, "%ld", allocations);
    if (write(3, told, (size_t)count) < 0) return;
}
