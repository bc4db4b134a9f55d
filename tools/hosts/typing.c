/* How long typing takes through the library: so many inserts with their frames taken out, and as many frames received at a
 * second site. With a second word the characters go to the front. */
#define _POSIX_C_SOURCE 199309L
#include "cotpad.h"
#include <stdio.h>
#include <stdlib.h>
#include <string.h>
#include <time.h>

enum { ROOM = 64 }; /* more than a frame without undone names takes, of two sites */

static double now(void) {
    struct timespec t;
    clock_gettime(CLOCK_MONOTONIC, &t);
    return (double)t.tv_sec + (double)t.tv_nsec * 1e-9;
}

static void must(cotpad_status status) {
    if (status == COTPAD_OK) return;
    fprintf(stderr, "status %u\n", status);
    exit(1);
}

int main(int count, char **words) {
    uint32_t inserts = count > 1 ? (uint32_t)atoi(words[1]) : 100000;
    int front = count > 2;
    cotpad_site first = COTPAD_SITE_EMPTY, second = COTPAD_SITE_EMPTY;
    must(cotpad_open(&first, 0));
    must(cotpad_open(&second, 1));
    uint8_t *frames = malloc((size_t)inserts * ROOM + 1);
    size_t *lengths = malloc(sizeof *lengths * (inserts + 1));
    if (frames == NULL || lengths == NULL) return 1;
    double start = now();
    for (uint32_t i = 0; i < inserts; i++) {
        must(cotpad_insert(&first, front ? 0 : i, 'a' + i % 26));
        must(cotpad_frame(&first, i, frames + (size_t)i * ROOM, ROOM, &lengths[i]));
    }
    double typed = now();
    for (uint32_t i = 0; i < inserts; i++) {
        cotpad_verdict verdict = {0};
        must(cotpad_receive(&second, frames + (size_t)i * ROOM, lengths[i], &verdict));
        if (verdict.kind != COTPAD_VERDICT_INTEGRATED) return 1;
    }
    double received = now();
    size_t one = 0, other = 0;
    uint8_t *text = malloc(inserts + 1), *copy = malloc(inserts + 1);
    if (text == NULL || copy == NULL) return 1;
    must(cotpad_text(&first, text, inserts + 1, &one));
    must(cotpad_text(&second, copy, inserts + 1, &other));
    if (one != inserts || one != other || memcmp(text, copy, one) != 0) return 1;
    printf("%u inserts with their frames %.3f s, received %.3f s, two texts %.4f s\n", inserts, typed - start, received - typed,
        now() - received);
    cotpad_close(&first);
    cotpad_close(&second);
    free(frames);
    free(lengths);
    free(text);
    free(copy);
    return 0;
}
