/* A host that stores its site before it sends: Ann's, whose log stands in a file that has her number in its name. */
#define _POSIX_C_SOURCE 200809L
#include "cotpad.h"
#include <errno.h>
#include <fcntl.h>
#include <stdio.h>
#include <stdlib.h>
#include <string.h>
#include <unistd.h>

static int write_all(int file, const uint8_t *bytes, size_t count) {
    while (count > 0) {
        ssize_t written = write(file, bytes, count);
        if (written < 0 && errno == EINTR) continue;
        if (written <= 0) return -1;
        bytes += written;
        count -= (size_t)written;
    }
    return 0;
}

/* Puts bytes into a file of an open folder, so that the file has its old bytes or the new ones, whenever the machine stops. Where it
 * answers -1, nothing may be sent. */
static int put_into(int folder, const char *name, const uint8_t *bytes, size_t count) {
    char beside[64];
    if ((size_t)snprintf(beside, sizeof beside, "%s.new", name) >= sizeof beside) return -1;
    int file = openat(folder, beside, O_WRONLY | O_CREAT | O_TRUNC, 0600);
    if (file < 0) return -1;
    int failed = write_all(file, bytes, count) != 0 || fsync(file) != 0;
    failed |= close(file) != 0;
    if (failed) {
        unlinkat(folder, beside, 0);
        return -1;
    }
    return renameat(folder, beside, folder, name) != 0 || fsync(folder) != 0 ? -1 : 0;
}

/* Stores the log of a site. Where it answers -1, nothing of what was done since the last time may be sent. */
static int save_to(cotpad_site *site, int folder, const char *name) {
    uint8_t none[1];
    size_t count = 0;
    if (cotpad_save(site, none, 0, &count) != COTPAD_TOO_SHORT) return -1; /* a log has at least eight bytes */
    uint8_t *log = malloc(count);
    if (log == NULL) return -1;
    int answer = cotpad_save(site, log, count, &count) == COTPAD_OK ? put_into(folder, name, log, count) : -1;
    free(log);
    return answer;
}

/* ---- Ann, and Bob, to whom she sends */

enum { NUMBER = 0 };
#define LOG "site-0.log"

static cotpad_site ann = COTPAD_SITE_EMPTY, bob = COTPAD_SITE_EMPTY;
static uint32_t sent; /* so many operations of Ann's site */

static void must(int done, const char *what) {
    if (done) return;
    fprintf(stderr, "%s failed\n", what);
    exit(1);
}

/* Stores what Ann did, and only then sends it. */
static void save_and_send(int folder) {
    static uint8_t frame[COTPAD_FRAME_MAX];
    cotpad_verdict verdict = {0};
    size_t count = 0;
    if (save_to(&ann, folder, LOG) != 0) {
        printf("not stored, so not sent\n");
        return;
    }
    for (; sent < cotpad_operations(&ann); sent++) {
        must(cotpad_frame(&ann, sent, frame, sizeof frame, &count) == COTPAD_OK, "frame");
        must(cotpad_receive(&bob, frame, count, &verdict) == COTPAD_OK, "receive");
    }
    printf("stored, and sent\n");
}

static void type(const char *text) {
    uint32_t made = 0;
    must(cotpad_insert_text(&ann, cotpad_characters(&ann), (const uint8_t *)text, strlen(text), &made) == COTPAD_OK, "insert_text");
}

static void show(const char *who, cotpad_site *site) {
    uint8_t text[64]; /* enough for this text */
    size_t count = 0;
    must(cotpad_text(site, text, sizeof text, &count) == COTPAD_OK, "text");
    printf("%s: %.*s\n", who, (int)count, (char *)text);
}

/* Ann's host stops, and begins again: it goes on from what was stored. */
static void restart(int folder) {
    static uint8_t log[4096]; /* enough for this log */
    cotpad_verdict why = {0};
    int file = openat(folder, LOG, O_RDONLY);
    ssize_t count = file < 0 ? -1 : read(file, log, sizeof log);
    must(count > 0 && close(file) == 0, "reading the log");
    cotpad_close(&ann);
    must(cotpad_load(&ann, NUMBER, log, (size_t)count, &why) == COTPAD_OK, "load");
}

int main(void) {
    char path[] = "/tmp/cotpad-saved-XXXXXX";
    if (cotpad_version() != COTPAD_VERSION) return 2;
    must(mkdtemp(path) != NULL, "mkdtemp");
    int folder = open(path, O_RDONLY | O_DIRECTORY);
    must(folder >= 0, "opening the folder");
    must(cotpad_open(&ann, NUMBER) == COTPAD_OK && cotpad_open(&bob, 1) == COTPAD_OK, "open");
    type("tea");
    save_and_send(folder);
    type(" at 4");
    save_and_send(-1); /* a folder that isn't there */
    show("Bob", &bob);
    save_and_send(folder);
    restart(folder);
    type("!"); /* under a name that nobody knows yet */
    save_and_send(folder);
    show("Ann", &ann);
    show("Bob", &bob);
    must(unlinkat(folder, LOG, 0) == 0 && close(folder) == 0 && rmdir(path) == 0, "tidying up");
    cotpad_close(&ann);
    cotpad_close(&bob);
    return 0;
}
