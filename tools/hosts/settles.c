/* What waits is released by the call that frees it, and told, so that no site is saved which can't be loaded again: a user's own
 * undo, redo and text free operations that others made; some are good, some can't be. Then logs about as long as can be loaded.
 * All frames are written by hand from docs/FORMATS.md. */
#include "cotpad.h"
#include <stdio.h>
#include <stdlib.h>
#include <string.h>

enum { LONGEST = 171029, LETTERS = 256, LIMIT = 67108864 };

static void stop(const char *what, uint32_t is, uint32_t wanted) {
    printf("%s: %u, and not %u\n", what, is, wanted);
    exit(1);
}

static void is(uint32_t it, uint32_t wanted, const char *what) {
    if (it != wanted) stop(what, it, wanted);
}

/* A frame that is written field by field; its length comes last. */
typedef struct {
    uint8_t bytes[LONGEST];
    size_t count;
} frame;

static void put(frame *f, size_t size, uint32_t number) {
    while (size-- > 0) f->bytes[f->count++] = (uint8_t)(number >> (8 * size));
}

static void put_name(frame *f, uint32_t site, uint32_t number) {
    put(f, 2, site), put(f, 4, number);
}

static void end(frame *f) {
    size_t count = f->count;
    f->count = 0;
    put(f, 4, (uint32_t)(count - 4));
    f->count = count;
}

/* An insert, up to its context. */
static frame *insert(frame *f, uint32_t site, uint32_t number, uint32_t place, uint32_t scalar) {
    f->count = 4;
    put(f, 1, 1), put_name(f, site, number), put(f, 4, place), put(f, 4, scalar);
    return f;
}

/* The same of so many times one character. */
static frame *run(frame *f, uint32_t site, uint32_t number, uint32_t place, uint32_t scalar, uint32_t count) {
    f->count = 4;
    put(f, 1, 4), put_name(f, site, number), put(f, 4, place), put(f, 2, count);
    while (count-- > 0) put(f, 4, scalar);
    return f;
}

/* The context that has the first `count` inserts and deletes of one site, and an undone or redone 0.1, unless `generation` is 0. */
static const frame *after(frame *f, uint32_t site, uint32_t count, uint32_t generation) {
    put(f, 2, count > 0);
    if (count > 0) put_name(f, site, count);
    put(f, 2, generation > 0);
    if (generation > 0) put_name(f, 0, 1), put(f, 2, 1), put(f, 2, generation);
    end(f);
    return f;
}

static uint32_t receive(cotpad_site *site, const frame *f) {
    cotpad_verdict verdict = {0};
    is(cotpad_receive(site, f->bytes, f->count, &verdict), COTPAD_OK, "receive");
    return verdict.kind;
}

/* The release at this index is of this member, and has this verdict. */
static cotpad_verdict released(cotpad_site *site, uint32_t index, uint32_t author, uint32_t number, uint32_t kind) {
    cotpad_verdict verdict = {0};
    is(cotpad_released_at(site, index, &verdict), COTPAD_OK, "released_at");
    is(verdict.operation.member.site, author, "the site of a release");
    is(verdict.operation.member.number, number, "the number of a release");
    is(verdict.operation.member.generation, 0, "the generation of a release");
    is(verdict.operation.kind, 0, "the kind of the operation of a release");
    is(verdict.used, 0, "the bytes of a release");
    is(verdict.kind, kind, "the verdict of a release");
    return verdict;
}

static void shows(cotpad_site *site, const char *text) {
    uint8_t shown[64];
    size_t count = 0;
    is(cotpad_text(site, shown, sizeof shown, &count), COTPAD_OK, "text");
    is((uint32_t)count, (uint32_t)strlen(text), "the bytes of a text");
    is(memcmp(shown, text, count) != 0, 0, "another text");
}

/* Ends the site, and goes on from its log. */
static void come_back(cotpad_site *site, uint32_t number) {
    static uint8_t log[4096];
    size_t count = 0;
    cotpad_verdict why = {0};
    uint32_t operations = cotpad_operations(site), waiting = cotpad_waiting(site);
    is(cotpad_save(site, log, sizeof log, &count), COTPAD_OK, "save");
    cotpad_close(site);
    is(cotpad_load(site, number, log, count, &why), COTPAD_OK, "load");
    is(cotpad_operations(site), operations, "the operations of a loaded site");
    is(cotpad_waiting(site), waiting, "what waits at a loaded site");
    is(cotpad_released(site), 0, "the releases of a loaded site");
}

static frame one;

/* An insert whose place isn't there waits for an undo of 0.1. The user makes that undo, and the log is loaded again. */
static void undo_frees_what_cannot_be(cotpad_site *site) {
    is(cotpad_open(site, 2), COTPAD_OK, "open");
    is(receive(site, after(insert(&one, 0, 1, 0, 'a'), 0, 0, 0)), COTPAD_VERDICT_INTEGRATED, "0.1");
    is(receive(site, after(insert(&one, 1, 1, 9, 'x'), 0, 1, 1)), COTPAD_VERDICT_WAITS, "1.1");
    is(cotpad_waiting(site), 1, "what waits");
    come_back(site, 2);
    is(cotpad_undo(site, 0, 1), COTPAD_OK, "undo");
    is(cotpad_waiting(site), 0, "what waits after the undo");
    is(cotpad_released(site), 1, "what the undo released");
    cotpad_verdict verdict = released(site, 0, 1, 1, COTPAD_VERDICT_PLACE_OUT);
    is(verdict.place, 9, "the place");
    is(verdict.cells, 1, "the cells");
    is(cotpad_released_at(site, 1, &verdict), COTPAD_NONE, "a second release");
    is(verdict.place, 9, "the verdict past the end");
    come_back(site, 2);
    shows(site, "");
    cotpad_close(site);
}

/* The last operation of the user's, and all that came behind it, go to another site, as they stand in the history. */
static void send_from(cotpad_site *from, uint32_t index, cotpad_site *to, uint32_t kind) {
    for (uint32_t i = index; i < cotpad_operations(from); i++) {
        is(cotpad_frame(from, i, one.bytes, sizeof one.bytes, &one.count), COTPAD_OK, "frame");
        is(receive(to, &one), kind, "the verdict on a sent frame");
    }
}

/* An undo and then a redo free what is good. It stands behind them in the history. */
static void undo_and_redo_free_what_is_good(cotpad_site *site, cotpad_site *other) {
    is(cotpad_open(site, 2), COTPAD_OK, "open");
    is(cotpad_open(other, 3), COTPAD_OK, "open");
    is(receive(site, after(insert(&one, 0, 1, 0, 'a'), 0, 0, 0)), COTPAD_VERDICT_INTEGRATED, "0.1");
    is(receive(site, after(insert(&one, 4, 1, 1, 'z'), 0, 1, 2)), COTPAD_VERDICT_WAITS, "4.1");
    is(receive(site, after(insert(&one, 1, 1, 1, 'x'), 0, 1, 1)), COTPAD_VERDICT_WAITS, "1.1");
    uint32_t index = cotpad_operations(site);
    is(cotpad_undo(site, 0, 1), COTPAD_OK, "undo");
    is(cotpad_released(site), 1, "what the undo released");
    released(site, 0, 1, 1, COTPAD_VERDICT_INTEGRATED);
    shows(site, "x");
    cotpad_operation made = {0};
    is(cotpad_operation_at(site, index, &made), COTPAD_OK, "operation_at");
    is(made.kind, COTPAD_OPERATION_UNDO, "the operation that was made");
    is(cotpad_redo(site, 0, 1), COTPAD_OK, "redo");
    is(cotpad_released(site), 1, "what the redo released");
    released(site, 0, 4, 1, COTPAD_VERDICT_INTEGRATED);
    is(cotpad_waiting(site), 0, "what waits after the redo");
    send_from(site, 0, other, COTPAD_VERDICT_INTEGRATED);
    is(cotpad_redo(site, 0, 1), COTPAD_IN_FORCE, "a redo that is refused");
    is(cotpad_released(site), 0, "what a refused call released");
    send_from(site, 0, other, COTPAD_VERDICT_REPEAT);
    uint8_t text[2][8];
    size_t counts[2] = {0, 0};
    is(cotpad_text(site, text[0], 8, &counts[0]), COTPAD_OK, "text");
    is(cotpad_text(other, text[1], 8, &counts[1]), COTPAD_OK, "text");
    is((uint32_t)counts[0], 3, "the characters of the text");
    is(counts[0] != counts[1] || memcmp(text[0], text[1], 3) != 0, 0, "another text at the other site");
    cotpad_close(other);
    cotpad_close(site);
}

/* A text of two pieces frees something after its first one, and after its last: what others made after operations of the user's that
 * the site hasn't made yet, as a copy of the site, which must not be, can bring about. One is good; one is a copy of the user's first
 * operation with other contents; one was made after the second operation, but not after all that this is made after now. */
static void a_text_frees_between_its_pieces(cotpad_site *site) {
    uint8_t text[LETTERS + 1];
    uint32_t made = 9;
    cotpad_operation last = {0};
    is(cotpad_open(site, 2), COTPAD_OK, "open");
    is(receive(site, after(insert(&one, 4, 1, 0, 'z'), 2, 2, 0)), COTPAD_VERDICT_WAITS, "4.1");
    is(receive(site, after(insert(&one, 1, 1, 0, 'x'), 2, 1, 0)), COTPAD_VERDICT_WAITS, "1.1");
    is(receive(site, after(insert(&one, 2, 1, 0, 'q'), 0, 1, 0)), COTPAD_VERDICT_WAITS, "2.1");
    is(cotpad_insert_text(site, 0, (const uint8_t *)"", 0, &made), COTPAD_OK, "no text");
    is(made, 0, "how many pieces no text has");
    memset(text, 'a', LETTERS);
    text[LETTERS] = 'b';
    is(cotpad_insert_text(site, 0, text, sizeof text, &made), COTPAD_OK, "a text");
    is(made, 2, "how many pieces were inserted");
    is(cotpad_released(site), 3, "what the text released");
    released(site, 0, 1, 1, COTPAD_VERDICT_INTEGRATED);
    released(site, 1, 2, 1, COTPAD_VERDICT_FORGED);
    is(released(site, 2, 4, 1, COTPAD_VERDICT_NOT_CLOSED).site, 2, "the site of which something lacks");
    is(cotpad_operations(site), 3, "the operations");
    is(cotpad_operation_at(site, 2, &last), COTPAD_OK, "operation_at");
    is(last.scalar, 'b', "the last character");
    is(last.characters, 1, "the length of the last piece");
    is(cotpad_operation_at(site, 0, &last), COTPAD_OK, "operation_at");
    is(last.characters, LETTERS, "the length of the first piece");
    is(cotpad_delete_range(site, 0, 0, &made), COTPAD_OK, "no range");
    is(cotpad_released(site), 0, "what no range released");
    come_back(site, 2);
    cotpad_close(site);
}

/* A frame as long as can be: an insert 1.N of 256 characters that waits for 0.1, with a context of all sites and of 16,384 undone
 * names, of which none goes on with the one before. */
static const frame *longest(uint32_t number) {
    run(&one, 1, number, 0, 'x', LETTERS);
    put(&one, 2, 1024);
    for (uint32_t site = 0; site < 1024; site++) put_name(&one, site, site == 0 ? 32768 : site == 1 ? number - 1 : 1);
    put(&one, 2, 16384);
    for (uint32_t undone = 1; undone <= 16384; undone++) put_name(&one, 0, 2 * undone), put(&one, 2, 1), put(&one, 2, 1);
    end(&one);
    is((uint32_t)one.count, LONGEST, "the longest frame");
    return &one;
}

/* 392 of them and the head are 67,043,376 bytes, which can be loaded, and 393 are too many. */
static void a_log_that_is_too_long_is_not_saved(cotpad_site *site) {
    static uint8_t log[LIMIT];
    size_t count = 0;
    cotpad_verdict why = {0};
    is(cotpad_open(site, 2), COTPAD_OK, "open");
    for (uint32_t number = 2; number < 2 + 392; number++) is(receive(site, longest(number)), COTPAD_VERDICT_WAITS, "a long frame");
    is(cotpad_save(site, log, sizeof log, &count), COTPAD_OK, "save of a long log");
    is((uint32_t)count, 67043376, "the bytes of a long log");
    is(receive(site, longest(2 + 392)), COTPAD_VERDICT_WAITS, "the frame that is too many");
    size_t needed = 7;
    uint8_t untouched = log[0];
    log[0] = 0;
    is(cotpad_save(site, log, sizeof log, &needed), COTPAD_TOO_LONG, "save of a log that is too long");
    is((uint32_t)needed, 7, "the bytes of a log that isn't saved");
    is(log[0], 0, "the first byte of a log that isn't saved");
    log[0] = untouched;
    cotpad_close(site);
    is(cotpad_load(site, 2, log, count, &why), COTPAD_OK, "load of a long log");
    is(cotpad_waiting(site), 392, "what waits in a long log");
    cotpad_close(site);
}

int main(void) {
    cotpad_site site = COTPAD_SITE_EMPTY, other = COTPAD_SITE_EMPTY;
    undo_frees_what_cannot_be(&site);
    undo_and_redo_free_what_is_good(&site, &other);
    a_text_frees_between_its_pieces(&site);
    a_log_that_is_too_long_is_not_saved(&site);
    printf("what a call frees is released and told, and what is saved is loaded\n");
    return 0;
}
