/* Texts of the past: what is answered to each set and each index, with the causes, and that nothing else is written. */
#include "cotpad.h"
#include <stdio.h>
#include <stdlib.h>
#include <string.h>

static void is(uint32_t it, uint32_t wanted, const char *what) {
    if (it == wanted) return;
    printf("%s: %lu, and not %lu\n", what, (unsigned long)it, (unsigned long)wanted);
    exit(1);
}

#define LENGTH(list) (sizeof(list) / sizeof *(list))

static const cotpad_member untold = {77, 77, 77};

/* What a call wrote: so many bytes, this text where it was handed out, and the member. */
static void wrote(const uint8_t *out, size_t needed, const char *text, cotpad_member why, cotpad_member wanted, const char *what) {
    size_t length = text == NULL ? 0 : strlen(text);
    is(memcmp(&why, &wanted, sizeof why) != 0, 0, what);
    is((uint32_t)needed, text == NULL ? 99 : (uint32_t)length, what);
    for (size_t i = 0; i < 8; i++) is(out[i], i < length ? (uint8_t)text[i] : 0xff, what);
}

/* The text at a set, or the member that is told with the status. */
static void at(cotpad_site *site, const cotpad_count *counts, size_t sites, const cotpad_member *undone, size_t names,
    cotpad_status status, const char *text, cotpad_member wanted, const char *what) {
    uint8_t out[8];
    size_t needed = 99;
    cotpad_member why = untold;
    memset(out, 0xff, sizeof out);
    is(cotpad_text_at(site, counts, sites, undone, names, out, sizeof out, &needed, &why), status, what);
    wrote(out, needed, text, why, wanted, what);
}

static void before(cotpad_site *site, uint32_t index, cotpad_status status, const char *text) {
    uint8_t out[8];
    size_t needed = 99;
    memset(out, 0xff, sizeof out);
    is(cotpad_text_before(site, index, out, sizeof out, &needed), status, "text_before");
    wrote(out, needed, text, untold, untold, "what text_before wrote");
}

static void send(cotpad_site *from, uint32_t index, cotpad_site *to) {
    static uint8_t frame[COTPAD_FRAME_MAX];
    size_t count = 0;
    cotpad_verdict verdict = {0};
    is(cotpad_frame(from, index, frame, sizeof frame, &count), COTPAD_OK, "frame");
    is(cotpad_receive(to, frame, count, &verdict), COTPAD_OK, "receive");
    is(verdict.kind, COTPAD_VERDICT_INTEGRATED, "the verdict");
}

/* Site 0 inserts 0.1 of a and 0.2 of e with an accent behind it; site 1 gets both, deletes the a by 1.1 and undoes 0.2; site 0 gets
 * that, inserts 0.3 of z in front, and redoes 0.2. */
static void session(cotpad_site *here, cotpad_site *there) {
    is(cotpad_open(here, 0), COTPAD_OK, "open");
    is(cotpad_open(there, 1), COTPAD_OK, "open");
    is(cotpad_insert(here, 0, 'a'), COTPAD_OK, "0.1");
    is(cotpad_insert(here, 1, 0xe9), COTPAD_OK, "0.2");
    send(here, 0, there);
    send(here, 1, there);
    is(cotpad_delete(there, 0), COTPAD_OK, "1.1");
    is(cotpad_undo(there, 0, 2), COTPAD_OK, "the undo of 0.2");
    send(there, 2, here);
    send(there, 3, here);
    is(cotpad_insert(here, 0, 'z'), COTPAD_OK, "0.3");
    is(cotpad_redo(here, 0, 2), COTPAD_OK, "the redo of 0.2");
}

static void befores(cotpad_site *site) {
    static const char *const texts[] = {"", "a", "a\xc3\xa9", "\xc3\xa9", "", "z", "z\xc3\xa9"};
    is(cotpad_operations(site), LENGTH(texts) - 1, "operations");
    for (uint32_t i = 0; i < LENGTH(texts); i++) before(site, i, COTPAD_OK, texts[i]);
    before(site, LENGTH(texts), COTPAD_NONE, NULL);
    before(site, 4294967295u, COTPAD_NONE, NULL);
}

/* Sets that have a text, also such as no site ever had. */
static void sets(cotpad_site *site) {
    static const cotpad_count all[] = {{0, 3}, {1, 1}}, two[] = {{0, 2}}, deleted[] = {{0, 2}, {1, 1}};
    static const cotpad_member undone[] = {{0, 2, 1}}, redone[] = {{0, 2, 2}};
    at(site, all, 2, redone, 1, COTPAD_OK, "z\xc3\xa9", untold, "all of it");
    at(site, all, 2, undone, 1, COTPAD_OK, "z", untold, "without the redo");
    at(site, deleted, 2, undone, 0, COTPAD_OK, "\xc3\xa9", untold, "without the undo");
    at(site, two, 1, undone, 1, COTPAD_OK, "a", untold, "the undo without the delete");
    at(site, two, 1, redone, 1, COTPAD_OK, "a\xc3\xa9", untold, "undo and redo without the delete");
    at(site, two, 1, undone, 0, COTPAD_OK, "a\xc3\xa9", untold, "two inserts");
    at(site, two, 0, undone, 0, COTPAD_OK, "", untold, "nothing");
}

/* Sets that have none; and lists that spell none, whatever the site has. */
static void refusals(cotpad_site *site) {
    static const cotpad_count two[] = {{0, 2}}, more[] = {{0, 4}, {1, 2}}, late[] = {{0, 3}}, other[] = {{1, 1}}, first[] = {{0, 1}};
    static const cotpad_member undone[] = {{0, 2, 1}, {1, 1, 1}}, thrice[] = {{0, 2, 3}};
    static const cotpad_member lacks[] = {{0, 4, 0}, {0, 2, 3}, {1, 1, 1}}, stray = {0, 2, 0}, open_0 = {0, 0, 0}, open_1 = {1, 0, 0};
    at(site, more, 2, undone, 2, COTPAD_UNKNOWN, NULL, lacks[0], "a count too great");
    at(site, two, 1, thrice, 1, COTPAD_UNKNOWN, NULL, lacks[1], "a generation too great");
    at(site, two, 1, undone, 2, COTPAD_UNKNOWN, NULL, lacks[2], "an undo that nobody made");
    at(site, first, 1, undone, 1, COTPAD_STRAY, NULL, stray, "an undo without its insert");
    at(site, late, 1, undone, 1, COTPAD_NOT_CLOSED, NULL, open_0, "0.3 without 1.1");
    at(site, other, 1, undone, 0, COTPAD_NOT_CLOSED, NULL, open_1, "1.1 without 0.1");
}

static void no_sets(cotpad_site *site) {
    static const cotpad_count counts[][2] = {{{1, 1}, {0, 1}}, {{0, 1}, {0, 2}}, {{0, 0}, {1, 1}}, {{0, 1}, {1024, 1}},
        {{0, 1000001}, {1, 1}}, {{65536, 1}, {65537, 1}}, {{4294967295u, 1}, {0, 1}}, {{0, 1}, {4294967295u, 4294967295u}}};
    static const cotpad_member names[][2] = {{{0, 2, 1}, {0, 1, 1}}, {{0, 2, 1}, {0, 2, 1}}, {{1, 1, 1}, {0, 2, 1}}, {{0, 0, 1}, {0, 1, 1}},
        {{0, 1, 0}, {0, 2, 1}}, {{0, 1, 1}, {0, 2, 65536}}, {{0, 1, 1}, {1024, 1, 1}}, {{0, 1, 1}, {0, 1000001, 1}},
        {{65536, 1, 1}, {65536, 2, 1}}};
    static const cotpad_count two[] = {{0, 2}};
    for (size_t i = 0; i < LENGTH(counts); i++) at(site, counts[i], 2, names[0], 0, COTPAD_NO_SET, NULL, untold, "counts of no set");
    for (size_t i = 0; i < LENGTH(names); i++) at(site, two, 1, names[i], 2, COTPAD_NO_SET, NULL, untold, "names of no set");
}

/* No room: what is needed is told, and nothing else written. */
static void no_room(cotpad_site *site) {
    static const cotpad_count two[] = {{0, 2}};
    static const cotpad_member none[1];
    uint8_t out[2] = {0xff, 0xff};
    size_t needed = 99;
    cotpad_member why = untold;
    is(cotpad_text_at(site, two, 1, none, 0, out, sizeof out, &needed, &why), COTPAD_TOO_SHORT, "text_at");
    is((uint32_t)needed, 3, "the bytes of text_at");
    needed = 99;
    is(cotpad_text_before(site, 2, out, sizeof out, &needed), COTPAD_TOO_SHORT, "text_before");
    is((uint32_t)needed, 3, "the bytes of text_before");
    is(out[0] + out[1], 2 * 0xff, "a part of a text is written");
    is(memcmp(&why, &untold, sizeof why) != 0, 0, "a member is told");
}

int main(void) {
    cotpad_site here = COTPAD_SITE_EMPTY, there = COTPAD_SITE_EMPTY;
    if (cotpad_version() != COTPAD_VERSION) return 2;
    session(&here, &there);
    befores(&here);
    sets(&here);
    refusals(&here);
    no_sets(&here);
    no_room(&here);
    is(cotpad_operations(&here), 6, "operations in the end");
    cotpad_close(&there);
    cotpad_close(&here);
    puts("each text of the past, and why a set has none");
    return 0;
}
