/* Out of memory at each allocation in turn: sessions of sites are run again and again, the first time with their first allocation
 * refused, then with their second, and so on. A call that answers COTPAD_NO_MEMORY has changed nothing that can be counted and
 * written nothing, and is made again; one that answers COTPAD_UNSETTLED has done what was asked, can't be saved, and what is
 * ready yet is released then, by cotpad_settle in every second run, and one by one in the others. All sites have to show the
 * same text as in the session in which nothing is refused, and all releases are told, in order. Link with
 * -Wl,--wrap=malloc,--wrap=realloc. */
#include "cotpad.h"
#include <stdio.h>
#include <stdlib.h>
#include <string.h>

static long allocations, refused = -1;

void *__real_malloc(size_t count);
void *__real_realloc(void *old, size_t count);

void *__wrap_malloc(size_t count) {
    return ++allocations == refused ? NULL : __real_malloc(count);
}

void *__wrap_realloc(void *old, size_t count) {
    return ++allocations == refused ? NULL : __real_realloc(old, count);
}

static long again, unsettled;

static void stop(const char *why) {
    printf("%s, with allocation %ld refused\n", why, refused);
    exit(1);
}

static void released(cotpad_site *site);
static void settle(cotpad_site *site);

/* Makes a call, and once more where it was out of memory. */
#define DO(call) \
    do { \
        cotpad_status answer = (call); \
        if (answer == COTPAD_NO_MEMORY) { \
            again++; \
            answer = (call); \
        } \
        if (answer != COTPAD_OK) stop(#call); \
    } while (0)

/* The same at a site that has to be as before where the call was out of memory. */
#define DO_AT(site, call) \
    do { \
        struct counts before = counts_of(site); \
        cotpad_status answer = (call); \
        if (answer == COTPAD_NO_MEMORY) { \
            again++; \
            if (!has_counts(site, before)) stop("a refused call changed the site: " #call); \
            answer = (call); \
        } \
        if (answer != COTPAD_OK) stop(#call); \
    } while (0)

/* An edit of the user's: what it frees is released and told. */
#define EDIT(site, call) \
    do { \
        struct counts before = counts_of(site); \
        told = 0; \
        cotpad_status answer = (call); \
        if (answer == COTPAD_NO_MEMORY) { \
            again++; \
            if (!has_counts(site, before)) stop("a refused edit changed the site: " #call); \
            if (cotpad_released(site) != 0) stop("a refused edit released something: " #call); \
            answer = (call); \
        } \
        released(site); \
        if (answer == COTPAD_UNSETTLED) settle(site); \
        else if (answer != COTPAD_OK) stop(#call); \
    } while (0)

struct counts {
    uint32_t operations, waiting, characters;
};

static struct counts counts_of(cotpad_site *site) {
    struct counts counts = {cotpad_operations(site), cotpad_waiting(site), cotpad_characters(site)};
    return counts;
}

static int has_counts(cotpad_site *site, struct counts counts) {
    return counts.operations == cotpad_operations(site) && counts.waiting == cotpad_waiting(site)
        && counts.characters == cotpad_characters(site);
}

static int is_blank(const cotpad_verdict *verdict) {
    static const cotpad_verdict blank = {0};
    return memcmp(verdict, &blank, sizeof blank) == 0;
}

/* The verdicts of the releases since `told` was set to 0: so many of them are told, and these were of this kind. */
static uint32_t told, kinds[8];

static void tell(uint32_t kind) {
    if (told == sizeof kinds / sizeof *kinds) stop("more releases than operations that wait");
    kinds[told++] = kind;
}

static void released(cotpad_site *site) {
    uint32_t count = cotpad_released(site);
    for (uint32_t i = 0; i < count; i++) {
        cotpad_verdict verdict = {0};
        if (cotpad_released_at(site, i, &verdict) != COTPAD_OK || verdict.used != 0) stop("released_at");
        tell(verdict.kind);
    }
    cotpad_verdict none = {0};
    if (cotpad_released_at(site, count, &none) != COTPAD_NONE || !is_blank(&none)) stop("released_at past the end");
}

/* Releases what is ready, one after the other. */
static void release(cotpad_site *site) {
    for (;;) {
        struct counts before = counts_of(site);
        cotpad_verdict verdict = {0};
        cotpad_status answer = cotpad_release(site, &verdict);
        if (answer == COTPAD_NO_MEMORY) {
            again++;
            if (!has_counts(site, before) || !is_blank(&verdict)) stop("a refused release changed something");
            answer = cotpad_release(site, &verdict);
        }
        if (cotpad_released(site) != 0) stop("a release is listed");
        if (answer == COTPAD_NONE) return;
        if (answer != COTPAD_OK) stop("release");
        tell(verdict.kind);
    }
}

/* An operation is ready yet: the site isn't saved, and all that is ready is released. */
static void settle(cotpad_site *site) {
    uint8_t log[1] = {0xff};
    size_t needed = 7;
    unsettled++;
    if (cotpad_waiting(site) == 0) stop("a site in which nothing waits is unsettled");
    if (cotpad_save(site, log, sizeof log, &needed) != COTPAD_UNSETTLED) stop("an unsettled site is saved");
    if (needed != 7 || log[0] != 0xff) stop("the log of an unsettled site is counted or written");
    if (refused % 2 == 0) {
        release(site);
    } else {
        if (cotpad_settle(site) != COTPAD_OK) stop("settle");
        released(site);
    }
    if (cotpad_settle(site) != COTPAD_OK || cotpad_released(site) != 0) stop("a settled site releases something");
}

/* Delivers a frame, and answers the kind of its verdict. */
static uint32_t receive(cotpad_site *site, const uint8_t *frame, size_t count) {
    struct counts before = counts_of(site);
    cotpad_verdict verdict = {0};
    told = 0;
    cotpad_status answer = cotpad_receive(site, frame, count, &verdict);
    if (answer == COTPAD_NO_MEMORY) {
        again++;
        if (!has_counts(site, before) || !is_blank(&verdict)) stop("a refused delivery changed something");
        answer = cotpad_receive(site, frame, count, &verdict);
    }
    released(site);
    if (answer == COTPAD_UNSETTLED) settle(site);
    else if (answer != COTPAD_OK) stop("receive");
    return verdict.kind;
}

/* Sends the operation at this index, and answers the kind of its verdict. */
static uint32_t send(cotpad_site *from, uint32_t index, cotpad_site *to) {
    uint8_t frame[2048];
    size_t count = 0;
    DO_AT(from, cotpad_frame(from, index, frame, sizeof frame, &count));
    return receive(to, frame, count);
}

/* Goes on after what was inserted or deleted before memory ran out: pieces of an ASCII text. */
static void type(cotpad_site *site, uint32_t place, const char *text) {
    size_t left = strlen(text);
    for (;;) {
        uint32_t made = 0, characters = cotpad_characters(site);
        cotpad_status answer = cotpad_insert_text(site, place, (const uint8_t *)text, left, &made);
        size_t done = 256 * (size_t)made < left ? 256 * (size_t)made : left;
        if (cotpad_characters(site) != characters + done) stop("other characters than were told are inserted");
        place += (uint32_t)done, text += done, left -= done;
        if (answer == COTPAD_OK) return;
        if (answer != COTPAD_NO_MEMORY) stop("insert_text");
        again++;
    }
}

static void cut(cotpad_site *site, uint32_t place, uint32_t count) {
    for (;;) {
        uint32_t made = 0;
        cotpad_status answer = cotpad_delete_range(site, place, count, &made);
        count -= made;
        if (answer == COTPAD_OK) return;
        if (answer != COTPAD_NO_MEMORY) stop("delete_range");
        again++;
    }
}

/* Out of memory, the two calls that take frames in may have taken in the first of them. */
static void exchange(cotpad_site *joiner, cotpad_site *server) {
    static uint8_t first[1024], second[1024], third[1024];
    size_t one = 0, two = 0, three = 0;
    cotpad_verdict why = {0};
    DO_AT(joiner, cotpad_exchange_offer(joiner, first, sizeof first, &one));
    DO_AT(server, cotpad_exchange_answer(server, first, one, second, sizeof second, &two, &why));
    DO(cotpad_exchange_close(joiner, second, two, third, sizeof third, &three, &why));
    DO(cotpad_exchange_finish(server, third, three, &why));
    static const uint8_t no_frames[4];
    long before = allocations;
    if (cotpad_exchange_finish(server, no_frames, sizeof no_frames, &why) != COTPAD_OK) stop("a message without frames isn't taken");
    if (allocations != before) stop("a message without frames takes memory");
}

static void load(cotpad_site *from, cotpad_site *site) {
    static uint8_t log[4096];
    size_t count = 0;
    cotpad_verdict why = {0};
    DO_AT(from, cotpad_save(from, log, sizeof log, &count));
    DO(cotpad_load(site, 2, log, count, &why));
}

/* The shown text; a refused call has written none of it. */
static size_t text_of(cotpad_site *site, uint8_t *out, size_t room) {
    size_t count = room + 1;
    memset(out, 0xff, room);
    cotpad_status answer = cotpad_text(site, out, room, &count);
    if (answer == COTPAD_NO_MEMORY) {
        again++;
        for (size_t i = 0; i < room; i++)
            if (out[i] != 0xff) stop("a refused call wrote a text");
        if (count != room + 1) stop("a refused call counted a text");
        answer = cotpad_text(site, out, room, &count);
    }
    if (answer != COTPAD_OK) stop("text");
    return count;
}

static void shows(cotpad_site *site, const char *text) {
    uint8_t shown[64];
    size_t count = text_of(site, shown, sizeof shown);
    if (count != strlen(text) || memcmp(shown, text, count) != 0) stop("another text");
}

/* A text of the past, before the operation at an index or, where lists are given, at the set that they spell. A refused call has
 * written none of it, and told nothing. */
struct past {
    uint32_t index;
    const cotpad_count *counts;
    size_t sites;
    const cotpad_member *undone;
    size_t names;
};

static cotpad_status past_of(cotpad_site *site, const struct past *past, uint8_t *out, size_t room, size_t *count, cotpad_member *why) {
    if (past->counts == NULL) return cotpad_text_before(site, past->index, out, room, count);
    return cotpad_text_at(site, past->counts, past->sites, past->undone, past->names, out, room, count, why);
}

static void showed(cotpad_site *site, const struct past *past, const char *text) {
    static const cotpad_member none;
    uint8_t shown[64];
    size_t count = 65;
    cotpad_member why = {0};
    struct counts before = counts_of(site);
    memset(shown, 0xff, sizeof shown);
    cotpad_status answer = past_of(site, past, shown, sizeof shown, &count, &why);
    if (answer == COTPAD_NO_MEMORY) {
        again++;
        for (size_t i = 0; i < sizeof shown; i++)
            if (shown[i] != 0xff) stop("a refused call wrote a text of the past");
        if (count != 65 || !has_counts(site, before)) stop("a refused call counted a text of the past, or changed the site");
        answer = past_of(site, past, shown, sizeof shown, &count, &why);
    }
    if (answer != COTPAD_OK) stop("a text of the past");
    if (count != strlen(text) || memcmp(shown, text, count) != 0) stop("another text of the past");
    if (memcmp(&why, &none, sizeof why) != 0) stop("a set that has a text is told");
}

/* Inserts 0.1 of a, 0.2 of b, a delete 0.3 of a, an undo of it, and 1.1 of x, which came from another site
 * that had nothing: it stands behind what was inserted at the same place by a site of a smaller number. */
static void showed_before(cotpad_site *site) {
    static const char *const texts[] = {"", "a", "ab", "b", "ab", "abx"};
    for (uint32_t i = 0; i < sizeof texts / sizeof *texts; i++) {
        struct past past = {i, NULL, 0, NULL, 0};
        showed(site, &past, texts[i]);
    }
}

static void showed_at(cotpad_site *site) {
    static const cotpad_count both[] = {{0, 3}, {1, 1}}, one[] = {{0, 2}}, other[] = {{1, 1}};
    static const cotpad_member undone[] = {{0, 3, 1}};
    struct past deleted = {0, both, 2, undone, 0}, undo = {0, both, 2, undone, 1}, two = {0, one, 1, undone, 0};
    struct past alone = {0, other, 1, undone, 0}, nothing = {0, one, 0, undone, 0};
    showed(site, &deleted, "bx");
    showed(site, &undo, "abx");
    showed(site, &two, "ab");
    showed(site, &alone, "x");
    showed(site, &nothing, "");
}

static void pasts(void) {
    cotpad_site first = COTPAD_SITE_EMPTY, second = COTPAD_SITE_EMPTY;
    cotpad_site *here = &first, *there = &second;
    DO(cotpad_open(here, 0));
    DO(cotpad_open(there, 1));
    EDIT(here, cotpad_insert(here, 0, 'a'));
    EDIT(here, cotpad_insert(here, 1, 'b'));
    EDIT(here, cotpad_delete(here, 0));
    EDIT(here, cotpad_undo(here, 0, 3));
    EDIT(there, cotpad_insert(there, 0, 'x'));
    if (send(there, 0, here) != COTPAD_VERDICT_INTEGRATED) stop("the insert isn't integrated");
    if (cotpad_operations(here) != 5) stop("five operations aren't there");
    showed_before(here);
    showed_at(here);
    cotpad_close(there);
    cotpad_close(here);
}

/* Goes on with a range of the history after what was undone or redone before memory ran out. Nothing waits. */
static void turn(cotpad_site *site, int redo, uint32_t first, uint32_t count, uint32_t all) {
    for (;;) {
        uint32_t made = 9, operations = cotpad_operations(site);
        cotpad_status answer = redo ? cotpad_redo_range(site, first, count, &made) : cotpad_undo_range(site, first, count, &made);
        if (made > all || cotpad_operations(site) != operations + made) stop("other operations than were told are undone or redone");
        all -= made;
        if (answer == COTPAD_OK) break;
        if (answer != COTPAD_NO_MEMORY) stop("undo_range or redo_range");
        again++;
    }
    if (all != 0) stop("an operation isn't undone or redone");
}

/* By these changes, two at most, the text became what it is; a refused call has told none. */
static void changed(cotpad_site *site, uint32_t since, const cotpad_change *wanted, size_t count) {
    cotpad_change out[2] = {{7, 7, 7}, {7, 7, 7}};
    size_t needed = 7;
    cotpad_status answer = cotpad_changes(site, since, out, 2, &needed);
    if (answer == COTPAD_NO_MEMORY) {
        again++;
        if (needed != 7 || out[0].place != 7 || out[1].place != 7) stop("a refused call told a change");
        answer = cotpad_changes(site, since, out, 2, &needed);
    }
    if (answer != COTPAD_OK || needed != count || memcmp(out, wanted, count * sizeof *out) != 0) stop("other changes");
}

/* The characters from the second to the last but one; a refused call has written none. */
static void shows_within(cotpad_site *site, const char *text) {
    uint8_t out[64];
    size_t count = 65, length = strlen(text);
    memset(out, 0xff, sizeof out);
    cotpad_status answer = cotpad_text_range(site, 1, cotpad_characters(site) - 2, out, sizeof out, &count);
    if (answer == COTPAD_NO_MEMORY) {
        again++;
        if (count != 65 || out[0] != 0xff) stop("a refused call wrote a part of the text");
        answer = cotpad_text_range(site, 1, cotpad_characters(site) - 2, out, sizeof out, &count);
    }
    if (answer != COTPAD_OK || count != length || memcmp(out, text, length) != 0) stop("another part of the text");
    if (cotpad_text_range(site, 1, 0, out, 0, &count) != COTPAD_OK || count != 0) stop("no character takes memory");
}

/* What is shown stands there by 0.1, 0.2 and again 0.1; a refused call has told none of it. */
static void named(cotpad_site *site) {
    static const cotpad_member wanted[] = {{0, 1, 0}, {0, 2, 0}, {0, 1, 0}};
    cotpad_member out[3] = {{7, 7, 7}, {7, 7, 7}, {7, 7, 7}};
    size_t count = 7;
    cotpad_status answer = cotpad_names(site, 0, cotpad_characters(site), out, 3, &count);
    if (answer == COTPAD_NO_MEMORY) {
        again++;
        if (count != 7 || out[0].site != 7) stop("a refused call told a name");
        answer = cotpad_names(site, 0, cotpad_characters(site), out, 3, &count);
    }
    if (answer != COTPAD_OK || count != 3 || memcmp(out, wanted, sizeof wanted) != 0) stop("other names");
}

/* All frames, from an index on or but for a set that has the first ones, bring another site to the same text. */
static void sent(cotpad_site *from, cotpad_site *to) {
    static const cotpad_count two[] = {{0, 2}};
    static const cotpad_member none[1];
    uint8_t all[2048], rest[2048];
    size_t count = 0, others = 0;
    DO_AT(from, cotpad_frames(from, 0, all, sizeof all, &count));
    DO_AT(from, cotpad_frames_for(from, two, 1, none, 0, rest, sizeof rest, &others));
    if (others >= count || memcmp(all + (count - others), rest, others) != 0) stop("other frames");
    for (size_t at = 0; at < count; at += 4 + (size_t)all[at + 2] * 256 + all[at + 3])
        if (receive(to, all + at, count - at) != COTPAD_VERDICT_INTEGRATED) stop("a frame isn't integrated");
    long before = allocations;
    if (cotpad_frames(from, cotpad_operations(from), all, 0, &count) != COTPAD_OK || count != 0) stop("frames of nothing");
    if (allocations != before) stop("frames of nothing take memory");
}

/* Each anchor is told its place, and one that has none that it has none; a refused call tells nothing. */
static void placed(cotpad_site *site) {
    cotpad_anchor given[7] = {{0, 0, 0, 0}};
    uint32_t places[8] = {77, 77, 77, 77, 77, 77, 77, 77}, shown = cotpad_characters(site);
    for (uint32_t i = 0; i <= shown; i++)
        if (cotpad_anchor_left(site, i, &given[i]) != COTPAD_OK) stop("anchor_left");
    cotpad_status answer = cotpad_anchor_places(site, given, shown + 2, places, 8);
    if (answer == COTPAD_NO_MEMORY) {
        again++;
        if (places[0] != 77) stop("a refused call told a place");
        answer = cotpad_anchor_places(site, given, shown + 2, places, 8);
    }
    for (uint32_t i = 0; i <= shown; i++)
        if (places[i] != i) stop("another place of an anchor");
    if (answer != COTPAD_OK || places[shown + 1] != COTPAD_NO_PLACE || places[shown + 2] != 77) stop("anchor_places");
}

/* A host's own text: inserts 0.1 of "abcd" and 0.2 of "xy", a delete 0.3, and what is undone and redone of these. */
static void views(void) {
    static const cotpad_change typed[] = {{0, 0, 5}}, cut[] = {{1, 1, 2}}, back[] = {{0, 1, 0}, {2, 2, 0}}, none[1];
    cotpad_site first = COTPAD_SITE_EMPTY, second = COTPAD_SITE_EMPTY;
    cotpad_site *here = &first, *there = &second;
    uint32_t generation = 0, author = 7;
    DO(cotpad_open(here, 0));
    DO(cotpad_open(there, 1));
    type(here, 0, "abcd");
    type(here, 2, "xy");
    EDIT(here, cotpad_delete(here, 1));
    shows(here, "axycd");
    changed(here, 0, typed, 1);
    changed(here, 1, cut, 1);
    changed(here, 3, none, 0);
    shows_within(here, "xyc");
    named(here);
    placed(here);
    turn(here, 0, 0, 1, 1);
    shows(here, "xy");
    changed(here, 3, back, 2);
    turn(here, 1, 0, 4, 1);
    turn(here, 0, 1, 2, 2);
    shows(here, "abcd");
    if (cotpad_generation(here, 0, 1, &generation) != COTPAD_OK || generation != 2) stop("generation");
    if (cotpad_undoer(here, 0, 3, &author) != COTPAD_OK || author != 0) stop("undoer");
    sent(here, there);
    shows(there, "abcd");
    cotpad_close(there);
    cotpad_close(here);
}

/* The text of the operation at this index is so many times one character, whatever the memory; a buffer that is too short gets none of
 * it. */
static void inserted(cotpad_site *site, uint32_t index, uint8_t letter, size_t times) {
    uint8_t text[256];
    size_t count = 300;
    memset(text, 0xff, sizeof text);
    if (times > 0 && (cotpad_operation_text(site, index, text, times - 1, &count) != COTPAD_TOO_SHORT || count != times || text[0] != 0xff))
        stop("a buffer that is too short got the text of an operation");
    cotpad_status answer = cotpad_operation_text(site, index, text, sizeof text, &count);
    if (answer != COTPAD_OK || count != times) stop("operation_text");
    for (size_t i = 0; i < sizeof text; i++)
        if (text[i] != (i < times ? letter : 0xff)) stop("another text of an operation");
}

/* A text of two pieces, its frames, and an undo of the first piece. */
static void pieces(void) {
    cotpad_site first = COTPAD_SITE_EMPTY, second = COTPAD_SITE_EMPTY;
    cotpad_site *here = &first, *there = &second;
    char text[258] = {0};
    memset(text, 'p', 256);
    text[256] = 'q';
    DO(cotpad_open(here, 0));
    DO(cotpad_open(there, 1));
    type(here, 0, text);
    if (cotpad_operations(here) != 2) stop("a text of 257 characters isn't two operations");
    inserted(here, 0, 'p', 256);
    inserted(here, 1, 'q', 1);
    for (uint32_t i = 0; i < 2; i++)
        if (send(here, i, there) != COTPAD_VERDICT_INTEGRATED) stop("a piece isn't integrated");
    EDIT(there, cotpad_undo(there, 0, 1));
    inserted(there, 2, 0, 0);
    shows(there, "q");
    cotpad_close(there);
    cotpad_close(here);
}

static void same_text(cotpad_site *a, cotpad_site *b, size_t characters) {
    uint8_t one[64], other[64];
    size_t count = text_of(a, one, sizeof one), others = text_of(b, other, sizeof other);
    if (count != others || memcmp(one, other, count) != 0) stop("the texts differ");
    if (count != characters) stop("a character is missing");
}

/* Two sites type, undo, and send one another all that they did. */
static void session(void) {
    cotpad_site first = COTPAD_SITE_EMPTY, second = COTPAD_SITE_EMPTY, third = COTPAD_SITE_EMPTY;
    cotpad_site *a = &first, *b = &second, *c = &third;
    DO(cotpad_open(a, 0));
    DO(cotpad_open(b, 1));
    for (uint32_t i = 0; i < 6; i++) {
        EDIT(a, cotpad_insert(a, i, 'a' + i));
        EDIT(b, cotpad_insert(b, 0, 'z'));
    }
    for (uint32_t i = 6; i-- > 0;) send(a, i, b);
    if (told != 5) stop("five operations aren't released");
    EDIT(b, cotpad_undo(b, 0, 3));
    EDIT(b, cotpad_delete(b, 1));
    EDIT(b, cotpad_redo(b, 0, 3));
    for (uint32_t i = 0; i < cotpad_operations(b); i++) send(b, i, a);
    same_text(a, b, 11);
    type(a, 3, "xyz");
    cut(b, 0, 2);
    exchange(b, a);
    same_text(a, b, 12);
    load(a, c);
    same_text(a, c, 12);
    cotpad_close(c);
    cotpad_close(a);
    cotpad_close(b);
}

/* An insert, a delete and an undo wait for what they were made after, until the first operation comes last. */
static void backwards(void) {
    cotpad_site first = COTPAD_SITE_EMPTY, second = COTPAD_SITE_EMPTY;
    cotpad_site *here = &first, *there = &second;
    DO(cotpad_open(here, 0));
    DO(cotpad_open(there, 1));
    EDIT(here, cotpad_insert(here, 0, 'a'));
    EDIT(here, cotpad_insert(here, 1, 'b'));
    EDIT(here, cotpad_delete(here, 0));
    EDIT(here, cotpad_undo(here, 0, 2));
    EDIT(there, cotpad_insert(there, 0, 'x'));
    for (uint32_t i = 4; i-- > 1;)
        if (send(here, i, there) != COTPAD_VERDICT_WAITS) stop("an early operation doesn't wait");
    if (cotpad_waiting(there) != 3) stop("three operations don't wait");
    if (send(here, 0, there) != COTPAD_VERDICT_INTEGRATED) stop("the first operation isn't integrated");
    if (cotpad_waiting(there) != 0) stop("an operation still waits");
    if (told != 3) stop("three operations aren't released");
    for (uint32_t i = 0; i < told; i++)
        if (kinds[i] != COTPAD_VERDICT_INTEGRATED) stop("a released operation isn't integrated");
    shows(there, "x");
    EDIT(there, cotpad_redo(there, 0, 2));
    if (send(there, 0, here) != COTPAD_VERDICT_INTEGRATED) stop("the insert isn't integrated");
    if (send(there, 5, here) != COTPAD_VERDICT_INTEGRATED) stop("the redo isn't integrated");
    shows(here, "bx");
    shows(there, "bx");
    cotpad_close(here);
    cotpad_close(there);
}

/* Insert SITE.1 of a letter at a place, after 0.1 and the undo of it. */
#define AFTER_UNDO(site, place, letter) \
    0, 0, 0, 35, 1, 0, site, 0, 0, 0, 1, 0, 0, 0, place, 0, 0, 0, letter, 0, 1, 0, 0, 0, 0, 0, 1, 0, 1, 0, 0, 0, 0, 0, 1, 0, 1, 0, 1

/* What waits for an undo is released by the user's own: one insert whose place isn't there, one that is good, and the insert after
 * that, whose place isn't there either. The log is loaded then. */
static void freed_by_an_undo(void) {
    static const uint8_t far[] = {AFTER_UNDO(1, 9, 'f')}, good[] = {AFTER_UNDO(3, 1, 'g')};
    static const uint8_t behind[] = {0, 0, 0, 41, 1, 0, 4, 0, 0, 0, 1, 0, 0, 0, 9, 0, 0, 0, 'b', 0, 2, 0, 0, 0, 0, 0, 1, 0, 3, 0, 0, 0, 1,
        0, 1, 0, 0, 0, 0, 0, 1, 0, 1, 0, 1};
    cotpad_site first = COTPAD_SITE_EMPTY, second = COTPAD_SITE_EMPTY;
    cotpad_site *here = &first, *again_here = &second;
    DO(cotpad_open(here, 0));
    EDIT(here, cotpad_insert(here, 0, 'a'));
    if (receive(here, behind, sizeof behind) != COTPAD_VERDICT_WAITS) stop("the last insert doesn't wait");
    if (receive(here, far, sizeof far) != COTPAD_VERDICT_WAITS) stop("the far insert doesn't wait");
    if (receive(here, good, sizeof good) != COTPAD_VERDICT_WAITS) stop("the good insert doesn't wait");
    EDIT(here, cotpad_undo(here, 0, 1));
    if (told != 3 || cotpad_waiting(here) != 0) stop("the undo doesn't release three operations");
    if (kinds[0] != COTPAD_VERDICT_PLACE_OUT || kinds[1] != COTPAD_VERDICT_INTEGRATED || kinds[2] != COTPAD_VERDICT_PLACE_OUT)
        stop("another verdict on what waited for the undo");
    shows(here, "g");
    load(here, again_here);
    shows(again_here, "g");
    cotpad_close(again_here);
    cotpad_close(here);
}

static void sessions(void) {
    session();
    backwards();
    freed_by_an_undo();
    pieces();
    views();
    pasts();
}

int main(void) {
    sessions();
    long all = allocations;
    for (refused = 1; refused <= all; refused++) {
        allocations = 0;
        sessions();
    }
    printf("each of %ld allocations refused: the same text each time\n", all);
    fprintf(stderr, "%ld calls were made again, and %ld were done but for some of their releases\n", again, unsettled);
    return 0;
}
