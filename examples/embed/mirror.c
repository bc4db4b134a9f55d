/* A host that keeps a text of its own, as an editor's window does, by changes alone: after each call it asks by what the shown text
 * changed, and changes its own so. Three people edit, undo and redo each other's operations, which come in any order; after each call
 * the host's text is compared with the site's. A second mirror of each site looks once in a while, for all changes since then. */
#include "cotpad.h"
#include <stdio.h>
#include <stdlib.h>
#include <string.h>

enum { PEOPLE = 3, SESSIONS = 40, STEPS = 120, OFTEN = 0, SELDOM = 1 };

/* A text of the host's, in UTF-8, and the operations that the site had when it was last changed. */
typedef struct {
    uint8_t *text;
    size_t length, room;
    uint32_t seen;
} mirror;

typedef struct {
    uint8_t *bytes;
    size_t count;
} frame;

typedef struct {
    cotpad_site site;
    mirror mirrors[2];
    frame inbox[PEOPLE * STEPS * 4];
    uint32_t held;
} person;

static struct {
    unsigned long calls, changes, inserted, removed, undos, redos, waited, released;
} told;

static void stop(const char *why, unsigned long number) {
    fprintf(stderr, "%s: %lu\n", why, number);
    exit(1);
}

static void must(cotpad_status status, const char *what) {
    if (status != COTPAD_OK) stop(what, status);
}

static void *memory(void *old, size_t count) {
    void *got = realloc(old, count + 1);
    if (got == NULL) stop("memory", count);
    return got;
}

/* ---- the mirror */

/* Where the character stands, in bytes, before which there are so many others from this byte on. */
static size_t byte_of(const mirror *m, size_t at, uint32_t characters) {
    for (; characters > 0; characters--) {
        if (at >= m->length) stop("a change past the end of the mirror", characters);
        do at++;
        while (at < m->length && (m->text[at] & 0xC0) == 0x80);
    }
    return at;
}

/* The characters that stand there now, which the caller frees. */
static uint8_t *range(cotpad_site *site, uint32_t place, uint32_t count, size_t *length) {
    uint8_t *bytes = memory(NULL, 4 * (size_t)count); /* a character is at most four bytes */
    must(cotpad_text_range(site, place, count, bytes, 4 * (size_t)count, length), "text_range");
    return bytes;
}

/* Makes one change: what comes in by it stands in the site's text at its place already. */
static void change(mirror *m, cotpad_site *site, const cotpad_change *c) {
    size_t came = 0, at = byte_of(m, 0, c->place), behind = byte_of(m, at, c->removed);
    uint8_t *bytes = range(site, c->place, c->inserted, &came);
    size_t length = m->length - (behind - at) + came;
    if (length > m->room) {
        m->room = 2 * length;
        m->text = memory(m->text, m->room);
    }
    memmove(m->text + at + came, m->text + behind, m->length - behind);
    memcpy(m->text + at, bytes, came);
    m->length = length;
    told.changes++, told.removed += c->removed, told.inserted += c->inserted;
    free(bytes);
}

/* Makes all changes since the mirror was changed last. A host that goes on where cotpad_changes has no memory calls this again. */
static void follow(mirror *m, cotpad_site *site) {
    cotpad_change few[8], *changes = few;
    size_t count = 0;
    cotpad_status status = cotpad_changes(site, m->seen, few, 8, &count);
    if (status == COTPAD_TOO_SHORT) {
        changes = memory(NULL, count * sizeof *changes);
        status = cotpad_changes(site, m->seen, changes, count, &count);
    }
    must(status, "changes");
    for (size_t i = 0; i < count; i++) change(m, site, &changes[i]);
    m->seen = cotpad_operations(site);
    if (changes != few) free(changes);
}

static void compare(const mirror *m, cotpad_site *site) {
    uint8_t *text = memory(NULL, m->length);
    size_t length = 0;
    must(cotpad_text(site, text, m->length, &length), "text");
    if (length != m->length || memcmp(text, m->text, length) != 0) stop("the mirror shows another text after call", told.calls);
    free(text);
}

/* ---- what is drawn */

static uint32_t draw(uint32_t below) {
    static uint64_t state = 88172645463325252u;
    state ^= state << 13, state ^= state >> 7, state ^= state << 17;
    return (uint32_t)(state >> 33) % below;
}

/* Each call that can change a site ends so. */
static void called(person *p) {
    told.calls++;
    told.released += cotpad_released(&p->site);
    follow(&p->mirrors[OFTEN], &p->site);
    compare(&p->mirrors[OFTEN], &p->site);
    if (draw(9) > 0) return;
    follow(&p->mirrors[SELDOM], &p->site);
    compare(&p->mirrors[SELDOM], &p->site);
}

static void put(person *to, const uint8_t *bytes, size_t count) {
    if (to->held == sizeof to->inbox / sizeof *to->inbox) stop("an inbox is full", to->held);
    frame *f = &to->inbox[to->held++];
    f->bytes = memory(NULL, count);
    f->count = count;
    memcpy(f->bytes, bytes, count);
}

/* The bytes of a frame behind the four that tell it. */
static size_t body(const uint8_t *bytes) {
    return (size_t)bytes[0] << 24 | (size_t)bytes[1] << 16 | (size_t)bytes[2] << 8 | bytes[3];
}

/* Sends what a person made and released since the history had so many operations: each frame by itself, so that they come in any order. */
static void send_from(person *people, uint32_t from, uint32_t start) {
    static uint8_t bytes[1 << 18];
    size_t count = 0;
    must(cotpad_frames(&people[from].site, start, bytes, sizeof bytes, &count), "frames");
    for (size_t at = 0; at < count; at += 4 + body(bytes + at))
        for (uint32_t to = 0; to < PEOPLE; to++)
            if (to != from) put(&people[to], bytes + at, 4 + body(bytes + at));
}

static void type(cotpad_site *site) {
    static const char *const letters[] = {"a", "b", "c", " ", "\n", "\xC3\xA9", "\xF0\x9D\x84\x9E"};
    uint8_t text[80];
    size_t length = 0;
    uint32_t made = 0;
    for (uint32_t count = 1 + draw(20); count > 0; count--) {
        const char *letter = letters[draw(7)];
        memcpy(text + length, letter, strlen(letter));
        length += strlen(letter);
    }
    must(cotpad_insert_text(site, draw(cotpad_characters(site) + 1), text, length, &made), "insert_text");
}

static void cut(cotpad_site *site) {
    uint32_t shown = cotpad_characters(site), made = 0;
    if (shown == 0) return;
    uint32_t place = draw(shown), most = shown - place < 5 ? shown - place : 5;
    must(cotpad_delete_range(site, place, 1 + draw(most), &made), "delete_range");
}

/* Undoes an insert or a delete of the history, whoever made it, or redoes one that is undone. */
static void turn(cotpad_site *site) {
    uint32_t operations = cotpad_operations(site), generation = 0;
    cotpad_operation o = {0};
    if (operations == 0) return;
    must(cotpad_operation_at(site, draw(operations), &o), "operation_at");
    must(cotpad_generation(site, o.member.site, o.member.number, &generation), "generation");
    if (generation % 2 == 0) {
        told.undos++;
        must(cotpad_undo(site, o.member.site, o.member.number), "undo");
    } else {
        told.redos++;
        must(cotpad_redo(site, o.member.site, o.member.number), "redo");
    }
}

/* Undoes or redoes what stands side by side in the history. */
static void turn_range(cotpad_site *site) {
    uint32_t operations = cotpad_operations(site), made = 0;
    if (operations == 0) return;
    uint32_t first = draw(operations), most = operations - first < 6 ? operations - first : 6, count = 1 + draw(most);
    if (draw(2) == 0) {
        must(cotpad_undo_range(site, first, count, &made), "undo_range");
        told.undos += made;
    } else {
        must(cotpad_redo_range(site, first, count, &made), "redo_range");
        told.redos += made;
    }
}

static void edit(person *people, uint32_t who) {
    cotpad_site *site = &people[who].site;
    uint32_t start = cotpad_operations(site), act = draw(10);
    if (act < 4) type(site);
    else if (act < 6) cut(site);
    else if (act < 9) turn(site);
    else turn_range(site);
    called(&people[who]);
    send_from(people, who, start);
}

/* Delivers one of the frames that came, whichever; what came before the one that it was made after waits. */
static void deliver(person *p) {
    cotpad_verdict v = {0};
    if (p->held == 0) return;
    frame *f = &p->inbox[draw(p->held)], taken = *f;
    *f = p->inbox[--p->held];
    must(cotpad_receive(&p->site, taken.bytes, taken.count, &v), "receive");
    told.waited += v.kind == COTPAD_VERDICT_WAITS;
    called(p);
    free(taken.bytes);
}

static void exchange(person *joiner, person *server) {
    static uint8_t first[1 << 16], second[1 << 20], third[1 << 20];
    size_t one = 0, two = 0, three = 0;
    cotpad_verdict why = {0};
    must(cotpad_exchange_offer(&joiner->site, first, sizeof first, &one), "offer");
    must(cotpad_exchange_answer(&server->site, first, one, second, sizeof second, &two, &why), "answer");
    must(cotpad_exchange_close(&joiner->site, second, two, third, sizeof third, &three, &why), "close");
    called(joiner);
    must(cotpad_exchange_finish(&server->site, third, three, &why), "finish");
    called(server);
}

/* ---- a session */

static void begin(person *p, uint32_t number) {
    memset(p, 0, sizeof *p);
    for (uint32_t i = 0; i < 2; i++) p->mirrors[i].text = memory(NULL, 0);
    must(cotpad_open(&p->site, number), "open");
}

static void end(person *p) {
    for (uint32_t i = 0; i < 2; i++) {
        follow(&p->mirrors[i], &p->site);
        compare(&p->mirrors[i], &p->site);
        free(p->mirrors[i].text);
    }
    cotpad_close(&p->site);
}

static void session(person *people) {
    for (uint32_t who = 0; who < PEOPLE; who++) begin(&people[who], who);
    for (uint32_t step = 0; step < STEPS; step++) {
        if (draw(3) == 0) edit(people, draw(PEOPLE));
        else deliver(&people[draw(PEOPLE)]);
        if (step == STEPS / 2) exchange(&people[2], &people[0]);
    }
    for (uint32_t who = 0; who < PEOPLE; who++)
        while (people[who].held > 0) deliver(&people[who]);
    for (uint32_t who = 1; who < PEOPLE; who++) compare(&people[0].mirrors[OFTEN], &people[who].site);
    for (uint32_t who = 0; who < PEOPLE; who++) end(&people[who]);
}

int main(void) {
    static person people[PEOPLE];
    if (cotpad_version() != COTPAD_VERSION) return 2;
    for (uint32_t i = 0; i < SESSIONS; i++) session(people);
    printf("%d sessions of three people: after each of %lu calls the host's text was the site's\n", SESSIONS, told.calls);
    printf("it was changed %lu times: %lu characters came in, %lu were taken away\n", told.changes, told.inserted, told.removed);
    printf("%lu undos and %lu redos; %lu operations waited, %lu were released\n", told.undos, told.redos, told.waited, told.released);
    return 0;
}
