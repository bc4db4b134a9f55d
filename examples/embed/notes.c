/* Three people write one note. Each has a site; what a site sends goes into the inboxes of the others as bytes. */
#include "cotpad.h"
#include <stdio.h>
#include <stdlib.h>
#include <string.h>

enum { PEOPLE = 3 };

typedef struct {
    cotpad_site site;
    uint8_t *inbox; /* bytes that came in and aren't delivered yet */
    size_t held, room;
} person;

static void stop(const char *why, cotpad_status status) {
    fprintf(stderr, "%s: status %u\n", why, status);
    exit(1);
}

static void must(cotpad_status status, const char *what) {
    if (status != COTPAD_OK) stop(what, status);
}

static void put(person *to, const uint8_t *bytes, size_t count) {
    if (to->room - to->held < count) {
        size_t room = 2 * (to->held + count);
        uint8_t *more = realloc(to->inbox, room);
        if (more == NULL) stop("inbox", COTPAD_NO_MEMORY);
        to->inbox = more;
        to->room = room;
    }
    memcpy(to->inbox + to->held, bytes, count);
    to->held += count;
}

/* Asks twice: how many bytes there are, and for the bytes. The caller frees them. */
typedef cotpad_status writer(cotpad_site *site, uint8_t *out, size_t room, size_t *needed);

static uint8_t *bytes_of(cotpad_site *site, writer *write, size_t *count) {
    uint8_t none[1];
    size_t needed = 0;
    cotpad_status status = write(site, none, 0, &needed);
    uint8_t *bytes = malloc(needed + 1);
    if (bytes == NULL) stop("bytes", COTPAD_NO_MEMORY);
    if (status == COTPAD_TOO_SHORT) status = write(site, bytes, needed, &needed);
    must(status, "bytes");
    bytes[needed] = 0;
    *count = needed;
    return bytes;
}

/* Sends the frames of all that a person's site integrated from this index on to everybody else: the edit of the person, and what
 * it released, which stands behind it; those who have that already answer that it is a repeat. Where a receiver compares the author
 * of a frame with its sender, send only those with (frame[5] << 8 | frame[6]) == from. */
static void send_from(person *people, int from, uint32_t start) {
    static uint8_t frame[COTPAD_FRAME_MAX];
    cotpad_site *site = &people[from].site;
    for (uint32_t i = start; i < cotpad_operations(site); i++) {
        size_t count = 0;
        must(cotpad_frame(site, i, frame, sizeof frame, &count), "frame");
        for (int to = 0; to < PEOPLE; to++)
            if (to != from) put(&people[to], frame, count);
    }
}

static void tell(int who, const cotpad_verdict *v) {
    static const char *const did[] = {"?", "insert", "delete", "undo", "redo"};
    const cotpad_operation *o = &v->operation;
    if (v->kind == COTPAD_VERDICT_INTEGRATED && o->kind <= COTPAD_OPERATION_DELETE) return;
    printf("  site %d: %s of %u.%u by site %u %s", who, did[o->kind <= 4 ? o->kind : 0], o->member.site, o->member.number,
        o->author, v->kind == COTPAD_VERDICT_WAITS ? "waits" : "integrated");
    if (v->kind == COTPAD_VERDICT_WAITS) printf(" for %u.%u", v->missing.site, v->missing.number);
    printf("\n");
}

/* Tells what the last call released: of an operation that waited its name alone is known. */
static void tell_released(cotpad_site *site, int who) {
    for (uint32_t i = 0; i < cotpad_released(site); i++) {
        cotpad_verdict v = {0};
        must(cotpad_released_at(site, i, &v), "released_at");
        const cotpad_member *m = &v.operation.member;
        printf("  site %d: %u.%u released, verdict %u\n", who, m->site, m->number, v.kind);
    }
}

/* The end of an edit or a delivery that is done. Memory may have run out among the releases after it: they are called for again. */
static void must_edit(cotpad_site *site, int who, cotpad_status status, const char *what) {
    tell_released(site, who);
    if (status == COTPAD_UNSETTLED) {
        status = cotpad_settle(site);
        tell_released(site, who);
    }
    must(status, what);
}

static void type_alone(person *people, int who, uint32_t place, const char *text) {
    cotpad_site *site = &people[who].site;
    uint32_t made = 0;
    cotpad_status status = cotpad_insert_text(site, place, (const uint8_t *)text, strlen(text), &made);
    tell_released(site, who);
    must(status, "insert_text"); /* a host that goes on where memory ran out has 256 * `made` characters less to insert */
}

static void type(person *people, int who, uint32_t place, const char *text) {
    uint32_t start = cotpad_operations(&people[who].site);
    type_alone(people, who, place, text);
    send_from(people, who, start);
}

static void delete_at(person *people, int who, uint32_t place) {
    cotpad_site *site = &people[who].site;
    uint32_t start = cotpad_operations(site);
    must_edit(site, who, cotpad_delete(site, place), "delete");
    send_from(people, who, start);
}

/* Delivers all whole frames of the inbox; each call releases what it frees. */
static void take_in(person *people, int who) {
    person *p = &people[who];
    size_t at = 0;
    while (at < p->held) {
        cotpad_verdict v = {0};
        cotpad_status status = cotpad_receive(&p->site, p->inbox + at, p->held - at, &v);
        if (v.kind == COTPAD_VERDICT_INCOMPLETE) break;
        if (v.kind == COTPAD_VERDICT_MALFORMED) stop("malformed", v.cause);
        if (v.kind != 0) tell(who, &v);
        must_edit(&p->site, who, status, "receive");
        at += v.used;
    }
    if (at > 0) memmove(p->inbox, p->inbox + at, p->held - at); /* an inbox that was never filled is null */
    p->held -= at;
}

static void show(person *people, int who) {
    size_t count = 0;
    uint8_t *text = bytes_of(&people[who].site, cotpad_text, &count);
    printf("site %d: %u characters: %s\n", who, cotpad_characters(&people[who].site), (char *)text);
    free(text);
}

static void sync_and_show(person *people) {
    for (int who = 0; who < PEOPLE; who++) take_in(people, who);
    for (int who = 0; who < PEOPLE; who++) show(people, who);
}

/* Tells what the operation that was integrated last inserted. */
static void tell_inserted(cotpad_site *site) {
    uint8_t text[1025]; /* 256 characters are at most 1,024 bytes */
    uint32_t index = cotpad_operations(site) - 1;
    cotpad_operation o = {0};
    size_t count = 0;
    must(cotpad_operation_at(site, index, &o), "operation_at");
    must(cotpad_operation_text(site, index, text, sizeof text, &count), "operation_text");
    printf("  %u.%u inserts %u characters:%.*s\n", o.member.site, o.member.number, o.characters, (int)count, (char *)text);
}

/* The insert or delete that was integrated last, but for `back` later ones. */
static cotpad_operation original_from_end(cotpad_site *site, uint32_t back) {
    cotpad_operation o = {0};
    for (uint32_t i = cotpad_operations(site); i-- > 0;) {
        must(cotpad_operation_at(site, i, &o), "operation_at");
        if (o.kind <= COTPAD_OPERATION_DELETE && back-- == 0) return o;
    }
    stop("no such operation", COTPAD_NONE);
    return o;
}

static void undo(person *people, int who, cotpad_member of) {
    cotpad_site *site = &people[who].site;
    uint32_t start = cotpad_operations(site);
    must_edit(site, who, cotpad_undo(site, of.site, of.number), "undo");
    send_from(people, who, start);
}

/* Two sites exchange what they lack, each message in a buffer that is large enough for this text. */
static void exchange(cotpad_site *joiner, cotpad_site *server) {
    static uint8_t first[4096], second[4096], third[4096];
    size_t one = 0, two = 0, three = 0;
    cotpad_verdict why = {0};
    must(cotpad_exchange_offer(joiner, first, sizeof first, &one), "offer");
    must(cotpad_exchange_answer(server, first, one, second, sizeof second, &two, &why), "answer");
    must(cotpad_exchange_close(joiner, second, two, third, sizeof third, &three, &why), "close");
    must(cotpad_exchange_finish(server, third, three, &why), "finish");
}

/* Ends a site, and goes on from its log. */
static void leave_and_come_back(cotpad_site *site, uint32_t number) {
    size_t count = 0;
    uint8_t *log = bytes_of(site, cotpad_save, &count);
    cotpad_verdict why = {0};
    cotpad_close(site);
    must(cotpad_load(site, number, log, count, &why), "load");
    free(log);
}

/* The frame of the insert 0.1 of a letter at the front of an empty text. */
#define FIRST(letter) 0, 0, 0, 19, 1, 0, 0, 0, 0, 0, 1, 0, 0, 0, 0, 0, 0, 0, letter, 0, 0, 0, 0

static void tell_load(const char *what, const uint8_t *bytes, size_t count) {
    cotpad_site site = COTPAD_SITE_EMPTY;
    cotpad_verdict why = {0};
    cotpad_status status = cotpad_load(&site, 0, bytes, count, &why);
    printf("a log %s: status %u, offset %u, cause %u, kind %u\n", what, status, why.offset, why.cause, why.kind);
    if (status == COTPAD_OK) cotpad_close(&site);
}

static void refused_logs(void) {
    const uint8_t head[] = "COTLOG3\n", good[] = {'C', 'O', 'T', 'L', 'O', 'G', '2', '\n', FIRST('a')};
    const uint8_t bad[] = {'C', 'O', 'T', 'L', 'O', 'G', '2', '\n', FIRST('a'), 0, 0, 0, 4, 9, 9, 9, 9};
    const uint8_t forged[] = {'C', 'O', 'T', 'L', 'O', 'G', '2', '\n', FIRST('a'), FIRST('b')};
    tell_load("of an operation", good, sizeof good);
    tell_load("of another kind", head, sizeof head - 1);
    tell_load("that is cut", good, sizeof good - 1);
    tell_load("with a bad frame", bad, sizeof bad);
    tell_load("with two inserts of one name", forged, sizeof forged);
}

static void refused_messages(cotpad_site *site) {
    const uint8_t other[] = {'C', 'O', 'T', 'L', 'O', 'G', '2', '\n', 0, 0, 0, 0, 0, 0};
    const uint8_t none[] = {'C', 'O', 'T', 'V', 'E', 'C', '2', '\n', 0, 0, 0, 0, 0, 0}; /* of a site that has nothing */
    const uint8_t more[] = {'C', 'O', 'T', 'V', 'E', 'C', '2', '\n', 0, 0, 0, 0, 0, 0, 0};
    const uint8_t forged[] = {FIRST('b'), 0, 0, 0, 0};
    static uint8_t out[4096];
    size_t needed = 0;
    cotpad_verdict why = {0};
    cotpad_status status = cotpad_exchange_answer(site, none, sizeof none, out, 1, &needed, &why);
    printf("answered: status %u\n", status);
    status = cotpad_exchange_answer(site, other, sizeof other, out, sizeof out, &needed, &why);
    printf("no first message: status %u, offset %u\n", status, why.offset);
    status = cotpad_exchange_answer(site, none, sizeof none - 1, out, sizeof out, &needed, &why);
    printf("a cut one: status %u, offset %u\n", status, why.offset);
    status = cotpad_exchange_answer(site, more, sizeof more, out, sizeof out, &needed, &why);
    printf("a byte too many: status %u, offset %u\n", status, why.offset);
    status = cotpad_exchange_finish(site, forged, sizeof forged, &why);
    printf("another 0.1: status %u, kind %u, %u.%u\n", status, why.kind, why.operation.member.site, why.operation.member.number);
}

static void refusals(person *people) {
    cotpad_site *site = &people[0].site, none = COTPAD_SITE_EMPTY;
    cotpad_status place = cotpad_delete(site, 99), after = cotpad_insert(site, 99, 'x');
    cotpad_status character = cotpad_insert(site, 0, 0xD800), site_out = cotpad_open(&none, 1024);
    cotpad_status unknown = cotpad_undo(site, 9, 9), name = cotpad_undo(site, 1024, 1), force = cotpad_redo(site, 0, 3);
    printf("refused: place %u %u, character %u, site %u, unknown %u, name %u, in force %u\n", place, after, character,
        site_out, unknown, name, force);
    const uint8_t latin[] = {'c', 0xE9}, *text = (const uint8_t *)"x";
    uint32_t made = 9, offset = 9;
    cotpad_member at = {0, 0, 0};
    cotpad_status utf8 = cotpad_insert_text(site, 0, latin, sizeof latin, &made), far = cotpad_insert_text(site, 99, text, 1, &made);
    cotpad_status range = cotpad_delete_range(site, 1, 99, &made), nobody = cotpad_name_at(site, 99, &at, &offset);
    printf("refused: text %u, its place %u, range %u, made %u, name at a place %u\n", utf8, far, range, made, nobody);
    const uint8_t bad[] = {0, 0, 0, 4, 9, 9, 9, 9};
    cotpad_verdict v = {0};
    must(cotpad_receive(site, bad, sizeof bad, &v), "receive");
    printf("bad bytes: kind %u, cause %u at %u\n", v.kind, v.cause, v.offset);
    must(cotpad_receive(site, bad, 3, &v), "receive");
    printf("three bytes: kind %u, at least %u\n", v.kind, v.offset);
}

int main(void) {
    if (cotpad_version() != COTPAD_VERSION) return 2;
    person people[PEOPLE] = {{COTPAD_SITE_EMPTY, NULL, 0, 0}, {COTPAD_SITE_EMPTY, NULL, 0, 0}, {COTPAD_SITE_EMPTY, NULL, 0, 0}};
    for (int who = 0; who < PEOPLE; who++) must(cotpad_open(&people[who].site, (uint32_t)who), "open");
    type(people, 0, 0, "tea");
    sync_and_show(people);
    printf("-- at once: 0 deletes t, 1 deletes e and types o, 2 types !\n");
    delete_at(people, 0, 0);
    delete_at(people, 1, 1);
    type(people, 1, 1, "o");
    type(people, 2, 3, "!");
    sync_and_show(people);
    printf("-- each undoes what another did\n");
    undo(people, 0, (cotpad_member){1, 1, 0});
    undo(people, 1, (cotpad_member){0, 2, 0});
    undo(people, 2, (cotpad_member){1, 2, 0});
    sync_and_show(people);
    printf("-- and 0 undoes the last insert or delete that it has\n");
    undo(people, 0, original_from_end(&people[0].site, 0).member);
    sync_and_show(people);
    printf("-- apart: 0 types, 2 deletes, and each exchanges with the other\n");
    type_alone(people, 0, 3, " at 4, caf\xC3\xA9");
    tell_inserted(&people[0].site);
    uint32_t made = 0;
    must(cotpad_delete_range(&people[2].site, 0, 2, &made), "delete_range");
    exchange(&people[2].site, &people[0].site);
    exchange(&people[1].site, &people[0].site);
    sync_and_show(people);
    printf("-- 1 leaves, comes back, and undoes the insert of the character at the front\n");
    leave_and_come_back(&people[1].site, 1);
    cotpad_member name = {0, 0, 0};
    uint32_t offset = 0;
    must(cotpad_name_at(&people[1].site, 0, &name, &offset), "name_at");
    printf("  it is character %u of %u.%u, from 0\n", offset, name.site, name.number);
    undo(people, 1, name);
    sync_and_show(people);
    refusals(people);
    refused_logs();
    refused_messages(&people[0].site);
    for (int who = 0; who < PEOPLE; who++) {
        cotpad_close(&people[who].site);
        free(people[who].inbox);
    }
    return 0;
}
