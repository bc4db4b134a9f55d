/* Two threads, each with a site of its own that it alone uses, send each other frames through a queue with a lock. Each edits,
 * undoes what anybody did, and takes in what came; at the end both have to show one text. */
#define _POSIX_C_SOURCE 200112L
#include "cotpad.h"
#include <pthread.h>
#include <stdio.h>
#include <stdlib.h>
#include <string.h>

enum { EDITS = 400, LONGEST = 171029, TEXT = 4 * EDITS + 1 };

typedef struct message {
    struct message *next;
    size_t count;
    uint8_t bytes[];
} message;

/* What is on the way to one thread. `ended`: nothing more will come. */
typedef struct {
    pthread_mutex_t lock;
    pthread_cond_t came;
    message *first, **last;
    int ended;
} queue;

typedef struct {
    uint32_t number;
    queue *in, *out;
    uint64_t drawn;
    uint8_t *frame; /* room for the longest one */
    uint8_t text[TEXT];
    size_t length;
    uint32_t operations;
} person;

static void stop(const char *why, cotpad_status status) {
    fprintf(stderr, "%s: status %u\n", why, status);
    exit(1);
}

static void must(cotpad_status status, const char *what) {
    if (status != COTPAD_OK) stop(what, status);
}

static void put(queue *to, const uint8_t *bytes, size_t count) {
    message *made = malloc(sizeof *made + count);
    if (made == NULL) stop("message", COTPAD_NO_MEMORY);
    made->next = NULL;
    made->count = count;
    memcpy(made->bytes, bytes, count);
    pthread_mutex_lock(&to->lock);
    *to->last = made;
    to->last = &made->next;
    pthread_cond_signal(&to->came);
    pthread_mutex_unlock(&to->lock);
}

static void end(queue *to) {
    pthread_mutex_lock(&to->lock);
    to->ended = 1;
    pthread_cond_signal(&to->came);
    pthread_mutex_unlock(&to->lock);
}

/* All that came; if `wait`, it waits for something to come, and answers NULL at the end. */
static message *take(queue *from, int wait) {
    pthread_mutex_lock(&from->lock);
    while (wait && from->first == NULL && !from->ended) pthread_cond_wait(&from->came, &from->lock);
    message *all = from->first;
    from->first = NULL;
    from->last = &from->first;
    pthread_mutex_unlock(&from->lock);
    return all;
}

static void deliver(cotpad_site *site, message *all) {
    while (all != NULL) {
        cotpad_verdict verdict = {0};
        must(cotpad_receive(site, all->bytes, all->count, &verdict), "receive");
        if (verdict.kind != COTPAD_VERDICT_INTEGRATED && verdict.kind != COTPAD_VERDICT_REPEAT) stop("verdict", verdict.kind);
        message *next = all->next;
        free(all);
        all = next;
    }
}

static uint32_t draw(person *p, uint32_t below) {
    p->drawn = p->drawn * 6364136223846793005u + 1442695040888963407u;
    return (uint32_t)(p->drawn >> 33) % below;
}

/* Undoes or redoes an operation that is drawn. */
static void turn(person *p, cotpad_site *site) {
    cotpad_operation o = {0};
    must(cotpad_operation_at(site, draw(p, cotpad_operations(site)), &o), "operation_at");
    cotpad_status status = cotpad_undo(site, o.member.site, o.member.number);
    if (status == COTPAD_NOT_IN_FORCE) status = cotpad_redo(site, o.member.site, o.member.number);
    must(status, "undo or redo");
}

static void edit(person *p, cotpad_site *site) {
    uint32_t shown = cotpad_characters(site), what = draw(p, 8);
    if (what < 2 && shown > 0)
        must(cotpad_delete(site, draw(p, shown)), "delete");
    else if (what < 4 && cotpad_operations(site) > 0)
        turn(p, site);
    else
        must(cotpad_insert(site, draw(p, shown + 1), 'a' + draw(p, 26)), "insert");
    size_t count = 0;
    must(cotpad_frame(site, cotpad_operations(site) - 1, p->frame, LONGEST, &count), "frame");
    put(p->out, p->frame, count);
}

static void *live(void *it) {
    person *p = it;
    cotpad_site site = COTPAD_SITE_EMPTY;
    must(cotpad_open(&site, p->number), "open");
    for (int i = 0; i < EDITS; i++) {
        edit(p, &site);
        deliver(&site, take(p->in, 0));
    }
    end(p->out);
    for (message *all; (all = take(p->in, 1)) != NULL;) deliver(&site, all);
    must(cotpad_text(&site, p->text, sizeof p->text, &p->length), "text");
    p->operations = cotpad_operations(&site);
    if (cotpad_waiting(&site) != 0) stop("something waits", COTPAD_OK);
    cotpad_close(&site);
    return NULL;
}

int main(void) {
    static queue queues[2];
    static person people[2];
    pthread_t threads[2];
    for (int i = 0; i < 2; i++) {
        pthread_mutex_init(&queues[i].lock, NULL);
        pthread_cond_init(&queues[i].came, NULL);
        queues[i].last = &queues[i].first;
        people[i].number = (uint32_t)i;
        people[i].in = &queues[i];
        people[i].out = &queues[1 - i];
        people[i].drawn = (uint64_t)i + 1;
        if ((people[i].frame = malloc(LONGEST)) == NULL) stop("frame", COTPAD_NO_MEMORY);
    }
    for (int i = 0; i < 2; i++)
        if (pthread_create(&threads[i], NULL, live, &people[i]) != 0) stop("thread", COTPAD_NO_MEMORY);
    for (int i = 0; i < 2; i++) pthread_join(threads[i], NULL);
    int same = people[0].length == people[1].length && memcmp(people[0].text, people[1].text, people[0].length) == 0;
    printf("two threads: %u and %u operations, %s text\n", people[0].operations, people[1].operations, same ? "one" : "not one");
    for (int i = 0; i < 2; i++) {
        free(people[i].frame);
        pthread_cond_destroy(&queues[i].came);
        pthread_mutex_destroy(&queues[i].lock);
    }
    return same ? 0 : 1;
}
