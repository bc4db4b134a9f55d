/* A cursor that stays where its user put it, while others edit: Ann's in the text that she and Bob write. It is drawn as `|`. */
#include "cotpad.h"
#include <stdio.h>
#include <stdlib.h>
#include <string.h>

/* A character stays the same wherever it goes: which one it is of the characters of its insert. */
typedef struct {
    cotpad_member name;
    uint32_t offset;
} letter;

/* The characters that stood before the cursor at any look since it was put, in the order of the text, hidden ones too. */
typedef struct {
    letter *before;
    uint32_t count, place; /* it stands after so many shown characters */
    uint32_t seen;         /* the operations that there were at the last look */
} cursor;
#define CURSOR_AT_START {NULL, 0, 0, 0}

typedef struct {
    letter is; /* first, so that letters are compared */
    uint32_t place;
} standing;

static int by_name(const void *left, const void *right) {
    const letter *a = left, *b = right;
    if (a->name.site != b->name.site) return a->name.site < b->name.site ? -1 : 1;
    if (a->name.number != b->name.number) return a->name.number < b->name.number ? -1 : 1;
    return (a->offset > b->offset) - (a->offset < b->offset);
}

/* Which character is shown at this place. */
static cotpad_status letter_at(cotpad_site *site, uint32_t place, letter *it) {
    return cotpad_name_at(site, place, &it->name, &it->offset);
}

/* Whether nothing changed before it, which is quick to see where one operation came: that shows characters or hides some, but not
 * both, so where as many stand before the last one of these, they are the same. */
static int stays(const cursor *c, cotpad_site *site) {
    letter last = {{0, 0, 0}, 0};
    uint32_t came = cotpad_operations(site) - c->seen;
    if (came == 0 || c->count == 0) return 1;
    return came == 1 && c->place > 0 && letter_at(site, c->place - 1, &last) == COTPAD_OK && by_name(&last, &c->before[c->count - 1]) == 0;
}

/* All shown characters in their order, and after them the same, sorted by name. The caller frees them. */
static standing *text_of(cotpad_site *site, uint32_t shown) {
    standing *text = malloc((2 * (size_t)shown + 1) * sizeof *text);
    if (text == NULL) return NULL;
    for (uint32_t i = 0; i < shown; i++) {
        text[i].place = i;
        letter_at(site, i, &text[i].is);
        text[shown + i] = text[i];
    }
    qsort(text + shown, shown, sizeof *text, by_name);
    return text;
}

/* Looks where the cursor stands now: behind the last of `before` that is shown. What else is shown there stands before it too. */
static cotpad_status look(cursor *c, cotpad_site *site) {
    uint32_t shown = cotpad_characters(site), count = 0, at = 0;
    if (!stays(c, site)) {
        standing *text = text_of(site, shown);
        letter *before = malloc((c->count + (size_t)shown) * sizeof *before);
        if (text == NULL || before == NULL) {
            free(text);
            free(before);
            return COTPAD_NO_MEMORY;
        }
        for (uint32_t i = 0; i < c->count; i++) {
            const standing *it = bsearch(&c->before[i], text + shown, shown, sizeof *it, by_name);
            if (it == NULL) before[count++] = c->before[i];
            while (it != NULL && at <= it->place) before[count++] = text[at++].is;
        }
        free(text);
        free(c->before);
        c->before = before;
        c->count = count;
        c->place = at;
    }
    c->seen = cotpad_operations(site);
    return COTPAD_OK;
}

/* The user puts the cursor after so many shown characters. */
static cotpad_status put(cursor *c, cotpad_site *site, uint32_t place) {
    cotpad_status status = look(c, site);
    if (status != COTPAD_OK) return status;
    if (place > cotpad_characters(site)) return COTPAD_PLACE_OUT;
    letter *before = realloc(c->before, (place + (size_t)c->count + 1) * sizeof *before);
    if (before == NULL) return COTPAD_NO_MEMORY;
    c->before = before;
    uint32_t same = c->count == c->place ? c->place : 0; /* where some are hidden, all are read anew */
    for (uint32_t i = same; i < place; i++) letter_at(site, i, &before[i]);
    c->count = c->place = place;
    return COTPAD_OK;
}

/* ---- Ann and Bob */

static cotpad_site ann = COTPAD_SITE_EMPTY, bob = COTPAD_SITE_EMPTY;
static cursor here = CURSOR_AT_START;

static void must(cotpad_status status) {
    if (status == COTPAD_OK) return;
    fprintf(stderr, "status %u\n", status);
    exit(1);
}

/* Sends the operations of a site from this index on. */
static void send_from(cotpad_site *from, uint32_t index, cotpad_site *to) {
    static uint8_t frame[COTPAD_FRAME_MAX];
    cotpad_verdict verdict = {0};
    size_t count = 0;
    for (; index < cotpad_operations(from); index++) {
        must(cotpad_frame(from, index, frame, sizeof frame, &count));
        must(cotpad_receive(to, frame, count, &verdict));
    }
}

static void insert(cotpad_site *at, cotpad_site *other, uint32_t place, const char *text) {
    uint32_t index = cotpad_operations(at), made = 0;
    must(cotpad_insert_text(at, place, (const uint8_t *)text, strlen(text), &made));
    send_from(at, index, other);
}

static void erase(cotpad_site *at, cotpad_site *other, uint32_t place, uint32_t count) {
    uint32_t index = cotpad_operations(at), made = 0;
    must(cotpad_delete_range(at, place, count, &made));
    send_from(at, index, other);
}

/* Bob takes back what his site did last but `back`. */
static void undo(uint32_t back) {
    uint32_t index = cotpad_operations(&bob);
    cotpad_operation last = {0};
    must(cotpad_operation_at(&bob, index - 1 - back, &last));
    must(cotpad_undo(&bob, last.member.site, last.member.number));
    send_from(&bob, index, &ann);
}

static void draw(const char *what) {
    uint8_t text[64]; /* enough for this text, which is ASCII */
    size_t count = 0;
    must(look(&here, &ann));
    must(cotpad_text(&ann, text, sizeof text, &count));
    printf("%-34s%.*s|%.*s\n", what, (int)here.place, (char *)text, (int)(count - here.place), (char *)text + here.place);
}

int main(void) {
    if (cotpad_version() != COTPAD_VERSION) return 2;
    must(cotpad_open(&ann, 0));
    must(cotpad_open(&bob, 1));
    insert(&ann, &bob, 0, "Agenda: budget");
    must(put(&here, &ann, 8));
    draw("Ann puts the cursor");
    insert(&bob, &ann, 0, ">> ");
    draw("Bob types before it");
    insert(&bob, &ann, 17, ", staff");
    draw("Bob types after it");
    insert(&ann, &bob, here.place, "draft ");
    must(look(&here, &ann)); /* what this edit released may have moved it */
    must(put(&here, &ann, here.place + 6));
    draw("Ann types");
    insert(&bob, &ann, 17, "short ");
    draw("Bob types at the cursor");
    erase(&bob, &ann, 11, 6);
    draw("Bob deletes what Ann typed");
    insert(&bob, &ann, 3, "our ");
    draw("Bob types before it");
    undo(1); /* the delete of the blank */
    draw("Bob takes back the last delete");
    erase(&ann, &bob, here.place - 1, 1);
    draw("Ann deletes backwards");
    must(put(&here, &ann, 0));
    draw("Ann puts it to the front");
    printf("past the text: status %u\n", put(&here, &ann, 99));
    free(here.before);
    cotpad_close(&ann);
    cotpad_close(&bob);
    return 0;
}
