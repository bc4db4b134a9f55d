/* Positions in a drawn text, compared with sums over a copy of the text that this host keeps; and the places of anchors after more than
 * a thousand operations, compared with where their characters stand in that copy, with each allocation of the call refused in turn. Link
 * with -Wl,--wrap=malloc,--wrap=realloc. */
#include "cotpad.h"
#include <stdio.h>
#include <stdlib.h>
#include <string.h>

static long allocations, refused = -1;

void *__real_malloc(size_t count);
void *__real_realloc(void *old, size_t count);

void *__wrap_malloc(size_t count) {
    return ++allocations == refused ? NULL : __real_malloc(count);
}

void *__wrap_realloc(void *old, size_t count) {
    return ++allocations == refused ? NULL : __real_realloc(old, count);
}

static void is(uint64_t it, uint64_t wanted, const char *what) {
    if (it == wanted) return;
    printf("%s: %llu, and not %llu\n", what, (unsigned long long)it, (unsigned long long)wanted);
    exit(1);
}

/* What is drawn, in UTF-8 and by its code: of one, two, three and four bytes, and two units for the last. */
typedef struct {
    const char *utf8;
    uint32_t scalar;
} letter;
static const letter letters[] = {{"a", 'a'}, {"\n", '\n'}, {"\r", '\r'}, {"\xC3\xA9", 0xe9}, {"\xE2\x82\xAC", 0x20ac},
    {"\xEF\xBF\xBF", 0xffff}, {"\xF0\x90\x80\x80", 0x10000}, {"\xF0\x9D\x84\x9E", 0x1d11e}};
#define LETTERS (sizeof letters / sizeof *letters)

/* A character of the copy: which of those that were drawn, and the number under which it was inserted. */
typedef struct {
    const letter *is;
    uint32_t number;
    int hidden;
} cell;

#define MOST 2000
static cell copy[MOST];
static uint32_t cells, inserted;
static cotpad_site site = COTPAD_SITE_EMPTY;

static uint32_t drawn(uint32_t below) {
    static uint64_t state = 1;
    state = state * 6364136223846793005u + 1442695040888963407u;
    return (uint32_t)(state >> 33) % below;
}

static void insert(uint32_t place) {
    const letter *it = &letters[drawn(LETTERS)];
    is(cotpad_insert(&site, place, it->scalar), COTPAD_OK, "insert");
    memmove(copy + place + 1, copy + place, (cells - place) * sizeof *copy);
    copy[place].is = it;
    copy[place].hidden = 0;
    copy[place].number = ++inserted;
    cells++;
}

/* Each place of the text by each measure, and back; and each offset between two of them has no place. */
static void places(void) {
    uint64_t bytes = 0, units = 0, told = 0;
    uint32_t line = 0, column = 0, one = 0, other = 0;
    for (uint32_t place = 0; place <= cells; place++) {
        is(cotpad_offset(&site, COTPAD_BYTES, place, &told), COTPAD_OK, "offset in bytes");
        is(told, bytes, "the offset in bytes");
        is(cotpad_offset(&site, COTPAD_UNITS, place, &told), COTPAD_OK, "offset in units");
        is(told, units, "the offset in units");
        is(cotpad_line(&site, place, &one, &other), COTPAD_OK, "line");
        is(one, line, "the line");
        is(other, column, "the column");
        is(cotpad_place_at(&site, COTPAD_BYTES, bytes, &one), COTPAD_OK, "place_at of bytes");
        is(one, place, "the place by bytes");
        is(cotpad_place_at(&site, COTPAD_UNITS, units, &one), COTPAD_OK, "place_at of units");
        is(one, place, "the place by units");
        is(cotpad_line_place(&site, line, column, &one), COTPAD_OK, "line_place");
        is(one, place, "the place by line and column");
        if (place == cells) break;
        const letter *next = copy[place].is;
        one = 77;
        for (size_t i = 1; i < strlen(next->utf8); i++)
            is(cotpad_place_at(&site, COTPAD_BYTES, bytes + i, &one), COTPAD_NONE, "within a character");
        if (next->scalar > 0xffff) is(cotpad_place_at(&site, COTPAD_UNITS, units + 1, &one), COTPAD_NONE, "between two units");
        if (next->scalar == '\n') is(cotpad_line_place(&site, line, column + 1, &one), COTPAD_NONE, "behind a line");
        is(one, 77, "what a call wrote that told nothing");
        bytes += strlen(next->utf8);
        units += next->scalar > 0xffff ? 2 : 1;
        line += next->scalar == '\n';
        column = next->scalar == '\n' ? 0 : column + 1;
    }
    told = one = other = 77;
    is(cotpad_offset(&site, COTPAD_BYTES, cells + 1, &told), COTPAD_PLACE_OUT, "past the text, in bytes");
    is(cotpad_offset(&site, COTPAD_UNITS, 4294967295u, &told), COTPAD_PLACE_OUT, "past the text, in units");
    is(cotpad_line(&site, cells + 1, &one, &other), COTPAD_PLACE_OUT, "the line past the text");
    is(cotpad_place_at(&site, COTPAD_BYTES, bytes + 1, &one), COTPAD_NONE, "past the bytes");
    is(cotpad_place_at(&site, COTPAD_UNITS, UINT64_MAX, &one), COTPAD_NONE, "past the units");
    is(cotpad_line_place(&site, line + 1, 0, &one), COTPAD_NONE, "past the lines");
    is(cotpad_line_place(&site, line, 4294967295u, &one), COTPAD_NONE, "past the columns");
    is(cotpad_place_at(&site, 0, 0, &one), COTPAD_NO_NAME, "measure 0");
    is(cotpad_offset(&site, 3, 0, &told), COTPAD_NO_NAME, "measure 3");
    is(cotpad_offset(&site, 257, 0, &told), COTPAD_NO_NAME, "measure 257");
    is(told + one + other, 3 * 77, "what calls wrote that told nothing");
}

/* The anchor behind the character that was inserted under this number, which is its name: each insert is of one character. */
static cotpad_anchor behind(uint32_t number) {
    cotpad_anchor anchor = {COTPAD_ANCHOR_AFTER, 0, 0, 0};
    cotpad_operation operation = {0};
    uint32_t inserts = 0;
    for (uint32_t i = 0; i < cotpad_operations(&site); i++) {
        is(cotpad_operation_at(&site, i, &operation), COTPAD_OK, "operation_at");
        if (operation.kind == COTPAD_OPERATION_INSERT && ++inserts == number) anchor.number = operation.member.number;
    }
    return anchor;
}

/* How many shown characters of the copy stand before that anchor. */
static uint32_t wanted(uint32_t number) {
    uint32_t shown = 0;
    for (uint32_t i = 0; i < cells; i++) {
        shown += !copy[i].hidden;
        if (copy[i].number == number) return shown;
    }
    return COTPAD_NO_PLACE;
}

#define ANCHORS 40

/* Anchors behind drawn characters are placed, whatever the memory; a refused call writes nothing. */
static void anchors(void) {
    static cotpad_anchor given[ANCHORS + 1]; /* the last one is none */
    uint32_t numbers[ANCHORS], told[ANCHORS + 2], one = 0;
    long tried = 0;
    for (uint32_t i = 0; i < ANCHORS; i++) given[i] = behind(numbers[i] = 1 + drawn(inserted));
    for (int done = 0; !done; tried++) {
        memset(told, 0x4d, sizeof told);
        allocations = 0;
        refused = tried + 1;
        cotpad_status answer = cotpad_anchor_places(&site, given, ANCHORS + 1, told, ANCHORS + 1);
        done = allocations < refused;
        refused = -1;
        if (answer == COTPAD_NO_MEMORY && !done) {
            for (uint32_t i = 0; i < ANCHORS + 2; i++) is(told[i], 0x4d4d4d4d, "what a refused call wrote");
            continue;
        }
        is(answer, COTPAD_OK, "anchor_places");
        for (uint32_t i = 0; i < ANCHORS; i++) is(told[i], wanted(numbers[i]), "the place of an anchor");
        is(told[ANCHORS], COTPAD_NO_PLACE, "the place of what is no anchor");
        is(told[ANCHORS + 1], 0x4d4d4d4d, "what is behind the places");
    }
    for (uint32_t i = 0; i < ANCHORS; i++) {
        is(cotpad_anchor_place(&site, &given[i], &one), COTPAD_OK, "anchor_place");
        is(one, wanted(numbers[i]), "the place of one anchor");
    }
    is(cotpad_anchor_places(&site, given, ANCHORS, told, ANCHORS - 1), COTPAD_TOO_SHORT, "too little room");
    is(cotpad_anchor_places(&site, given, 0, told, 0), COTPAD_OK, "no anchors");
    if (tried < 3) is((uint64_t)tried, 3, "fewer allocations were refused than there are at least");
}

int main(void) {
    if (cotpad_version() != COTPAD_VERSION) return 2;
    is(cotpad_open(&site, 0), COTPAD_OK, "open");
    places();
    for (int round = 0; round < 6; round++) {
        for (int i = 0; i < 250; i++) insert(drawn(cells + 1));
        places();
        anchors();
    }
    /* A third is deleted: places count what is shown, and an anchor keeps its place where its character stood. */
    for (uint32_t i = 0, shown = 0; i < cells; i++) {
        if (drawn(3) == 0) {
            is(cotpad_delete(&site, shown), COTPAD_OK, "delete");
            copy[i].hidden = 1;
        } else {
            shown++;
        }
    }
    anchors();
    uint32_t kept = 0;
    for (uint32_t i = 0; i < cells; i++)
        if (!copy[i].hidden) copy[kept++] = copy[i];
    cells = kept;
    places();
    cotpad_close(&site);
    puts("each position is that of a sum, and each anchor is at its character");
    return 0;
}
