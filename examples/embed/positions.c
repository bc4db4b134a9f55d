/* Places as editors count them: by bytes of UTF-8, by units of UTF-16, and by lines and columns; and the cursors of three people, all of
 * which are placed by one call. */
#include "cotpad.h"
#include <stdio.h>
#include <stdlib.h>
#include <string.h>

enum { ANN, BOB, CY, PEOPLE };
static const char *const names[PEOPLE] = {"Ann", "Bob", "Cy"};
static cotpad_site sites[PEOPLE] = {COTPAD_SITE_EMPTY, COTPAD_SITE_EMPTY, COTPAD_SITE_EMPTY};
static cotpad_anchor cursors[PEOPLE]; /* as each told the others: four numbers, sent by other means than frames */

static void must(cotpad_status status) {
    if (status == COTPAD_OK) return;
    fprintf(stderr, "status %u\n", status);
    exit(1);
}

/* Inserts a text at an offset in units, as an editor tells it that counts these. */
static void type(int who, uint64_t unit, const char *text) {
    uint32_t place = 0, made = 0;
    must(cotpad_place_at(&sites[who], COTPAD_UNITS, unit, &place));
    must(cotpad_insert_text(&sites[who], place, (const uint8_t *)text, strlen(text), &made));
}

/* Sends the operations of a site from this index on. */
static void send_from(int from, uint32_t index, int to) {
    static uint8_t frame[COTPAD_FRAME_MAX];
    cotpad_verdict verdict = {0};
    size_t count = 0;
    for (; index < cotpad_operations(&sites[from]); index++) {
        must(cotpad_frame(&sites[from], index, frame, sizeof frame, &count));
        must(cotpad_receive(&sites[to], frame, count, &verdict));
    }
}

/* What editors call the place. */
static void tell(const char *what, uint32_t place) {
    uint64_t bytes = 0, units = 0;
    uint32_t line = 0, column = 0;
    must(cotpad_offset(&sites[ANN], COTPAD_BYTES, place, &bytes));
    must(cotpad_offset(&sites[ANN], COTPAD_UNITS, place, &units));
    must(cotpad_line(&sites[ANN], place, &line, &column));
    printf("%-5s %5lu %5lu %5lu %4lu:%lu\n", what, (unsigned long)place, (unsigned long)bytes, (unsigned long)units, (unsigned long)line,
        (unsigned long)column);
}

/* Where everybody's cursor stands in Ann's text. */
static void look(const char *when) {
    uint32_t places[PEOPLE];
    must(cotpad_anchor_places(&sites[ANN], cursors, PEOPLE, places, PEOPLE));
    printf("%s\n", when);
    for (int i = 0; i < PEOPLE; i++) {
        if (places[i] != COTPAD_NO_PLACE) tell(names[i], places[i]);
        else printf("%-5s     -\n", names[i]);
    }
}

int main(void) {
    uint32_t place = 0, none = 0;
    if (cotpad_version() != COTPAD_VERSION) return 2;
    for (uint32_t i = 0; i < PEOPLE; i++) must(cotpad_open(&sites[i], i));

    /* a, an e with an accent, a line feed, a G clef above U+FFFF, and a euro sign: 1, 2, 1, 4 and 3 bytes */
    type(ANN, 0, "a\xC3\xA9\n\xF0\x9D\x84\x9E\xE2\x82\xAC");
    printf("      place bytes units line:column\n");
    for (uint32_t i = 0; i <= cotpad_characters(&sites[ANN]); i++) tell("", i);
    printf("unit 4: status %u\n", cotpad_place_at(&sites[ANN], COTPAD_UNITS, 4, &place)); /* between the units of the clef */
    must(cotpad_line_place(&sites[ANN], 1, 1, &place));
    printf("line 1, column 1: place %u\n", place);
    printf("line 0, column 3: status %u\n", cotpad_line_place(&sites[ANN], 0, 3, &none));

    send_from(ANN, 0, BOB);
    send_from(ANN, 0, CY);
    type(CY, 6, "!");
    must(cotpad_anchor_left(&sites[ANN], place, &cursors[ANN]));
    must(cotpad_anchor_left(&sites[BOB], 1, &cursors[BOB]));
    must(cotpad_anchor_left(&sites[CY], 6, &cursors[CY]));
    look("Cy's cursor is known before what he typed");
    type(BOB, 0, "Hi\n");
    send_from(BOB, 1, ANN);
    look("Bob types a line in front");
    send_from(CY, 1, ANN);
    look("Cy's text comes");
    for (int i = 0; i < PEOPLE; i++) cotpad_close(&sites[i]);
    return 0;
}
