/* cotpad.h - the core of a group text editor, for hosts in C and in languages that call C.
 *
 * A cotpad_site is one participant's copy of a group text. A host makes one, calls it for what its user does, sends the
 * frames of the operations that came of it to the other sites, and hands it the frames that come from them, in any order
 * and as often as they come. Sites that integrated the same operations show the same text.
 *
 * An operation that comes before one that it was made after waits, and is *released* when that is there: it leaves what waits,
 * and gets its verdict. Each call that can make a waiting operation ready releases before it answers, until none is ready: then
 * the site is *settled*. What it released is told by cotpad_released and cotpad_released_at, until the next call that can change
 * the site. A host that shows why an operation is missing reads them after each edit and each delivery.
 *
 * What a host owes, which no call looks at:
 *  - Each pointer is not null and aligned for its type, points to memory that may be read and written, and no two of one
 *    call overlap. That holds for a buffer of no bytes too. A struct or number that a call writes has a value before:
 *    declare it with = {0}.
 *  - A cotpad_site begins as COTPAD_SITE_EMPTY. cotpad_open needs an empty one, and fills it where it answers COTPAD_OK;
 *    cotpad_load does as cotpad_open; cotpad_close needs a filled one, and empties it; every other call needs a filled
 *    one. The host reads and writes nothing in it, and uses no copy of it.
 *  - A site is used by one call at a time, and on the thread that made it.
 *  - No call is made from a signal handler, or in the child of a fork of a process with threads.
 *  - The process has one malloc, realloc and free, and stack enough.
 *
 * No call ends the process, prints, waits, or keeps a pointer of the host's. What a site has on the heap goes by
 * cotpad_close; a host frees nothing else. A call that answers neither COTPAD_OK nor COTPAD_UNSETTLED leaves the history,
 * what waits and the text as they were, and writes nothing but what is said of that answer. Six calls do many things one
 * after the other, and may have done the first of them: cotpad_insert_text, cotpad_delete_range, cotpad_undo_range and
 * cotpad_redo_range tell how many operations they made, cotpad_exchange_close and cotpad_exchange_finish take no operation back.
 */
#ifndef COTPAD_H
#define COTPAD_H

#include <stddef.h>
#include <stdint.h>

#ifdef __cplusplus
extern "C" {
#endif

/* The version of this header. cotpad_version() tells that of the library: begin by comparing them. */
#define COTPAD_VERSION 4u

/* The bytes of the longest frame: what cotpad_frame needs at most. */
#define COTPAD_FRAME_MAX 171029u

/* What a call answers. */
typedef uint32_t cotpad_status;
#define COTPAD_OK 0u
#define COTPAD_NO_MEMORY 1u       /* out of memory; the call may be made again */
#define COTPAD_SITE_OUT 2u        /* the number of the site is above 1,023 */
#define COTPAD_PLACE_OUT 3u       /* the text has no such place */
#define COTPAD_NO_CHARACTER 4u    /* the number is no Unicode scalar value, or the bytes are no UTF-8 */
#define COTPAD_UNKNOWN 5u         /* the site has integrated no insert or delete of this name; or it lacks this member of a set */
#define COTPAD_NOT_IN_FORCE 6u    /* it is undone already */
#define COTPAD_IN_FORCE 7u        /* it isn't undone */
#define COTPAD_GENERATION_FULL 8u /* it was undone and redone 65,535 times, as often as can be */
#define COTPAD_NUMBER_FULL 9u     /* the site has made 1,000,000 inserts and deletes */
#define COTPAD_CONTEXT_FULL 10u   /* more than 16,384 inserts and deletes were undone */
#define COTPAD_NO_NAME 11u        /* a site above 1,023, or a number that is 0 or above 1,000,000; or no kind of an anchor, or no
                                   * measure */
#define COTPAD_NONE 12u           /* there is none: no operation at this index, none to release, no character at this place or of this anchor,
                                   * no undo of this name; or, of calls that take the operations before or from an index, or a range of them, the
                                   * history has fewer */
#define COTPAD_TOO_SHORT 13u      /* the buffer is too short: *needed says how many bytes, changes or names it takes */

/* Of the bytes of a log or of a message of an exchange; then a verdict says where, and why. */
#define COTPAD_TOO_LONG 14u  /* more than 67,108,864 bytes; nothing is written. Of cotpad_save, the log would be as long */
#define COTPAD_NO_HEAD 15u   /* the first eight bytes aren't those of a log, or of this message */
#define COTPAD_CUT 16u       /* they end early: of a log, within the frame at `offset`; of a message, at `offset` */
#define COTPAD_MALFORMED 17u /* no frame or state: `cause` at the byte `offset` */
#define COTPAD_EXTRA 18u     /* bytes follow the message, from `offset` on */
#define COTPAD_REFUSED 19u   /* an operation isn't taken: `kind` is its verdict, and of `operation` the member is told. Of a log, its
                              * frame, or that of the operation that freed it, begins at `offset` */

/* The call did what was asked, and memory ran out before all was released that was ready then: some of it may be, and is told.
 * The site can be used as before; cotpad_settle goes on with it, once there is memory again. Read cotpad_released first, since
 * cotpad_settle tells its own releases alone. Of cotpad_save: a waiting operation is ready, and nothing is written. */
#define COTPAD_UNSETTLED 20u

/* Of a set of members. */
#define COTPAD_NO_SET 21u     /* the lists spell no set: sites or names don't rise, or a number is out of its range */
#define COTPAD_STRAY 22u      /* the set has undos of an insert or delete that it lacks */
#define COTPAD_NOT_CLOSED 23u /* the set lacks what the last insert or delete that it has of a site was made after */

/* An insert or delete, by the site that made it and the number that it gave, from 1, at generation 0; or all undos (odd
 * generation) or redos (even generation) of it at that generation. */
typedef struct {
    uint32_t site;
    uint32_t number;
    uint32_t generation;
} cotpad_member;

/* How many inserts and deletes of a site a set of members has: its first ones. */
typedef struct {
    uint32_t site;
    uint32_t count;
} cotpad_count;

/* A change of the shown text: at `place`, after so many shown characters, `removed` characters are taken away, and then `inserted` come
 * in. */
typedef struct {
    uint32_t place;
    uint32_t removed;
    uint32_t inserted;
} cotpad_change;

/* Where an anchor is: at the front or the end of the text; or behind or in front of a character. */
#define COTPAD_ANCHOR_START 1u
#define COTPAD_ANCHOR_END 2u
#define COTPAD_ANCHOR_AFTER 3u
#define COTPAD_ANCHOR_BEFORE 4u

/* Told in place of the place of an anchor, by the call that takes many. It is a place only where so many characters are shown. */
#define COTPAD_NO_PLACE 4294967295u

/* In what offsets are counted: in bytes of UTF-8, of which a character has 1 to 4, or in units of UTF-16, of which one above U+FFFF has
 * two, and any other one. */
#define COTPAD_BYTES 1u
#define COTPAD_UNITS 2u

/* A place that stays beside a character while others edit. The character is the one at `offset`, from 0, in the text of the insert of the
 * name `site` and `number`, which all sites call so: a host may send an anchor to another site, or keep it beside a log. Of
 * COTPAD_ANCHOR_START and COTPAD_ANCHOR_END the other fields are 0. */
typedef struct {
    uint32_t kind;
    uint32_t site;
    uint32_t number;
    uint32_t offset;
} cotpad_anchor;

/* What an operation is. */
#define COTPAD_OPERATION_INSERT 1u
#define COTPAD_OPERATION_DELETE 2u
#define COTPAD_OPERATION_UNDO 3u
#define COTPAD_OPERATION_REDO 4u

typedef struct {
    uint32_t kind;
    uint32_t author;      /* the site that made it; of an undo not the site of its member */
    uint32_t scalar;      /* the first character of an insert, else 0 */
    uint32_t characters;  /* how many characters an insert has, 1 to 256, else 0; cotpad_operation_text hands them out */
    cotpad_member member; /* undo and redo take its site and number */
} cotpad_operation;

/* What became of a delivery or a release. */
#define COTPAD_VERDICT_INTEGRATED 1u /* it is part of the text */
#define COTPAD_VERDICT_WAITS 2u      /* it was made after `missing`, and is held until that comes */
#define COTPAD_VERDICT_REPEAT 3u     /* the site has it */
#define COTPAD_VERDICT_FORGED 4u     /* the site knows another operation of this name; which one is genuine no call tells */
#define COTPAD_VERDICT_NOT_CLOSED 5u /* its context lacks what the last operation of `site` in it was made after */
#define COTPAD_VERDICT_PLACE_OUT 6u  /* it names `place`, and there are `cells`: inserted characters, hidden ones too */
#define COTPAD_VERDICT_INCOMPLETE 7u /* more bytes are wanted: at least `offset` in all */
#define COTPAD_VERDICT_MALFORMED 8u  /* no frame, whatever follows: `cause` at the byte `offset` */

/* The causes of COTPAD_VERDICT_MALFORMED. */
#define COTPAD_CAUSE_TOO_LONG 1u
#define COTPAD_CAUSE_KIND 2u
#define COTPAD_CAUSE_RANGE 3u
#define COTPAD_CAUSE_CHARACTER 4u
#define COTPAD_CAUSE_ORDER 5u
#define COTPAD_CAUSE_ZERO 6u
#define COTPAD_CAUSE_LENGTH 7u
#define COTPAD_CAUSE_OWN 8u
#define COTPAD_CAUSE_TARGET 9u
#define COTPAD_CAUSE_STRAY 10u

/* A field that the kind doesn't speak of is 0. */
typedef struct {
    uint32_t kind;
    uint32_t cause;
    uint32_t offset;
    uint32_t used; /* the bytes of the frame that was delivered; of a release 0 */
    cotpad_operation operation;
    cotpad_member missing;
    uint32_t site;
    uint32_t place;
    uint32_t cells;
} cotpad_verdict;

typedef struct {
    void *inside;
} cotpad_site;
#define COTPAD_SITE_EMPTY {0}

/* The library lays these structs out as follows, in bytes, and a size_t has eight; a compiler sees from C11 and C++11 on that the
 * host's are the same. */
#if defined(__cplusplus) && __cplusplus >= 201103L
#define COTPAD_LAYOUT(fact) static_assert(fact, #fact)
#elif !defined(__cplusplus) && defined(__STDC_VERSION__) && __STDC_VERSION__ >= 201112L
#define COTPAD_LAYOUT(fact) _Static_assert(fact, #fact)
#endif
#ifdef COTPAD_LAYOUT
COTPAD_LAYOUT(sizeof(cotpad_member) == 12);
COTPAD_LAYOUT(offsetof(cotpad_member, number) == 4);
COTPAD_LAYOUT(offsetof(cotpad_member, generation) == 8);
COTPAD_LAYOUT(sizeof(cotpad_count) == 8);
COTPAD_LAYOUT(offsetof(cotpad_count, count) == 4);
COTPAD_LAYOUT(sizeof(cotpad_change) == 12);
COTPAD_LAYOUT(offsetof(cotpad_change, removed) == 4);
COTPAD_LAYOUT(offsetof(cotpad_change, inserted) == 8);
COTPAD_LAYOUT(sizeof(cotpad_anchor) == 16);
COTPAD_LAYOUT(offsetof(cotpad_anchor, site) == 4);
COTPAD_LAYOUT(offsetof(cotpad_anchor, number) == 8);
COTPAD_LAYOUT(offsetof(cotpad_anchor, offset) == 12);
COTPAD_LAYOUT(sizeof(cotpad_operation) == 28);
COTPAD_LAYOUT(offsetof(cotpad_operation, author) == 4);
COTPAD_LAYOUT(offsetof(cotpad_operation, scalar) == 8);
COTPAD_LAYOUT(offsetof(cotpad_operation, characters) == 12);
COTPAD_LAYOUT(offsetof(cotpad_operation, member) == 16);
COTPAD_LAYOUT(sizeof(cotpad_verdict) == 68);
COTPAD_LAYOUT(offsetof(cotpad_verdict, cause) == 4);
COTPAD_LAYOUT(offsetof(cotpad_verdict, offset) == 8);
COTPAD_LAYOUT(offsetof(cotpad_verdict, used) == 12);
COTPAD_LAYOUT(offsetof(cotpad_verdict, operation) == 16);
COTPAD_LAYOUT(offsetof(cotpad_verdict, missing) == 44);
COTPAD_LAYOUT(offsetof(cotpad_verdict, site) == 56);
COTPAD_LAYOUT(offsetof(cotpad_verdict, place) == 60);
COTPAD_LAYOUT(offsetof(cotpad_verdict, cells) == 64);
COTPAD_LAYOUT(sizeof(cotpad_site) == 8);
COTPAD_LAYOUT(sizeof(size_t) == 8);
#undef COTPAD_LAYOUT
#endif

uint32_t cotpad_version(void);

/* Makes a site of this number, 0 to 1,023, that has done nothing, in an empty handle; no two sites of a session have one
 * number: what two such sites make under one name is forged where it is delivered, and an exchange doesn't notice it. Else
 * COTPAD_SITE_OUT or COTPAD_NO_MEMORY, and the handle stays empty. */
cotpad_status cotpad_open(cotpad_site *site, uint32_t number);

/* Makes a site of this number from the bytes of a log, as cotpad_save writes them, in an empty handle: its operations are
 * delivered in their order, each with the releases after it, and none of them is refused. Else COTPAD_SITE_OUT,
 * COTPAD_TOO_LONG, COTPAD_NO_MEMORY, or of the first fault COTPAD_NO_HEAD, COTPAD_CUT, COTPAD_MALFORMED or, where all bytes
 * are a log, COTPAD_REFUSED; the handle stays empty, and *why is written by these last four. The log doesn't tell the number:
 * keep it beside the log. Load the newest log: a site that goes on from an older one gives names that others know already. */
cotpad_status cotpad_load(cotpad_site *site, uint32_t number, const uint8_t *bytes, size_t length, cotpad_verdict *why);

/* The log of a site: its history, and what waits. *needed is the number of its bytes. What is handed out is loaded again, under
 * any number, with the same history, and the same waits. Else COTPAD_TOO_SHORT, which writes *needed alone; or, with nothing
 * written, COTPAD_UNSETTLED, where a waiting operation is ready: call cotpad_settle, and save then; COTPAD_TOO_LONG, where the log
 * would be too long to be loaded: the site goes on, and what it has is kept by cotpad_frame of each operation; or
 * COTPAD_NO_MEMORY. A log is cut by a crash while it is written: write it to another file, and let that take the place of the
 * old one once it is whole. */
cotpad_status cotpad_save(cotpad_site *site, uint8_t *out, size_t room, size_t *needed);

/* Ends a site, frees all of it, and leaves the handle empty. */
void cotpad_close(cotpad_site *site);

/* What the user of the site does. A place counts shown characters, each a Unicode scalar value: an insert of one character goes
 * after so many of them, a delete takes the one at the place, from 0. An undo or a redo names an insert or a delete, whoever
 * made it, by the two numbers of its cotpad_member: name_site is not the author of an undo. An insert is undone and redone
 * whole, with all its characters. On COTPAD_OK and COTPAD_UNSETTLED the operation is made, at the index that cotpad_operations
 * told before the call, and what was released after it stands behind it: fetch its frame by cotpad_frame(site, index, ..) and
 * send it to all other sites; what was released came from others, who sent it. An edit that frees something is rare, and a host
 * must not pass it over: the one that waited for an undo, say, is released by the user's own undo, and may be refused then.
 * Else, of insert and delete: COTPAD_PLACE_OUT, COTPAD_NUMBER_FULL; of insert COTPAD_NO_CHARACTER; of undo and redo:
 * COTPAD_NO_NAME, COTPAD_UNKNOWN; of undo COTPAD_NOT_IN_FORCE; of redo COTPAD_IN_FORCE, COTPAD_GENERATION_FULL; of all
 * COTPAD_CONTEXT_FULL, COTPAD_NO_MEMORY. */
cotpad_status cotpad_insert(cotpad_site *site, uint32_t place, uint32_t scalar);
cotpad_status cotpad_delete(cotpad_site *site, uint32_t place);
cotpad_status cotpad_undo(cotpad_site *site, uint32_t name_site, uint32_t number);
cotpad_status cotpad_redo(cotpad_site *site, uint32_t name_site, uint32_t number);

/* Inserts a text in UTF-8 after `place` shown characters. It is cut from the front into pieces of 256 characters and a shorter last
 * one; each piece is one operation, which is undone and redone whole, and releases after it. *made is how many operations were made:
 * they stand in the history from the index on that cotpad_operations told before the call, with what was released between them
 * (cotpad_operation_at tells the author). A place counts what is shown at that moment: where the release after one of them shows or
 * hides characters before it, the next one stands among others. COTPAD_OK: all of them, and nothing can go wrong with no character.
 * Else COTPAD_NO_CHARACTER (no UTF-8) or COTPAD_PLACE_OUT, and *made is 0 (unless such a release hid the place of the next one); or
 * COTPAD_NUMBER_FULL, COTPAD_CONTEXT_FULL or COTPAD_NO_MEMORY, where the first *made pieces are inserted, and no more: go on with the
 * rest, which begins after 256 * *made characters, or undo these; or COTPAD_UNSETTLED: the same, and what the last of these freed is
 * released in part: settle, and go on. */
cotpad_status cotpad_insert_text(cotpad_site *site, uint32_t place, const uint8_t *text, size_t length, uint32_t *made);

/* Deletes `count` shown characters, from the one at `place` on, each by an operation, and releases after each. *made is how many were
 * deleted, as above, and a place counts as there. COTPAD_OK: all of them. Else COTPAD_PLACE_OUT, where they aren't all there, and
 * *made is 0 (unless a release hid what was left of them); or COTPAD_NUMBER_FULL, COTPAD_CONTEXT_FULL, COTPAD_NO_MEMORY or
 * COTPAD_UNSETTLED, where the first *made characters are deleted, and no more. To take a text or a range back, call cotpad_undo_range
 * for the operations that the call made, or keep their names (cotpad_operation_at), and give each to cotpad_undo. */
cotpad_status cotpad_delete_range(cotpad_site *site, uint32_t place, uint32_t count, uint32_t *made);

/* Undoes, or redoes, the inserts and deletes among `count` operations of the history from the index `from` on, whoever made them: the last
 * one first, each by an operation with releases after it. Undos and redos among these are passed over, and so is what is undone already,
 * or isn't undone. *made is how many operations were made, as of cotpad_insert_text. COTPAD_OK: all that there were. Else COTPAD_NONE,
 * where the history hasn't so many operations from there on, and *made is 0; or COTPAD_CONTEXT_FULL, COTPAD_NO_MEMORY,
 * COTPAD_UNSETTLED or, of redo, COTPAD_GENERATION_FULL, where the first *made are made, and no more: the same call goes on after them,
 * since it passes over what is done, as long as the range is asked for by the same index. */
cotpad_status cotpad_undo_range(cotpad_site *site, uint32_t from, uint32_t count, uint32_t *made);
cotpad_status cotpad_redo_range(cotpad_site *site, uint32_t from, uint32_t count, uint32_t *made);

/* How many operations are integrated, how many wait, and how many characters are shown. */
uint32_t cotpad_operations(cotpad_site *site);
uint32_t cotpad_waiting(cotpad_site *site);
uint32_t cotpad_characters(cotpad_site *site);

/* The insert by which the shown character at `place` stands there, counted from 0, and which of its characters it is, from 0: undo and
 * redo take the site and number. Else COTPAD_NONE: *name and *offset are as they were. */
cotpad_status cotpad_name_at(cotpad_site *site, uint32_t place, cotpad_member *name, uint32_t *offset);

/* The anchor of the place after so many shown characters: a cursor that stays where it belongs while others edit. The left one keeps to
 * the character in front of the place, or to the front of the text where there is none, and what is inserted at the place comes behind
 * it; the right one keeps to the character behind it, or to the end of the text. Each costs what cotpad_name_at does, whatever the
 * history. Else COTPAD_PLACE_OUT: *anchor is as it was. */
cotpad_status cotpad_anchor_left(cotpad_site *site, uint32_t place, cotpad_anchor *anchor);
cotpad_status cotpad_anchor_right(cotpad_site *site, uint32_t place, cotpad_anchor *anchor);

/* How many shown characters stand before the anchor. While its character is hidden, it has a place as well: between the characters that
 * are shown before and behind it; and the character's own again once that is shown again. It costs a search for each 256 operations that
 * the site integrated since the insert of the character, up to 512 short steps, and what cotpad_name_at does. For that the call makes
 * notes, of 2 KB for 256 operations, of those that came since the last such call, as far as there is memory for it; where there is none,
 * a place costs a short step for each operation since that insert. Of COTPAD_ANCHOR_START and COTPAD_ANCHOR_END nothing but the kind is
 * looked at. Else COTPAD_NO_NAME, where the kind or the name is out of its range, or the offset above 255; or COTPAD_NONE, where the site
 * has no such character, as before its insert is integrated: *place is as it was. */
cotpad_status cotpad_anchor_place(cotpad_site *site, const cotpad_anchor *anchor, uint32_t *place);

/* The places of `count` anchors, in their order, as of all cursors that a window shows: of each what cotpad_anchor_place tells, or
 * COTPAD_NO_PLACE where that answers COTPAD_NONE or COTPAD_NO_NAME. It costs what that does for each; or, where that is less, as of very
 * many, a look at each character that was ever inserted, shown or not. `room` counts places: the ones behind the first `count` are as they
 * were. Else COTPAD_TOO_SHORT, where `room` is below `count`, or COTPAD_NO_MEMORY, and nothing is written. */
cotpad_status cotpad_anchor_places(cotpad_site *site, const cotpad_anchor *anchors, size_t count, uint32_t *places, size_t room);

/* The offset of the place after so many shown characters: how many bytes of UTF-8 (COTPAD_BYTES), or units of UTF-16 (COTPAD_UNITS), these
 * have, as the strings of many languages, and the editors in them, count. It costs a short step for each 64 pieces of the text, of up to
 * 512 characters that were ever inserted, and a look at one such piece. Else COTPAD_PLACE_OUT, where fewer characters are shown, or
 * COTPAD_NO_NAME, where the measure is neither of the two: *offset is as it was. */
cotpad_status cotpad_offset(cotpad_site *site, uint32_t measure, uint32_t place, uint64_t *offset);

/* The place that has this offset: no other one has it. It costs what cotpad_offset does. Else COTPAD_NONE, where no place has it, since it
 * lies within a character, or past the end of the text; or COTPAD_NO_NAME, where there is no such measure: *place is as it was. */
cotpad_status cotpad_place_at(cotpad_site *site, uint32_t measure, uint64_t offset, uint32_t *place);

/* The line and the column of the place after so many shown characters, both from 0: how many line feeds (U+000A) are among these, and how
 * many characters stand behind the last one of them. A column counts characters, as a place does, whatever their width; a carriage return
 * is one as any other. For bytes or units from the front of a line subtract two offsets. It costs twice what cotpad_offset does. Else
 * COTPAD_PLACE_OUT, where fewer characters are shown: *line and *column are as they were. */
cotpad_status cotpad_line(cotpad_site *site, uint32_t place, uint32_t *line, uint32_t *column);

/* The place that has this line and column. It costs twice what cotpad_offset does. Else COTPAD_NONE, where no place has them, since the
 * text has fewer lines, or this line fewer characters: *place is as it was. */
cotpad_status cotpad_line_place(cotpad_site *site, uint32_t line, uint32_t column, uint32_t *place);

/* How often the insert or delete of this name was undone and redone: its generation, which is odd while it is undone, and even, from
 * 0 on, while it is in force. It costs a search among the undone names, whatever the history. Else COTPAD_NO_NAME, or COTPAD_UNKNOWN
 * where the site hasn't it: *generation is as it was. */
cotpad_status cotpad_generation(cotpad_site *site, uint32_t name_site, uint32_t number, uint32_t *generation);

/* Who made the latest undo or redo of this name, that of the greatest generation. Of several sites that did the same at once it is the one
 * whose operation came here first, since the others are repeats of it; so two sites may be told two authors. It costs what
 * cotpad_generation does. Else COTPAD_NO_NAME, or COTPAD_NONE where nobody undid it: *author is as it was. */
cotpad_status cotpad_undoer(cotpad_site *site, uint32_t name_site, uint32_t number, uint32_t *author);

/* The inserts by which `count` shown characters from the one at `place` on stand there, in the order of the text, each at generation 0:
 * what an undo of a selection takes. Neighbours of one insert are told once; an insert comes again where others' characters stand within
 * it. *needed is how many there are, and `room` counts these too. It costs for each character what cotpad_name_at does. Else
 * COTPAD_TOO_SHORT, which writes *needed alone; COTPAD_PLACE_OUT, where the characters aren't all there; or COTPAD_NO_MEMORY. */
cotpad_status cotpad_names(cotpad_site *site, uint32_t place, uint32_t count, cotpad_member *out, size_t room, size_t *needed);

/* What the integrated operation at this index is, and who made it. Operations stand in the order of integration, from 0,
 * so what was done last stands at cotpad_operations(site) - 1. Else COTPAD_NONE. */
cotpad_status cotpad_operation_at(cotpad_site *site, uint32_t index, cotpad_operation *operation);

/* The text of the integrated operation at this index in UTF-8, with no byte after it: the characters of an insert, at most 1,024
 * bytes; other operations have none. It takes no memory. *needed is the number of its bytes. Else COTPAD_TOO_SHORT, which writes
 * *needed alone, or COTPAD_NONE. */
cotpad_status cotpad_operation_text(cotpad_site *site, uint32_t index, uint8_t *out, size_t room, size_t *needed);

/* The frame of the integrated operation at this index; *needed is the number of its bytes. Else COTPAD_TOO_SHORT, which
 * writes *needed alone, COTPAD_NONE or COTPAD_NO_MEMORY. A site that comes late is sent all frames, from index 0 on. */
cotpad_status cotpad_frame(cotpad_site *site, uint32_t index, uint8_t *out, size_t room, size_t *needed);

/* The frames of the operations from this index of the history on, one after the other: from 0 on all of them, and from the index that
 * cotpad_operations told before an edit what that made and released. *needed is the number of their bytes. Else COTPAD_TOO_SHORT, which
 * writes *needed alone; COTPAD_NONE, where the index is above the number of operations; or COTPAD_NO_MEMORY. */
cotpad_status cotpad_frames(cotpad_site *site, uint32_t from, uint8_t *out, size_t room, size_t *needed);

/* The frames of all operations that a set of members lacks, in the order of the history: what a peer is sent that has this set. The lists
 * tell the set as those of cotpad_text_at do, and may have members that the site lacks. It costs by the two sets and by what is written.
 * *needed is the number of the bytes. Else COTPAD_TOO_SHORT, which writes *needed alone, COTPAD_NO_SET or COTPAD_NO_MEMORY. */
cotpad_status cotpad_frames_for(cotpad_site *site, const cotpad_count *counts, size_t sites, const cotpad_member *undone, size_t names,
    uint8_t *out, size_t room, size_t *needed);

/* Delivers the operation of the frame that the bytes begin with, tells its verdict, and of it what it is, who made it and what
 * it waits for; and then releases what is ready. Its author is the number in its sixth and seventh byte, bytes[5] << 8 | bytes[6]:
 * a host that knows who sent the bytes compares the two before this call, since whoever writes under another's number is believed.
 * COTPAD_OK is answered to bytes without a frame too: then the verdict is INCOMPLETE or MALFORMED, and the site is as it was.
 * Else COTPAD_UNSETTLED: it is delivered, and its verdict told; or COTPAD_NO_MEMORY, only where there is a frame: *verdict is
 * as it was. */
cotpad_status cotpad_receive(cotpad_site *site, const uint8_t *bytes, size_t length, cotpad_verdict *verdict);

/* How many operations were released by the last call that could change the site: insert, delete, insert_text, delete_range, undo,
 * redo, undo_range, redo_range, receive or settle. 0 after open, load, exchange_close, exchange_finish and release, which tell nothing
 * here, and after a call that was refused before it did anything. A call that only reads leaves the number. */
uint32_t cotpad_released(cotpad_site *site);

/* The release at this index, from 0, in the order in which they were done: its verdict, and of the operation the member alone.
 * INTEGRATED is part of the text now; any other verdict says why the operation is dropped. Else COTPAD_NONE: *verdict is as it
 * was. */
cotpad_status cotpad_released_at(cotpad_site *site, uint32_t index, cotpad_verdict *verdict);

/* Releases until no waiting operation is ready: after COTPAD_UNSETTLED, once there is memory again, and after an exchange that ran
 * out of memory and isn't made again. COTPAD_OK: the site is settled; a settled one is so at once, and takes no memory. Else
 * COTPAD_UNSETTLED: some may be released, and one is ready yet. */
cotpad_status cotpad_settle(cotpad_site *site);

/* Takes out the first waiting operation that is ready, and gives it its verdict; of the operation all is told. It is for a host
 * that goes on one by one where memory is short: in a settled site there is none. Else COTPAD_NONE; or COTPAD_NO_MEMORY, only
 * where one is to be integrated: *verdict is as it was. */
cotpad_status cotpad_release(cotpad_site *site, cotpad_verdict *verdict);

/* The shown text in UTF-8, with no byte after it; *needed is the number of its bytes. Else COTPAD_TOO_SHORT, which writes
 * *needed alone, or COTPAD_NO_MEMORY. */
cotpad_status cotpad_text(cotpad_site *site, uint8_t *out, size_t room, size_t *needed);

/* The text of `count` shown characters from the one at `place` on, in UTF-8, with no byte after it; *needed is the number of its bytes. It
 * costs by the text around the place and by `count`, not by the length of the text. Else COTPAD_TOO_SHORT, which writes *needed alone;
 * COTPAD_PLACE_OUT, where they aren't all there; or COTPAD_NO_MEMORY. */
cotpad_status cotpad_text_range(cotpad_site *site, uint32_t place, uint32_t count, uint8_t *out, size_t room, size_t *needed);

/* By what the shown text changed since the history had `from` operations, as from what cotpad_text_before shows there to what cotpad_text
 * shows. A host that keeps a text of its own, such as the lines of a window, asks cotpad_operations before each call that can change the
 * site, and makes these changes in its text after it: one after the other, from left to right, each at its place in what those before
 * it left. At `place`, `removed` characters go, and `inserted` come in: those that cotpad_text_range(site, place, inserted, ..) hands out
 * now, since nothing on their left changes any more. No character that stays goes or comes in, no change is empty, and between what one
 * lets come in and the place of the next a character stands that stays; where nothing changed there is none. *needed is the number of
 * changes, and `room` counts changes too. Else COTPAD_TOO_SHORT, which writes *needed alone; COTPAD_NONE, where the history has fewer
 * operations; or COTPAD_NO_MEMORY. The call only reads: whatever it answers, it may be made again, also later, for all changes since
 * then. After few operations it costs by the characters that these brought, took away, undid or redid, and a step for each 512 that were
 * ever inserted; after many, a look at each of these, shown or not, and at its deletes. */
cotpad_status cotpad_changes(cotpad_site *site, uint32_t from, cotpad_change *out, size_t room, size_t *needed);

/* The text that the operations before this index of the history show, in UTF-8: the empty one at 0, and the present one at
 * cotpad_operations(site). *needed is the number of its bytes. Else COTPAD_TOO_SHORT, which writes *needed alone; COTPAD_NONE,
 * where the index is above the number of operations; or COTPAD_NO_MEMORY. Each call executes so many operations once more, on a
 * text of its own, whose memory is freed before the call answers. */
cotpad_status cotpad_text_before(cotpad_site *site, uint32_t index, uint8_t *out, size_t room, size_t *needed);

/* The text that the operations of a set of members show, in UTF-8, whoever made them and whenever they came: what a site shows that
 * has these alone. `counts` tells of how many inserts and deletes of each site the set has the first ones, sites rising, each count
 * 1 to 1,000,000: a site of which it has none is left out. `undone` tells each name of which it has undos or redos, names rising by
 * site and number, with the greatest generation, 1 to 65,535: the lower ones are in it too. Both lists are only read. For a list of
 * no items any aligned pointer that isn't null will do. *needed is the number of the bytes. Else COTPAD_TOO_SHORT, which writes
 * *needed alone; COTPAD_NO_SET, where the lists don't rise so, or a number is out of its range; COTPAD_NO_MEMORY; or, of the first
 * that holds, with *why written: COTPAD_UNKNOWN, where the site has not integrated all of the set: *why is the first member of it
 * that it lacks, inserts and deletes before undos, each rising; COTPAD_STRAY, where the set has undos of what it hasn't itself:
 * *why is the first such name, at generation 0; or COTPAD_NOT_CLOSED, where the last insert or delete that the set has of
 * why->site, the least such site, was made after something that the set lacks (why->number is 0). What a site has is a set that has
 * a text, and so is what it has had at any time. Each call looks at each character that was ever inserted, shown or not, and at its
 * deletes, whatever the set. */
cotpad_status cotpad_text_at(cotpad_site *site, const cotpad_count *counts, size_t sites, const cotpad_member *undone, size_t names,
    uint8_t *out, size_t room, size_t *needed, cotpad_member *why);

/* An exchange: two sites tell each other what they have, and send what the other lacks, by three messages. The joiner
 * offers the first; the server answers it by the second; the joiner takes that in, and closes with the third, which the
 * server takes in and is finished. Where the two agree (no name is known to them by different contents) and nothing waits,
 * both have the same operations then. Each message is a whole buffer of at most 67,108,864 bytes.
 *
 * Those that write a message answer COTPAD_OK, or COTPAD_TOO_SHORT, which writes *needed alone, or COTPAD_NO_MEMORY. Those
 * that read one answer COTPAD_TOO_LONG or, with *why written, COTPAD_NO_HEAD (not of the third message), COTPAD_CUT,
 * COTPAD_MALFORMED or COTPAD_EXTRA, and the site is as it was; or, of close and finish, with *why written, COTPAD_REFUSED, or
 * COTPAD_NO_MEMORY (of finish only where the message has a frame): then the operations of the message before that place are
 * taken in, and the call may be made again after COTPAD_NO_MEMORY. What is in the message already is a repeat, so
 * cotpad_exchange_close may be made again after COTPAD_TOO_SHORT too, when the operations are in and only the third message
 * lacked room. */
cotpad_status cotpad_exchange_offer(cotpad_site *site, uint8_t *out, size_t room, size_t *needed);
cotpad_status cotpad_exchange_answer(cotpad_site *site, const uint8_t *first, size_t length, uint8_t *out, size_t room,
    size_t *needed, cotpad_verdict *why);
cotpad_status cotpad_exchange_close(cotpad_site *site, const uint8_t *second, size_t length, uint8_t *out, size_t room,
    size_t *needed, cotpad_verdict *why);
cotpad_status cotpad_exchange_finish(cotpad_site *site, const uint8_t *third, size_t length, cotpad_verdict *why);

#ifdef __cplusplus
}
#endif
#endif
