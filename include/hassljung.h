/* Hassljung: a proved watch, for a controller's firmware.
 *
 * The archive is made by scripts/archive. It needs no heap and no operating system; of a C library it needs memcpy and memset.
 * Every function may be handed any table and any record: it checks both, answers with a number, and writes nothing but what it
 * returns. Nothing is kept between calls: what a watch knows is its record, which each call hands to the next.
 *
 * A table is handed in as a pointer to its first byte, which must not be null, and its length; all of its bytes must be
 * readable. That is all a caller owes.
 */
#ifndef HASSLJUNG_H
#define HASSLJUNG_H

#include <stdbool.h>
#include <stddef.h>
#include <stdint.h>

#ifdef __cplusplus
#define HASSLJUNG_ASSERT(test) static_assert(test, #test)
extern "C" {
#else
#define HASSLJUNG_ASSERT(test) _Static_assert(test, #test)
#endif

/* ---- numbers ---- */

/* What a call answers with: 0, or the number of the first check that failed. The checks run in this order. */
enum {
    HASSLJUNG_ACCEPTED = 0,
    HASSLJUNG_TABLE_SHORT = 1,   /* table shorter than 12 bytes */
    HASSLJUNG_TABLE_VERSION = 2, /* version not 1 */
    HASSLJUNG_TABLE_COUNTS = 3,  /* states not 1 to 16, letters not 1 to 32, or more than 64 lines */
    HASSLJUNG_TABLE_LENGTH = 4,  /* stated length not that of its lines, or not the length handed in */
    HASSLJUNG_TABLE_MASK = 5,    /* a mask has a state that the table has not */
    HASSLJUNG_TABLE_LINE = 6,    /* a line has a state or a letter that the table has not, or flags above 1 */
    HASSLJUNG_TABLE_AGES = 7,    /* a line's ages are above 31,622,400, or end before they begin */
    HASSLJUNG_RECORD = 8,        /* room not 1 to 64 at a start; a record that is not proper */
    HASSLJUNG_LETTER = 9,        /* a letter that the table has not */
    HASSLJUNG_SPAN = 10,         /* span 0 or above 2,147,483,647 */
    HASSLJUNG_ROOM = 11          /* the record after the letter would hold more stretches than its room */
};

/* The verdict. Unsure is not no: neither yes nor no would be right whatever was lost in the gap. */
enum {
    HASSLJUNG_YES = 1,
    HASSLJUNG_NO = 2,
    HASSLJUNG_UNSURE = 3
};

enum {
    HASSLJUNG_PLACES = 64,      /* in a record, and the largest room */
    HASSLJUNG_TABLE_MOST = 780, /* bytes of the longest table */
    HASSLJUNG_SPAN_MOST = 2147483647
};

/* ---- the record ---- */

/* Two sets of states, bit i for state i: those that the rule is surely in, and those that it may be in. */
struct hassljung_pair {
    uint16_t sure;
    uint16_t possible;
};

/* The ages from first to last, in seconds, both in, which have one pair. */
struct hassljung_stretch {
    uint32_t first;
    uint32_t last;
    struct hassljung_pair pair;
};

/* What a watch knows. The first `count` places are in use, in rising order of ages; the others are all zero. `above` is the pair
 * of all ages above the table's horizon. It may be stored and handed in again later; bytes 2 and 3 have no meaning, so two
 * records are compared field by field. */
struct hassljung_record {
    uint8_t room;
    uint8_t count;
    struct hassljung_stretch places[HASSLJUNG_PLACES];
    struct hassljung_pair above;
};

/* ---- answers ---- */

/* What a call answers: 0 and the new record, or a number and the record as it was handed in. */
struct hassljung_answer {
    uint8_t number;
    struct hassljung_record next;
};

/* What a question answers: 0 and what was asked, or a number and nothing else, which is 0. */
struct hassljung_verdict_answer {
    uint8_t number;
    uint8_t verdict;
};

struct hassljung_settled_answer {
    uint8_t number;
    bool settled;
};

struct hassljung_count_answer {
    uint8_t number;
    uint8_t count;
};

/* ---- calls ---- */

/* A watch begins, in a room of 1 to 64 stretches: the initial states at age 0. Answers 0 to 8. A refused start's record is all
 * zeros. */
struct hassljung_answer hassljung_start(const uint8_t *table, size_t length, uint8_t room);

/* A letter arrives. Answers 0 to 9, or 11; after 9 and 11 the letter is not part of the stream, and the watch goes on. */
struct hassljung_answer hassljung_letter(const uint8_t *table, size_t length, struct hassljung_record record, uint8_t letter);

/* So many seconds pass. Answers 0 to 8, or 10. */
struct hassljung_answer hassljung_span(const uint8_t *table, size_t length, struct hassljung_record record, uint32_t seconds);

/* Some of the stream was lost: nothing is assumed of what stands now. Answers 0 to 8. */
struct hassljung_answer hassljung_gap(const uint8_t *table, size_t length, struct hassljung_record record);

/* ---- questions: each answers 0 to 8 ---- */

/* HASSLJUNG_YES, HASSLJUNG_NO or HASSLJUNG_UNSURE. */
struct hassljung_verdict_answer hassljung_verdict(const uint8_t *table, size_t length, struct hassljung_record record);

/* Whether nothing that was lost can matter any more. */
struct hassljung_settled_answer hassljung_settled(const uint8_t *table, size_t length, struct hassljung_record record);

/* How many stretches the record holds. */
struct hassljung_count_answer hassljung_count(const uint8_t *table, size_t length, struct hassljung_record record);

/* ---- the layout, as the archive has it ---- */

HASSLJUNG_ASSERT(sizeof(struct hassljung_pair) == 4);
HASSLJUNG_ASSERT(offsetof(struct hassljung_pair, sure) == 0);
HASSLJUNG_ASSERT(offsetof(struct hassljung_pair, possible) == 2);

HASSLJUNG_ASSERT(sizeof(struct hassljung_stretch) == 12);
HASSLJUNG_ASSERT(offsetof(struct hassljung_stretch, first) == 0);
HASSLJUNG_ASSERT(offsetof(struct hassljung_stretch, last) == 4);
HASSLJUNG_ASSERT(offsetof(struct hassljung_stretch, pair) == 8);

HASSLJUNG_ASSERT(sizeof(struct hassljung_record) == 776);
HASSLJUNG_ASSERT(offsetof(struct hassljung_record, room) == 0);
HASSLJUNG_ASSERT(offsetof(struct hassljung_record, count) == 1);
HASSLJUNG_ASSERT(offsetof(struct hassljung_record, places) == 4);
HASSLJUNG_ASSERT(offsetof(struct hassljung_record, above) == 772);

HASSLJUNG_ASSERT(sizeof(struct hassljung_answer) == 780);
HASSLJUNG_ASSERT(offsetof(struct hassljung_answer, number) == 0);
HASSLJUNG_ASSERT(offsetof(struct hassljung_answer, next) == 4);

HASSLJUNG_ASSERT(sizeof(struct hassljung_verdict_answer) == 2);
HASSLJUNG_ASSERT(offsetof(struct hassljung_verdict_answer, number) == 0);
HASSLJUNG_ASSERT(offsetof(struct hassljung_verdict_answer, verdict) == 1);

HASSLJUNG_ASSERT(sizeof(struct hassljung_settled_answer) == 2);
HASSLJUNG_ASSERT(offsetof(struct hassljung_settled_answer, number) == 0);
HASSLJUNG_ASSERT(offsetof(struct hassljung_settled_answer, settled) == 1);

HASSLJUNG_ASSERT(sizeof(struct hassljung_count_answer) == 2);
HASSLJUNG_ASSERT(offsetof(struct hassljung_count_answer, number) == 0);
HASSLJUNG_ASSERT(offsetof(struct hassljung_count_answer, count) == 1);

#ifdef __cplusplus
}
#endif

#endif
