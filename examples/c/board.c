/* The worked session, call by call, as firmware would: prints the lines of examples/board.lines. Then each call and each question is
 * handed what it has to refuse, and answers as examples/c/refused.lines says. The status is 1 if a refused call did not hand back
 * its record as it was. */
#include <stdio.h>
#include <string.h>

#include "hassljung.h"

/* States: 0 waiting (initial, standing), 1 fresh (accepting). Letters: 0 refreshed, 1 look. */
enum { REFRESHED = 0, LOOK = 1, LENGTH = 36 };

static const uint8_t board[LENGTH] = {
    0x01, 0x00, 0x24, 0x02, 0x02, 0x00, 0x01, 0x00, 0x01, 0x00, 0x02, 0x02,
    /* refreshed, waiting to fresh, reset, any age */
    0x00, 0x00, 0x01, 0x01, 0x00, 0x00, 0x00, 0x00, 0xFF, 0xFF, 0xFF, 0xFF,
    /* look, fresh to fresh, kept, ages 0 to 5 */
    0x01, 0x01, 0x01, 0x00, 0x00, 0x00, 0x00, 0x00, 0x00, 0x00, 0x00, 0x05,
};

static bool all_kept = true;

/* Byte for byte in every field. The places have no bytes between their fields. */
static bool same(const struct hassljung_record *a, const struct hassljung_record *b)
{
    return a->room == b->room && a->count == b->count && memcmp(a->places, b->places, sizeof a->places) == 0 &&
           memcmp(&a->above, &b->above, sizeof a->above) == 0;
}

/* ---- the session ---- */

/* The record that each call hands to the next. */
static struct hassljung_record held;
static int ordinal;

static void tell(struct hassljung_answer answer)
{
    static const char *const words[] = {"", "yes", "no", "unsure"};

    printf("%d ", ordinal++);
    if (answer.number != HASSLJUNG_ACCEPTED) {
        printf("refused %d\n", answer.number);
        all_kept = all_kept && same(&answer.next, &held);
        return;
    }
    held = answer.next;
    printf("%s %s %d\n", words[hassljung_verdict(board, LENGTH, held).verdict],
           hassljung_settled(board, LENGTH, held).settled ? "settled" : "open", hassljung_count(board, LENGTH, held).count);
}

static void start(uint8_t room)
{
    tell(hassljung_start(board, LENGTH, room));
}

static void letter(uint8_t a)
{
    tell(hassljung_letter(board, LENGTH, held, a));
}

static void span(uint32_t seconds)
{
    tell(hassljung_span(board, LENGTH, held, seconds));
}

static void gap(void)
{
    tell(hassljung_gap(board, LENGTH, held));
}

static void worked_session(void)
{
    start(4);
    letter(REFRESHED);
    span(5);
    letter(LOOK);
    span(1);
    letter(LOOK);
    gap();
    letter(LOOK);
    span(2);
    letter(REFRESHED);
    span(0);
    letter(2);
}

/* ---- what is refused ---- */

/* The number that a call answered, and what became of the record that it was handed. */
static void put_call(const char *name, struct hassljung_answer answer, struct hassljung_record handed)
{
    bool kept = same(&answer.next, &handed);

    printf(" %s %d", name, answer.number);
    if (answer.number != HASSLJUNG_ACCEPTED && !kept) {
        printf(" (record changed)");
        all_kept = false;
    }
}

/* A question that is refused gives its number and nothing else. */
static void put_question(const char *name, int number, int told)
{
    printf(" %s %d", name, number);
    if (number != HASSLJUNG_ACCEPTED && told != 0) {
        printf(" (told %d)", told);
        all_kept = false;
    }
}

static void put_all(const char *what, const uint8_t *table, size_t length, struct hassljung_record r)
{
    struct hassljung_verdict_answer verdict = hassljung_verdict(table, length, r);
    struct hassljung_settled_answer settled = hassljung_settled(table, length, r);
    struct hassljung_count_answer count = hassljung_count(table, length, r);

    printf("%s:", what);
    put_call("letter", hassljung_letter(table, length, r, LOOK), r);
    put_call("span", hassljung_span(table, length, r, 1), r);
    put_call("gap", hassljung_gap(table, length, r), r);
    put_question("verdict", verdict.number, verdict.verdict);
    put_question("settled", settled.number, settled.settled);
    put_question("count", count.number, count.count);
    printf("\n");
}

/* A refused start has a record of all zeros. */
static void put_start(const char *what, const uint8_t *table, size_t length, uint8_t room)
{
    static const struct hassljung_record zeros;

    printf("%s:", what);
    put_call("start", hassljung_start(table, length, room), zeros);
    printf("\n");
}

static void put_letter(const char *what, struct hassljung_record r, uint8_t a)
{
    printf("%s:", what);
    put_call("letter", hassljung_letter(board, LENGTH, r, a), r);
    printf("\n");
}

static void put_span(const char *what, uint32_t seconds)
{
    printf("%s:", what);
    put_call("span", hassljung_span(board, LENGTH, held, seconds), held);
    printf("\n");
}

/* The board's table with another byte at a place. */
static void bad_table(const char *what, size_t at, uint8_t byte)
{
    uint8_t table[LENGTH];

    memcpy(table, board, LENGTH);
    table[at] = byte;
    put_start(what, table, LENGTH, 4);
    put_all(what, table, LENGTH, held);
}

static void bad_tables(void)
{
    put_start("11 bytes", board, 11, 4);
    put_all("11 bytes", board, 11, held);
    bad_table("version 2", 0, 2);
    bad_table("17 states", 3, 17);
    bad_table("stated length 37", 2, 37);
    bad_table("state 2 accepting", 10, 6);
    bad_table("a line to state 2", 14, 2);
    bad_table("ages 6 to 5", 31, 6);
}

static void bad_records(void)
{
    struct hassljung_record r = held;

    put_start("room 65", board, LENGTH, 65);
    r.room = 0;
    put_all("room 0", board, LENGTH, r);
    r = held;
    r.count = 65;
    put_all("count 65", board, LENGTH, r);
    r = held;
    r.places[63].last = 1;
    put_all("a place not in use that is not zero", board, LENGTH, r);
    r = held;
    r.above.sure = 2;
    put_all("sure and not possible", board, LENGTH, r);
    put_letter("the same with a bad letter", r, 2);
}

static void bad_symbols(void)
{
    struct hassljung_record r = held;

    put_letter("letter 2", held, 2);
    put_letter("letter 255", held, 255);
    put_span("0 seconds", 0);
    put_span("2147483648 seconds", 2147483648u);
    put_span("2147483647 seconds", HASSLJUNG_SPAN_MOST);
    /* fresh at age 3: a look keeps it, and waiting joins at age 0 */
    r = hassljung_start(board, LENGTH, 1).next;
    r = hassljung_letter(board, LENGTH, r, REFRESHED).next;
    r = hassljung_span(board, LENGTH, r, 3).next;
    put_letter("two stretches in room 1", r, LOOK);
}

int main(void)
{
    worked_session();
    bad_tables();
    bad_records();
    bad_symbols();
    return all_kept ? 0 : 1;
}
