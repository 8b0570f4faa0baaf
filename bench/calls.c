/* calls [stack]: makes the calls of a session, from standard input, through the library: for the start and for each entry its call
 * and the three questions. With the word `stack` it tells how much stack each takes: every call is made on a stack of its own, which
 * was filled with a pattern, and the deepest byte that has another value tells. A caller's copies of the record that is handed in
 * and of the answer are counted with it. Then it prints the sizes of the structs, and a line for each call. */
#define _XOPEN_SOURCE 700
#include <stdbool.h>
#include <stdio.h>
#include <string.h>
#include <ucontext.h>

#include "hassljung.h"

enum { LONGEST = 32768, STACK = 65536, PATTERN = 0xA5 };

static bool on_own_stack;
static uint8_t session[LONGEST];
static uint8_t stack[STACK];
static ucontext_t caller;

/* what a call is handed and answers */
static const uint8_t *table;
static size_t length;
static uint8_t room, letter;
static uint32_t seconds;
static struct hassljung_record record;
static struct hassljung_answer answer;
static volatile uint8_t told;

static void start(void) { answer = hassljung_start(table, length, room); }
static void take_letter(void) { answer = hassljung_letter(table, length, record, letter); }
static void take_span(void) { answer = hassljung_span(table, length, record, seconds); }
static void take_gap(void) { answer = hassljung_gap(table, length, record); }
static void ask_verdict(void) { told = hassljung_verdict(table, length, record).verdict; }
static void ask_settled(void) { told = hassljung_settled(table, length, record).settled; }
static void ask_count(void) { told = hassljung_count(table, length, record).count; }

static struct {
    const char *name;
    void (*make)(void);
    size_t deepest;
} calls[] = {
    {"start", start, 0},         {"letter", take_letter, 0},  {"span", take_span, 0}, {"gap", take_gap, 0},
    {"verdict", ask_verdict, 0}, {"settled", ask_settled, 0}, {"count", ask_count, 0},
};
enum { START, LETTER, SPAN, GAP, VERDICT, SETTLED, COUNT, CALLS };

static void make(int call)
{
    static ucontext_t own;
    size_t untouched = 0;

    if (!on_own_stack) {
        calls[call].make();
        return;
    }
    memset(stack, PATTERN, STACK);
    getcontext(&own);
    own.uc_stack.ss_sp = stack;
    own.uc_stack.ss_size = STACK;
    own.uc_link = &caller;
    makecontext(&own, calls[call].make, 0);
    swapcontext(&caller, &own);
    while (untouched < STACK && stack[untouched] == PATTERN)
        untouched++;
    if (calls[call].deepest < STACK - untouched)
        calls[call].deepest = STACK - untouched;
}

static void make_and_ask(int call)
{
    make(call);
    record = answer.next;
    make(VERDICT);
    make(SETTLED);
    make(COUNT);
}

int main(int words, char **word)
{
    size_t size = fread(session, 1, LONGEST, stdin), at;
    int call;

    on_own_stack = words > 1 && strcmp(word[1], "stack") == 0;
    room = session[1];
    table = session + 2;
    length = (size_t)(session[3] << 8 | session[4]);
    make_and_ask(START);
    for (at = 2 + length; at < size; at += 1u + session[at]) {
        const uint8_t *load = session + at + 2;
        switch (session[at + 1]) {
        case 1:
            letter = load[0];
            make_and_ask(LETTER);
            break;
        case 2:
            seconds = (uint32_t)load[0] << 24 | (uint32_t)load[1] << 16 | (uint32_t)load[2] << 8 | load[3];
            make_and_ask(SPAN);
            break;
        default:
            make_and_ask(GAP);
        }
    }
    if (!on_own_stack)
        return 0;
    printf("record %zu\nanswer %zu\n", sizeof record, sizeof answer);
    for (call = 0; call < CALLS; call++)
        printf("%s %zu\n", calls[call].name, calls[call].deepest);
    return 0;
}
