/* How much stack the calls need, for whoever sets WATCH_STACK_BYTES in watch.h, and for bindings/test, which holds them to it: each
 * call is made in a thread whose stack was filled with a pattern, and the lowest byte that changed tells how deep it went. Two books
 * are at all limits, one has many rows to an event; events are taken until 128 disjuncts are held and beyond. */
#define _POSIX_C_SOURCE 200809L
#include <pthread.h>
#include <stdio.h>
#include <stdlib.h>
#include <string.h>

#include "rules.h"

#define STACK_BYTES (2 * 1024 * 1024)
#define PATTERN 0xA5

static uint8_t *stack;
static const char *text;
static uint32_t book[WATCH_BOOK_WORDS], state[WATCH_STATE_WORDS];
static uint64_t tally[WATCH_TALLY_WORDS];
static uint8_t rows[WATCH_EVENT_ROWS * WATCH_ROW_BYTES], record[WATCH_RECORD_BYTES];
static size_t place, begins, ends, count, answer;

/* The stack below this frame is what a call uses. */
static const uint8_t *frame;

static void *call_read(void *unused)
{
    uint8_t here = 0;

    frame = &here;
    answer = watch_read((const uint8_t *)text, strlen(text), book, &place, &begins, &ends);
    return unused;
}

static void *call_name(void *unused)
{
    uint8_t here = 0;

    frame = &here;
    watch_name((const uint8_t *)text, strlen(text), 19, &begins, &ends);
    return unused;
}

static void *call_fresh(void *unused)
{
    uint8_t here = 0;

    frame = &here;
    watch_fresh(state);
    return unused;
}

static void *call_event(void *unused)
{
    uint8_t here = 0;

    frame = &here;
    answer = watch_event(book, state, record, sizeof record, rows, sizeof rows, 0, tally, &count);
    return unused;
}

/* The deepest that each call went, and what the events came to. */
static size_t reading, naming, freshening, taking, most_rows, most_held, answers[14];

/* Makes a call in a thread of its own and notes how many bytes of its stack were used. */
static void measure(void *(*call)(void *), size_t *deepest)
{
    pthread_attr_t attributes;
    pthread_t thread;
    const uint8_t *lowest = stack;
    size_t used;

    memset(stack, PATTERN, STACK_BYTES);
    if (pthread_attr_init(&attributes) != 0 || pthread_attr_setstack(&attributes, stack, STACK_BYTES) != 0
        || pthread_create(&thread, &attributes, call, NULL) != 0 || pthread_join(thread, NULL) != 0) {
        printf("FAILED: no thread\n");
        exit(1);
    }
    pthread_attr_destroy(&attributes);
    while (*lowest == PATTERN)
        lowest++;
    used = (size_t)(frame - lowest);
    if (used > *deepest)
        *deepest = used;
}

/* Numbers that look random (xorshift), the same in each run. */
static uint32_t below(uint32_t n)
{
    static uint64_t draws = 88172645463325252u;

    draws ^= draws << 13;
    draws ^= draws >> 7;
    draws ^= draws << 17;
    return (uint32_t)(draws >> 16) % n;
}

/* An event of some symbol of the book: its kind and count are the first words of the symbol. */
static void draw_record(uint32_t values)
{
    const uint32_t *symbol = book + TABLE_FROM + SYMBOL_WORDS * below(book[2]);
    uint32_t i;

    memset(record, 0, sizeof record);
    record[0] = (uint8_t)symbol[0];
    record[1] = (uint8_t)symbol[1];
    for (i = 0; i < symbol[1]; i++)
        record[4 + 4 * i] = (uint8_t)below(values);
}

/* Texts of 4,096 bytes at all limits: 4 variables, 16 symbols, 31 occurrences, 16 parentheses open together. Symbol 0 binds all
 * variables and stands in each word, first or last of 30 optional ones, so that 128 disjuncts are held soon, with variables bound or
 * free; or what may stand before the innermost parenthesis all does, which is deepest for the reader: it calls itself for each
 * parenthesis, for each further item and for each further alternative; deepest of all is one occurrence too many, which is refused. */
enum limits { FIRST, LAST, DEEP, OVER };

static const char *limits(enum limits which)
{
    static const char *const arguments[] = {"va va vb vb", "va vb _ _", "vb _ vc _", "_ vc vd _", "vd _ _ va", "va vb vc vd", "vd vc vb va"};
    static char made[4097];
    int size, i;

    size = sprintf(made, "vars va vb vc vd\nsym symbolnumb00 1 va vb vc vd\n");
    for (i = 1; i < 16; i++)
        size += sprintf(made + size, "sym symbolnumb%02d %d %s\n", i, 1 + i % 5, arguments[i % 7]);
    size += sprintf(made + size, "match ");
    for (i = 0; i < 16; i++) {
        if (which >= DEEP)
            size += sprintf(made + size, i < 14 ? "symbolnumb00 symbolnumb%02d " : "symbolnumb%02d ", i);
        size += sprintf(made + size, "(");
    }
    if (which != LAST)
        size += sprintf(made + size, "symbolnumb00");
    for (i = 0; i < 30 && which < DEEP; i++)
        size += sprintf(made + size, "%ssymbolnumb%02d*", i % 2 || i == 0 ? " " : ") ", 1 + i % 15);
    if (which == LAST || which == OVER)
        size += sprintf(made + size, " symbolnumb00");
    for (i = 0; i < (which >= DEEP ? 16 : 2); i++)
        size += sprintf(made + size, ")");
    for (; size < 4095; size++)
        made[size] = ' ';
    made[4095] = '\n';
    return made;
}

/* One event gives 14 rows for each disjunct that is held. */
static const char many_rows[] =
    "vars d s t u\nsym z 2 _ _ _ _\nsym a 1 d\nsym b 2 s t u _\nsym c 2 s t _ u\nsym e 2 s u t _\nsym f 2 s _ t u\nsym g 2 s u _ t\n"
    "sym h 2 s _ u t\nsym i 2 t s u _\nsym j 2 t s _ u\nsym k 2 u s t _\nsym l 2 _ s t u\nsym m 2 u s _ t\nsym n 2 _ s u t\n"
    "sym o 2 t u s _\nsym p 2 t _ s u\nmatch a (b|c|e|f|g|h|i|j|k|l|m|n|o|p)\n";

static void take(void)
{
    measure(call_event, &taking);
    answers[answer]++;
    if (count > most_rows)
        most_rows = count;
    if (state[2] > most_held)
        most_held = state[2];
}

static void start(const char *read)
{
    text = read;
    measure(call_read, &reading);
    if (answer != WATCH_ACCEPTED) {
        printf("FAILED: a text is refused, %lu at %lu\n", (unsigned long)answer, (unsigned long)place);
        exit(1);
    }
    measure(call_name, &naming);
    measure(call_fresh, &freshening);
}

static void run(const char *read, int events, uint32_t values)
{
    start(read);
    while (events-- > 0) {
        draw_record(values);
        take();
    }
}

/* 128 events that are held, then one that completes them all. */
static void run_rows(void)
{
    static const uint8_t last[] = {2, 4, 0, 0, 1, 0, 0, 0, 2, 0, 0, 0, 3, 0, 0, 0, 4, 0, 0, 0};
    uint8_t i;

    start(many_rows);
    memset(record, 0, sizeof record);
    record[0] = 1;
    record[1] = 1;
    for (i = 0; i < 128; i++) {
        record[4] = i;
        take();
    }
    memcpy(record, last, sizeof last);
    take();
}

int main(void)
{
    size_t i, deepest;
    void *memory = NULL;

    if (posix_memalign(&memory, 65536, STACK_BYTES) != 0)
        return 1;
    stack = (uint8_t *)memory;
    run(limits(FIRST), 200, 2);
    run(limits(FIRST), 200, 200);
    run(limits(LAST), 200, 2);
    run(limits(LAST), 200, 200);
    run(limits(DEEP), 200, 3);
    run_rows();
    text = limits(OVER);
    measure(call_read, &reading);
    measure(call_name, &naming);
    answers[answer]++;
    printf("stack in bytes: watch_read %lu, watch_name %lu, watch_fresh %lu, watch_event %lu\n", (unsigned long)reading, (unsigned long)naming,
           (unsigned long)freshening, (unsigned long)taking);
    printf("an event had up to %lu rows, a state up to %lu disjuncts; answers", (unsigned long)most_rows, (unsigned long)most_held);
    for (i = 0; i < 14; i++)
        if (answers[i] > 0)
            printf(" %lu: %lu", (unsigned long)i, (unsigned long)answers[i]);
    deepest = reading > taking ? reading : taking;
    deepest = naming > deepest ? naming : deepest;
    printf("\n%s the calls need less than WATCH_STACK_BYTES, %lu\n", deepest < WATCH_STACK_BYTES ? "ok" : "FAILED", (unsigned long)WATCH_STACK_BYTES);
    return deepest >= WATCH_STACK_BYTES;
}
