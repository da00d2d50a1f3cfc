/* What must come of an event call, by rules that are written by hand from document 01 and change 1 of document 02, for damage.c: a judge
 * of soundness and a small matcher over the words of the blocks. It shares nothing with the calls but the layout of the words. */
#ifndef RULES_H
#define RULES_H

#include "watch.h"

/* Where the parts of a book begin: layout, variables, symbols, positions, sets of beginning and of ending positions, flag of the
 * empty word; then names (start, size), symbols (kind, count, four of tag and number), the symbol and the followers of each
 * position. */
#define NAMES_FROM 7
#define TABLE_FROM (NAMES_FROM + 20 * 2)
#define SYMBOL_WORDS 10
#define OCCURRENCES_FROM (TABLE_FROM + 16 * SYMBOL_WORDS)
#define FOLLOWS_FROM (OCCURRENCES_FROM + 31)

/* Where the parts of a state begin: layout, event number, count; then the position and the group of each of 128 places. A group
 * has seven words to each of four variables: 7, the value, five zeros; or the count of exclusions, these, zeros. */
#define HELD 128
#define EXCLUSIONS 6
#define BOUND 7
#define SLOT_WORDS 7
#define GROUP_WORDS (4 * SLOT_WORDS)
#define POSITIONS_FROM 3
#define POOL_FROM (POSITIONS_FROM + HELD)
#define EVENTS 1000000

/* The answer, the count of rows and their bytes, and the words of the next state (only where the answer is 0). */
struct outcome {
    size_t answer;
    size_t count;
    uint8_t rows[WATCH_EVENT_ROWS * WATCH_ROW_BYTES];
    uint32_t state[WATCH_STATE_WORDS];
};

/* Whether the words are a book that can be used. */
int sound_book(const uint32_t *b);

/* A number as four bytes, the least first. */
void put_number(uint8_t *bytes, uint32_t x);

/* What must come of an event with these words, record, size of the row buffer and place in it. */
void judge(const uint32_t *b, const uint32_t *s, const uint8_t *record, size_t size, size_t rows_size, size_t place, struct outcome *o);

#endif
