/* README's sample in C: book B1 of document 01, its six events one by one, and the rows that they complete. */
#include <stdio.h>
#include "watch.h"

static uint32_t book[WATCH_BOOK_WORDS], state[WATCH_STATE_WORDS];
static uint64_t tally[WATCH_TALLY_WORDS];
static uint8_t rows[WATCH_EVENT_ROWS * WATCH_ROW_BYTES];

int main(void)
{
    static const char text[] = "vars d s\nsym load 1 d s\nsym drop 2 d\nsym clean 3 d\nmatch load drop+\n";
    static const uint8_t events[6][WATCH_RECORD_BYTES] = { /* kind, argument count, two zeros, four bytes to an argument */
        {1, 2, 0, 0, 1, 0, 0, 0, 7}, {1, 2, 0, 0, 2, 0, 0, 0, 8}, {2, 1, 0, 0, 1}, {3, 1, 0, 0, 2}, {2, 1, 0, 0, 2}, {2, 1, 0, 0, 1}};
    size_t place, begins, ends, count, i, k;

    if (watch_read((const uint8_t *)text, sizeof text - 1, book, &place, &begins, &ends) != WATCH_ACCEPTED)
        return 1;
    watch_fresh(state);
    for (i = 0; i < 6; i++) {
        if (watch_event(book, state, events[i], WATCH_RECORD_BYTES, rows, sizeof rows, 0, tally, &count) != WATCH_ACCEPTED)
            return 1;
        for (k = 0; k < count; k++) /* low bytes of the event number, d and s are enough here */
            printf("event %d: d %d, s %d\n", rows[24 * k], rows[24 * k + 8], rows[24 * k + 12]);
    }
    return 0;
}
