/* The listing in C, an example of the four calls for those who write their own: reads `book.txt` in the current folder and event
 * records from standard input. A refused text: `book`, number, place. Otherwise to each record its number, the answer and the
 * row count, then to each row `row` and the values. A last short record is passed as it is. */
#include <stdio.h>

#include "watch.h"

/* One byte more than a text may have: a longer one is refused by what is read of it. */
#define TEXT_BYTES 4097

/* Blocks need not be on the stack. */
static uint8_t text[TEXT_BYTES];
static uint32_t book[WATCH_BOOK_WORDS];
static uint32_t state[WATCH_STATE_WORDS];
static uint64_t tally[WATCH_TALLY_WORDS];
static uint8_t rows[WATCH_EVENT_ROWS * WATCH_ROW_BYTES];

/* Four bytes, the least first. */
static unsigned long number_at(const uint8_t *bytes)
{
    return bytes[0] | (unsigned long)bytes[1] << 8 | (unsigned long)bytes[2] << 16 | (unsigned long)bytes[3] << 24;
}

/* A row: event number, variable count, three zeros, four values. */
static void print_row(const uint8_t *row)
{
    int i;

    printf("row");
    for (i = 0; i < row[4]; i++)
        printf(" %lu", number_at(row + 8 + 4 * i));
    printf("\n");
}

int main(void)
{
    uint8_t record[WATCH_RECORD_BYTES];
    size_t size, answer, place, begins, ends, count, k;
    unsigned long number = 0;
    FILE *file = fopen("book.txt", "rb");

    if (file == NULL) {
        perror("book.txt");
        return 1;
    }
    size = fread(text, 1, sizeof text, file);
    fclose(file);
    answer = watch_read(text, size, book, &place, &begins, &ends);
    if (answer != WATCH_ACCEPTED) {
        printf("book %lu %lu\n", (unsigned long)answer, (unsigned long)place);
        return 0;
    }
    watch_fresh(state);
    while ((size = fread(record, 1, sizeof record, stdin)) > 0) {
        answer = watch_event(book, state, record, size, rows, sizeof rows, 0, tally, &count);
        number++;
        printf("%lu %lu %lu\n", number, (unsigned long)answer, (unsigned long)count);
        for (k = 0; k < count; k++)
            print_row(rows + k * WATCH_ROW_BYTES);
    }
    return 0;
}
