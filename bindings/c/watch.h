/* The watch for programs in C99 and C++: the calls of liblent.a (`bindings/archive` makes it, x86-64), over memory that the caller lends.
 * A book declares variables, symbols and a pattern; each event is taken as it comes, and its rows are the valuations for which
 * the pattern has just been completed. Numbers, places and formats are those of document 01 with change 1 of document 02.
 *
 * Memory. A book, a state and a tally are blocks of words that the caller keeps, of the sizes below, in any kind of memory.
 * A call keeps nothing, allocates nothing, does no input or output, and reads and writes no memory but what it is lent and its
 * own stack. Every pointer is to as much as is stated, aligned for its type; what a call writes overlaps nothing else that it is
 * lent: text, book, state, record, rows, tally and the words for results are apart from one another. A pointer beside a length
 * may be NULL where the length is 0; no other may be.
 *
 * Contents. Any words, bytes, places and numbers may be lent: what cannot be used is refused by its number. A block begins with
 * the number of its layout, and an event call answers 9 to a block that begins with another one, so that words saved by another
 * version are not taken for what they are not. Words may be copied, saved and loaded; on a machine of the same byte order they
 * are the same block.
 *
 * Formats. Numbers of 32 bits in them are unsigned, with the least byte first.
 * A record, 20 bytes: byte 0 is the kind, 1 to 255; byte 1 the argument count, 0 to 4; bytes 2 and 3 are zero; from byte 4 on stand
 * four arguments of 32 bits, zero beyond the count.
 * A row, 24 bytes: bytes 0 to 3 are the number of the event, 32 bits, from 1, counting accepted events; byte 4 is the variable count;
 * bytes 5 to 7 are zero; from byte 8 on stand four values of 32 bits, by declaration, zero beyond the count.
 *
 * Threads. Calls may run at once where none of them writes what another one is lent; so one book may serve many states.
 *
 * Stack. A call needs under 256 KB. This was measured, on texts and books at all limits and with 128 disjuncts held (198,000 bytes
 * for watch_read and watch_name, 227,000 for watch_event; bindings/c/stack.c holds them to it), and is not proved.
 *
 * Linking. The archive asks of the linker nothing but memcpy and memset (or their like: memmove, memcmp, bcmp).
 *
 * What each call gives and leaves, as stated below, is proved of its source (crates/lent_c over crates/lent); that this header declares the same
 * calls, and what the compiler makes of them, is tried by bindings/test.
 */
#ifndef WATCH_H
#define WATCH_H

#include <stddef.h>
#include <stdint.h>

#ifdef __cplusplus
extern "C" {
#endif

/* The words of a book and of a state (32 bits each) and of a tally (64 bits each). */
#define WATCH_BOOK_WORDS 269
#define WATCH_STATE_WORDS 3715
#define WATCH_TALLY_WORDS 3

/* The first word of a book and of a state. */
#define WATCH_BOOK_LAYOUT 1001
#define WATCH_STATE_LAYOUT 2001

/* The bytes of an event record and of a row (formats above), and the most rows that one event has. */
#define WATCH_RECORD_BYTES 20
#define WATCH_ROW_BYTES 24
#define WATCH_EVENT_ROWS (16 * 129)

/* The stack that a call needs, at most. */
#define WATCH_STACK_BYTES (256 * 1024)

/* The words of a tally. */
enum {
    WATCH_TALLY_ACCEPTED = 0, /* events accepted */
    WATCH_TALLY_REFUSED = 1,  /* events refused */
    WATCH_TALLY_ROWS = 2      /* rows written */
};

/* Answers: 0 to 8 of watch_read, 0 and 9 to 13 of watch_event. An answer with a place has it from watch_read; the others have 0. */
enum {
    WATCH_ACCEPTED = 0,     /* accepted */
    WATCH_TOO_LONG = 1,     /* place 4,096: book over 4,096 bytes */
    WATCH_BAD_LINE = 2,     /* place: line out of form */
    WATCH_ABOVE_LIMIT = 3,  /* place: a count or depth above its limit */
    WATCH_REDECLARED = 4,   /* place: name already declared */
    WATCH_UNDECLARED = 5,   /* place: name not declared */
    WATCH_BAD_PATTERN = 6,  /* place: pattern out of form */
    WATCH_EMPTY_WORD = 7,   /* place: empty word admitted */
    WATCH_UNBOUND = 8,      /* place: a word leaves a variable unbound */
    WATCH_UNSOUND = 9,      /* unsound book or state, or a row that would leave a variable free */
    WATCH_OUT_OF_FORM = 10, /* event record out of form, or not 20 bytes */
    WATCH_TOO_MANY = 11,    /* 1,000,000 events already accepted */
    WATCH_NO_ROOM = 12,     /* no room */
    WATCH_NO_SPACE = 13     /* row buffer too short, or start place beyond it */
};

/* Reads the text of a book. Gives the answer, 0 to 8. Writes all WATCH_BOOK_WORDS words of *book, and *place, *begins, *ends.
 * Accepted (0): the book; place 0; how many positions begin and how many end a word.
 * Refused (1 to 8): a book of zeros, which every event call answers with 9; the first byte (from 0) of what is wrong; counts 0. */
size_t watch_read(const uint8_t *text, size_t text_size, uint32_t *book, size_t *place, size_t *begins, size_t *ends);

/* Finds a declared name in the text of a book by its number: variables from 0, then symbols. Writes *start and *size: the name
 * is the size bytes of the text from start on. Both are 0 for a number that is not declared and for a text that is refused. */
void watch_name(const uint8_t *text, size_t text_size, size_t number, size_t *start, size_t *size);

/* Makes a fresh state, which holds nothing after 0 events. Writes all WATCH_STATE_WORDS words of *state. */
void watch_fresh(uint32_t *state);

/* Takes one event. Gives the answer, 0 or 9 to 13; where several of 9 to 13 apply, the least.
 * Accepted (0): *state is the next state; *count rows of WATCH_ROW_BYTES each are written from rows + place on, ascending, and
 * all other bytes of rows stay; *tally has one accepted event more and count rows more.
 * Refused (9 to 13): state and rows stay as they came, every word and byte; *count is 0; *tally has one refused event more.
 * The book is never written, and a counter stops at UINT64_MAX. WATCH_EVENT_ROWS rows from the place on are always enough. */
size_t watch_event(const uint32_t *book, uint32_t *state, const uint8_t *record, size_t record_size, uint8_t *rows, size_t rows_size,
                   size_t place, uint64_t *tally, size_t *count);

#ifdef __cplusplus
}
#endif

#endif
