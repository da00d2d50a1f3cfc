/* Damaged blocks, short buffers, places beyond them, null pointers and full counters, for bindings/test: every call is held to
 * rules that are written by hand (rules.c). All that is lent stands in one struct with guards between, so that a byte changed
 * anywhere else than stated is found. */
#include <stdio.h>
#include <string.h>

#include "rules.h"

#define GUARD 16
#define ROWS_BYTES (WATCH_EVENT_ROWS * WATCH_ROW_BYTES + 100)
#define TEXT_BYTES 5000

/* All that is lent, with guards before and behind everything. */
struct lent {
    uint64_t guard0[GUARD];
    uint32_t book[WATCH_BOOK_WORDS];
    uint32_t guard1[GUARD];
    uint32_t state[WATCH_STATE_WORDS];
    uint32_t guard2[GUARD];
    uint64_t guard3[GUARD];
    uint64_t tally[WATCH_TALLY_WORDS];
    uint64_t guard4[GUARD];
    size_t count;
    size_t guard5[GUARD];
    size_t place;
    size_t guard6[GUARD];
    size_t begins;
    size_t guard7[GUARD];
    size_t ends;
    size_t guard8[GUARD];
    uint8_t record[64];
    uint8_t guard9[GUARD];
    uint8_t rows[ROWS_BYTES];
    uint8_t guard10[GUARD];
    uint8_t text[TEXT_BYTES];
    uint8_t guard11[GUARD];
};

static struct lent lent, want;
static unsigned long checks, failures, seen[14];
static const char *section = "";

static void check(int right, const char *what)
{
    checks++;
    if (right)
        return;
    failures++;
    if (failures <= 20)
        printf("FAILED %s: %s\n", section, what);
}

/* Numbers that look random (xorshift), the same in each run. */
static uint64_t draws = 88172645463325252u;

static uint32_t draw(void)
{
    draws ^= draws << 13;
    draws ^= draws >> 7;
    draws ^= draws << 17;
    return (uint32_t)(draws >> 16);
}

static uint32_t below(uint32_t n)
{
    return draw() % n;
}

static void add(uint64_t *counter, uint64_t more)
{
    *counter = UINT64_MAX - *counter < more ? UINT64_MAX : *counter + more;
}

/* ---- The calls, each held to what must be left of everything ---- */

/* One event of lent.record with a part of the row buffer. Gives the answer. */
static size_t take(size_t record_size, uint8_t *rows, size_t rows_size, size_t place)
{
    static struct outcome o;
    const uint8_t *record = record_size == 0 ? NULL : lent.record;
    size_t answer;

    judge(lent.book, lent.state, lent.record, record_size, rows_size, place, &o);
    lent.count = draw();
    memcpy(&want, &lent, sizeof lent);
    want.count = o.count;
    if (o.answer == WATCH_ACCEPTED) {
        memcpy(want.state, o.state, sizeof o.state);
        memcpy(want.rows + place, o.rows, o.count * WATCH_ROW_BYTES);
        add(&want.tally[WATCH_TALLY_ACCEPTED], 1);
        add(&want.tally[WATCH_TALLY_ROWS], o.count);
    } else
        add(&want.tally[WATCH_TALLY_REFUSED], 1);
    answer = watch_event(lent.book, lent.state, record, record_size, rows, rows_size, place, lent.tally, &lent.count);
    check(answer == o.answer, "the answer");
    check(lent.count == want.count, "the count of rows");
    check(memcmp(lent.book, want.book, sizeof lent.book) == 0, "the words of the book");
    check(memcmp(lent.state, want.state, sizeof lent.state) == 0, "the words of the state");
    check(memcmp(lent.rows, want.rows, sizeof lent.rows) == 0, "the bytes of the rows");
    check(memcmp(lent.tally, want.tally, sizeof lent.tally) == 0, "the tally");
    check(memcmp(&lent, &want, sizeof lent) == 0, "what stands between and behind");
    if (answer < 14)
        seen[answer]++;
    memcpy(&lent, &want, sizeof lent);
    return answer;
}

static size_t take_whole(void)
{
    return take(WATCH_RECORD_BYTES, lent.rows, ROWS_BYTES, 0);
}

/* One text, held to what can be said of any: refused it leaves zeros at a place within, accepted a sound book. Gives the answer. */
static size_t read_text(const char *text, size_t size)
{
    size_t answer, i, begins = 0, ends = 0;

    if (size > 0)
        memcpy(lent.text, text, size);
    memcpy(&want, &lent, sizeof lent);
    answer = watch_read(size == 0 ? NULL : lent.text, size, lent.book, &lent.place, &lent.begins, &lent.ends);
    check(answer <= WATCH_UNBOUND, "the answer of a reading");
    if (answer == WATCH_ACCEPTED) {
        for (i = 0; i < 32; i++) {
            begins += lent.book[4] >> i & 1;
            ends += lent.book[5] >> i & 1;
        }
        check(sound_book(lent.book), "an accepted book is sound");
        check(lent.place == 0 && lent.begins == begins && lent.ends == ends, "place and counts of an accepted text");
        memcpy(want.book, lent.book, sizeof lent.book);
    } else {
        check(lent.place <= size && (answer == WATCH_TOO_LONG) == (size > 4096), "the place of a refusal");
        check(lent.begins == 0 && lent.ends == 0, "counts of a refused text");
        memset(want.book, 0, sizeof want.book);
    }
    want.place = lent.place;
    want.begins = lent.begins;
    want.ends = lent.ends;
    check(memcmp(&lent, &want, sizeof lent) == 0, "what a reading leaves");
    memcpy(&lent, &want, sizeof lent);
    return answer;
}

static size_t read_string(const char *text)
{
    return read_text(text, strlen(text));
}

static void fresh(void)
{
    memcpy(&want, &lent, sizeof lent);
    memset(want.state, 0, sizeof want.state);
    want.state[0] = WATCH_STATE_LAYOUT;
    watch_fresh(lent.state);
    check(memcmp(&lent, &want, sizeof lent) == 0, "a fresh state");
    memcpy(&lent, &want, sizeof lent);
}

/* The name with a number must be this. */
static void name_is(size_t number, const char *name)
{
    size_t size = strlen(name), text_size = strlen((const char *)lent.text);

    memcpy(&want, &lent, sizeof lent);
    watch_name(text_size == 0 ? NULL : lent.text, text_size, number, &lent.begins, &lent.ends);
    check(lent.ends == size && (size > 0 || lent.begins == 0), "the size of a name");
    check(lent.begins + size <= text_size && memcmp(lent.text + lent.begins, name, size) == 0, "a name");
    want.begins = lent.begins;
    want.ends = lent.ends;
    check(memcmp(&lent, &want, sizeof lent) == 0, "what the search for a name leaves");
}

/* The record of an event, of up to four arguments. */
static void record_of(uint8_t kind, uint8_t count, uint32_t a, uint32_t b, uint32_t c, uint32_t d)
{
    uint32_t arguments[4], i;

    arguments[0] = a;
    arguments[1] = b;
    arguments[2] = c;
    arguments[3] = d;
    memset(lent.record, 0, sizeof lent.record);
    lent.record[0] = kind;
    lent.record[1] = count;
    for (i = 0; i < count; i++)
        put_number(lent.record + 4 + 4 * i, arguments[i]);
}

/* An event of some symbol of a sound book, its arguments few or wide, so that matches are frequent. */
static void draw_record(const uint32_t *book, uint32_t values)
{
    const uint32_t *y = book + TABLE_FROM + SYMBOL_WORDS * below(book[2]);
    uint32_t i, x[4];

    for (i = 0; i < 4; i++) {
        x[i] = below(values);
        if (below(40) == 0)
            x[i] = draw();
        if (i < y[1] && y[2 + 2 * i] == 2 && below(4) > 0)
            x[i] = y[3 + 2 * i];
    }
    record_of((uint8_t)y[0], (uint8_t)y[1], x[0], x[1], x[2], x[3]);
}

/* Words behind what is held: an accepted event must leave them, all but those that it takes. */
static void junk_behind(void)
{
    size_t i;

    for (i = POSITIONS_FROM + lent.state[2]; i < POOL_FROM; i++)
        lent.state[i] = draw();
    for (i = POOL_FROM + GROUP_WORDS * lent.state[2]; i < WATCH_STATE_WORDS; i++)
        lent.state[i] = draw();
}

/* ---- What is tried ---- */

static const char b1[] = "vars d s\nsym load 1 d s\nsym drop 2 d\nsym clean 3 d\nmatch load drop+\n";
static const char b2[] = "vars d s\nsym open 5 d\nsym fill 1 d s\nsym seal 6 d s\nmatch open seal\n";
static const char *const texts[] = {
    b1,
    b2,
    /* four variables, one of them twice, an ignored place, fixed numbers, optional parts */
    "vars a b c d\nsym p 1 a b\nsym q 2 b c _\nsym r 3 c d c\nsym s 3 d =2 a\nsym t 4 =0 =4294967295 a d\nmatch p (q | t)* q (r s? | t r)+\n",
    /* no variables, symbols that overlap */
    "vars\nsym a 1 _\nsym b 1 _\nmatch a b | b b b+\n",
    /* one variable, all symbols of one kind: each choice gives a reading */
    "vars h\nsym z 1 h h\nsym p 1 h _\nsym b 1 h =3\nsym k 1 _ h\nmatch ((k | z p | p b? k))+\n",
    /* all limits: 4 variables, 16 symbols of four arguments, 31 occurrences, 16 parentheses open together */
    "vars a b c d\nsym s0 1 a b c d\nsym s1 2 a b c d\nsym s2 3 a b c d\nsym s3 4 a b c d\nsym s4 5 a b c d\nsym s5 6 a b _ d\n"
    "sym s6 7 a b c d\nsym s7 8 d c b a\nsym s8 9 a _ _ b\nsym s9 10 a a b b\nsym s10 11 =1 a b c\nsym s11 12 _ _ _ a\n"
    "sym s12 13 a b c d\nsym s13 14 a b c d\nsym s14 1 d c b a\nsym s15 1 a a b b\n"
    "match ((((((((((((((((s0 s1) | s2 s3) s4*) s5) s6+) s7?) | s8 s9 s10 s11 s12 s13) s14) s15) s0) s1) s2) s3) s4) s5) s6 | s0 s7 s8 s9 s12)\n"};

#define TEXTS (sizeof texts / sizeof texts[0])

/* The words that come of a text and of a few events, written out. */
static void try_written_out(void)
{
    static const uint32_t head[] = {WATCH_BOOK_LAYOUT, 2, 3, 2, 2, 4, 0, 5, 1, 7, 1, 13, 4, 28, 4, 41, 5, 0};
    static const uint32_t table[] = {1, 2, 1, 0, 1, 1, 0, 0, 0, 0, 2, 1, 1, 0, 0, 0, 0, 0, 0, 0, 3, 1, 1, 0};
    static const uint32_t bound[] = {BOUND, 1, 0, 0, 0, 0, 0, BOUND, 7, 0, 0, 0, 0, 0, 0, 0, 0, 0, 0, 0, 0, 0, 0, 0, 0, 0, 0, 0};
    static const uint32_t excluding[] = {BOUND, 1, 0, 0, 0, 0, 0, 2, 7, 9, 0, 0, 0, 0, 0, 0, 0, 0, 0, 0, 0, 0, 0, 0, 0, 0, 0, 0};
    static const uint8_t row[] = {2, 0, 0, 0, 2, 0, 0, 0, 1, 0, 0, 0, 7, 0, 0, 0, 0, 0, 0, 0, 0, 0, 0, 0};
    static const uint32_t zeros[GROUP_WORDS];
    uint32_t junk[2];

    section = "written out";
    check(read_string(b1) == WATCH_ACCEPTED, "B1 is accepted");
    check(memcmp(lent.book, head, sizeof head) == 0, "the first words of B1");
    check(memcmp(lent.book + TABLE_FROM, table, sizeof table) == 0, "the symbols of B1");
    check(lent.book[OCCURRENCES_FROM] == 0 && lent.book[OCCURRENCES_FROM + 1] == 1, "the positions' symbols of B1");
    check(lent.book[FOLLOWS_FROM] == 4 && lent.book[FOLLOWS_FROM + 1] == 4, "what follows in B1");
    check(lent.begins == 1 && lent.ends == 1, "the counts of B1");
    lent.text[strlen(b1)] = 0;
    name_is(0, "d");
    name_is(1, "s");
    name_is(2, "load");
    name_is(4, "clean");
    name_is(5, "");
    name_is(SIZE_MAX, "");
    fresh();
    junk_behind();
    memcpy(junk, lent.state + POSITIONS_FROM + 1, sizeof junk);
    record_of(1, 2, 1, 7, 0, 0);
    check(take_whole() == WATCH_ACCEPTED && lent.count == 0, "load(1,7)");
    check(lent.state[0] == WATCH_STATE_LAYOUT && lent.state[1] == 1 && lent.state[2] == 1 && lent.state[3] == 1, "the head after load(1,7)");
    check(memcmp(lent.state + POOL_FROM, bound, sizeof bound) == 0, "the group after load(1,7)");
    check(memcmp(lent.state + POSITIONS_FROM + 1, junk, sizeof junk) == 0, "the places behind after load(1,7)");
    record_of(2, 1, 1, 0, 0, 0);
    check(take(WATCH_RECORD_BYTES, lent.rows, ROWS_BYTES, 3) == WATCH_ACCEPTED && lent.count == 1, "drop(1)");
    check(memcmp(lent.rows + 3, row, sizeof row) == 0, "the row of drop(1)");
    check(lent.state[2] == 1 && lent.state[3] == 2 && memcmp(lent.state + POOL_FROM, bound, sizeof bound) == 0, "the state after drop(1)");
    record_of(3, 1, 1, 0, 0, 0);
    check(take_whole() == WATCH_ACCEPTED, "clean(1)");
    check(lent.state[2] == 0 && lent.state[3] == 0 && memcmp(lent.state + POOL_FROM, zeros, sizeof zeros) == 0, "zeros after clean(1)");
    check(read_string(b2) == WATCH_ACCEPTED, "B2 is accepted");
    fresh();
    record_of(5, 1, 1, 0, 0, 0);
    take_whole();
    record_of(1, 2, 1, 9, 0, 0);
    take_whole();
    record_of(1, 2, 1, 7, 0, 0);
    take_whole();
    check(lent.state[2] == 1 && memcmp(lent.state + POOL_FROM, excluding, sizeof excluding) == 0, "exclusions ascend, zeros behind");
}

/* Runs from the fresh state, with words behind what is held, refused events between, and places in the buffer. */
static void try_runs(void)
{
    size_t i, k;

    section = "runs";
    for (i = 0; i < TEXTS; i++) {
        check(read_string(texts[i]) == WATCH_ACCEPTED, "the text of a run");
        fresh();
        junk_behind();
        for (k = 0; k < 600; k++) {
            draw_record(lent.book, k % 200 < 100 ? 3 : 60);
            if (below(30) == 0)
                lent.record[below(WATCH_RECORD_BYTES)] ^= (uint8_t)draw();
            take(below(30) == 0 ? below(40) : WATCH_RECORD_BYTES, lent.rows, ROWS_BYTES - below(3000), below(40));
            if (k % 150 == 149) {
                fresh();
                junk_behind();
            }
        }
    }
}

/* Values that a word is set to. */
static uint32_t damage(uint32_t was, uint32_t kind)
{
    static const uint32_t values[] = {0, 1, 2, 7, 8, 31, 129, 255, 256, 4096, EVENTS, 0x7FFFFFFF, 0xFFFFFFFE, 0xFFFFFFFF};
    const uint32_t n = sizeof values / sizeof values[0];

    return kind < n ? values[kind] : kind == n ? was + 1 : kind == n + 1 ? was - 1 : kind == n + 2 ? was ^ (1u << below(32)) : draw();
}

#define KINDS 18

/* A block with events behind it: the book and state before a word is damaged are kept, and come back after each call. */
static uint32_t kept_book[WATCH_BOOK_WORDS], kept_state[WATCH_STATE_WORDS];

static void prepare(const char *text, size_t events, uint32_t values)
{
    check(read_string(text) == WATCH_ACCEPTED, "a text to be damaged");
    fresh();
    junk_behind();
    while (events-- > 0) {
        draw_record(lent.book, values);
        take_whole();
    }
    memcpy(kept_book, lent.book, sizeof kept_book);
    memcpy(kept_state, lent.state, sizeof kept_state);
}

static void take_damaged(void)
{
    draw_record(kept_book, 4);
    if (below(10) == 0)
        lent.record[below(WATCH_RECORD_BYTES)] ^= 1;
    take_whole();
    memcpy(lent.book, kept_book, sizeof kept_book);
    memcpy(lent.state, kept_state, sizeof kept_state);
}

static void try_words(void)
{
    size_t i, k;
    uint32_t kind;

    for (i = 0; i < TEXTS; i++) {
        section = "words of a book";
        prepare(texts[i], 6 + 3 * i, 3);
        for (k = 0; k < WATCH_BOOK_WORDS; k++)
            for (kind = 0; kind < KINDS; kind++) {
                lent.book[k] = damage(lent.book[k], kind);
                take_damaged();
            }
        section = "words of a state";
        for (k = 0; k < WATCH_STATE_WORDS; k++) {
            size_t group = k < POOL_FROM ? 0 : (k - POOL_FROM) / GROUP_WORDS;
            /* all words of the first groups and of those about the count, some behind */
            if (group > 6 && group + 1 < kept_state[2] && group % 16 > 0)
                continue;
            if (group > kept_state[2] + 1 && group % 32 > 0)
                continue;
            for (kind = 0; kind < KINDS; kind++) {
                lent.state[k] = damage(lent.state[k], kind);
                take_damaged();
            }
        }
        section = "several words";
        for (k = 0; k < 3000; k++) {
            uint32_t n = 1 + below(4), used = POOL_FROM + GROUP_WORDS * (kept_state[2] + 1);
            while (n-- > 0) {
                size_t at = below(WATCH_BOOK_WORDS + used);
                uint32_t *word = at < WATCH_BOOK_WORDS ? &lent.book[at] : &lent.state[(at - WATCH_BOOK_WORDS) % WATCH_STATE_WORDS];
                *word = damage(*word, below(KINDS));
            }
            take_damaged();
        }
    }
}

/* A state with all places taken, and one word of it damaged. */
static void try_full(void)
{
    uint32_t i, kind;

    section = "all places taken";
    check(read_string(b1) == WATCH_ACCEPTED, "B1 again");
    fresh();
    for (i = 1; i <= HELD; i++) {
        record_of(1, 2, 1, i, 0, 0);
        check(take_whole() == WATCH_ACCEPTED, "load(1,1) to load(1,128)");
    }
    record_of(1, 2, 1, 129, 0, 0);
    check(take_whole() == WATCH_NO_ROOM, "load(1,129)");
    memcpy(kept_book, lent.book, sizeof kept_book);
    memcpy(kept_state, lent.state, sizeof kept_state);
    for (i = 0; i < WATCH_STATE_WORDS; i += i < POOL_FROM + 2 * GROUP_WORDS ? 1 : 13)
        for (kind = 0; kind < KINDS; kind++) {
            lent.state[i] = damage(lent.state[i], kind);
            take_damaged();
        }
    record_of(2, 1, 1, 0, 0, 0);
    check(take_whole() == WATCH_ACCEPTED && lent.count == HELD, "drop(1): 128 rows");
    record_of(3, 1, 1, 0, 0, 0);
    check(take_whole() == WATCH_ACCEPTED && lent.state[2] == 0, "clean(1): nothing held");
    record_of(1, 2, 1, 129, 0, 0);
    check(take_whole() == WATCH_ACCEPTED, "load(1,129) again");
}

/* A variable with all six exclusions, and one word of its group damaged. */
static void try_exclusions(void)
{
    uint32_t i, kind;

    section = "six exclusions";
    check(read_string(b2) == WATCH_ACCEPTED, "B2 again");
    fresh();
    record_of(5, 1, 1, 0, 0, 0);
    check(take_whole() == WATCH_ACCEPTED, "open(1)");
    for (i = 1; i <= EXCLUSIONS; i++) {
        record_of(1, 2, 1, i, 0, 0);
        check(take_whole() == WATCH_ACCEPTED && lent.state[POOL_FROM + SLOT_WORDS] == i, "fill(1,1) to fill(1,6)");
    }
    memcpy(kept_book, lent.book, sizeof kept_book);
    memcpy(kept_state, lent.state, sizeof kept_state);
    for (i = POOL_FROM; i < POOL_FROM + GROUP_WORDS; i++)
        for (kind = 0; kind < 10 * KINDS; kind++) {
            lent.state[i] = damage(lent.state[i], kind % KINDS);
            take_damaged();
        }
    record_of(1, 2, 1, 7, 0, 0);
    check(take_whole() == WATCH_NO_ROOM, "fill(1,7)");
    record_of(6, 2, 1, 6, 0, 0);
    check(take_whole() == WATCH_ACCEPTED && lent.count == 0, "seal(1,6)");
    record_of(6, 2, 1, 9, 0, 0);
    check(take_whole() == WATCH_NO_ROOM, "seal(1,9)");
}

static void try_layouts(void)
{
    static const uint32_t layouts[] = {0, 1, 7, 8, 129, 1000, 1002, 2000, 2002, 0xFFFFFFFF, 1001u << 16, 0xE9030000, 0xD1070000};
    size_t i;

    section = "layouts";
    prepare(b1, 4, 2);
    record_of(9, 0, 0, 0, 0, 0);
    for (i = 0; i < sizeof layouts / sizeof layouts[0] + 1; i++) {
        lent.book[0] = i == 0 ? WATCH_STATE_LAYOUT : layouts[i - 1];
        check(take_whole() == WATCH_UNSOUND, "another layout of a book is 9");
        lent.book[0] = WATCH_BOOK_LAYOUT;
        lent.state[0] = i == 0 ? WATCH_BOOK_LAYOUT : layouts[i - 1];
        check(take_whole() == WATCH_UNSOUND, "another layout of a state is 9");
        lent.state[0] = WATCH_STATE_LAYOUT;
    }
    check(take_whole() == WATCH_ACCEPTED, "the layouts back again");
    lent.state[1] = EVENTS - 1;
    check(take_whole() == WATCH_ACCEPTED && lent.state[1] == EVENTS, "the last event");
    check(take_whole() == WATCH_TOO_MANY, "one more is 11");
    for (i = 0; i < 60; i++) {
        draw_record(lent.book, 3);
        check(take(WATCH_RECORD_BYTES, lent.rows, below(2), below(2)) == WATCH_TOO_MANY, "11 comes before 12 and 13");
        check(take(below(WATCH_RECORD_BYTES), lent.rows, 0, 0) == WATCH_OUT_OF_FORM, "10 comes before 11");
    }
    lent.state[1] = EVENTS + 1;
    check(take_whole() == WATCH_UNSOUND, "a number above is 9");
}

/* A null pointer beside a length of 0, buffers that are too short, and places beyond. */
static void try_buffers(void)
{
    static const size_t beyond[] = {1, 2, 23, 24, 25, 1000, SIZE_MAX / 2, SIZE_MAX - 48, SIZE_MAX - 24, SIZE_MAX - 1, SIZE_MAX};
    size_t size, place, i;

    section = "buffers";
    check(read_text(NULL, 0) == WATCH_BAD_LINE && lent.place == 0, "a text of no bytes");
    lent.text[0] = 0;
    name_is(0, "");
    check(read_string(b1) == WATCH_ACCEPTED, "B1 for buffers");
    fresh();
    record_of(1, 2, 1, 7, 0, 0);
    check(take(WATCH_RECORD_BYTES, NULL, 0, 0) == WATCH_ACCEPTED, "no buffer where there is no row");
    check(take(0, NULL, 0, 0) == WATCH_OUT_OF_FORM, "no record");
    check(take(0, lent.rows, 100, 0) == WATCH_OUT_OF_FORM, "no record, a buffer");
    check(take(WATCH_RECORD_BYTES, NULL, 0, 1) == WATCH_NO_SPACE, "a place beyond no buffer");
    check(take(WATCH_RECORD_BYTES, NULL, 0, SIZE_MAX) == WATCH_NO_SPACE, "the largest place");
    for (i = 8; i < 11; i++) {
        record_of(1, 2, 1, (uint32_t)i, 0, 0);
        take_whole();
    }
    record_of(2, 1, 1, 0, 0, 0);
    check(take(WATCH_RECORD_BYTES, NULL, 0, 0) == WATCH_NO_SPACE, "four rows and no buffer");
    memcpy(kept_state, lent.state, sizeof kept_state);
    for (size = 0; size <= 5 * WATCH_ROW_BYTES; size++) {
        for (place = 0; place <= size + 1; place += 1 + size / 12) {
            size_t answer = take(WATCH_RECORD_BYTES, lent.rows, size, place);
            check((answer == WATCH_ACCEPTED) == (place + 4 * WATCH_ROW_BYTES <= size), "13 iff the rows do not fit");
            memcpy(lent.state, kept_state, sizeof kept_state);
        }
        for (i = 0; i < sizeof beyond / sizeof beyond[0]; i++)
            check(take(WATCH_RECORD_BYTES, lent.rows, size, beyond[i] > SIZE_MAX - size ? beyond[i] : size + beyond[i]) == WATCH_NO_SPACE, "a place beyond");
    }
    for (size = 0; size <= sizeof lent.record; size++)
        check((take(size, lent.rows, 0, 0) == WATCH_OUT_OF_FORM) == (size != WATCH_RECORD_BYTES), "records of another size");
}

static void try_counters(void)
{
    static const uint64_t starts[] = {0, 1, UINT32_MAX, UINT64_MAX - 2, UINT64_MAX - 1, UINT64_MAX};
    const size_t n = sizeof starts / sizeof starts[0];
    size_t i;

    section = "counters";
    check(read_string(b1) == WATCH_ACCEPTED, "B1 for counters");
    fresh();
    for (i = 1; i < 4; i++) {
        record_of(1, 2, 1, (uint32_t)i, 0, 0);
        take_whole();
    }
    memcpy(kept_state, lent.state, sizeof kept_state);
    for (i = 0; i < n * n * n; i++) {
        uint64_t t[3];
        t[0] = starts[i % n];
        t[1] = starts[i / n % n];
        t[2] = starts[i / n / n];
        memcpy(lent.tally, t, sizeof t);
        record_of(2, 1, 1, 0, 0, 0);
        check(take_whole() == WATCH_ACCEPTED && lent.count == 3, "three rows to be counted");
        check(lent.tally[0] == (t[0] == UINT64_MAX ? t[0] : t[0] + 1) && lent.tally[1] == t[1], "events counted");
        check(lent.tally[2] == (t[2] >= UINT64_MAX - 3 ? UINT64_MAX : t[2] + 3), "rows counted");
        memcpy(lent.tally, t, sizeof t);
        check(take(WATCH_RECORD_BYTES, lent.rows, 0, 0) == WATCH_NO_SPACE, "a refusal to be counted");
        check(lent.tally[0] == t[0] && lent.tally[1] == (t[1] == UINT64_MAX ? t[1] : t[1] + 1) && lent.tally[2] == t[2], "the refusal counted");
        memcpy(lent.state, kept_state, sizeof kept_state);
    }
    memset(lent.tally, 0, sizeof lent.tally);
}

/* Every byte of a text changed, and every length of it; texts above the limit. */
static void try_texts(void)
{
    static char text[TEXT_BYTES];
    size_t i, k, size;

    section = "texts";
    for (i = 0; i < TEXTS; i++) {
        size = strlen(texts[i]);
        for (k = 0; k < size; k++) {
            memcpy(text, texts[i], size);
            read_text(text, k);
            text[k] = (char)draw();
            read_text(text, size);
            text[k] = " \n|(*)_=a0"[below(10)];
            read_text(text, size);
        }
    }
    memset(text, ' ', sizeof text);
    memcpy(text, b1, strlen(b1) - 1);
    text[4095] = '\n';
    check(read_text(text, 4096) == WATCH_ACCEPTED, "4,096 bytes");
    for (size = 4097; size < TEXT_BYTES; size += 99)
        check(read_text(text, size) == WATCH_TOO_LONG && lent.place == 4096, "above 4,096 bytes");
}

int main(void)
{
    static void (*const tries[])(void) = {try_written_out, try_runs, try_words, try_full, try_exclusions, try_layouts, try_buffers, try_counters, try_texts};
    static const char *const names[] = {"words written out", "runs", "damaged words", "all places taken", "six exclusions", "layouts and event numbers", "buffers, places and null pointers", "counters", "texts"};
    uint8_t *bytes = (uint8_t *)&lent;
    size_t i;

    for (i = 0; i < sizeof lent; i++)
        bytes[i] = (uint8_t)draw();
    memset(lent.tally, 0, sizeof lent.tally);
    for (i = 0; i < sizeof tries / sizeof tries[0]; i++) {
        unsigned long checked = checks, failed = failures;
        tries[i]();
        printf("%s %s: %lu checks\n", failures == failed ? "ok" : "FAILED", names[i], checks - checked);
    }
    section = "answers";
    for (i = WATCH_UNSOUND; i <= WATCH_NO_SPACE; i++)
        check(seen[i] > 50, "each answer was seen");
    printf("%s answers: 0 %lu, 9 %lu, 10 %lu, 11 %lu, 12 %lu, 13 %lu\n", failures == 0 ? "ok" : "FAILED", seen[0], seen[9], seen[10], seen[11], seen[12], seen[13]);
    return failures > 0;
}
