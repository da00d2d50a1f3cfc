/* What must come of an event call, by hand: see rules.h. Quoted in the comments is document 01. Room and order are plain rather
 * than quick: sets are kept in order by insertion, and each step is done as the sentence says it. */
#include "rules.h"

#include <stdio.h>
#include <stdlib.h>
#include <string.h>

/* A disjunct as the words of its group, all that is not said zero; a set of them, ascending. */
struct disjunct {
    uint32_t words[GROUP_WORDS];
};

struct set {
    size_t size;
    struct disjunct items[4096];
};

/* "variable equals argument" for each variable that is asked, or false */
struct constraint {
    int never;
    int asked[4];
    uint32_t value[4];
};

/* A set of positions 1 to n, one bit to each. */
static int sound_mask(uint32_t mask, uint32_t n)
{
    return (mask & 1) == 0 && (uint64_t)mask < (uint64_t)2 << n;
}

static int sound_symbol(const uint32_t *y, uint32_t variables)
{
    uint32_t i;

    if (y[0] < 1 || y[0] > 255 || y[1] > 4)
        return 0;
    for (i = 0; i < y[1]; i++) {
        uint32_t tag = y[2 + 2 * i], number = y[3 + 2 * i];
        if (tag > 2 || (tag == 1 && number >= variables))
            return 0;
    }
    return 1;
}

/* "at least one position, every number in its declared range, no empty word" */
int sound_book(const uint32_t *b)
{
    uint32_t i, variables = b[1], symbols = b[2], positions = b[3];

    if (b[0] != WATCH_BOOK_LAYOUT || variables > 4 || symbols < 1 || symbols > 16 || positions < 1 || positions > 31 || b[6] != 0)
        return 0;
    for (i = 0; i < variables + symbols; i++)
        if ((uint64_t)b[NAMES_FROM + 2 * i] + b[NAMES_FROM + 2 * i + 1] > 4096)
            return 0;
    for (i = 0; i < symbols; i++)
        if (!sound_symbol(b + TABLE_FROM + SYMBOL_WORDS * i, variables))
            return 0;
    for (i = 0; i < positions; i++)
        if (b[OCCURRENCES_FROM + i] >= symbols || !sound_mask(b[FOLLOWS_FROM + i], positions))
            return 0;
    return sound_mask(b[4], positions) && sound_mask(b[5], positions);
}

/* How many exclusions a variable's words have, and the key of its value: a free variable before any. */
static uint32_t excluded(const uint32_t *slot)
{
    return slot[0] == BOUND ? 0 : slot[0];
}

static uint64_t value_key(const uint32_t *slot)
{
    return slot[0] == BOUND ? (uint64_t)slot[1] + 1 : 0;
}

/* "by values (a free variable before any value), then by exclusion lists, a list before any that it begins" */
static int compare(const struct disjunct *d, const struct disjunct *e)
{
    uint32_t v, i;

    for (v = 0; v < 4; v++) {
        uint64_t a = value_key(d->words + SLOT_WORDS * v), b = value_key(e->words + SLOT_WORDS * v);
        if (a != b)
            return a < b ? -1 : 1;
    }
    for (v = 0; v < 4; v++) {
        const uint32_t *a = d->words + SLOT_WORDS * v, *b = e->words + SLOT_WORDS * v;
        for (i = 0; i < excluded(a) && i < excluded(b); i++)
            if (a[1 + i] != b[1 + i])
                return a[1 + i] < b[1 + i] ? -1 : 1;
        if (excluded(a) != excluded(b))
            return excluded(a) < excluded(b) ? -1 : 1;
    }
    return 0;
}

/* The disjunct that a group says, of the book's variables: what is not counted is not said. Whether each of them is sound. */
static int disjunct_in(const uint32_t *group, uint32_t variables, struct disjunct *d)
{
    uint32_t v, i;

    memset(d, 0, sizeof *d);
    for (v = 0; v < variables; v++) {
        const uint32_t *slot = group + SLOT_WORDS * v;
        uint32_t n = slot[0] == BOUND ? 1 : slot[0];
        if (n > EXCLUSIONS)
            return 0;
        for (i = 1; i < n; i++)
            if (slot[i] >= slot[i + 1])
                return 0;
        memcpy(d->words + SLOT_WORDS * v, slot, (1 + n) * sizeof *slot);
    }
    return 1;
}

/* "exclusions and disjuncts ascending and distinct, … at most 128 disjuncts", every number in its range */
static int sound_state(const uint32_t *b, const uint32_t *s)
{
    struct disjunct now, last;
    uint32_t i;

    if (s[0] != WATCH_STATE_LAYOUT || s[1] > EVENTS || s[2] > HELD)
        return 0;
    memset(&last, 0, sizeof last);
    for (i = 0; i < s[2]; i++) {
        uint32_t p = s[POSITIONS_FROM + i];
        if (p < 1 || p > b[3] || !disjunct_in(s + POOL_FROM + GROUP_WORDS * i, b[1], &now))
            return 0;
        if (i > 0 && (p < s[POSITIONS_FROM + i - 1] || (p == s[POSITIONS_FROM + i - 1] && compare(&last, &now) >= 0)))
            return 0;
        last = now;
    }
    return 1;
}

/* Four bytes, the least first. */
static uint32_t number_at(const uint8_t *bytes)
{
    return bytes[0] | (uint32_t)bytes[1] << 8 | (uint32_t)bytes[2] << 16 | (uint32_t)bytes[3] << 24;
}

void put_number(uint8_t *bytes, uint32_t x)
{
    int i;

    for (i = 0; i < 4; i++)
        bytes[i] = (uint8_t)(x >> 8 * i);
}

static int is_record(const uint8_t *r, size_t size)
{
    uint32_t i;

    if (size != WATCH_RECORD_BYTES || r[0] == 0 || r[1] > 4 || r[2] != 0 || r[3] != 0)
        return 0;
    for (i = r[1]; i < 4; i++)
        if (number_at(r + 4 + 4 * i) != 0)
            return 0;
    return 1;
}

/* A symbol's constraint on an event. */
static struct constraint constraint_of(const uint32_t *y, const uint8_t *record)
{
    struct constraint c;
    uint32_t i;

    memset(&c, 0, sizeof c);
    c.never = y[0] != record[0] || y[1] != record[1];
    for (i = 0; i < y[1] && !c.never; i++) {
        uint32_t tag = y[2 + 2 * i], number = y[3 + 2 * i], argument = number_at(record + 4 + 4 * i);
        if (tag == 2)
            c.never = number != argument;
        else if (tag == 1 && c.asked[number])
            c.never = c.value[number] != argument;
        else if (tag == 1) {
            c.asked[number] = 1;
            c.value[number] = argument;
        }
    }
    return c;
}

/* "Meeting a disjunct with a constraint yields a new disjunct or false" */
static int meet(const struct disjunct *d, const struct constraint *c, struct disjunct *met)
{
    uint32_t v, i;

    if (c->never)
        return 0;
    *met = *d;
    for (v = 0; v < 4; v++) {
        uint32_t *slot = met->words + SLOT_WORDS * v;
        if (!c->asked[v])
            continue;
        if (slot[0] == BOUND && slot[1] != c->value[v])
            return 0;
        for (i = 0; i < excluded(slot); i++)
            if (slot[1 + i] == c->value[v])
                return 0;
        memset(slot, 0, SLOT_WORDS * sizeof *slot);
        slot[0] = BOUND;
        slot[1] = c->value[v];
    }
    return 1;
}

/* "Equal disjuncts are one." */
static void insert(struct set *set, const struct disjunct *d)
{
    size_t at = 0;
    int order = 1;

    while (at < set->size && (order = compare(&set->items[at], d)) < 0)
        at++;
    if (at < set->size && order == 0)
        return;
    if (set->size == sizeof set->items / sizeof set->items[0]) {
        printf("FAILED: a set of this program is full\n");
        exit(1);
    }
    memmove(set->items + at + 1, set->items + at, (set->size - at) * sizeof *d);
    set->items[at] = *d;
    set->size++;
}

/* "The step set of q": of the start, if q begins, and of each position that q follows. */
static void step(const uint32_t *b, const uint32_t *s, const uint8_t *record, uint32_t q, struct set *set)
{
    struct constraint c = constraint_of(b + TABLE_FROM + SYMBOL_WORDS * b[OCCURRENCES_FROM + q - 1], record);
    struct disjunct d, met;
    uint32_t i;

    set->size = 0;
    memset(&d, 0, sizeof d);
    if (b[4] >> q & 1 && meet(&d, &c, &met))
        insert(set, &met);
    for (i = 0; i < s[2]; i++)
        if (b[FOLLOWS_FROM + s[POSITIONS_FROM + i] - 1] >> q & 1) {
            disjunct_in(s + POOL_FROM + GROUP_WORDS * i, b[1], &d);
            if (meet(&d, &c, &met))
                insert(set, &met);
        }
}

/* One disjunct past one symbol: kept, or once for each variable of the constraint that is free, with the value excluded there.
 * Whether no variable would have 7 exclusions. */
static int skip_one(const struct disjunct *d, const struct constraint *c, struct set *set)
{
    struct disjunct met;
    uint32_t v, at;

    if (!meet(d, c, &met)) {
        insert(set, d);
        return 1;
    }
    for (v = 0; v < 4; v++) {
        uint32_t *slot = met.words + SLOT_WORDS * v;
        if (!c->asked[v] || d->words[SLOT_WORDS * v] == BOUND)
            continue;
        if (d->words[SLOT_WORDS * v] == EXCLUSIONS)
            return 0;
        met = *d;
        for (at = slot[0]; at > 0 && slot[at] > c->value[v]; at--)
            slot[at + 1] = slot[at];
        slot[at + 1] = c->value[v];
        slot[0]++;
        insert(set, &met);
    }
    return 1;
}

/* "The skip set of p: its old label taken through all symbols in declaration order." Whether there is room. */
static int skip(const uint32_t *b, const uint32_t *s, const uint8_t *record, uint32_t p, struct set *set)
{
    static struct set old;
    struct disjunct d;
    uint32_t i, k;

    set->size = 0;
    for (i = 0; i < s[2]; i++)
        if (s[POSITIONS_FROM + i] == p) {
            disjunct_in(s + POOL_FROM + GROUP_WORDS * i, b[1], &d);
            insert(set, &d);
        }
    for (k = 0; k < b[2]; k++) {
        struct constraint c = constraint_of(b + TABLE_FROM + SYMBOL_WORDS * k, record);
        old.size = set->size;
        memcpy(old.items, set->items, set->size * sizeof d);
        set->size = 0;
        for (i = 0; i < old.size; i++)
            if (!skip_one(&old.items[i], &c, set))
                return 0;
        if (set->size > HELD)
            return 0;
    }
    return 1;
}

/* The rows of an event. Whether none would leave a variable free. */
static int collect(const uint32_t *b, const uint32_t *s, const uint8_t *record, struct set *rows)
{
    static struct set stepped;
    uint32_t q, v;
    size_t i;

    rows->size = 0;
    for (q = 1; q <= b[3]; q++) {
        if (!(b[5] >> q & 1))
            continue;
        step(b, s, record, q, &stepped);
        for (i = 0; i < stepped.size; i++) {
            for (v = 0; v < b[1]; v++)
                if (stepped.items[i].words[SLOT_WORDS * v] != BOUND)
                    return 0;
            insert(rows, &stepped.items[i]);
        }
    }
    return 1;
}

/* The next state over the words of the old one: what is held, zeros where more was held, the rest as it came. Whether there is
 * room. */
static int advance(const uint32_t *b, const uint32_t *s, const uint8_t *record, uint32_t *next)
{
    static struct set stepped, skipped;
    uint32_t p, count = 0;
    size_t i;

    memcpy(next, s, WATCH_STATE_WORDS * sizeof *s);
    memset(next + POSITIONS_FROM, 0, s[2] * sizeof *s);
    memset(next + POOL_FROM, 0, GROUP_WORDS * s[2] * sizeof *s);
    for (p = 1; p <= b[3]; p++) {
        step(b, s, record, p, &stepped);
        if (stepped.size > HELD || !skip(b, s, record, p, &skipped))
            return 0;
        if (b[FOLLOWS_FROM + p - 1] == 0)
            continue;
        for (i = 0; i < stepped.size; i++)
            insert(&skipped, &stepped.items[i]);
        for (i = 0; i < skipped.size; i++) {
            if (count == HELD)
                return 0;
            next[POSITIONS_FROM + count] = p;
            memcpy(next + POOL_FROM + GROUP_WORDS * count, &skipped.items[i], sizeof skipped.items[i]);
            count++;
        }
    }
    next[1] = s[1] + 1;
    next[2] = count;
    return 1;
}

/* What must come of an event, 9 to 13 in this order. */
void judge(const uint32_t *b, const uint32_t *s, const uint8_t *record, size_t size, size_t rows_size, size_t place, struct outcome *o)
{
    static struct set rows;
    size_t i;
    uint32_t v;

    o->count = 0;
    o->answer = WATCH_UNSOUND;
    if (!sound_book(b) || !sound_state(b, s))
        return;
    if (is_record(record, size) && !collect(b, s, record, &rows))
        return;
    o->answer = WATCH_OUT_OF_FORM;
    if (!is_record(record, size))
        return;
    o->answer = WATCH_TOO_MANY;
    if (s[1] == EVENTS)
        return;
    o->answer = WATCH_NO_ROOM;
    if (!advance(b, s, record, o->state))
        return;
    o->answer = WATCH_NO_SPACE;
    if (place > rows_size || rows.size > (rows_size - place) / WATCH_ROW_BYTES)
        return;
    o->answer = WATCH_ACCEPTED;
    o->count = rows.size;
    memset(o->rows, 0, rows.size * WATCH_ROW_BYTES);
    for (i = 0; i < rows.size; i++) {
        uint8_t *row = o->rows + i * WATCH_ROW_BYTES;
        put_number(row, s[1] + 1);
        row[4] = (uint8_t)b[1];
        for (v = 0; v < b[1]; v++)
            put_number(row + 8 + 4 * v, rows.items[i].words[SLOT_WORDS * v + 1]);
    }
}
