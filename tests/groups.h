/* What the hand-written tests of the calls on groups share: desks with a reader's or a writer's state, or that of a reader of
   blocks, the ten calls by short names, tables and data to lend, and the states that are expected. A state is put together here
   and nowhere else. */

#ifndef GROUPS_H
#define GROUPS_H

#include "guard.h"

#define LARGEST DDS_SIZE_STANDARD

/* ---- States */

static inline void put_reader(uint8_t *state, uint32_t size, uint32_t next, uint32_t phase, uint32_t sum, uint32_t b4,
                              uint32_t accepted)
{
    memset(state, 0, DDS_READER_LEN);
    put(state + DDS_STATE_SIZE, size);
    put(state + DDS_STATE_NEXT, next);
    put(state + DDS_STATE_PHASE, phase);
    put(state + DDS_STATE_SUM, sum);
    put(state + DDS_READER_B4, b4);
    put(state + DDS_READER_ACCEPTED, accepted);
}

static inline void put_blocks(uint8_t *state, uint32_t size, uint32_t next, uint32_t phase, uint32_t sum, uint32_t b4,
                              uint32_t accepted, uint32_t block)
{
    put_reader(state, size, next, phase, sum, b4, accepted);
    put(state + DDS_READER_BLOCK, block);
}

static inline void put_writer(uint8_t *state, uint32_t size, uint32_t next, uint32_t phase, uint32_t sum, uint32_t data,
                              uint32_t entries, uint32_t b4, uint32_t rest)
{
    memset(state, 0, DDS_WRITER_LEN);
    put(state + DDS_STATE_SIZE, size);
    put(state + DDS_STATE_NEXT, next);
    put(state + DDS_STATE_PHASE, phase);
    put(state + DDS_STATE_SUM, sum);
    put(state + DDS_STATE_DATA, data);
    put(state + DDS_STATE_ENTRIES, entries);
    put(state + DDS_STATE_B4, b4);
    put(state + DDS_STATE_REST, rest);
}

/* a desk to read at or to write at, with a group of the state's size. A reader's b4 is clear and no group was accepted, unless
   they are given; reads can be explained at it too. */
static inline desk reader_with(uint32_t size, uint32_t next, uint32_t phase, uint32_t sum, uint32_t b4, uint32_t accepted)
{
    desk d = desk_for(READ);
    relend(&d.of[EXPLANATION], DDS_EXPLANATION_LEN);
    relend(&d.of[GROUP], size < 200000 ? size : 64);
    put_reader(d.of[STATE].at, size, next, phase, sum, b4, accepted);
    return d;
}

static inline desk reader_b4(uint32_t size, uint32_t next, uint32_t phase, uint32_t sum, uint32_t b4)
{
    return reader_with(size, next, phase, sum, b4, 0);
}

static inline desk reader(uint32_t size, uint32_t next, uint32_t phase, uint32_t sum)
{
    return reader_b4(size, next, phase, sum, 0);
}

/* a desk to read blocks of this size at */
static inline desk blocks_with(uint32_t size, uint32_t next, uint32_t phase, uint32_t sum, uint32_t b4, uint32_t accepted,
                               uint32_t block)
{
    desk d = desk_for(BLOCKS_READ);
    relend(&d.of[GROUP], size < 200000 ? size : 64);
    put_blocks(d.of[STATE].at, size, next, phase, sum, b4, accepted, block);
    return d;
}

static inline desk writer(uint32_t size, uint32_t next, uint32_t phase, uint32_t sum, uint32_t data, uint32_t entries,
                          uint32_t b4, uint32_t rest)
{
    desk d = desk_for(RECORD);
    relend(&d.of[GROUP], size < 200000 ? size : 64);
    put_writer(d.of[STATE].at, size, next, phase, sum, data, entries, b4, rest);
    return d;
}

/* the state that an accepted group leaves */
static inline void reader_b4_is(const desk *d, const char *name, uint32_t size, uint32_t next, uint32_t phase, uint32_t sum,
                                uint32_t b4)
{
    uint8_t wanted[DDS_READER_LEN];
    put_reader(wanted, size, next, phase, sum, b4, 1);
    check(same_bytes(wanted, sizeof wanted, d->of[STATE].at, d->of[STATE].len), name, "state");
}

static inline void reader_is(const desk *d, const char *name, uint32_t size, uint32_t next, uint32_t phase, uint32_t sum)
{
    reader_b4_is(d, name, size, next, phase, sum, 0);
}

/* the state that a start leaves: no group was accepted yet */
static inline void reader_is_fresh(const desk *d, const char *name, uint32_t size, uint32_t first)
{
    uint8_t wanted[DDS_READER_LEN];
    put_reader(wanted, size, first, 0, 0, 0, 0);
    check(same_bytes(wanted, sizeof wanted, d->of[STATE].at, d->of[STATE].len), name, "state");
}

/* the same of a reader of blocks: an accepted group leaves the block size as it is */
static inline void blocks_are(const desk *d, const char *name, uint32_t size, uint32_t next, uint32_t phase, uint32_t sum,
                              uint32_t b4, uint32_t block)
{
    uint8_t wanted[DDS_BLOCKS_STATE_LEN];
    put_blocks(wanted, size, next, phase, sum, b4, 1, block);
    check(same_bytes(wanted, sizeof wanted, d->of[STATE].at, d->of[STATE].len), name, "state");
}

static inline void writer_is(const desk *d, const char *name, uint32_t size, uint32_t next, uint32_t phase, uint32_t sum,
                             uint32_t data, uint32_t entries, uint32_t b4, uint32_t rest)
{
    uint8_t wanted[DDS_WRITER_LEN];
    put_writer(wanted, size, next, phase, sum, data, entries, b4, rest);
    check(same_bytes(wanted, sizeof wanted, d->of[STATE].at, d->of[STATE].len), name, "state");
}

/* ---- What is lent */

/* data of n bytes to offer: 01, 02 .. FF, 00, 01 .. */
static inline void offer(desk *d, size_t n)
{
    size_t i;
    relend(&d->of[DATA], n);
    for (i = 0; i < n; i++) d->of[DATA].at[i] = (uint8_t)(i + 1);
}

/* where entry k stands in a group */
static inline uint8_t *entry(const slice *group, uint32_t k)
{
    return group->at + group->len - DDS_INFORMATION_LEN - DDS_ENTRY_LEN * k;
}

/* n entries, each its flag and count in one word, into a group that is otherwise LENT; n rows */
static inline void table(desk *d, uint32_t n, const uint32_t *entries)
{
    uint32_t k;
    memset(d->of[GROUP].at, LENT, d->of[GROUP].len);
    for (k = 1; k <= n; k++) put(entry(&d->of[GROUP], k), entries[k - 1]);
    relend(&d->of[ROWS], DDS_ROW_LEN * (size_t)n);
}
#define LIST(...) (uint32_t)(sizeof (uint32_t[]){ __VA_ARGS__ } / 4), (uint32_t[]){ __VA_ARGS__ }

/* ---- The calls, and what they answer */

static inline void reader_starts(desk *d, uint32_t size, uint32_t first) { make(d, READER_START, size, first, 0); }
static inline void writer_starts(desk *d, uint32_t size, uint32_t first) { make(d, WRITER_START, size, first, 0); }
static inline void reads(desk *d, uint32_t number, uint32_t entries) { make(d, READ, number, entries, 0); }
static inline void explains(desk *d, uint32_t number, uint32_t entries) { make(d, EXPLAIN, number, entries, 0); }
static inline void starts_blocks(desk *d, uint32_t size, uint32_t first, uint32_t block)
{
    make(d, BLOCKS_START, size, first, block);
}
static inline void reads_blocks(desk *d, uint32_t number, uint32_t entries) { make(d, BLOCKS_READ, number, entries, 0); }
static inline void finds_block(desk *d, uint32_t before, uint32_t block) { make(d, BLOCKS_FIND, before, block, 0); }
static inline void records(desk *d, uint32_t warn) { make(d, RECORD, warn, 0, 0); }
static inline void separates(desk *d, uint32_t value, uint32_t warn) { make(d, SEPARATOR, value, warn, 0); }
static inline void ends(desk *d, uint32_t warn) { make(d, END, warn, 0, 0); }

static inline void finished(const desk *d, const char *name) { answer_is(d, name, 0, 0, DDS_OUTCOME_FINISHED, 0, 0, 0); }

/* told that the group is a repeat, and nothing else written */
static inline void repeated(const desk *d, const char *name)
{
    answer_is(d, name, 0, 0, DDS_OUTCOME_REPEAT, 0, 0, 0);
    told_alone(d, name);
}

static inline void closed(const desk *d, const char *name, uint32_t number, uint32_t entries, uint32_t taken)
{
    answer_is(d, name, 0, 0, DDS_OUTCOME_CLOSED, number, entries, taken);
}

#endif
