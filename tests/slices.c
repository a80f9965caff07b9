/* Readings 2, 4 to 6 and 8: slices and arguments of the calls on groups, beside what examples.c tries on every call. What a start
   is lent, a reader's state as it was before requests 2026-03 and 2026-05, states of the one reader lent to the other, warns
   without meaning, empty slices, row slices, slices that a repeat does not touch, rows that an explanation does not, and lengths
   of 2^32 and more that no rule forbids outright. */

#define _DEFAULT_SOURCE
#include "fence.h"
#include "groups.h"

/* a group of one separator, to be read as number 7 */
static desk lawful(void)
{
    desk s = reader(64, 7, 0, 0);
    table(&s, LIST(0x07000001, 0x80000040));
    return s;
}

/* the same group, to be read in blocks of nine bytes */
static desk lawful_blocks(void)
{
    desk s = blocks_with(64, 7, 0, 0, 0, 0, 9);
    table(&s, LIST(0x07000001, 0x80000040));
    return s;
}

/* reading 2: a start never looks at what the state slice holds */
static void starts_over(void)
{
    const uint32_t all = 0xFFFFFFFF;
    desk r = reader_with(all, all, all, all, all, all), w = writer(0, 0, 3, 9, 9, 9, 9, 9);
    desk b = blocks_with(all, all, all, all, all, all, all);
    reader_starts(&r, 64, 0x1234);
    finished(&r, "reading 2: reader start over garbage");
    reader_is_fresh(&r, "reading 2: reader start over garbage", 64, 0x1234);
    writer_starts(&w, 0x01EEA8, 65535);
    finished(&w, "reading 2: writer start over garbage");
    writer_is(&w, "reading 2: writer start over garbage", 0x01EEA8, 65535, 0, 0, 0, 0, 0, 0);
    reader_starts(&r, 63, 1);
    refused(&r, "reading 2: a refused start leaves the state", 2, 0);
    starts_blocks(&b, 64, 0x1234, 0);
    refused(&b, "reading 2: a refused start of blocks leaves the state", 50, 0);
    starts_blocks(&b, 64, 0x1234, 9);
    finished(&b, "reading 2: start of blocks over garbage");
    slice_is(&b, STATE, "reading 2: start of blocks over garbage", "00 00 00 40 00 00 12 34 00*16 00 00 00 09");
    leave(&r);
    leave(&w);
    leave(&b);
}

/* a reader's state of this many bytes, those of a state that is 24 bytes long, is another length */
static void old_state(desk *s, const uint8_t *state, size_t len)
{
    relend(&s->of[STATE], len);
    memcpy(s->of[STATE].at, state, len);
    reads(s, 7, 2);
    refused_unwritten(s, "an old state: a read");
    reads(s, 6, 2);
    refused_unwritten(s, "an old state: a repeat");
    explains(s, 7, 2);
    explained(s, "an old state: explained", 1, 0, 0, 0, 0, 0, 0);
    reader_starts(s, 64, 7);
    refused_unwritten(s, "an old state: a start");
}

/* the 16 bytes of before request 2026-03, and the 20 of before 2026-05; with b4 and accepted behind them they are right */
static void old_states(void)
{
    uint32_t b4, accepted;
    for (b4 = 0; b4 < 3; b4++)
        for (accepted = 0; accepted < 3; accepted++) {
            desk s = lawful();
            uint8_t state[DDS_READER_LEN];
            put_reader(state, 64, 7, 0, 0, b4, accepted);
            old_state(&s, state, 16);
            old_state(&s, state, 20);
            relend(&s.of[STATE], DDS_READER_LEN);
            memcpy(s.of[STATE].at, state, DDS_READER_LEN);
            reads(&s, 7, 2);
            if (b4 == 2 || accepted == 2) refused(&s, "an old state: a number without meaning behind it", 1, 0);
            else if (b4 == 1) refused(&s, "an old state: b4 set behind it", 9, 1);
            else finished(&s, "an old state: b4 and accepted behind it");
            leave(&s);
        }
}

/* request 2026-09: a state of every length but its own, and the answer beside it too. Its first bytes are those of a right one: a
   reader's 24 are no state of a reader of blocks, and that one's 28 no reader's. */
static void states_of_blocks(void)
{
    size_t len, i;
    for (len = 0; len <= 64; len++) {
        uint8_t state[64] = { 0 };
        desk s = lawful_blocks(), r = lawful();
        put_blocks(state, 64, 7, 0, 0, 0, 1, 9);
        relend(&s.of[STATE], len);
        relend(&r.of[STATE], len);
        if (len) memcpy(s.of[STATE].at, state, len);
        if (len) memcpy(r.of[STATE].at, state, len);
        for (i = 0; i < 2 && len != DDS_BLOCKS_STATE_LEN; i++) { /* the answer right, and then as long as the state */
            starts_blocks(&s, 64, 7, 9);
            refused_unwritten(&s, "request 2026-09: a start, a state of another length");
            starts_blocks(&s, 0, 0, 0);
            refused_unwritten(&s, "request 2026-09: a start, a state of another length, before 2, 3 and 50");
            reads_blocks(&s, 7, 2);
            refused_unwritten(&s, "request 2026-09: a read, a state of another length");
            reads_blocks(&s, 6, 2);
            refused_unwritten(&s, "request 2026-09: a repeat, a state of another length");
            if (len != DDS_ANSWER_LEN) relend(&s.of[ANSWER], len);
        }
        if (len != DDS_READER_LEN) {
            reads(&r, 7, 2);
            refused_unwritten(&r, "request 2026-09: the plain read of another length");
            reads(&r, 6, 2);
            refused_unwritten(&r, "request 2026-09: the plain repeat of another length");
        }
        leave(&s);
        leave(&r);
    }
}

/* the answer of every length but its own: nothing is written, whatever else is right or wrong */
static void answers_of_blocks(void)
{
    size_t len;
    for (len = 0; len <= 64; len++) {
        desk s = lawful_blocks();
        relend(&s.of[ANSWER], len);
        if (len == DDS_ANSWER_LEN) { leave(&s); continue; }
        starts_blocks(&s, 64, 7, 9);
        refused_unwritten(&s, "request 2026-09: a start, an answer of another length");
        reads_blocks(&s, 7, 2);
        refused_unwritten(&s, "request 2026-09: a read, an answer of another length");
        finds_block(&s, 0, 0);
        refused_unwritten(&s, "request 2026-09: a search, an answer of another length");
        put(s.of[STATE].at + DDS_READER_BLOCK, 0);
        reads_blocks(&s, 7, 2);
        refused_unwritten(&s, "request 2026-09: an answer of another length, and a state that is not sound");
        lend_none(&s.of[ROWS], 1);
        finds_block(&s, 0, 0);
        refused_unwritten(&s, "request 2026-09: a search in no rows, an answer of another length");
        leave(&s);
    }
}

/* reading 4: a warn that has no meaning, before 4, also where an end would close nothing */
static void warns(void)
{
    static const uint32_t warn[] = { 2, 3, 8, 255, 256, 257, 65536, 0x01000000, 0x80000000, 0x80000001, 0xFFFFFFFF };
    size_t i;
    int short_group;
    for (i = 0; i < sizeof warn / sizeof *warn; i++)
        for (short_group = 0; short_group < 2; short_group++) {
            desk s = writer(64, 1, 0, 0, 0, 0, 0, 0);
            if (short_group) relend(&s.of[GROUP], 63);
            ends(&s, warn[i]);
            refused(&s, "reading 4: end", 1, 0);
            separates(&s, 0, warn[i]);
            refused(&s, "reading 4: separator", 1, 0);
            records(&s, warn[i]);
            refused(&s, "reading 4: record of 0 bytes", 1, 0);
            offer(&s, 3);
            records(&s, warn[i]);
            refused(&s, "reading 4: record", 1, 0);
            leave(&s);
        }
}

/* reading 6: empty slices with a null pointer and with another, each refusal in its order's place */
static void empties(void)
{
    int call, null;
    for (null = 0; null < 2; null++) {
        desk s;
        for (call = READER_START; call <= END; call++) {
            const int starts = call == READER_START || call == WRITER_START || call == BLOCKS_START;
            const int blocks = call == BLOCKS_START || call == BLOCKS_READ || call == BLOCKS_FIND;
            const int reading = call == READ || call == EXPLAIN || call == BLOCKS_READ;
            s = blocks ? lawful_blocks() : reading ? lawful() : call == READER_START ? reader(64, 7, 0, 0)
                : writer(64, 7, 0, 0, 3, 1, 0, 0);
            lend_none(&s.of[STATE], null);
            lend_none(&s.of[told_in(call)->which], null);
            make(&s, call, starts ? 64 : reading ? 7 : 0, starts || reading ? 2 : 0, 9);
            refused_unwritten(&s, "reading 6: empty state, and answer or explanation");
            leave(&s);
        }
        s = lawful();
        lend_none(&s.of[ROWS], null);
        reads(&s, 8, 2);
        refused(&s, "reading 6: empty rows, 5 first", 5, 0);
        explains(&s, 7, 2);
        explained(&s, "reading 6: empty rows, explained", 7, 0, 0, 0, 24, UINT64_MAX, 0);
        reads(&s, 7, 0);
        refused(&s, "reading 6: empty rows, 6 first", 6, 0);
        s.of[GROUP].at[28] = 0x43;
        reads(&s, 7, 2);
        refused(&s, "reading 6: empty rows, before 8", 7, 0);
        put(s.of[STATE].at + DDS_READER_ACCEPTED, 1);
        reads(&s, 6, 2);
        repeated(&s, "reading 6: empty rows at a repeat");
        explains(&s, 6, 2);
        explained(&s, "reading 6: empty rows at a repeat, explained", 0, 0, 0, 0, 0, 0, 0);
        leave(&s);
        s = lawful_blocks();
        lend_none(&s.of[ROWS], null);
        reads_blocks(&s, 7, 2);
        refused(&s, "reading 6: empty rows, blocks", 7, 0);
        finds_block(&s, 0, 0);
        answer_is(&s, "reading 6: empty rows, no block begins there", 0, 0, DDS_OUTCOME_ELSEWHERE, 0, 0, 0);
        put(s.of[STATE].at + DDS_READER_ACCEPTED, 1);
        reads_blocks(&s, 6, 2);
        repeated(&s, "reading 6: empty rows at a repeat, blocks");
        lend_none(&s.of[GROUP], null);
        reads_blocks(&s, 6, 2);
        refused(&s, "reading 6: an empty group, blocks", 4, 0);
        leave(&s);
        s = writer(64, 7, 0, 0, 3, 1, 0, 0);
        lend_none(&s.of[DATA], null);
        records(&s, 0);
        refused(&s, "reading 6: empty data", 15, 0);
        leave(&s);
        s = writer(64, 7, 1, 9, 0, 0, 0, 9);
        lend_none(&s.of[DATA], null);
        records(&s, 1);
        refused(&s, "reading 6: empty data inside, before 16", 15, 0);
        leave(&s);
    }
}

/* reading 8: rows of more than 12n bytes */
static void more_rows(void)
{
    desk s = lawful();
    relend(&s.of[ROWS], 29);
    reads(&s, 7, 2);
    finished(&s, "reading 8: 12n + 5");
    slice_is(&s, ROWS, "reading 8: the 5 stay", "00 00 00 02 00 00 00 00 00 00 00 01 00 00 00 07 00 00 00 00 00 00 00 40 EE*5");
    leave(&s);
    s = lawful_blocks();
    relend(&s.of[ROWS], 29);
    reads_blocks(&s, 7, 2);
    finished(&s, "reading 8: 12n + 5, blocks");
    slice_is(&s, ROWS, "reading 8: the 5 stay, blocks", "00*3 02 00*4 00*3 01 00*3 07 00*4 00*3 40 EE*5");
    leave(&s);
}

/* reading 5: lengths of 2^32 and more */
static void long_data(uint8_t *promised, size_t len)
{
    uint32_t phase;
    for (phase = 0; phase < 2; phase++) {
        desk s = phase ? writer(64, 7, 1, 9, 0, 0, 0, 20) : writer(64, 7, 0, 0, 3, 1, 0, 0);
        give_back(&s.of[DATA]);
        s.of[DATA] = lend_promised(promised, len);
        records(&s, 0);
        refused(&s, "reading 5: long data", 15, 0);
        leave(&s);
    }
}

static void long_rows(uint8_t *promised, size_t len)
{
    desk s = lawful();
    give_back(&s.of[ROWS]);
    s.of[ROWS] = lend_promised(promised, len);
    reads(&s, 7, 2);
    finished(&s, "reading 5: long rows are enough");
    check(get(promised) == 2 && get(promised + 8) == 1 && get(promised + 20) == 64 && get(promised + 24) == 0, "reading 5",
          "long rows");
    leave(&s);
    s = lawful_blocks();
    memset(promised, 0, 24);
    give_back(&s.of[ROWS]);
    s.of[ROWS] = lend_promised(promised, len);
    reads_blocks(&s, 7, 2);
    finished(&s, "reading 5: long rows are enough, blocks");
    check(get(promised) == 2 && get(promised + 8) == 1 && get(promised + 20) == 64 && get(promised + 24) == 0, "reading 5",
          "long rows, blocks");
    put(promised + 12, DDS_KIND_ENTIRE);
    put(promised + 16, 0x12345678);
    finds_block(&s, 7, 7);
    answer_is(&s, "reading 5: a block that begins in long rows", 0, 0, DDS_OUTCOME_BEGINS, 0x12345678, 0, 0);
    memset(promised, 0, 24);
    leave(&s);
}

/* request 2026-05: of a repeat neither the group nor the rows are touched; the group's length counts, and is not cut */
static void untouched_repeat(uint8_t *promised, size_t len)
{
    desk s = reader_with(64, 8, 0, 0, 0, 1);
    give_back(&s.of[GROUP]);
    give_back(&s.of[ROWS]);
    s.of[GROUP] = lend_promised(promised, 64);
    s.of[ROWS] = lend_promised(promised + 64, len);
    reads(&s, 7, 2);
    repeated(&s, "request 2026-05: a repeat in forbidden pages");
    explains(&s, 7, 2);
    explained(&s, "request 2026-07: a repeat in forbidden pages", 0, 0, 0, 0, 0, 0, 0);
    s.of[GROUP].len = len;
    reads(&s, 7, 2);
    refused(&s, "request 2026-05: of another length", 4, 0);
    explains(&s, 7, 2);
    explained(&s, "request 2026-07: of another length, found whole", 4, 0, 0, len, 64, 64, 0);
    leave(&s);
}

/* the same of blocks; and a state or an answer of 2^32 bytes and more is not touched either */
static void untouched_blocks(uint8_t *promised, size_t len)
{
    desk s = blocks_with(64, 8, 0, 0, 0, 1, 9);
    give_back(&s.of[GROUP]);
    give_back(&s.of[ROWS]);
    s.of[GROUP] = lend_promised(promised, 64);
    s.of[ROWS] = lend_promised(promised + 64, len);
    reads_blocks(&s, 7, 2);
    repeated(&s, "request 2026-09: a repeat in forbidden pages");
    s.of[GROUP].len = len;
    reads_blocks(&s, 7, 2);
    refused(&s, "request 2026-09: of another length", 4, 0);
    give_back(&s.of[STATE]);
    s.of[STATE] = lend_promised(promised, len);
    reads_blocks(&s, 7, 2);
    check(s.refusal == 1, "request 2026-09", "a state of 2^32 bytes and more");
    give_back(&s.of[ANSWER]);
    s.of[ANSWER] = lend_promised(promised, len);
    finds_block(&s, 0, 0);
    check(s.refusal == 1, "request 2026-09", "an answer of 2^32 bytes and more");
    leave(&s);
}

/* request 2026-07: rows are lent for their length alone, which is not cut */
static void unread_rows(uint8_t *promised, size_t len)
{
    desk s = lawful();
    give_back(&s.of[ROWS]);
    s.of[ROWS] = lend_promised(promised, len);
    explains(&s, 7, 2);
    explained(&s, "request 2026-07: long rows in forbidden pages are enough", 0, 0, 0, 0, 0, 0, 0);
    s.of[ROWS].len = 23;
    explains(&s, 7, 2);
    explained(&s, "request 2026-07: 23 bytes in forbidden pages", 7, 0, 0, 23, 24, UINT64_MAX, 0);
    leave(&s);
}

static void long_slices(void)
{
    static const size_t more[] = { 0, 16, 20, 24, 28, 32, 64 };
    uint8_t *data = promise("slices", PROT_NONE), *rows = promise("slices", PROT_READ | PROT_WRITE);
    size_t i;
    for (i = 0; i < sizeof more / sizeof *more; i++) {
        if (data) long_data(data, wide + more[i]);
        if (data) untouched_repeat(data, wide + more[i]);
        if (data) unread_rows(data, wide + more[i]);
        if (data) untouched_blocks(data, wide + more[i]);
        if (rows) long_rows(rows, wide + more[i]);
    }
}

int main(void)
{
    watch_fences();
    starts_over();
    old_states();
    states_of_blocks();
    answers_of_blocks();
    warns();
    empties();
    more_rows();
    long_slices();
    return finish("slices");
}
