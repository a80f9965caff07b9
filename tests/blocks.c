/* Request 2026-09: blocks of one size, by hand. Groups are read in blocks, and blocks are found in rows; states, rows and answers
   are worked out from documents 01 and 02. Tables are given as in reading.c: flag and count in one word, entry 1 first, the rest
   of each group bytes EE. L = 64 unless it is said: data may reach 32 - 4n. Each group that is accepted is read by dds_read too,
   which must give the same rows and the same state in front of the block size. */

#include "groups.h"

/* ---- Starting: 2, 3, 50 */

static void starts(void)
{
    static const struct { uint32_t size, first, block, refusal; } cases[] = {
        { 64, 7, 0, 50 }, { 64, 7, 16777216, 50 }, { 64, 7, 16777217, 50 }, { 64, 7, 0x01000009, 50 }, { 64, 7, 0x80000000, 50 },
        { 64, 7, 0x80000009, 50 }, { 64, 7, 0xFFFFFFFF, 50 }, { 126632, 65535, 0, 50 },
        { 63, 7, 9, 2 }, { 126633, 7, 9, 2 }, { 0, 7, 9, 2 }, { 0xFFFFFFFF, 7, 9, 2 }, { 0x80000040, 7, 9, 2 },
        { 64, 0, 9, 3 }, { 64, 65536, 9, 3 }, { 64, 65543, 9, 3 }, { 64, 0xFFFFFFFF, 9, 3 },
        { 63, 0, 9, 2 }, { 63, 7, 0, 2 }, { 64, 0, 0, 3 }, { 64, 65536, 16777216, 3 }, { 63, 0, 0, 2 },
        { 126633, 65536, 16777216, 2 }, { 0, 0, 0xFFFFFFFF, 2 },
    };
    static const struct { uint32_t size, first, block; const char *state; } accepted[] = {
        { 64, 7, 9, "00 00 00 40 00 00 00 07 00*16 00 00 00 09" },
        { 64, 1, 1, "00 00 00 40 00 00 00 01 00*16 00 00 00 01" },
        { 64, 65535, 16777215, "00 00 00 40 00 00 FF FF 00*16 00 FF FF FF" },
        { 126632, 1, 16777214, "00 01 EE A8 00 00 00 01 00*16 00 FF FF FE" },
        { 126632, 65535, 126592, "00 01 EE A8 00 00 FF FF 00*16 00 01 EE 80" },
        { 4096, 300, 0x00010203, "00 00 10 00 00 00 01 2C 00*16 00 01 02 03" },
    };
    size_t i;
    for (i = 0; i < sizeof cases / sizeof *cases; i++) {
        desk s = desk_for(BLOCKS_START);
        starts_blocks(&s, cases[i].size, cases[i].first, cases[i].block);
        refused(&s, "start", cases[i].refusal, 0);
        slice_is(&s, STATE, "start, refused", "EE*28");
        leave(&s);
    }
    for (i = 0; i < sizeof accepted / sizeof *accepted; i++) {
        desk s = desk_for(BLOCKS_START);
        starts_blocks(&s, accepted[i].size, accepted[i].first, accepted[i].block);
        finished(&s, "start");
        slice_is(&s, STATE, "start", accepted[i].state);
        leave(&s);
    }
}

/* ---- Reading */

static uint32_t rows_of(const desk *s) { return (uint32_t)(s->of[ROWS].len / DDS_ROW_LEN); }

/* the desk of a plain reader with the same state but the block size, and the same group and rows */
static desk plain_of(const desk *s)
{
    desk r = desk_for(READ);
    relend(&r.of[EXPLANATION], DDS_EXPLANATION_LEN);
    memcpy(r.of[STATE].at, s->of[STATE].at, DDS_READER_LEN);
    relend(&r.of[GROUP], s->of[GROUP].len);
    memcpy(r.of[GROUP].at, s->of[GROUP].at, s->of[GROUP].len);
    relend(&r.of[ROWS], s->of[ROWS].len);
    memcpy(r.of[ROWS].at, s->of[ROWS].at, s->of[ROWS].len);
    return r;
}

/* one read, accepted; the plain reader gives the same */
static void accepts(desk *s, const char *name, uint32_t number, uint32_t entries)
{
    desk r = plain_of(s);
    reads(&r, number, entries);
    reads_blocks(s, number, entries);
    finished(s, name);
    finished(&r, name);
    check(same_bytes(r.of[STATE].at, DDS_READER_LEN, s->of[STATE].at, DDS_READER_LEN), name, "the plain reader's state");
    check(same_bytes(r.of[ROWS].at, r.of[ROWS].len, s->of[ROWS].at, s->of[ROWS].len), name, "the plain reader's rows");
    leave(&r);
}

/* one read, refused; the plain reader refuses with the same number at the same place, and explains it so, but where it is 51 */
static void refuses(desk *s, const char *name, uint32_t number, uint32_t entries, uint32_t refusal, uint32_t place)
{
    reads_blocks(s, number, entries);
    refused(s, name, refusal, place);
    if (refusal != 51) {
        desk r = plain_of(s);
        reads(&r, number, entries);
        refused(&r, name, refusal, place);
        explains(&r, number, entries);
        refused(&r, name, refusal, place);
        leave(&r);
    }
}

/* one read at number 7 in blocks of this size, by a state with this b4 or with b4 clear */
#define REFUSED_B4(name, phase, sum, b4, block, refusal, place, ...) do { \
        desk s_ = blocks_with(64, 7, phase, sum, b4, 0, block); \
        table(&s_, LIST(__VA_ARGS__)); \
        refuses(&s_, name, 7, rows_of(&s_), refusal, place); \
        leave(&s_); \
    } while (0)

#define REFUSED(name, phase, sum, block, refusal, place, ...) REFUSED_B4(name, phase, sum, 0, block, refusal, place, __VA_ARGS__)

/* .. the phase and sum it leaves, b4 as its last entry has it, the block size as it was, and its rows */
#define ACCEPTED(name, phase, sum, block, phase_left, sum_left, rows_text, ...) do { \
        desk s_ = blocks_with(64, 7, phase, sum, 0, 0, block); \
        table(&s_, LIST(__VA_ARGS__)); \
        accepts(&s_, name, 7, rows_of(&s_)); \
        blocks_are(&s_, name, 64, 8, phase_left, sum_left, s_.of[GROUP].at[32 - 4 * rows_of(&s_)] >> 3 & 1, block); \
        slice_is(&s_, ROWS, name, rows_text); \
        leave(&s_); \
    } while (0)

/* entire records */
static void entire_records(void)
{
    ACCEPTED("one block", 0, 0, 9, 0, 0, "00*3 06 00*4 00*3 09, 00*3 07 00*3 09 00*3 37", 0x63000009, 0x80000037);
    ACCEPTED("two blocks", 0, 0, 9, 0, 0, "00*3 06 00*4 00*3 09, 00*3 06 00*3 09 00*3 09, 00*3 07 00*3 12 00*3 2E", 0x63000009,
             0x63000009, 0x8000002E);
    ACCEPTED("blocks of 1", 0, 0, 1, 0, 0, "00*3 06 00*4 00*3 01, 00*3 06 00*3 01 00*3 01, 00*3 07 00*3 02 00*3 3E", 0x63000001,
             0x63000001, 0x8000003E);
    ACCEPTED("a block that fills its group", 0, 0, 24, 0, 0, "00*3 06 00*4 00*3 18, 00*3 07 00*3 18 00*3 28", 0x63000018,
             0x80000028);
    ACCEPTED("a block with b4", 0, 0, 9, 0, 0, "00*3 06 00*4 00*3 09, 00*3 07 00*3 09 00*3 37", 0x6B000009, 0x88000037);
    REFUSED("a byte less", 0, 0, 9, 51, 1, 0x63000008, 0x80000038);
    REFUSED("a byte more", 0, 0, 9, 51, 1, 0x6300000A, 0x80000036);
    REFUSED("one byte, blocks of 16,777,215", 0, 0, 16777215, 51, 1, 0x63000001, 0x8000003F);
    REFUSED("two bytes, blocks of 1", 0, 0, 1, 51, 1, 0x63000002, 0x8000003E);
    REFUSED("a byte less, with b4", 0, 0, 9, 51, 1, 0x6B000008, 0x88000038);
    REFUSED_B4("a byte less, with b4 set before", 0, 0, 1, 9, 51, 1, 0x6B000008, 0x88000038);
    REFUSED("the second of two", 0, 0, 9, 51, 2, 0x63000009, 0x63000008, 0x8000002F);
    REFUSED("the first of two", 0, 0, 9, 51, 1, 0x63000008, 0x63000009, 0x8000002F);
    REFUSED("both of two", 0, 0, 9, 51, 1, 0x63000008, 0x6300000A, 0x8000002E);
    REFUSED("the low byte alone is that of the block", 0, 0, 0x000109, 51, 1, 0x63000009, 0x80000037);
    REFUSED("the low bytes alone are those of the block", 0, 0, 0x010009, 51, 1, 0x63000009, 0x80000037);
    REFUSED("the skip's count is the block size", 0, 0, 55, 51, 1, 0x63000009, 0x80000037);
}

/* separators and skips are free, whatever their counts are */
static void separators(void)
{
    ACCEPTED("separators about a block", 0, 0, 9, 0, 0,
             "00*3 02 00*4 00*4, 00*3 06 00*4 00*3 09, 00*3 02 00*3 09 00*3 01, 00*3 07 00*3 09 00*3 37", 0x07000000, 0x63000009,
             0x07000001, 0x80000037);
    ACCEPTED("separators alone", 0, 0, 16777215, 0, 0, "00*3 02 00*4 00*4, 00*3 02 00*4 00*3 01, 00*3 07 00*4 00*3 40",
             0x07000000, 0x07000001, 0x80000040);
    ACCEPTED("Separator 1, blocks of 1", 0, 0, 1, 0, 0, "00*3 02 00*4 00*4, 00*3 07 00*4 00*3 40", 0x07000000, 0x80000040);
    ACCEPTED("a lone skip", 0, 0, 9, 0, 0, "00*3 07 00*4 00*3 40", 0x80000040);
    ACCEPTED("a lone skip with b4", 0, 0, 1, 0, 0, "00*3 07 00*4 00*3 40", 0x88000040);
    REFUSED("behind a separator", 0, 0, 9, 51, 2, 0x07000000, 0x63000008, 0x80000038);
    REFUSED("between separators", 0, 0, 9, 51, 3, 0x07000000, 0x07000001, 0x63000008, 0x07000000, 0x80000038);
}

/* a spanned record is judged at its total; its parts are not */
static void spanned_records(void)
{
    ACCEPTED("a start longer than the block", 0, 0, 9, 1, 24, "00*3 04 00*4 00*3 18, 00*3 07 00*3 18 00*3 28", 0x42000018,
             0x80000028);
    ACCEPTED("a start as long as the block", 0, 0, 24, 1, 24, "00*3 04 00*4 00*3 18, 00*3 07 00*3 18 00*3 28", 0x42000018,
             0x80000028);
    ACCEPTED("a start behind a block", 0, 0, 9, 1, 5, "00*3 06 00*4 00*3 09, 00*3 04 00*3 09 00*3 05, 00*3 07 00*3 0E 00*3 32",
             0x63000009, 0x42000005, 0x80000032);
    ACCEPTED("a middle, the sum above the block", 1, 24, 9, 1, 48, "00*3 03 00*4 00*3 18, 00*3 07 00*3 18 00*3 28", 0x40000018,
             0x80000028);
    ACCEPTED("a middle as long as the block", 1, 24, 5, 1, 29, "00*3 03 00*4 00*3 05, 00*3 07 00*3 05 00*3 3B", 0x40000005,
             0x8000003B);
    ACCEPTED("a last whose total is owed, the sum above the block", 1, 24, 9, 2, 45,
             "00*3 05 00*4 00*3 15, 00*3 07 00*3 15 00*3 2B", 0x60000015, 0x8000002B);
    ACCEPTED("a last whose total is owed, the sum below the block", 1, 24, 46, 2, 45,
             "00*3 05 00*4 00*3 15, 00*3 07 00*3 15 00*3 2B", 0x60000015, 0x8000002B);
    ACCEPTED("a last and a total that is the block size", 1, 24, 44, 0, 0,
             "00*3 05 00*4 00*3 14, 00*3 01 00*3 14 00*3 2C, 00*3 07 00*3 14 00*3 2C", 0x60000014, 0x0100002C, 0x8000002C);
    ACCEPTED("the same with b4", 1, 24, 44, 0, 0,
             "00*3 05 00*4 00*3 14, 00*3 01 00*3 14 00*3 2C, 00*3 07 00*3 14 00*3 2C", 0x68000014, 0x0900002C, 0x8800002C);
    ACCEPTED("an owed total that is the block size", 2, 45, 45, 0, 0, "00*3 01 00*4 00*3 2D, 00*3 07 00*4 00*3 40", 0x0100002D,
             0x80000040);
    ACCEPTED("an owed total, and a block", 2, 9, 9, 0, 0,
             "00*3 01 00*4 00*3 09, 00*3 06 00*4 00*3 09, 00*3 07 00*3 09 00*3 37", 0x01000009, 0x63000009, 0x80000037);
    ACCEPTED("a total, a separator, a block and a start", 1, 4, 6, 1, 1,
             "00*3 05 00*4 00*3 02, 00*3 01 00*3 02 00*3 06, 00*3 06 00*3 02 00*3 06, 00*3 04 00*3 08 00*3 01,"
             "00*3 07 00*3 09 00*3 37", 0x60000002, 0x01000006, 0x63000006, 0x42000001, 0x80000037);
    ACCEPTED("the longest record", 1, 16777214, 16777215, 0, 0,
             "00*3 05 00*4 00*3 01, 00*3 01 00*3 01 00 FF FF FF, 00*3 07 00*3 01 00*3 3F", 0x60000001, 0x01FFFFFF, 0x8000003F);

    REFUSED("a total below the block", 1, 24, 45, 51, 2, 0x60000014, 0x0100002C, 0x8000002C);
    REFUSED("a total above the block", 1, 24, 43, 51, 2, 0x60000014, 0x0100002C, 0x8000002C);
    REFUSED("the last part alone is the block size", 1, 24, 20, 51, 2, 0x60000014, 0x0100002C, 0x8000002C);
    REFUSED("the parts before it are the block size", 1, 24, 24, 51, 2, 0x60000014, 0x0100002C, 0x8000002C);
    REFUSED("a total below the block, with b4", 1, 24, 45, 51, 2, 0x68000014, 0x0900002C, 0x8800002C);
    REFUSED("an owed total below the block", 2, 45, 46, 51, 1, 0x0100002D, 0x80000040);
    REFUSED("an owed total above the block", 2, 45, 44, 51, 1, 0x0100002D, 0x80000040);
    REFUSED("an owed total, blocks of 1", 2, 45, 1, 51, 1, 0x0100002D, 0x80000040);
    REFUSED("an owed total, the low byte alone", 2, 265, 9, 51, 1, 0x01000109, 0x80000040);
    REFUSED("an owed total of the block size, and another length", 2, 9, 9, 51, 2, 0x01000009, 0x63000008, 0x80000038);
    REFUSED("an owed total of another length, and a block", 2, 8, 9, 51, 1, 0x01000008, 0x63000009, 0x80000037);
    REFUSED("a total of the block size, and another length", 1, 4, 6, 51, 3, 0x60000002, 0x01000006, 0x63000005, 0x80000039);
    REFUSED("the longest record, blocks of a byte less", 1, 16777214, 16777214, 51, 2, 0x60000001, 0x01FFFFFF, 0x8000003F);
}

/* at one entry 51 comes last: the count is not the block size either, which is 9 unless it is said */
static void last_at_its_entry(void)
{
    static const uint32_t near[] = { 0x62, 0x61, 0x67, 0x73, 0x23, 0x43, 0xE3, 0x6A, 0x69, 0x6F, 0x00, 0x03, 0x05, 0x11, 0x21,
        0x81, 0x0B, 0x0D, 0x08, 0x89 }; /* one bit from entire or total */
    size_t i;
    for (i = 0; i < sizeof near / sizeof *near; i++) {
        REFUSED("8 before 51", 0, 0, 9, 8, 1, near[i] << 24 | 5, 0x8000003B);
        REFUSED("8 before 51, a total", 2, 5, 9, 8, 1, near[i] << 24 | 5, 0x80000040);
    }
    REFUSED_B4("9 before 51", 0, 0, 1, 9, 9, 1, 0x63000005, 0x8800003B);
    REFUSED_B4("9 before 51, a total", 2, 45, 1, 9, 9, 1, 0x0100002D, 0x88000040);
    REFUSED("9 before 51 at entry 2", 0, 0, 9, 9, 2, 0x6B000009, 0x63000005, 0x88000032);
    REFUSED("10 before 51: an entire record inside", 1, 24, 9, 10, 1, 0x63000005, 0x8000003B);
    REFUSED("10 before 51: an entire record where a total is owed", 2, 45, 9, 10, 1, 0x63000005, 0x8000003B);
    REFUSED("10 before 51: a total while free", 0, 0, 9, 10, 1, 0x01000005, 0x80000040);
    REFUSED("10 before 51: a total inside", 1, 5, 9, 10, 1, 0x01000005, 0x80000040);
    REFUSED("10 before 51: an entire record at entry n", 0, 0, 9, 10, 2, 0x63000009, 0x63000005);
    REFUSED("10 before 51: a total at entry n", 1, 2, 9, 10, 2, 0x60000003, 0x01000005);
    REFUSED("10 before 51: an entire record behind a start", 0, 0, 9, 10, 2, 0x42000005, 0x63000005, 0x80000036);
    REFUSED("19 before 51", 0, 0, 9, 19, 1, 0x63000000, 0x80000040);
    REFUSED("12 before 51", 0, 0, 9, 12, 1, 0x63000019, 0x80000027);
    REFUSED("12 before 51: the longest record", 0, 0, 9, 12, 1, 0x63FFFFFF, 0x80000040);
    REFUSED("12 before 51 at entry 2", 0, 0, 9, 12, 2, 0x63000009, 0x6300000C, 0x8000002B);
    REFUSED("12, where the count is the block size", 0, 0, 25, 12, 1, 0x63000019, 0x80000027);
    REFUSED("22 before 51: neither its sum nor the block", 1, 24, 9, 22, 2, 0x60000014, 0x0100002B, 0x8000002C);
    REFUSED("22, where the sum is the block size", 1, 24, 44, 22, 2, 0x60000014, 0x0100002B, 0x8000002C);
    REFUSED("22, where the total is the block size", 1, 24, 43, 22, 2, 0x60000014, 0x0100002B, 0x8000002C);
    REFUSED("22 before 51: an owed total", 2, 45, 9, 22, 1, 0x0100002C, 0x80000040);
    REFUSED("22, an owed total that is the block size", 2, 45, 44, 22, 1, 0x0100002C, 0x80000040);
    REFUSED("22, an owed total whose sum is the block size", 2, 45, 45, 22, 1, 0x0100002E, 0x80000040);
    REFUSED("22: an owed total of 0", 2, 45, 9, 22, 1, 0x01000000, 0x80000040);
}

/* 51 at an entry comes before whatever a later one breaks, and behind whatever an earlier one breaks; blocks of 9 */
static void entry_by_entry(void)
{
    static const struct { uint32_t refusal, entry; } faults[] = { { 8, 0x43000005 }, { 8, 0x00000000 }, { 8, 0xFFFFFFFF },
        { 10, 0x01000008 }, { 10, 0x40000001 }, { 10, 0x60000001 }, { 10, 0x80000037 }, { 19, 0x63000000 }, { 19, 0x42000000 },
        { 20, 0x07000002 }, { 21, 0x42FFFFFF }, { 12, 0x63FFFFFF }, { 12, 0x42000019 } };
    size_t i;
    for (i = 0; i < sizeof faults / sizeof *faults; i++) {
        REFUSED("51 at 1 before each at 2", 0, 0, 9, 51, 1, 0x63000008, faults[i].entry, 0x80000038);
        REFUSED("51 at 2 before each at 3", 0, 0, 9, 51, 2, 0x07000000, 0x63000008, faults[i].entry, 0x80000038);
        REFUSED("51 at a total before each at 2", 2, 8, 9, 51, 1, 0x01000008, faults[i].entry, 0x80000040);
        REFUSED("each at 1 before 51 at 2", 0, 0, 9, faults[i].refusal, 1, faults[i].entry, 0x63000008, 0x80000038);
        REFUSED("each at 2 before 51 at 3", 0, 0, 9, faults[i].refusal, 2, 0x07000001, faults[i].entry, 0x63000008, 0x80000038);
        REFUSED("each at 2 behind a block", 0, 0, 9, faults[i].refusal, 2, 0x63000009, faults[i].entry, 0x80000037);
    }
    REFUSED("51 before 9 at the next", 0, 0, 9, 51, 1, 0x6B000008, 0x63000009, 0x8800002F);
    REFUSED("51 before 13", 0, 0, 9, 51, 1, 0x63000008, 0x80000037);
    REFUSED("51 before 9 at the skip", 0, 0, 9, 51, 1, 0x6B000008, 0x80000038);
    REFUSED("51 before 10 at entry n", 0, 0, 9, 51, 1, 0x63000008, 0x07000000);
    REFUSED("51 at a total before 13", 1, 24, 9, 51, 2, 0x60000014, 0x0100002C, 0x8000002D);
    REFUSED("51 at entry 1 and at entry 3", 0, 0, 9, 51, 1, 0x63000008, 0x63000009, 0x63000007, 0x80000028);
    REFUSED("13 where every record is a block", 0, 0, 9, 13, 2, 0x63000009, 0x80000038);
    REFUSED("23 where the sum is the block size", 1, 24, 44, 23, 2, 0x60000014, 0x8000002C);
    REFUSED("23 where it is not", 1, 24, 9, 23, 2, 0x60000014, 0x8000002C);
    REFUSED("21 where the sum is above the block", 1, 16777214, 9, 21, 1, 0x60000002, 0x01FFFFFF, 0x8000003E);
    REFUSED("20 where the block is its count", 0, 0, 2, 20, 1, 0x07000002, 0x80000040);
}

/* ---- Another length at each place */

/* n - 1 records of this length and the skip, in a group of this size; record k has a byte less, none where k is 0 */
static desk full_of(uint32_t size, uint32_t n, uint32_t length, uint32_t k)
{
    desk s = blocks_with(size, 7, 0, 0, 0, 0, length);
    uint32_t i;
    for (i = 1; i < n; i++) put(entry(&s.of[GROUP], i), 0x63000000 | (i == k ? length - 1 : length));
    put(entry(&s.of[GROUP], n), 0x80000000 | (size - (n - 1) * length + (k ? 1 : 0)));
    relend(&s.of[ROWS], DDS_ROW_LEN * (size_t)n);
    return s;
}

/* 64 bytes: four records of 2 and the skip; 300 bytes: 26 of 6; the standard size: 15,824 of 4 */
static void each_place(void)
{
    static const struct { uint32_t size, n, length; } groups[] = { { 64, 5, 2 }, { 300, 27, 6 },
        { DDS_SIZE_STANDARD, 15825, 4 } };
    size_t i;
    uint32_t k;
    for (i = 0; i < sizeof groups / sizeof *groups; i++) {
        const uint32_t size = groups[i].size, n = groups[i].n, length = groups[i].length;
        desk s = full_of(size, n, length, 0);
        accepts(&s, "a group full of blocks", 7, n);
        blocks_are(&s, "a group full of blocks", size, 8, 0, 0, 0, length);
        for (k = 1; k < n; k++)
            check(get(s.of[ROWS].at + 12 * k - 12) == 6 && get(s.of[ROWS].at + 12 * k - 8) == (k - 1) * length
                  && get(s.of[ROWS].at + 12 * k - 4) == length, "a group full of blocks", "row");
        leave(&s);
        for (k = 1; k < n; k += size == DDS_SIZE_STANDARD && k < n - 3 ? 2637 : 1) { /* there 1, 2,638 .. 15,823, 15,824 */
            s = full_of(size, n, length, k);
            refuses(&s, "another length at each place", 7, n, 51, k);
            put(s.of[STATE].at + DDS_READER_BLOCK, length - 1);
            refuses(&s, "and blocks as long as that one", 7, n, 51, k == 1 ? 2 : 1);
            leave(&s);
        }
    }
}

/* counts of two and three bytes, in groups of the standard size */
static void long_blocks(void)
{
    static const struct { uint32_t count, block, refusal; } blocks[] = { { 0x000109, 0x000109, 0 }, { 0x000109, 0x000009, 51 },
        { 0x000109, 0x000209, 51 }, { 0x010009, 0x010009, 0 }, { 0x010009, 0x000009, 51 }, { 0x010009, 0x020009, 51 },
        { 0x01EE80, 0x01EE80, 0 }, { 0x01EE80, 0x01EE7F, 51 }, { 0x01EE80, 0x01EE81, 51 }, { 0x01EE81, 0x01EE81, 12 },
        { 0x01EE81, 0x01EE80, 12 } };
    size_t i;
    for (i = 0; i < sizeof blocks / sizeof *blocks; i++) {
        desk s = blocks_with(DDS_SIZE_STANDARD, 7, 0, 0, 0, 0, blocks[i].block);
        table(&s, LIST(0x63000000 | blocks[i].count, 0x80000000 | (DDS_SIZE_STANDARD - blocks[i].count)));
        if (blocks[i].refusal) refuses(&s, "long blocks", 7, 2, blocks[i].refusal, 1);
        else {
            accepts(&s, "long blocks", 7, 2);
            blocks_are(&s, "long blocks", DDS_SIZE_STANDARD, 8, 0, 0, 0, blocks[i].block);
        }
        leave(&s);
    }
}

/* ---- The order: 1, 4, a repeat, 5, 6, 7, then the entries */

static void order(void)
{
    uint32_t faults;
    for (faults = 0; faults < 512; faults++) {
        const uint32_t entries = faults & 16 ? 9 : 3, number = faults & 128 ? 4 : faults & 8 ? 6 : 5;
        desk s = blocks_with(64, 5, 0, faults & 1 ? 7 : 0, 0, 1, faults & 2 ? 0 : 10);
        table(&s, LIST(0x6300000A, 0x07000001, 0x80000036));
        if (faults & 256) put(entry(&s.of[GROUP], 1), 0x63000009);
        if (faults & 64) s.of[GROUP].at[24] = 0x43; /* at entry 2 */
        if (faults & 4) relend(&s.of[GROUP], 63);
        relend(&s.of[ROWS], faults & 32 ? 12 * entries - 1 : 12 * entries);
        reads_blocks(&s, number, entries);
        if (faults & 3) refused(&s, "order: 1", 1, 0);
        else if (faults & 4) refused(&s, "order: 4", 4, 0);
        else if (faults & 128) repeated(&s, "order: a repeat");
        else if (faults & 8) refused(&s, "order: 5", 5, 0);
        else if (faults & 16) refused(&s, "order: 6", 6, 0);
        else if (faults & 32) refused(&s, "order: 7", 7, 0);
        else if (faults & 256) refused(&s, "order: 51 at 1", 51, 1);
        else if (faults & 64) refused(&s, "order: 8 at 2", 8, 2);
        else {
            finished(&s, "order: no fault");
            blocks_are(&s, "order: no fault", 64, 6, 0, 0, 0, 10);
        }
        leave(&s);
    }
}

/* a block size out of range in a state is 1, before everything else, in every phase */
static void broken_block_sizes(void)
{
    static const uint32_t broken[] = { 0, 16777216, 16777217, 0x01000009, 0x80000009, 0xFF000009, 0xFFFFFFFF };
    size_t i;
    uint32_t phase;
    for (i = 0; i < sizeof broken / sizeof *broken; i++)
        for (phase = 0; phase < 3; phase++) {
            desk s = blocks_with(64, 7, phase, phase * 9, 0, 1, broken[i]);
            table(&s, LIST(0x63000009, 0x80000037));
            reads_blocks(&s, 7, 2);
            refused(&s, "a broken block size", 1, 0);
            reads_blocks(&s, 6, 2);
            refused(&s, "a broken block size, before a repeat", 1, 0);
            reads_blocks(&s, 9, 0);
            refused(&s, "a broken block size, before 5 and 6", 1, 0);
            relend(&s.of[GROUP], 63);
            relend(&s.of[ROWS], 0);
            reads_blocks(&s, 7, 2);
            refused(&s, "a broken block size, before 4 and 7", 1, 0);
            leave(&s);
        }
}

/* ---- Repeats, and what a refusal leaves */

/* of a repeat nothing is looked at: a group full of other lengths is one, and a group of no sense, whatever the entry count is */
static void repeats(void)
{
    static const uint32_t entries[] = { 0, 1, 3, 8, 9, 0xFFFFFFFF };
    desk s = blocks_with(64, 7, 0, 0, 0, 0, 9);
    size_t i;
    reads_blocks(&s, 6, 2);
    refused(&s, "before any group there is no repeat", 5, 0);
    table(&s, LIST(0x63000009, 0x07000001, 0x80000037));
    accepts(&s, "the first instance", 7, 3);
    table(&s, LIST(0x63000008, 0x63000007, 0x80000031));
    for (i = 0; i < sizeof entries / sizeof *entries; i++) {
        reads_blocks(&s, 7, entries[i]);
        repeated(&s, "a repeat full of other lengths");
    }
    slice_is(&s, ROWS, "a repeat leaves the rows", "EE*36");
    memset(s.of[GROUP].at, LENT, 64);
    relend(&s.of[ROWS], 0);
    reads_blocks(&s, 7, 3);
    repeated(&s, "a repeat of no sense, and no rows");
    relend(&s.of[GROUP], 65);
    reads_blocks(&s, 7, 3);
    refused(&s, "a repeat of another length of group", 4, 0);
    blocks_are(&s, "after repeats", 64, 8, 0, 0, 0, 9);
    leave(&s);
}

/* a refused group leaves all as it was: the same state reads the right one, and the block size stays */
static void after_refusals(void)
{
    desk s = blocks_with(64, 7, 0, 0, 0, 1, 9);
    table(&s, LIST(0x63000009, 0x63000008, 0x8000002F));
    refuses(&s, "51", 7, 3, 51, 2);
    refuses(&s, "the same group again is no repeat", 7, 3, 51, 2);
    reads_blocks(&s, 6, 3);
    repeated(&s, "the accepted number after a 51");
    slice_is(&s, ROWS, "no row is filled", "EE*36");
    slice_is(&s, STATE, "the state stays", "00*3 40 00*3 07 00*12 00*3 01 00*3 09");
    put(entry(&s.of[GROUP], 2), 0x63000009);
    refuses(&s, "then the skip is wrong", 7, 3, 13, 3);
    put(entry(&s.of[GROUP], 3), 0x8000002E);
    accepts(&s, "then all is right", 7, 3);
    slice_is(&s, STATE, "then all is right", "00*3 40 00*3 08 00*12 00*3 01 00*3 09");
    slice_is(&s, ROWS, "then all is right", "00*3 06 00*4 00*3 09, 00*3 06 00*3 09 00*3 09, 00*3 07 00*3 12 00*3 2E");
    leave(&s);
}

/* b4 goes on from group to group as with the plain reader, and the block size behind it stays */
static void with_b4(void)
{
    desk s = blocks_with(64, 7, 0, 0, 0, 0, 9);
    table(&s, LIST(0x63000009, 0x6B000009, 0x8800002E));
    accepts(&s, "b4 begins", 7, 3);
    blocks_are(&s, "b4 begins", 64, 8, 0, 0, 1, 9);
    table(&s, LIST(0x63000009, 0x80000037));
    refuses(&s, "b4 goes out", 8, 2, 9, 1);
    table(&s, LIST(0x6B000008, 0x80000038));
    refuses(&s, "another length, and b4 goes out behind it", 8, 2, 51, 1);
    table(&s, LIST(0x6B000009, 0x88000037));
    accepts(&s, "b4 goes on", 8, 2);
    blocks_are(&s, "b4 goes on", 64, 9, 0, 0, 1, 9);
    leave(&s);
}

/* P5, a record of 45 bytes over three groups, its total owed: blocks of 45, and blocks of 44 and 46, where the total is 51 */
static void three_groups(void)
{
    uint32_t block;
    for (block = 44; block <= 46; block++) {
        desk s = desk_for(BLOCKS_READ);
        starts_blocks(&s, 64, 1, block);
        finished(&s, "three groups: start");
        relend(&s.of[GROUP], 64);
        table(&s, LIST(0x42000018, 0x80000028));
        accepts(&s, "three groups: start 24", 1, 2);
        blocks_are(&s, "three groups: start 24", 64, 2, 1, 24, 0, block);
        table(&s, LIST(0x60000014, 0x8000002C));
        reads_blocks(&s, 1, 2);
        repeated(&s, "three groups: a repeat");
        refuses(&s, "three groups: a total owed too early", 2, 2, 23, 2);
        table(&s, LIST(0x60000015, 0x8000002B));
        accepts(&s, "three groups: last 21", 2, 2);
        blocks_are(&s, "three groups: last 21", 64, 3, 2, 45, 0, block);
        table(&s, LIST(0x0100002C, 0x80000040));
        refuses(&s, "three groups: total 44, which is not the sum", 3, 2, 22, 1);
        table(&s, LIST(0x0100002D, 0x80000040));
        if (block == 45) {
            accepts(&s, "three groups: total 45", 3, 2);
            blocks_are(&s, "three groups: total 45", 64, 4, 0, 0, 0, 45);
        } else {
            refuses(&s, "three groups: total 45, which is not the block", 3, 2, 51, 1);
            blocks_are(&s, "three groups: the run stops in the record", 64, 3, 2, 45, 0, block);
        }
        leave(&s);
    }
}

/* ---- Finding */

static void begins(desk *s, const char *name, uint32_t before, uint32_t block, uint32_t offset)
{
    finds_block(s, before, block);
    answer_is(s, name, 0, 0, DDS_OUTCOME_BEGINS, offset, 0, 0);
    told_alone(s, name);
}

static void elsewhere(desk *s, const char *name, uint32_t before, uint32_t block)
{
    finds_block(s, before, block);
    answer_is(s, name, 0, 0, DDS_OUTCOME_ELSEWHERE, 0, 0, 0);
    told_alone(s, name);
}

/* rows to find blocks in */
static desk rows_lent(const char *text)
{
    desk s = desk_for(BLOCKS_FIND);
    set(&s.of[ROWS], text);
    return s;
}

/* a last with its total, two blocks with a separator between them, the start of a third, and the skip */
#define SEVEN_ROWS "00*3 05 00*4 00*3 04, 00*3 01 00*3 04 00*3 09, 00*3 06 00*3 04 00*3 09, 00*3 02 00*3 0D 00*4," \
                   "00*3 06 00*3 0D 00*3 09, 00*3 04 00*3 16 00*3 02, 00*3 07 00*3 18 00*3 28"

static void found(void)
{
    static const uint32_t befores[] = { 0, 1, 2, 7, 256, 65536, 0x80000000, 0xFFFFFFFC, 0xFFFFFFFD };
    size_t i;
    desk s = rows_lent(SEVEN_ROWS);
    for (i = 0; i < sizeof befores / sizeof *befores; i++) {
        const uint32_t before = befores[i];
        begins(&s, "the first", before, before, 4);
        begins(&s, "the second", before, before + 1, 13);
        begins(&s, "the last", before, before + 2, 22);
        if (before < 0xFFFFFFFD) elsewhere(&s, "one too many", before, before + 3);
        if (before < 0xFFFFFFFD) elsewhere(&s, "block 2^32 - 1", before, 0xFFFFFFFF);
        if (before) elsewhere(&s, "the block before these", before, before - 1);
        if (before) elsewhere(&s, "block 0 began before", before, 0);
    }
    begins(&s, "block 2^32 - 1 is the last", 0xFFFFFFFD, 0xFFFFFFFF, 22);
    begins(&s, "block 2^32 - 1 is the second", 0xFFFFFFFE, 0xFFFFFFFF, 13);
    elsewhere(&s, "nothing wraps: block 0 is none of these", 0xFFFFFFFE, 0);
    begins(&s, "block 2^32 - 1 is the first", 0xFFFFFFFF, 0xFFFFFFFF, 4);
    elsewhere(&s, "nothing wraps: nor here", 0xFFFFFFFF, 0);
    elsewhere(&s, "nothing wraps: nor block 1", 0xFFFFFFFF, 1);
    elsewhere(&s, "nothing wraps: the block before", 0xFFFFFFFF, 0xFFFFFFFE);
    elsewhere(&s, "a block far behind", 0, 0xFFFFFFFF);
    leave(&s);
}

/* kinds 4 and 6 alone begin a block, and all four bytes of the kind count */
static void kinds(void)
{
    static const uint32_t others[] = { 0, 1, 2, 3, 5, 7, 8, 9, 10, 12, 14, 16, 20, 64, 0x42, 0x63, 256, 260, 262, 0x00000104,
        0x00000106, 0x00010004, 0x00040000, 0x00040004, 0x00060006, 0x01000004, 0x04000000, 0x06000000, 0x80000004, 0x80000006,
        0xFFFFFF04, 0xFFFFFF06, 0xFFFFFFFF };
    static const uint32_t beginning[] = { 4, 6 };
    size_t i;
    desk s = rows_lent("00*4 00*3 63 00*4, 00*3 06 00*3 0D 00*3 09");
    for (i = 0; i < sizeof others / sizeof *others; i++) {
        put(s.of[ROWS].at, others[i]);
        begins(&s, "another kind is passed over", 5, 5, 13);
        elsewhere(&s, "another kind counts nothing", 5, 6);
    }
    for (i = 0; i < 2; i++) {
        put(s.of[ROWS].at, beginning[i]);
        begins(&s, "a start or an entire record begins one", 5, 5, 0x63);
        begins(&s, "and the row behind it the next", 5, 6, 13);
        elsewhere(&s, "and there are no more", 5, 7);
    }
    leave(&s);
}

/* up to 11 bytes at the end are no row, whatever they look like; no row begins but at each 12th byte */
static void whole_rows(void)
{
    static const char three[] = "00*3 06 00*3 0A 00*3 01, 00*3 04 00*3 0B 00*3 01, 00*3 06 00*3 0C 00*3 01";
    size_t len;
    uint32_t k;
    int null;
    desk s;
    for (len = 0; len <= 36; len++) {
        const uint32_t whole = (uint32_t)len / 12;
        s = rows_lent(three);
        resize(&s.of[ROWS], len);
        for (k = 0; k < whole; k++) begins(&s, "whole rows", 0, k, 10 + k);
        elsewhere(&s, "bytes at the end", 0, whole);
        elsewhere(&s, "bytes at the end, as a later group", 9, 9 + whole);
        leave(&s);
    }
    for (null = 0; null < 2; null++) {
        s = desk_for(BLOCKS_FIND);
        lend_none(&s.of[ROWS], null);
        elsewhere(&s, "no row", 0, 0);
        elsewhere(&s, "no row, as a later group", 7, 7);
        elsewhere(&s, "no row, as the last of all", 0xFFFFFFFF, 0xFFFFFFFF);
        leave(&s);
    }
    s = rows_lent("00*3 05 00*3 04 00*3 06, 00*3 03 00*3 06 00*3 04");
    elsewhere(&s, "offsets and counts are no kinds", 0, 0);
    leave(&s);
    s = rows_lent("00*3 05 00*4 00*3 09, 00*2 00*3 06 00*3 05 00*3 09 00*2");
    elsewhere(&s, "a row that begins two bytes late", 0, 0);
    leave(&s);
    s = rows_lent("00*3 07 00*4 00*3 40, 00*3 06 00*3 09 00*3");
    elsewhere(&s, "11 bytes that look like a row", 0, 0);
    leave(&s);
}

/* the offset is the row's second number, whatever it is, and its count does not matter */
static void offsets(void)
{
    static const uint32_t numbers[] = { 0, 1, 63, 64, 126591, 126632, 0x01020304, 0x80000000, 0xFFFFFFFE, 0xFFFFFFFF };
    size_t i, j;
    desk s = rows_lent("00*3 04 00*8, 00*3 06 00*8");
    for (i = 0; i < sizeof numbers / sizeof *numbers; i++)
        for (j = 0; j < sizeof numbers / sizeof *numbers; j++) {
            put(s.of[ROWS].at + 4, numbers[i]);
            put(s.of[ROWS].at + 8, numbers[j]);
            put(s.of[ROWS].at + 16, numbers[j]);
            put(s.of[ROWS].at + 20, numbers[i]);
            begins(&s, "the first row's offset", 1, 1, numbers[i]);
            begins(&s, "the second row's offset", 1, 2, numbers[j]);
        }
    leave(&s);
}

/* as many rows as a group of the standard size can have, every one an entire record, and every third one */
static void most_rows(void)
{
    desk s = desk_for(BLOCKS_FIND);
    uint32_t k;
    relend(&s.of[ROWS], 379800);
    for (k = 0; k < 31650; k++) { put(s.of[ROWS].at + 12 * k, 6); put(s.of[ROWS].at + 12 * k + 4, 1000 + k); }
    begins(&s, "31,650 rows, the first", 100, 100, 1000);
    begins(&s, "31,650 rows, the last", 100, 31749, 32649);
    elsewhere(&s, "31,650 rows, one too many", 100, 31750);
    for (k = 0; k < 31650; k++) put(s.of[ROWS].at + 12 * k, k % 3 ? 2 : 4);
    begins(&s, "10,550 starts, the second", 0, 1, 1003);
    begins(&s, "10,550 starts, the last", 0, 10549, 32647);
    elsewhere(&s, "10,550 starts, one too many", 0, 10550);
    leave(&s);
}

/* ---- A whole run: six blocks of 13 bytes and two separators in five groups, as our writer lays them */

typedef struct { uint32_t n, entries[4], begun, offsets[2]; } run_group; /* how many blocks begin there, and where */

static const run_group run[5] = {
    { 3, { 0x6300000D, 0x42000007, 0x8000002C }, 2, { 0, 13 } },
    { 4, { 0x60000006, 0x0100000D, 0x4200000A, 0x80000030 }, 1, { 6 } },
    { 4, { 0x60000003, 0x0100000D, 0x6300000D, 0x80000030 }, 1, { 3 } },
    { 4, { 0x07000000, 0x6300000D, 0x42000003, 0x80000030 }, 2, { 0, 13 } },
    { 4, { 0x6000000A, 0x0100000D, 0x07000001, 0x80000036 }, 0, { 0 } },
};

/* each block of the run is found in this group, or not, by rows of its entries and no more; how many begin up to its end */
static uint32_t finds_all(desk *s, const run_group *g, uint32_t before)
{
    uint32_t block;
    for (block = 0; block < 8; block++)
        if (block >= before && block < before + g->begun) begins(s, "a run: begins", before, block, g->offsets[block - before]);
        else elsewhere(s, "a run: elsewhere", before, block);
    return before + g->begun;
}

static void whole_run(void)
{
    desk s = desk_for(BLOCKS_READ);
    uint32_t g, before = 0;
    relend(&s.of[GROUP], 64);
    starts_blocks(&s, 64, 1, 13);
    finished(&s, "a run: start");
    for (g = 0; g < 5; g++) {
        table(&s, run[g].n, run[g].entries);
        accepts(&s, "a run: read", g + 1, run[g].n);
        before = finds_all(&s, &run[g], before);
        if (g == 1) slice_is(&s, STATE, "a run: behind group 2", "00*3 40 00*3 03 00*3 01 00*3 0A 00*4 00*3 01 00*3 0D");
        reads_blocks(&s, g + 1, run[g].n); /* it adds none: the rows are those of the group that was read */
        repeated(&s, "a run: a repeat");
        finds_all(&s, &run[g], before - run[g].begun);
    }
    check(before == 6, "a run", "six blocks");
    blocks_are(&s, "a run: end", 64, 6, 0, 0, 0, 13);
    leave(&s);
}

/* the same items, written: the groups of the run */
static void written_run(void)
{
    desk w = writer(64, 1, 0, 0, 0, 0, 0, 0);
    uint32_t g = 0, item = 0, k, left = 13;
    while (g < 5) {
        offer(&w, left);
        if (item == 4) separates(&w, 0, 0);
        else if (item == 7) separates(&w, 1, 0);
        else if (item == 8) ends(&w, 0);
        else records(&w, 0);
        if (get(w.of[ANSWER].at + DDS_ANSWER_OUTCOME) == DDS_OUTCOME_FINISHED) { item++; left = 13; continue; }
        closed(&w, "a run: written", g + 1, run[g].n, get(w.of[ANSWER].at + DDS_ANSWER_TAKEN));
        for (k = 1; k <= run[g].n; k++) check(get(entry(&w.of[GROUP], k)) == run[g].entries[k - 1], "a run: written", "entry");
        left -= get(w.of[ANSWER].at + DDS_ANSWER_TAKEN);
        g++;
    }
    check(item == 8, "a run: written", "six records and two separators");
    leave(&w);
}

int main(void)
{
    starts();
    entire_records();
    separators();
    spanned_records();
    last_at_its_entry();
    entry_by_entry();
    each_place();
    long_blocks();
    order();
    broken_block_sizes();
    repeats();
    after_refusals();
    with_b4();
    three_groups();
    found();
    kinds();
    whole_rows();
    offsets();
    most_rows();
    whole_run();
    written_run();
    return finish("blocks");
}
