/* Readings 13 to 21, and requests 2026-05 and 2026-06: one group read, or a repeat told. Tables are given as flag and count in
   one word, entry 1 first; the rest of each group is bytes EE, so that data, gap and the last 32 bytes are never what is
   expected. L = 64 unless it is said: data may reach 32 - 4n. */

#include "groups.h"

/* one read at number 7, refused, by a state with this b4 or with b4 clear */
#define REFUSED_B4(name, phase, sum, b4, refusal, place, ...) do { \
        desk s_ = reader_b4(64, 7, phase, sum, b4); \
        table(&s_, LIST(__VA_ARGS__)); \
        reads(&s_, 7, (uint32_t)(s_.of[ROWS].len / 12)); \
        refused(&s_, name, refusal, place); \
        leave(&s_); \
    } while (0)

#define REFUSED(name, phase, sum, refusal, place, ...) REFUSED_B4(name, phase, sum, 0, refusal, place, __VA_ARGS__)

/* one read at number 7, accepted; the phase and sum it leaves, b4 as its last entry has it, and its rows */
#define ACCEPTED(name, phase, sum, phase_left, sum_left, rows_text, ...) do { \
        desk s_ = reader(64, 7, phase, sum); \
        table(&s_, LIST(__VA_ARGS__)); \
        reads(&s_, 7, (uint32_t)(s_.of[ROWS].len / 12)); \
        finished(&s_, name); \
        reader_b4_is(&s_, name, 64, 8, phase_left, sum_left, s_.of[GROUP].at[32 - s_.of[ROWS].len / 3] >> 3 & 1); \
        slice_is(&s_, ROWS, name, rows_text); \
        leave(&s_); \
    } while (0)

static void reading_13(void)
{
    static const uint32_t numbers[] = { 0, 1, 65534, 65536, 65537, 0x1FFFF, 0xFFFFFFFF };
    size_t i;
    uint32_t phase;
    desk s = reader(64, 65535, 0, 0);
    table(&s, LIST(0x80000040));
    reads(&s, 65535, 1);
    finished(&s, "reading 13: group 65,535 is accepted");
    reader_is(&s, "reading 13: group 65,535 is accepted", 64, 65536, 0, 0);
    for (i = 0; i < sizeof numbers / sizeof *numbers; i++) {
        reads(&s, numbers[i], 1);
        refused(&s, "reading 13: after it every other number is 5", 5, 0);
        reads(&s, numbers[i], 0);
        refused(&s, "reading 13: before 6", 5, 0);
    }
    reads(&s, 65535, 1);
    repeated(&s, "request 2026-05: 65,535 again at 65,536");
    reads(&s, 65535, 0);
    repeated(&s, "request 2026-05: 65,535 again at 65,536, before 6");
    relend(&s.of[GROUP], 65);
    reads(&s, 65536, 1);
    refused(&s, "reading 13: after 4", 4, 0);
    reads(&s, 65535, 1);
    refused(&s, "request 2026-05: 65,535 again, of another length", 4, 0);
    leave(&s);
    for (phase = 0; phase < 3; phase++) {
        s = reader(64, 65536, phase, phase * 9);
        table(&s, LIST(0x80000040));
        reads(&s, 65536, 1);
        refused(&s, "reading 13: in each phase", 5, 0);
        reads(&s, 65535, 1);
        refused(&s, "reading 13: 65,535 too, where no group was accepted", 5, 0);
        leave(&s);
    }
}

static void reading_14(void)
{
    static const uint32_t others[] = { 0x01000009, 0x07000000, 0x40000001, 0x42000001, 0x60000001, 0x63000001 };
    size_t i;
    uint32_t phase;
    ACCEPTED("reading 14: a lone skip while free", 0, 0, 0, 0, "00 00 00 07 00 00 00 00 00 00 00 40", 0x80000040);
    ACCEPTED("reading 14: a lone skip with b4", 0, 0, 0, 0, "00 00 00 07 00 00 00 00 00 00 00 40", 0x88000040);
    REFUSED("reading 14: a lone skip inside", 1, 9, 10, 1, 0x80000040);
    REFUSED("reading 14: a lone skip owed", 2, 9, 10, 1, 0x80000040);
    for (phase = 0; phase < 3; phase++)
        for (i = 0; i < sizeof others / sizeof *others; i++)
            REFUSED("reading 14: another kind at n = 1", phase, phase * 9, 10, 1, others[i]);
    REFUSED("reading 14: a start at entry n", 0, 0, 10, 2, 0x07000000, 0x42000001);
    REFUSED("reading 14: an entire record at entry n", 0, 0, 10, 2, 0x63000001, 0x63000001);
    REFUSED("reading 14: a last at entry n", 1, 9, 10, 1, 0x60000001);
    REFUSED("reading 14: a total at entry n", 1, 9, 10, 2, 0x60000001, 0x0100000A);
}

static void reading_15(void)
{
    REFUSED("reading 15: 8 whatever else", 1, 9, 8, 2, 0x68000001, 0x43FFFFFF, 0x88000040);
    REFUSED("reading 15: 8 at n, not 10", 0, 0, 8, 1, 0x43000000);
    REFUSED("reading 15: 9 on a misplaced kind, not 10", 0, 0, 9, 2, 0x0F000000, 0x60000000, 0x88000040);
    REFUSED("reading 15: 9 on a misplaced skip, not 10", 0, 0, 9, 2, 0x0F000000, 0x80000000, 0x88000040);
    REFUSED("reading 15: 9 on a wrong count, not 20", 0, 0, 9, 2, 0x0F000000, 0x07000002, 0x88000040);
    REFUSED("reading 15: 9 on a wrong skip, not 13", 0, 0, 9, 2, 0x0F000000, 0x80000000);
    REFUSED("reading 15: a zero last while free is 10", 0, 0, 10, 1, 0x60000000, 0x80000040);
    REFUSED("reading 15: a wrong skip before n is 10", 0, 0, 10, 1, 0x80000001, 0x80000040);
    REFUSED("reading 15: a right skip before n is 10", 0, 0, 10, 2, 0x07000000, 0x80000040, 0x80000040);
    REFUSED("reading 15: a wrong skip inside is 10", 1, 9, 10, 1, 0x80000001);
    REFUSED("reading 15: a start of 16,777,215 is 21, not 12", 0, 0, 21, 1, 0x42FFFFFF, 0x80000040);
    REFUSED("reading 15: a start of 16,777,214 is 12", 0, 0, 12, 1, 0x42FFFFFE, 0x80000040);
    REFUSED("reading 15: an over-long middle is 21, not 12", 1, 9, 21, 1, 0x40FFFFFF, 0x80000040);
    REFUSED("reading 15: an over-long last is 21, not 12", 1, 9, 21, 1, 0x60FFFFF7, 0x80000040);
    REFUSED("reading 15: a last just not over-long is 12", 1, 9, 12, 1, 0x60FFFFF6, 0x80000040);
    REFUSED("reading 15: a total that differs is 22", 2, 9, 22, 1, 0x0100000A, 0x80000040);
    REFUSED("reading 15: a total that differs is 22", 2, 9, 22, 1, 0x01000008, 0x80000040);
    REFUSED("reading 15: a total of 0 is 22, not 19", 2, 9, 22, 1, 0x01000000, 0x80000040);
    REFUSED("reading 15: a total after last", 1, 9, 22, 2, 0x60000005, 0x0100000D, 0x8000003B);
    REFUSED("reading 15: a total of its last part only", 1, 9, 22, 2, 0x60000005, 0x01000005, 0x8000003B);
}

static void reading_16(void)
{
    REFUSED("reading 16: a start of 0", 0, 0, 19, 1, 0x42000000, 0x80000040);
    REFUSED("reading 16: a middle of 0", 1, 9, 19, 1, 0x40000000, 0x80000040);
    REFUSED("reading 16: a last of 0 after 16,777,214 is 19, not 21", 1, 16777214, 19, 1, 0x60000000, 0x80000040);
    REFUSED("reading 16: a middle of 0 after 16,777,214 is 19, not 21", 1, 16777214, 19, 1, 0x40000000, 0x80000040);
    REFUSED("reading 16: a last of 0", 1, 9, 19, 1, 0x60000000, 0x80000040);
    REFUSED("reading 16: an entire record of 0", 0, 0, 19, 1, 0x63000000, 0x80000040);
    REFUSED("reading 16: an entire record of 16,777,215 is 12", 0, 0, 12, 1, 0x63FFFFFF, 0x80000040);
    REFUSED("reading 16: a separator of 2", 0, 0, 20, 1, 0x07000002, 0x80000040);
    REFUSED("reading 16: a separator of 16,777,215", 0, 0, 20, 1, 0x07FFFFFF, 0x80000040);
    REFUSED("reading 16: a separator of 256", 0, 0, 20, 1, 0x07000100, 0x80000040);
    REFUSED("reading 16: a separator of 65,536", 0, 0, 20, 1, 0x07010000, 0x80000040);
    REFUSED("reading 16: a middle to 16,777,215", 1, 16777214, 21, 1, 0x40000001, 0x8000003F);
    ACCEPTED("reading 16: a middle to 16,777,214", 1, 16777213, 1, 16777214,
             "00 00 00 03 00 00 00 00 00 00 00 01 00 00 00 07 00 00 00 01 00 00 00 3F", 0x40000001, 0x8000003F);
    REFUSED("reading 16: a last to 16,777,216", 1, 16777214, 21, 1, 0x60000002, 0x8000003E);
    ACCEPTED("reading 16: a last to 16,777,215", 1, 16777194, 2, 16777215,
             "00 00 00 05 00 00 00 00 00 00 00 15 00 00 00 07 00 00 00 15 00 00 00 2B", 0x60000015, 0x8000002B);
    ACCEPTED("reading 16: a last of 1 to 16,777,215", 1, 16777214, 0, 0,
             "00 00 00 05 00 00 00 00 00 00 00 01 00 00 00 01 00 00 00 01 00 FF FF FF 00 00 00 07 00 00 00 01 00 00 00 3F",
             0x60000001, 0x01FFFFFF, 0x8000003F);
    ACCEPTED("reading 16: a total of 16,777,215", 2, 16777215, 0, 0,
             "00 00 00 01 00 00 00 00 00 FF FF FF 00 00 00 07 00 00 00 00 00 00 00 40", 0x01FFFFFF, 0x80000040);
    REFUSED("reading 16: a skip of 0 is 13", 0, 0, 13, 1, 0x80000000);
    REFUSED("reading 16: a skip of 16,777,215 is 13", 0, 0, 13, 1, 0x80FFFFFF);
    REFUSED("reading 16: a skip of L - 32", 0, 0, 13, 2, 0x63000004, 0x8000001C);
    REFUSED("reading 16: a skip that counts a total", 1, 9, 13, 3, 0x60000005, 0x0100000E, 0x8000002D);
    REFUSED("reading 16: a skip that counts a separator", 0, 0, 13, 2, 0x07000001, 0x8000003F);
}

static void reading_17(void)
{
    ACCEPTED("reading 17: data up to 32 - 4n", 0, 0, 0, 0,
             "00 00 00 06 00 00 00 00 00 00 00 18 00 00 00 07 00 00 00 18 00 00 00 28", 0x63000018, 0x80000028);
    REFUSED("reading 17: one more", 0, 0, 12, 1, 0x63000019, 0x80000027);
    REFUSED("reading 17: at entry 1 against n = 3", 0, 0, 12, 1, 0x63000015, 0x07000000, 0x8000002B);
    REFUSED("reading 17: a start at entry 1", 0, 0, 12, 1, 0x42000019, 0x80000027);
    REFUSED("reading 17: a middle", 1, 9, 12, 1, 0x40000019, 0x80000027);
    REFUSED("reading 17: a last before its total", 1, 9, 12, 1, 0x60000015, 0x0100001E, 0x8000002B);
    REFUSED("reading 17: a last before a skip", 1, 9, 12, 1, 0x60000019, 0x80000027);
    REFUSED("reading 17: at the second record", 0, 0, 12, 2, 0x6300000A, 0x6300000B, 0x8000002B);
    REFUSED("reading 17: at a start after a separator", 0, 0, 12, 3, 0x6300000A, 0x07000000, 0x42000007, 0x8000002F);
    ACCEPTED("reading 17: a total above all data is no data", 2, 16777215, 0, 0,
             "00 00 00 01 00 00 00 00 00 FF FF FF 00 00 00 06 00 00 00 00 00 00 00 14 00 00 00 07 00 00 00 14 00 00 00 2C",
             0x01FFFFFF, 0x63000014, 0x8000002C);
}

static void reading_18(void)
{
    static const uint8_t fills[] = { 0x00, 0xFF, 0x80, 0x43, 0x07 };
    size_t i;
    for (i = 0; i < sizeof fills; i++) {
        desk s = reader(64, 7, 0, 0);
        memset(s.of[GROUP].at, fills[i], 64);
        put(s.of[GROUP].at + 28, 0x63000003);
        put(s.of[GROUP].at + 24, 0x8000003D);
        relend(&s.of[ROWS], 40);
        reads(&s, 7, 2);
        finished(&s, "reading 18: other bytes are never looked at");
        slice_is(&s, ROWS, "reading 18: other bytes are never looked at",
                 "00 00 00 06 00 00 00 00 00 00 00 03 00 00 00 07 00 00 00 03 00 00 00 3D EE*16");
        leave(&s);
    }
}

static void reading_19(void)
{
    REFUSED("reading 19: no row before the last entry has passed", 0, 0, 13, 3, 0x63000001, 0x07000000, 0x80000040);
    ACCEPTED("reading 19: offsets and counts", 1, 5, 0, 0,
             "00 00 00 05 00 00 00 00 00 00 00 03 00 00 00 01 00 00 00 03 00 00 00 08 00 00 00 02 00 00 00 03 00 00 00 01 "
             "00 00 00 06 00 00 00 03 00 00 00 04 00 00 00 07 00 00 00 07 00 00 00 39",
             0x60000003, 0x01000008, 0x07000001, 0x63000004, 0x80000039);
}

static void reading_20(void)
{
    ACCEPTED("reading 20: a start after a total", 1, 5, 1, 4,
             "00 00 00 05 00 00 00 00 00 00 00 03 00 00 00 01 00 00 00 03 00 00 00 08 00 00 00 04 00 00 00 03 00 00 00 04 "
             "00 00 00 07 00 00 00 07 00 00 00 39", 0x60000003, 0x01000008, 0x42000004, 0x80000039);
    ACCEPTED("reading 20: a start after an owed total", 2, 500, 1, 20,
             "00 00 00 01 00 00 00 00 00 00 01 F4 00 00 00 04 00 00 00 00 00 00 00 14 00 00 00 07 00 00 00 14 00 00 00 2C",
             0x010001F4, 0x42000014, 0x8000002C);
    ACCEPTED("reading 20: a skip after a total", 1, 5, 0, 0,
             "00 00 00 05 00 00 00 00 00 00 00 03 00 00 00 01 00 00 00 03 00 00 00 08 00 00 00 07 00 00 00 03 00 00 00 3D",
             0x60000003, 0x01000008, 0x8000003D);
    ACCEPTED("reading 20: a skip after a last", 1, 5, 2, 26,
             "00 00 00 05 00 00 00 00 00 00 00 15 00 00 00 07 00 00 00 15 00 00 00 2B", 0x60000015, 0x8000002B);
    ACCEPTED("reading 20: a middle", 1, 5, 1, 8,
             "00 00 00 03 00 00 00 00 00 00 00 03 00 00 00 07 00 00 00 03 00 00 00 3D", 0x40000003, 0x8000003D);
    REFUSED("reading 20: a second total", 2, 9, 10, 2, 0x01000009, 0x01000009, 0x80000040);
    REFUSED("reading 20: a total of 0 after an entire record", 0, 0, 10, 2, 0x63000001, 0x01000000, 0x8000003F);
}

/* request 2026-03: b4 goes on from group to group */
static void reading_21(void)
{
    desk s = reader(64, 7, 0, 0);
    table(&s, LIST(0x07000000, 0x42000003, 0x8800003D));
    reads(&s, 7, 3);
    finished(&s, "reading 21: b4 begins at the skip");
    reader_b4_is(&s, "reading 21: b4 begins at the skip", 64, 8, 1, 3, 1);
    table(&s, LIST(0x40000002, 0x8800003E));
    reads(&s, 8, 2);
    refused(&s, "reading 21: it goes out inside a record", 9, 1);
    table(&s, LIST(0x48000002, 0x8000003E));
    reads(&s, 8, 2);
    refused(&s, "reading 21: it goes out at the skip", 9, 2);
    table(&s, LIST(0x48000002, 0x8800003E));
    reads(&s, 8, 2);
    finished(&s, "reading 21: it stays inside a record");
    reader_b4_is(&s, "reading 21: it stays inside a record", 64, 9, 1, 5, 1);
    table(&s, LIST(0x68000002, 0x09000007, 0x0F000000, 0x8800003E));
    reads(&s, 9, 4);
    finished(&s, "reading 21: it stays");
    reader_b4_is(&s, "reading 21: it stays", 64, 10, 0, 0, 1);
    table(&s, LIST(0x80000040));
    reads(&s, 10, 1);
    refused(&s, "reading 21: it goes out in an empty group", 9, 1);
    table(&s, LIST(0x88000040));
    reads(&s, 10, 1);
    finished(&s, "reading 21: it stays in an empty group");
    reader_starts(&s, 64, 11);
    reader_is_fresh(&s, "reading 21: a fresh start clears it", 64, 11);
    leave(&s);
    REFUSED("b4 dropped at 2", 0, 0, 9, 2, 0x6B000001, 0x63000001, 0x8800003E);
    REFUSED("b4 dropped at the skip", 0, 0, 9, 3, 0x63000001, 0x6B000001, 0x8000003E);
    REFUSED("b4 dropped at a total", 1, 9, 9, 2, 0x68000001, 0x0100000A, 0x8800003F);
    REFUSED_B4("8 before 9 at entry 1", 0, 0, 1, 8, 1, 0x43000001, 0x8800003F);
    REFUSED_B4("9 before 10 at entry 1", 0, 0, 1, 9, 1, 0x40000001, 0x8800003F);
    REFUSED_B4("9 before 10 at entry 1, a lone skip inside", 1, 9, 1, 9, 1, 0x80000040);
    REFUSED_B4("9 before 19 at entry 1", 0, 0, 1, 9, 1, 0x63000000, 0x88000040);
    REFUSED_B4("9 before 20 at entry 1", 0, 0, 1, 9, 1, 0x07000002, 0x88000040);
    REFUSED_B4("9 before 21 at entry 1", 0, 0, 1, 9, 1, 0x42FFFFFF, 0x88000040);
    REFUSED_B4("9 before 22 at entry 1", 2, 9, 1, 9, 1, 0x01000008, 0x88000040);
    REFUSED_B4("9 before 12 at entry 1", 0, 0, 1, 9, 1, 0x63000019, 0x88000027);
    REFUSED_B4("9 before 13 at entry 1", 0, 0, 1, 9, 1, 0x8000003F);
    REFUSED_B4("10 at entry 1 with b4", 0, 0, 1, 10, 1, 0x48000001, 0x8800003F);
}

/* ---- Request 2026-05: a group with the number of the last accepted group of this run is a repeat */

/* a group of this number, of which all else is wrong but its length: its bytes are EE, and it has no entries and no rows */
static void reads_blank(desk *s, uint32_t number)
{
    memset(s->of[GROUP].at, LENT, s->of[GROUP].len);
    relend(&s->of[ROWS], 0);
    reads(s, number, 0);
}

/* case A: an entire record of 20 bytes, Separator 1, skip */
#define CASE_A LIST(0x63000014, 0x07000000, 0x8000002C)
#define CASE_A_ROWS "00*3 06 00*4 00*3 14 00*3 02 00*3 14 00*4 00*3 07 00*3 14 00*3 2C"

/* the same group again, with its rows as they were filled and with others; then with other contents, or none */
static void repeat_contents(void)
{
    desk s = reader(64, 7, 0, 0);
    table(&s, CASE_A);
    reads(&s, 7, 3);
    finished(&s, "case A");
    slice_is(&s, ROWS, "case A", CASE_A_ROWS);
    reads(&s, 7, 3);
    repeated(&s, "the same group again");
    slice_is(&s, ROWS, "the same group again leaves the rows of before", CASE_A_ROWS);
    reader_is(&s, "the same group again", 64, 8, 0, 0);
    table(&s, CASE_A);
    reads(&s, 7, 3);
    repeated(&s, "the same group again, other rows");
    slice_is(&s, ROWS, "the same group again fills no rows", "EE*36");
    memset(s.of[GROUP].at, LENT, 64);
    reads(&s, 7, 3);
    repeated(&s, "flags EE");
    table(&s, LIST(0x6300000A, 0x80000036));
    reads(&s, 7, 2);
    repeated(&s, "another lawful table");
    reads(&s, 7, 0);
    repeated(&s, "no entries");
    reads(&s, 7, 9);
    repeated(&s, "more entries than 64 bytes can have");
    reads(&s, 7, 0xFFFFFFFF);
    repeated(&s, "more entries than any group can have");
    relend(&s.of[ROWS], 23);
    reads(&s, 7, 2);
    repeated(&s, "too few rows");
    lend_none(&s.of[ROWS], 1);
    reads(&s, 7, 2);
    repeated(&s, "no rows");
    reads(&s, 7, 0);
    repeated(&s, "no rows and no entries");
    reads_blank(&s, 7);
    repeated(&s, "nothing at all");
    reader_is(&s, "after all of them", 64, 8, 0, 0);
    leave(&s);
}

/* the group's length is looked at: 4 comes first */
static void repeat_lengths(void)
{
    static const size_t lengths[] = { 0, 1, 32, 63, 65, 128, 126632 };
    size_t i;
    desk s = reader_with(64, 8, 0, 0, 0, 1);
    for (i = 0; i < sizeof lengths / sizeof *lengths; i++) {
        relend(&s.of[GROUP], lengths[i]);
        reads(&s, 7, 2);
        refused(&s, "a repeat of another length", 4, 0);
    }
    relend(&s.of[GROUP], 64);
    reads(&s, 7, 2);
    repeated(&s, "a repeat of L bytes");
    leave(&s);
}

/* the first group twice, from a fresh start at each of these numbers; before it the number below is 5; a start begins anew */
static void repeat_from_fresh(void)
{
    static const uint32_t firsts[] = { 1, 2, 7, 65535 };
    size_t i;
    for (i = 0; i < sizeof firsts / sizeof *firsts; i++) {
        const uint32_t first = firsts[i];
        desk s = reader(64, 9, 1, 9);
        reader_starts(&s, 64, first);
        reads_blank(&s, first - 1);
        refused(&s, "before any group was accepted", 5, 0);
        reads_blank(&s, first);
        refused(&s, "the first group, with no entry", 6, 0);
        reads_blank(&s, first - 1);
        refused(&s, "a refused group is none that was accepted", 5, 0);
        reader_is_fresh(&s, "no group was accepted", 64, first);
        table(&s, CASE_A);
        reads(&s, first, 3);
        finished(&s, "the first group");
        reader_is(&s, "the first group", 64, first + 1, 0, 0);
        reads_blank(&s, first);
        repeated(&s, "the first group twice");
        reads_blank(&s, first - 1);
        refused(&s, "the number below the first group's", 5, 0);
        reader_starts(&s, 64, first);
        reader_is_fresh(&s, "a run begins anew", 64, first);
        reads_blank(&s, first);
        refused(&s, "the first group of another run", 6, 0);
        leave(&s);
    }
}

/* any number of repeats in a row: nothing counts them */
static void repeats_in_a_row(void)
{
    int i;
    desk s = reader(64, 7, 0, 0);
    table(&s, CASE_A);
    reads(&s, 7, 3);
    for (i = 0; i < 20; i++) {
        reads_blank(&s, 7);
        repeated(&s, "one of several in a row");
    }
    table(&s, CASE_A);
    reads(&s, 8, 3);
    finished(&s, "the group behind them");
    slice_is(&s, ROWS, "the group behind them", CASE_A_ROWS);
    reads_blank(&s, 7);
    refused(&s, "the group before the last is none", 5, 0);
    reads_blank(&s, 8);
    repeated(&s, "the last one is");
    reader_is(&s, "the last one is", 64, 9, 0, 0);
    leave(&s);
}

/* after a refused group the last accepted one still is a repeat, and the refused one is read anew */
static void repeat_after_refusals(void)
{
    desk s = reader(64, 7, 0, 0);
    table(&s, CASE_A);
    reads(&s, 7, 3);
    finished(&s, "group 7");
    table(&s, LIST(0x43000014, 0x07000000, 0x8000002C));
    reads(&s, 8, 3);
    refused(&s, "group 8, its first flag 43", 8, 1);
    reads_blank(&s, 7);
    repeated(&s, "group 7 after a refused group 8");
    reads_blank(&s, 8);
    refused(&s, "a refused group is no repeat", 6, 0);
    reads_blank(&s, 9);
    refused(&s, "group 9", 5, 0);
    reads_blank(&s, 7);
    repeated(&s, "group 7 after a refused group 9");
    reader_is(&s, "before the right group 8", 64, 8, 0, 0);
    table(&s, CASE_A);
    reads(&s, 8, 3);
    finished(&s, "the right group 8");
    slice_is(&s, ROWS, "the right group 8", CASE_A_ROWS);
    reads_blank(&s, 8);
    repeated(&s, "group 8 twice");
    reads_blank(&s, 7);
    refused(&s, "group 7 after group 8", 5, 0);
    reader_is(&s, "behind group 8", 64, 9, 0, 0);
    leave(&s);
}

/* in the midst of a record of 24, 24 and 21 bytes, whose total is owed: phase, sum and b4 stay at each repeat */
static void repeat_in_a_record(void)
{
    desk s = reader(64, 3, 0, 0);
    table(&s, LIST(0x42000018, 0x80000028));
    reads(&s, 3, 2);
    finished(&s, "start 24");
    reads_blank(&s, 3);
    repeated(&s, "start 24 again");
    reader_is(&s, "start 24 again", 64, 4, 1, 24);
    table(&s, LIST(0x40000018, 0x88000028));
    reads(&s, 4, 2);
    finished(&s, "middle 24, b4 from its skip on");
    table(&s, LIST(0x40000018, 0x80000028));
    reads(&s, 4, 2);
    repeated(&s, "middle 24 again, without b4");
    reader_b4_is(&s, "middle 24 again, without b4", 64, 5, 1, 48, 1);
    table(&s, LIST(0x68000015, 0x8800002B));
    reads(&s, 5, 2);
    finished(&s, "last 21");
    reads_blank(&s, 5);
    repeated(&s, "last 21 again");
    reader_b4_is(&s, "last 21 again", 64, 6, 2, 69, 1);
    table(&s, LIST(0x09000045, 0x88000040));
    reads(&s, 6, 2);
    finished(&s, "total 69");
    slice_is(&s, ROWS, "total 69", "00*3 01 00*4 00*3 45 00*3 07 00*4 00*3 40");
    reads_blank(&s, 6);
    repeated(&s, "total 69 again");
    reader_b4_is(&s, "total 69 again", 64, 7, 0, 0, 1);
    leave(&s);
}

/* two instances that differ: the first that is handed in is the one that is read, whichever it is */
static void first_instance(void)
{
    static const uint32_t instances[2][2] = { { 0x63000005, 0x8000003B }, { 0x42000009, 0x80000037 } };
    static const char *const rows[2] = { "00*3 06 00*4 00*3 05 00*3 07 00*3 05 00*3 3B",
                                         "00*3 04 00*4 00*3 09 00*3 07 00*3 09 00*3 37" };
    uint32_t i;
    for (i = 0; i < 2; i++) {
        desk s = reader(64, 7, 0, 0);
        table(&s, 2, instances[i]);
        reads(&s, 7, 2);
        finished(&s, "the first instance");
        put(entry(&s.of[GROUP], 1), instances[1 - i][0]);
        put(entry(&s.of[GROUP], 2), instances[1 - i][1]);
        reads(&s, 7, 2);
        repeated(&s, "another instance");
        slice_is(&s, ROWS, "the first instance's rows", rows[i]);
        reader_is(&s, "the first instance's state", 64, 8, i, 9 * i);
        leave(&s);
    }
}

/* in each phase, with b4 clear and set, at each of these next numbers: the number before it is a repeat where a group was
   accepted and 5 where none was; no other number is, and none is cut */
static void repeat_numbers(void)
{
    static const uint32_t nexts[] = { 2, 3, 7, 256, 65535, 65536 };
    static const uint32_t off[] = { 1, 2, 3, 0x100, 0x10000, 0x10001, 0x80000000, 0xFFFF0000, 0xFFFFFFFE, 0xFFFFFFFF };
    uint32_t i, k, phase, b4, accepted;
    for (i = 0; i < sizeof nexts / sizeof *nexts; i++)
        for (phase = 0; phase < 3; phase++)
            for (b4 = 0; b4 < 2; b4++)
                for (accepted = 0; accepted < 2; accepted++) {
                    desk s = reader_with(64, nexts[i], phase, 9 * phase, b4, accepted);
                    reads_blank(&s, nexts[i] - 1);
                    if (accepted) repeated(&s, "the number before the next"); else refused(&s, "none was accepted", 5, 0);
                    for (k = 0; k < sizeof off / sizeof *off; k++) {
                        reads_blank(&s, nexts[i] - 1 + off[k]);
                        refused(&s, "another number", off[k] == 1 && nexts[i] < 65536 ? 6 : 5, 0);
                    }
                    leave(&s);
                }
}

/* ---- Request 2026-06: a skip behind a last owes the total. It may where the total had no room: its count is then 40 to 43. */

/* groups of two entries, at L = 64 and at the standard size; the refusal and its place, or zeros where they are accepted */
static const struct { const char *name; uint32_t size, last, skip, refusal, place; } owing[] = {
    { "skip 40, the least", 64, 0x60000018, 0x80000028, 0, 0 },
    { "skip 41", 64, 0x60000017, 0x80000029, 0, 0 },
    { "skip 42", 64, 0x60000016, 0x8000002A, 0, 0 },
    { "skip 43, the greatest", 64, 0x60000015, 0x8000002B, 0, 0 },
    { "skip 43 with b4", 64, 0x68000015, 0x8800002B, 0, 0 },
    { "skip 44", 64, 0x60000014, 0x8000002C, 23, 2 },
    { "skip 45", 64, 0x60000013, 0x8000002D, 23, 2 },
    { "skip 63, behind one byte", 64, 0x60000001, 0x8000003F, 23, 2 },
    { "skip 44 with b4", 64, 0x68000014, 0x8800002C, 23, 2 },
    { "skip 44, where b4 begins", 64, 0x60000014, 0x8800002C, 23, 2 },
    { "skip 44 that drops b4 is 9", 64, 0x68000014, 0x8000002C, 9, 2 },
    { "flag 81 in its place is 8", 64, 0x60000014, 0x8100002C, 8, 2 },
    { "a right 44 told as 45 is 13", 64, 0x60000014, 0x8000002D, 13, 2 },
    { "a right 44 told as 43 is 13", 64, 0x60000014, 0x8000002B, 13, 2 },
    { "a right 43 told as 44 is 13", 64, 0x60000015, 0x8000002C, 13, 2 },
    { "a right 43 told as 42 is 13", 64, 0x60000015, 0x8000002A, 13, 2 },
    { "a right 40 told as 64 is 13", 64, 0x60000018, 0x80000040, 13, 2 },
    { "a right 63 told as 16,777,215 is 13", 64, 0x60000001, 0x80FFFFFF, 13, 2 },
    { "a last of 25 is 12", 64, 0x60000019, 0x80000027, 12, 1 },
    { "a last of 25, and a skip told as 44, is 12", 64, 0x60000019, 0x8000002C, 12, 1 },
    { "a last of 0 is 19", 64, 0x60000000, 0x80000040, 19, 1 },
    { "skip 40, the least", 126632, 0x6001EE80, 0x80000028, 0, 0 },
    { "skip 41", 126632, 0x6001EE7F, 0x80000029, 0, 0 },
    { "skip 42", 126632, 0x6001EE7E, 0x8000002A, 0, 0 },
    { "skip 43, the greatest", 126632, 0x6001EE7D, 0x8000002B, 0, 0 },
    { "skip 43 with b4", 126632, 0x6801EE7D, 0x8800002B, 0, 0 },
    { "skip 44", 126632, 0x6001EE7C, 0x8000002C, 23, 2 },
    { "skip 45", 126632, 0x6001EE7B, 0x8000002D, 23, 2 },
    { "skip 256 + 43", 126632, 0x6001ED7D, 0x8000012B, 23, 2 },
    { "skip 65,536 + 43", 126632, 0x6000EE7D, 0x8001002B, 23, 2 },
    { "skip 126,631, behind one byte", 126632, 0x60000001, 0x8001EEA7, 23, 2 },
    { "skip 44 with b4", 126632, 0x6801EE7C, 0x8800002C, 23, 2 },
    { "skip 44, where b4 begins", 126632, 0x6001EE7C, 0x8800002C, 23, 2 },
    { "skip 44 that drops b4 is 9", 126632, 0x6801EE7C, 0x8000002C, 9, 2 },
    { "flag 81 in its place is 8", 126632, 0x6001EE7C, 0x8100002C, 8, 2 },
    { "a right 44 told as 45 is 13", 126632, 0x6001EE7C, 0x8000002D, 13, 2 },
    { "a right 44 told as 43 is 13", 126632, 0x6001EE7C, 0x8000002B, 13, 2 },
    { "a right 43 told as 44 is 13", 126632, 0x6001EE7D, 0x8000002C, 13, 2 },
    { "a right 43 told as 42 is 13", 126632, 0x6001EE7D, 0x8000002A, 13, 2 },
    { "a right 40 told as 126,632 is 13", 126632, 0x6001EE80, 0x8001EEA8, 13, 2 },
    { "a right 126,631 told as 16,777,215 is 13", 126632, 0x60000001, 0x80FFFFFF, 13, 2 },
    { "a last of 126,593 is 12", 126632, 0x6001EE81, 0x80000027, 12, 1 },
    { "a last of 126,593, and a skip told as 44, is 12", 126632, 0x6001EE81, 0x8000002C, 12, 1 },
    { "a last of 0 is 19", 126632, 0x60000000, 0x8001EEA8, 19, 1 },
};

/* each of them inside a record of which 30 bytes were read, as the first group of a run and as a later one */
static void owed_by_two_entries(void)
{
    size_t i;
    uint32_t accepted, k;
    for (i = 0; i < sizeof owing / sizeof *owing; i++)
        for (accepted = 0; accepted < 2; accepted++) {
            const uint32_t last = owing[i].last & 0xFFFFFF, rows[6] = { 5, 0, last, 7, last, owing[i].skip & 0xFFFFFF };
            desk s = reader_with(owing[i].size, 7, 1, 30, 0, accepted);
            table(&s, LIST(owing[i].last, owing[i].skip));
            reads(&s, 7, 2);
            if (owing[i].refusal) refused(&s, owing[i].name, owing[i].refusal, owing[i].place);
            else {
                finished(&s, owing[i].name);
                reader_b4_is(&s, owing[i].name, owing[i].size, 8, 2, 30 + last, owing[i].skip >> 27 & 1);
                for (k = 0; k < 6; k++) check(get(s.of[ROWS].at + 4 * k) == rows[k], owing[i].name, "row");
            }
            leave(&s);
        }
}

/* whatever the sum is, and b4 of the state; a skip before entry n is 10 before it is anything else */
static void owed_from_any_state(void)
{
    REFUSED("skip 44 after the least sum", 1, 1, 23, 2, 0x60000014, 0x8000002C);
    REFUSED("skip 44 to 16,777,214", 1, 16777194, 23, 2, 0x60000014, 0x8000002C);
    REFUSED("skip 44 to 16,777,215", 1, 16777195, 23, 2, 0x60000014, 0x8000002C);
    REFUSED("skip 44 to 16,777,216 is 21 at the last", 1, 16777196, 21, 1, 0x60000014, 0x8000002C);
    REFUSED("skip 63 to 16,777,215", 1, 16777214, 23, 2, 0x60000001, 0x8000003F);
    REFUSED_B4("skip 44, b4 set before", 1, 9, 1, 23, 2, 0x68000014, 0x8800002C);
    REFUSED_B4("skip 44 that drops b4, set before", 1, 9, 1, 9, 2, 0x68000014, 0x8000002C);
    REFUSED("skip 44 behind a last, and one more skip", 1, 9, 10, 2, 0x60000014, 0x8000002C, 0x8000002C);
    REFUSED("a last and skip 44 where no record is open", 0, 0, 10, 1, 0x60000014, 0x8000002C);
    REFUSED("a last and skip 44 where a total is owed", 2, 9, 10, 1, 0x60000014, 0x8000002C);
}

/* where nothing is owed a skip may count 44 and more: behind a last with its total, and behind every other kind */
static void nothing_owed(void)
{
    static const struct { const char *name; uint32_t size, phase, sum, phase_left, sum_left, n, entries[3], rows[9]; } wide[] = {
        { "a last of L - 44 and its total", 64, 1, 30, 0, 0, 3, { 0x60000014, 0x01000032, 0x8000002C },
          { 5, 0, 20, 1, 20, 50, 7, 20, 44 } },
        { "a last of one byte and its total", 64, 1, 30, 0, 0, 3, { 0x60000001, 0x0100001F, 0x8000003F },
          { 5, 0, 1, 1, 1, 31, 7, 1, 63 } },
        { "a middle of L - 44", 64, 1, 30, 1, 50, 2, { 0x40000014, 0x8000002C }, { 3, 0, 20, 7, 20, 44 } },
        { "a start of L - 44", 64, 0, 0, 1, 20, 2, { 0x42000014, 0x8000002C }, { 4, 0, 20, 7, 20, 44 } },
        { "an entire record of L - 44", 64, 0, 0, 0, 0, 2, { 0x63000014, 0x8000002C }, { 6, 0, 20, 7, 20, 44 } },
        { "a separator", 64, 0, 0, 0, 0, 2, { 0x07000001, 0x80000040 }, { 2, 0, 1, 7, 0, 64 } },
        { "an owed total", 64, 2, 30, 0, 0, 2, { 0x0100001E, 0x80000040 }, { 1, 0, 30, 7, 0, 64 } },
        { "a last of L - 44 and its total", 126632, 1, 30, 0, 0, 3, { 0x6001EE7C, 0x0101EE9A, 0x8000002C },
          { 5, 0, 126588, 1, 126588, 126618, 7, 126588, 44 } },
        { "a last of one byte and its total", 126632, 1, 30, 0, 0, 3, { 0x60000001, 0x0100001F, 0x8001EEA7 },
          { 5, 0, 1, 1, 1, 31, 7, 1, 126631 } },
        { "a middle of L - 44", 126632, 1, 30, 1, 126618, 2, { 0x4001EE7C, 0x8000002C }, { 3, 0, 126588, 7, 126588, 44 } },
        { "a start of L - 44", 126632, 0, 0, 1, 126588, 2, { 0x4201EE7C, 0x8000002C }, { 4, 0, 126588, 7, 126588, 44 } },
        { "an entire record of L - 44", 126632, 0, 0, 0, 0, 2, { 0x6301EE7C, 0x8000002C }, { 6, 0, 126588, 7, 126588, 44 } },
        { "an owed total", 126632, 2, 30, 0, 0, 2, { 0x0100001E, 0x8001EEA8 }, { 1, 0, 30, 7, 0, 126632 } },
    };
    size_t i;
    uint32_t k;
    for (i = 0; i < sizeof wide / sizeof *wide; i++) {
        desk s = reader(wide[i].size, 7, wide[i].phase, wide[i].sum);
        table(&s, wide[i].n, wide[i].entries);
        reads(&s, 7, wide[i].n);
        finished(&s, wide[i].name);
        reader_is(&s, wide[i].name, wide[i].size, 8, wide[i].phase_left, wide[i].sum_left);
        for (k = 0; k < 3 * wide[i].n; k++) check(get(s.of[ROWS].at + 4 * k) == wide[i].rows[k], wide[i].name, "row");
        leave(&s);
    }
}

/* A record of two parts and its total in three groups, as P5 has it: the total is owed too early at first, which leaves all as it
   was, then with a skip of 43, and paid in the next group. An early one under a number that was accepted is a repeat. */
static void owed_and_paid(void)
{
    static const struct {
        uint32_t size, start, early, last, total, empty, sum, sum_owed;
        const char *rows, *rows_paid;
    } records[] = {
        { 64, 0x42000018, 0x60000014, 0x60000015, 0x0100002D, 0x80000040, 24, 45,
          "00*3 05 00*4 00*3 15 00*3 07 00*3 15 00*3 2B", "00*3 01 00*4 00*3 2D 00*3 07 00*4 00*3 40" },
        { 126632, 0x4201EE80, 0x6001EE7C, 0x6001EE7D, 0x0103DCFD, 0x8001EEA8, 126592, 253181,
          "00*3 05 00*4 00 01 EE 7D 00*3 07 00 01 EE 7D 00*3 2B", "00*3 01 00*4 00 03 DC FD 00*3 07 00*4 00 01 EE A8" },
    };
    size_t i;
    for (i = 0; i < sizeof records / sizeof *records; i++) {
        const uint32_t size = records[i].size;
        desk s = reader(size, 7, 0, 0);
        table(&s, LIST(records[i].start, 0x80000028));
        reads(&s, 7, 2);
        finished(&s, "a start that fills its group");
        table(&s, LIST(records[i].early, 0x8000002C));
        reads(&s, 7, 2);
        repeated(&s, "a total owed too early under the accepted number");
        reads(&s, 8, 2);
        refused(&s, "a total owed too early", 23, 2);
        reads(&s, 8, 2);
        refused(&s, "the same group again is no repeat", 23, 2);
        reads(&s, 7, 2);
        repeated(&s, "the accepted number after a 23");
        reader_is(&s, "before the right group", size, 8, 1, records[i].sum);
        table(&s, LIST(records[i].last, 0x8000002B));
        reads(&s, 8, 2);
        finished(&s, "the last with a skip of 43");
        reader_is(&s, "the last with a skip of 43", size, 9, 2, records[i].sum_owed);
        slice_is(&s, ROWS, "the last with a skip of 43", records[i].rows);
        put(entry(&s.of[GROUP], 1), records[i].early);
        put(entry(&s.of[GROUP], 2), 0x8000002C);
        reads(&s, 8, 2);
        repeated(&s, "the owing group again, owed too early now");
        slice_is(&s, ROWS, "the rows of the group that was read", records[i].rows);
        table(&s, LIST(records[i].total, records[i].empty));
        reads(&s, 9, 2);
        finished(&s, "the total is paid");
        reader_is(&s, "the total is paid", size, 10, 0, 0);
        slice_is(&s, ROWS, "the total is paid", records[i].rows_paid);
        leave(&s);
    }
}

/* all 256 flags at entry 1, with b4 clear and set in the state */
static void first_flags(void)
{
    uint32_t flag, b4;
    for (flag = 0; flag < 256; flag++)
        for (b4 = 0; b4 < 2; b4++) {
            desk s = reader_b4(64, 7, 0, 0, b4);
            uint32_t alone = (flag & 0xF7) == 0x80, kind = flag & 0xF7, dropped = b4 && !(flag & 8);
            table(&s, LIST(flag << 24 | (alone ? 0x40 : 1), kind == 0x07 ? 0x88000040 : 0x8800003F));
            reads(&s, 7, alone ? 1 : 2);
            if (kind != 0x01 && kind != 0x07 && kind != 0x40 && kind != 0x42 && kind != 0x60 && kind != 0x63 && kind != 0x80)
                refused(&s, "every flag at entry 1", 8, 1);
            else if (dropped) refused(&s, "every flag at entry 1", 9, 1);
            else if (kind == 0x01 || kind == 0x40 || kind == 0x60) refused(&s, "every flag at entry 1", 10, 1);
            else {
                finished(&s, "every flag at entry 1");
                reader_b4_is(&s, "every flag at entry 1", 64, 8, kind == 0x42, kind == 0x42, alone ? flag >> 3 & 1 : 1);
            }
            leave(&s);
        }
}

/* all 256 flags, at entry 2, with b4 clear and set before them */
static void flags(void)
{
    static const uint8_t valid[14] = { 0x01, 0x07, 0x40, 0x42, 0x60, 0x63, 0x80, 0x09, 0x0F, 0x48, 0x4A, 0x68, 0x6B, 0x88 };
    uint32_t flag, i, b4, kind;
    for (flag = 0; flag < 256; flag++)
        for (b4 = 0; b4 < 2; b4++) {
            uint32_t wanted = 8;
            for (i = 0; i < 14; i++) if (valid[i] == flag) wanted = b4 && i < 7 ? 9 : 0;
            kind = (flag & 0xF7) == 0x07 ? 2 : (flag & 0xF7) == 0x42 ? 4 : (flag & 0xF7) == 0x63 ? 6 : 0;
            if (wanted == 0 && kind == 0) wanted = 10;
            if (wanted) REFUSED("every flag", 0, 0, wanted, 2, b4 ? 0x0F000000 : 0x07000000, flag << 24 | 1, 0x88000040);
            else {
                desk s = reader(64, 7, 0, 0);
                table(&s, LIST(b4 ? 0x0F000000 : 0x07000000, flag << 24 | 1, kind == 2 ? 0x88000040 : 0x8800003F));
                reads(&s, 7, 3);
                finished(&s, "every flag");
                check(get(s.of[ROWS].at + 12) == kind, "every flag", "kind");
                leave(&s);
            }
        }
}

/* which kind may follow: for each place the kinds 1 to 7 that may stand there, as document 01 lists them */
static void follow(void)
{
    static const uint32_t one[8] = { 0, 0x0100000A, 0x07000001, 0x40000001, 0x42000001, 0x60000001, 0x63000001, 0x80000000 };
    static const struct { const char *name, *allowed; uint32_t phase, before; } places[] = {
        { "free", "2467", 0, 0 }, { "inside", "35", 1, 0 }, { "owed", "1", 2, 0 }, { "after total", "2467", 2, 0x0100000A },
        { "after separator", "2467", 0, 0x07000000 }, { "after entire", "2467", 0, 0x63000001 },
        { "after start", "7", 0, 0x42000001 },
        { "after middle", "7", 1, 0x40000001 }, { "after last", "17", 1, 0x60000001 },
    };
    size_t i;
    uint32_t kind;
    for (i = 0; i < sizeof places / sizeof *places; i++)
        for (kind = 1; kind <= 7; kind++) {
            uint32_t k = places[i].before ? 2 : 1, sum = places[i].phase == 1 ? 9 : places[i].phase == 2 ? 10 : 0, before, data;
            int allowed = strchr(places[i].allowed, '0' + (int)kind) != 0;
            desk s = reader(64, 7, places[i].phase, sum);
            before = places[i].before == 0x60000001 && kind == 7 ? 0x60000015 : places[i].before; /* a skip of 63 would be 23 */
            data = before >> 30 & 1 ? before & 0xFFFFFF : 0;
            table(&s, 4, (uint32_t[4]){ before, 0, 0, 0 });
            put(entry(&s.of[GROUP], k), one[kind] + (kind == 7 ? 64 - data : 0));
            /* a skip stands last; any other kind is followed by what breaks rule 8 at the next place */
            reads(&s, 7, kind == 7 ? k : k + 1);
            if (allowed && kind == 7) finished(&s, places[i].name);
            else if (allowed) refused(&s, places[i].name, 8, k + 1);
            else refused(&s, places[i].name, 10, k);
            leave(&s);
        }
}

/* the standard's size: as many entries as there can be, 31,650, and one more */
static void largest_table(void)
{
    uint32_t k;
    desk s = reader(126632, 7, 0, 0);
    for (k = 1; k < 31650; k++) put(entry(&s.of[GROUP], k), 0x07000000 + k % 2);
    put(s.of[GROUP].at, 0x8001EEA8);
    relend(&s.of[ROWS], 379800);
    reads(&s, 7, 31651);
    refused(&s, "31,651 entries", 6, 0);
    put(s.of[GROUP].at, 0x8001EEA7);
    reads(&s, 7, 31650);
    refused(&s, "31,650 entries, the last one wrong", 13, 31650);
    put(s.of[GROUP].at, 0x8001EEA8);
    relend(&s.of[ROWS], 379799);
    reads(&s, 7, 31650);
    refused(&s, "31,650 entries, a row byte short", 7, 0);
    relend(&s.of[ROWS], 379800);
    reads(&s, 7, 31650);
    finished(&s, "31,650 entries");
    reader_is(&s, "31,650 entries", 126632, 8, 0, 0);
    for (k = 1; k <= 31650; k++) {
        const uint8_t *row = s.of[ROWS].at + DDS_ROW_LEN * (k - 1);
        int same = k < 31650 ? get(row) == 2 && get(row + 8) == k % 2 : get(row) == 7 && get(row + 8) == 126632;
        check(same && get(row + 4) == 0, "31,650 entries", "row");
    }
    leave(&s);
}

int main(void)
{
    reading_13();
    reading_14();
    reading_15();
    reading_16();
    reading_17();
    reading_18();
    reading_19();
    reading_20();
    reading_21();
    repeat_contents();
    repeat_lengths();
    repeat_from_fresh();
    repeats_in_a_row();
    repeat_after_refusals();
    repeat_in_a_record();
    first_instance();
    repeat_numbers();
    owed_by_two_entries();
    owed_from_any_state();
    nothing_owed();
    owed_and_paid();
    first_flags();
    flags();
    follow();
    largest_table();
    return finish("reading");
}
