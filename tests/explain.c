/* Request 2026-07: why a group is refused. The numbers of each explanation are worked out by hand from documents 01 and 02, and
   all of its 56 bytes are compared; after each the same is read, and refusal and place must be the same. Tables are given as in
   reading.c: flag and count in one word, entry 1 first, the rest of each group bytes EE. L = 64 unless it is said: entry k stands
   at byte 32 - 4k, and data may reach 32 - 4n. The expected numbers are in the explanation's order: refusal, place, offset,
   found, least, greatest, permitted kinds. */

#define _DEFAULT_SOURCE
#include "fence.h"
#include "groups.h"

#define LARGEST_64 UINT64_MAX /* 2^64 - 1 */
#define ZEROS 0, 0, 0, 0, 0, 0, 0
#define ONE 1, 0, 0, 0, 0, 0, 0 /* refusal 1 has no number */

/* reading the same refuses with the same number at the same place; a state of another length answers nothing */
static void as_read(desk *s, const char *name, uint32_t number, uint32_t entries)
{
    const uint32_t refusal = s->refusal, place = (uint32_t)get_long(s->of[EXPLANATION].at + DDS_EXPLANATION_PLACE);
    reads(s, number, entries);
    check(s->refusal == refusal, name, "the read's refusal");
    if (s->of[STATE].len == DDS_READER_LEN)
        check(get(s->of[ANSWER].at + DDS_ANSWER_PLACE) == place, name, "the read's place");
}

/* one explanation, and the read of the same */
static void why(desk *s, const char *name, uint32_t number, uint32_t entries, uint32_t refusal, uint64_t place, uint64_t offset,
                uint64_t found, uint64_t least, uint64_t greatest, uint64_t kinds)
{
    explains(s, number, entries);
    explained(s, name, refusal, place, offset, found, least, greatest, kinds);
    as_read(s, name, number, entries);
}

/* a table explained at number 7, by a state of this size, phase, sum and b4 */
#define WHY_OF(size, phase, sum, b4, name, expected, ...) do { \
        desk s_ = reader_b4(size, 7, phase, sum, b4); \
        table(&s_, LIST(__VA_ARGS__)); \
        why(&s_, name, 7, (uint32_t)(s_.of[ROWS].len / 12), EXPECTED expected); \
        leave(&s_); \
    } while (0)
#define EXPECTED(...) __VA_ARGS__

#define WHY(phase, sum, name, expected, ...) WHY_OF(64, phase, sum, 0, name, expected, __VA_ARGS__)
#define WHY_B4(phase, sum, name, expected, ...) WHY_OF(64, phase, sum, 1, name, expected, __VA_ARGS__)

/* a group of one separator and the skip, to be read as number 7 */
static desk lawful(uint32_t accepted)
{
    desk s = reader_with(64, 7, 0, 0, 0, accepted);
    table(&s, LIST(0x07000001, 0x80000040));
    return s;
}

/* ---- Accepted, and a repeat: zeros */

static void zeros(void)
{
    desk s;
    WHY(0, 0, "case A", (ZEROS), 0x63000014, 0x07000000, 0x8000002C);
    WHY(0, 0, "a lone skip", (ZEROS), 0x80000040);
    WHY(1, 9, "a last with its total", (ZEROS), 0x60000005, 0x0100000E, 0x8000003B);
    WHY(2, 9, "an owed total", (ZEROS), 0x01000009, 0x80000040);
    WHY_B4(0, 0, "b4 goes on", (ZEROS), 0x0F000000, 0x88000040);
    s = lawful(1);
    why(&s, "a repeat", 6, 2, ZEROS);
    memset(s.of[GROUP].at, LENT, 64);
    relend(&s.of[ROWS], 0);
    why(&s, "a repeat of which nothing else is right", 6, 0, ZEROS);
    why(&s, "a repeat with more entries than any group", 6, 0xFFFFFFFF, ZEROS);
    leave(&s);
    s = reader_with(64, 65536, 2, 45, 1, 1);
    why(&s, "a repeat at 65,536", 65535, 1, ZEROS);
    leave(&s);
}

/* ---- Of the group as a whole: 4, 5, 6, 7 */

static void lengths_of_groups(void)
{
    static const size_t lengths[] = { 0, 1, 24, 63, 65, 128, 126632 };
    size_t i;
    desk s;
    uint32_t accepted;
    for (accepted = 0; accepted < 2; accepted++)
        for (i = 0; i < sizeof lengths / sizeof *lengths; i++) {
            s = lawful(accepted);
            relend(&s.of[GROUP], lengths[i]);
            why(&s, "4", 7, 2, 4, 0, 0, lengths[i], 64, 64, 0);
            why(&s, "4 before a repeat and 5", 6, 2, 4, 0, 0, lengths[i], 64, 64, 0);
            why(&s, "4 before 6", 7, 0, 4, 0, 0, lengths[i], 64, 64, 0);
            leave(&s);
        }
    s = reader(DDS_SIZE_STANDARD, 7, 0, 0);
    relend(&s.of[GROUP], 126631);
    why(&s, "4 at the standard size, one less", 7, 2, 4, 0, 0, 126631, 126632, 126632, 0);
    relend(&s.of[GROUP], 126633);
    why(&s, "4 at the standard size, one more", 7, 2, 4, 0, 0, 126633, 126632, 126632, 0);
    leave(&s);
}

static void numbers_of_groups(void)
{
    static const uint32_t numbers[] = { 0, 1, 5, 6, 8, 9, 65535, 65536, 65543, 0x80000007, 0xFFFFFFFF };
    static const uint32_t at_the_end[] = { 0, 1, 2, 7, 65534, 65535, 65536, 65537, 0x1FFFF, 0xFFFFFFFF };
    size_t i;
    uint32_t accepted;
    desk s;
    for (accepted = 0; accepted < 2; accepted++) {
        for (i = 0; i < sizeof numbers / sizeof *numbers; i++) {
            s = lawful(accepted);
            if (accepted && numbers[i] == 6) why(&s, "a repeat is not 5", 6, 2, ZEROS);
            else why(&s, "5", numbers[i], 2, 5, 0, 0, numbers[i], 7, 7, 0);
            leave(&s);
        }
        for (i = 0; i < sizeof at_the_end / sizeof *at_the_end; i++) {
            s = reader_with(64, 65536, 0, 0, 0, accepted);
            if (accepted && at_the_end[i] == 65535) why(&s, "a repeat at 65,536 is not 5", 65535, 1, ZEROS);
            else why(&s, "5 at 65,536: none is allowed", at_the_end[i], 1, 5, 0, 0, at_the_end[i], 1, 0, 0);
            leave(&s);
        }
    }
    s = reader(64, 1, 0, 0);
    why(&s, "5 at next number 1", 0, 1, 5, 0, 0, 0, 1, 1, 0);
    why(&s, "5 at next number 1", 2, 1, 5, 0, 0, 2, 1, 1, 0);
    leave(&s);
    s = reader(64, 65535, 1, 9);
    why(&s, "5 at next number 65,535", 65536, 0, 5, 0, 0, 65536, 65535, 65535, 0);
    leave(&s);
}

static void counts_of_entries(void)
{
    static const uint32_t counts[] = { 0, 9, 10, 16, 0x40000001, 0x80000001, 0xFFFFFFFF };
    size_t i;
    desk s = lawful(1);
    for (i = 0; i < sizeof counts / sizeof *counts; i++) why(&s, "6", 7, counts[i], 6, 0, 0, counts[i], 1, 8, 0);
    relend(&s.of[ROWS], 0);
    why(&s, "6 before 7", 7, 9, 6, 0, 0, 9, 1, 8, 0);
    leave(&s);
    s = reader(67, 7, 0, 0);
    why(&s, "6 in 67 bytes", 7, 9, 6, 0, 0, 9, 1, 8, 0);
    leave(&s);
    s = reader(68, 7, 0, 0);
    why(&s, "6 in 68 bytes", 7, 10, 6, 0, 0, 10, 1, 9, 0);
    leave(&s);
    s = reader(DDS_SIZE_STANDARD, 7, 0, 0);
    why(&s, "6 at the standard size", 7, 31651, 6, 0, 0, 31651, 1, 31650, 0);
    why(&s, "6 at the standard size", 7, 0, 6, 0, 0, 0, 1, 31650, 0);
    leave(&s);
}

static void lengths_of_rows(void)
{
    static const size_t lengths[] = { 0, 1, 11, 12, 22, 23 };
    size_t i;
    desk s = lawful(0);
    for (i = 0; i < sizeof lengths / sizeof *lengths; i++) {
        relend(&s.of[ROWS], lengths[i]);
        why(&s, "7", 7, 2, 7, 0, 0, lengths[i], 24, LARGEST_64, 0);
    }
    memset(s.of[GROUP].at, LENT, 64);
    why(&s, "7 before 8", 7, 2, 7, 0, 0, 23, 24, LARGEST_64, 0);
    relend(&s.of[ROWS], 95);
    why(&s, "7 with the most entries of 64 bytes", 7, 8, 7, 0, 0, 95, 96, LARGEST_64, 0);
    leave(&s);
    s = reader(DDS_SIZE_STANDARD, 7, 0, 0);
    relend(&s.of[ROWS], 379799);
    why(&s, "7 with the most entries of the standard size", 7, 31650, 7, 0, 0, 379799, 379800, LARGEST_64, 0);
    leave(&s);
}

/* ---- At an entry: 8, 9 */

static int is_flag(uint32_t byte)
{
    static const uint8_t flags[] = { 0x01, 0x07, 0x40, 0x42, 0x60, 0x63, 0x80, 0x09, 0x0F, 0x48, 0x4A, 0x68, 0x6B, 0x88 };
    return memchr(flags, (int)byte, sizeof flags) != 0;
}

static void flags_and_b4(void)
{
    uint32_t flag;
    for (flag = 0; flag < 256; flag++) {
        if (is_flag(flag)) continue;
        WHY(0, 0, "8 at entry 1", (8, 1, 28, flag, 0, 0, 0), flag << 24 | 1, 0x8000003F);
        WHY_B4(1, 9, "8 before 9 and 10", (8, 1, 28, flag, 0, 0, 0), flag << 24, 0x88000040);
        WHY(0, 0, "8 at entry 3", (8, 3, 20, flag, 0, 0, 0), 0x07000000, 0x63000004, flag << 24 | 0xFFFFFF, 0x8000003C);
        WHY(0, 0, "8 at entry n, not 10", (8, 2, 24, flag, 0, 0, 0), 0x07000000, flag << 24 | 64);
    }
    WHY_B4(0, 0, "9 at entry 1, set in a group before", (9, 1, 28, 0, 1, 1, 0), 0x63000001, 0x8800003F);
    WHY_B4(0, 0, "9 at a lone skip", (9, 1, 28, 0, 1, 1, 0), 0x80000040);
    WHY(0, 0, "9 at entry 2", (9, 2, 24, 0, 1, 1, 0), 0x6B000001, 0x63000001, 0x8800003E);
    WHY(0, 0, "9 at the skip", (9, 3, 20, 0, 1, 1, 0), 0x63000001, 0x6B000001, 0x8000003E);
    WHY(1, 9, "9 at a total", (9, 2, 24, 0, 1, 1, 0), 0x68000001, 0x0100000A, 0x8800003F);
    WHY_B4(1, 9, "9 before 10: a lone skip inside", (9, 1, 28, 0, 1, 1, 0), 0x80000040);
    WHY_B4(0, 0, "9 before 19", (9, 1, 28, 0, 1, 1, 0), 0x63000000, 0x88000040);
    WHY_B4(0, 0, "9 before 20", (9, 1, 28, 0, 1, 1, 0), 0x07000002, 0x88000040);
    WHY_B4(0, 0, "9 before 21", (9, 1, 28, 0, 1, 1, 0), 0x42FFFFFF, 0x88000040);
    WHY_B4(2, 9, "9 before 22", (9, 1, 28, 0, 1, 1, 0), 0x01000008, 0x88000040);
    WHY_B4(0, 0, "9 before 12", (9, 1, 28, 0, 1, 1, 0), 0x63000019, 0x88000027);
    WHY_B4(0, 0, "9 before 13", (9, 1, 28, 0, 1, 1, 0), 0x8000003F);
    WHY(0, 0, "b4 may begin anywhere", (ZEROS), 0x07000000, 0x0F000001, 0x88000040);
}

/* ---- 10: permitted kinds by where the entry stands, before entry n and at entry n. Values: total 1, separator 2, middle 4,
   start 8, last 16, entire 32, skip 64. */

static void kinds_at(const char *name, uint32_t phase, uint32_t sum, uint32_t before, uint64_t permitted, uint64_t permitted_at_n)
{
    static const uint32_t flags[8] = { 0, 0x01, 0x07, 0x40, 0x42, 0x60, 0x63, 0x80 };
    const uint32_t place = before ? 2 : 1, offset = before ? 24 : 28;
    uint32_t kind, at_n, b4;
    for (kind = 1; kind <= 7; kind++)
        for (at_n = 0; at_n < 2; at_n++)
            for (b4 = 0; b4 < 2; b4++) {
                const uint64_t kinds = at_n ? permitted_at_n : permitted;
                desk s = reader_b4(64, 7, phase, sum, b4);
                const uint32_t set = b4 << 27, found = flags[kind] << 24 | set | 1;
                if (before && at_n) table(&s, LIST(before | set, found));
                else if (before) table(&s, LIST(before | set, found, 0x80000040 | set));
                else if (at_n) table(&s, LIST(found));
                else table(&s, LIST(found, 0x80000040 | set));
                if (kinds >> (kind - 1) & 1) {
                    explains(&s, 7, (uint32_t)s.of[ROWS].len / 12);
                    check(s.refusal != 10 || get_long(s.of[EXPLANATION].at + DDS_EXPLANATION_PLACE) != place, name, "permitted");
                    as_read(&s, name, 7, (uint32_t)s.of[ROWS].len / 12);
                } else {
                    why(&s, name, 7, (uint32_t)s.of[ROWS].len / 12, 10, place, offset, kind, 0, 0, kinds);
                }
                leave(&s);
            }
}

static void permitted_kinds(void)
{
    kinds_at("free, first", 0, 0, 0, 42, 64);
    kinds_at("free, after a separator", 0, 0, 0x07000000, 42, 64);
    kinds_at("free, after an entire record", 0, 0, 0x63000001, 42, 64);
    kinds_at("free, after a total", 2, 9, 0x01000009, 42, 64);
    kinds_at("inside", 1, 9, 0, 20, 0);
    kinds_at("owed", 2, 9, 0, 1, 0);
    kinds_at("after a start", 0, 0, 0x42000001, 0, 64);
    kinds_at("after a middle", 1, 9, 0x40000001, 0, 64);
    kinds_at("after a last", 1, 9, 0x60000001, 1, 64);
    WHY(0, 0, "10 before 19: a last of 0 while free", (10, 1, 28, 5, 0, 0, 42), 0x60000000, 0x80000040);
    WHY(0, 0, "10 before 13: a skip before entry n", (10, 1, 28, 7, 0, 0, 42), 0x80000001, 0x80000040);
    WHY(0, 0, "10: a right skip before entry n", (10, 2, 24, 7, 0, 0, 42), 0x07000000, 0x80000040, 0x80000040);
    WHY(0, 0, "10: a start at entry n", (10, 2, 24, 4, 0, 0, 64), 0x07000000, 0x42000001);
    WHY(1, 9, "10: a lone skip inside", (10, 1, 28, 7, 0, 0, 0), 0x80000040);
    WHY(2, 9, "10: a lone skip where a total is owed", (10, 1, 28, 7, 0, 0, 0), 0x80000040);
    WHY(1, 9, "10: a lone last, the only entry", (10, 1, 28, 5, 0, 0, 0), 0x60000001);
    WHY(2, 9, "10: a lone total, the only entry", (10, 1, 28, 1, 0, 0, 0), 0x01000009);
    WHY(1, 9, "10: a middle after a middle", (10, 2, 24, 3, 0, 0, 0), 0x40000001, 0x40000001, 0x8000003E);
    WHY(0, 0, "10: an entire record at the eighth entry", (10, 8, 0, 6, 0, 0, 64), 0x07000000, 0x07000000, 0x07000000, 0x07000000,
        0x07000000, 0x07000000, 0x07000000, 0x63000001);
}

/* ---- 19 to 22 */

static void counts(void)
{
    WHY(0, 0, "19: a start of 0", (19, 1, 28, 0, 1, 16777215, 0), 0x42000000, 0x80000040);
    WHY(1, 9, "19: a middle of 0", (19, 1, 28, 0, 1, 16777215, 0), 0x40000000, 0x80000040);
    WHY(1, 9, "19: a last of 0", (19, 1, 28, 0, 1, 16777215, 0), 0x60000000, 0x80000040);
    WHY(0, 0, "19: an entire record of 0", (19, 1, 28, 0, 1, 16777215, 0), 0x63000000, 0x80000040);
    WHY(1, 16777214, "19: a middle of 0 after 16,777,214, not 21", (19, 1, 28, 0, 1, 16777215, 0), 0x40000000, 0x80000040);
    WHY(1, 16777214, "19: a last of 0 after 16,777,214, not 21", (19, 1, 28, 0, 1, 16777215, 0), 0x60000000, 0x80000040);
    WHY(0, 0, "19 at entry 3", (19, 3, 20, 0, 1, 16777215, 0), 0x63000004, 0x07000000, 0x63000000, 0x8000003C);

    WHY(0, 0, "20: a separator of 2", (20, 1, 28, 2, 0, 1, 0), 0x07000002, 0x80000040);
    WHY(0, 0, "20: a separator of 256", (20, 1, 28, 256, 0, 1, 0), 0x07000100, 0x80000040);
    WHY(0, 0, "20: a separator of 65,536", (20, 1, 28, 65536, 0, 1, 0), 0x07010000, 0x80000040);
    WHY(0, 0, "20: a separator of 16,777,215", (20, 1, 28, 16777215, 0, 1, 0), 0x0FFFFFFF, 0x88000040);
    WHY(0, 0, "20 at entry 2", (20, 2, 24, 3, 0, 1, 0), 0x63000004, 0x07000003, 0x8000003C);

    WHY(0, 0, "21: a start of 16,777,215", (21, 1, 28, 16777215, 1, 16777214, 0), 0x42FFFFFF, 0x80000040);
    WHY(0, 0, "21: a start at entry 2", (21, 2, 24, 16777215, 1, 16777214, 0), 0x63000004, 0x42FFFFFF, 0x8000003C);
    WHY(2, 500, "21: a start after an owed total", (21, 2, 24, 16777215, 1, 16777214, 0), 0x010001F4, 0x42FFFFFF, 0x80000040);
    WHY(1, 9, "21: a middle with sum 9", (21, 1, 28, 16777206, 1, 16777205, 0), 0x40FFFFF6, 0x80000040);
    WHY(1, 9, "21: the longest middle with sum 9", (21, 1, 28, 16777215, 1, 16777205, 0), 0x40FFFFFF, 0x80000040);
    WHY(1, 1, "21: a middle with sum 1", (21, 1, 28, 16777214, 1, 16777213, 0), 0x40FFFFFE, 0x80000040);
    WHY(1, 16777213, "21: a middle of 2 with sum 16,777,213", (21, 1, 28, 2, 1, 1, 0), 0x40000002, 0x8000003E);
    WHY(1, 16777214, "21: a middle with sum 16,777,214, none is allowed", (21, 1, 28, 1, 1, 0, 0), 0x40000001, 0x8000003F);
    WHY(1, 16777214, "21: a longer one", (21, 1, 28, 16777215, 1, 0, 0), 0x40FFFFFF, 0x8000003F);
    WHY(1, 9, "21: a last with sum 9", (21, 1, 28, 16777207, 1, 16777206, 0), 0x60FFFFF7, 0x80000040);
    WHY(1, 1, "21: a last with sum 1", (21, 1, 28, 16777215, 1, 16777214, 0), 0x60FFFFFF, 0x80000040);
    WHY(1, 16777214, "21: a last of 2 with sum 16,777,214", (21, 1, 28, 2, 1, 1, 0), 0x60000002, 0x8000003E);
    WHY(1, 16777213, "a middle of 1 with sum 16,777,213", (ZEROS), 0x40000001, 0x8000003F);
    WHY(1, 16777214, "a last of 1 with sum 16,777,214", (ZEROS), 0x60000001, 0x01FFFFFF, 0x8000003F);

    WHY(2, 9, "22: an owed total one too small", (22, 1, 28, 8, 9, 9, 0), 0x01000008, 0x80000040);
    WHY(2, 9, "22: an owed total one too great", (22, 1, 28, 10, 9, 9, 0), 0x0100000A, 0x80000040);
    WHY(2, 9, "22: an owed total of 0, not 19", (22, 1, 28, 0, 9, 9, 0), 0x01000000, 0x80000040);
    WHY(2, 16777215, "22: of the longest record", (22, 1, 28, 16777214, 16777215, 16777215, 0), 0x01FFFFFE, 0x80000040);
    WHY(1, 9, "22: a total after a last", (22, 2, 24, 13, 14, 14, 0), 0x60000005, 0x0100000D, 0x8000003B);
    WHY(1, 9, "22: a total of its last part only", (22, 2, 24, 5, 14, 14, 0), 0x60000005, 0x01000005, 0x8000003B);
}

/* ---- 12, 13 and 23 */

static void room(void)
{
    WHY(0, 0, "12: one byte too many", (12, 1, 28, 25, 0, 24, 0), 0x63000019, 0x80000027);
    WHY(0, 0, "data up to the table", (ZEROS), 0x63000018, 0x80000028);
    WHY(0, 0, "12: at entry 1 against n = 3", (12, 1, 28, 21, 0, 20, 0), 0x63000015, 0x07000000, 0x8000002B);
    WHY(0, 0, "12: the longest entire record, not 21", (12, 1, 28, 16777215, 0, 24, 0), 0x63FFFFFF, 0x80000040);
    WHY(0, 0, "12: a start of 16,777,214", (12, 1, 28, 16777214, 0, 24, 0), 0x42FFFFFE, 0x80000040);
    WHY(1, 9, "12: a middle; its end has no sum in it", (12, 1, 28, 25, 0, 24, 0), 0x40000019, 0x80000027);
    WHY(1, 9, "12: the longest middle that the sum leaves", (12, 1, 28, 16777205, 0, 24, 0), 0x40FFFFF5, 0x80000040);
    WHY(1, 9, "12: a last before its total", (12, 1, 28, 21, 0, 20, 0), 0x60000015, 0x0100001E, 0x8000002B);
    WHY(1, 9, "12: the longest last that the sum leaves", (12, 1, 28, 16777206, 0, 24, 0), 0x60FFFFF6, 0x80000040);
    WHY(0, 0, "12: at the second record, 10 + 11", (12, 2, 24, 21, 0, 20, 0), 0x6300000A, 0x6300000B, 0x8000002B);
    WHY(0, 0, "12: 10 + 16,777,215", (12, 2, 24, 16777225, 0, 20, 0), 0x6300000A, 0x63FFFFFF, 0x8000002B);
    WHY(0, 0, "12: 10 + 7, at a start after a separator", (12, 3, 20, 17, 0, 16, 0), 0x6300000A, 0x07000000, 0x42000007,
        0x8000002F);
    WHY(2, 16777215, "12: a total is no data", (12, 2, 24, 21, 0, 20, 0), 0x01FFFFFF, 0x63000015, 0x8000002B);
    WHY(0, 0, "12: eight entries leave no room", (12, 1, 28, 1, 0, 0, 0), 0x63000001, 0x07000000, 0x07000000, 0x07000000,
        0x07000000, 0x07000000, 0x07000000, 0x8000003F);

    WHY(0, 0, "13: a lone skip of 63", (13, 1, 28, 63, 64, 64, 0), 0x8000003F);
    WHY(0, 0, "13: a lone skip of 65", (13, 1, 28, 65, 64, 64, 0), 0x80000041);
    WHY(0, 0, "13: a skip of 0", (13, 1, 28, 0, 64, 64, 0), 0x80000000);
    WHY(0, 0, "13: a skip of 16,777,215", (13, 1, 28, 16777215, 64, 64, 0), 0x80FFFFFF);
    WHY(0, 0, "13: a skip without the last 32 bytes", (13, 2, 24, 28, 60, 60, 0), 0x63000004, 0x8000001C);
    WHY(1, 9, "13: a skip that counts a total", (13, 3, 20, 45, 59, 59, 0), 0x60000005, 0x0100000E, 0x8000002D);
    WHY(0, 0, "13: a skip that counts a separator", (13, 2, 24, 63, 64, 64, 0), 0x07000001, 0x8000003F);
    WHY(0, 0, "13: a skip after a start", (13, 2, 24, 41, 40, 40, 0), 0x42000018, 0x80000029);
    WHY(1, 9, "13: a skip after a middle", (13, 2, 24, 39, 40, 40, 0), 0x40000018, 0x80000027);
    WHY(1, 9, "13 before 23: a wrong skip of 45 after a last", (13, 2, 24, 45, 44, 44, 0), 0x60000014, 0x8000002D);
    WHY(1, 9, "13: a skip of 43 after a last of 20", (13, 2, 24, 43, 44, 44, 0), 0x60000014, 0x8000002B);

    WHY(1, 9, "23: a skip of 44", (23, 2, 24, 44, 0, 43, 0), 0x60000014, 0x8000002C);
    WHY(1, 9, "a skip of 43", (ZEROS), 0x60000015, 0x8000002B);
    WHY(1, 9, "a skip of 40", (ZEROS), 0x60000018, 0x80000028);
    WHY(1, 9, "23: a skip of 63", (23, 2, 24, 63, 0, 43, 0), 0x60000001, 0x8000003F);
    WHY_B4(1, 9, "23: with b4", (23, 2, 24, 44, 0, 43, 0), 0x68000014, 0x8800002C);
    WHY_OF(65, 1, 9, 0, "23: L = 65", (23, 2, 25, 44, 0, 43, 0), 0x60000015, 0x8000002C);
    WHY(1, 9, "a skip of 44 after a middle", (ZEROS), 0x40000014, 0x8000002C);
    WHY(1, 9, "a skip of 44 after a total", (ZEROS), 0x60000014, 0x0100001D, 0x8000002C);
}

/* ---- The standard size, 126,632: entry k stands at byte 126,600 - 4k */

static void standard(void)
{
    const uint32_t size = DDS_SIZE_STANDARD;
    uint32_t k;
    desk s;
    WHY_OF(size, 0, 0, 0, "standard: accepted", (ZEROS), 0x6301EE80, 0x80000028);
    WHY_OF(size, 0, 0, 0, "standard: 8", (8, 1, 126596, 0x43, 0, 0, 0), 0x43000001, 0x8001EEA7);
    WHY_OF(size, 0, 0, 1, "standard: 9", (9, 2, 126592, 0, 1, 1, 0), 0x0F000001, 0x8001EEA8);
    WHY_OF(size, 1, 9, 0, "standard: 10", (10, 1, 126596, 6, 0, 0, 20), 0x63000001, 0x8001EEA7);
    WHY_OF(size, 0, 0, 0, "standard: 12", (12, 1, 126596, 126593, 0, 126592, 0), 0x6301EE81, 0x80000027);
    WHY_OF(size, 0, 0, 0, "standard: 12, 126,580 + 9", (12, 2, 126592, 126589, 0, 126588, 0), 0x6301EE74, 0x63000009, 0x8000002B);
    WHY_OF(size, 0, 0, 0, "standard: 13", (13, 2, 126592, 41, 40, 40, 0), 0x6301EE80, 0x80000029);
    WHY_OF(size, 1, 16777000, 0, "standard: 21", (21, 1, 126596, 215, 1, 214, 0), 0x400000D7, 0x8001EDD1);
    WHY_OF(size, 1, 126592, 0, "standard: 22", (22, 2, 126592, 126593, 126602, 126602, 0), 0x6000000A, 0x0101EE81, 0x8001EE9E);
    WHY_OF(size, 1, 9, 0, "standard: 23", (23, 2, 126592, 44, 0, 43, 0), 0x6001EE7C, 0x8000002C);
    WHY_OF(size, 1, 9, 0, "standard: a skip of 43", (ZEROS), 0x6001EE7D, 0x8000002B);
    s = reader(size, 7, 0, 0); /* the fullest table: entry 31,650 stands at byte 0 */
    for (k = 1; k <= 31650; k++) put(entry(&s.of[GROUP], k), 0x07000001);
    relend(&s.of[ROWS], 379800);
    why(&s, "standard: a separator at the last of 31,650 entries", 7, 31650, 10, 31650, 0, 2, 0, 0, 64);
    put(entry(&s.of[GROUP], 31650), 0x8001EEA7);
    why(&s, "standard: the skip of 31,650 entries", 7, 31650, 13, 31650, 0, 126631, 126632, 126632, 0);
    put(entry(&s.of[GROUP], 31649), 0x07000002);
    why(&s, "standard: and a separator before it", 7, 31650, 20, 31649, 4, 2, 0, 1, 0);
    leave(&s);
}

/* ---- Several things wrong: the first is told */

static void first_of_several(void)
{
    WHY_B4(0, 0, "8, 9, 10, 21 and 12 at one entry", (8, 1, 28, 0x41, 0, 0, 0), 0x41FFFFFF, 0x88000040);
    WHY_B4(0, 0, "9, 10 and 19 at one entry", (9, 1, 28, 0, 1, 1, 0), 0x60000000, 0x88000040);
    WHY(1, 9, "10 and 20 at one entry", (10, 1, 28, 2, 0, 0, 20), 0x07000002, 0x80000040);
    WHY(1, 9, "10 and 12 at one entry", (10, 1, 28, 6, 0, 0, 20), 0x63000019, 0x80000027);
    WHY(1, 9, "21 and 12 at one entry", (21, 1, 28, 16777215, 1, 16777206, 0), 0x60FFFFFF, 0x80000040);
    WHY(0, 0, "10 at entry 1, 8 at entry 2", (10, 1, 28, 3, 0, 0, 42), 0x40000001, 0x43000001, 0x80000040);
    WHY(0, 0, "20 at entry 2, 8 at entry 3, 13 at entry 4", (20, 2, 24, 2, 0, 1, 0), 0x63000001, 0x07000002, 0x43000001,
        0x80000040);
    WHY(0, 0, "12 at entry 2, 9 at entry 3", (12, 2, 24, 21, 0, 20, 0), 0x6B000014, 0x6B000001, 0x8000002B);
    WHY(1, 9, "22 at entry 2, 13 at entry 3", (22, 2, 24, 9, 10, 10, 0), 0x60000001, 0x01000009, 0x80000040);
}

/* each set of faults that can stand together: 24, 1, 4, a repeat, 5, 6, 7, then the entries */
static void order(void)
{
    uint32_t faults;
    for (faults = 0; faults < 256; faults++) {
        const uint32_t entries = faults & 16 ? 9 : 3, number = faults & 8 ? 6 : 5;
        const size_t rows = faults & 32 ? 12 * entries - 1 : 12 * entries;
        desk s = reader_with(64, 5, 0, faults & 2 ? 7 : 0, 0, 1);
        table(&s, LIST(0x6300000A, 0x07000001, 0x80000036));
        if (faults & 64) s.of[GROUP].at[28] = 0x43;
        if (faults & 4) relend(&s.of[GROUP], 63);
        relend(&s.of[ROWS], rows);
        if (faults & 1) relend(&s.of[EXPLANATION], 57);
        explains(&s, faults & 128 ? 4 : number, entries);
        if (faults & 1) refused_unwritten(&s, "order: 24");
        else if (faults & 2) explained(&s, "order: 1", ONE);
        else if (faults & 4) explained(&s, "order: 4", 4, 0, 0, 63, 64, 64, 0);
        else if (faults & 128) explained(&s, "order: a repeat", ZEROS);
        else if (faults & 8) explained(&s, "order: 5", 5, 0, 0, 6, 5, 5, 0);
        else if (faults & 16) explained(&s, "order: 6", 6, 0, 0, 9, 1, 8, 0);
        else if (faults & 32) explained(&s, "order: 7", 7, 0, 0, 35, 36, LARGEST_64, 0);
        else if (faults & 64) explained(&s, "order: 8", 8, 1, 28, 0x43, 0, 0, 0);
        else explained(&s, "order: no fault", ZEROS);
        if (!(faults & 1)) as_read(&s, "order", faults & 128 ? 4 : number, entries);
        leave(&s);
    }
}

/* ---- 24: an explanation that is not 56 bytes, before everything else; nothing is written */

static void lengths_of_explanations(void)
{
    static const size_t lengths[] = { 0, 1, 8, 24, 48, 55, 57, 64, 112, 312 };
    size_t i;
    int null;
    for (i = 0; i < sizeof lengths / sizeof *lengths; i++)
        for (null = 0; null < (i == 0 ? 2 : 1); null++) {
            desk s = lawful(1);
            if (i == 0) lend_none(&s.of[EXPLANATION], null); else relend(&s.of[EXPLANATION], lengths[i]);
            explains(&s, 7, 2);
            refused_unwritten(&s, "24: a group that would be accepted");
            explains(&s, 6, 2);
            refused_unwritten(&s, "24: a repeat");
            explains(&s, 9, 2);
            refused_unwritten(&s, "24 before 5");
            explains(&s, 7, 0);
            refused_unwritten(&s, "24 before 6");
            s.of[GROUP].at[28] = 0x43;
            explains(&s, 7, 2);
            refused_unwritten(&s, "24 before 8");
            relend(&s.of[ROWS], 23);
            explains(&s, 7, 2);
            refused_unwritten(&s, "24 before 7");
            relend(&s.of[GROUP], 63);
            explains(&s, 7, 2);
            refused_unwritten(&s, "24 before 4");
            put(s.of[STATE].at + DDS_STATE_PHASE, 3);
            explains(&s, 7, 2);
            refused_unwritten(&s, "24 before 1");
            relend(&s.of[STATE], 23);
            explains(&s, 7, 2);
            refused_unwritten(&s, "24 before 1 by length");
            check(s.refusal == 24, "24", "it is 24");
            leave(&s);
        }
}

/* ---- 1: put into the explanation, with zeros behind it, by length too */

static void lengths_of_states(void)
{
    static const size_t lengths[] = { 0, 1, 16, 20, 23, 25, 32, 48, 56, 280 };
    size_t i;
    int null;
    for (i = 0; i < sizeof lengths / sizeof *lengths; i++)
        for (null = 0; null < (i == 0 ? 2 : 1); null++) {
            desk s = lawful(0);
            uint8_t was[DDS_READER_LEN];
            memcpy(was, s.of[STATE].at, sizeof was);
            if (i == 0) lend_none(&s.of[STATE], null); else relend(&s.of[STATE], lengths[i]);
            if (i) memcpy(s.of[STATE].at, was, lengths[i] < sizeof was ? lengths[i] : sizeof was);
            why(&s, "1 by length", 7, 2, ONE);
            why(&s, "1 by length, before 5 and 6", 9, 0, ONE);
            relend(&s.of[GROUP], 63);
            relend(&s.of[ROWS], 0);
            why(&s, "1 by length, before 4 and 7", 7, 2, ONE);
            leave(&s);
        }
}

static void unsound(void)
{
    static const struct { uint32_t size, next, phase, sum, b4, accepted; } states[] = {
        { 64, 7, 3, 0, 0, 0 }, { 64, 7, 3, 9, 0, 0 }, { 64, 7, 256, 0, 0, 0 }, { 64, 7, 0xFFFFFFFF, 9, 0, 0 },
        { 64, 7, 0, 0, 2, 0 }, { 64, 7, 0, 0, 256, 0 }, { 64, 7, 1, 9, 0x01000001, 0 },
        { 64, 7, 0, 0, 0, 2 }, { 64, 7, 2, 9, 1, 0x80000001 }, { 64, 1, 0, 0, 0, 1 },
        { 64, 7, 0, 1, 0, 0 }, { 64, 7, 1, 0, 0, 0 }, { 64, 7, 1, 16777215, 0, 0 }, { 64, 7, 2, 0, 0, 0 }, { 64, 7, 2, 1, 0, 0 },
        { 64, 7, 2, 16777216, 0, 0 }, { 64, 7, 1, 0x01000001, 0, 0 },
        { 63, 7, 0, 0, 0, 0 }, { 126633, 7, 0, 0, 0, 0 }, { 0, 7, 0, 0, 0, 0 }, { 0x80000040, 7, 0, 0, 0, 0 },
        { 64, 0, 0, 0, 0, 0 }, { 64, 65537, 0, 0, 0, 1 }, { 64, 0xFFFFFFFF, 0, 0, 0, 1 },
    };
    size_t i;
    for (i = 0; i < sizeof states / sizeof *states; i++) {
        desk s = lawful(0);
        put_reader(s.of[STATE].at, states[i].size, states[i].next, states[i].phase, states[i].sum, states[i].b4,
                   states[i].accepted);
        why(&s, "1: a state not sound", states[i].next, 2, ONE);
        why(&s, "1: a state not sound, before a repeat", states[i].next - 1, 2, ONE);
        why(&s, "1: a state not sound, before 5 and 6", 99, 0, ONE);
        relend(&s.of[GROUP], 0);
        relend(&s.of[ROWS], 0);
        why(&s, "1: a state not sound, before 4", states[i].next, 2, ONE);
        leave(&s);
    }
}

/* ---- Lengths of 2^32 and more are not cut, and what has no business is not touched: the pages may not be read */

static void long_slices(void)
{
    static const size_t more[] = { 0, 24, 56, 64 };
    uint8_t *promised = promise("explain", PROT_NONE);
    size_t i;
    for (i = 0; i < sizeof more / sizeof *more && promised; i++) {
        desk s = lawful(0);
        give_back(&s.of[GROUP]);
        s.of[GROUP] = lend_promised(promised, wide + more[i]);
        why(&s, "4: the whole length is found", 7, 2, 4, 0, 0, 4294967296u + (uint64_t)more[i], 64, 64, 0);
        leave(&s);
        s = lawful(0);
        give_back(&s.of[STATE]);
        s.of[STATE] = lend_promised(promised, wide + more[i]);
        why(&s, "1: a state of 2^32 bytes and more", 7, 2, ONE);
        leave(&s);
        s = lawful(0);
        give_back(&s.of[EXPLANATION]);
        s.of[EXPLANATION] = lend_promised(promised, wide + more[i]);
        explains(&s, 7, 2);
        refused_unwritten(&s, "24: an explanation of 2^32 bytes and more");
        leave(&s);
        s = lawful(0);
        give_back(&s.of[ROWS]);
        s.of[ROWS] = lend_promised(promised, wide + more[i]);
        explains(&s, 7, 2);
        explained(&s, "rows of 2^32 bytes and more are enough", ZEROS);
        s.of[GROUP].at[28] = 0x43;
        explains(&s, 7, 2);
        explained(&s, "rows of 2^32 bytes and more, and 8", 8, 1, 28, 0x43, 0, 0, 0);
        leave(&s);
    }
}

int main(void)
{
    watch_fences();
    zeros();
    lengths_of_groups();
    numbers_of_groups();
    counts_of_entries();
    lengths_of_rows();
    flags_and_b4();
    permitted_kinds();
    counts();
    room();
    standard();
    first_of_several();
    order();
    lengths_of_explanations();
    lengths_of_states();
    unsound();
    long_slices();
    return finish("explain");
}
