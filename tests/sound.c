/* Readings 5 and 9 to 12, and requests 2026-05 and 2026-09: which states are sound. A sound state lent with an empty group is
   refused 4 and another one 1, by a read and by its explanation too, so that each condition is tried on both sides of each of its
   bounds; each reader's state also with block sizes in and out of range behind it. Then states that no run reaches are served. */

#include "groups.h"

/* request 2026-09: the reader's state, and a block size of 1 to 16,777,215, to which no sum is bound */
static void try_blocks(uint32_t sound, uint32_t size, uint32_t next, uint32_t phase, uint32_t sum, uint32_t b4,
                       uint32_t accepted)
{
    static const struct { uint32_t size, sound; } blocks[] = { { 0, 0 }, { 1, 1 }, { 2, 1 }, { 64, 1 }, { 65536, 1 },
        { 16777214, 1 }, { 16777215, 1 }, { 16777216, 0 }, { 16777217, 0 }, { 0x01000001, 0 }, { 0x80000000, 0 },
        { 0x80000001, 0 }, { 0xFF000001, 0 }, { 0xFFFFFFFF, 0 } };
    char name[100];
    size_t i;
    desk s = blocks_with(size, next, phase, sum, b4, accepted, 1);
    relend(&s.of[GROUP], 0);
    for (i = 0; i < sizeof blocks / sizeof *blocks; i++) {
        snprintf(name, sizeof name, "blocks of %u, reader %u %u %u %u %u %u", blocks[i].size, size, next, phase, sum, b4,
                 accepted);
        put(s.of[STATE].at + DDS_READER_BLOCK, blocks[i].size);
        reads_blocks(&s, next, 1);
        refused(&s, name, sound && blocks[i].sound ? 4 : 1, 0);
        reads_blocks(&s, next - 1, 1);
        refused(&s, name, sound && blocks[i].sound ? 4 : 1, 0);
    }
    leave(&s);
}

static void try_reader(uint32_t sound, uint32_t size, uint32_t next, uint32_t phase, uint32_t sum, uint32_t b4,
                       uint32_t accepted)
{
    char name[80];
    desk s = reader_with(size, next, phase, sum, b4, accepted);
    snprintf(name, sizeof name, "reader %u %u %u %u %u %u", size, next, phase, sum, b4, accepted);
    relend(&s.of[GROUP], 0);
    reads(&s, next, 1);
    refused(&s, name, sound ? 4 : 1, 0);
    explains(&s, next, 1);
    if (sound) explained(&s, name, 4, 0, 0, 0, size, size, 0); else explained(&s, name, 1, 0, 0, 0, 0, 0, 0);
    leave(&s);
    try_blocks(sound, size, next, phase, sum, b4, accepted);
}

static void try_writer(uint32_t sound, uint32_t size, uint32_t next, uint32_t phase, uint32_t sum, uint32_t d, uint32_t e,
                      uint32_t b4, uint32_t rest)
{
    char name[120];
    desk s = writer(size, next, phase, sum, d, e, b4, rest);
    snprintf(name, sizeof name, "writer %u %u %u %u %u %u %u %u", size, next, phase, sum, d, e, b4, rest);
    relend(&s.of[GROUP], 0);
    records(&s, 0);
    refused(&s, name, sound ? 4 : 1, 0);
    separates(&s, 0, 1);
    refused(&s, name, sound ? 4 : 1, 0);
    ends(&s, 0);
    refused(&s, name, sound ? 4 : 1, 0);
    leave(&s);
}

/* numbers that have no meaning as b4, reading 12, nor as accepted */
static const uint32_t none[] = { 2, 3, 256, 257, 0x01000000, 0x80000000, 0x80000001, 0xFFFFFFFF };

/* b4 and accepted, each 0, 1 and without meaning; at next number 1 no group can have been accepted */
static void try_readers(uint32_t sound, uint32_t size, uint32_t next, uint32_t phase, uint32_t sum)
{
    uint32_t i, set, b4, accepted;
    for (b4 = 0; b4 < 2; b4++)
        for (accepted = 0; accepted < 2; accepted++)
            try_reader(sound && !(accepted && next == 1), size, next, phase, sum, b4, accepted);
    for (i = 0; i < sizeof none / sizeof *none; i++) {
        for (set = 0; set < 2; set++) {
            try_reader(0, size, next, phase, sum, none[i], set);
            try_reader(0, size, next, phase, sum, set, none[i]);
        }
        try_reader(0, size, next, phase, sum, none[i], none[i]);
    }
}

/* what reader and writer share, on a writer with nothing in its group; with b4 clear, set, and a number that has no meaning */
static void try_both(uint32_t sound, uint32_t size, uint32_t next, uint32_t phase, uint32_t sum)
{
    uint32_t b4, rest = phase == 1 ? 1 : 0;
    size_t i;
    try_readers(sound, size, next, phase, sum);
    for (b4 = 0; b4 < 2; b4++) try_writer(sound, size, next, phase, sum, 0, 0, b4, rest);
    for (i = 0; i < sizeof none / sizeof *none; i++) try_writer(0, size, next, phase, sum, 0, 0, none[i], rest);
}

static void shared(void)
{
    uint32_t phase;
    for (phase = 0; phase < 3; phase++) {
        uint32_t sum = 5 * phase;
        try_both(1, 64, 1, phase, sum);
        try_both(1, 64, 2, phase, sum); /* the least number behind an accepted group */
        try_both(0, 63, 1, phase, sum);
        try_both(0, 63, 2, phase, sum);
        try_both(0, 0, 1, phase, sum);
        try_both(1, 126632, 1, phase, sum);
        try_both(0, 126633, 1, phase, sum);
        try_both(0, 0xFFFFFFFF, 1, phase, sum);
        try_both(0, 0x80000040, 1, phase, sum);
        try_both(0, 64, 0, phase, sum);
        try_both(1, 64, 65535, phase, sum);
        try_both(1, 64, 65536, phase, sum); /* reading 10: in every phase */
        try_both(0, 64, 65537, phase, sum);
        try_both(0, 64, 0xFFFFFFFF, phase, sum);
        try_both(0, 64, 0x00010001, phase, sum);
    }
    try_both(1, 64, 1, 0, 0);
    try_both(0, 64, 1, 0, 1);
    try_both(0, 64, 1, 0, 0xFFFFFFFF);
    try_both(0, 64, 1, 1, 0);
    try_both(1, 64, 1, 1, 1);
    try_both(1, 64, 1, 1, 16777214); /* reading 9: whatever L and the number are */
    try_both(0, 64, 1, 1, 16777215);
    try_both(0, 64, 1, 1, 16777216);
    try_both(0, 64, 1, 1, 0x01000001);
    try_both(0, 64, 1, 1, 0xFFFFFFFF);
    try_both(0, 64, 1, 2, 0);
    try_both(0, 64, 1, 2, 1);
    try_both(1, 64, 1, 2, 2);
    try_both(1, 64, 1, 2, 16777215);
    try_both(0, 64, 1, 2, 16777216);
    try_both(0, 64, 1, 2, 0xFFFFFFFF);
    for (phase = 3; phase; phase = phase < 0x80000000 ? phase * 2 : 0) { /* reading 12 */
        try_both(0, 64, 1, phase, 0);
        try_both(0, 64, 1, phase, 5);
        try_both(0, 64, 1, phase + 1, 0);
        try_both(0, 64, 1, phase + 2, 5);
    }
    try_both(0, 64, 1, 256, 0);
    try_both(0, 64, 1, 257, 5);
    try_both(0, 64, 1, 0x01000002, 5);
    try_both(0, 64, 1, 0xFFFFFFFF, 5);
}

static void writers(void)
{
    uint32_t e;
    for (e = 1; e < 8; e++) { /* free: d + 32 + 4(e + 1) at most L */
        try_writer(1, 64, 9, 0, 0, 28 - 4 * e, e, 0, 0);
        try_writer(1, 64, 9, 0, 0, 0, e, 1, 0);
        try_writer(0, 64, 9, 0, 0, 29 - 4 * e, e, 0, 0);
        try_writer(0, 64, 9, 0, 0, 29 - 4 * e, e, 1, 0);
    }
    try_writer(0, 64, 9, 0, 0, 0, 8, 0, 0);
    try_writer(1, 126632, 9, 0, 0, 126592, 1, 0, 0);
    try_writer(0, 126632, 9, 0, 0, 126593, 1, 0, 0);
    try_writer(1, 126632, 9, 0, 0, 0, 31649, 1, 0);
    try_writer(0, 126632, 9, 0, 0, 1, 31649, 1, 0);
    try_writer(0, 126632, 9, 0, 0, 0, 31650, 1, 0);
    try_writer(0, 64, 9, 0, 0, 0, 0x3FFFFFFF, 0, 0);          /* reading 5: no sum wraps round */
    try_writer(0, 64, 9, 0, 0, 0, 0x40000000, 0, 0);
    try_writer(0, 64, 9, 0, 0, 0xFFFFFFFF, 1, 0, 0);
    try_writer(0, 64, 9, 0, 0, 0xFFFFFFFF, 0x3FFFFFFF, 0, 0);
    try_writer(0, 64, 9, 0, 0, 0xFFFFFFE0, 1, 0, 0);
    try_writer(0, 64, 9, 0, 0, 0xFFFFFFF0, 3, 1, 0);
    try_writer(0, 64, 9, 0, 0, 4, 0xFFFFFFFF, 0, 0);
    try_writer(0, 64, 9, 0, 0, 1, 0, 0, 0);                   /* d > 0 needs e > 0 */
    try_writer(0, 64, 9, 0, 0, 28, 0, 0, 0);
    try_writer(1, 64, 9, 0, 0, 0, 0, 1, 0);                   /* request 2026-03: b4 may be set at e = 0 */
    try_writer(1, 64, 65536, 0, 0, 0, 0, 1, 0);
    try_writer(0, 64, 9, 0, 0, 0, 0, 2, 0);
    try_writer(1, 64, 9, 0, 0, 0, 1, 1, 0);
    try_writer(0, 64, 9, 0, 0, 0, 1, 2, 0);                   /* reading 12 */
    try_writer(0, 64, 9, 0, 0, 0, 1, 256, 0);
    try_writer(0, 64, 9, 0, 0, 0, 1, 0x01000001, 0);
    try_writer(0, 64, 9, 0, 0, 0, 1, 0xFFFFFFFF, 0);
    try_writer(0, 64, 9, 0, 0, 0, 0, 0, 1);                   /* reading 11: else the rest is 0, free and owed */
    try_writer(0, 64, 9, 0, 0, 5, 1, 0, 1);
    try_writer(0, 64, 9, 0, 0, 5, 1, 0, 0xFFFFFFFF);
    try_writer(0, 64, 9, 2, 45, 0, 0, 0, 1);
    try_writer(0, 64, 9, 2, 16777215, 0, 0, 0, 0xFFFFFFFF);
    try_writer(1, 64, 65535, 0, 0, 20, 2, 1, 0);              /* at 65,536 d = e = 0 */
    try_writer(1, 64, 65536, 0, 0, 0, 0, 0, 0);
    try_writer(0, 64, 65536, 0, 0, 20, 2, 0, 0);
    try_writer(0, 64, 65536, 0, 0, 0, 1, 0, 0);
    try_writer(0, 64, 65536, 0, 0, 0, 1, 1, 0);
    for (e = 1; e < 3; e++) { /* inside or owed means d = e = 0; b4 may be set */
        uint32_t rest = e == 1 ? 7 : 0;
        try_writer(1, 64, 9, e, 45, 0, 0, 0, rest);
        try_writer(0, 64, 9, e, 45, 1, 0, 0, rest);
        try_writer(0, 64, 9, e, 45, 0, 1, 0, rest);
        try_writer(0, 64, 9, e, 45, 1, 1, 0, rest);
        try_writer(1, 64, 9, e, 45, 0, 0, 1, rest);
        try_writer(0, 64, 9, e, 45, 0, 0, 2, rest);
        try_writer(0, 64, 9, e, 45, 0, 1, 1, rest);
        try_writer(0, 64, 9, e, 45, 0, 0x40000000, 0, rest);
        try_writer(1, 64, 65536, e, 45, 0, 0, 0, rest);
        try_writer(1, 64, 65536, e, 45, 0, 0, 1, rest);
    }
    try_writer(0, 64, 9, 1, 45, 0, 0, 0, 0);                  /* inside, the rest is 1 or more */
    try_writer(1, 64, 9, 1, 45, 0, 0, 0, 16777170);           /* sum plus rest at most 16,777,215 */
    try_writer(0, 64, 9, 1, 45, 0, 0, 0, 16777171);
    try_writer(1, 64, 9, 1, 16777214, 0, 0, 0, 1);
    try_writer(0, 64, 9, 1, 16777214, 0, 0, 0, 2);
    try_writer(0, 64, 9, 1, 45, 0, 0, 0, 0xFFFFFFD3);         /* 45 + 0xFFFFFFD3 = 2^32 */
    try_writer(0, 64, 9, 1, 45, 0, 0, 0, 0xFFFFFFD4);
    try_writer(0, 64, 9, 1, 45, 0, 0, 0, 0xFFFFFFFF);
}

/* reading 9: states that no run reaches are served, and nothing is looked up in the group buffer */
static void served(void)
{
    desk s = reader(64, 1, 1, 16777214);
    table(&s, LIST(0x60000001, 0x01FFFFFF, 0x8000003F));
    reads(&s, 1, 3);
    finished(&s, "reading 9: inside at number 1");
    reader_is(&s, "reading 9: inside at number 1", 64, 2, 0, 0);
    leave(&s);
    s = reader_with(64, 2, 1, 16777214, 0, 1);
    reads(&s, 1, 3);
    repeated(&s, "reading 9: a repeat, L = 64, sum 16,777,214 after one group");
    leave(&s);
    s = reader_with(64, 65536, 2, 45, 0, 0);
    reads(&s, 65535, 3);
    refused(&s, "reading 9: no group was accepted, and no number remains", 5, 0);
    leave(&s);
    s = blocks_with(64, 1, 1, 16777213, 0, 0, 1); /* no rule binds the sum to the block size */
    table(&s, LIST(0x40000001, 0x8000003F));
    reads_blocks(&s, 1, 2);
    finished(&s, "request 2026-09: blocks of 1, sum 16,777,213");
    blocks_are(&s, "request 2026-09: blocks of 1, sum 16,777,213", 64, 2, 1, 16777214, 0, 1);
    table(&s, LIST(0x60000001, 0x01FFFFFF, 0x8000003F));
    reads_blocks(&s, 2, 3);
    refused(&s, "request 2026-09: blocks of 1, a total of 16,777,215", 51, 2);
    put(s.of[STATE].at + DDS_READER_BLOCK, 16777215);
    reads_blocks(&s, 2, 3);
    finished(&s, "request 2026-09: blocks of 16,777,215");
    blocks_are(&s, "request 2026-09: blocks of 16,777,215", 64, 3, 0, 0, 0, 16777215);
    leave(&s);
    s = blocks_with(64, 65536, 2, 45, 0, 1, 9);
    reads_blocks(&s, 65535, 3);
    repeated(&s, "request 2026-09: a repeat where no number remains");
    reads_blocks(&s, 65536, 3);
    refused(&s, "request 2026-09: no number remains", 5, 0);
    leave(&s);
    s = writer(64, 1, 1, 16777214, 0, 0, 0, 1);
    offer(&s, 1);
    records(&s, 0);
    finished(&s, "reading 9: L = 64, sum 16,777,214");
    slice_is(&s, GROUP, "reading 9: L = 64, sum 16,777,214", "01 EE*23 01 FF FF FF 60 00 00 01 EE*32");
    writer_is(&s, "reading 9: L = 64, sum 16,777,214", 64, 1, 0, 0, 1, 2, 0, 0);
    leave(&s);
    s = writer(64, 1, 0, 0, 0, 3, 1, 0);
    offer(&s, 12);
    records(&s, 0);
    finished(&s, "reading 9: e = 3, d = 0, b4 set");
    slice_is(&s, GROUP, "reading 9: e = 3, d = 0, b4 set", "01-0C EE*4 6B 00 00 0C EE*12 EE*32");
    writer_is(&s, "reading 9: e = 3, d = 0, b4 set", 64, 1, 0, 0, 12, 4, 1, 0);
    leave(&s);
    s = writer(64, 1, 0, 0, 24, 1, 0, 0);
    ends(&s, 0);
    closed(&s, "reading 9: d at its bound with e = 1", 1, 2, 0);
    slice_is(&s, GROUP, "reading 9: d at its bound with e = 1", "EE*24 80 00 00 28 EE*4 EE*32");
    writer_is(&s, "reading 9: d at its bound with e = 1", 64, 2, 0, 0, 0, 0, 0, 0);
    leave(&s);
    s = writer(64, 65535, 2, 2, 0, 0, 0, 0);
    ends(&s, 0);
    closed(&s, "a sum of 2 owed at 65,535", 65535, 2, 0);
    slice_is(&s, GROUP, "a sum of 2 owed at 65,535", "00*24 80 00 00 40 01 00 00 02 EE*32");
    writer_is(&s, "a sum of 2 owed at 65,535", 64, 65536, 0, 0, 0, 0, 0, 0);
    leave(&s);
}

int main(void)
{
    shared();
    writers();
    served();
    return finish("sound");
}
