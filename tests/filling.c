/* Readings 22 to 34: each filling rule of "Writing". Groups are lent as bytes EE and offered data is 01, 02, 03 ..,
   so that every byte written, and every byte that stays, shows. L = 64 unless it is said: entry k stands at 32 - 4k and
   the room is r = 24 - 4e - d. */

#include "groups.h"

/* n bytes offered, free in an empty group: entire up to L - 40, otherwise a start that fills the group */
static void record_in_empty_group(void)
{
    desk s = writer(64, 1, 0, 0, 0, 0, 0, 0);
    offer(&s, 1);
    records(&s, 0);
    finished(&s, "entire 1");
    slice_is(&s, GROUP, "entire 1", "01 EE*27 63 00 00 01 EE*32");
    writer_is(&s, "entire 1", 64, 1, 0, 0, 1, 1, 0, 0);
    leave(&s);
    s = writer(64, 1, 0, 0, 0, 0, 0, 0);
    offer(&s, 24);
    records(&s, 0);
    finished(&s, "reading 23: r = L - 40 in an empty group");
    slice_is(&s, GROUP, "reading 23: r = L - 40 in an empty group", "01-18 EE*4 63 00 00 18 EE*32");
    writer_is(&s, "reading 23: r = L - 40 in an empty group", 64, 1, 0, 0, 24, 1, 0, 0);
    leave(&s);
    s = writer(64, 1, 0, 0, 0, 0, 0, 0);
    offer(&s, 25);
    records(&s, 0);
    closed(&s, "reading 28: r bytes taken at a start", 1, 2, 24);
    slice_is(&s, GROUP, "start 24", "01-18 80 00 00 28 42 00 00 18 EE*32");
    writer_is(&s, "start 24", 64, 2, 1, 24, 0, 0, 0, 1);
    leave(&s);
    s = writer(64, 1, 0, 0, 0, 0, 0, 0);
    offer(&s, 16777215);
    records(&s, 1);
    closed(&s, "start of the longest record", 1, 2, 24);
    slice_is(&s, GROUP, "start of the longest record", "01-18 88 00 00 28 4A 00 00 18 EE*32");
    writer_is(&s, "start of the longest record", 64, 2, 1, 24, 0, 0, 1, 16777191);
    leave(&s);
}

/* reading 24: n bytes in a room of r, from 5 to -4; the group has one entry, or two at r = -4 */
static void record_by_room(void)
{
    static const struct { uint32_t d, e, n; const char *group; uint32_t entries, taken, phase, sum, rest; } cases[] = {
        { 15, 1, 5, "EE*15 01-05 EE*4 63 00 00 05 EE*4 EE*32", 0, 0, 0, 0, 0 },
        { 15, 1, 6, "EE*15 01-05 80 00 00 2C 42 00 00 05 EE*4 EE*32", 3, 5, 1, 5, 1 },
        { 19, 1, 1, "EE*19 01 EE*4 63 00 00 01 EE*4 EE*32", 0, 0, 0, 0, 0 },
        { 19, 1, 2, "EE*19 01 80 00 00 2C 42 00 00 01 EE*4 EE*32", 3, 1, 1, 1, 1 },
        { 20, 1, 1, "EE*20 00*4 80 00 00 2C EE*4 EE*32", 2, 0, 0, 0, 0 },
        { 20, 1, 99, "EE*20 00*4 80 00 00 2C EE*4 EE*32", 2, 0, 0, 0, 0 },
        { 21, 1, 1, "EE*21 00*3 80 00 00 2B EE*4 EE*32", 2, 0, 0, 0, 0 },
        { 22, 1, 1, "EE*22 00*2 80 00 00 2A EE*4 EE*32", 2, 0, 0, 0, 0 },
        { 23, 1, 1, "EE*23 00*1 80 00 00 29 EE*4 EE*32", 2, 0, 0, 0, 0 },
        { 24, 1, 1, "EE*24 80 00 00 28 EE*4 EE*32", 2, 0, 0, 0, 0 },
        { 20, 2, 1, "EE*20 80 00 00 2C EE*8 EE*32", 3, 0, 0, 0, 0 },
        { 0, 7, 1, "80 00 00 40 EE*28 EE*32", 8, 0, 0, 0, 0 },
        { 0, 6, 1, "00*4 80 00 00 40 EE*24 EE*32", 7, 0, 0, 0, 0 },
        { 0, 5, 4, "01-04 EE*4 63 00 00 04 EE*20 EE*32", 0, 0, 0, 0, 0 },
        { 0, 5, 5, "01-04 80 00 00 3C 42 00 00 04 EE*20 EE*32", 7, 4, 1, 4, 1 },
    };
    size_t i;
    for (i = 0; i < sizeof cases / sizeof *cases; i++) {
        desk s = writer(64, 9, 0, 0, cases[i].d, cases[i].e, 0, 0);
        offer(&s, cases[i].n);
        records(&s, 0);
        if (cases[i].entries) {
            closed(&s, "reading 24: record by room", 9, cases[i].entries, cases[i].taken);
            writer_is(&s, "reading 24: record by room", 64, 10, cases[i].phase, cases[i].sum, 0, 0, 0, cases[i].rest);
        } else {
            finished(&s, "reading 24: record by room");
            writer_is(&s, "reading 24: record by room", 64, 9, 0, 0, cases[i].d + cases[i].n, cases[i].e + 1, 0, 0);
        }
        slice_is(&s, GROUP, "reading 24: record by room", cases[i].group);
        leave(&s);
    }
}

/* readings 24, 28 and 34: a separator is laid from r = 0 on, else the group is closed and it is not laid */
static void separator_by_room(void)
{
    static const struct { uint32_t d, e, value; const char *group; uint32_t entries; } cases[] = {
        { 0, 0, 0, "EE*28 07 00 00 00 EE*32", 0 },
        { 0, 0, 1, "EE*28 07 00 00 01 EE*32", 0 },
        { 3, 2, 1, "EE*20 07 00 00 01 EE*8 EE*32", 0 },
        { 20, 1, 0, "EE*24 07 00 00 00 EE*4 EE*32", 0 },
        { 0, 6, 1, "EE*4 07 00 00 01 EE*24 EE*32", 0 },
        { 21, 1, 0, "EE*21 00*3 80 00 00 2B EE*4 EE*32", 2 },
        { 22, 1, 1, "EE*22 00*2 80 00 00 2A EE*4 EE*32", 2 },
        { 23, 1, 0, "EE*23 00*1 80 00 00 29 EE*4 EE*32", 2 },
        { 24, 1, 0, "EE*24 80 00 00 28 EE*4 EE*32", 2 },
        { 20, 2, 1, "EE*20 80 00 00 2C EE*8 EE*32", 3 },
        { 0, 7, 1, "80 00 00 40 EE*28 EE*32", 8 },
    };
    size_t i;
    for (i = 0; i < sizeof cases / sizeof *cases; i++) {
        desk s = writer(64, 9, 0, 0, cases[i].d, cases[i].e, 0, 0);
        separates(&s, cases[i].value, 0);
        if (cases[i].entries) {
            closed(&s, "reading 24: separator by room", 9, cases[i].entries, 0);
            writer_is(&s, "reading 24: separator by room", 64, 10, 0, 0, 0, 0, 0, 0);
        } else {
            finished(&s, "reading 24: separator by room");
            writer_is(&s, "reading 24: separator by room", 64, 9, 0, 0, cases[i].d, cases[i].e + 1, 0, 0);
        }
        slice_is(&s, GROUP, "reading 24: separator by room", cases[i].group);
        leave(&s);
    }
}

/* readings 28 and 29: inside, the rest of n bytes after 100: middle, last with its total, or last with it owed */
static void record_inside(void)
{
    static const struct { uint32_t n, warn; const char *group; uint32_t taken, phase, sum, rest; } cases[] = {
        { 1, 0, "01 EE*23 01 00 00 65 60 00 00 01 EE*32", 0, 0, 0, 0 },
        { 19, 0, "01-13 EE*5 01 00 00 77 60 00 00 13 EE*32", 0, 0, 0, 0 },
        { 20, 0, "01-14 EE*4 01 00 00 78 60 00 00 14 EE*32", 0, 0, 0, 0 },
        { 20, 1, "01-14 EE*4 09 00 00 78 68 00 00 14 EE*32", 0, 0, 0, 0 },
        { 21, 0, "01-15 00*3 80 00 00 2B 60 00 00 15 EE*32", 21, 2, 121, 0 },
        { 22, 0, "01-16 00*2 80 00 00 2A 60 00 00 16 EE*32", 22, 2, 122, 0 },
        { 23, 1, "01-17 00*1 88 00 00 29 68 00 00 17 EE*32", 23, 2, 123, 0 },
        { 24, 0, "01-18 80 00 00 28 60 00 00 18 EE*32", 24, 2, 124, 0 },
        { 25, 0, "01-18 80 00 00 28 40 00 00 18 EE*32", 24, 1, 124, 1 },
        { 25, 1, "01-18 88 00 00 28 48 00 00 18 EE*32", 24, 1, 124, 1 },
        { 48, 0, "01-18 80 00 00 28 40 00 00 18 EE*32", 24, 1, 124, 24 },
        { 16777115, 0, "01-18 80 00 00 28 40 00 00 18 EE*32", 24, 1, 124, 16777091 },
    };
    size_t i;
    for (i = 0; i < sizeof cases / sizeof *cases; i++) {
        desk s = writer(64, 9, 1, 100, 0, 0, 0, cases[i].n);
        offer(&s, cases[i].n);
        records(&s, cases[i].warn);
        if (cases[i].taken) {
            closed(&s, "reading 28: record inside", 9, 2, cases[i].taken);
            writer_is(&s, "reading 28: record inside", 64, 10, cases[i].phase, cases[i].sum, 0, 0, cases[i].warn, cases[i].rest);
        } else {
            finished(&s, "reading 28: record inside");
            writer_is(&s, "reading 28: record inside", 64, 9, 0, 0, cases[i].n, 2, cases[i].warn, 0);
        }
        slice_is(&s, GROUP, "reading 28: record inside", cases[i].group);
        if (cases[i].phase == 2) {
            offer(&s, 0);
            records(&s, 0);
            refused(&s, "reading 29: offering the empty rest", 15, 0);
        }
        leave(&s);
    }
}

/* the same three at the standard size, after 1,000 bytes: L - 44, L - 43, L - 40 and L - 39 */
static void record_inside_standard(void)
{
    static const struct { uint32_t n; const char *group; uint32_t taken, phase, sum, rest; } cases[] = {
        { 126588, "01+126588 EE*4 01 01 F2 64 60 01 EE 7C EE*32", 0, 0, 0, 0 },
        { 126589, "01+126589 00*3 80 00 00 2B 60 01 EE 7D EE*32", 126589, 2, 127589, 0 },
        { 126592, "01+126592 80 00 00 28 60 01 EE 80 EE*32", 126592, 2, 127592, 0 },
        { 126593, "01+126592 80 00 00 28 40 01 EE 80 EE*32", 126592, 1, 127592, 1 },
    };
    size_t i;
    for (i = 0; i < sizeof cases / sizeof *cases; i++) {
        desk s = writer(126632, 9, 1, 1000, 0, 0, 0, cases[i].n);
        offer(&s, cases[i].n);
        records(&s, 0);
        if (cases[i].taken) {
            closed(&s, "record inside, standard size", 9, 2, cases[i].taken);
            writer_is(&s, "record inside, standard size", 126632, 10, cases[i].phase, cases[i].sum, 0, 0, 0, cases[i].rest);
        } else {
            finished(&s, "record inside, standard size");
            writer_is(&s, "record inside, standard size", 126632, 9, 0, 0, cases[i].n, 2, 0, 0);
        }
        slice_is(&s, GROUP, "record inside, standard size", cases[i].group);
        leave(&s);
    }
}

/* as many separators as the standard's size has place for, 31,649; the next one closes */
static void separators_standard(void)
{
    uint32_t k, good = 1;
    desk s = writer(126632, 9, 0, 0, 0, 0, 0, 0);
    for (k = 1; k <= 31649; k++) {
        good &= dds_separator(s.of[STATE].at, DDS_WRITER_LEN, s.of[GROUP].at, 126632, k % 2, 0, s.of[ANSWER].at,
                              DDS_ANSWER_LEN) == 0;
        good &= get(s.of[ANSWER].at + DDS_ANSWER_OUTCOME) == 0 && get(entry(&s.of[GROUP], k)) == 0x07000000 + k % 2;
    }
    check((int)good, "31,649 separators", "each is laid");
    writer_is(&s, "31,649 separators", 126632, 9, 0, 0, 0, 31649, 0, 0);
    separates(&s, 0, 0);
    closed(&s, "31,649 separators", 9, 31650, 0);
    check(get(s.of[GROUP].at) == 0x8001EEA8 && get(s.of[GROUP].at + 4) == 0x07000001, "31,649 separators",
          "the skip stands at 0");
    leave(&s);
}

/* readings 22 and 30: an owed total of 45 laid first by each call, with the b4 of that call, and counted in e */
static void owed_total(void)
{
    static const struct { uint32_t n, warn; const char *group; uint32_t entries, taken, rest; } offers[] = {
        { 1, 0, "01 EE*23 63 00 00 01 01 00 00 2D EE*32", 0, 0, 0 },
        { 20, 1, "01-14 EE*4 6B 00 00 14 09 00 00 2D EE*32", 0, 0, 0 },
        { 21, 0, "01-14 80 00 00 2C 42 00 00 14 01 00 00 2D EE*32", 3, 20, 1 },
        { 24, 1, "01-14 88 00 00 2C 4A 00 00 14 09 00 00 2D EE*32", 3, 20, 4 },
    };
    uint32_t warn;
    size_t i;
    desk s;
    for (warn = 0; warn < 2; warn++) {
        s = writer(64, 3, 2, 45, 0, 0, 0, 0);
        ends(&s, warn);
        closed(&s, "reading 22: end", 3, 2, 0);
        slice_is(&s, GROUP, "reading 22: end",
                 warn ? "00*24 88 00 00 40 09 00 00 2D EE*32" : "00*24 80 00 00 40 01 00 00 2D EE*32");
        writer_is(&s, "reading 22: end", 64, 4, 0, 0, 0, 0, warn, 0);
        leave(&s);
        s = writer(64, 3, 2, 45, 0, 0, 0, 0);
        separates(&s, 1, warn);
        finished(&s, "reading 22: separator");
        slice_is(&s, GROUP, "reading 22: separator",
                 warn ? "EE*24 0F 00 00 01 09 00 00 2D EE*32" : "EE*24 07 00 00 01 01 00 00 2D EE*32");
        writer_is(&s, "reading 22: separator", 64, 3, 0, 0, 0, 2, warn, 0);
        leave(&s);
    }
    for (i = 0; i < sizeof offers / sizeof *offers; i++) {
        s = writer(64, 3, 2, 45, 0, 0, 0, 0);
        offer(&s, offers[i].n);
        records(&s, offers[i].warn);
        if (offers[i].entries) {
            closed(&s, "reading 22: record", 3, offers[i].entries, offers[i].taken);
            writer_is(&s, "reading 22: record", 64, 4, 1, 20, 0, 0, offers[i].warn, offers[i].rest);
        } else {
            finished(&s, "reading 22: record");
            writer_is(&s, "reading 22: record", 64, 3, 0, 0, offers[i].n, 2, offers[i].warn, 0);
        }
        slice_is(&s, GROUP, "reading 22: record", offers[i].group);
        leave(&s);
    }
    s = writer(64, 3, 2, 16777215, 0, 0, 0, 0);
    ends(&s, 0);
    slice_is(&s, GROUP, "reading 22: a total of 16,777,215", "00*24 80 00 00 40 01 FF FF FF EE*32");
    leave(&s);
}

/* sizes that are no multiple of four: the table goes with the group's end, not with its beginning */
static void odd_sizes(void)
{
    desk s = writer(67, 9, 0, 0, 0, 0, 0, 0);
    offer(&s, 28);
    records(&s, 0);
    closed(&s, "L = 67, start", 9, 2, 27);
    slice_is(&s, GROUP, "L = 67, start", "01-1B 80 00 00 28 42 00 00 1B EE*32");
    writer_is(&s, "L = 67, start", 67, 10, 1, 27, 0, 0, 0, 1);
    leave(&s);
    s = writer(67, 9, 1, 27, 0, 0, 0, 23);
    offer(&s, 23);
    records(&s, 0);
    finished(&s, "L = 67, last of L - 44");
    slice_is(&s, GROUP, "L = 67, last of L - 44", "01-17 EE*4 01 00 00 32 60 00 00 17 EE*32");
    writer_is(&s, "L = 67, last of L - 44", 67, 9, 0, 0, 23, 2, 0, 0);
    leave(&s);
    s = writer(67, 9, 1, 27, 0, 0, 0, 24);
    offer(&s, 24);
    records(&s, 0);
    closed(&s, "L = 67, last of L - 43", 9, 2, 24);
    slice_is(&s, GROUP, "L = 67, last of L - 43", "01-18 00*3 80 00 00 2B 60 00 00 18 EE*32");
    writer_is(&s, "L = 67, last of L - 43", 67, 10, 2, 51, 0, 0, 0, 0);
    leave(&s);
    s = writer(67, 9, 0, 0, 0, 6, 0, 0);
    separates(&s, 1, 0);
    finished(&s, "L = 67, seventh separator");
    slice_is(&s, GROUP, "L = 67, seventh separator", "EE*7 07 00 00 01 EE*24 EE*32");
    separates(&s, 1, 0);
    closed(&s, "L = 67, eighth separator", 9, 8, 0);
    slice_is(&s, GROUP, "L = 67, eighth separator", "00*3 80 00 00 43 07 00 00 01 EE*24 EE*32");
    leave(&s);
    s = writer(65, 9, 2, 45, 0, 0, 0, 0);
    ends(&s, 0);
    slice_is(&s, GROUP, "L = 65, owed total", "00*25 80 00 00 41 01 00 00 2D EE*32");
    leave(&s);
    s = writer(66, 9, 0, 0, 25, 1, 1, 0);
    offer(&s, 1);
    records(&s, 0);
    closed(&s, "L = 66, no room", 9, 2, 0);
    slice_is(&s, GROUP, "L = 66, no room", "EE*25 00*1 88 00 00 29 EE*4 EE*32");
    leave(&s);
}

/* request 2026-03: a close no longer clears b4 */
static void early_warning(void)
{
    desk s = writer(64, 3, 0, 0, 21, 1, 0, 0);
    separates(&s, 0, 1);
    closed(&s, "reading 25: closed without laying", 3, 2, 0);
    slice_is(&s, GROUP, "reading 25: the skip carries b4", "EE*21 00*3 88 00 00 2B EE*4 EE*32");
    writer_is(&s, "reading 25: the next group has it set", 64, 4, 0, 0, 0, 0, 1, 0);
    memset(s.of[GROUP].at, LENT, 64);
    separates(&s, 0, 0);
    slice_is(&s, GROUP, "reading 25: the second offer need not say it", "EE*28 0F 00 00 00 EE*32");
    writer_starts(&s, 64, 4);
    writer_is(&s, "reading 25: a fresh start clears it", 64, 4, 0, 0, 0, 0, 0, 0);
    memset(s.of[GROUP].at, LENT, 64);
    separates(&s, 0, 0);
    separates(&s, 1, 1);
    separates(&s, 0, 0);
    offer(&s, 3);
    records(&s, 0);
    slice_is(&s, GROUP, "reading 25: once set it stays", "01-03 EE*13 6B 00 00 03 0F 00 00 00 0F 00 00 01 07 00 00 00 EE*32");
    writer_is(&s, "reading 25: once set it stays", 64, 4, 0, 0, 3, 4, 1, 0);
    separates(&s, 2, 0);
    refused(&s, "reading 26: a refused call keeps b4 as it was", 18, 0);
    ends(&s, 0);
    closed(&s, "reading 25: at the close", 4, 5, 0);
    slice_is(&s, GROUP, "reading 25: the skip with them",
             "01-03 00*9 88 00 00 3D 6B 00 00 03 0F 00 00 00 0F 00 00 01 07 00 00 00 EE*32");
    writer_is(&s, "reading 25: not cleared at the close", 64, 5, 0, 0, 0, 0, 1, 0);
    ends(&s, 0);
    finished(&s, "reading 27: an end that closes nothing");
    writer_is(&s, "reading 27: an end that closes nothing leaves it set", 64, 5, 0, 0, 0, 0, 1, 0);
    memset(s.of[GROUP].at, LENT, 64);
    offer(&s, 44);
    records(&s, 0);
    closed(&s, "reading 25: a start in the next group", 5, 2, 24);
    slice_is(&s, GROUP, "reading 25: a start in the next group", "01-18 88 00 00 28 4A 00 00 18 EE*32");
    writer_is(&s, "reading 25: inside with b4", 64, 6, 1, 24, 0, 0, 1, 20);
    memset(s.of[GROUP].at, LENT, 64);
    offer(&s, 20);
    records(&s, 0);
    slice_is(&s, GROUP, "reading 25: last and total in the one after", "01-14 EE*4 09 00 00 2C 68 00 00 14 EE*32");
    leave(&s);
    s = writer(64, 3, 0, 0, 20, 1, 0, 0);
    offer(&s, 9);
    records(&s, 1);
    slice_is(&s, GROUP, "reading 25: a record not taken", "EE*20 00*4 88 00 00 2C EE*4 EE*32");
    writer_is(&s, "reading 25: a record not taken", 64, 4, 0, 0, 0, 0, 1, 0);
    leave(&s);
    s = writer(64, 3, 0, 0, 5, 1, 0, 0);
    separates(&s, 2, 1);
    refused(&s, "reading 26: a refused call keeps nothing of its warn", 18, 0);
    separates(&s, 1, 0);
    slice_is(&s, GROUP, "reading 26: a refused call keeps nothing of its warn", "EE*24 07 00 00 01 EE*4 EE*32");
    ends(&s, 1);
    slice_is(&s, GROUP, "an end may set b4", "EE*5 00*15 88 00 00 3B 07 00 00 01 EE*4 EE*32");
    writer_is(&s, "an end may set b4", 64, 4, 0, 0, 0, 0, 1, 0);
    leave(&s);
}

static void end_of_run(void)
{
    uint32_t warn, number;
    for (warn = 0; warn < 2; warn++)
        for (number = 1; number <= 65536; number += 65535) {
            desk s = writer(64, number, 0, 0, 0, 0, 0, 0);
            ends(&s, warn);
            refused(&s, "reading 27: closes nothing", 0, 0);
            leave(&s);
        }
}

static void last_numbers(void)
{
    desk s = writer(64, 65535, 0, 0, 0, 0, 0, 0);
    separates(&s, 1, 0);
    finished(&s, "reading 31: group 65,535 may be filled");
    ends(&s, 0);
    closed(&s, "reading 31: and closed", 65535, 2, 0);
    writer_is(&s, "reading 31: no number remains", 64, 65536, 0, 0, 0, 0, 0, 0);
    separates(&s, 5, 0);
    refused(&s, "reading 31: 14 before 18", 14, 0);
    records(&s, 0);
    refused(&s, "reading 31: 14 before 15", 14, 0);
    ends(&s, 0);
    refused(&s, "reading 31: an end closes nothing", 0, 0);
    leave(&s);
    s = writer(64, 65535, 0, 0, 0, 0, 0, 0);
    offer(&s, 25);
    records(&s, 0);
    closed(&s, "reading 31: a start in 65,535", 65535, 2, 24);
    offer(&s, 2);
    records(&s, 0);
    refused(&s, "reading 31: 14 before 16", 14, 0);
    separates(&s, 0, 0);
    refused(&s, "reading 31: 14 before 17", 14, 0);
    ends(&s, 0);
    refused(&s, "reading 31: end inside", 17, 0);
    leave(&s);
}

static void orders(void)
{
    desk s = writer(64, 3, 1, 30, 0, 0, 0, 40);
    records(&s, 0);
    refused(&s, "reading 32: an empty offer inside", 15, 0);
    offer(&s, 16777216);
    records(&s, 0);
    refused(&s, "reading 32: an over-long offer inside", 15, 0);
    leave(&s);
    s = writer(64, 3, 0, 0, 20, 2, 0, 0);
    separates(&s, 2, 1);
    refused(&s, "reading 33: 18 where there is no room", 18, 0);
    leave(&s);
}

int main(void)
{
    record_in_empty_group();
    record_by_room();
    separator_by_room();
    record_inside();
    record_inside_standard();
    separators_standard();
    owed_total();
    odd_sizes();
    early_warning();
    end_of_run();
    last_numbers();
    orders();
    return finish("filling");
}
