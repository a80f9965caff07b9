/* Every refusal of the reader's and the writer's calls, and their order; explain.c has those of dds_explain, blocks.c those of
   the calls on blocks of one size. Each set of faults that can stand together is tried, and the first in document 01's order must
   be the one answered. Every slice is compared before and after. */

#include "groups.h"

/* ---- Start: 2, 3 */

static void start_refusals(void)
{
    static const struct { uint32_t size, first, refusal; } cases[] = {
        { 0, 1, 2 }, { 63, 1, 2 }, { 126633, 1, 2 }, { 0xFFFFFFFF, 1, 2 }, { 0x80000040, 1, 2 }, { 65536 + 63, 0, 3 },
        { 64, 0, 3 }, { 64, 65536, 3 }, { 64, 65537, 3 }, { 64, 0xFFFFFFFF, 3 }, { 126632, 0, 3 }, { 126632, 65536, 3 },
        { 63, 0, 2 }, { 126633, 65536, 2 }, { 0, 0, 2 },
        { 64, 1, 0 }, { 65, 65535, 0 }, { 126632, 1, 0 }, { 126631, 65535, 0 }, { 4096, 300, 0 },
    };
    size_t i;
    for (i = 0; i < sizeof cases / sizeof *cases; i++) {
        desk r = reader(64, 1, 0, 0), w = writer(64, 1, 0, 0, 0, 0, 0, 0);
        relend(&r.of[STATE], DDS_READER_LEN);
        relend(&w.of[STATE], DDS_WRITER_LEN);
        reader_starts(&r, cases[i].size, cases[i].first);
        writer_starts(&w, cases[i].size, cases[i].first);
        if (cases[i].refusal) {
            refused(&r, "reader start", cases[i].refusal, 0);
            refused(&w, "writer start", cases[i].refusal, 0);
        } else {
            finished(&r, "reader start");
            finished(&w, "writer start");
            reader_is_fresh(&r, "reader start", cases[i].size, cases[i].first);
            writer_is(&w, "writer start", cases[i].size, cases[i].first, 0, 0, 0, 0, 0, 0);
        }
        leave(&r);
        leave(&w);
    }
}

/* ---- Read: 1, 4, a repeat, 5, 6, 7, then the entries */

static void read_order(void)
{
    static const uint32_t order[6] = { 1, 4, 5, 6, 7, 8 };
    uint32_t faults, i;
    for (faults = 0; faults < 128; faults++) {
        uint32_t entries = faults & 8 ? 9 : 3;
        desk s = reader_with(64, 5, 0, faults & 1 ? 7 : 0, 0, faults >> 6); /* whether a group was accepted or not */
        table(&s, LIST(0x6300000A, 0x07000001, 0x80000036));
        if (faults & 32) s.of[GROUP].at[28] = 0x43;
        if (faults & 2) relend(&s.of[GROUP], 63);
        relend(&s.of[ROWS], faults & 16 ? 12 * entries - 1 : 12 * entries);
        reads(&s, faults & 4 ? 6 : 5, entries);
        for (i = 0; i < 6 && !(faults >> i & 1); i++) { }
        if (i < 6) refused(&s, "read, order", order[i], order[i] == 8);
        else {
            finished(&s, "read, no fault");
            reader_is(&s, "read, no fault", 64, 6, 0, 0);
        }
        leave(&s);
    }
}

/* request 2026-05: a repeat comes behind 1 and 4, and before 5, 6, 7 and whatever its entries are */
static void repeat_order(void)
{
    uint32_t faults;
    for (faults = 0; faults < 128; faults++) {
        uint32_t entries = faults & 8 ? 9 : 3;
        desk s = reader_with(64, 5, 0, faults & 1 ? 7 : 0, 0, faults & 64 ? 2 : faults & 4 ? 0 : 1);
        table(&s, LIST(0x6300000A, 0x07000001, 0x80000036));
        if (faults & 32) s.of[GROUP].at[28] = 0x43;
        if (faults & 2) relend(&s.of[GROUP], 63);
        relend(&s.of[ROWS], faults & 16 ? 12 * entries - 1 : 12 * entries);
        reads(&s, 4, entries);
        if (faults & 65) refused(&s, "repeat, order: state not sound", 1, 0);
        else if (faults & 2) refused(&s, "repeat, order: another length", 4, 0);
        else if (faults & 4) refused(&s, "repeat, order: no group was accepted", 5, 0);
        else repeated(&s, "repeat, order");
        leave(&s);
    }
}

static void read_refusals(void)
{
    static const uint32_t numbers[] = { 0, 1, 6, 8, 65535, 65536, 65543, 0x80000007, 0xFFFFFFFF };
    static const uint32_t counts[] = { 0, 9, 10, 16, 0x40000001, 0x40000002, 0x80000001, 0xFFFFFFFF };
    static const size_t groups[] = { 0, 1, 32, 63, 65, 128, 126632 };
    static const size_t rows[] = { 0, 1, 12, 23 };
    size_t i;
    desk s = reader(64, 7, 0, 0);
    table(&s, LIST(0x07000000, 0x80000040));
    for (i = 0; i < sizeof numbers / sizeof *numbers; i++) { reads(&s, numbers[i], 2); refused(&s, "read 5", 5, 0); }
    put(s.of[STATE].at + DDS_READER_ACCEPTED, 1);
    for (i = 0; i < sizeof numbers / sizeof *numbers; i++) {
        reads(&s, numbers[i], 2);
        if (numbers[i] == 6) repeated(&s, "read 5: all but the number before"); else refused(&s, "read 5, accepted", 5, 0);
    }
    for (i = 0; i < sizeof counts / sizeof *counts; i++) { reads(&s, 7, counts[i]); refused(&s, "read 6", 6, 0); }
    for (i = 0; i < sizeof rows / sizeof *rows; i++) {
        relend(&s.of[ROWS], rows[i]);
        reads(&s, 7, 2);
        refused(&s, "read 7", 7, 0);
    }
    for (i = 0; i < sizeof groups / sizeof *groups; i++) {
        relend(&s.of[GROUP], groups[i]);
        reads(&s, 7, 2);
        refused(&s, "read 4", 4, 0);
    }
    leave(&s);
    s = reader(67, 7, 0, 0); /* 32 + 4n at most L: eight entries for L = 64 to 67, nine from 68 */
    table(&s, LIST(0x07000000, 0x07000000, 0x07000000, 0x07000000, 0x07000000, 0x07000000, 0x07000000, 0x80000043));
    relend(&s.of[ROWS], 12 * 9);
    reads(&s, 7, 9);
    refused(&s, "read 6: nine entries in 67 bytes", 6, 0);
    reads(&s, 7, 8);
    finished(&s, "eight entries in 67 bytes");
    leave(&s);
    s = reader(68, 7, 0, 0);
    table(&s, LIST(0x07000000, 0x07000000, 0x07000000, 0x07000000, 0x07000000, 0x07000000, 0x07000000, 0x07000001, 0x80000044));
    reads(&s, 7, 9);
    finished(&s, "nine entries in 68 bytes");
    leave(&s);
}

/* 8 to 13 and 19 to 22, each at each place of a table of five */
static void read_entry_refusals(void)
{
    static const struct { uint32_t refusal, entry; } faults[] = {
        { 8, 0x43000001 }, { 8, 0x00000000 }, { 8, 0xFF000000 }, { 8, 0x10000001 }, { 9, 0x63000001 }, { 9, 0x07000000 },
        { 9, 0x80000040 }, { 9, 0x01000000 }, { 10, 0x09000000 }, { 10, 0x48000001 }, { 10, 0x68000001 }, { 10, 0x88000040 },
        { 19, 0x6B000000 }, { 20, 0x0F000002 }, { 19, 0x4A000000 }, { 21, 0x4AFFFFFF }, { 12, 0x6B00000D }, { 12, 0x4A00000D },
        { 12, 0x6BFFFFFF }, { 12, 0x4AFFFFFE },
    };
    uint32_t k;
    size_t i;
    for (i = 0; i < sizeof faults / sizeof *faults; i++)
        for (k = 1; k <= 4; k++) {
            desk s = reader_b4(64, 1, 0, 0, 1); /* b4 set, so that it can be dropped at entry 1 too */
            table(&s, LIST(0x0F000000, 0x0F000001, 0x0F000000, 0x0F000001, 0x88000040));
            put(entry(&s.of[GROUP], k), faults[i].entry);
            reads(&s, 1, 5);
            refused(&s, "read, entry refusal", faults[i].refusal, k);
            leave(&s);
        }
    for (k = 0; k <= 65; k++) {
        desk s = reader(64, 1, 0, 0);
        table(&s, LIST(0x63000005, 0x63000004, 0x80000000 + k));
        reads(&s, 1, 3);
        if (k == 55) finished(&s, "skip 64 - 9"); else refused(&s, "read 13", 13, 3);
        leave(&s);
    }
}

/* 13, and behind it 23: every last that goes into 64 bytes beside a skip, and every count told by that skip, from 0 to 65 */
static void read_owed_early(void)
{
    uint32_t last, told;
    for (last = 1; last <= 24; last++)
        for (told = 0; told <= 65; told++) {
            desk s = reader(64, 1, 1, 9);
            table(&s, LIST(0x60000000 + last, 0x80000000 + told));
            reads(&s, 1, 2);
            if (told != 64 - last) refused(&s, "read 13 behind a last", 13, 2);
            else if (told >= 44) refused(&s, "read 23", 23, 2);
            else {
                finished(&s, "skip 40 to 43 behind a last");
                reader_is(&s, "skip 40 to 43 behind a last", 64, 2, 2, 9 + last);
            }
            leave(&s);
        }
}

/* the scan stops at the first entry that breaks a rule, whatever the numbers of later ones */
static void read_first_entry(void)
{
    desk s = reader(64, 1, 0, 0);
    table(&s, LIST(0x63000001, 0x63000000, 0x43000000, 0x80000000));
    reads(&s, 1, 4);
    refused(&s, "19 at 2 before 8 at 3", 19, 2);
    table(&s, LIST(0x6B000011, 0x07000000, 0x80000000));
    reads(&s, 1, 3);
    refused(&s, "9 at 2, after a keeping entry 1", 9, 2);
    table(&s, LIST(0x6B000015, 0x07000000, 0x80000000));
    reads(&s, 1, 3);
    refused(&s, "12 at 1 before 9 at 2", 12, 1);
    leave(&s);
    s = reader(64, 1, 1, 9);
    table(&s, LIST(0x60000019, 0x8000002C));
    reads(&s, 1, 2);
    refused(&s, "12 at 1 before 13 and 23 at 2", 12, 1);
    table(&s, LIST(0x60000000, 0x80000040));
    reads(&s, 1, 2);
    refused(&s, "19 at 1 before 23 at 2", 19, 1);
    leave(&s);
}

/* ---- Record: 1, 4, 14, 15, 16 */

static void record_order(void)
{
    static const uint32_t order[6] = { 1, 1, 4, 14, 15, 16 };
    uint32_t faults, i;
    for (faults = 0; faults < 64; faults++) {
        desk s = writer(64, faults & 8 ? 65536 : 9, 1, 40, 0, faults & 1 ? 1 : 0, 0, 30);
        if (faults & 4) relend(&s.of[GROUP], 65);
        offer(&s, faults & 16 ? 0 : faults & 32 ? 29 : 30);
        records(&s, faults & 2 ? 2 : 0);
        for (i = 0; i < 6 && !(faults >> i & 1); i++) { }
        if (i < 6) refused(&s, "record, order", order[i], 0);
        else closed(&s, "record, no fault", 9, 2, 24);
        leave(&s);
    }
}

static void record_refusals(void)
{
    static const size_t rests[] = { 1, 29, 31, 60, 16777215 };
    static const size_t groups[] = { 0, 1, 32, 63, 65, 128, 126632 };
    uint32_t phase;
    size_t i;
    for (phase = 0; phase < 3; phase++) {
        desk s = writer(64, 9, phase, phase * 40, 0, 0, 0, phase == 1 ? 30 : 0);
        records(&s, 0);
        refused(&s, "record of 0 bytes", 15, 0);
        records(&s, 1);
        refused(&s, "record of 0 bytes", 15, 0);
        offer(&s, 16777216);
        records(&s, 0);
        refused(&s, "record of 16,777,216 bytes", 15, 0);
        offer(&s, 30);
        for (i = 0; i < sizeof groups / sizeof *groups; i++) {
            relend(&s.of[GROUP], groups[i]);
            records(&s, 0);
            refused(&s, "record 4", 4, 0);
        }
        leave(&s);
        s = writer(64, 65536, phase, phase * 40, 0, 0, 0, phase == 1 ? 30 : 0);
        offer(&s, 30);
        records(&s, 0);
        refused(&s, "record 14", 14, 0);
        records(&s, 1);
        refused(&s, "record 14", 14, 0);
        leave(&s);
    }
    for (i = 0; i < sizeof rests / sizeof *rests; i++) {
        desk s = writer(64, 9, 1, 40, 0, 0, 0, 30);
        offer(&s, rests[i]);
        records(&s, 1);
        refused(&s, "record 16", 16, 0);
        leave(&s);
    }
}

/* ---- Separator: 1, 4, 14, 17, 18 */

static void separator_order(void)
{
    static const uint32_t order[6] = { 1, 1, 4, 14, 17, 18 };
    uint32_t faults, i;
    for (faults = 0; faults < 64; faults++) {
        uint32_t inside = faults & 16 ? 1 : 0;
        desk s = writer(64, faults & 8 ? 65536 : 9, inside, inside * 40, 0, 0, faults & 1 ? 2 : 0, inside * 30);
        if (faults & 4) relend(&s.of[GROUP], 65);
        separates(&s, faults & 32 ? 2 : 1, faults & 2 ? 2 : 0);
        for (i = 0; i < 6 && !(faults >> i & 1); i++) { }
        if (i < 6) refused(&s, "separator, order", order[i], 0);
        else finished(&s, "separator, no fault");
        leave(&s);
    }
}

static void separator_refusals(void)
{
    static const uint32_t values[] = { 2, 3, 255, 256, 257, 65536, 0x01000000, 0x80000000, 0xFFFFFFFF };
    size_t i;
    desk s = writer(64, 9, 0, 0, 5, 2, 1, 0), o = writer(64, 9, 2, 45, 0, 0, 0, 0);
    for (i = 0; i < sizeof values / sizeof *values; i++) {
        separates(&s, values[i], 0);
        refused(&s, "separator 18, free", 18, 0);
        separates(&o, values[i], 1);
        refused(&o, "separator 18, owed", 18, 0);
    }
    leave(&s);
    leave(&o);
    s = writer(64, 65536, 2, 45, 0, 0, 0, 0);
    separates(&s, 0, 0);
    refused(&s, "separator 14, owed", 14, 0);
    leave(&s);
    s = writer(64, 9, 1, 45, 0, 0, 0, 3);
    separates(&s, 0, 1);
    refused(&s, "separator 17", 17, 0);
    relend(&s.of[GROUP], 0);
    separates(&s, 0, 1);
    refused(&s, "separator 4", 4, 0);
    leave(&s);
}

/* ---- End: 1, 4, 17, 14 */

static void end_order(void)
{
    static const uint32_t order[4] = { 1, 1, 4, 0 };
    uint32_t faults, phase, none, i;
    for (phase = 0; phase < 3; phase++)
        for (none = 0; none < 2; none++)
            for (faults = 0; faults < 8; faults++) {
                uint32_t rest = (phase == 1 ? 30 : 0) + (faults & 1 ? 16777215 : 0);
                desk s = writer(64, none ? 65536 : 9, phase, phase * 40, 0, 0, 0, rest);
                if (faults & 4) relend(&s.of[GROUP], 65);
                ends(&s, faults & 2 ? 2 : 0);
                for (i = 0; i < 3 && !(faults >> i & 1); i++) { }
                if (i < 3) refused(&s, "end, order", order[i], 0);
                else if (phase == 1) refused(&s, "end inside", 17, 0);
                else if (phase == 2 && none) refused(&s, "end owed, no number remains", 14, 0);
                else if (phase == 2) closed(&s, "end owed", 9, 2, 0);
                else refused(&s, "end that closes nothing", 0, 0);
                leave(&s);
            }
}

int main(void)
{
    start_refusals();
    read_order();
    repeat_order();
    read_refusals();
    read_entry_refusals();
    read_owed_early();
    read_first_entry();
    record_order();
    record_refusals();
    separator_order();
    separator_refusals();
    end_order();
    return finish("refusals");
}
