/* Sub Data Blocks by hand: the worked header, a block of each row of Table 3, every refusal of both calls and their order,
   frame numbers. Every slice is compared before and after; expected bytes are worked out from change request 2026-01 and source
   document 003, 9.4.9. */

#include "guard.h"

/* Pack IDs of `pack`; at each place its own bytes: place k holds the byte k + 1 and then 10, 20, .. 70 */
static desk laid(uint8_t pack)
{
    desk d = desk_for(SUBDATA_MAKE);
    size_t i;
    memset(d.of[PACKS].at, pack, DDS_PACKS_LEN);
    for (i = 0; i < DDS_ITEMS_LEN; i++) d.of[ITEMS].at[i] = (uint8_t)(i % 8 == 0 ? i / 8 + 1 : 0x10 * (i % 8));
    return d;
}

static void makes(desk *d, uint32_t area, uint32_t frame) { make(d, SUBDATA_MAKE, area, frame, 0); }
static void reads(desk *d, uint32_t area, uint32_t frame) { make(d, SUBDATA_READ, area, frame, 0); }

/* what stands at place k */
static const uint8_t *place(const slice *items, size_t k) { return items->at + 8 * k; }

static void blank(desk *d)
{
    static const int which[] = { PACKS, ITEMS, NUMBERS, ANSWER };
    size_t i;
    for (i = 0; i < sizeof which / sizeof *which; i++) memset(d->of[which[i]].at, LENT, d->of[which[i]].len);
}

/* ---- The worked header, and a block of each row of Table 3 */

static void table_three(void)
{
    static const struct { uint32_t area, frame, block; uint8_t pack; const char *header; uint32_t numbers[3]; } rows[] = {
        /* even, Pack ID 6 */
        { 12, 300, 0, 6, "C8 E0 28", { 1, 2, 3 } }, { 4, 80, 14, 6, "48 EE A6", { 1, 2, 3 } },
        { 10, 71, 4, 6, "A8 E4 4C", { 5, 7, 3 } }, { 2, 95, 6, 6, "28 E6 CE", { 5, 7, 3 } },
        { 10, 70, 8, 6, "A8 E8 40", { 3, 3, 3 } }, { 2, 96, 10, 6, "28 EA C2", { 3, 3, 3 } },
        { 1, 80, 2, 6, "18 E2 FA", { 3, 3, 3 } }, { 9, 5, 12, 6, "98 EC 74", { 3, 3, 3 } },
        { 5, 80, 0, 6, "58 E0 B8", { 3, 3, 3 } }, { 13, 9000, 4, 6, "D8 E4 3C", { 3, 3, 3 } },
        /* even, Pack ID 7 */
        { 12, 71, 2, 7, "C8 F2 3A", { 1, 2, 3 } }, { 4, 0, 6, 7, "48 F6 BE", { 1, 2, 3 } },
        { 10, 95, 10, 7, "A8 FA 52", { 5, 7, 3 } }, { 2, 83, 0, 7, "28 F0 D8", { 5, 7, 3 } },
        { 10, 96, 14, 7, "A8 FE 56", { 3, 3, 3 } }, { 2, 0, 8, 7, "28 F8 D0", { 3, 3, 3 } },
        { 1, 71, 4, 7, "18 F4 EC", { 3, 3, 3 } }, { 9, 95, 6, 7, "98 F6 6E", { 3, 3, 3 } },
        { 5, 71, 12, 7, "58 FC A4", { 3, 3, 3 } }, { 13, 95, 10, 7, "D8 FA 22", { 3, 3, 3 } },
        /* odd, Pack ID 6 */
        { 12, 71, 1, 6, "00 81 81", { 1, 2, 4 } }, { 10, 71, 3, 6, "00 83 83", { 6, 8, 4 } },
        { 2, 70, 5, 6, "00 85 85", { 4, 4, 4 } }, { 9, 71, 7, 6, "00 87 87", { 4, 4, 4 } },
        { 5, 95, 9, 6, "00 89 89", { 4, 4, 4 } },
        /* odd, Pack ID 7 */
        { 4, 95, 11, 7, "00 8B 8B", { 1, 2, 4 } }, { 2, 95, 13, 7, "00 8D 8D", { 6, 8, 4 } },
        { 10, 96, 15, 7, "00 8F 8F", { 4, 4, 4 } }, { 1, 95, 1, 7, "00 81 81", { 4, 4, 4 } },
        { 13, 71, 3, 7, "00 83 83", { 4, 4, 4 } },
    };
    size_t i, p;
    for (i = 0; i < sizeof rows / sizeof *rows; i++) {
        desk d = laid(rows[i].pack);
        size_t len;
        uint8_t *header = bytes(rows[i].header, &len), close[8];
        const uint8_t *block = d.of[TRACK].at + 35 * rows[i].block, *lent = place(&d.of[ITEMS], 4 * rows[i].block);
        const uint8_t *numbers = d.of[NUMBERS].at + 16 * rows[i].block;
        memcpy(close, lent + 24, 8);
        if (rows[i].block % 2 == 0 && rows[i].pack == 6) memset(close, 0, 8);
        makes(&d, rows[i].area, rows[i].frame);
        accepted(&d, "table 3");
        check(len == 3 && memcmp(block, header, 3) == 0, "table 3", "header");
        check(memcmp(block + 3, lent, 24) == 0, "table 3", "items");
        check(memcmp(block + 27, close, 8) == 0, "table 3", "close");
        for (p = 0; p < 4; p++) check(get(numbers + 4 * p) == (p < 3 ? rows[i].numbers[p] : 0), "table 3", "numbers");
        blank(&d);
        reads(&d, rows[i].area, rows[i].frame);
        accepted(&d, "table 3, read");
        for (p = 0; p < 8; p++) check(d.of[PACKS].at[p] == rows[i].pack, "table 3, read", "Pack IDs");
        check(memcmp(lent, block + 3, 32) == 0, "table 3, read", "items and close");
        for (p = 0; p < 4; p++) check(get(numbers + 4 * p) == (p < 3 ? rows[i].numbers[p] : 0), "table 3, read", "numbers");
        free(header);
        leave(&d);
    }
}

/* ---- Making: 30, 32, 33 */

static void make_refusals(void)
{
    static const uint32_t allowed[] = { 1, 2, 4, 5, 9, 10, 12, 13 };
    static const uint32_t large[] = { 16 + 12, 256 + 12, 65536 + 12, 0x1000000C, 0x8000000C, 0xFFFFFFFF };
    uint32_t area, pack, block, faults;
    size_t i;
    for (area = 0; area < 16; area++) {
        desk d = laid(6);
        int may = 0;
        for (i = 0; i < 8; i++) may |= allowed[i] == area;
        makes(&d, area, 300);
        if (may) accepted(&d, "make, area"); else refused(&d, "make, area", 32, 0);
        leave(&d);
    }
    for (i = 0; i < sizeof large / sizeof *large; i++) {
        desk d = laid(7);
        makes(&d, large[i], 300);
        refused(&d, "make, an area above four bits", 32, 0);
        leave(&d);
    }
    for (pack = 0; pack < 256; pack++)
        for (block = 0; block < 16; block += 2) {
            desk d = laid(7);
            d.of[PACKS].at[block / 2] = (uint8_t)pack;
            if (block < 14) d.of[PACKS].at[7] = 5; /* a later one is not told first */
            makes(&d, 12, 300);
            if (pack != 6 && pack != 7) refused(&d, "make, Pack ID", 33, block);
            else if (block < 14) refused(&d, "make, the last Pack ID", 33, 14);
            else accepted(&d, "make, Pack ID");
            leave(&d);
        }
    for (faults = 0; faults < 8; faults++) { /* 30, 32, 33 in this order */
        desk d = laid(7);
        if (faults & 1) relend(&d.of[TRACK], 559);
        if (faults & 4) d.of[PACKS].at[3] = 8;
        makes(&d, faults & 2 ? 8 : 9, 1);
        if (faults & 1) refused(&d, "make, order", 30, 0);
        else if (faults & 2) refused(&d, "make, order", 32, 0);
        else if (faults & 4) refused(&d, "make, order", 33, 6);
        else accepted(&d, "make, no fault");
        leave(&d);
    }
}

/* ---- Reading: 31 to 34, each at each block, and in this order */

enum { OF_PARITY = 1, OF_SW1 = 2, OF_SW2 = 4, OF_CLOSE = 8 };

/* spoils a block; where parity is not the fault it is put right again */
static void spoil(uint8_t *block, unsigned faults, uint8_t sw1, uint8_t sw2)
{
    if (faults & OF_SW1) block[0] ^= sw1;
    if (faults & OF_SW2) block[1] ^= sw2;
    block[2] = block[0] ^ block[1];
    if (faults & OF_PARITY) block[2] ^= 0x10;
    if (faults & OF_CLOSE) block[30] = 1;
}

static uint32_t first_of(unsigned faults)
{
    return faults & OF_PARITY ? 31 : faults & OF_SW1 ? 32 : faults & OF_SW2 ? 33 : faults & OF_CLOSE ? 34 : 0;
}

static desk made_track(uint8_t pack, uint32_t area)
{
    desk d = laid(pack);
    makes(&d, area, 300);
    blank(&d);
    return d;
}

static void read_order(void)
{
    uint32_t block, later;
    unsigned faults, more;
    for (block = 0; block < 16; block++)
        for (faults = 1; faults < 16; faults++) {
            desk d = made_track(6, 12);
            uint32_t wanted;
            if (block % 2 && faults == OF_CLOSE) { leave(&d); continue; } /* an odd block's close is C1, whatever it holds */
            spoil(d.of[TRACK].at + 35 * block, faults, 0x40, 0x01);
            wanted = first_of(block % 2 ? faults & ~(unsigned)OF_CLOSE : faults);
            reads(&d, 12, 300);
            refused(&d, "read, order at a block", wanted, block);
            for (later = block + 1; later < 16; later += 5)
                for (more = 1; more < 8; more++) { /* whatever a later block has is not told */
                    spoil(d.of[TRACK].at + 35 * later, more, 0x08, 0x80);
                    reads(&d, 12, 300);
                    refused(&d, "read, a later block", wanted, block);
                }
            leave(&d);
        }
}

static void read_refusals(void)
{
    uint32_t block, i, area;
    uint8_t byte;
    for (block = 0; block < 16; block++) {
        for (i = 0; i < 256; i++) { /* every SW1, every SW2 and every parity */
            desk d = made_track(7, 13);
            uint8_t *at = d.of[TRACK].at + 35 * block, sw1 = at[0], sw2 = at[1];
            at[0] = (uint8_t)i;
            at[2] = at[0] ^ at[1];
            reads(&d, 13, 300);
            if (i == (block % 2 ? 0x00u : 0xD8u)) accepted(&d, "read, SW1"); else refused(&d, "read, SW1", 32, block);
            blank(&d);
            at[0] = sw1;
            at[1] = (uint8_t)i;
            at[2] = at[0] ^ at[1];
            reads(&d, 13, 300);
            if (block % 2 == 0 && i == 0xE0 + block) refused(&d, "read, Pack ID 6 over a close that is not zero", 34, block);
            else if (i == (block % 2 ? 0x80 : 0xF0) + block) accepted(&d, "read, SW2");
            else refused(&d, "read, SW2", 33, block);
            blank(&d);
            at[1] = sw2;
            at[2] = (uint8_t)i;
            reads(&d, 13, 300);
            if (i == (uint32_t)(sw1 ^ sw2)) accepted(&d, "read, parity"); else refused(&d, "read, parity", 31, block);
            leave(&d);
        }
        for (i = 27; i < 35; i++) /* each byte of a close with Pack ID 6 */
            for (byte = 1; byte; byte = (uint8_t)(byte * 2)) {
                desk d = made_track(6, 9);
                d.of[TRACK].at[35 * block + i] = byte;
                reads(&d, 9, 300);
                if (block % 2) accepted(&d, "read, C1 bytes are carried"); else refused(&d, "read, close", 34, block);
                leave(&d);
            }
    }
    for (area = 0; area < 20; area++) { /* another area than the track's, allowed or not, the Device Area's too */
        desk d = made_track(6, 10);
        reads(&d, area, 80);
        if (area == 10) accepted(&d, "read, area"); else refused(&d, "read, area", 32, 0);
        leave(&d);
        d = made_track(7, 1);
        for (block = 0; block < 16; block += 2) {
            d.of[TRACK].at[35 * block] = (uint8_t)(16 * area + 8);
            d.of[TRACK].at[35 * block + 2] = d.of[TRACK].at[35 * block] ^ d.of[TRACK].at[35 * block + 1];
        }
        reads(&d, area, 80);
        if (area % 8 == 1 || area % 8 == 2 || area % 8 == 4 || area % 8 == 5) {
            if (area < 16) accepted(&d, "read, each area"); else refused(&d, "read, an area above four bits", 32, 0);
        } else {
            refused(&d, "read, an area that is not allowed", 32, 0);
        }
        leave(&d);
    }
}

/* ---- Frames */

/* any frame number is taken: the log is 71 to 95 and nothing else */
static void frames(void)
{
    static const uint32_t frame[] = { 0, 1, 70, 71, 72, 94, 95, 96, 256 + 71, 65536 + 80, 0x80000047, 0x1000005F, 0xFFFFFFFF };
    size_t i;
    for (i = 0; i < sizeof frame / sizeof *frame; i++) {
        desk d = laid(6);
        uint32_t wanted = frame[i] >= 71 && frame[i] <= 95 ? 5 : 3;
        makes(&d, 2, frame[i]);
        accepted(&d, "frame");
        check(get(d.of[NUMBERS].at) == wanted, "frame", "make");
        blank(&d);
        reads(&d, 2, frame[i]);
        accepted(&d, "frame");
        check(get(d.of[NUMBERS].at) == wanted, "frame", "read");
        leave(&d);
    }
}

int main(void)
{
    table_three();
    make_refusals();
    read_order();
    read_refusals();
    frames();
    return finish("track");
}
