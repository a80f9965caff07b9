/* Change request 2026-01 and source document 003, 9.4.9, in plain C, in the documents' order. It is written to be read beside
   them, not to be fast: numbers are 64 bits wide and headers are sums, not shifts. */

#include "model.h"

typedef uint64_t num;

/* ---- 9.4.9.1.1: Area IDs, and SW1 */

static int area_allowed(num area)
{
    switch (area) {
    case 1: case 9: return 1;  /* X001 : Reference Area */
    case 2: case 10: return 1; /* X010 : System Area */
    case 4: case 12: return 1; /* X100 : Data Area */
    case 5: case 13: return 1; /* X101 : EOD Area */
    }
    return 0;                  /* 0000, the Device Area, and what the standard prohibits */
}

static int is_odd(num block) { return block % 2 == 1; }

static num sw1_of(num area, num block) { return is_odd(block) ? 0 : 16 * area + 8; }

/* ---- 9.4.9.1.2: SW2 */

static int pack_allowed(num pack) { return pack == 6 || pack == 7; }

static num sw2_of(num pack, num block) { return is_odd(block) ? 128 + block : 128 + 16 * pack + block; }

/* ---- 9.4.9.1.3: parity, bit by bit */

static num parity_of(num a, num b)
{
    num bit, parity = 0;
    for (bit = 1; bit < 256; bit *= 2)
        if (a / bit % 2 != b / bit % 2) parity += bit;
    return parity;
}

/* ---- 9.4.9.4: Table 3, by block, area and frame; p is 0, 1, 2 for the items and 3 for the close */

static num item_number(num block, num p, num area, num frame)
{
    static const num data[2][4] = { { 1, 2, 3, 0 }, { 1, 2, 4, 0 } };
    static const num log[2][4] = { { 5, 7, 3, 0 }, { 6, 8, 4, 0 } };
    static const num other[2][4] = { { 3, 3, 3, 0 }, { 4, 4, 4, 0 } };
    if (area == 4 || area == 12) return data[is_odd(block)][p];
    if ((area == 2 || area == 10) && 70 < frame && frame < 96) return log[is_odd(block)][p];
    return other[is_odd(block)][p];
}

/* ---- The slices */

static void put(uint8_t *at, num n)
{
    at[0] = (uint8_t)(n / 16777216);
    at[1] = (uint8_t)(n / 65536 % 256);
    at[2] = (uint8_t)(n / 256 % 256);
    at[3] = (uint8_t)(n % 256);
}

static uint32_t answered(uint8_t *answer, num refusal, num place)
{
    num i;
    put(answer, refusal);
    put(answer + 4, place);
    for (i = 2; i < 6; i++) put(answer + 4 * i, 0);
    return (uint32_t)refusal;
}

static int lengths_right(size_t track, size_t packs, size_t items, size_t numbers)
{
    return track == 560 && packs == 8 && items == 512 && numbers == 256;
}

static void fill_numbers(uint8_t *numbers, num area, num frame)
{
    num block, p;
    for (block = 0; block < 16; block++)
        for (p = 0; p < 4; p++) put(numbers + 4 * (4 * block + p), item_number(block, p, area, frame));
}

uint32_t MODEL(subdata_make)(uint32_t area, uint32_t frame, const uint8_t *packs, size_t packs_len, const uint8_t *items,
                             size_t items_len, uint8_t *track, size_t track_len, uint8_t *numbers, size_t numbers_len,
                             uint8_t *answer, size_t answer_len)
{
    num block, i;
    if (answer_len != 24) return 1;
    if (!lengths_right(track_len, packs_len, items_len, numbers_len)) return answered(answer, 30, 0);
    if (!area_allowed(area)) return answered(answer, 32, 0);
    for (block = 0; block < 16; block += 2)
        if (!pack_allowed(packs[block / 2])) return answered(answer, 33, block);
    for (block = 0; block < 16; block++) {
        num pack = packs[block / 2], sw1 = sw1_of(area, block), sw2 = sw2_of(pack, block);
        uint8_t *at = track + 35 * block;
        at[0] = (uint8_t)sw1;
        at[1] = (uint8_t)sw2;
        at[2] = (uint8_t)parity_of(sw1, sw2);
        for (i = 0; i < 24; i++) at[3 + i] = items[32 * block + i];
        for (i = 0; i < 8; i++) at[27 + i] = !is_odd(block) && pack == 6 ? 0 : items[32 * block + 24 + i];
    }
    fill_numbers(numbers, area, frame);
    return answered(answer, 0, 0);
}

/* the number of a block's fault, 0 if it has none */
static num fault_of(num area, num block, const uint8_t *at)
{
    num i;
    if (at[2] != parity_of(at[0], at[1])) return 31;
    if (is_odd(block) ? at[0] != 0 : !area_allowed(area) || at[0] != sw1_of(area, block)) return 32;
    if (is_odd(block) ? at[1] != sw2_of(0, block) : at[1] != sw2_of(6, block) && at[1] != sw2_of(7, block)) return 33;
    if (!is_odd(block) && at[1] == sw2_of(6, block))
        for (i = 0; i < 8; i++)
            if (at[27 + i] != 0) return 34;
    return 0;
}

uint32_t MODEL(subdata_read)(uint32_t area, uint32_t frame, const uint8_t *track, size_t track_len, uint8_t *packs,
                             size_t packs_len, uint8_t *items, size_t items_len, uint8_t *numbers, size_t numbers_len,
                             uint8_t *answer, size_t answer_len)
{
    num block, i;
    if (answer_len != 24) return 1;
    if (!lengths_right(track_len, packs_len, items_len, numbers_len)) return answered(answer, 30, 0);
    for (block = 0; block < 16; block++) {
        num fault = fault_of(area, block, track + 35 * block);
        if (fault != 0) return answered(answer, fault, block);
    }
    for (block = 0; block < 16; block++) {
        const uint8_t *at = track + 35 * block;
        if (!is_odd(block)) packs[block / 2] = at[1] == sw2_of(6, block) ? 6 : 7;
        for (i = 0; i < 32; i++) items[32 * block + i] = at[3 + i];
    }
    fill_numbers(numbers, area, frame);
    return answered(answer, 0, 0);
}
