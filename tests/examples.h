/* Worked examples of every call, one at least, for examples.c, examples_random.c and undefined.c. Their bytes are worked out by
   hand from the documents. */

#ifndef EXAMPLES_H
#define EXAMPLES_H

#include "guard.h"

/* ---- The examples. Each slice of the call in its order, the answer or the explanation last: what it holds before, LENT bytes
   where no text is given, and what after, the same where none is given. A byte LENT before is one that the call has no business
   with: undefined.c lends memory there that was never written. A text may end before zeros that fill the slice to its own length.
   Other numbers are given too where numbers can be wrong, with their refusal: all slices must then stay but the last. */

typedef struct {
    int call;
    uint32_t numbers[MOST_NUMBERS], wrong[MOST_NUMBERS], refusal;
    struct { const char *before, *after; } slices[MOST_SLICES];
} example;

#define PACK_IDS "07 06 07 07 07 07 06 07"
#define BLOCKS "A8 F0 58 EE*32, 00 81 81 EE*32, A8 E2 4A EE*24 00*8, 00 83 83 EE*32, A8 F4 5C EE*32, 00 85 85 EE*32," \
               "A8 F6 5E EE*32, 00 87 87 EE*32, A8 F8 50 EE*32, 00 89 89 EE*32, A8 FA 52 EE*32, 00 8B 8B EE*32," \
               "A8 EC 44 EE*24 00*8, 00 8D 8D EE*32, A8 FE 56 EE*32, 00 8F 8F EE*32"
#define TWO_BLOCKS "00*3 05 00*3 07 00*3 03 00*4, 00*3 06 00*3 08 00*3 04 00*4,"
#define ITEM_NUMBERS TWO_BLOCKS TWO_BLOCKS TWO_BLOCKS TWO_BLOCKS TWO_BLOCKS TWO_BLOCKS TWO_BLOCKS TWO_BLOCKS
#define BEGINNING_ROWS "00*3 05 EE*8, 00*3 01 EE*8, 00*3 06 00*3 06 EE*4, 00*3 02 EE*8, 00*3 04 00*3 13 EE*4, EE*11"
#define WRITTEN_ROWS "00*215 01*5 03*5 02*5" /* 46 rows of 5 bytes; 01 in row 43 alone has check bytes 03 and 02, as in third.c */
#define FIELD_BYTES "01 02 2E 10 03 A0-BF"
#define VOLUME_BYTES "00*3 01 02 2E 10 03 A0-BF 00*32"
#define TWO_FLAGS "00*8 00 00 00 02 00 00 00 0C 00 10 00 00 00 00 01 00"

static const example examples[] = {
    { READER_START, { 64, 0x1234 }, { 63, 0 }, 2, { { 0, "00 00 00 40 00 00 12 34" }, { 0, "00" } } },
    { WRITER_START, { 126632, 65535 }, { 63, 0 }, 2, { { 0, "00 01 EE A8 00 00 FF FF" }, { 0, "00" } } },
    /* a separator and a skip; the first part of P4, and its last part with the total; that last part where no record is open */
    { READ, { 7, 2 }, { 6, 0 }, 5, { { "00*3 40 00*3 07", "00*3 40 00*3 08 00*12 00*3 01" },
        { "EE*24 80 00 00 40 07 00 00 01 EE*32", 0 },
        { "EE*24", "00*3 02 00*4 00*3 01 00*3 07 00*4 00*3 40" }, { 0, "00" } } },
    { READ, { 1, 2 }, { 2, 9 }, 5, { { "00*3 40 00*3 01", "00*3 40 00*3 02 00*3 01 00*3 18 00*4 00*3 01" },
        { "EE*24 80 00 00 28 42 00 00 18 EE*32", 0 },
        { "EE*24", "00*3 04 00*4 00*3 18 00*3 07 00*3 18 00*3 28" }, { 0, "00" } } },
    { READ, { 2, 3 }, { 2, 0 }, 6, {
        { "00*3 40 00*3 02 00*3 01 00*3 18 00*4 00*3 01", "00*3 40 00*3 03 00*12 00*3 01" },
        { "EE*20 80 00 00 2C 01 00 00 2C 60 00 00 14 EE*32", 0 },
        { "EE*36", "00*3 05 00*4 00*3 14 00*3 01 00*3 14 00*3 2C 00*3 07 00*3 14 00*3 2C" }, { 0, "00" } } },
    { READ, { 3, 3 }, { 2, 3 }, 5, { { "00*3 40 00*3 03", 0 }, { "EE*20 80 00 00 2C 01 00 00 2C 60 00 00 14 EE*32", 0 },
        { "EE*36", 0 }, { 0, "00 00 00 0A 00 00 00 01" } } },
    /* the last part of P5, whose total is owed; that of P4, owed too early */
    { READ, { 2, 2 }, { 3, 2 }, 5, {
        { "00*3 40 00*3 02 00*3 01 00*3 18 00*4 00*3 01", "00*3 40 00*3 03 00*3 02 00*3 2D 00*4 00*3 01" },
        { "EE*24 80 00 00 2B 60 00 00 15 EE*32", 0 },
        { "EE*24", "00*3 05 00*4 00*3 15 00*3 07 00*3 15 00*3 2B" }, { 0, "00" } } },
    { READ, { 2, 2 }, { 2, 9 }, 6, { { "00*3 40 00*3 02 00*3 01 00*3 18 00*4 00*3 01", 0 },
        { "EE*24 80 00 00 2C 60 00 00 14 EE*32", 0 }, { "EE*24", 0 }, { 0, "00 00 00 17 00 00 00 02" } } },
    /* b4 goes on from the group before, and goes out */
    { READ, { 7, 2 }, { 8, 0 }, 5, { { "00*3 40 00*3 07 00*8 00*3 01", "00*3 40 00*3 08 00*8 00*3 01 00*3 01" },
        { "EE*24 88 00 00 40 0F 00 00 01 EE*32", 0 }, { "EE*24", "00*3 02 00*4 00*3 01 00*3 07 00*4 00*3 40" }, { 0, "00" } } },
    { READ, { 7, 2 }, { 7, 9 }, 6, { { "00*3 40 00*3 07 00*8 00*3 01", 0 }, { "EE*24 88 00 00 40 07 00 00 01 EE*32", 0 },
        { "EE*24", 0 }, { 0, "00 00 00 09 00 00 00 01" } } },
    /* repeats, of which nothing is looked at: inside a record, and where a total is owed with b4 set and no number remains */
    { READ, { 1, 2 }, { 0, 2 }, 5, { { "00*3 40 00*3 02 00*3 01 00*3 18 00*4 00*3 01", 0 }, { "EE*64", 0 }, { 0, 0 },
        { 0, "00*8 00 00 00 02" } } },
    { READ, { 65535, 0 }, { 65536, 1 }, 5, { { "00*3 40 00 01 00*2 00*3 02 00*3 2D 00*3 01 00*3 01", 0 }, { "EE*64", 0 },
        { 0, 0 }, { 0, "00*8 00 00 00 02" } } },
    /* reads explained: accepted; a total of 43 that should be 44; a last where no record is open; a separator at entry n; b4 that
       goes out; flag 43; the last part of P4, owed too early; 23 bytes of rows for two entries; a repeat; no number remains */
    { EXPLAIN, { 7, 2 }, { 6, 0 }, 5, { { "00*3 40 00*3 07", 0 }, { "EE*24 80 00 00 40 07 00 00 01 EE*32", 0 }, { "EE*24", 0 },
        { 0, "00" } } },
    { EXPLAIN, { 2, 3 }, { 2, 0 }, 6, { { "00*3 40 00*3 02 00*3 01 00*3 18 00*4 00*3 01", 0 },
        { "EE*20 80 00 00 2C 01 00 00 2B 60 00 00 14 EE*32", 0 }, { "EE*36", 0 },
        { 0, "00*7 16 00*7 02 00*7 18 00*7 2B 00*7 2C 00*7 2C" } } },
    { EXPLAIN, { 3, 3 }, { 2, 3 }, 5, { { "00*3 40 00*3 03", 0 }, { "EE*28 60 00 00 14 EE*32", 0 }, { "EE*36", 0 },
        { 0, "00*7 0A 00*7 01 00*7 1C 00*7 05 00*16 00*7 2A" } } },
    { EXPLAIN, { 7, 2 }, { 8, 2 }, 5, { { "00*3 40 00*3 07", 0 }, { "EE*24 07 00 00 00 07 00 00 01 EE*32", 0 }, { "EE*24", 0 },
        { 0, "00*7 0A 00*7 02 00*7 18 00*7 02 00*16 00*7 40" } } },
    { EXPLAIN, { 7, 2 }, { 7, 9 }, 6, { { "00*3 40 00*3 07 00*8 00*3 01", 0 }, { "EE*28 07 00 00 01 EE*32", 0 },
        { "EE*24", 0 }, { 0, "00*7 09 00*7 01 00*7 1C 00*8 00*7 01 00*7 01" } } },
    { EXPLAIN, { 1, 2 }, { 2, 9 }, 5, { { "00*3 40 00*3 01", 0 }, { "EE*28 43 00 00 14 EE*32", 0 }, { "EE*24", 0 },
        { 0, "00*7 08 00*7 01 00*7 1C 00*7 43" } } },
    { EXPLAIN, { 2, 2 }, { 2, 9 }, 6, { { "00*3 40 00*3 02 00*3 01 00*3 18 00*4 00*3 01", 0 },
        { "EE*24 80 00 00 2C 60 00 00 14 EE*32", 0 }, { "EE*24", 0 },
        { 0, "00*7 17 00*7 02 00*7 18 00*7 2C 00*8 00*7 2B" } } },
    { EXPLAIN, { 7, 2 }, { 7, 9 }, 6, { { "00*3 40 00*3 07", 0 }, { "EE*64", 0 }, { "EE*23", 0 },
        { 0, "00*7 07 00*16 00*7 17 00*7 18 FF*8 00*8" } } },
    { EXPLAIN, { 1, 2 }, { 0, 2 }, 5, { { "00*3 40 00*3 02 00*3 01 00*3 18 00*4 00*3 01", 0 }, { "EE*64", 0 }, { 0, 0 },
        { 0, "00" } } },
    { EXPLAIN, { 3, 0 }, { 65536, 1 }, 5, { { "00*3 40 00 01 00*2 00*3 02 00*3 2D 00*3 01 00*3 01", 0 }, { "EE*64", 0 },
        { 0, 0 }, { 0, "00*7 05 00*16 00*7 03 00*7 01" } } },
    /* starts of blocks, and one whose block size is out of range; the wrong numbers are refused with 50, 3 and 2 */
    { BLOCKS_START, { 64, 0x1234, 9 }, { 64, 1, 0 }, 50, { { 0, "00 00 00 40 00 00 12 34 00*16 00 00 00 09" }, { 0, "00" } } },
    { BLOCKS_START, { 126632, 65535, 16777215 }, { 64, 0, 0 }, 3, { { 0, "00 01 EE A8 00 00 FF FF 00*16 00 FF FF FF" },
        { 0, "00" } } },
    { BLOCKS_START, { 64, 1, 16777216 }, { 63, 0, 16777216 }, 2, { { 0, 0 }, { 0, "00 00 00 32" } } },
    /* an entire record of the block size, and one of another length behind it; a start that is longer than the block; the total
       of P5, owed, which is the block size and which is not; the total of P4, which is not its sum; a repeat */
    { BLOCKS_READ, { 7, 2 }, { 6, 0 }, 5, {
        { "00*3 40 00*3 07 00*16 00*3 09", "00*3 40 00*3 08 00*12 00*3 01 00*3 09" },
        { "EE*24 80 00 00 37 63 00 00 09 EE*32", 0 },
        { "EE*24", "00*3 06 00*4 00*3 09 00*3 07 00*3 09 00*3 37" }, { 0, "00" } } },
    { BLOCKS_READ, { 7, 3 }, { 7, 9 }, 6, { { "00*3 40 00*3 07 00*16 00*3 09", 0 },
        { "EE*20 80 00 00 2F 63 00 00 08 63 00 00 09 EE*32", 0 }, { "EE*36", 0 }, { 0, "00 00 00 33 00 00 00 02" } } },
    { BLOCKS_READ, { 1, 2 }, { 2, 9 }, 5, {
        { "00*3 40 00*3 01 00*16 00*3 09", "00*3 40 00*3 02 00*3 01 00*3 18 00*4 00*3 01 00*3 09" },
        { "EE*24 80 00 00 28 42 00 00 18 EE*32", 0 },
        { "EE*24", "00*3 04 00*4 00*3 18 00*3 07 00*3 18 00*3 28" }, { 0, "00" } } },
    { BLOCKS_READ, { 3, 2 }, { 3, 0 }, 6, {
        { "00*3 40 00*3 03 00*3 02 00*3 2D 00*4 00*3 01 00*3 2D", "00*3 40 00*3 04 00*12 00*3 01 00*3 2D" },
        { "EE*24 80 00 00 40 01 00 00 2D EE*32", 0 },
        { "EE*24", "00*3 01 00*4 00*3 2D 00*3 07 00*4 00*3 40" }, { 0, "00" } } },
    { BLOCKS_READ, { 3, 2 }, { 4, 2 }, 5, { { "00*3 40 00*3 03 00*3 02 00*3 2D 00*4 00*3 01 00*3 2C", 0 },
        { "EE*24 80 00 00 40 01 00 00 2D EE*32", 0 }, { "EE*24", 0 }, { 0, "00 00 00 33 00 00 00 01" } } },
    { BLOCKS_READ, { 2, 3 }, { 2, 0 }, 6, { { "00*3 40 00*3 02 00*3 01 00*3 18 00*4 00*3 01 00*3 2B", 0 },
        { "EE*20 80 00 00 2C 01 00 00 2B 60 00 00 14 EE*32", 0 }, { "EE*36", 0 }, { 0, "00 00 00 16 00 00 00 02" } } },
    { BLOCKS_READ, { 1, 2 }, { 0, 2 }, 5, { { "00*3 40 00*3 02 00*3 01 00*3 18 00*4 00*3 01 00*3 09", 0 }, { "EE*64", 0 },
        { 0, 0 }, { 0, "00*8 00 00 00 02" } } },
    /* rows of a last, a total, an entire record, a separator and a start, and 11 bytes: blocks 7 and 8 begin, 6 and 9 do not; no
       row at all */
    { BLOCKS_FIND, { 7, 7 }, { 0 }, 0, { { BEGINNING_ROWS, 0 }, { 0, "00*8 00 00 00 01 00 00 00 06" } } },
    { BLOCKS_FIND, { 7, 8 }, { 0 }, 0, { { BEGINNING_ROWS, 0 }, { 0, "00*8 00 00 00 01 00 00 00 13" } } },
    { BLOCKS_FIND, { 7, 6 }, { 0 }, 0, { { BEGINNING_ROWS, 0 }, { 0, "00" } } },
    { BLOCKS_FIND, { 7, 9 }, { 0 }, 0, { { BEGINNING_ROWS, 0 }, { 0, "00" } } },
    { BLOCKS_FIND, { 0, 0 }, { 0 }, 0, { { 0, 0 }, { 0, "00" } } },
    /* an entire record of 5; 24 of 44 bytes, which close the group; the 20 that are left, with b4 */
    { RECORD, { 0 }, { 2 }, 1, { { "00*3 40 00*3 07 00*8 00*3 03 00*3 01", "00*3 40 00*3 07 00*8 00*3 08 00*3 02" },
        { "EE*64", "EE*3 01-05 EE*16 63 00 00 05 EE*36" }, { "01-05", 0 }, { 0, "00" } } },
    { RECORD, { 0 }, { 2 }, 1, { { "00*3 40 00*3 01", "00*3 40 00*3 02 00*3 01 00*3 18 00*12 00*3 14" },
        { "EE*64", "01-18 80 00 00 28 42 00 00 18 EE*32" }, { "01+44", 0 }, { 0, "00*8 00*3 01 00*3 01 00*3 02 00*3 18" } } },
    { RECORD, { 1 }, { 256 }, 1, {
        { "00*3 40 00*3 02 00*3 01 00*3 18 00*12 00*3 14", "00*3 40 00*3 02 00*8 00*3 14 00*3 02 00*3 01" },
        { "EE*64", "19-2C EE*4 09 00 00 2C 68 00 00 14 EE*32" }, { "19-2C", 0 }, { 0, "00" } } },
    /* a separator laid, and one that closes the group; an end that closes a group, and one that has nothing to close */
    { SEPARATOR, { 1, 0 }, { 2, 2 }, 1, { { "00*3 40 00*3 07 00*8 00*3 03 00*3 01", "00*3 40 00*3 07 00*8 00*3 03 00*3 02" },
        { "EE*64", "EE*24 07 00 00 01 EE*36" }, { 0, "00" } } },
    { SEPARATOR, { 0, 1 }, { 2, 0 }, 18, { { "00*3 40 00*3 07 00*8 00*3 15 00*3 01", "00*3 40 00*3 08 00*16 00*3 01" },
        { "EE*64", "EE*21 00*3 88 00 00 2B EE*36" }, { 0, "00*8 00*3 01 00*3 07 00*3 02" } } },
    { END, { 0 }, { 2 }, 1, { { "00*3 40 00*3 07 00*8 00*3 03 00*3 01", "00*3 40 00*3 08" },
        { "EE*64", "EE*3 00*21 80 00 00 3D EE*36" }, { 0, "00*8 00*3 01 00*3 07 00*3 02" } } },
    { END, { 1 }, { 2 }, 1, { { "00*3 40 00*3 01", 0 }, { "EE*64", 0 }, { 0, "00" } } },
    /* a whole track of the System Area's log; in another area it is refused; a wrong Pack ID, a wrong parity */
    { SUBDATA_MAKE, { 10, 72 }, { 0, 72 }, 32, { { PACK_IDS, 0 }, { 0, 0 }, { 0, BLOCKS }, { 0, ITEM_NUMBERS },
        { 0, "00" } } },
    { SUBDATA_READ, { 10, 72 }, { 0, 72 }, 32, { { BLOCKS, 0 }, { 0, PACK_IDS }, { 0, "EE*88 00*8 EE*312 00*8 EE*96" },
        { 0, ITEM_NUMBERS }, { 0, "00" } } },
    { SUBDATA_READ, { 5, 72 }, { 26, 72 }, 32, { { BLOCKS, 0 }, { 0, 0 }, { 0, 0 }, { 0, 0 }, { 0, "00 00 00 20" } } },
    { SUBDATA_MAKE, { 12, 9 }, { 8, 9 }, 32, { { "06 06 05 07*5", 0 }, { 0, 0 }, { 0, 0 }, { 0, 0 },
        { 0, "00 00 00 21 00 00 00 04" } } },
    { SUBDATA_READ, { 12, 9 }, { 8, 9 }, 31, { { "C8 E0 29 EE*557", 0 }, { 0, 0 }, { 0, 0 }, { 0, 0 }, { 0, "00 00 00 1F" } } },
    /* rows made, checked, restored and mended; a row length that does not fit; a broken column, and column 2 beyond mending */
    { THIRD_MAKE, { 5 }, { 0 }, 40, { { "00*215 01*5 EE*10", WRITTEN_ROWS }, { 0, "00" } } },
    { THIRD_MAKE, { 6 }, { 4 }, 40, { { WRITTEN_ROWS, 0 }, { 0, "00 00 00 28" } } },
    { THIRD_CHECK, { 5 }, { 0 }, 40, { { WRITTEN_ROWS, 0 }, { 0, "00" } } },
    { THIRD_CHECK, { 5 }, { 6 }, 40, { { "00*214 01*6 03*5 02*5", 0 }, { 0, "00*8 00 00 00 01" } } },
    { RESTORE_ONE, { 5, 0 }, { 5, 46 }, 41, { { "EE*5 00*210 01*5 03*5 02*5", WRITTEN_ROWS }, { 0, "00" } } },
    { RESTORE_ONE, { 5, 45 }, { 5, 0xFFFFFFFF }, 41, { { "00*215 01*5 03*5 EE*5", WRITTEN_ROWS }, { 0, "00" } } },
    { RESTORE_TWO, { 5, 45, 0 }, { 5, 50, 50 }, 41, { { "EE*5 00*210 01*5 03*5 EE*5", WRITTEN_ROWS }, { 0, "00" } } },
    { RESTORE_TWO, { 5, 43, 44 }, { 5, 44, 44 }, 42, { { "00*215 EE*10 02*5", WRITTEN_ROWS }, { 0, "00" } } },
    { THIRD_MEND, { 5 }, { 0 }, 40, { { "44 00*214 01*5 03*5 02*4 57", WRITTEN_ROWS }, { 0, "00" } } },
    { THIRD_MEND, { 5 }, { 4 }, 40, { { "01 00 40 00*4 40 00*207 01*5 03*5 02*5", 0 }, { 0, "00 00 00 2B 00 00 00 02" } } },
    { VOLUME_MAKE, { 0 }, { 0 }, 0, { { FIELD_BYTES, 0 }, { 0, VOLUME_BYTES }, { 0, "00" } } },
    { VOLUME_READ, { 0 }, { 0 }, 0, { { VOLUME_BYTES, 0 }, { 0, FIELD_BYTES }, { 0, "00" } } },
    { ALERT_MAKE, { 0x00100000, 0x00000100 }, { 0 }, 0, { { 0, "00 10 00*4 01 00" }, { 0, TWO_FLAGS } } },
    { ALERT_READ, { 0 }, { 0 }, 0, { { "00 10 00*4 01 00", 0 }, { 0, TWO_FLAGS } } },
    /* a start whose length byte ends the bytes, and one that has none */
    { RADIO_FIND, { 0 }, { 0 }, 0, { { "00 00 00 B2 4D EE", 0 }, { 0, "00*8 00 00 00 01 00 00 00 02 00 00 00 05" } } },
    { RADIO_FIND, { 0 }, { 0 }, 0, { { "00 00 00 B2 4D", 0 }, { 0, "00" } } },
};

/* ---- An example's bytes, by the names of its slices */

typedef struct { uint8_t *before[SLICES], *after[SLICES]; size_t len[SLICES]; } worked;

static inline uint8_t *text_bytes(const char *text, size_t own, size_t *len)
{
    uint8_t *found = bytes(text ? text : "", len), *whole;
    if (*len >= own) return found;
    whole = memory(own);
    memset(whole, text ? 0 : LENT, own);
    memcpy(whole, found, *len);
    free(found);
    *len = own;
    return whole;
}

static inline worked work_out(const example *e)
{
    const lent_slice *s;
    worked w;
    int i;
    for (i = 0; i < SLICES; i++) w.before[i] = w.after[i] = 0;
    for (s = calls[e->call].slices, i = 0; s->which; s++, i++) {
        size_t len;
        const char *after = e->slices[i].after ? e->slices[i].after : e->slices[i].before;
        w.before[s->which] = text_bytes(e->slices[i].before, own_length(s), &w.len[s->which]);
        w.after[s->which] = text_bytes(after, own_length(s), &len);
        check(len == w.len[s->which], calls[e->call].name, "an example's texts are of one length");
    }
    return w;
}

/* the refusal that stands in the last slice after it */
static inline uint32_t told_after(const example *e, const worked *w)
{
    return (uint32_t)told_number(e->call, w->after[told_in(e->call)->which], 0);
}

static inline void forget(worked *w)
{
    int i;
    for (i = 0; i < SLICES; i++) { free(w->before[i]); free(w->after[i]); }
}

#endif
