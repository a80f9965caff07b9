/* Change request 2026-09 in plain C: a reader for blocks of one size, and where a block begins. The plain reading is model.c's.
   The rule of the block size is looked for by itself, over all entries, and then it is told which of the two comes first. Every
   number is 64 bits wide, so that none is cut and no count of blocks wraps round. */

#include <string.h>

#include "model.h"

typedef uint64_t num;

enum { READER_LEN = 24, BLOCKS_LEN = 28, ANSWER_LEN = 24, ROW_LEN = 12, MOST_ROWS = 31650 };

/* ---- Numbers and the answer */

static num get(const uint8_t *at) { return ((at[0] * (num)256 + at[1]) * 256 + at[2]) * 256 + at[3]; }

static void put(uint8_t *at, num n)
{
    at[0] = (uint8_t)(n / 16777216 % 256);
    at[1] = (uint8_t)(n / 65536 % 256);
    at[2] = (uint8_t)(n / 256 % 256);
    at[3] = (uint8_t)(n % 256);
}

static uint32_t told(uint8_t *answer, num refusal, num place, num outcome, num offset)
{
    put(answer, refusal);
    put(answer + 4, place);
    put(answer + 8, outcome);
    put(answer + 12, offset);
    put(answer + 16, 0);
    put(answer + 20, 0);
    return (uint32_t)refusal;
}

/* ---- "a block size is chosen at start, 1 to 16,777,215"; "50 block size out of range, at start after 3 (in a state, 1)" */

static int block_in_range(num block) { return block >= 1 && block <= 16777215; }

uint32_t MODEL(blocks_start)(uint32_t size, uint32_t first, uint32_t block, uint8_t *state, size_t state_len, uint8_t *answer,
                             size_t answer_len)
{
    if (state_len != BLOCKS_LEN || answer_len != ANSWER_LEN) return 1;
    if (size < 64 || size > 126632) return told(answer, 2, 0, 0, 0);
    if (first < 1 || first > 65535) return told(answer, 3, 0, 0, 0);
    if (!block_in_range(block)) return told(answer, 50, 0, 0, 0);
    memset(state, 0, BLOCKS_LEN);
    put(state, size);
    put(state + 4, first);
    put(state + READER_LEN, block);
    return told(answer, 0, 0, 0, 0);
}

/* ---- "every entire entry has that count, every total equals it, separators are allowed" */

/* the flags of entire and total, b4 clear and set */
static int is_whole_record(uint8_t flag) { return flag == 0x63 || flag == 0x6B || flag == 0x01 || flag == 0x09; }

/* the first entry of n with "another record length", 0 where there is none */
static num other_length(const uint8_t *group, num size, num n, num block)
{
    num k;
    for (k = 1; k <= n; k++) {
        const uint8_t *entry = group + size - 32 - 4 * k;
        if (is_whole_record(entry[0]) && get(entry) % 16777216 != block) return k;
    }
    return 0;
}

/* ".. at its entry after 13 and 23": a refusal of the reader at an entry before it, or at the same one, comes first */
uint32_t MODEL(blocks_read)(uint8_t *state, size_t state_len, const uint8_t *group, size_t group_len, uint32_t number,
                            uint32_t entries, uint8_t *rows, size_t rows_len, uint8_t *answer, size_t answer_len)
{
    static uint8_t spare[ROW_LEN * MOST_ROWS]; /* rows of the fullest group */
    uint8_t reader[READER_LEN], plain[ANSWER_LEN];
    num block, refusal, place, outcome, other;
    if (state_len != BLOCKS_LEN || answer_len != ANSWER_LEN) return 1;
    block = get(state + READER_LEN);
    if (!block_in_range(block)) return told(answer, 1, 0, 0, 0);
    memcpy(reader, state, READER_LEN);
    refusal = MODEL(read)(reader, READER_LEN, group, group_len, number, entries, spare,
                          rows_len < sizeof spare ? rows_len : sizeof spare, plain, ANSWER_LEN);
    place = get(plain + 4);
    outcome = get(plain + 8);
    if (refusal && place == 0) return told(answer, refusal, 0, 0, 0); /* no entry was looked at */
    if (outcome == 2) return told(answer, 0, 0, 2, 0);                /* nor of a repeat */
    other = other_length(group, group_len, entries, block);
    if (other && (refusal == 0 || other < place)) return told(answer, 51, other, 0, 0);
    if (refusal) return told(answer, refusal, place, 0, 0);
    memcpy(state, reader, READER_LEN);
    memcpy(rows, spare, ROW_LEN * (size_t)entries);
    return told(answer, 0, 0, 0, 0);
}

/* ---- "Blocks are numbered from 0 as they begin": each row that begins one is given its number, from `before` on */

uint32_t MODEL(blocks_find)(const uint8_t *rows, size_t rows_len, uint32_t before, uint32_t block, uint8_t *answer,
                            size_t answer_len)
{
    num numbered = before, left = rows_len;
    if (answer_len != ANSWER_LEN) return 1;
    for (; left >= ROW_LEN; left -= ROW_LEN, rows += ROW_LEN) {
        const num kind = get(rows);
        if (kind != 4 && kind != 6) continue; /* "counting whole start and entire rows alone" */
        if (numbered == block) return told(answer, 0, 0, 1, get(rows + 4));
        numbered++;
    }
    return told(answer, 0, 0, 0, 0);
}
