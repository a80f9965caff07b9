/* Change request 2026-08 in plain C, in the request's order. It is written to be read beside it, not to be fast: no tables and no
   logarithms. Bytes are polynomials, multiplied and then divided by x^8 + x^4 + x^3 + x^2 + 1; lost and wrong bytes are found by
   trying every value until both rules hold. */

#include <string.h>

#include "model.h"

typedef uint64_t num;

/* ---- "The field is bytes modulo x^8 + x^4 + x^3 + x^2 + 1 with alpha = 2." */

static num product(num a, num b)
{
    num whole = 0, bit;
    for (bit = 0; bit < 8; bit++)
        if (a >> bit & 1) whole ^= b << bit;
    for (bit = 15; bit >= 8; bit--)
        if (whole >> bit & 1) whole ^= (num)0x11D << (bit - 8);
    return whole;
}

/* ---- "In each column the 46 bytes add to zero, and so do the bytes of rows i, from 0 to 45, times alpha^(45 - i)." */

/* both sums over all rows but a and b, from the last row, whose weight is 1; the weights of a and b on the way */
typedef struct { num first, second, weight_a, weight_b; } sums;

static sums sums_without(const uint8_t column[46], num a, num b)
{
    sums s = { 0, 0, 0, 0 };
    num i, weight = 1;
    for (i = 46; i-- > 0; weight = product(weight, 2)) {
        if (i == a) s.weight_a = weight;
        else if (i == b) s.weight_b = weight;
        else { s.first ^= column[i]; s.second ^= product(column[i], weight); }
    }
    return s;
}

static int keeps_rules(const uint8_t column[46])
{
    sums s = sums_without(column, 46, 46);
    return s.first == 0 && s.second == 0;
}

static void take_column(const uint8_t *rows, num row_len, num c, uint8_t column[46])
{
    num i;
    for (i = 0; i < 46; i++) column[i] = rows[i * row_len + c];
}

static void put_column(uint8_t *rows, num row_len, num c, const uint8_t column[46])
{
    num i;
    for (i = 0; i < 46; i++) rows[i * row_len + c] = column[i];
}

/* the byte that makes the 46 add to zero */
static uint8_t rest_of(const uint8_t column[46], num row)
{
    num i;
    uint8_t sum = 0;
    for (i = 0; i < 46; i++) if (i != row) sum ^= column[i];
    return sum;
}

/* every byte tried in one row, the other being what is left, until both rules hold */
static void try_both(uint8_t column[46], num a, num b)
{
    sums s = sums_without(column, a, b);
    num byte;
    for (byte = 0; byte < 256; byte++) {
        num other = s.first ^ byte;
        if (s.second != (product(byte, s.weight_a) ^ product(other, s.weight_b))) continue;
        column[a] = (uint8_t)byte;
        column[b] = (uint8_t)other;
        return;
    }
}

/* every row tried, with the one byte that may be right in it */
static int try_each(uint8_t column[46])
{
    num i;
    if (keeps_rules(column)) return 1;
    for (i = 0; i < 46; i++) {
        sums s = sums_without(column, i, i);
        if (s.second != product(s.first, s.weight_a)) continue;
        column[i] = (uint8_t)s.first;
        return 1;
    }
    return 0;
}

/* ---- Answers and refusals */

static uint32_t answered(uint8_t *answer, num refusal, num place, num outcome)
{
    memset(answer, 0, 24);
    answer[3] = (uint8_t)refusal;
    answer[4] = (uint8_t)(place >> 24); answer[5] = (uint8_t)(place >> 16);
    answer[6] = (uint8_t)(place >> 8); answer[7] = (uint8_t)place;
    answer[11] = (uint8_t)outcome;
    return (uint32_t)refusal;
}

static int rows_wrong(num row_len, num rows_len) { return row_len == 0 || rows_len != 46 * row_len; }

uint32_t MODEL(third_restore_two)(uint32_t row_len, uint32_t first, uint32_t second, uint8_t *rows, size_t rows_len,
                                  uint8_t *answer, size_t answer_len)
{
    uint8_t column[46];
    num c;
    if (answer_len != 24) return 1;
    if (rows_wrong(row_len, rows_len)) return answered(answer, 40, 0, 0);
    if (first > 45 || second > 45) return answered(answer, 41, 0, 0);
    if (first == second) return answered(answer, 42, 0, 0);
    for (c = 0; c < row_len; c++) {
        take_column(rows, row_len, c, column);
        try_both(column, first, second);
        put_column(rows, row_len, c, column);
    }
    return answered(answer, 0, 0, 0);
}

uint32_t MODEL(third_make)(uint32_t row_len, uint8_t *rows, size_t rows_len, uint8_t *answer, size_t answer_len)
{
    return MODEL(third_restore_two)(row_len, 44, 45, rows, rows_len, answer, answer_len);
}

uint32_t MODEL(third_check)(uint32_t row_len, const uint8_t *rows, size_t rows_len, uint8_t *answer, size_t answer_len)
{
    uint8_t column[46];
    num c;
    if (answer_len != 24) return 1;
    if (rows_wrong(row_len, rows_len)) return answered(answer, 40, 0, 0);
    for (c = 0; c < row_len; c++) {
        take_column(rows, row_len, c, column);
        if (!keeps_rules(column)) return answered(answer, 0, 0, 1);
    }
    return answered(answer, 0, 0, 0);
}

uint32_t MODEL(third_restore_one)(uint32_t row_len, uint32_t row, uint8_t *rows, size_t rows_len, uint8_t *answer,
                                  size_t answer_len)
{
    uint8_t column[46];
    num c;
    if (answer_len != 24) return 1;
    if (rows_wrong(row_len, rows_len)) return answered(answer, 40, 0, 0);
    if (row > 45) return answered(answer, 41, 0, 0);
    for (c = 0; c < row_len; c++) {
        take_column(rows, row_len, c, column);
        rows[row * (num)row_len + c] = rest_of(column, row);
    }
    return answered(answer, 0, 0, 0);
}

uint32_t MODEL(third_mend)(uint32_t row_len, uint8_t *rows, size_t rows_len, uint8_t *answer, size_t answer_len)
{
    uint8_t column[46];
    num c;
    if (answer_len != 24) return 1;
    if (rows_wrong(row_len, rows_len)) return answered(answer, 40, 0, 0);
    for (c = 0; c < row_len; c++) {
        take_column(rows, row_len, c, column);
        if (!try_each(column)) return answered(answer, 43, c, 0);
    }
    for (c = 0; c < row_len; c++) {
        take_column(rows, row_len, c, column);
        try_each(column);
        put_column(rows, row_len, c, column);
    }
    return answered(answer, 0, 0, 0);
}
