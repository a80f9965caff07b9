/* The third code by hand: worked columns, every row and every pair of rows restored, every row mended, columns beyond mending,
   every refusal and its order. Every slice is compared before and after; the worked columns follow from change request 2026-08 by
   hand, as said beside them. */

#include "guard.h"

enum { LEN = 5 }; /* the row length of most tests */

static desk lent_rows(size_t row_len)
{
    desk d = desk_for(THIRD_MAKE);
    relend(&d.of[ROWS], DDS_THIRD_ROWS * row_len);
    return d;
}

static void broken(const desk *d, const char *name) { answer_is(d, name, 0, 0, DDS_OUTCOME_BROKEN, 0, 0, 0); }

/* ---- Worked columns: one byte 01 in row r, all other data 0. With k = 45 - r the check bytes p and q have p + q = 1 and
   alpha p + q = alpha^k, so (alpha + 1) p = alpha^k + 1 and p = 1 + alpha + .. + alpha^(k - 1). Up to k = 8 that is k ones;
   alpha^8 is 1D, alpha^9 3A, alpha^10 74. */

static void worked(void)
{
    static const struct { uint32_t row; uint8_t p, q; } columns[] = {
        { 43, 0x03, 0x02 }, { 42, 0x07, 0x06 }, { 41, 0x0F, 0x0E }, { 40, 0x1F, 0x1E }, { 39, 0x3F, 0x3E }, { 38, 0x7F, 0x7E },
        { 37, 0xFF, 0xFE }, { 36, 0xFF ^ 0x1D, 0xFE ^ 0x1D }, { 35, 0xFF ^ 0x1D ^ 0x3A, 0xFE ^ 0x1D ^ 0x3A },
        { 34, 0xFF ^ 0x1D ^ 0x3A ^ 0x74, 0xFE ^ 0x1D ^ 0x3A ^ 0x74 },
    };
    size_t k, i;
    for (k = 0; k < sizeof columns / sizeof *columns; k++) {
        desk d = lent_rows(1);
        memset(d.of[ROWS].at, 0, 44);
        d.of[ROWS].at[columns[k].row] = 1;
        make(&d, THIRD_MAKE, 1, 0, 0);
        accepted(&d, "worked column");
        check(d.of[ROWS].at[44] == columns[k].p && d.of[ROWS].at[45] == columns[k].q, "worked column", "check bytes");
        for (i = 0; i < 44; i++) check(d.of[ROWS].at[i] == twin_at(&d.of[ROWS])[i], "worked column", "data stay");
        make(&d, THIRD_CHECK, 1, 0, 0);
        accepted(&d, "worked column, checked");
        leave(&d);
    }
}

/* ---- Written rows: random data, and check rows by make */

static uint32_t seed = 2026;
static uint8_t chance(void) { seed = seed * 1664525u + 1013904223u; return (uint8_t)(seed >> 24); }

static desk written(size_t row_len)
{
    desk d = lent_rows(row_len);
    size_t i;
    for (i = 0; i < d.of[ROWS].len; i++) d.of[ROWS].at[i] = chance();
    make(&d, THIRD_MAKE, (uint32_t)row_len, 0, 0);
    accepted(&d, "written rows");
    check(memcmp(d.of[ROWS].at, twin_at(&d.of[ROWS]), 44 * row_len) == 0, "written rows", "data stay");
    make(&d, THIRD_CHECK, (uint32_t)row_len, 0, 0);
    accepted(&d, "written rows, checked");
    return d;
}

static void spoil(desk *d, size_t row_len, size_t row)
{
    size_t c;
    for (c = 0; c < row_len; c++) d->of[ROWS].at[row * row_len + c] = chance();
}

static void every_row_and_pair(void)
{
    desk d = written(LEN);
    uint8_t whole[46 * LEN];
    uint32_t a, b;
    memcpy(whole, d.of[ROWS].at, sizeof whole);
    for (a = 0; a < 46; a++) {
        spoil(&d, LEN, a);
        make(&d, RESTORE_ONE, LEN, a, 0);
        accepted(&d, "one row");
        check(memcmp(d.of[ROWS].at, whole, sizeof whole) == 0, "one row", "as written");
        for (b = 0; b < 46; b++) {
            if (a == b) continue;
            spoil(&d, LEN, a);
            spoil(&d, LEN, b);
            make(&d, RESTORE_TWO, LEN, a, b);
            accepted(&d, "two rows");
            check(memcmp(d.of[ROWS].at, whole, sizeof whole) == 0, "two rows", "as written");
        }
    }
    leave(&d);
}

static void every_row_mended(void)
{
    desk d = written(LEN);
    uint8_t whole[46 * LEN];
    uint32_t i, c, x;
    memcpy(whole, d.of[ROWS].at, sizeof whole);
    make(&d, THIRD_MEND, LEN, 0, 0);
    accepted(&d, "mend nothing");
    check(kept(&d.of[ROWS]), "mend nothing", "as it was");
    for (i = 0; i < 46; i++)
        for (x = 1 + i % 7; x < 256; x += 7) {
            for (c = 0; c < LEN; c++) d.of[ROWS].at[(i + 7 * c) % 46 * LEN + c] ^= (uint8_t)(c % 2 ? x : 256 - x);
            make(&d, THIRD_CHECK, LEN, 0, 0);
            broken(&d, "check");
            make(&d, THIRD_MEND, LEN, 0, 0);
            accepted(&d, "mend");
            check(memcmp(d.of[ROWS].at, whole, sizeof whole) == 0, "mend", "as written");
        }
    leave(&d);
}

/* Two rows of one column changed by the same byte: the bytes add to zero still, the weighted ones do not, so that no single
   change mends. Other columns have one wrong byte, which then stays too. */
static void hopeless(void)
{
    uint32_t c, i;
    for (c = 0; c < LEN; c++)
        for (i = 1; i < 46; i++) {
            desk d = written(LEN);
            d.of[ROWS].at[c] ^= 0x40;
            d.of[ROWS].at[i * LEN + c] ^= 0x40;
            d.of[ROWS].at[(c + 1) % LEN] ^= 1;
            if (c + 2 < LEN) { d.of[ROWS].at[3 * LEN + c + 2] ^= 9; d.of[ROWS].at[8 * LEN + c + 2] ^= 9; }
            make(&d, THIRD_MEND, LEN, 0, 0);
            refused(&d, "a column beyond mending", 43, c);
            make(&d, THIRD_CHECK, LEN, 0, 0);
            broken(&d, "a column beyond mending");
            leave(&d);
        }
}

/* ---- Refusals and their order */

static void lengths(void)
{
    static const struct { uint32_t row_len; size_t rows_len; } wrong[] = {
        { 0, 0 }, { 0, 46 }, { 1, 45 }, { 1, 47 }, { 1, 0 }, { 5, 46 }, { 1, 230 }, { 4, 230 }, { 6, 230 }, { 0x80000001u, 46 },
        { 0x0590B217u, 34 }, { 0x0590B216u, 0 }, { 0xFFFFFFFFu, 46 },
    };
    size_t k;
    int call;
    for (k = 0; k < sizeof wrong / sizeof *wrong; k++)
        for (call = THIRD_MAKE; call <= THIRD_MEND; call++) {
            desk d = lent_rows(0);
            relend(&d.of[ROWS], wrong[k].rows_len);
            make(&d, call, wrong[k].row_len, 50, 50);
            refused(&d, calls[call].name, 40, 0);
            leave(&d);
        }
}

static void rows_named(void)
{
    static const struct { uint32_t a, b, refusal; } pairs[] = {
        { 46, 0, 41 }, { 0, 46, 41 }, { 50, 50, 41 }, { 0xFFFFFFFFu, 3, 41 }, { 3, 0x80000000u, 41 }, { 0, 0, 42 },
        { 45, 45, 42 }, { 44, 44, 42 },
    };
    size_t k;
    for (k = 0; k < sizeof pairs / sizeof *pairs; k++) {
        desk d = written(LEN);
        make(&d, RESTORE_TWO, LEN, pairs[k].a, pairs[k].b);
        refused(&d, "two named rows", pairs[k].refusal, 0);
        if (pairs[k].a > 45) {
            make(&d, RESTORE_ONE, LEN, pairs[k].a, 0);
            refused(&d, "one named row", 41, 0);
        }
        leave(&d);
    }
}

int main(void)
{
    worked();
    every_row_and_pair();
    every_row_mended();
    hopeless();
    lengths();
    rows_named();
    return finish("third");
}
