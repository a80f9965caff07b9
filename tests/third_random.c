/* Rows at random, compared with the model: made, then with bytes and rows spoiled, checked, restored and mended; and right and
   wrong lengths and rows. COUNT is how many buffers: third_random [COUNT]. */

#include "pair.h"

/* a call on rows of this length, over an answer of any bytes */
static uint32_t both_third(desk *d, int call, uint32_t row_len, uint32_t first, uint32_t second)
{
    fill(&d->of[ANSWER]);
    return both(d, call, row_len, first, second);
}

/* bytes changed in some columns, mostly one a column */
static void spoil(uint8_t *rows, uint32_t row_len)
{
    uint32_t c;
    for (c = 0; c < row_len; c++) {
        if (one_in(3)) continue;
        rows[below(DDS_THIRD_ROWS) * row_len + c] ^= (uint8_t)rnd();
        if (one_in(8)) rows[below(DDS_THIRD_ROWS) * row_len + c] ^= (uint8_t)rnd();
    }
}

static uint32_t some_row(void) { return one_in(20) ? 44 + below(6) : one_in(200) ? rnd() : below(46); }

static void some_rows(desk *d)
{
    static const int mends[] = { RESTORE_ONE, RESTORE_TWO, THIRD_MEND, THIRD_MEND };
    uint32_t row_len = 1 + below(6), first = some_row(), second = one_in(20) ? first : some_row();
    resize(&d->of[ROWS], DDS_THIRD_ROWS * row_len);
    resize(&d->of[ANSWER], one_in(60) ? below(40) : DDS_ANSWER_LEN);
    fill(&d->of[ROWS]);
    if (both_third(d, THIRD_MAKE, row_len, 0, 0) == 0 && !one_in(4)) spoil(d->of[ROWS].at, row_len);
    both_third(d, THIRD_CHECK, row_len, 0, 0);
    both_third(d, mends[below(4)], row_len, first, second);
    both_third(d, THIRD_CHECK, row_len, 0, 0);
}

/* a row length and a buffer's that have nothing to do with each other */
static void other_lengths(desk *d)
{
    resize(&d->of[ROWS], below(300));
    resize(&d->of[ANSWER], DDS_ANSWER_LEN);
    fill(&d->of[ROWS]);
    both_third(d, THIRD_MAKE + (int)below(5), below(8), some_row(), some_row());
}

int main(int argc, char **argv)
{
    static const uint32_t refusals[] = { 0, 1, 40, 41, 42, 43 };
    long count = count_of(argc, argv, 20000), i;
    desk d = desk_of_pairs(THIRD_MAKE, DDS_THIRD_ROWS * 8);
    for (i = 0; i < count; i++) {
        some_rows(&d);
        if (one_in(5)) other_lengths(&d);
    }
    leave(&d);
    came_up(count, 2000, sizeof refusals / sizeof *refusals, refusals);
    return finish_pairs("third_random");
}
