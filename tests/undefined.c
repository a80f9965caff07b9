/* For valgrind: no call may decide by bytes that it has no business with. Each worked example is made with memory that was never
   written where its text has bytes LENT: states at a start, answers, explanations, groups but their tables, rows, items, whatever
   is to be made or filled. Then whole runs are written and read back from such memory, each group followed by a repeat that was
   never written, and each read explained; and runs of blocks of one size, of which each is found. Without valgrind it shows only
   that the calls do their work. */

#include "examples.h"

/* bytes that were never written; volatile, so that the compiler does not know it */
static uint8_t *unwritten(size_t len)
{
    uint8_t *volatile never = memory(len);
    return never;
}

static void lend_unwritten(span *one, size_t len)
{
    free(one->at);
    one->at = unwritten(len);
    one->len = len;
}

static void free_all(span *lent)
{
    int i;
    for (i = 0; i < SLICES; i++) free(lent[i].at);
}

/* the call, over an answer or an explanation that was never written */
static void returns(uint32_t wanted, span *lent, int call, uint32_t a, uint32_t b, uint32_t c)
{
    const uint32_t numbers[MOST_NUMBERS] = { a, b, c };
    lend_unwritten(&lent[told_in(call)->which], told_in(call)->length);
    check(calls[call].library(numbers, lent) == wanted, calls[call].name, wanted ? "refused" : "accepted");
}

/* ---- The examples */

static void lend_business(const example *e, const worked *w, span *lent)
{
    const lent_slice *s;
    size_t i;
    for (s = calls[e->call].slices; s->which; s++) {
        lend_unwritten(&lent[s->which], w->len[s->which]);
        for (i = 0; i < w->len[s->which]; i++)
            if (w->before[s->which][i] != LENT) lent[s->which].at[i] = w->before[s->which][i];
    }
}

static void by_example(const example *e)
{
    const uint32_t *n = e->numbers, *wrong = e->wrong;
    const lent_slice *s;
    worked w = work_out(e);
    span lent[SLICES] = { { 0, 0 } };
    size_t i;
    lend_business(e, &w, lent);
    if (e->refusal) returns(e->refusal, lent, e->call, wrong[0], wrong[1], wrong[2]);
    returns(told_after(e, &w), lent, e->call, n[0], n[1], n[2]);
    for (s = calls[e->call].slices; s->which; s++)
        for (i = 0; i < w.len[s->which]; i++)
            if (w.after[s->which][i] != LENT) check(lent[s->which].at[i] == w.after[s->which][i], calls[e->call].name, "bytes");
    free_all(lent);
    forget(&w);
}

/* ---- Whole runs */

/* a group of this number of which no byte was ever written is a repeat */
static void read_again(span *reading, uint32_t number)
{
    lend_unwritten(&reading[GROUP], reading[GROUP].len);
    returns(0, reading, EXPLAIN, number, 0, 0);
    returns(0, reading, READ, number, 0, 0);
    check(get(reading[ANSWER].at + DDS_ANSWER_OUTCOME) == DDS_OUTCOME_REPEAT, calls[READ].name, "a repeat");
}

/* where the last call of the writing closed a group, it is read; then the writing has a group and the reading rows anew */
static int read_closed(span *writing, span *reading)
{
    const uint8_t *answer = writing[ANSWER].at;
    uint32_t number = get(answer + DDS_ANSWER_NUMBER), entries = get(answer + DDS_ANSWER_ENTRIES);
    if (get(answer + DDS_ANSWER_OUTCOME) != DDS_OUTCOME_CLOSED) return 0;
    free(reading[GROUP].at);
    reading[GROUP] = writing[GROUP];
    writing[GROUP].at = unwritten(writing[GROUP].len);
    lend_unwritten(&reading[ROWS], DDS_ROW_LEN * (size_t)entries);
    returns(DDS_REFUSED_NUMBER, reading, READ, number + 1, entries, 0);
    returns(DDS_REFUSED_NUMBER, reading, EXPLAIN, number + 1, entries, 0);
    check(get_long(reading[EXPLANATION].at + DDS_EXPLANATION_FOUND) == number + 1, calls[EXPLAIN].name, "found");
    returns(0, reading, EXPLAIN, number, entries, 0);
    returns(0, reading, READ, number, entries, 0);
    read_again(reading, number);
    return 1;
}

/* records, separators and an end over groups of this size, written and read back */
static void run_of(uint32_t size)
{
    span writing[SLICES] = { { 0, 0 } }, reading[SLICES] = { { 0, 0 } };
    uint32_t k;
    int groups = 0;
    lend_unwritten(&writing[STATE], DDS_WRITER_LEN);
    lend_unwritten(&reading[STATE], DDS_READER_LEN);
    lend_unwritten(&writing[GROUP], size);
    returns(0, writing, WRITER_START, size, 1, 0);
    returns(0, reading, READER_START, size, 1, 0);
    for (k = 0; k < 8; k++) {
        int inside = get(writing[STATE].at + DDS_STATE_PHASE) == DDS_PHASE_INSIDE;
        lend_unwritten(&writing[DATA], inside ? get(writing[STATE].at + DDS_STATE_REST) : k < 3 ? 3 * size - 100 : 5);
        returns(0, writing, RECORD, k == 6, 0, 0);
        groups += read_closed(writing, reading);
        if (get(writing[STATE].at + DDS_STATE_PHASE) == DDS_PHASE_INSIDE) continue;
        returns(0, writing, SEPARATOR, k % 2, 0, 0);
        groups += read_closed(writing, reading);
    }
    returns(0, writing, END, 0, 0, 0);
    groups += read_closed(writing, reading);
    check(groups >= 3, "groups", "three or more are closed");
    free_all(writing);
    free_all(reading);
}

/* ---- Runs of blocks */

/* where the last call of the writing closed a group, it is read in blocks and each block that begins in it is found; how many
   blocks begin up to its end */
static uint32_t find_closed(span *writing, span *reading, uint32_t before)
{
    const uint8_t *answer = writing[ANSWER].at;
    uint32_t number = get(answer + DDS_ANSWER_NUMBER), entries = get(answer + DDS_ANSWER_ENTRIES), block = before;
    if (get(answer + DDS_ANSWER_OUTCOME) != DDS_OUTCOME_CLOSED) return before;
    free(reading[GROUP].at);
    reading[GROUP] = writing[GROUP];
    writing[GROUP].at = unwritten(writing[GROUP].len);
    lend_unwritten(&reading[ROWS], DDS_ROW_LEN * (size_t)entries);
    returns(DDS_REFUSED_NUMBER, reading, BLOCKS_READ, number + 1, entries, 0);
    returns(0, reading, BLOCKS_READ, number, entries, 0);
    do returns(0, reading, BLOCKS_FIND, before, block++, 0);
    while (get(reading[ANSWER].at + DDS_ANSWER_OUTCOME) == DDS_OUTCOME_BEGINS);
    lend_unwritten(&reading[GROUP], reading[GROUP].len);
    returns(0, reading, BLOCKS_READ, number, 0, 0);
    check(get(reading[ANSWER].at + DDS_ANSWER_OUTCOME) == DDS_OUTCOME_REPEAT, calls[BLOCKS_READ].name, "a repeat");
    return block - 1;
}

/* eight blocks of this size over groups of this size, written, read back and found */
static void blocks_of(uint32_t size, uint32_t block)
{
    span writing[SLICES] = { { 0, 0 } }, reading[SLICES] = { { 0, 0 } };
    uint32_t begun = 0, left = 8;
    lend_unwritten(&writing[STATE], DDS_WRITER_LEN);
    lend_unwritten(&reading[STATE], DDS_BLOCKS_STATE_LEN);
    lend_unwritten(&writing[GROUP], size);
    returns(0, writing, WRITER_START, size, 1, 0);
    returns(0, reading, BLOCKS_START, size, 1, block);
    while (left) {
        int inside = get(writing[STATE].at + DDS_STATE_PHASE) == DDS_PHASE_INSIDE;
        uint32_t rest = inside ? get(writing[STATE].at + DDS_STATE_REST) : block;
        lend_unwritten(&writing[DATA], rest);
        returns(0, writing, RECORD, left == 2, 0, 0);
        begun = find_closed(writing, reading, begun);
        if (get(writing[ANSWER].at + DDS_ANSWER_OUTCOME) == DDS_OUTCOME_FINISHED
            || get(writing[ANSWER].at + DDS_ANSWER_TAKEN) == rest) left--;
    }
    returns(0, writing, END, 0, 0, 0);
    begun = find_closed(writing, reading, begun);
    check(begun == 8, "blocks", "each is found");
    check(get(reading[STATE].at + DDS_STATE_PHASE) == DDS_PHASE_FREE, "blocks", "each is finished");
    free_all(writing);
    free_all(reading);
}

int main(void)
{
    size_t i;
    for (i = 0; i < sizeof examples / sizeof *examples; i++) by_example(&examples[i]);
    run_of(64);
    run_of(4096);
    run_of(DDS_SIZE_STANDARD);
    blocks_of(64, 9);
    blocks_of(64, 45);
    blocks_of(DDS_SIZE_STANDARD, 100000);
    return finish("undefined");
}
