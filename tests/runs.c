/* Whole runs at random: records, separators and ends written by the library and the model side by side, every call
   compared; then each run read by both, with repeats among its groups and totals put off too early, and what the rows give
   compared with what was written, after each group and at the end. Half the runs are read from the model's groups. COUNT is
   how many runs: runs [COUNT]. */

#include "groups.h"
#include "pair.h"

#define MOST_ITEMS 64
#define MOST_BYTES (1 << 20)

typedef struct { int separator; uint32_t count, at; } item; /* a separator's value, or a record's length and place */
typedef struct { item items[MOST_ITEMS]; uint32_t n, bytes; uint8_t *pool; } account;
typedef struct { uint32_t number, entries; uint8_t *image; } closed_group;

static account written;
static closed_group *groups;
static uint32_t group_count, group_most, laid; /* items wholly laid, the last one's total perhaps owed */
static uint32_t seldom; /* one call in so many says warn */

static void failed(const char *what, uint32_t a, uint32_t b)
{
    if (failures++ < 10) fprintf(stderr, "  %s: %u, %u after %ld calls\n", what, a, b, compared);
}

/* puts the closed group away, and lends a buffer that holds something else */
static void put_away(desk *d, int from_model)
{
    const uint8_t *answer = d->of[ANSWER].at;
    if (group_count == group_most) {
        group_most = group_most ? 2 * group_most : 64;
        groups = realloc(groups, group_most * sizeof *groups);
        if (!groups) exit(2);
    }
    groups[group_count].number = get(answer + DDS_ANSWER_NUMBER);
    groups[group_count].entries = get(answer + DDS_ANSWER_ENTRIES);
    groups[group_count].image = memory(d->of[GROUP].len);
    memcpy(groups[group_count].image, from_model ? twin_at(&d->of[GROUP]) : d->of[GROUP].at, d->of[GROUP].len);
    group_count++;
    memset(d->of[GROUP].at, (int)below(256), d->of[GROUP].len);
}

static uint32_t outcome_of(const desk *d) { return get(d->of[ANSWER].at + DDS_ANSWER_OUTCOME); }
static int closes(const desk *d) { return outcome_of(d) == DDS_OUTCOME_CLOSED; }
static uint32_t phase_of(const desk *d) { return get(d->of[STATE].at + DDS_STATE_PHASE); }

static uint32_t length(uint32_t size)
{
    switch (below(5)) {
    case 0: return 1 + below(8);
    case 1: return size - 46 + below(10);
    case 2: return 2 * size - 90 + below(16);
    case 3: return 1 + below(6 * size);
    default: return 1 + below(size);
    }
}

/* one item offered until it is laid; 0 where the run stops, refused 14 or broken off */
static int offers(desk *d, uint32_t size, int from_model)
{
    item *it = &written.items[written.n];
    uint32_t warn = one_in(seldom), refusal, i, taken = 0;
    it->separator = one_in(3);
    it->count = it->separator ? below(2) : length(size);
    it->at = written.bytes;
    if (!it->separator) {
        if (it->count + written.bytes > MOST_BYTES) return 0;
        for (i = 0; i < it->count; i++) written.pool[it->at + i] = (uint8_t)rnd();
        written.bytes += it->count;
    }
    written.n++;
    for (;;) {
        if (it->separator) {
            refusal = both(d, SEPARATOR, it->count, warn, 0);
        } else {
            resize(&d->of[DATA], it->count - taken);
            memcpy(d->of[DATA].at, written.pool + it->at + taken, it->count - taken);
            refusal = both(d, RECORD, warn, 0, 0);
        }
        if (refusal == 14) return 0;
        if (refusal) { failed("a lawful call was refused", refusal, 0); return 0; }
        if (!closes(d)) break;
        taken += get(d->of[ANSWER].at + DDS_ANSWER_TAKEN);
        put_away(d, from_model);
        if (!it->separator && taken == it->count) break;
        if (one_in(100)) return 0; /* broken off, or not laid */
    }
    laid++;
    return 1;
}

static void writes(desk *d, uint32_t size, uint32_t first, int from_model)
{
    uint32_t items = below(MOST_ITEMS);
    seldom = one_in(2) ? 8 : 80;
    written.n = written.bytes = group_count = laid = 0;
    resize(&d->of[GROUP], size);
    memset(d->of[GROUP].at, (int)below(256), size);
    both(d, WRITER_START, size, first, 0);
    while (items-- && offers(d, size, from_model))
        if (one_in(12) && both(d, END, one_in(seldom), 0, 0) == 0 && closes(d)) put_away(d, from_model);
    if (both(d, END, 0, 0, 0) == 0 && closes(d)) put_away(d, from_model);
    if (phase_of(d) == DDS_PHASE_OWED) laid--; /* no number remains for its total */
}

/* request 2026-03: a group that begins without b4 after one that ends with it is 9 at 1 */
static void drops_b4(desk *d, const closed_group *g)
{
    uint8_t *flag = d->of[GROUP].at + d->of[GROUP].len - 36;
    *flag &= 0xF7;
    if (both(d, READ, g->number, g->entries, 0) != 9 || get(d->of[ANSWER].at + DDS_ANSWER_PLACE) != 1)
        failed("b4 dropped", d->refusal, g->number);
    *flag |= 8;
}

/* b4 behind a group's entries, each of which must have it where the one before has it */
static uint32_t b4_behind(const closed_group *g, uint32_t size, uint32_t b4)
{
    uint32_t k;
    for (k = 1; k <= g->entries; k++) {
        uint32_t set = g->image[size - 32 - 4 * k] >> 3 & 1;
        if (set < b4) failed("b4 went out", g->number, k);
        b4 = set;
    }
    return b4;
}

/* request 2026-05: the last accepted group again, whatever it holds now, is a repeat. The rows that it leaves are looked at
   later. */
static void hands_in_again(desk *d, const closed_group *g)
{
    uint8_t state[DDS_READER_LEN];
    memcpy(state, d->of[STATE].at, DDS_READER_LEN);
    memset(d->of[GROUP].at, (int)below(256), d->of[GROUP].len);
    if (both(d, READ, g->number, below(4), 0) || outcome_of(d) != DDS_OUTCOME_REPEAT) failed("no repeat", d->refusal, g->number);
    if (memcmp(state, d->of[STATE].at, DDS_READER_LEN)) failed("a repeat leaves the state", d->refusal, g->number);
}

static long owed, put_off; /* groups that owe a total, and groups that were made to owe it too early */

/* request 2026-06: the writer owes a total only where it had no room */
static void owes_for_want_of_room(const closed_group *g, uint32_t size)
{
    const uint8_t *last = g->image + size - 36, *skip = last - 4;
    if ((*last & 0xF7) != DDS_FLAG_LAST || (*skip & 0xF7) != DDS_FLAG_SKIP) return;
    if (skip[1] || skip[2] || skip[3] < 40 || skip[3] > 43) failed("a total owed with room", get(skip), g->number);
    owed++;
}

/* a group with a last and its total, as a maker that puts the total off would write it: a skip in its place, which is 23 at 2 */
static void puts_off_total(desk *d, const closed_group *g)
{
    uint8_t *last = entry(&d->of[GROUP], 1), *total = last - 4;
    uint32_t was = get(total);
    if ((*last & 0xF7) != DDS_FLAG_LAST || (*total & 0xF7) != DDS_FLAG_TOTAL) return;
    put(total, 0x80000000 | (was & 0x08000000) | ((uint32_t)d->of[GROUP].len - (get(last) & 0xFFFFFF)));
    if (both(d, READ, g->number, 2, 0) != 23 || get(d->of[ANSWER].at + DDS_ANSWER_PLACE) != 2)
        failed("a total owed too early", d->refusal, g->number);
    put(total, was);
    put_off++;
}

/* reads the run and compares each item as it is finished; an open record's bytes so far as well */
static void reads_back(desk *d, uint32_t size, uint32_t first)
{
    uint32_t g, k, done = 0, so_far = 0, phase, b4 = 0;
    resize(&d->of[GROUP], size);
    both(d, READER_START, size, first, 0);
    if (both(d, READ, first - 1, 1, 0) != 5) failed("a repeat before any group", d->refusal, first);
    for (g = 0; g < group_count; g++) {
        resize(&d->of[ROWS], 12 * groups[g].entries + below(30));
        memset(d->of[ROWS].at, (int)below(256), d->of[ROWS].len);
        memcpy(d->of[GROUP].at, groups[g].image, size);
        if (g + 1 < group_count && both(d, READ, groups[g + 1].number, groups[g].entries, 0) != 5) failed("a later number", g, 0);
        if (b4) drops_b4(d, &groups[g]);
        owes_for_want_of_room(&groups[g], size);
        puts_off_total(d, &groups[g]);
        if (g && one_in(4)) { /* after what was refused */
            hands_in_again(d, &groups[g - 1]);
            memcpy(d->of[GROUP].at, groups[g].image, size);
        }
        b4 = b4_behind(&groups[g], size, b4);
        if (both(d, READ, groups[g].number, groups[g].entries, 0) || outcome_of(d) != DDS_OUTCOME_FINISHED) {
            failed("a written group was not accepted", d->refusal, g);
            return;
        }
        while (one_in(3)) hands_in_again(d, &groups[g]);
        for (k = 0; k < groups[g].entries; k++) {
            const uint8_t *row = d->of[ROWS].at + 12 * k;
            uint32_t kind = get(row), offset = get(row + 4), count = get(row + 8);
            const item *it = &written.items[done];
            if (kind == 7) continue;
            if (done >= written.n) { failed("more was read than was written", done, kind); return; }
            if (it->separator != (kind == 2)) { failed("another item", done, kind); return; }
            if (kind == 2 && count != it->count) { failed("separator value", count, it->count); return; }
            if (kind >= 3 && kind <= 6) {
                if (so_far + count > it->count || memcmp(groups[g].image + offset, written.pool + it->at + so_far, count)) {
                    failed("record bytes", done, so_far);
                    return;
                }
                so_far += count;
            }
            if ((kind == 1 || kind == 6) && (so_far != it->count || (kind == 1 && count != it->count))) {
                failed("record length", so_far, it->count);
                return;
            }
            if (kind == 1 || kind == 2 || kind == 6) { done++; so_far = 0; }
        }
        phase = phase_of(d);
        if ((phase == DDS_PHASE_FREE) != (so_far == 0) || get(d->of[STATE].at + DDS_STATE_SUM) != so_far)
            failed("sum of an open record", phase, so_far);
        if (get(d->of[STATE].at + DDS_READER_B4) != b4) failed("b4 of the state", g, b4);
    }
    if (done != laid) failed("less was read than was written", done, laid);
}

int main(int argc, char **argv)
{
    long count = count_of(argc, argv, 40000), i;
    uint32_t g;
    desk w = desk_for(RECORD), r = desk_for(READ);
    lend_most(&w, STATE, DDS_WRITER_LEN);
    lend_most(&w, GROUP, LARGEST);
    lend_most(&w, DATA, MOST_BYTES);
    lend_most(&r, STATE, DDS_READER_LEN);
    lend_most(&r, GROUP, LARGEST);
    lend_most(&r, ROWS, 3 * LARGEST + 30);
    written.pool = memory(MOST_BYTES);
    for (i = 0; i < count; i++) {
        uint32_t size = one_in(1000) ? LARGEST : one_in(20) ? 64 + below(3000) : 64 + below(100);
        uint32_t first = one_in(10) ? 65535 - below(20) : 1 + below(65000);
        writes(&w, size, first, i % 2);
        reads_back(&r, size, first);
        for (g = 0; g < group_count; g++) free(groups[g].image);
    }
    leave(&w);
    leave(&r);
    free(written.pool);
    free(groups);
    if (count >= 200 && (owed < count / 4 || put_off < count)) {
        fprintf(stderr, "  %ld totals owed and %ld put off are too few\n", owed, put_off);
        failures++;
    }
    printf("runs: %ld runs, %ld calls compared, %ld differ\n", count, compared, failures);
    return failures != 0;
}
