/* Single calls at random, compared with the model: states sound, nearly sound and garbage; groups random, lawful, lawful but
   for a few bytes, and lawful but for a total that may be owed too early; lengths and arguments right and wrong. COUNT is how
   many of each kind: random [COUNT]. Before them every flag at an entry, at each place of a scan. */

#include "random_groups.h"

static void wrong_lengths(desk *d)
{
    if (one_in(400)) resize(&d->of[ANSWER], below(40));
    if (one_in(400)) resize(&d->of[STATE], below(40));
    if (one_in(100)) resize(&d->of[GROUP], below(130));
}

static long repeats;         /* reads that told a repeat */
static long owed, owed_43;   /* a last and a skip that were accepted, and those of them with a skip of 43 */
static long early, early_44; /* a last and a skip that were refused with 23, and those of them with a skip of 44 */

/* counts a read that was accepted, or refused with 23 */
static void count_owing(const desk *d, uint32_t n, uint32_t refusal)
{
    uint32_t skip;
    if (n != 2 || (*entry(&d->of[GROUP], 1) & 0xF7) != DDS_FLAG_LAST) return;
    skip = get(entry(&d->of[GROUP], 2)) & 0xFFFFFF;
    if (refusal) { early++; early_44 += skip == 44; } else { owed++; owed_43 += skip == 43; }
}

static void reads_some(desk *d, long count)
{
    while (count--) {
        uint32_t n, number = some_read(d, &n), refusal;
        int repeat;
        wrong_lengths(d);
        refusal = both(d, READ, number, n, 0);
        repeat = refusal == 0 && get(d->of[ANSWER].at + DDS_ANSWER_OUTCOME) == DDS_OUTCOME_REPEAT;
        repeats += repeat;
        if ((refusal == 0 && !repeat) || refusal == 23) count_owing(d, n, refusal);
    }
}

static void read_one(desk *d, uint32_t number, uint32_t entries) { both(d, READ, number, entries, 0); }

/* how much data to offer: the rest, about as much as the room, or any */
static uint32_t some_data(const desk *d, uint32_t size)
{
    uint32_t phase = field(d, DDS_STATE_PHASE);
    int64_t entries = (int64_t)field(d, DDS_STATE_ENTRIES) + (phase == DDS_PHASE_OWED);
    int64_t room = (int64_t)size - 40 - 4 * entries - field(d, DDS_STATE_DATA);
    if (phase == DDS_PHASE_INSIDE && !one_in(10)) return field(d, DDS_STATE_REST);
    if (one_in(2)) return below(3 * size);
    return (uint32_t)(room < 2 ? below(4) : (uint64_t)room + below(4) - 2);
}

static void writes_some(desk *d, long count)
{
    while (count--) {
        uint32_t size, warn = one_in(60) ? bound() : below(2), n;
        some_state(d, DDS_WRITER_LEN, some_size());
        size = (uint32_t)d->of[GROUP].len;
        memset(d->of[GROUP].at, (int)below(256), size);
        n = some_data(d, size);
        wrong_lengths(d);
        switch (below(4)) {
        case 0: both(d, END, warn, 0, 0); break;
        case 1: both(d, SEPARATOR, one_in(20) ? bound() : below(2), warn, 0); break;
        default:
            resize(&d->of[DATA], n <= 4 * LARGEST ? n : below(100));
            fill(&d->of[DATA]);
            both(d, RECORD, warn, 0, 0);
        }
    }
}

static void starts_some(desk *d, long count)
{
    while (count--) {
        int writes = one_in(2);
        some_state(d, writes ? DDS_WRITER_LEN : DDS_READER_LEN, some_size());
        fill(&d->of[STATE]);
        wrong_lengths(d);
        both(d, writes ? WRITER_START : READER_START, one_in(2) ? bound() : some_size(),
             one_in(2) ? bound() : 1 + below(65535), 0);
    }
}

/* records at and above the longest, by the standard size and the least */
static void long_records(void)
{
    static const uint32_t sizes[] = { 64, LARGEST };
    uint32_t i, n;
    desk d = lent_for(16777217);
    for (i = 0; i < 2; i++)
        for (n = 16777213; n <= 16777217; n++) {
            resize(&d.of[STATE], DDS_WRITER_LEN);
            resize(&d.of[GROUP], sizes[i]);
            both(&d, WRITER_START, sizes[i], 1, 0);
            resize(&d.of[DATA], n);
            memset(d.of[DATA].at, (int)n, n);
            both(&d, RECORD, 0, 0, 0);
        }
    leave(&d);
}

int main(int argc, char **argv)
{
    long count = count_of(argc, argv, 4000000);
    desk d = lent_for(4 * LARGEST);
    every_flag(&d, read_one);
    reads_some(&d, count);
    writes_some(&d, count);
    starts_some(&d, count / 4);
    long_records();
    leave(&d);
    came_up(count, 10000, LIST(0, 1, 2, 3, 4, 5, 6, 7, 8, 9, 10, 12, 13, 14, 15, 16, 17, 18, 19, 20, 21, 22, 23));
    if (count >= 10000) {
        too_few(repeats, count / 50, "repeats");
        too_few(owed, count / 200, "groups of last and skip that were accepted");
        too_few(owed_43, count / 2000, "of them with a skip of 43");
        too_few(early, count / 200, "groups of last and skip that were refused with 23");
        too_few(early_44, count / 2000, "of them with a skip of 44");
    }
    return finish_pairs("random");
}
