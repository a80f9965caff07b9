/* Request 2026-09 at random: starts, reads in blocks and searches compared with the model, byte for byte. Reads are on the states
   and groups of random.c, half of the groups made level, with records of one length; block sizes are a count of the group, nearly
   one, or any; lengths right and wrong. COUNT is how many reads and how many searches: blocks_random [COUNT]. Before them every
   flag at an entry, at each place of a scan.
   More is held without the model: of each start and each read by the plain reader's on copies, of each search by a list of the
   rows that begin a block, and of whole runs of blocks by where the writer laid each of them. */

#include "random_groups.h"

static long plainly; /* plain calls and lists made to hold what is said without the model */

/* what came up */
static struct {
    long groups, lengths;        /* groups accepted, and those of them with two whole records or more */
    long repeats, other_repeats; /* repeats, and those of groups with another length */
    long alone, first;           /* 51 where the plain reader accepts, and where it refuses at a later entry */
    long behind, same;           /* refusals with another length at a later entry, and at the same one */
    long there, elsewhere, low;  /* blocks that begin in the rows, that do not, and those of them below `before` */
    long found, spanned, odd;    /* in runs: blocks found, blocks in more than one group, and runs with another length */
} met;

static void must(int so, const char *what, uint32_t a, uint32_t b)
{
    if (so || failures++ >= 10) return;
    fprintf(stderr, "  %s: %u, %u after %ld calls\n", what, a, b, compared);
}

/* ---- Reads */

static uint8_t flag_of(const desk *d, uint32_t k) { return *entry(&d->of[GROUP], k) & 0xF7; }
static uint32_t count_at(const desk *d, uint32_t k) { return get(entry(&d->of[GROUP], k)) & 0xFFFFFF; }

static void put_count(desk *d, uint32_t k, uint32_t count)
{
    uint8_t *e = entry(&d->of[GROUP], k);
    put(e, (get(e) & 0xFF000000) | count);
}

/* an entry whose count is the length of a whole record */
static int is_whole(const desk *d, uint32_t k) { return flag_of(d, k) == DDS_FLAG_ENTIRE || flag_of(d, k) == DDS_FLAG_TOTAL; }

static int has_data(const desk *d, uint32_t k) { return (flag_of(d, k) & 0x40) != 0; }

/* the first whole record of n entries that has not this length; 0 where all have it */
static uint32_t other_length(const desk *d, uint32_t n, uint32_t block)
{
    uint32_t k;
    for (k = 1; k <= n; k++) if (is_whole(d, k) && count_at(d, k) != block) return k;
    return 0;
}

typedef struct { uint32_t refusal, place, outcome; uint8_t state[DDS_READER_LEN]; } verdict;

static uint8_t plain_rows[3 * LARGEST], rows_before[3 * LARGEST];

/* what dds_read says of the same, with rows that hold the same */
static verdict plain_read(const desk *d, uint32_t number, uint32_t entries)
{
    uint8_t answer[DDS_ANSWER_LEN] = { 0 };
    verdict v;
    memcpy(v.state, d->of[STATE].at, DDS_READER_LEN);
    memcpy(plain_rows, d->of[ROWS].at, d->of[ROWS].len);
    plainly++;
    v.refusal = dds_read(v.state, DDS_READER_LEN, d->of[GROUP].at, d->of[GROUP].len, number, entries, plain_rows, d->of[ROWS].len,
                         answer, sizeof answer);
    v.place = get(answer + DDS_ANSWER_PLACE);
    v.outcome = get(answer + DDS_ANSWER_OUTCOME);
    return v;
}

static void count_accepted(const desk *d, uint32_t n)
{
    uint32_t k, whole = 0;
    for (k = 1; k <= n; k++) whole += is_whole(d, k);
    met.groups++;
    met.lengths += whole >= 2;
}

/* a group that the plain reader accepts, or refuses at an entry: the first other length decides, unless a refusal comes first */
static void holds_of_entries(const desk *d, const verdict *v, const verdict *p, uint32_t n, uint32_t block)
{
    const uint32_t other = other_length(d, n, block);
    if (v->refusal == DDS_REFUSED_BLOCK_LENGTH) {
        must(v->place >= 1 && v->place <= n && v->place == other, "51 at the first other length", v->place, other);
        must(p->refusal == 0 || p->place > v->place, "51 comes behind the reader's refusals", p->refusal, p->place);
        if (p->refusal) met.first++; else met.alone++;
        return;
    }
    must(v->refusal == p->refusal && v->place == p->place, "the plain reader's refusal", v->refusal, p->refusal);
    must(other == 0 || (p->refusal && p->place <= other), "another length is 51", p->place, other);
    if (other && other == p->place) met.same++; else if (other) met.behind++;
}

/* what is held of a read by what the plain reader does; `before` is the state as it was lent */
static void holds_of_read(const desk *d, const uint8_t *before, const verdict *p, uint32_t n)
{
    const uint32_t block = get(before + DDS_READER_BLOCK);
    verdict v;
    v.refusal = d->refusal;
    v.place = get(d->of[ANSWER].at + DDS_ANSWER_PLACE);
    v.outcome = get(d->of[ANSWER].at + DDS_ANSWER_OUTCOME);
    must(get(d->of[STATE].at + DDS_READER_BLOCK) == block, "the block size stays", block, field(d, DDS_READER_BLOCK));
    if (block < 1 || block > DDS_RECORD_MOST) must(v.refusal == 1 && v.place == 0, "a broken block size is 1", v.refusal, block);
    else if (p->refusal && p->place == 0) must(v.refusal == p->refusal && v.place == 0, "of the group", v.refusal, p->refusal);
    else if (p->outcome == DDS_OUTCOME_REPEAT) {
        must(v.refusal == 0 && v.outcome == DDS_OUTCOME_REPEAT, "a repeat", v.refusal, v.outcome);
        met.repeats++;
        met.other_repeats += n <= DDS_ENTRIES_MOST(d->of[GROUP].len) && other_length(d, n, block) != 0;
    } else holds_of_entries(d, &v, p, n, block);
    if (v.refusal == 0 && v.outcome == DDS_OUTCOME_FINISHED) {
        const int plain = p->refusal == 0 && p->outcome == DDS_OUTCOME_FINISHED;
        must(plain, "what is accepted the plain reader accepts", p->refusal, p->place);
        must(memcmp(d->of[STATE].at, p->state, DDS_READER_LEN) == 0, "the plain reader's state", n, block);
        must(memcmp(d->of[ROWS].at, plain_rows, d->of[ROWS].len) == 0, "the plain reader's rows", n, block);
        if (plain) count_accepted(d, n);
    } else {
        must(memcmp(d->of[STATE].at, before, DDS_BLOCKS_STATE_LEN) == 0, "the state stays", v.refusal, v.place);
        must(memcmp(d->of[ROWS].at, rows_before, d->of[ROWS].len) == 0, "the rows stay", v.refusal, v.place);
    }
}

/* a read in blocks beside the model's, and beside the plain reader's where the lengths are right */
static void read_and_hold(desk *d, uint32_t number, uint32_t entries)
{
    uint8_t before[DDS_BLOCKS_STATE_LEN];
    verdict p;
    if (d->of[STATE].len != DDS_BLOCKS_STATE_LEN || d->of[ANSWER].len != DDS_ANSWER_LEN) {
        must(both(d, BLOCKS_READ, number, entries, 0) == 1, "another length is 1", d->refusal, number);
        return;
    }
    memcpy(before, d->of[STATE].at, sizeof before);
    memcpy(rows_before, d->of[ROWS].at, d->of[ROWS].len);
    p = plain_read(d, number, entries);
    both(d, BLOCKS_READ, number, entries, 0);
    holds_of_read(d, before, &p, entries);
}

/* the block size behind a reader's state */
static void put_block(desk *d, uint32_t block)
{
    resize(&d->of[STATE], DDS_BLOCKS_STATE_LEN);
    put(d->of[STATE].at + DDS_READER_BLOCK, block);
}

/* every flag with its count for the block size, and with others */
static void read_flag(desk *d, uint32_t number, uint32_t entries)
{
    static const uint32_t blocks[] = { 1, 2, 9, 10, 29, 16777215 };
    uint8_t state[DDS_READER_LEN];
    memcpy(state, d->of[STATE].at, sizeof state);
    put_block(d, blocks[below(6)]);
    read_and_hold(d, number, entries);
    memcpy(d->of[STATE].at, state, sizeof state);
    put_block(d, count_at(d, entries > 1 && one_in(2) ? 2 : 1));
    read_and_hold(d, number, entries);
    resize(&d->of[STATE], DDS_READER_LEN);
}

/* the skip's count as it should be, where the last entry is one */
static void put_skip(desk *d, uint32_t n)
{
    uint32_t k, data = 0;
    if (flag_of(d, n) != DDS_FLAG_SKIP) return;
    for (k = 1; k < n; k++) if (has_data(d, k)) data += count_at(d, k);
    put_count(d, n, ((uint32_t)d->of[GROUP].len - data) & 0xFFFFFF);
}

/* every entire record of the table as long as the shortest, and a record that ends in it too, by its total and the state's sum.
   That length, or a total's where there is no entire record; 0 where there is neither. */
static uint32_t level(desk *d, uint32_t n)
{
    uint8_t *sum = d->of[STATE].at + DDS_STATE_SUM;
    uint32_t k, least = 0, first = flag_of(d, 1), part = first == DDS_FLAG_LAST ? count_at(d, 1) : 0, total = part ? 2 : 1;
    for (k = 1; k <= n; k++)
        if (flag_of(d, k) == DDS_FLAG_ENTIRE && (least == 0 || count_at(d, k) < least)) least = count_at(d, k);
    for (k = 1; k <= n; k++) if (flag_of(d, k) == DDS_FLAG_ENTIRE) put_count(d, k, least);
    if (total <= n && flag_of(d, total) == DDS_FLAG_TOTAL && (part || first == DDS_FLAG_TOTAL)) {
        if (least == 0) least = count_at(d, total);
        else if (least > part + 1) { put_count(d, total, least); put(sum, least - part); }
    }
    put_skip(d, n);
    return least;
}

/* a table that is level but for one entire record, a byte shorter; all else is as it should be */
static void unlevel(desk *d, uint32_t n)
{
    uint32_t k = 1 + below(n);
    if (flag_of(d, k) != DDS_FLAG_ENTIRE || count_at(d, k) < 2) return;
    put_count(d, k, count_at(d, k) - 1);
    put_skip(d, n);
}

/* a block size: this length, one that stands in the table, nearly one of them, or any */
static uint32_t some_block(const desk *d, uint32_t n, uint32_t length)
{
    uint32_t block = length && !one_in(4) ? length : 1 + below(40), k = 1 + below(n);
    if (one_in(4) && is_whole(d, k)) block = count_at(d, k);
    switch (below(16)) {
    case 0: return block + 1;
    case 1: return block - 1;
    case 2: return block ^ 1u << below(24);
    case 3: return one_in(3) ? bound() : block;
    default: return block;
    }
}

static void wrong_lengths(desk *d)
{
    if (one_in(400)) resize(&d->of[ANSWER], below(40));
    if (one_in(400)) resize(&d->of[STATE], below(40));
    if (one_in(100)) resize(&d->of[GROUP], below(130));
}

static void reads_some(desk *d)
{
    uint32_t entries, number = some_read(d, &entries), length = 0;
    if (entries >= 1 && entries <= DDS_ENTRIES_MOST(d->of[GROUP].len)) {
        if (one_in(2)) length = level(d, entries);
        if (length && one_in(3)) unlevel(d, entries);
        if (length && one_in(5)) spoil(d->of[GROUP].at, (uint32_t)d->of[GROUP].len, entries);
        put_block(d, some_block(d, entries, length));
    } else put_block(d, bound());
    wrong_lengths(d);
    read_and_hold(d, number, entries);
}

/* ---- Starts */

/* a start beside the model's, and beside the plain reader's: its refusals come first, and its state stands in front */
static void start_and_hold(desk *d, uint32_t size, uint32_t first, uint32_t block)
{
    const int in_range = block >= 1 && block <= DDS_RECORD_MOST;
    uint8_t state[DDS_READER_LEN], answer[DDS_ANSWER_LEN];
    uint32_t plain = dds_reader_start(size, first, state, sizeof state, answer, sizeof answer);
    plainly++;
    both(d, BLOCKS_START, size, first, block);
    if (d->of[STATE].len != DDS_BLOCKS_STATE_LEN || d->of[ANSWER].len != DDS_ANSWER_LEN)
        must(d->refusal == 1, "another length is 1", d->refusal, block);
    else if (plain || !in_range) must(d->refusal == (plain ? plain : DDS_REFUSED_BLOCK_SIZE), "2, 3, 50", d->refusal, plain);
    else must(d->refusal == 0 && memcmp(d->of[STATE].at, state, sizeof state) == 0 && field(d, DDS_READER_BLOCK) == block,
              "a fresh state and the block size", d->refusal, block);
}

static void starts_some(desk *d)
{
    resize(&d->of[STATE], DDS_BLOCKS_STATE_LEN);
    resize(&d->of[ANSWER], DDS_ANSWER_LEN);
    fill(&d->of[STATE]);
    fill(&d->of[ANSWER]);
    wrong_lengths(d);
    start_and_hold(d, one_in(3) ? bound() : some_size(), one_in(3) ? bound() : 1 + below(65535),
                   one_in(2) ? bound() : 1 + below(16777215));
}

/* ---- Searches */

/* the answer beside a list of the rows that begin a block */
static void holds_of_find(const desk *d, uint32_t before, uint32_t block)
{
    static uint32_t offsets[LARGEST / 4];
    const size_t rows = d->of[ROWS].len / DDS_ROW_LEN;
    const uint8_t *answer = d->of[ANSWER].at;
    size_t i, n = 0;
    for (i = 0; i < rows; i++) {
        const uint32_t kind = dds_number(d->of[ROWS].at, DDS_ROW_LEN * i + DDS_ROW_KIND);
        if (kind == DDS_KIND_START || kind == DDS_KIND_ENTIRE)
            offsets[n++] = dds_number(d->of[ROWS].at, DDS_ROW_LEN * i + DDS_ROW_OFFSET);
    }
    plainly++;
    met.low += block < before;
    if (block >= before && block - before < n) {
        must(get(answer + DDS_ANSWER_OUTCOME) == DDS_OUTCOME_BEGINS, "it begins there", before, block);
        must(get(answer + DDS_ANSWER_OFFSET) == offsets[block - before], "its offset", get(answer + DDS_ANSWER_OFFSET), block);
        met.there++;
    } else {
        must(get(answer + DDS_ANSWER_OUTCOME) == DDS_OUTCOME_ELSEWHERE, "it begins elsewhere", before, block);
        must(get(answer + DDS_ANSWER_OFFSET) == 0, "no offset", get(answer + DDS_ANSWER_OFFSET), block);
        met.elsewhere++;
    }
}

static void find_and_hold(desk *d, uint32_t before, uint32_t block)
{
    if (both(d, BLOCKS_FIND, before, block, 0) == 0) holds_of_find(d, before, block);
    else must(d->of[ANSWER].len != DDS_ANSWER_LEN && d->refusal == 1, "no search is refused", d->refusal, block);
}

/* kinds at random, most of them such as a reader gives, half of those 4 and 6, and any offsets and counts */
static void some_rows(slice *rows)
{
    size_t at;
    fill(rows);
    for (at = 0; at + 4 <= rows->len; at += DDS_ROW_LEN) {
        if (!one_in(8)) put(rows->at + at, one_in(2) ? 4 + 2 * below(2) : below(9));
        if (one_in(12)) put(rows->at + at, (one_in(2) ? 4u : 6u) | 1u << below(32));
    }
}

static void finds_some(desk *d)
{
    slice *rows = &d->of[ROWS];
    uint32_t before = one_in(4) ? bound() : one_in(4) ? 0xFFFFFFFF - below(12) : below(30), block;
    if (one_in(40) || rows->len > 400) resize(rows, below(400));
    else if (!one_in(5)) resize(rows, below(120)); /* or rows of the last read, with what stands behind them */
    if (one_in(8)) fill(rows); else if (!one_in(4)) some_rows(rows);
    resize(&d->of[ANSWER], DDS_ANSWER_LEN);
    fill(&d->of[ANSWER]);
    if (one_in(400)) resize(&d->of[ANSWER], below(40));
    block = one_in(8) ? bound() : before + below((uint32_t)rows->len / 12 + 3) - 1;
    find_and_hold(d, before, block);
}

/* ---- Whole runs of blocks: written, read back with repeats between, and every block found where it was laid */

enum { MOST_BLOCKS = 40, MOST_GROUPS = 4000 };

typedef struct { uint32_t number, entries; uint8_t *image; } closed_group;
typedef struct { uint32_t number, offset; } beginning;

static closed_group groups[MOST_GROUPS];
static beginning begun[MOST_BLOCKS];
static uint32_t group_count, block_count, odd, odd_length; /* block `odd` has another length, unless it is MOST_BLOCKS */

static uint8_t byte_of(uint32_t block, uint32_t i) { return (uint8_t)(block * 37 + i * 11 + i / 256); }

static int put_away(desk *w)
{
    const uint8_t *answer = w->of[ANSWER].at;
    closed_group *g = &groups[group_count];
    if (get(answer + DDS_ANSWER_OUTCOME) != DDS_OUTCOME_CLOSED) return 0;
    if (group_count++ == MOST_GROUPS) stop("a test's run is too long", "put_away");
    g->number = get(answer + DDS_ANSWER_NUMBER);
    g->entries = get(answer + DDS_ANSWER_ENTRIES);
    g->image = memory(w->of[GROUP].len);
    memcpy(g->image, w->of[GROUP].at, w->of[GROUP].len);
    memset(w->of[GROUP].at, (int)below(256), w->of[GROUP].len);
    return 1;
}

/* one block, offered until it is laid; where it begins is noted */
static void writes_block(desk *w, uint32_t length)
{
    uint32_t i, taken, done = 0;
    do {
        const beginning here = { field(w, DDS_STATE_NEXT), field(w, DDS_STATE_DATA) };
        const int fresh = field(w, DDS_STATE_PHASE) != DDS_PHASE_INSIDE;
        resize(&w->of[DATA], length - done);
        for (i = done; i < length; i++) w->of[DATA].at[i - done] = byte_of(block_count, i);
        make(w, RECORD, one_in(200), 0, 0);
        must(w->refusal == 0, "a lawful record was refused", w->refusal, length);
        taken = get(w->of[ANSWER].at + DDS_ANSWER_TAKEN);
        if (!put_away(w)) taken = length - done;
        if (fresh && taken) begun[block_count] = here;
        if (fresh && taken < length) met.spanned += taken > 0;
        done += taken;
    } while (done < length && w->refusal == 0);
    block_count++;
}

static void writes_run(desk *w, uint32_t size, uint32_t first, uint32_t length)
{
    uint32_t blocks = below(MOST_BLOCKS);
    group_count = block_count = 0;
    odd = one_in(4) && blocks ? below(blocks) : MOST_BLOCKS;
    odd_length = length > 1 && one_in(2) ? length - 1 : length + 1 + (one_in(3) ? below(3 * size) : 0);
    resize(&w->of[STATE], DDS_WRITER_LEN);
    resize(&w->of[GROUP], size);
    make(w, WRITER_START, size, first, 0);
    while (block_count < blocks) {
        writes_block(w, block_count == odd ? odd_length : length);
        while (one_in(4)) do make(w, SEPARATOR, below(2), 0, 0); while (put_away(w));
        if (one_in(10)) { make(w, END, 0, 0, 0); put_away(w); }
    }
    make(w, END, 0, 0, 0);
    put_away(w);
}

/* blocks of the run in this group, by its rows: each that begins there, those about it, and any; how many begin up to its end */
static uint32_t finds_in(desk *r, const closed_group *g, uint32_t before)
{
    const slice *rows = &r->of[ROWS];
    uint32_t block, end = before;
    while (end < block_count && begun[end].number == g->number) end++;
    for (block = 0; block <= block_count; block++) {
        const int here = block >= before && block < end;
        const uint8_t *answer = r->of[ANSWER].at;
        uint32_t i, k;
        if (!here && block + 2 < before && !one_in(8)) continue;
        if (!here && block > end + 1 && !one_in(8)) continue;
        find_and_hold(r, before, block);
        must(get(answer + DDS_ANSWER_OUTCOME) == (here ? DDS_OUTCOME_BEGINS : DDS_OUTCOME_ELSEWHERE), "the group of a block",
             block, g->number);
        if (!here) continue;
        must(get(answer + DDS_ANSWER_OFFSET) == begun[block].offset, "where it was laid", block, begun[block].offset);
        for (k = 0; k < g->entries && (get(rows->at + 12 * k + 4) != begun[block].offset
             || (get(rows->at + 12 * k) != DDS_KIND_START && get(rows->at + 12 * k) != DDS_KIND_ENTIRE)); k++) { }
        must(k < g->entries, "a row of that offset", block, begun[block].offset);
        for (i = 0; k < g->entries && i < get(rows->at + 12 * k + 8); i++)
            if (g->image[begun[block].offset + i] != byte_of(block, i)) { must(0, "its first bytes", block, i); break; }
        met.found++;
    }
    return end;
}

/* a group of the run read once more, whatever it holds now */
static void reads_again(desk *r, const closed_group *g)
{
    memset(r->of[GROUP].at, (int)below(256), r->of[GROUP].len);
    read_and_hold(r, g->number, one_in(2) ? g->entries : below(4));
    must(get(r->of[ANSWER].at + DDS_ANSWER_OUTCOME) == DDS_OUTCOME_REPEAT, "a repeat of a run", r->refusal, g->number);
}

static void reads_run(desk *r, uint32_t size, uint32_t first, uint32_t length)
{
    uint32_t g, before = 0;
    resize(&r->of[STATE], DDS_BLOCKS_STATE_LEN);
    resize(&r->of[GROUP], size);
    resize(&r->of[ANSWER], DDS_ANSWER_LEN);
    start_and_hold(r, size, first, length);
    for (g = 0; g < group_count; g++) {
        resize(&r->of[ROWS], 12 * (size_t)groups[g].entries);
        memcpy(r->of[GROUP].at, groups[g].image, size);
        read_and_hold(r, groups[g].number, groups[g].entries);
        if (r->refusal == DDS_REFUSED_BLOCK_LENGTH && odd < MOST_BLOCKS) {
            const uint32_t k = get(r->of[ANSWER].at + DDS_ANSWER_PLACE);
            must(count_at(r, k) == odd_length, "51 at the odd one", k, count_at(r, k));
            must(groups[g].number >= begun[odd].number, "and not before it", groups[g].number, begun[odd].number);
            met.odd++;
            return;
        }
        must(r->refusal == 0, "a written group was refused", r->refusal, groups[g].number);
        if (r->refusal) return;
        before = finds_in(r, &groups[g], before);
        while (one_in(3)) reads_again(r, &groups[g]);
    }
    must(odd == MOST_BLOCKS, "a record of another length was accepted", odd, odd_length);
    must(before == block_count, "every block is found", before, block_count);
    must(field(r, DDS_STATE_PHASE) == DDS_PHASE_FREE, "every block is finished", before, block_count);
}

static uint32_t some_length_of_blocks(uint32_t size)
{
    switch (below(4)) {
    case 0: return 1 + below(12);
    case 1: return size - 46 + below(10);
    case 2: return 1 + below(4 * size);
    default: return 1 + below(size);
    }
}

static void runs_some(desk *w, desk *r)
{
    const uint32_t size = one_in(400) ? 64 + below(3000) : 64 + below(100), first = 1 + below(60000);
    const uint32_t length = some_length_of_blocks(size);
    uint32_t g;
    writes_run(w, size, first, length);
    reads_run(r, size, first, length);
    for (g = 0; g < group_count; g++) free(groups[g].image);
}

/* every refusal, and every case that is not seen by its number */
static void all_came_up(long count, long runs)
{
    static const uint32_t refusals[] = { 0, 1, 2, 3, 4, 5, 6, 7, 8, 9, 10, 12, 13, 19, 20, 21, 22, 23, 50, 51 };
    const long enough = count >= 200000 ? 20 : 1;
    char name[40];
    size_t i;
    for (i = 0; i < sizeof refusals / sizeof *refusals; i++) {
        snprintf(name, sizeof name, "refusals %u", refusals[i]);
        too_few(seen[refusals[i]], enough, name);
    }
    too_few(met.groups, count / 20, "groups accepted");
    too_few(met.lengths, count / 100, "of them with two whole records or more");
    too_few(met.repeats, count / 50, "repeats");
    too_few(met.other_repeats, count / 400, "of them with another length");
    too_few(met.alone, count / 40, "refusals 51 where the plain reader accepts");
    too_few(met.first, count / 100, "refusals 51 where it refuses at a later entry");
    too_few(met.same, count / 400, "refusals at an entry of another length");
    too_few(met.behind, count / 400, "refusals before an entry of another length");
    too_few(met.there, count / 10, "blocks that begin there");
    too_few(met.elsewhere, count / 5, "blocks that begin elsewhere");
    too_few(met.low, count / 40, "blocks below `before`");
    too_few(met.found, runs, "blocks found in runs");
    too_few(met.spanned, runs, "blocks that are spanned");
    too_few(met.odd, runs / 10, "runs with a record of another length");
}

int main(int argc, char **argv)
{
    const long count = count_of(argc, argv, 400000), runs = count / 200;
    long i;
    desk d = lent_for(0), w = desk_for(RECORD);
    lend_most(&w, STATE, DDS_WRITER_LEN);
    lend_most(&w, GROUP, LARGEST);
    lend_most(&w, DATA, 1 << 16);
    every_flag(&d, read_flag);
    memset(seen, 0, sizeof seen);
    memset(&met, 0, sizeof met);
    for (i = 0; i < count; i++) {
        reads_some(&d);
        finds_some(&d);
        if (i % 4 == 0) starts_some(&d);
    }
    for (i = 0; i < runs; i++) runs_some(&w, &d);
    leave(&d);
    leave(&w);
    if (count >= 4000) all_came_up(count, runs);
    printf("blocks_random: %ld calls compared, %ld held plainly, %ld differ\n", compared, plainly, failures);
    return failures != 0;
}
