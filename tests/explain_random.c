/* Request 2026-07 at random: explanations compared with the model, byte for byte, on the states and groups of random.c, lengths
   right and wrong. COUNT is how many: explain_random [COUNT]. Before them every flag at an entry, at each place of a scan.
   Of each explanation more is held without the model, by reads on copies: refusal and place are those of the read; what is found
   stands there; it breaks the rule; whatever is allowed in its stead keeps it, and what is just outside the limits does not. */

#include "random_groups.h"

static long tried; /* reads made to hold what is said without the model */

static const uint8_t flags[8] = { 0, 0x01, 0x07, 0x40, 0x42, 0x60, 0x63, 0x80 }; /* by kind, b4 clear */

/* 0 where the byte is no flag */
static uint32_t kind_of(uint8_t byte)
{
    uint32_t kind;
    for (kind = 7; kind > 0 && flags[kind] != byte && (flags[kind] | DDS_FLAG_B4) != byte; kind--) { }
    return kind;
}

/* ---- What is explained, and how it is told */

typedef struct { size_t group_len, rows_len; uint32_t number, entries; } asked;
typedef struct { uint64_t refusal, place, offset, found, least, greatest, kinds; } reason;

static reason told_reason(const desk *d)
{
    const uint8_t *at = d->of[EXPLANATION].at;
    reason r;
    r.refusal = dds_long_number(at, DDS_EXPLANATION_REFUSAL);
    r.place = dds_long_number(at, DDS_EXPLANATION_PLACE);
    r.offset = dds_long_number(at, DDS_EXPLANATION_OFFSET);
    r.found = dds_long_number(at, DDS_EXPLANATION_FOUND);
    r.least = dds_long_number(at, DDS_EXPLANATION_LEAST);
    r.greatest = dds_long_number(at, DDS_EXPLANATION_GREATEST);
    r.kinds = dds_long_number(at, DDS_EXPLANATION_KINDS);
    return r;
}

static void must(int so, const reason *r, const char *what)
{
    if (so || failures++ >= 10) return;
    fprintf(stderr, "  %lu at %lu, byte %lu, found %lu, allowed %lu to %lu, kinds %lu, after %ld calls: %s\n",
            (unsigned long)r->refusal, (unsigned long)r->place, (unsigned long)r->offset, (unsigned long)r->found,
            (unsigned long)r->least, (unsigned long)r->greatest, (unsigned long)r->kinds, compared, what);
}

/* ---- A read of the same, or of nearly the same; the desk stays, but for its group where that was changed before */

static uint8_t spare_rows[3 * LARGEST];

typedef struct { uint32_t refusal, place; } verdict;

static verdict read_of(const desk *d, asked a)
{
    uint8_t state[64], answer[DDS_ANSWER_LEN] = { 0 };
    verdict v;
    memcpy(state, d->of[STATE].at, d->of[STATE].len);
    tried++;
    v.refusal = dds_read(state, d->of[STATE].len, d->of[GROUP].at, a.group_len, a.number, a.entries, spare_rows, a.rows_len,
                         answer, sizeof answer);
    v.place = get(answer + DDS_ANSWER_PLACE);
    return v;
}

static int same(verdict v, const reason *r) { return v.refusal == r->refusal && v.place == r->place; }

/* where the count of the entry that is told ends the data: what comes before it */
static uint64_t data_before(const desk *d, const reason *r)
{
    uint64_t k, data = 0;
    for (k = 1; k < r->place; k++) {
        const uint8_t *e = entry(&d->of[GROUP], (uint32_t)k);
        uint32_t kind = kind_of(e[0]);
        if (kind >= DDS_KIND_MIDDLE && kind <= DDS_KIND_ENTIRE) data += get(e) & 0xFFFFFF;
    }
    return data;
}

/* the numbers that can stand where the one that is found stands */
static void can_stand(const desk *d, const reason *r, uint64_t *low, uint64_t *high)
{
    *low = r->refusal == 12 ? data_before(d, r) : 0;
    switch (r->refusal) {
    case 4: *high = LARGEST; break;
    case 5: case 6: *high = 0xFFFFFFFF; break;
    case 7: *high = sizeof spare_rows; break;
    case 9: *high = 1; break;
    default: *high = *low + 0xFFFFFF;
    }
}

/* what the read says with this number in the place of the one that was found */
static verdict read_with(desk *d, asked a, const reason *r, uint64_t value)
{
    uint8_t *e = r->place ? entry(&d->of[GROUP], (uint32_t)r->place) : 0, was[4] = { 0 };
    verdict v;
    if (e) memcpy(was, e, 4);
    switch (r->refusal) {
    case 4: a.group_len = (size_t)value; break;
    case 5: a.number = (uint32_t)value; break;
    case 6: a.entries = (uint32_t)value; break;
    case 7: a.rows_len = (size_t)value; break;
    case 9: e[0] = (uint8_t)(value ? e[0] | DDS_FLAG_B4 : e[0] & ~DDS_FLAG_B4); break;
    case 12: value -= data_before(d, r); /* fall through */
    default: put(e, (get(e) & 0xFF000000) | (uint32_t)value);
    }
    v = read_of(d, a);
    if (e) memcpy(e, was, 4);
    return v;
}

/* the same with another flag there */
static verdict read_with_flag(desk *d, asked a, const reason *r, uint8_t flag)
{
    uint8_t *e = entry(&d->of[GROUP], (uint32_t)r->place), was = e[0];
    verdict v;
    e[0] = flag;
    v = read_of(d, a);
    e[0] = was;
    return v;
}

/* ---- What is held of an explanation */

/* zeros where a number has no meaning, and the entry's own byte */
static void has_its_shape(const reason *r, asked a)
{
    must((r->place != 0) == (r->refusal >= 8), r, "a place where an entry is at fault, and only there");
    must(r->offset == (r->place ? a.group_len - 32 - 4 * r->place : 0), r, "the offset is the entry's");
    must(r->kinds == 0 || r->refusal == 10, r, "permitted kinds are 0 unless 10");
    if (r->refusal <= 1) must(r->found == 0 && r->least == 0 && r->greatest == 0, r, "zeros");
    if (r->refusal == 8 || r->refusal == 10) must(r->least == 0 && r->greatest == 0, r, "no limits");
}

static uint64_t found_there(const desk *d, asked a, const reason *r)
{
    const uint8_t *e = d->of[GROUP].at + r->offset;
    const uint64_t count = r->place ? get(e) & 0xFFFFFF : 0;
    switch (r->refusal) {
    case 4: return a.group_len;
    case 5: return a.number;
    case 6: return a.entries;
    case 7: return a.rows_len;
    case 8: return e[0];
    case 9: return e[0] >> 3 & 1;
    case 10: return kind_of(e[0]);
    case 12: return data_before(d, r) + count;
    default: return count;
    }
}

/* a repeat: the number before the next, where a group was accepted */
static int repeats(const desk *d, uint64_t number)
{
    return field(d, DDS_READER_ACCEPTED) == 1 && number + 1 == field(d, DDS_STATE_NEXT);
}

/* a number just outside the limits is refused too, at the same place: with this number, or with one before it in the order */
static void breaks(desk *d, asked a, const reason *r, uint64_t value)
{
    uint64_t low, high;
    verdict v;
    can_stand(d, r, &low, &high);
    if (value < low || value > high) return;
    v = read_with(d, a, r, value);
    must((v.refusal != 0 && v.place == r->place) || (r->refusal == 5 && repeats(d, value)), r, "outside the limits");
}

static void limits_hold(desk *d, asked a, const reason *r)
{
    uint64_t low, high;
    must(r->found < r->least || r->found > r->greatest, r, "what is found is not allowed");
    if (r->least > 0) breaks(d, a, r, r->least - 1);
    if (r->greatest < UINT64_MAX) breaks(d, a, r, r->greatest + 1);
    can_stand(d, r, &low, &high);
    if (low < r->least) low = r->least;
    if (high > r->greatest) high = r->greatest;
    if (low > high) return;
    must(!same(read_with(d, a, r, low), r), r, "the least keeps the rule");
    must(!same(read_with(d, a, r, high), r), r, "the greatest keeps the rule");
    must(!same(read_with(d, a, r, low + rnd() % (high - low + 1)), r), r, "what is between keeps the rule");
}

/* 8: every flag keeps the rule. 10: a permitted kind does, with b4 as it is, and no other. */
static void flags_hold(desk *d, asked a, const reason *r)
{
    const uint8_t b4 = *entry(&d->of[GROUP], (uint32_t)r->place) & DDS_FLAG_B4;
    uint32_t kind;
    if (r->refusal == 8) must(kind_of((uint8_t)r->found) == 0, r, "what is found is no flag");
    else must(r->found >= 1 && r->found <= 7 && !(r->kinds & DDS_KIND_VALUE(r->found)), r, "what is found is not permitted");
    must(r->kinds < 128, r, "there are seven kinds");
    for (kind = DDS_KIND_TOTAL; kind <= DDS_KIND_SKIP; kind++) {
        const int broken = same(read_with_flag(d, a, r, flags[kind] | b4), r);
        if (r->refusal == 10) must(broken == !(r->kinds & DDS_KIND_VALUE(kind)), r, "a kind is permitted where it may stand");
        else must(!broken && !same(read_with_flag(d, a, r, (uint8_t)(flags[kind] | DDS_FLAG_B4)), r), r, "a flag keeps the rule");
    }
}

static long none_of_5, none_of_21, permitted[128]; /* refusals with nothing allowed; 10 by its permitted kinds */

static void count_told(const reason *r)
{
    if (r->refusal == 5 && r->least > r->greatest) none_of_5++;
    if (r->refusal == 21 && r->least > r->greatest) none_of_21++;
    if (r->refusal == 10 && r->kinds < 128) permitted[r->kinds]++;
}

/* an explanation beside the model's, and beside the read */
static void explain_one(desk *d, uint32_t number, uint32_t entries)
{
    asked a = { d->of[GROUP].len, d->of[ROWS].len, number, entries };
    reason r;
    if (both(d, EXPLAIN, number, entries, 0) == DDS_REFUSED_EXPLANATION) return;
    r = told_reason(d);
    count_told(&r);
    must(d->refusal == r.refusal, &r, "what is returned is told");
    must(same(read_of(d, a), &r), &r, "refusal and place are those of the read");
    has_its_shape(&r, a);
}

/* the same, and what it tells is held */
static void explain_and_hold(desk *d, uint32_t number, uint32_t entries)
{
    asked a = { d->of[GROUP].len, d->of[ROWS].len, number, entries };
    reason r;
    explain_one(d, number, entries);
    if (d->of[EXPLANATION].len != DDS_EXPLANATION_LEN) return;
    r = told_reason(d);
    if (r.refusal <= 1) return;
    must(r.found == found_there(d, a, &r), &r, "what is found stands there");
    if (r.refusal == 8 || r.refusal == 10) flags_hold(d, a, &r); else limits_hold(d, a, &r);
}

static void wrong_lengths(desk *d)
{
    resize(&d->of[EXPLANATION], one_in(400) ? below(112) : DDS_EXPLANATION_LEN);
    memset(d->of[EXPLANATION].at, (int)below(256), d->of[EXPLANATION].len);
    if (one_in(400)) resize(&d->of[STATE], below(40));
    if (one_in(100)) resize(&d->of[GROUP], below(130));
}

/* every refusal of a read, repeats or accepted groups as 0, and 24; with COUNT as in the plain pass 20 times at least */
static void all_came_up(long count)
{
    static const uint32_t refusals[] = { 0, 1, 4, 5, 6, 7, 8, 9, 10, 12, 13, 19, 20, 21, 22, 23, 24 };
    static const uint32_t kinds[] = { 0, 1, 20, 42, 64 };
    const long enough = count >= 200000 ? 20 : 1;
    char name[40];
    size_t i;
    for (i = 0; i < sizeof refusals / sizeof *refusals; i++) {
        snprintf(name, sizeof name, "refusals %u", refusals[i]);
        too_few(seen[refusals[i]], enough, name);
    }
    for (i = 0; i < sizeof kinds / sizeof *kinds; i++) {
        snprintf(name, sizeof name, "refusals 10 with kinds %u", kinds[i]);
        too_few(permitted[kinds[i]], enough, name);
    }
    too_few(none_of_5, count / 40000, "refusals 5 with none allowed");
    too_few(none_of_21, count / 40000, "refusals 21 with none allowed");
}

int main(int argc, char **argv)
{
    long count = count_of(argc, argv, 400000), i;
    desk d = lent_for(0);
    lend_most(&d, EXPLANATION, 2 * DDS_EXPLANATION_LEN);
    resize(&d.of[EXPLANATION], DDS_EXPLANATION_LEN);
    every_flag(&d, explain_one);
    memset(seen, 0, sizeof seen);
    memset(permitted, 0, sizeof permitted);
    for (i = 0; i < count; i++) {
        uint32_t entries, number = some_read(&d, &entries);
        wrong_lengths(&d);
        explain_and_hold(&d, number, entries);
    }
    leave(&d);
    if (count >= 4000) all_came_up(count);
    printf("explain_random: %ld explanations compared, %ld reads beside them, %ld differ\n", compared, tried, failures);
    return failures != 0;
}
