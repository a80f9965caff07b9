/* Document 01 in plain C, one function for each rule, in the document's order. It is written to be read beside the
   document, not to be fast. Every number is 64 bits wide, so that none is cut and no sum wraps round. */

#include "model.h"

typedef uint64_t num;

/* ---- Sizes */

#define STANDARD_SIZE 126632
#define LONGEST_RECORD 16777215
#define LAST_NUMBER 65535

static int size_in_range(num size) { return size >= 64 && size <= STANDARD_SIZE; }
static int record_in_range(num n) { return n >= 1 && n <= LONGEST_RECORD; }
static int first_in_range(num first) { return first >= 1 && first <= LAST_NUMBER; }
static int entries_in_range(num size, num n) { return n >= 1 && 32 + 4 * n <= size; }

/* ---- The group */

enum { TOTAL = 1, SEPARATOR, MIDDLE, START, LAST, ENTIRE, SKIP };

static const uint8_t flag_of_kind[8][2] = {
    { 0, 0 }, { 0x01, 0x09 }, { 0x07, 0x0F }, { 0x40, 0x48 }, { 0x42, 0x4A }, { 0x60, 0x68 }, { 0x63, 0x6B }, { 0x80, 0x88 },
};

/* the kind of a flag, 0 where the flag is not valid */
static num kind_of_flag(uint8_t flag)
{
    num kind;
    for (kind = TOTAL; kind <= SKIP; kind++)
        if (flag == flag_of_kind[kind][0] || flag == flag_of_kind[kind][1]) return kind;
    return 0;
}

static num b4_of_flag(uint8_t flag) { return (flag & 0x08) != 0; }

static num entry_offset(num size, num k) { return size - 32 - 4 * k; }

static num entry_count(const uint8_t *entry) { return (num)entry[1] << 16 | (num)entry[2] << 8 | (num)entry[3]; }

static int has_data(num kind) { return kind == MIDDLE || kind == START || kind == LAST || kind == ENTIRE; }

/* ---- Which entry may follow */

enum { FREE, INSIDE, OWED };             /* the phases, at a group's beginning and end */
enum { AFTER_PART = 3, AFTER_LAST = 4 }; /* two more places, within a group only */

static int may_follow(num where, num kind)
{
    switch (where) {
    case FREE: return kind == START || kind == SEPARATOR || kind == ENTIRE || kind == SKIP;
    case AFTER_PART: return kind == SKIP;
    case INSIDE: return kind == MIDDLE || kind == LAST;
    case AFTER_LAST: return kind == TOTAL || kind == SKIP;
    case OWED: return kind == TOTAL;
    }
    return 0;
}

/* where the next entry stands, after an entry other than skip */
static num where_after(num kind)
{
    if (kind == START || kind == MIDDLE) return AFTER_PART;
    if (kind == LAST) return AFTER_LAST;
    return FREE;
}

/* the phase a group leaves, from where its skip stood */
static num phase_left(num where)
{
    if (where == AFTER_PART) return INSIDE;
    if (where == AFTER_LAST) return OWED;
    return where;
}

/* the sum of parts after an entry */
static num sum_after(num sum, num kind, num count)
{
    switch (kind) {
    case START: return count;
    case MIDDLE: case LAST: return sum + count;
    case SKIP: return sum;
    }
    return 0;
}

/* ---- The states */

typedef struct { num size, next, phase, sum; } run; /* what both begin with */
typedef struct { run r; num b4, accepted; } reader;
typedef struct { run r; num d, e, b4, rest; } writer;

static int sum_sound(num phase, num sum)
{
    switch (phase) {
    case FREE: return sum == 0;
    case INSIDE: return sum >= 1 && sum <= LONGEST_RECORD - 1;
    case OWED: return sum >= 2 && sum <= LONGEST_RECORD;
    }
    return 0; /* a phase that has no meaning */
}

static int run_sound(const run *r)
{
    return size_in_range(r->size) && r->next >= 1 && r->next <= LAST_NUMBER + 1 && sum_sound(r->phase, r->sum);
}

/* document 02, request 2026-05: a state with next number 1 that says a group was accepted is not sound */
static int reader_sound(const reader *r)
{
    if (!run_sound(&r->r)) return 0;
    if (r->b4 > 1 || r->accepted > 1) return 0;
    if (r->r.next == 1 && r->accepted) return 0;
    return 1;
}

static int writer_sound(const writer *w)
{
    if (!run_sound(&w->r)) return 0;
    if (w->b4 > 1) return 0;
    if (w->r.phase == FREE && w->d + 32 + 4 * (w->e + 1) > w->r.size) return 0;
    if (w->r.phase != FREE && (w->d != 0 || w->e != 0)) return 0;
    if (w->r.phase == INSIDE && (w->rest < 1 || w->r.sum + w->rest > LONGEST_RECORD)) return 0;
    if (w->r.phase != INSIDE && w->rest != 0) return 0;
    if (w->d > 0 && w->e == 0) return 0;
    if (w->r.next == LAST_NUMBER + 1 && (w->d != 0 || w->e != 0)) return 0;
    return 1;
}

/* ---- The slices: four bytes a number, most significant first */

static num get(const uint8_t *p) { return (num)p[0] << 24 | (num)p[1] << 16 | (num)p[2] << 8 | (num)p[3]; }

static void put(uint8_t *p, num n)
{
    p[0] = (uint8_t)(n >> 24);
    p[1] = (uint8_t)(n >> 16);
    p[2] = (uint8_t)(n >> 8);
    p[3] = (uint8_t)n;
}

static run get_run(const uint8_t *s)
{
    run r;
    r.size = get(s); r.next = get(s + 4); r.phase = get(s + 8); r.sum = get(s + 12);
    return r;
}

static void put_run(uint8_t *s, const run *r)
{
    put(s, r->size); put(s + 4, r->next); put(s + 8, r->phase); put(s + 12, r->sum);
}

static reader get_reader(const uint8_t *s)
{
    reader r;
    r.r = get_run(s); r.b4 = get(s + 16); r.accepted = get(s + 20);
    return r;
}

static void put_reader(uint8_t *s, const reader *r)
{
    put_run(s, &r->r); put(s + 16, r->b4); put(s + 20, r->accepted);
}

static writer get_writer(const uint8_t *s)
{
    writer w;
    w.r = get_run(s); w.d = get(s + 16); w.e = get(s + 20); w.b4 = get(s + 24); w.rest = get(s + 28);
    return w;
}

static void put_writer(uint8_t *s, const writer *w)
{
    put_run(s, &w->r); put(s + 16, w->d); put(s + 20, w->e); put(s + 24, w->b4); put(s + 28, w->rest);
}

static uint32_t answers(uint8_t *answer, num refusal, num place, num outcome, num number, num entries, num taken)
{
    put(answer, refusal); put(answer + 4, place); put(answer + 8, outcome);
    put(answer + 12, number); put(answer + 16, entries); put(answer + 20, taken);
    return (uint32_t)refusal;
}

static uint32_t refused(uint8_t *answer, num refusal, num place) { return answers(answer, refusal, place, 0, 0, 0, 0); }
static uint32_t finished(uint8_t *answer) { return answers(answer, 0, 0, 0, 0, 0, 0); }
static uint32_t repeated(uint8_t *answer) { return answers(answer, 0, 0, 2, 0, 0, 0); }

/* ---- Starting */

static num start_refusal(num size, num first)
{
    if (!size_in_range(size)) return 2;
    if (!first_in_range(first)) return 3;
    return 0;
}

static run fresh(num size, num first)
{
    run r;
    r.size = size; r.next = first; r.phase = FREE; r.sum = 0;
    return r;
}

uint32_t MODEL(reader_start)(uint32_t size, uint32_t first, uint8_t *state, size_t state_len, uint8_t *answer,
                             size_t answer_len)
{
    reader r;
    r.r = fresh(size, first);
    r.b4 = r.accepted = 0;
    if (state_len != 24 || answer_len != 24) return 1;
    if (start_refusal(size, first)) return refused(answer, start_refusal(size, first), 0);
    put_reader(state, &r);
    return finished(answer);
}

uint32_t MODEL(writer_start)(uint32_t size, uint32_t first, uint8_t *state, size_t state_len, uint8_t *answer,
                             size_t answer_len)
{
    writer w;
    w.r = fresh(size, first);
    w.d = w.e = w.b4 = w.rest = 0;
    if (state_len != 32 || answer_len != 24) return 1;
    if (start_refusal(size, first)) return refused(answer, start_refusal(size, first), 0);
    put_writer(state, &w);
    return finished(answer);
}

/* ---- Reading */

/* document 02, request 2026-02: which count is wrong, 19 zero part, 20 separator above 1, 21 record too long, 22 total differs;
   0 if none. Parts after a start or middle add to at most 16,777,214, after a last to at most 16,777,215. */
static num count_refusal(num sum, num kind, num count)
{
    if (kind == TOTAL && count != sum) return 22;
    if (kind == SEPARATOR && count > 1) return 20;
    if (has_data(kind) && count == 0) return 19;
    if (kind == START && count >= LONGEST_RECORD) return 21;
    if (kind == MIDDLE && sum + count >= LONGEST_RECORD) return 21;
    if (kind == LAST && sum + count > LONGEST_RECORD) return 21;
    return 0;
}

/* a scan over entries 1 to n: where it stands before entry k */
typedef struct { num where, sum, data, b4; } standing;

/* document 02, request 2026-06: "a group of two entries, last then skip, whose skip count is 44 or more" */
static int owed_early(const standing *s, num kind, num count, num n)
{
    return n == 2 && s->where == AFTER_LAST && kind == SKIP && count >= 44;
}

/* the first rule that entry k breaks: 8, 9, 10, 19 to 22, 12, 13 or 23; 0 if none */
static num entry_refusal(const standing *s, const uint8_t *entry, num size, num n, num k)
{
    num kind = kind_of_flag(entry[0]), count = entry_count(entry);
    if (kind == 0) return 8;
    if (s->b4 && !b4_of_flag(entry[0])) return 9;
    if (!may_follow(s->where, kind)) return 10;
    if ((kind == SKIP) != (k == n)) return 10;
    if (count_refusal(s->sum, kind, count)) return count_refusal(s->sum, kind, count);
    if (has_data(kind) && s->data + count > entry_offset(size, n)) return 12;
    if (kind == SKIP && count != size - s->data) return 13;
    if (owed_early(s, kind, count, n)) return 23;
    return 0;
}

static void pass(standing *s, const uint8_t *entry)
{
    num kind = kind_of_flag(entry[0]), count = entry_count(entry);
    s->b4 = b4_of_flag(entry[0]);
    s->sum = sum_after(s->sum, kind, count);
    if (has_data(kind)) s->data += count;
    if (kind == SKIP) s->where = phase_left(s->where);
    else s->where = where_after(kind);
}

/* document 02, request 2026-05: the number of the last accepted group of this run, where one was accepted */
static int is_repeat(const reader *r, num number) { return r->accepted && number == r->r.next - 1; }

/* 5, 6 or 7, which come behind a repeat; 0 if none */
static num read_refusal(const reader *r, num number, num entries, num rows_len)
{
    if (number != r->r.next || r->r.next == LAST_NUMBER + 1) return 5;
    if (!entries_in_range(r->r.size, entries)) return 6;
    if (rows_len < 12 * entries) return 7;
    return 0;
}

uint32_t MODEL(read)(uint8_t *state, size_t state_len, const uint8_t *group, size_t group_len, uint32_t number,
                     uint32_t entries, uint8_t *rows, size_t rows_len, uint8_t *answer, size_t answer_len)
{
    reader r;
    standing s, again;
    num k, refusal;
    if (state_len != 24 || answer_len != 24) return 1;
    r = get_reader(state);
    if (!reader_sound(&r)) return refused(answer, 1, 0);
    if (group_len != r.r.size) return refused(answer, 4, 0);
    if (is_repeat(&r, number)) return repeated(answer);
    refusal = read_refusal(&r, number, entries, rows_len);
    if (refusal) return refused(answer, refusal, 0);
    s.where = r.r.phase; s.sum = r.r.sum; s.data = 0; s.b4 = r.b4;
    again = s;
    for (k = 1; k <= entries; k++) {
        const uint8_t *entry = group + entry_offset(r.r.size, k);
        refusal = entry_refusal(&s, entry, r.r.size, entries, k);
        if (refusal) return refused(answer, refusal, k);
        pass(&s, entry);
    }
    for (k = 1; k <= entries; k++) {
        const uint8_t *entry = group + entry_offset(r.r.size, k);
        put(rows + 12 * (k - 1), kind_of_flag(entry[0]));
        put(rows + 12 * (k - 1) + 4, again.data);
        put(rows + 12 * (k - 1) + 8, entry_count(entry));
        pass(&again, entry);
    }
    r.r.next++;
    r.r.phase = s.where;
    r.r.sum = s.sum;
    r.b4 = s.b4;
    r.accepted = 1;
    put_reader(state, &r);
    return finished(answer);
}

/* ---- Writing */

static int64_t room(const writer *w) { return (int64_t)w->r.size - 32 - 4 * ((int64_t)w->e + 2) - (int64_t)w->d; }

static void lay_entry(writer *w, uint8_t *group, num kind, num count)
{
    w->e++;
    put(group + entry_offset(w->r.size, w->e), count);
    group[entry_offset(w->r.size, w->e)] = flag_of_kind[kind][w->b4];
}

static void lay_part(writer *w, uint8_t *group, num kind, const uint8_t *data, num n)
{
    num i;
    for (i = 0; i < n; i++) group[w->d + i] = data[i];
    w->d += n;
    lay_entry(w, group, kind, n);
}

/* what every accepted call does first: set b4 if it is asked to, and lay an owed total */
static void begin(writer *w, uint8_t *group, num warn)
{
    if (warn) w->b4 = 1;
    if (w->r.phase == OWED) {
        lay_entry(w, group, TOTAL, w->r.sum);
        w->r.phase = FREE;
        w->r.sum = 0;
    }
}

static uint32_t finish(const writer *w, uint8_t *state, uint8_t *answer)
{
    put_writer(state, w);
    return finished(answer);
}

static uint32_t close_group(writer *w, uint8_t *group, num taken, uint8_t *state, uint8_t *answer)
{
    num i, number = w->r.next, entries;
    lay_entry(w, group, SKIP, w->r.size - w->d);
    for (i = w->d; i < entry_offset(w->r.size, w->e); i++) group[i] = 0;
    entries = w->e;
    w->r.next++;
    w->d = w->e = 0; /* b4 stays: document 02, request 2026-03 */
    put_writer(state, w);
    return answers(answer, 0, 0, 1, number, entries, taken);
}

static uint32_t record_free(writer *w, uint8_t *group, const uint8_t *data, num n, uint8_t *state, uint8_t *answer)
{
    int64_t r = room(w);
    if ((int64_t)n <= r) {
        lay_part(w, group, ENTIRE, data, n);
        return finish(w, state, answer);
    }
    if (r >= 1) {
        lay_part(w, group, START, data, (num)r);
        w->r.phase = INSIDE;
        w->r.sum = (num)r;
        w->rest = n - (num)r;
        return close_group(w, group, (num)r, state, answer);
    }
    return close_group(w, group, 0, state, answer);
}

static uint32_t record_inside(writer *w, uint8_t *group, const uint8_t *data, num n, uint8_t *state, uint8_t *answer)
{
    num part = n > w->r.size - 40 ? w->r.size - 40 : n;
    lay_part(w, group, part < n ? MIDDLE : LAST, data, part);
    w->r.sum += part;
    w->rest = n - part;
    if (part < n) return close_group(w, group, part, state, answer);
    if (n <= w->r.size - 44) {
        lay_entry(w, group, TOTAL, w->r.sum);
        w->r.phase = FREE;
        w->r.sum = 0;
        return finish(w, state, answer);
    }
    w->r.phase = OWED;
    return close_group(w, group, n, state, answer);
}

uint32_t MODEL(record)(uint8_t *state, size_t state_len, uint8_t *group, size_t group_len, const uint8_t *data,
                       size_t data_len, uint32_t warn, uint8_t *answer, size_t answer_len)
{
    writer w;
    if (state_len != 32 || answer_len != 24) return 1;
    w = get_writer(state);
    if (!writer_sound(&w) || warn > 1) return refused(answer, 1, 0);
    if (group_len != w.r.size) return refused(answer, 4, 0);
    if (w.r.next == LAST_NUMBER + 1) return refused(answer, 14, 0);
    if (!record_in_range(data_len)) return refused(answer, 15, 0);
    if (w.r.phase == INSIDE && data_len != w.rest) return refused(answer, 16, 0);
    begin(&w, group, warn);
    if (w.r.phase == INSIDE) return record_inside(&w, group, data, data_len, state, answer);
    return record_free(&w, group, data, data_len, state, answer);
}

uint32_t MODEL(separator)(uint8_t *state, size_t state_len, uint8_t *group, size_t group_len, uint32_t value,
                          uint32_t warn, uint8_t *answer, size_t answer_len)
{
    writer w;
    if (state_len != 32 || answer_len != 24) return 1;
    w = get_writer(state);
    if (!writer_sound(&w) || warn > 1) return refused(answer, 1, 0);
    if (group_len != w.r.size) return refused(answer, 4, 0);
    if (w.r.next == LAST_NUMBER + 1) return refused(answer, 14, 0);
    if (w.r.phase == INSIDE) return refused(answer, 17, 0);
    if (value > 1) return refused(answer, 18, 0);
    begin(&w, group, warn);
    if (room(&w) < 0) return close_group(&w, group, 0, state, answer);
    lay_entry(&w, group, SEPARATOR, value);
    return finish(&w, state, answer);
}

uint32_t MODEL(end)(uint8_t *state, size_t state_len, uint8_t *group, size_t group_len, uint32_t warn, uint8_t *answer,
                    size_t answer_len)
{
    writer w;
    if (state_len != 32 || answer_len != 24) return 1;
    w = get_writer(state);
    if (!writer_sound(&w) || warn > 1) return refused(answer, 1, 0);
    if (group_len != w.r.size) return refused(answer, 4, 0);
    if (w.r.phase == INSIDE) return refused(answer, 17, 0);
    if (w.r.phase == OWED && w.r.next == LAST_NUMBER + 1) return refused(answer, 14, 0);
    if (w.r.phase == FREE && w.e == 0) return finished(answer);
    begin(&w, group, warn);
    return close_group(&w, group, 0, state, answer);
}
