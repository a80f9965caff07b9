/* Change request 2026-07 in plain C: why a group is refused. It is a second judgement of a group, beside model.c's and in other
   words: every rule is a number that is found and the least and the greatest that are allowed, and it is broken where the number
   is not between them. Two rules have no limits: a flag is one of fourteen, and a kind is one of those permitted. The rules stand
   in the order in which they are looked at, and the first that is broken is the reason. Kinds are their values, 2^(k - 1). */

#include "model.h"

typedef uint64_t num;

enum { TOTAL = 1, SEPARATOR = 2, MIDDLE = 4, START = 8, LAST = 16, ENTIRE = 32, SKIP = 64 };
enum { PARTS = START | MIDDLE | LAST, DATA = PARTS | ENTIRE };

#define LONGEST ((num)16777215)
#define NO_NUMBER ((num)65536)
#define LARGEST_64 (~(num)0) /* "the largest 64-bit number" */

/* ---- The explanation: seven numbers in their order */

typedef struct { num refusal, place, offset, found, least, greatest, kinds; } reason;

static void because(reason *r, num refusal, num found, num least, num greatest, num kinds)
{
    if (r->refusal) return; /* every earlier rule holds */
    r->refusal = refusal;
    r->found = found;
    r->least = least;
    r->greatest = greatest;
    r->kinds = kinds;
}

/* a rule with limits */
static void within(reason *r, num refusal, num found, num least, num greatest)
{
    if (found < least || found > greatest) because(r, refusal, found, least, greatest, 0);
}

static void write_down(const reason *r, uint8_t *explanation)
{
    const num numbers[7] = { r->refusal, r->place, r->offset, r->found, r->least, r->greatest, r->kinds };
    int i, byte;
    for (i = 0; i < 7; i++)
        for (byte = 0; byte < 8; byte++) explanation[8 * i + byte] = (uint8_t)(numbers[i] >> 8 * (7 - byte));
}

/* ---- Where an entry stands: what came before it */

typedef enum { FREE, INSIDE, OWED, AFTER_PART, AFTER_LAST } stand; /* the first three are a state's 0, 1 and 2 */

/* document 01, "Which entry may follow" */
static num may_follow(stand at)
{
    switch (at) {
    case FREE: return START | SEPARATOR | ENTIRE | SKIP;
    case AFTER_PART: return SKIP;
    case INSIDE: return MIDDLE | LAST;
    case AFTER_LAST: return TOTAL | SKIP;
    default: return TOTAL;
    }
}

/* "Skip is always the last entry and stands nowhere else": permitted kinds heed the last place */
static num permitted(stand at, int last_place) { return may_follow(at) & (num)(last_place ? SKIP : ~SKIP); }

/* ---- An entry: its flag, the kind's number with its value, and the count */

typedef struct { num flag, kind, value, b4, count; } entry;

static entry entry_at(const uint8_t *at)
{
    static const uint8_t flags[7] = { 0x01, 0x07, 0x40, 0x42, 0x60, 0x63, 0x80 }; /* of kinds 1 to 7, b4 clear */
    entry e = { 0, 0, 0, 0, 0 };
    num k;
    e.flag = at[0];
    for (k = 1; k <= 7; k++)
        if (e.flag == flags[k - 1] || e.flag == flags[k - 1] + 8u) e.kind = k;
    if (e.kind) e.value = (num)1 << (e.kind - 1);
    e.b4 = e.flag >> 3 & 1;
    e.count = ((num)at[1] * 256 + at[2]) * 256 + at[3];
    return e;
}

/* ---- A reader, and what it carries from entry to entry */

typedef struct { num size, next, phase, sum, b4, accepted; } reader;

static num four(const uint8_t *at) { return (((num)at[0] * 256 + at[1]) * 256 + at[2]) * 256 + at[3]; }

static reader reader_from(const uint8_t *state)
{
    reader r;
    r.size = four(state);
    r.next = four(state + 4);
    r.phase = four(state + 8);
    r.sum = four(state + 12);
    r.b4 = four(state + 16);
    r.accepted = four(state + 20);
    return r;
}

/* documents 01 and 02: each field between its limits, those of the sum by the phase; accepted is 0 at next number 1 */
static int sound(const reader *r)
{
    static const num sums[3][2] = { { 0, 0 }, { 1, 16777214 }, { 2, 16777215 } };
    reason none = { 0, 0, 0, 0, 0, 0, 0 };
    within(&none, 1, r->size, 64, 126632);
    within(&none, 1, r->next, 1, NO_NUMBER);
    within(&none, 1, r->phase, 0, 2);
    if (r->phase <= 2) within(&none, 1, r->sum, sums[r->phase][0], sums[r->phase][1]);
    within(&none, 1, r->b4, 0, 1);
    within(&none, 1, r->accepted, 0, r->next == 1 ? 0 : 1);
    return none.refusal == 0;
}

typedef struct { stand at; num sum, data, b4; } carried;

/* "what the sum leaves": a start or a middle leaves a byte for the last */
static num leaves(const entry *e, num sum)
{
    if (e->value == START) return LONGEST - 1;
    if (e->value == MIDDLE) return LONGEST - 1 - sum;
    return LONGEST - sum;
}

/* the rules of entry k of n */
static void judge(reason *r, const reader *s, const carried *c, const entry *e, num k, num n)
{
    const num kinds = permitted(c->at, k == n), table = s->size - 32 - 4 * n, skip = s->size - c->data;
    if (e->kind == 0) because(r, 8, e->flag, 0, 0, 0);
    if (c->b4) within(r, 9, e->b4, 1, 1);
    if (!(e->value & kinds)) because(r, 10, e->kind, 0, 0, kinds);
    if (e->value & DATA) within(r, 19, e->count, 1, LONGEST);
    if (e->value & SEPARATOR) within(r, 20, e->count, 0, 1);
    if (e->value & PARTS) within(r, 21, e->count, 1, leaves(e, c->sum));
    if (e->value & TOTAL) within(r, 22, e->count, c->sum, c->sum);
    if (e->value & DATA) within(r, 12, c->data + e->count, 0, table);
    if (e->value & SKIP) within(r, 13, e->count, skip, skip);
    if (e->value & SKIP && c->at == AFTER_LAST) within(r, 23, e->count, 0, 43);
    if (r->refusal == 0) return;
    r->place = k;
    r->offset = s->size - 32 - 4 * k;
}

static void carry_on(carried *c, const entry *e)
{
    if (e->value & DATA) c->data += e->count;
    if (e->value == START) c->sum = 0;
    if (e->value & PARTS) c->sum += e->count;
    c->at = e->value == LAST ? AFTER_LAST : e->value & PARTS ? AFTER_PART : FREE;
    c->b4 = e->b4;
}

/* the rules of a group as a whole, and then its entries from 1 on */
static void judge_group(reason *r, const reader *s, const uint8_t *group, num group_len, num number, num n, num rows_len)
{
    carried c;
    num k;
    within(r, 4, group_len, s->size, s->size);
    if (r->refusal) return;
    if (s->accepted && number + 1 == s->next) return; /* a repeat */
    if (s->next == NO_NUMBER) within(r, 5, number, 1, 0); else within(r, 5, number, s->next, s->next);
    within(r, 6, n, 1, (s->size - 32) / 4);
    within(r, 7, rows_len, 12 * n, LARGEST_64);
    c.at = (stand)s->phase;
    c.sum = s->sum;
    c.data = 0;
    c.b4 = s->b4;
    for (k = 1; k <= n && r->refusal == 0; k++) {
        const entry e = entry_at(group + s->size - 32 - 4 * k);
        judge(r, s, &c, &e, k, n);
        carry_on(&c, &e);
    }
}

uint32_t MODEL(explain)(const uint8_t *state, size_t state_len, const uint8_t *group, size_t group_len, uint32_t number,
                        uint32_t entries, const uint8_t *rows, size_t rows_len, uint8_t *explanation, size_t explanation_len)
{
    reason r = { 0, 0, 0, 0, 0, 0, 0 };
    (void)rows; /* lent for its length alone */
    if (explanation_len != 56) return 24;
    if (state_len != 24) {
        r.refusal = 1;
    } else {
        const reader s = reader_from(state);
        if (sound(&s)) judge_group(&r, &s, group, group_len, number, entries, rows_len); else r.refusal = 1;
    }
    write_down(&r, explanation);
    return (uint32_t)r.refusal;
}
