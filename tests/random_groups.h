/* What the random tests of the calls on groups share, random.c, explain_random.c and blocks_random.c: numbers near every bound;
   states sound, nearly sound and garbage; groups random, lawful, spoilt and owing a total; every flag at each place of a scan. */

#ifndef RANDOM_GROUPS_H
#define RANDOM_GROUPS_H

#include "groups.h"
#include "pair.h"

/* numbers near every bound of document 01 */
static inline uint32_t bound(void)
{
    static const uint32_t bounds[] = { 0, 1, 2, 3, 20, 24, 28, 32, 40, 44, 63, 64, 65, 255, 256, 4096, 31649, 65535, 65536, 65537,
        126592, 126632, 126633, 16777213, 16777214, 16777215, 16777216, 0x3FFFFFFF, 0x40000000, 0x80000000, 0xFFFFFFD8,
        0xFFFFFFFF };
    uint32_t n = bounds[below(sizeof bounds / sizeof *bounds)];
    switch (below(6)) {
    case 0: return rnd();
    case 1: return n + below(5) - 2;
    case 2: return below(200);
    default: return n;
    }
}

static inline uint32_t some_size(void)
{
    if (one_in(3000)) return LARGEST;
    if (one_in(50)) return 64 + below(2000);
    return 64 + below(one_in(3) ? 4 : 80);
}

/* phase and sum, sound together */
static inline uint32_t some_phase(uint32_t *sum)
{
    uint32_t phase = below(3);
    *sum = one_in(8) ? 16777215 - below(40) : 2 + below(300);
    if (phase == DDS_PHASE_INSIDE && *sum == 16777215) --*sum;
    if (phase == DDS_PHASE_FREE) *sum = 0;
    return phase;
}

static inline uint32_t some_number(void) { return one_in(20) ? 65536 - below(2) : one_in(20) ? 1 + below(2) : 1 + below(65535); }

static inline void sound_reader(uint8_t *state, uint32_t size)
{
    uint32_t sum, phase = some_phase(&sum), next = some_number();
    put_reader(state, size, next, phase, sum, below(2), next == 1 ? 0 : below(2));
}

static inline void sound_writer(uint8_t *state, uint32_t size)
{
    uint32_t sum, phase = some_phase(&sum), next = some_number(), data = 0, entries = 0, rest = 0;
    if (phase == DDS_PHASE_INSIDE) {
        rest = one_in(3) ? size - 46 + below(8) : 1 + below(3 * size);
        if (rest > 16777215 - sum) rest = 16777215 - sum;
    } else if (phase == DDS_PHASE_FREE && next < 65536 && !one_in(4)) {
        uint32_t most = (size - 32) / 4 - 1, room;
        entries = 1 + below(one_in(2) ? most : most < 4 ? most : 4);
        room = size - 32 - 4 * (entries + 1);
        data = one_in(2) ? below(room + 1) : room - below(room < 9 ? room + 1 : 9);
    }
    put_writer(state, size, next, phase, sum, data, entries, below(2), rest);
}

/* a lawful table of n entries where there is one, from the state's phase and b4 on; where there is none, whatever comes */
static inline void lawful(uint8_t *group, uint32_t size, uint32_t n, uint32_t phase, uint32_t sum, uint32_t warned)
{
    static const uint8_t flag[8] = { 0, 0x01, 0x07, 0x40, 0x42, 0x60, 0x63, 0x80 };
    uint32_t k, data = 0, room = size - 32 - 4 * n, b4 = warned ? 0 : one_in(2) ? n : below(n + 1);
    int where = (int)phase; /* 3: skip only; 4: after a last */
    for (k = 1; k <= n; k++) {
        uint32_t kind, count, left = room - data;
        if (k == n) kind = 7;
        else if (where == 1) kind = k + 1 == n && one_in(2) ? 3 : 5;
        else if (where == 2 || where == 4) kind = 1;
        else if (k + 1 == n && left && one_in(2)) kind = 4;
        else kind = left && one_in(2) ? 6 : 2;
        count = left == 0 ? 0 : one_in(4) ? left : 1 + below(one_in(2) ? left : left < 6 ? left : 6);
        if (kind == 5 && k + 1 == n) count = left - below(4); /* no room for the total, which is owed */
        if (kind == 7) count = size - data;
        else if (kind == 1) count = sum;
        else if (kind == 2) count = below(2);
        else data += count;
        where = kind == 3 || kind == 4 ? 3 : kind == 5 ? 4 : 0;
        sum = kind == 4 ? count : kind == 3 || kind == 5 ? sum + count : 0;
        put(group + size - 32 - 4 * k, (uint32_t)(flag[kind] | (k > b4 ? 8 : 0)) << 24 | (count & 0xFFFFFF));
    }
}

/* a last and a skip, two entries, whose counts add up to the size: the total is owed for want of room, or too early */
static inline void owing(uint8_t *group, uint32_t size, uint32_t warned, uint32_t *n)
{
    uint32_t skip = 40 + below(one_in(2) ? 8 : size - 40), b4 = warned ? 0 : below(3);
    *n = 2;
    put(group + size - 36, (b4 < 1 ? 0x68000000 : 0x60000000) | (size - skip));
    put(group + size - 40, (b4 < 2 ? 0x88000000 : 0x80000000) | skip);
}

static inline void spoil(uint8_t *group, uint32_t size, uint32_t n)
{
    static const uint8_t flags[] = { 0x01, 0x07, 0x40, 0x42, 0x60, 0x63, 0x80, 0x09, 0x0F, 0x48, 0x4A, 0x68, 0x6B, 0x88, 0x43,
        0x00 };
    uint32_t times = 1 + below(2), k, j;
    while (times--) {
        uint8_t *e = group + size - 32 - 4 * (k = 1 + below(n)), *f = group + size - 32 - 4 * (j = 1 + below(n)), swap[4];
        switch (below(7)) {
        case 0: e[0] = flags[below(sizeof flags)]; break;
        case 1: e[0] ^= (uint8_t)(1u << below(8)); break;
        case 2: e[0] ^= 0x08; break;
        case 3: put(e, get(e) + 1); break;
        case 4: put(e, get(e) - 1); break;
        case 5: put(e, (get(e) & 0xFF000000) | (bound() & 0xFFFFFF)); break;
        case 6: memcpy(swap, e, 4); memcpy(e, f, 4); memcpy(f, swap, 4); break;
        }
    }
}

/* one field of a state, by chance */
static inline uint8_t *some_field(const slice *state) { return state->at + 4 * below((uint32_t)state->len / 4); }

static inline uint32_t field(const desk *d, uint32_t at) { return get(d->of[STATE].at + at); }

/* a state for this call, sound, sound but for a field or two, or garbage; a group of its size, an answer */
static inline void some_state(desk *d, size_t len, uint32_t size)
{
    uint32_t how = below(10), i;
    slice *state = &d->of[STATE];
    resize(state, len);
    if (len == DDS_READER_LEN) sound_reader(state->at, size); else sound_writer(state->at, size);
    if (how == 0) fill(state);
    if (how == 1) for (i = 0; i < len; i += 4) put(state->at + i, bound());
    if (how == 2 || how == 3) put(some_field(state), bound());
    if (how == 3) put(some_field(state), bound());
    size = field(d, DDS_STATE_SIZE);
    resize(&d->of[GROUP], size >= 64 && size <= LARGEST ? size : 64);
    resize(&d->of[ANSWER], DDS_ANSWER_LEN);
    memset(d->of[ANSWER].at, (int)below(256), DDS_ANSWER_LEN);
}

/* the next number, often the one before it, seldom any */
static inline uint32_t some_group(const desk *d)
{
    if (one_in(60)) return bound();
    return field(d, DDS_STATE_NEXT) - (one_in(6) ? 1 : 0);
}

/* a group to be read: its state, its bytes, its number and entry count, and rows */
static inline uint32_t some_read(desk *d, uint32_t *entries)
{
    slice *group = &d->of[GROUP], *rows = &d->of[ROWS];
    uint32_t size, n, most, how = below(8), number;
    some_state(d, DDS_READER_LEN, some_size());
    if (one_in(20)) put(d->of[STATE].at + DDS_READER_ACCEPTED, below(3));
    size = (uint32_t)group->len;
    most = (size - 32) / 4;
    n = 1 + below(one_in(4) || most < 6 ? most : 6);
    memset(group->at, (int)below(256), size);
    if (how == 0) {
        fill(group);
    } else {
        uint32_t phase = field(d, DDS_STATE_PHASE), b4 = field(d, DDS_READER_B4);
        if (phase == DDS_PHASE_INSIDE && one_in(4)) owing(group->at, size, b4, &n);
        else lawful(group->at, size, n, phase, field(d, DDS_STATE_SUM), b4);
        if (how > 3) spoil(group->at, size, n);
    }
    number = some_group(d);
    if (one_in(60)) n = bound();
    resize(rows, n > most ? below(200) : one_in(60) ? below(12 * n + 1) : 12 * n + below(20));
    memset(rows->at, (int)below(256), rows->len);
    *entries = n;
    return number;
}

/* every flag at an entry: at each place of a scan, by a state with b4 clear and set, with counts that suit a kind and counts
   that do not; as the last entry, before a skip as if its count were data, and before one as if it were not. Each is handed to
   `read`. */
static inline void every_flag(desk *d, void (*read)(desk *d, uint32_t number, uint32_t entries))
{
    static const struct { uint32_t phase, before; } places[] = { { 0, 0 }, { 1, 0 }, { 2, 0 }, { 0, 0x07000000 },
        { 2, 0x01000009 }, { 0, 0x63000001 }, { 0, 0x42000001 }, { 1, 0x40000001 }, { 1, 0x60000001 }, { 1, 0x60000014 },
        { 1, 0x60000015 } };
    static const uint32_t counts[] = { 0, 1, 2, 9, 10, 29, 43, 44, 63, 64 };
    uint32_t place, b4, flag, count, behind;
    resize(&d->of[STATE], DDS_READER_LEN);
    resize(&d->of[GROUP], 64);
    resize(&d->of[ANSWER], DDS_ANSWER_LEN);
    for (place = 0; place < sizeof places / sizeof *places; place++)
        for (b4 = 0; b4 < 2; b4++)
            for (flag = 0; flag < 256; flag++)
                for (count = 0; count < sizeof counts / sizeof *counts; count++)
                    for (behind = 0; behind < 3; behind++) {
                        uint32_t n = 0, data = places[place].before >> 30 & 1 ? places[place].before & 0xFFFFFF : 0;
                        put_reader(d->of[STATE].at, 64, 7, places[place].phase, places[place].phase ? 9 : 0, b4, 0);
                        memset(d->of[GROUP].at, LENT, 64);
                        if (places[place].before) put(entry(&d->of[GROUP], ++n), places[place].before | b4 << 27);
                        put(entry(&d->of[GROUP], ++n), flag << 24 | counts[count]);
                        if (behind == 1) data += counts[count];
                        if (behind) put(entry(&d->of[GROUP], ++n), 0x88000000 | ((64 - data) & 0xFFFFFF));
                        resize(&d->of[ROWS], 12 * (size_t)n);
                        read(d, 7, n);
                    }
}

static inline desk lent_for(size_t data)
{
    desk d = desk_for(READ);
    lend_most(&d, STATE, 64);
    lend_most(&d, GROUP, LARGEST);
    lend_most(&d, ROWS, 3 * LARGEST);
    lend_most(&d, DATA, data);
    lend_most(&d, ANSWER, 64);
    resize(&d.of[ANSWER], DDS_ANSWER_LEN);
    return d;
}

static inline void too_few(long found, long enough, const char *what)
{
    if (found >= enough) return;
    fprintf(stderr, "  %ld %s are too few\n", found, what);
    failures++;
}

#endif
