/* The reading and the search of change request 2026-09 in plain C as a firmware engineer would write them for speed: the scan and
   the rows of plain.c, with the rule of the block size in the scan. They stand here again so that plain.c is compiled as it was.
   Only the bench uses it. Built twice, as -DPREFIX=plain2_ and -DPREFIX=plain3_. */

#include <stddef.h>
#include <stdint.h>
#include <string.h>

#define JOINED(prefix, name) prefix##name
#define JOIN(prefix, name) JOINED(prefix, name)
#define CALL(name) JOIN(PREFIX, name)

enum { TOTAL = 1, SEPARATOR, MIDDLE, START, LAST, ENTIRE, SKIP };
enum { FREE, INSIDE, OWED, PARTED, ENDED }; /* the last two within a group: after a start or middle, after a last */
enum { STANDARD = 126632, LONGEST = 16777215, NO_NUMBER = 65536, MOST_OWING = 43 };
enum { STATE_LEN = 28, ANSWER_LEN = 24 };

/* a number from or to its four bytes, most significant first, moved as one word */
static inline uint32_t turned(uint32_t n)
{
#if defined(__BYTE_ORDER__) && __BYTE_ORDER__ == __ORDER_BIG_ENDIAN__
    return n;
#else
    return __builtin_bswap32(n);
#endif
}

static inline uint32_t load32(const uint8_t *p)
{
    uint32_t n;
    memcpy(&n, p, 4);
    return turned(n);
}

static inline void store32(uint8_t *p, uint32_t n)
{
    n = turned(n);
    memcpy(p, &n, 4);
}

static uint32_t answer_with(uint8_t *answer, uint32_t refusal, uint32_t place, uint32_t outcome, uint32_t offset)
{
    memset(answer, 0, ANSWER_LEN);
    store32(answer, refusal);
    store32(answer + 4, place);
    store32(answer + 8, outcome);
    store32(answer + 12, offset);
    return refusal;
}

static uint32_t refuse(uint8_t *answer, uint32_t refusal, uint32_t place)
{
    return answer_with(answer, refusal, place, 0, 0);
}

uint32_t CALL(blocks_start)(uint32_t size, uint32_t first, uint32_t block, uint8_t *state, size_t state_len, uint8_t *answer,
                            size_t answer_len)
{
    if (state_len != STATE_LEN || answer_len != ANSWER_LEN) return 1;
    if (size < 64 || size > STANDARD) return refuse(answer, 2, 0);
    if (first < 1 || first >= NO_NUMBER) return refuse(answer, 3, 0);
    if (block < 1 || block > LONGEST) return refuse(answer, 50, 0);
    memset(state, 0, STATE_LEN);
    store32(state, size);
    store32(state + 4, first);
    store32(state + 24, block);
    return refuse(answer, 0, 0);
}

/* ---- Reading */

static const uint8_t kind_and_b4[256] = { /* kind * 2 + b4; 0 where the flag is unknown */
    [0x01] = 2, [0x09] = 3, [0x07] = 4, [0x0F] = 5, [0x40] = 6, [0x48] = 7, [0x42] = 8, [0x4A] = 9,
    [0x60] = 10, [0x68] = 11, [0x63] = 12, [0x6B] = 13, [0x80] = 14, [0x88] = 15,
};

static const uint8_t allowed[5] = { /* bit k: kind k may stand there */
    1 << SEPARATOR | 1 << START | 1 << ENTIRE | 1 << SKIP, 1 << MIDDLE | 1 << LAST, 1 << TOTAL, 1 << SKIP, 1 << TOTAL | 1 << SKIP,
};

/* what goes on from group to group, and the block size, which stays */
typedef struct { uint32_t phase, sum, b4, block; } carried;

/* 0 and what the group leaves, or the refusal and its place */
static uint32_t judge(const uint8_t *group, uint32_t size, uint32_t n, carried *c, uint32_t *place)
{
    const uint8_t *entry = group + size - 32;
    uint32_t limit = size - 32 - 4 * n, where = c->phase, sum = c->sum, data = 0, b4 = c->b4, block = c->block, k;
    for (k = 1; k <= n; k++) {
        uint32_t word, count, code, kind;
        entry -= 4;
        word = load32(entry);
        count = word & 0xFFFFFF;
        code = kind_and_b4[word >> 24];
        kind = code >> 1;
        *place = k;
        if (code == 0) return 8;
        if (b4 > (code & 1)) return 9;
        b4 = code & 1;
        if (!(allowed[where] >> kind & 1) || (kind == SKIP) != (k == n)) return 10;
        switch (kind) {
        case SEPARATOR:
            if (count > 1) return 20;
            where = FREE;
            continue;
        case TOTAL:
            if (count != sum) return 22;
            if (count != block) return 51;
            sum = 0;
            where = FREE;
            continue;
        case ENTIRE:
            if (count == 0) return 19;
            if (count > limit - data) return 12;
            if (count != block) return 51;
            data += count;
            where = FREE;
            continue;
        case START:
            if (count == 0) return 19;
            if (count == LONGEST) return 21;
            sum = count;
            where = PARTED;
            break;
        case MIDDLE:
            if (count == 0) return 19;
            if (sum + count >= LONGEST) return 21;
            sum += count;
            where = PARTED;
            break;
        case LAST:
            if (count == 0) return 19;
            if (sum + count > LONGEST) return 21;
            sum += count;
            where = ENDED;
            break;
        default:
            if (count != size - data) return 13;
            if (where == ENDED && count > MOST_OWING) return 23;
            continue;
        }
        if (count > limit - data) return 12;
        data += count;
    }
    c->phase = where == PARTED ? INSIDE : where == ENDED ? OWED : where;
    c->sum = sum;
    c->b4 = b4;
    return 0;
}

static void fill_rows(const uint8_t *group, uint32_t size, uint32_t n, uint8_t *rows)
{
    const uint8_t *entry = group + size - 32;
    uint32_t data = 0, k;
    for (k = 0; k < n; k++, rows += 12) {
        uint32_t word, count, kind;
        entry -= 4;
        word = load32(entry);
        count = word & 0xFFFFFF;
        kind = (uint32_t)kind_and_b4[word >> 24] >> 1;
        store32(rows, kind);
        store32(rows + 4, data);
        store32(rows + 8, count);
        data += kind - MIDDLE <= ENTIRE - MIDDLE ? count : 0;
    }
}

static int sound(uint32_t size, uint32_t next, uint32_t accepted, const carried *c)
{
    if (size < 64 || size > STANDARD || next < 1 || next > NO_NUMBER) return 0;
    if (c->b4 > 1 || accepted > 1 || (next == 1 && accepted) || c->block < 1 || c->block > LONGEST) return 0;
    if (c->phase == FREE) return c->sum == 0;
    if (c->phase == INSIDE) return c->sum >= 1 && c->sum < LONGEST;
    return c->phase == OWED && c->sum >= 2 && c->sum <= LONGEST;
}

uint32_t CALL(blocks_read)(uint8_t *state, size_t state_len, const uint8_t *group, size_t group_len, uint32_t number,
                           uint32_t entries, uint8_t *rows, size_t rows_len, uint8_t *answer, size_t answer_len)
{
    uint32_t size, next, accepted, place, refusal;
    carried c;
    if (state_len != STATE_LEN || answer_len != ANSWER_LEN) return 1;
    size = load32(state);
    next = load32(state + 4);
    c.phase = load32(state + 8);
    c.sum = load32(state + 12);
    c.b4 = load32(state + 16);
    accepted = load32(state + 20);
    c.block = load32(state + 24);
    if (!sound(size, next, accepted, &c)) return refuse(answer, 1, 0);
    if (group_len != size) return refuse(answer, 4, 0);
    if (number != next || number == NO_NUMBER) { /* a repeat is looked for here, where an accepted group does not come */
        if (accepted && number + 1 == next) return answer_with(answer, 0, 0, 2, 0);
        return refuse(answer, 5, 0);
    }
    if (entries < 1 || entries > (size - 32) / 4) return refuse(answer, 6, 0);
    if (rows_len < 12 * (size_t)entries) return refuse(answer, 7, 0);
    refusal = judge(group, size, entries, &c, &place);
    if (refusal) return refuse(answer, refusal, place);
    fill_rows(group, size, entries, rows);
    store32(state + 4, next + 1);
    store32(state + 8, c.phase);
    store32(state + 12, c.sum);
    store32(state + 16, c.b4);
    store32(state + 20, 1);
    return refuse(answer, 0, 0);
}

/* ---- The search */

uint32_t CALL(blocks_find)(const uint8_t *rows, size_t rows_len, uint32_t before, uint32_t block, uint8_t *answer,
                           size_t answer_len)
{
    size_t left = rows_len / 12;
    uint32_t ahead = block - before; /* blocks that begin here before the one that is sought */
    if (answer_len != ANSWER_LEN) return 1;
    if (block < before) return refuse(answer, 0, 0);
    for (; left > 0; left--, rows += 12)
        if ((load32(rows) | 2) == ENTIRE && ahead-- == 0) return answer_with(answer, 0, 0, 1, load32(rows + 4)); /* a start too */
    return refuse(answer, 0, 0);
}
