/* The rules of document 01 in plain C as a firmware engineer would write them for speed: whole words, one table for the
   flags, memcpy and memset. Only the bench uses it. Built twice, as -DPREFIX=plain2_ and -DPREFIX=plain3_. */

#include <stddef.h>
#include <stdint.h>
#include <string.h>

#define JOINED(prefix, name) prefix##name
#define JOIN(prefix, name) JOINED(prefix, name)
#define CALL(name) JOIN(PREFIX, name)

enum { TOTAL = 1, SEPARATOR, MIDDLE, START, LAST, ENTIRE, SKIP };
enum { FREE, INSIDE, OWED, PARTED, ENDED }; /* the last two within a group: after a start or middle, after a last */
enum { STANDARD = 126632, LONGEST = 16777215, NO_NUMBER = 65536, MOST_OWING = 43 };
enum { READER_LEN = 24, WRITER_LEN = 32, ANSWER_LEN = 24 };

/* a number from or to its four bytes, most significant first, moved as one word */
static inline uint32_t turned(uint32_t n)
{
#if defined(__BYTE_ORDER__) && __BYTE_ORDER__ == __ORDER_BIG_ENDIAN__
    return n;
#else
    return __builtin_bswap32(n);
#endif
}

static inline uint32_t load32(const uint8_t *p)
{
    uint32_t n;
    memcpy(&n, p, 4);
    return turned(n);
}

static inline void store32(uint8_t *p, uint32_t n)
{
    n = turned(n);
    memcpy(p, &n, 4);
}

static uint32_t answer_with(uint8_t *answer, uint32_t refusal, uint32_t place, uint32_t outcome, uint32_t number,
                            uint32_t entries, uint32_t taken)
{
    store32(answer, refusal);
    store32(answer + 4, place);
    store32(answer + 8, outcome);
    store32(answer + 12, number);
    store32(answer + 16, entries);
    store32(answer + 20, taken);
    return refusal;
}

static uint32_t refuse(uint8_t *answer, uint32_t refusal, uint32_t place)
{
    return answer_with(answer, refusal, place, 0, 0, 0, 0);
}

static int common_sound(uint32_t size, uint32_t next, uint32_t phase, uint32_t sum)
{
    if (size < 64 || size > STANDARD || next < 1 || next > NO_NUMBER) return 0;
    if (phase == FREE) return sum == 0;
    if (phase == INSIDE) return sum >= 1 && sum < LONGEST;
    return phase == OWED && sum >= 2 && sum <= LONGEST;
}

static uint32_t start(uint32_t size, uint32_t first, uint8_t *state, size_t len, uint8_t *answer)
{
    if (size < 64 || size > STANDARD) return refuse(answer, 2, 0);
    if (first < 1 || first >= NO_NUMBER) return refuse(answer, 3, 0);
    memset(state, 0, len);
    store32(state, size);
    store32(state + 4, first);
    return refuse(answer, 0, 0);
}

uint32_t CALL(reader_start)(uint32_t size, uint32_t first, uint8_t *state, size_t state_len, uint8_t *answer, size_t answer_len)
{
    if (state_len != READER_LEN || answer_len != ANSWER_LEN) return 1;
    return start(size, first, state, READER_LEN, answer);
}

uint32_t CALL(writer_start)(uint32_t size, uint32_t first, uint8_t *state, size_t state_len, uint8_t *answer, size_t answer_len)
{
    if (state_len != WRITER_LEN || answer_len != ANSWER_LEN) return 1;
    return start(size, first, state, WRITER_LEN, answer);
}

/* ---- Reading */

static const uint8_t kind_and_b4[256] = { /* kind * 2 + b4; 0 where the flag is unknown */
    [0x01] = 2, [0x09] = 3, [0x07] = 4, [0x0F] = 5, [0x40] = 6, [0x48] = 7, [0x42] = 8, [0x4A] = 9,
    [0x60] = 10, [0x68] = 11, [0x63] = 12, [0x6B] = 13, [0x80] = 14, [0x88] = 15,
};

static const uint8_t allowed[5] = { /* bit k: kind k may stand there */
    1 << SEPARATOR | 1 << START | 1 << ENTIRE | 1 << SKIP, 1 << MIDDLE | 1 << LAST, 1 << TOTAL, 1 << SKIP, 1 << TOTAL | 1 << SKIP,
};

/* what goes on from group to group */
typedef struct { uint32_t phase, sum, b4; } carried;

/* 0 and what the group leaves, or the refusal and its place */
static uint32_t judge(const uint8_t *group, uint32_t size, uint32_t n, carried *c, uint32_t *place)
{
    const uint8_t *entry = group + size - 32;
    uint32_t limit = size - 32 - 4 * n, where = c->phase, sum = c->sum, data = 0, b4 = c->b4, k;
    for (k = 1; k <= n; k++) {
        uint32_t word, count, code, kind;
        entry -= 4;
        word = load32(entry);
        count = word & 0xFFFFFF;
        code = kind_and_b4[word >> 24];
        kind = code >> 1;
        *place = k;
        if (code == 0) return 8;
        if (b4 > (code & 1)) return 9;
        b4 = code & 1;
        if (!(allowed[where] >> kind & 1) || (kind == SKIP) != (k == n)) return 10;
        switch (kind) {
        case SEPARATOR:
            if (count > 1) return 20;
            where = FREE;
            continue;
        case TOTAL:
            if (count != sum) return 22;
            sum = 0;
            where = FREE;
            continue;
        case ENTIRE:
            if (count == 0) return 19;
            where = FREE;
            break;
        case START:
            if (count == 0) return 19;
            if (count == LONGEST) return 21;
            sum = count;
            where = PARTED;
            break;
        case MIDDLE:
            if (count == 0) return 19;
            if (sum + count >= LONGEST) return 21;
            sum += count;
            where = PARTED;
            break;
        case LAST:
            if (count == 0) return 19;
            if (sum + count > LONGEST) return 21;
            sum += count;
            where = ENDED;
            break;
        default:
            if (count != size - data) return 13;
            if (where == ENDED && count > MOST_OWING) return 23;
            continue;
        }
        if (count > limit - data) return 12;
        data += count;
    }
    c->phase = where == PARTED ? INSIDE : where == ENDED ? OWED : where;
    c->sum = sum;
    c->b4 = b4;
    return 0;
}

static void fill_rows(const uint8_t *group, uint32_t size, uint32_t n, uint8_t *rows)
{
    const uint8_t *entry = group + size - 32;
    uint32_t data = 0, k;
    for (k = 0; k < n; k++, rows += 12) {
        uint32_t word, count, kind;
        entry -= 4;
        word = load32(entry);
        count = word & 0xFFFFFF;
        kind = (uint32_t)kind_and_b4[word >> 24] >> 1;
        store32(rows, kind);
        store32(rows + 4, data);
        store32(rows + 8, count);
        data += kind - MIDDLE <= ENTIRE - MIDDLE ? count : 0;
    }
}

uint32_t CALL(read)(uint8_t *state, size_t state_len, const uint8_t *group, size_t group_len, uint32_t number, uint32_t entries,
                    uint8_t *rows, size_t rows_len, uint8_t *answer, size_t answer_len)
{
    uint32_t size, next, accepted, place, refusal;
    carried c;
    if (state_len != READER_LEN || answer_len != ANSWER_LEN) return 1;
    size = load32(state);
    next = load32(state + 4);
    c.phase = load32(state + 8);
    c.sum = load32(state + 12);
    c.b4 = load32(state + 16);
    accepted = load32(state + 20);
    if (c.b4 > 1 || accepted > 1 || !common_sound(size, next, c.phase, c.sum)) return refuse(answer, 1, 0);
    if (next == 1 && accepted) return refuse(answer, 1, 0);
    if (group_len != size) return refuse(answer, 4, 0);
    if (number != next || number == NO_NUMBER) { /* a repeat is looked for here, where an accepted group does not come */
        if (accepted && number + 1 == next) return answer_with(answer, 0, 0, 2, 0, 0, 0);
        return refuse(answer, 5, 0);
    }
    if (entries < 1 || entries > (size - 32) / 4) return refuse(answer, 6, 0);
    if (rows_len < 12 * (size_t)entries) return refuse(answer, 7, 0);
    refusal = judge(group, size, entries, &c, &place);
    if (refusal) return refuse(answer, refusal, place);
    fill_rows(group, size, entries, rows);
    store32(state + 4, next + 1);
    store32(state + 8, c.phase);
    store32(state + 12, c.sum);
    store32(state + 16, c.b4);
    store32(state + 20, 1);
    return refuse(answer, 0, 0);
}

/* ---- Writing */

typedef struct { uint32_t size, next, phase, sum, data, entries, b4, rest; } writer;

static const uint8_t flag_of[8] = { 0, 0x01, 0x07, 0x40, 0x42, 0x60, 0x63, 0x80 };

static void load(writer *w, const uint8_t *s)
{
    w->size = load32(s); w->next = load32(s + 4); w->phase = load32(s + 8); w->sum = load32(s + 12);
    w->data = load32(s + 16); w->entries = load32(s + 20); w->b4 = load32(s + 24); w->rest = load32(s + 28);
}

static void store(const writer *w, uint8_t *s)
{
    store32(s + 4, w->next); store32(s + 8, w->phase); store32(s + 12, w->sum);
    store32(s + 16, w->data); store32(s + 20, w->entries); store32(s + 24, w->b4); store32(s + 28, w->rest);
}

/* refusals 1 and 4; 0 where neither */
static uint32_t unfit(writer *w, const uint8_t *state, size_t group_len, uint32_t warn)
{
    load(w, state);
    if (warn > 1 || w->b4 > 1 || !common_sound(w->size, w->next, w->phase, w->sum)) return 1;
    if (w->entries == 0 && w->data != 0) return 1;
    if (w->entries != 0 && (w->phase != FREE || w->next == NO_NUMBER)) return 1;
    if (w->data > STANDARD || w->entries > STANDARD || w->data + 36 + 4 * w->entries > w->size) return 1;
    if (w->phase == INSIDE ? w->rest < 1 || w->rest > LONGEST - w->sum : w->rest != 0) return 1;
    return group_len != w->size ? 4 : 0;
}

static inline void lay(writer *w, uint8_t *group, uint32_t kind, uint32_t count)
{
    w->entries++;
    store32(group + w->size - 32 - 4 * w->entries, (uint32_t)(flag_of[kind] | w->b4 << 3) << 24 | count);
}

static void lay_part(writer *w, uint8_t *group, uint32_t kind, const uint8_t *data, uint32_t n)
{
    memcpy(group + w->data, data, n);
    w->data += n;
    lay(w, group, kind, n);
}

static void begin(writer *w, uint8_t *group, uint32_t warn)
{
    w->b4 |= warn;
    if (w->phase != OWED) return;
    lay(w, group, TOTAL, w->sum);
    w->phase = FREE;
    w->sum = 0;
}

static uint32_t finishes(const writer *w, uint8_t *state, uint8_t *answer)
{
    store(w, state);
    return refuse(answer, 0, 0);
}

static uint32_t closes(writer *w, uint8_t *group, uint32_t taken, uint8_t *state, uint8_t *answer)
{
    uint32_t entries;
    lay(w, group, SKIP, w->size - w->data);
    entries = w->entries;
    memset(group + w->data, 0, w->size - 32 - 4 * entries - w->data);
    w->next++;
    w->data = w->entries = 0;
    store(w, state);
    return answer_with(answer, 0, 0, 1, w->next - 1, entries, taken);
}

static int32_t room(const writer *w) { return (int32_t)w->size - 40 - 4 * (int32_t)w->entries - (int32_t)w->data; }

uint32_t CALL(record)(uint8_t *state, size_t state_len, uint8_t *group, size_t group_len, const uint8_t *data, size_t data_len,
                      uint32_t warn, uint8_t *answer, size_t answer_len)
{
    writer w;
    uint32_t n, refusal;
    int32_t r;
    if (state_len != WRITER_LEN || answer_len != ANSWER_LEN) return 1;
    refusal = unfit(&w, state, group_len, warn);
    if (refusal) return refuse(answer, refusal, 0);
    if (w.next == NO_NUMBER) return refuse(answer, 14, 0);
    if (data_len < 1 || data_len > LONGEST) return refuse(answer, 15, 0);
    n = (uint32_t)data_len;
    if (w.phase == INSIDE && n != w.rest) return refuse(answer, 16, 0);
    begin(&w, group, warn);
    if (w.phase == INSIDE) {
        uint32_t most = w.size - 40;
        if (n > most) {
            lay_part(&w, group, MIDDLE, data, most);
            w.sum += most;
            w.rest -= most;
            return closes(&w, group, most, state, answer);
        }
        lay_part(&w, group, LAST, data, n);
        w.sum += n;
        w.rest = 0;
        w.phase = OWED;
        if (n > most - 4) return closes(&w, group, n, state, answer);
        begin(&w, group, 0);
        return finishes(&w, state, answer);
    }
    r = room(&w);
    if ((int32_t)n <= r) {
        lay_part(&w, group, ENTIRE, data, n);
        return finishes(&w, state, answer);
    }
    if (r < 1) return closes(&w, group, 0, state, answer);
    lay_part(&w, group, START, data, (uint32_t)r);
    w.phase = INSIDE;
    w.sum = (uint32_t)r;
    w.rest = n - (uint32_t)r;
    return closes(&w, group, (uint32_t)r, state, answer);
}

uint32_t CALL(separator)(uint8_t *state, size_t state_len, uint8_t *group, size_t group_len, uint32_t value, uint32_t warn,
                         uint8_t *answer, size_t answer_len)
{
    writer w;
    uint32_t refusal;
    if (state_len != WRITER_LEN || answer_len != ANSWER_LEN) return 1;
    refusal = unfit(&w, state, group_len, warn);
    if (refusal) return refuse(answer, refusal, 0);
    if (w.next == NO_NUMBER) return refuse(answer, 14, 0);
    if (w.phase == INSIDE) return refuse(answer, 17, 0);
    if (value > 1) return refuse(answer, 18, 0);
    begin(&w, group, warn);
    if (room(&w) < 0) return closes(&w, group, 0, state, answer);
    lay(&w, group, SEPARATOR, value);
    return finishes(&w, state, answer);
}

uint32_t CALL(end)(uint8_t *state, size_t state_len, uint8_t *group, size_t group_len, uint32_t warn, uint8_t *answer,
                   size_t answer_len)
{
    writer w;
    uint32_t refusal;
    if (state_len != WRITER_LEN || answer_len != ANSWER_LEN) return 1;
    refusal = unfit(&w, state, group_len, warn);
    if (refusal) return refuse(answer, refusal, 0);
    if (w.phase == INSIDE) return refuse(answer, 17, 0);
    if (w.phase == OWED && w.next == NO_NUMBER) return refuse(answer, 14, 0);
    if (w.phase == FREE && w.entries == 0) return refuse(answer, 0, 0);
    begin(&w, group, warn);
    return closes(&w, group, 0, state, answer);
}
