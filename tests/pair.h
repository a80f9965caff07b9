/* What the random tests share: chance from a fixed seed, desks whose slices are not aligned, and a call made by library and model
   on slices alike, the returned number and every slice with its guard bytes then compared byte for byte. */

#ifndef PAIR_H
#define PAIR_H

#include "guard.h"

/* ---- Chance */

static uint64_t seed = 0x9E3779B97F4A7C15u;

static inline uint32_t rnd(void)
{
    seed ^= seed << 13;
    seed ^= seed >> 7;
    seed ^= seed << 17;
    return (uint32_t)(seed * 0x2545F4914F6CDD1Du >> 32);
}
static inline uint32_t below(uint32_t n) { return (uint32_t)((uint64_t)rnd() * n >> 32); }
static inline int one_in(uint32_t n) { return below(n) == 0; }

/* ---- A desk for both */

/* lends this slice anew, for lengths up to the most; at an odd place, so that it is not aligned */
static inline void lend_most(desk *d, int which, size_t most)
{
    give_back(&d->of[which]);
    d->of[which] = lend_at(most, 1 + 2 * (size_t)below(8));
}

/* the slices of a call, for lengths up to twice their own, or up to the most where they have none */
static inline desk desk_of_pairs(int call, size_t most)
{
    desk d = desk_for(call);
    const lent_slice *s;
    for (s = calls[call].slices; s->which; s++) lend_most(&d, s->which, own_length(s) ? 2 * own_length(s) : most);
    return d;
}

/* its own length, and once in `n` another one */
static inline void some_length(slice *s, size_t own, uint32_t n) { resize(s, one_in(n) ? below((uint32_t)s->most) : own); }

static inline void some_lengths(desk *d, int call, uint32_t n)
{
    const lent_slice *s;
    for (s = calls[call].slices; s->which; s++) if (own_length(s)) some_length(&d->of[s->which], own_length(s), n);
}

static inline void fill(slice *s)
{
    size_t i;
    for (i = 0; i + 4 <= s->len; i += 4) put(s->at + i, rnd());
    for (; i < s->len; i++) s->at[i] = (uint8_t)rnd();
}

static inline void fill_all(desk *d, int call)
{
    const lent_slice *s;
    for (s = calls[call].slices; s->which; s++) fill(&d->of[s->which]);
}

/* ---- Both calls */

static long compared, seen[80]; /* calls, and those that gave each refusal, accepted ones as 0 */

static inline int alike(const slice *s) { return memcmp(s->base, s->twin, extent(s)) == 0 && guarded(s); }

static inline void differs(const desk *d, int call, const uint32_t *numbers, const char *what, uint32_t library, uint32_t model)
{
    size_t i;
    if (failures++ >= 10) return;
    fprintf(stderr, "  %s (%s: %u, %u, %u) after %ld calls: %s differs; library %u, model %u", calls[call].name,
            calls[call].numbers, numbers[0], numbers[1], numbers[2], compared, what, library, model);
    if (d->of[STATE].base) fprintf(stderr, "; state after, model:");
    for (i = 0; i + 4 <= d->of[STATE].len; i += 4) fprintf(stderr, " %u", get(twin_at(&d->of[STATE]) + i));
    fprintf(stderr, "\n");
}

/* the call by the library on the slices and by the model on their twins; what the model returned */
static inline uint32_t both(desk *d, int call, uint32_t a, uint32_t b, uint32_t c)
{
    const uint32_t numbers[MOST_NUMBERS] = { a, b, c };
    const lent_slice *s;
    const char *what = 0;
    span library[SLICES], model[SLICES];
    uint32_t refusal;
    for (s = calls[call].slices; s->which; s++) keep(&d->of[s->which]);
    spans_of(d, call, 0, library);
    spans_of(d, call, 1, model);
    d->refusal = calls[call].library(numbers, library);
    refusal = calls[call].model(numbers, model);
    for (s = calls[call].slices; s->which; s++) if (!alike(&d->of[s->which])) what = slice_names[s->which];
    if (d->refusal != refusal) what = "returned number";
    compared++;
    seen[refusal < 80 ? refusal : 79]++;
    if (what) differs(d, call, numbers, what, d->refusal, refusal);
    return refusal;
}

/* each of these refusals must have come up, in a test of any length */
static inline void came_up(long count, long enough, uint32_t n, const uint32_t *refusals)
{
    uint32_t i;
    for (i = 0; i < n && count >= enough; i++)
        if (seen[refusals[i]] == 0) { fprintf(stderr, "  refusal %u never came up\n", refusals[i]); failures++; }
}

/* COUNT of the command line, or another number */
static inline long count_of(int argc, char **argv, long otherwise) { return argc > 1 ? atol(argv[1]) : otherwise; }

static inline int finish_pairs(const char *program)
{
    printf("%s: %ld calls compared, %ld differ\n", program, compared, failures);
    return failures != 0;
}

#endif
