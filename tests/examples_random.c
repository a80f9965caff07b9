/* Every call at random, compared with the model: its worked examples with a few bytes, numbers and lengths changed. COUNT is how
   many calls: examples_random [COUNT]. */

#include "examples.h"
#include "pair.h"

typedef struct { desk d; worked w; } pairs;

static long accepted_of[CALLS], refused_of[CALLS];

/* an example's slices, for lengths up to twice the right one */
static pairs lend_pairs(const example *e)
{
    const lent_slice *s;
    pairs p;
    p.w = work_out(e);
    p.d = desk_for(e->call);
    for (s = calls[e->call].slices; s->which; s++) lend_most(&p.d, s->which, 2 * p.w.len[s->which] + 16);
    return p;
}

static void as_worked(pairs *p, int call)
{
    const lent_slice *s;
    for (s = calls[call].slices; s->which; s++) {
        resize(&p->d.of[s->which], p->w.len[s->which]);
        memcpy(p->d.of[s->which].at, p->w.before[s->which], p->w.len[s->which]);
    }
}

static void change_byte(slice *s)
{
    uint8_t *at = s->at + below((uint32_t)s->len);
    switch (below(4)) {
    case 0: *at ^= (uint8_t)(1u << below(8)); break;
    case 1: *at = (uint8_t)(*at + 1); break;
    case 2: *at = (uint8_t)(*at - 1); break;
    default: *at = (uint8_t)rnd();
    }
}

static uint32_t changed(uint32_t number, uint32_t wrong)
{
    switch (below(5)) {
    case 0: return number + 1;
    case 1: return number - 1;
    case 2: return wrong;
    case 3: return below(64);
    default: return rnd();
    }
}

/* any length, or one byte more or less */
static size_t other_length(const slice *s)
{
    if (one_in(2)) return below((uint32_t)s->most);
    if (one_in(2)) return s->len < s->most ? s->len + 1 : 0;
    return s->len ? s->len - 1 : 1;
}

static void change(pairs *p, const example *e, uint32_t *numbers)
{
    uint32_t n = 0, i;
    const lent_slice *s;
    slice *some;
    while (calls[e->call].slices[n].which) n++;
    s = &calls[e->call].slices[below(n)];
    some = &p->d.of[s->which];
    i = below(MOST_NUMBERS);
    if (one_in(3)) numbers[i] = changed(numbers[i], e->wrong[i]);
    else if (one_in(12)) resize(some, other_length(some));
    else if (some->len) change_byte(some);
}

/* what the last call left, or the example, with up to three changes */
static void some_call(pairs *p, const example *e)
{
    uint32_t numbers[MOST_NUMBERS], times = below(4);
    memcpy(numbers, e->numbers, sizeof numbers);
    if (!one_in(4)) as_worked(p, e->call);
    while (times--) change(p, e, numbers);
    if (both(&p->d, e->call, numbers[0], numbers[1], numbers[2]) == 0) accepted_of[e->call]++; else refused_of[e->call]++;
}

int main(int argc, char **argv)
{
    enum { EXAMPLES = sizeof examples / sizeof *examples };
    long count = count_of(argc, argv, 1000000), i;
    pairs lent[EXAMPLES];
    int call;
    for (i = 0; i < EXAMPLES; i++) lent[i] = lend_pairs(&examples[i]);
    for (i = 0; i < EXAMPLES; i++) as_worked(&lent[i], examples[i].call);
    for (i = 0; i < count; i++) some_call(&lent[i % EXAMPLES], &examples[i % EXAMPLES]);
    for (call = 0; call < CALLS && count >= 10000; call++)
        if (accepted_of[call] == 0 || refused_of[call] == 0) {
            fprintf(stderr, "  %s: %ld accepted, %ld refused\n", calls[call].name, accepted_of[call], refused_of[call]);
            failures++;
        }
    for (i = 0; i < EXAMPLES; i++) { leave(&lent[i].d); forget(&lent[i].w); }
    return finish_pairs("examples_random");
}
