/* What all tests share: slices with guard bytes, a desk of them, a call made on a desk, and what may be expected of it.
   Expected bytes are texts of hexadecimal bytes worked out from the documents: `41*20` is twenty bytes 41, `01-18` the bytes
   01, 02 .. 18, `01+300` three hundred bytes 01, 02 .. FF, 00, 01 .. */

#ifndef GUARD_H
#define GUARD_H

#include <stdint.h>
#include <stdio.h>
#include <stdlib.h>
#include <string.h>

#include "calls.h"

#define GUARD 64       /* guard bytes on each side of a slice */
#define GUARD_BYTE 0xA5
#define LENT 0xEE      /* what a slice holds when it is lent */

static long checks, failures;

static inline int check(int kept, const char *name, const char *what)
{
    checks++;
    if (!kept && failures++ < 40) fprintf(stderr, "  failed: %s: %s\n", name, what);
    return kept;
}

static inline int finish(const char *program)
{
    printf("%s: %ld checks, %ld failed\n", program, checks, failures);
    return failures != 0;
}

/* where the test itself is at fault, or lacks what it needs */
static inline void stop(const char *why, const char *what) { fprintf(stderr, "%s: %s\n", why, what); exit(2); }

static inline void *memory(size_t len)
{
    void *p = malloc(len ? len : 1);
    if (!p) stop("no memory", "malloc");
    return p;
}

/* ---- Slices. One that is lent has a base and a twin alike: before a call the twin is made what the slice is. */

typedef struct { uint8_t *at; size_t len; uint8_t *base, *twin; size_t most; } slice;

static inline slice lend_null(void)
{
    slice s = { 0, 0, 0, 0, 0 };
    return s;
}

/* the base up to the guard behind the slice */
static inline size_t extent(const slice *s) { return (size_t)(s->at - s->base) + s->len + GUARD; }

/* the same place in the twin */
static inline uint8_t *twin_at(const slice *s) { return s->base ? s->twin + (s->at - s->base) : s->at; }

/* another length up to the most, guarded; its first bytes stay */
static inline void resize(slice *s, size_t len)
{
    if (len > s->most) stop("a test's slice is too long", "resize");
    s->len = len;
    memset(s->at + len, GUARD_BYTE, GUARD);
}

/* `len` bytes LENT, `shift` bytes behind an address that suits any number */
static inline slice lend_at(size_t len, size_t shift)
{
    slice s;
    s.base = memory(shift + len + 2 * GUARD);
    s.twin = memory(shift + len + 2 * GUARD);
    s.at = s.base + GUARD + shift;
    s.most = len;
    memset(s.base, GUARD_BYTE, GUARD + shift);
    memset(s.at, LENT, len);
    resize(&s, len);
    return s;
}

static inline slice lend(size_t len) { return lend_at(len, 0); }

static inline void give_back(slice *s)
{
    free(s->base);
    free(s->twin);
    *s = lend_null();
}

/* another length, lent anew */
static inline void relend(slice *s, size_t len) { give_back(s); *s = lend(len); }

/* no byte at all, with a null pointer or with another */
static inline void lend_none(slice *s, int null) { give_back(s); if (!null) *s = lend(0); }

static inline void keep(slice *s) { if (s->base) memcpy(s->twin, s->base, extent(s)); }

static inline int untouched(const uint8_t *guard) { return guard[0] == GUARD_BYTE && memcmp(guard, guard + 1, GUARD - 1) == 0; }

static inline int guarded(const slice *s) { return !s->base || (untouched(s->at - GUARD) && untouched(s->at + s->len)); }

static inline int kept(const slice *s) { return !s->base || memcmp(twin_at(s), s->at, s->len) == 0; }

/* ---- Bytes and numbers in slices */

static inline void put(uint8_t *p, uint32_t n)
{
    p[0] = (uint8_t)(n >> 24); p[1] = (uint8_t)(n >> 16); p[2] = (uint8_t)(n >> 8); p[3] = (uint8_t)n;
}

static inline uint32_t get(const uint8_t *p)
{
    return (uint32_t)p[0] << 24 | (uint32_t)p[1] << 16 | (uint32_t)p[2] << 8 | (uint32_t)p[3];
}

/* the numbers of an explanation, of eight bytes */
static inline void put_long(uint8_t *p, uint64_t n) { put(p, (uint32_t)(n >> 32)); put(p + 4, (uint32_t)n); }
static inline uint64_t get_long(const uint8_t *p) { return (uint64_t)get(p) << 32 | get(p + 4); }

/* the bytes of a text, into an allocation of just their length; how many there are, into *len */
static inline uint8_t *bytes(const char *text, size_t *len)
{
    uint8_t *out = memory(1);
    size_t n = 0;
    while (*text) {
        char *next;
        unsigned long first, end, times = 1, t, b;
        if (*text == ' ' || *text == ',') { text++; continue; }
        first = end = strtoul(text, &next, 16);
        if (next != text + 2) stop("a test's text is wrong", text);
        if (*next == '*') { text = next + 1; times = strtoul(text, &next, 10); }
        else if (*next == '-') { text = next + 1; end = strtoul(text, &next, 16); }
        else if (*next == '+') { text = next + 1; end = first + strtoul(text, &next, 10) - 1; }
        out = realloc(out, n + times * (end - first + 1) + 1);
        if (!out) stop("no memory", "realloc");
        for (b = first; b <= end; b++) for (t = 0; t < times; t++) out[n++] = (uint8_t)b;
        text = next;
    }
    *len = n;
    return out;
}

/* whether the found bytes are the wanted ones; both are shown where they are not */
static inline int same_bytes(const uint8_t *wanted, size_t wanted_len, const uint8_t *found, size_t found_len)
{
    int same = wanted_len == found_len && (found_len == 0 || memcmp(wanted, found, found_len) == 0);
    if (!same && failures < 40) {
        size_t i;
        fprintf(stderr, "  wanted");
        for (i = 0; i < wanted_len && i < 160; i++) fprintf(stderr, " %02X", wanted[i]);
        fprintf(stderr, "\n  found ");
        for (i = 0; i < found_len && i < 160; i++) fprintf(stderr, " %02X", found[i]);
        fprintf(stderr, "\n");
    }
    return same;
}

static inline int holds(const slice *s, const char *text)
{
    size_t len;
    uint8_t *wanted = bytes(text, &len);
    int same = same_bytes(wanted, len, s->at, s->len);
    free(wanted);
    return same;
}

/* the bytes of a text, lent */
static inline void set(slice *s, const char *text)
{
    size_t len;
    uint8_t *b = bytes(text, &len);
    relend(s, len);
    memcpy(s->at, b, len);
    free(b);
}

/* ---- A desk: everything lent to a call or to calls one after another, and what the last one returned */

typedef struct { slice of[SLICES]; int call; uint32_t refusal; } desk;

static inline size_t own_length(const lent_slice *s) { return s->length > ANY_LENGTH ? s->length : 0; }

/* the slice that a call tells its refusal in, its last: the answer, or the explanation */
static inline const lent_slice *told_in(int call)
{
    const lent_slice *s = calls[call].slices;
    while (s[1].which) s++;
    return s;
}

/* the numbers that begin that slice, of four bytes in an answer and of eight in an explanation: the refusal, the place */
static inline uint64_t told_number(int call, const uint8_t *at, size_t i)
{
    return told_in(call)->which == EXPLANATION ? get_long(at + 8 * i) : get(at + 4 * i);
}

/* the slices of a call, each of its own length, empty where it has none */
static inline desk desk_for(int call)
{
    desk d;
    int i;
    const lent_slice *s;
    for (i = 0; i < SLICES; i++) d.of[i] = lend_null();
    for (s = calls[call].slices; s->which; s++) d.of[s->which] = lend(own_length(s));
    d.call = call;
    d.refusal = 99;
    return d;
}

static inline void leave(desk *d)
{
    int i;
    for (i = 0; i < SLICES; i++) give_back(&d->of[i]);
}

/* the spans of a call's slices: the slices themselves, or their twins */
static inline void spans_of(const desk *d, int call, int twins, span *spans)
{
    const lent_slice *s;
    for (s = calls[call].slices; s->which; s++) {
        spans[s->which].at = twins ? twin_at(&d->of[s->which]) : d->of[s->which].at;
        spans[s->which].len = d->of[s->which].len;
    }
}

static const char *calling = ""; /* the call that is being made */

/* makes the call, with as many of the numbers as it has: no byte outside a slice is written, and none in a const one */
static inline void make(desk *d, int call, uint32_t a, uint32_t b, uint32_t c)
{
    const uint32_t numbers[MOST_NUMBERS] = { a, b, c };
    const lent_slice *s;
    span spans[SLICES];
    int i;
    for (i = 0; i < SLICES; i++) keep(&d->of[i]);
    spans_of(d, call, 0, spans);
    calling = calls[call].name;
    d->call = call;
    d->refusal = calls[call].library(numbers, spans);
    for (s = calls[call].slices; s->which; s++) {
        check(guarded(&d->of[s->which]), calls[call].name, "guard bytes");
        if (s->written != WRITTEN) check(kept(&d->of[s->which]), calls[call].name, "a const slice stays");
    }
}

/* ---- What is expected after a call */

static inline int answer_is(const desk *d, const char *name, uint32_t refusal, uint32_t place, uint32_t outcome, uint32_t third,
                            uint32_t fourth, uint32_t fifth)
{
    const uint32_t wanted[] = { refusal, place, outcome, third, fourth, fifth };
    const slice *a = &d->of[ANSWER];
    int whole = a->len == DDS_ANSWER_LEN, same = whole && d->refusal == refusal, i;
    for (i = 0; i < 6 && same; i++) same = get(a->at + 4 * i) == wanted[i];
    if (!same && failures < 40) {
        fprintf(stderr, "  returned %u, answered", d->refusal);
        for (i = 0; i < 6 && whole; i++) fprintf(stderr, " %u", get(a->at + 4 * i));
        fprintf(stderr, ", wanted");
        for (i = 0; i < 6; i++) fprintf(stderr, " %u", wanted[i]);
        fprintf(stderr, "\n");
    }
    return check(same, name, "answer");
}

static inline void accepted(const desk *d, const char *name) { answer_is(d, name, 0, 0, 0, 0, 0, 0); }

/* the answer, or the explanation, and nothing else written */
static inline void told_alone(const desk *d, const char *name)
{
    int i;
    for (i = 0; i < SLICES; i++)
        if (i != told_in(d->call)->which && d->of[i].base) check(kept(&d->of[i]), name, "the answer alone is written");
}

/* a refusal with its answer, and nothing else written. Of an explanation refusal and place alone: `explained` has all of it. */
static inline void refused(const desk *d, const char *name, uint32_t refusal, uint32_t place)
{
    const uint8_t *at = d->of[told_in(d->call)->which].at;
    if (told_in(d->call)->which == ANSWER) answer_is(d, name, refusal, place, 0, 0, 0, 0);
    else check(d->refusal == refusal && told_number(d->call, at, 0) == refusal && told_number(d->call, at, 1) == place, name,
               "explanation");
    told_alone(d, name);
}

/* a refusal by the length of the slice that it would be told in, or of a state beside an answer: nothing written at all. It is 1,
   or 24 where there is an explanation. */
static inline void refused_unwritten(const desk *d, const char *name)
{
    int i;
    check(d->refusal == told_in(d->call)->refusal, name, "returns the refusal by length");
    for (i = 0; i < SLICES; i++)
        if (d->of[i].base) check(kept(&d->of[i]), name, "nothing is written at all");
}

/* the whole explanation, and nothing else written */
static inline void explained(const desk *d, const char *name, uint32_t refusal, uint64_t place, uint64_t offset, uint64_t found,
                             uint64_t least, uint64_t greatest, uint64_t kinds)
{
    uint8_t wanted[DDS_EXPLANATION_LEN];
    put_long(wanted, refusal);
    put_long(wanted + 8, place);
    put_long(wanted + 16, offset);
    put_long(wanted + 24, found);
    put_long(wanted + 32, least);
    put_long(wanted + 40, greatest);
    put_long(wanted + 48, kinds);
    check(d->refusal == refusal, name, "returns the refusal of the explanation");
    check(same_bytes(wanted, sizeof wanted, d->of[EXPLANATION].at, d->of[EXPLANATION].len), name, "explanation");
    told_alone(d, name);
}

static inline void slice_is(const desk *d, int which, const char *name, const char *text)
{
    check(holds(&d->of[which], text), name, slice_names[which]);
}

#endif
