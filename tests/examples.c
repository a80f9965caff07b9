/* Every call by worked examples, however its slices are lent: at every alignment, against forbidden pages at both ends, const
   slices in read-only pages and unread ones in forbidden pages, over any answer or explanation bytes, with null and empty slices
   and of wrong lengths up to 2^32 and more.
   A call has one example at least. Its bytes are worked out by hand from the documents, and the model is held to them too. */

#define _DEFAULT_SOURCE
#include "examples.h"
#include "fence.h"

/* ---- An example lent, and what is expected of it */

/* the slices lent, each `shift` bytes further from an aligned place than the one before it */
static desk lay(const example *e, const worked *w, size_t shift)
{
    desk d = desk_for(e->call);
    const lent_slice *s;
    size_t at = shift;
    for (s = calls[e->call].slices; s->which; s++, at += shift) {
        give_back(&d.of[s->which]);
        d.of[s->which] = lend_at(w->len[s->which], at % 16);
        memcpy(d.of[s->which].at, w->before[s->which], w->len[s->which]);
    }
    return d;
}

static void makes(const example *e, desk *d, const uint32_t *numbers) { make(d, e->call, numbers[0], numbers[1], numbers[2]); }

/* what the example says of every slice, and of the returned number */
static void stands(const example *e, const worked *w, const span *spans, uint32_t refusal, const char *how)
{
    const lent_slice *s;
    check(refusal == told_after(e, w), calls[e->call].name, how);
    for (s = calls[e->call].slices; s->which; s++) {
        const span *found = &spans[s->which];
        check(same_bytes(w->after[s->which], w->len[s->which], found->at, found->len), calls[e->call].name, how);
    }
}

/* ---- At every alignment, by the library and by the model */

static void aligned(const example *e, const worked *w)
{
    size_t shift;
    for (shift = 0; shift < 16; shift++) {
        desk d = lay(e, w, shift);
        span spans[SLICES];
        makes(e, &d, e->numbers);
        spans_of(&d, e->call, 0, spans);
        stands(e, w, spans, d.refusal, shift ? "not aligned" : "as it stands");
        spans_of(&d, e->call, 1, spans);
        stands(e, w, spans, calls[e->call].model(e->numbers, spans), "by the model");
        leave(&d);
    }
}

/* ---- All bytes of the answer or the explanation, whatever stood there: reading 3 */

static void over_any_answer(const example *e, const worked *w)
{
    const int told = told_in(e->call)->which;
    const size_t len = told_in(e->call)->length;
    int filled;
    for (filled = 0; filled < 3; filled++) {
        desk d = lay(e, w, 0);
        if (e->refusal) {
            memset(d.of[told].at, filled * 0x7F, len);
            makes(e, &d, e->wrong);
            refused(&d, "reading 3: wrong numbers", e->refusal, 0);
        }
        memset(d.of[told].at, filled * 0x7F, len);
        makes(e, &d, e->numbers);
        check(same_bytes(w->after[told], len, d.of[told].at, d.of[told].len), calls[e->call].name, "reading 3: answer");
        leave(&d);
    }
}

/* ---- Lengths: readings 1, 5 and 6 */

/* whether another length of this slice writes nothing at all: the answer's, the explanation's, and a state's beside an answer */
static int leaves_all(int call, const lent_slice *s)
{
    return s == told_in(call) || (s->which == STATE && told_in(call)->which == ANSWER);
}

/* A slice of another length is refused, alone and with wrong numbers: the lower refusal comes first. A refusal that writes
   nothing at all is given before everything else. */
static void is_refused(const example *e, desk *d, const lent_slice *s)
{
    int wrong;
    for (wrong = 0; wrong < (e->refusal ? 2 : 1); wrong++) {
        makes(e, d, wrong ? e->wrong : e->numbers);
        if (leaves_all(e->call, s)) refused_unwritten(d, "reading 1: state, answer or explanation of another length");
        else refused(d, "a slice of another length", wrong && e->refusal < s->refusal ? e->refusal : s->refusal, 0);
    }
}

/* the slice's first bytes at another length */
static void shorten(desk *d, const worked *w, int which, size_t len)
{
    relend(&d->of[which], len);
    memcpy(d->of[which].at, w->before[which], len < w->len[which] ? len : w->len[which]);
}

static void of_other_lengths(const example *e, const worked *w)
{
    const lent_slice *s, *told = told_in(e->call);
    size_t i;
    int null;
    for (s = calls[e->call].slices; s->which; s++) {
        const size_t right = w->len[s->which];
        const size_t lengths[] = { 0, 1, 4, 8, right / 2, right - 4, right - 1, right + 1, right + 4, right + 5, 2 * right,
            DDS_READER_LEN, DDS_BLOCKS_STATE_LEN, DDS_WRITER_LEN, DDS_EXPLANATION_LEN, right + 256, right + 65536 };
        for (i = 0; i < sizeof lengths / sizeof *lengths && s->length != ANY_LENGTH; i++)
            for (null = 0; null < (i == 0 ? 2 : 1); null++) {
                desk d = lay(e, w, 0);
                if (lengths[i] == right || (s->length == AT_LEAST && lengths[i] > right)) { leave(&d); continue; }
                if (null) lend_none(&d.of[s->which], 1); else shorten(&d, w, s->which, lengths[i]);
                is_refused(e, &d, s);
                if (s != told) {
                    relend(&d.of[told->which], i % 2 ? told->length + 1 : told->length - 1);
                    makes(e, &d, e->numbers);
                    refused_unwritten(&d, "reading 1: both lengths");
                }
                leave(&d);
            }
    }
}

/* lengths of 2^32 and more are not cut */
static void of_long_lengths(const example *e, const worked *w, uint8_t *promised)
{
    const lent_slice *s;
    size_t i;
    for (s = calls[e->call].slices; s->which && promised; s++) {
        const size_t more[] = { w->len[s->which], 0, 16, 20, 24, 28, 32, 56, 64 };
        for (i = 0; i < sizeof more / sizeof *more && s->length != ANY_LENGTH && s->length != AT_LEAST; i++) {
            desk d = lay(e, w, 0);
            give_back(&d.of[s->which]);
            d.of[s->which] = lend_promised(promised, wide + more[i]);
            is_refused(e, &d, s);
            leave(&d);
        }
    }
}

/* ---- Fences: no byte outside a slice is read or written, and none of a const slice is written, or of any slice but the answer
   where the call is refused or a group is a repeat, or of the answer or explanation too where its length is wrong: such slices
   stand in read-only pages. An unread slice stands in pages that may not be touched. */

/* whether the answer alone is written */
static int answers_alone(const example *e, const worked *w)
{
    const int reading = e->call == READ || e->call == BLOCKS_READ;
    return told_after(e, w) != 0 || (reading && get(w->after[ANSWER] + DDS_ANSWER_OUTCOME) == DDS_OUTCOME_REPEAT);
}

static void fence_in(const example *e, const worked *w, int at_end, int alone, span *spans)
{
    const lent_slice *s;
    for (s = calls[e->call].slices; s->which; s++) {
        span *one = &spans[s->which];
        one->len = w->len[s->which];
        one->at = fenced(one->len, at_end);
        memcpy(one->at, w->before[s->which], one->len);
        if (s->written != WRITTEN || (alone && s != told_in(e->call))) read_only(one->at, one->len);
        if (s->written == UNREAD) forbid(one->at, one->len);
    }
}

/* after the call, so that the test can look at what was unread */
static void look_in(const example *e, const span *spans)
{
    const lent_slice *s;
    for (s = calls[e->call].slices; s->which; s++) if (s->written == UNREAD) read_only(spans[s->which].at, spans[s->which].len);
}

static void fence_out(const example *e, const span *spans)
{
    const lent_slice *s;
    for (s = calls[e->call].slices; s->which; s++) unfence(spans[s->which].at, spans[s->which].len);
}

static void in_fences(const example *e, const worked *w)
{
    const dds_call *call = &calls[e->call];
    const lent_slice *told = told_in(e->call);
    uint32_t refusal;
    int at_end;
    calling = call->name;
    for (at_end = 0; at_end < 2; at_end++) {
        span spans[SLICES];
        fence_in(e, w, at_end, answers_alone(e, w), spans);
        refusal = call->library(e->numbers, spans);
        look_in(e, spans);
        stands(e, w, spans, refusal, "in fences");
        fence_out(e, spans);
        fence_in(e, w, at_end, 1, spans);
        if (e->refusal) check(call->library(e->wrong, spans) == e->refusal, call->name, "wrong numbers in fences");
        read_only(spans[told->which].at, spans[told->which].len);
        spans[told->which].len--;
        check(call->library(e->numbers, spans) == told->refusal, call->name, "a short answer in fences");
        spans[told->which].len++;
        fence_out(e, spans);
    }
}

int main(void)
{
    size_t i;
    int call, found[CALLS] = { 0 };
    uint8_t *promised = promise("examples", PROT_NONE);
    watch_fences();
    for (i = 0; i < sizeof examples / sizeof *examples; i++) {
        worked w = work_out(&examples[i]);
        found[examples[i].call] = 1;
        aligned(&examples[i], &w);
        over_any_answer(&examples[i], &w);
        of_other_lengths(&examples[i], &w);
        of_long_lengths(&examples[i], &w, promised);
        in_fences(&examples[i], &w);
        forget(&w);
    }
    for (call = 0; call < CALLS; call++) check(found[call], calls[call].name, "has an example");
    return finish("examples");
}
