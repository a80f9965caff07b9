/* A feed mill's recipe library on a card of Basic Groups: written as one record across eleven groups, handed back and
   read; then five troubles of the mill's old drives, each shown cured. The loops in write_record and read_group are
   what a box's firmware does. Exits with 1 if anything is not as it says. */

#include <stdio.h>
#include <stdlib.h>
#include <string.h>

#include "dds.h"

#define SIZE DDS_SIZE_STANDARD
#define SLOTS 12u                 /* the card has place for so many groups */
#define PART DDS_PART_MOST(SIZE)  /* data bytes of a group that holds one part and its skip */

/* A slot of the card: a closed group, with the two numbers that the firmware keeps in the last 32 bytes of the image. */
typedef struct { uint32_t number, entries; uint8_t image[SIZE]; } slot;
typedef struct { slot slots[SLOTS]; uint32_t used; } card;

typedef struct { uint8_t state[DDS_WRITER_LEN], answer[DDS_ANSWER_LEN], group[SIZE]; card *card; } writer;
typedef struct {
    uint8_t state[DDS_READER_LEN], answer[DDS_ANSWER_LEN];
    uint8_t rows[DDS_ROWS_LEN(SIZE)]; /* enough for every group */
    uint8_t *bytes;               /* the record, as far as it has been read */
    uint32_t length, most;        /* its bytes so far, and how many there is place for */
    uint32_t total;               /* its total, once that has been read */
} reader;

/* ends the program unless what was just said is so */
static void must(int so, const char *otherwise)
{
    if (so) return;
    printf("NOT SO: %s\n", otherwise);
    exit(1);
}

/* ---- Writing */

static void start_writer(writer *w, card *c)
{
    c->used = 0;
    w->card = c;
    must(dds_writer_start(SIZE, 1, w->state, DDS_WRITER_LEN, w->answer, DDS_ANSWER_LEN) == DDS_ACCEPTED, "a writer starts");
}

/* Puts the group away if the call closed it. Returns whether it did. */
static int put_away(writer *w)
{
    slot *s;
    if (dds_number(w->answer, DDS_ANSWER_OUTCOME) != DDS_OUTCOME_CLOSED) return 0;
    must(w->card->used < SLOTS, "the card has place");
    s = &w->card->slots[w->card->used];
    s->number = dds_number(w->answer, DDS_ANSWER_NUMBER);
    s->entries = dds_number(w->answer, DDS_ANSWER_ENTRIES);
    memcpy(s->image, w->group, SIZE);
    w->card->used++;
    return 1;
}

/* Offers the record until nothing is left of it. */
static uint32_t write_record(writer *w, const uint8_t *data, size_t length)
{
    while (length > 0) {
        uint32_t refusal = dds_record(w->state, DDS_WRITER_LEN, w->group, SIZE, data, length, 0, w->answer, DDS_ANSWER_LEN);
        if (refusal != DDS_ACCEPTED) return refusal;
        if (!put_away(w)) return DDS_ACCEPTED;
        data += dds_number(w->answer, DDS_ANSWER_TAKEN);
        length -= dds_number(w->answer, DDS_ANSWER_TAKEN);
    }
    return DDS_ACCEPTED;          /* the last part closed its group: its total is owed, and the next call lays it */
}

/* Offers the separator until it is laid. */
static uint32_t write_separator(writer *w, uint32_t value)
{
    do {
        uint32_t refusal = dds_separator(w->state, DDS_WRITER_LEN, w->group, SIZE, value, 0, w->answer, DDS_ANSWER_LEN);
        if (refusal != DDS_ACCEPTED) return refusal;
    } while (put_away(w));
    return DDS_ACCEPTED;
}

static uint32_t end_run(writer *w)
{
    uint32_t refusal = dds_end(w->state, DDS_WRITER_LEN, w->group, SIZE, 0, w->answer, DDS_ANSWER_LEN);
    if (refusal == DDS_ACCEPTED) put_away(w);
    return refusal;
}

/* ---- Reading */

static void start_reader(reader *r, uint8_t *bytes, uint32_t most)
{
    r->bytes = bytes;
    r->most = most;
    r->length = r->total = 0;
    must(dds_reader_start(SIZE, 1, r->state, DDS_READER_LEN, r->answer, DDS_ANSWER_LEN) == DDS_ACCEPTED, "a reader starts");
}

/* whether the group that was just handed in is the last accepted one once more */
static int repeat(const reader *r) { return dds_number(r->answer, DDS_ANSWER_OUTCOME) == DDS_OUTCOME_REPEAT; }

/* Reads one group and takes its data, row by row. A refused group leaves the reader as it was. So does a repeat: then the rows
   are those of the group before it, and nothing is taken. */
static uint32_t read_group(reader *r, const slot *s)
{
    uint32_t k, refusal = dds_read(r->state, DDS_READER_LEN, s->image, SIZE, s->number, s->entries, r->rows, sizeof r->rows,
                                   r->answer, DDS_ANSWER_LEN);
    if (refusal != DDS_ACCEPTED || repeat(r)) return refusal;
    for (k = 0; k < s->entries; k++) {
        const uint8_t *row = r->rows + k * DDS_ROW_LEN;
        uint32_t count = dds_number(row, DDS_ROW_COUNT);
        switch (dds_number(row, DDS_ROW_KIND)) {
        case DDS_KIND_START: case DDS_KIND_MIDDLE: case DDS_KIND_LAST: case DDS_KIND_ENTIRE:
            must(count <= r->most - r->length, "the record is as long as it should be");
            memcpy(r->bytes + r->length, s->image + dds_number(row, DDS_ROW_OFFSET), count);
            r->length += count;
            break;
        case DDS_KIND_TOTAL:
            r->total = count;
            break;
        }
    }
    return DDS_ACCEPTED;
}

static uint32_t place(const reader *r) { return dds_number(r->answer, DDS_ANSWER_PLACE); }
static uint32_t phase(const reader *r) { return dds_number(r->state, DDS_STATE_PHASE); }

/* ---- The mill's recipes: one line of forty bytes for each */

#define LINES 32500
#define LENGTH (LINES * 40u)

static uint8_t recipes[LENGTH], found[LENGTH];
static card library, other;
static writer w;
static reader r;

static void write_down_recipes(void)
{
    uint32_t i;
    char line[64];
    for (i = 0; i < LINES; i++) {
        snprintf(line, sizeof line, "mix %05u wheat %03u barley %03u soya %03u\n", (unsigned)(i + 1) % 100000,
                 (unsigned)(i * 7 % 900 + 100), (unsigned)(i * 11 % 800 + 50) % 1000, (unsigned)(i * 3 % 90 + 10));
        memcpy(recipes + 40u * i, line, 40);
    }
}

/* the four bytes of entry k */
static uint8_t *entry(slot *s, uint32_t k) { return s->image + SIZE - DDS_INFORMATION_LEN - DDS_ENTRY_LEN * k; }

static void recipe_library(void)
{
    uint32_t g;
    printf("The recipe library has %u recipes, %u bytes.\n", (unsigned)LINES, (unsigned)LENGTH);
    start_writer(&w, &library);
    must(write_record(&w, recipes, LENGTH) == DDS_ACCEPTED, "the library is written as one record");
    must(write_separator(&w, DDS_SEPARATOR_1) == DDS_ACCEPTED, "a separator follows");
    must(end_run(&w) == DDS_ACCEPTED, "the run ends");
    must(library.used == 11, "it takes eleven groups");
    printf("Written as one record, it fills groups %u to %u.\n", (unsigned)library.slots[0].number,
           (unsigned)library.slots[10].number);
    start_reader(&r, found, LENGTH);
    for (g = 0; g < 11; g++) must(read_group(&r, &library.slots[g]) == DDS_ACCEPTED, "each group is accepted");
    must(phase(&r) == DDS_PHASE_FREE && r.length == LENGTH && r.total == LENGTH, "the record is finished");
    must(memcmp(recipes, found, LENGTH) == 0, "each recipe is the one that was written");
    printf("Handed back in order and read, every recipe is as it was written.\n\n");
}

/* What a tool sees that adds up the parts, looks at the total and never at the numbers: 1 if all seems well. */
static int total_agrees(card *c)
{
    uint32_t g, k, sum = 0, total = 0;
    for (g = 0; g < c->used; g++)
        for (k = 1; k <= c->slots[g].entries; k++) {
            const uint8_t *e = entry(&c->slots[g], k);
            uint32_t count = (uint32_t)e[1] << 16 | (uint32_t)e[2] << 8 | e[3];
            if (e[0] == DDS_FLAG_START || e[0] == DDS_FLAG_MIDDLE || e[0] == DDS_FLAG_LAST) {
                memcpy(found + sum, c->slots[g].image, count);
                sum += count;
            }
            if (e[0] == DDS_FLAG_TOTAL) total = count;
        }
    return sum == total;
}

static void groups_exchanged(void)
{
    uint32_t g, i, wrong = 0;
    slot *six, *seven, was;
    other = library;
    six = &other.slots[5];
    seven = &other.slots[6];
    was = *six;
    *six = *seven;
    *seven = was;
    must(memcmp(entry(six, 1), entry(seven, 1), 4) == 0, "both groups have a middle of equal length");
    must(total_agrees(&other), "the parts still add up to the total");
    for (i = 0; i < LINES; i++) wrong += memcmp(recipes + 40u * i, found + 40u * i, 40) != 0;
    must(wrong > 0, "recipes are wrong");
    printf("Trouble 1. Groups 6 and 7 change places. Both hold a middle of %u bytes.\n", (unsigned)PART);
    printf("  The parts still add up to the total of %u. A tool that trusts it gets %u recipes wrong.\n", (unsigned)LENGTH,
           (unsigned)wrong);
    start_reader(&r, found, LENGTH);
    for (g = 0; g < 5; g++) must(read_group(&r, &other.slots[g]) == DDS_ACCEPTED, "groups 1 to 5 are accepted");
    must(read_group(&r, six) == DDS_REFUSED_NUMBER, "the sixth group is refused 5");
    printf("  dds refuses the sixth group handed in, with %u: number %u is not the next, %u is.\n", (unsigned)DDS_REFUSED_NUMBER,
           (unsigned)six->number, (unsigned)dds_number(r.state, DDS_STATE_NEXT));
    must(read_group(&r, seven) == DDS_ACCEPTED && read_group(&r, six) == DDS_ACCEPTED, "in order they are accepted");
    for (g = 7; g < 11; g++) must(read_group(&r, &other.slots[g]) == DDS_ACCEPTED, "and so is the rest");
    must(memcmp(recipes, found, LENGTH) == 0, "and every recipe is right again");
    printf("  Handed the right one, it goes on, and every recipe is right.\n\n");
}

/* shows one spoilt group refused with its number and place */
static void refused(const slot *s, const char *what, uint32_t refusal, uint32_t at)
{
    must(read_group(&r, s) == refusal && place(&r) == at, what);
    printf("  %s: refused %u at entry %u.\n", what, (unsigned)refusal, (unsigned)at);
}

static void tables_read_alike(void)
{
    uint32_t g;
    uint8_t was[4];
    slot *one = &other.slots[0], *eleven = &other.slots[10];
    other = library;
    printf("Trouble 2. Tools read the table of a group each a little differently. dds has one reading of it.\n");
    start_reader(&r, found, LENGTH);
    entry(one, 1)[0] = 0x43;
    refused(one, "Flag 43 for a start, which some take for 42", DDS_REFUSED_FLAG, 1);
    for (g = 0; g < 10; g++) must(read_group(&r, &library.slots[g]) == DDS_ACCEPTED, "groups 1 to 10 are accepted");
    entry(eleven, 2)[3] -= 1;
    refused(eleven, "A total one too small, which some pass over", DDS_REFUSED_TOTAL_DIFFERS, 2);
    *eleven = library.slots[10];
    memcpy(was, entry(eleven, 3), 4);
    memcpy(entry(eleven, 3), entry(eleven, 4), 4);
    memcpy(entry(eleven, 4), was, 4);
    refused(eleven, "A skip before the separator, where some stop", DDS_REFUSED_FOLLOW, 3);
    *eleven = library.slots[10];
    entry(eleven, 4)[3] -= 32;
    refused(eleven, "A skip that leaves out the last 32 bytes", DDS_REFUSED_SKIP, 4);
    must(read_group(&r, &library.slots[10]) == DDS_ACCEPTED, "the group as it was written is accepted");
    printf("  The group as it was written is accepted.\n\n");
}

static void total_not_lost(void)
{
    const uint32_t length = PART + PART - 3; /* the last part leaves 3 bytes beside its skip; a total takes 4 */
    printf("Trouble 3. A last part just fits, and its total no longer does. Some writers lost it.\n");
    start_writer(&w, &other);
    must(write_record(&w, recipes, length) == DDS_ACCEPTED, "the record is written");
    must(other.used == 2 && dds_number(w.state, DDS_STATE_PHASE) == DDS_PHASE_OWED, "two groups are closed, the total is owed");
    must(end_run(&w) == DDS_ACCEPTED && other.used == 3, "the end closes a third group");
    start_reader(&r, found, LENGTH);
    must(read_group(&r, &other.slots[0]) == DDS_ACCEPTED && read_group(&r, &other.slots[1]) == DDS_ACCEPTED, "both are accepted");
    must(phase(&r) == DDS_PHASE_OWED && r.length == length && r.total == 0, "the reader is told that a total is owed");
    printf("  Group 2 ends with the last of %u bytes, and the total is owed.\n", (unsigned)length);
    must(read_group(&r, &other.slots[2]) == DDS_ACCEPTED, "the third is accepted");
    must(dds_number(r.rows, DDS_ROW_KIND) == DDS_KIND_TOTAL && r.total == length, "it begins with the total");
    must(phase(&r) == DDS_PHASE_FREE, "the record is finished");
    must(memcmp(recipes, found, length) == 0, "and the record is whole");
    printf("  Group 3 begins with it: %u. The record is finished and whole.\n\n", (unsigned)r.total);
}

/* hands group 6 in once more: nothing of it is taken, and 7 is still the next */
static void once_more(const slot *six)
{
    must(read_group(&r, six) == DDS_ACCEPTED && repeat(&r), "group 6 once more is a repeat");
    must(r.length == 6 * PART && dds_number(r.state, DDS_STATE_NEXT) == 7, "nothing is taken, and 7 is still the next");
}

static void group_twice(void)
{
    uint32_t g;
    other = library;
    memset(other.slots[5].image, 0, SIZE);
    other.slots[5].entries = 0;
    printf("Trouble 4. A drive recorded group 6 twice. Some boxes took its data twice.\n");
    start_reader(&r, found, LENGTH);
    for (g = 0; g < 6; g++) must(read_group(&r, &library.slots[g]) == DDS_ACCEPTED && !repeat(&r), "groups 1 to 6 are read");
    once_more(&library.slots[5]);
    printf("  dds answers the second one with outcome %u, a repeat. Nothing of it is looked at, and no rows are used.\n",
           (unsigned)DDS_OUTCOME_REPEAT);
    once_more(&other.slots[5]);
    printf("  It is a repeat even where it comes out as zeros.\n");
    for (g = 6; g < 11; g++) must(read_group(&r, &library.slots[g]) == DDS_ACCEPTED && !repeat(&r), "groups 7 to 11 are read");
    must(phase(&r) == DDS_PHASE_FREE && r.length == LENGTH && r.total == LENGTH, "the record is finished");
    must(memcmp(recipes, found, LENGTH) == 0, "each recipe is the one that was written");
    printf("  Group 7 is read next, and every recipe is right.\n\n");
}

static void total_put_off(void)
{
    uint32_t g, last = LENGTH - 10 * PART, skip = SIZE - last;
    slot *eleven = &other.slots[10];
    uint8_t *put_off = entry(eleven, 2); /* where the total stood */
    other = library;
    put_off[0] = DDS_FLAG_SKIP;
    put_off[1] = (uint8_t)(skip >> 16);
    put_off[2] = (uint8_t)(skip >> 8);
    put_off[3] = (uint8_t)skip;
    eleven->entries = 2;
    printf("Trouble 5. Some firmware puts a total off although it has room. Older boxes hang on such a last group.\n");
    printf("  Group 11 holds a last of %u bytes and a skip of %u. From 44 on the total has room.\n", (unsigned)last,
           (unsigned)skip);
    start_reader(&r, found, LENGTH);
    for (g = 0; g < 10; g++) must(read_group(&r, &library.slots[g]) == DDS_ACCEPTED, "groups 1 to 10 are accepted");
    refused(eleven, "A total owed too early", DDS_REFUSED_OWED_EARLY, 2);
    must(read_group(&r, &library.slots[10]) == DDS_ACCEPTED, "the group as it was written is accepted");
    must(phase(&r) == DDS_PHASE_FREE && r.total == LENGTH, "the record is finished");
    printf("  The group as it was written has the total beside the last, and is accepted.\n");
}

int main(void)
{
    write_down_recipes();
    recipe_library();
    groups_exchanged();
    tables_read_alike();
    total_not_lost();
    group_twice();
    total_put_off();
    return 0;
}
