/* What a box's firmware does with groups: several records and separators, a record given up by returning to a mark, the early
   warning point, a flush, a group where b4 goes out again, and a run that breaks off. The firmware's own part stands here too: it
   fills the last 32 bytes of each closed group, the information table, and reads number and entry count from it. Exits with 1 if
   anything is not as it says. */

#include <stdio.h>
#include <stdlib.h>
#include <string.h>

#include "dds.h"

#define SIZE 256u                 /* a rig's, so that the listing is short; a tape has DDS_SIZE_STANDARD */
#define GROUPS 8u                 /* the card has place for so many */

static uint8_t card[GROUPS][SIZE];
static uint8_t rows[DDS_ROWS_LEN(SIZE)];  /* enough for every group of this size */
static uint8_t answer[DDS_ANSWER_LEN];

/* A writer with all that the firmware keeps for its run, so that a copy of it is a mark to return to. */
typedef struct {
    uint8_t state[DDS_WRITER_LEN], group[SIZE];
    uint8_t beside[DDS_READER_LEN];       /* a reader that reads each group as it is closed */
    uint32_t records, separators[2];      /* records with the separators among them, Separators 1 and 2, since the beginning */
    uint32_t beginning, separator_in[2];  /* the last group before this in which one of them began, or with a Separator 1 or 2 */
    uint32_t used;                        /* groups on the card */
} writer;

/* ends the program unless what was just said is so */
static void must(int so, const char *otherwise)
{
    if (so) return;
    printf("NOT SO: %s\n", otherwise);
    exit(1);
}

/* the four bytes of entry k, from 1 */
static const uint8_t *entry(const uint8_t *group, uint32_t k) { return group + SIZE - DDS_INFORMATION_LEN - DDS_ENTRY_LEN * k; }

/* ---- The information table: ISO/IEC 10777, 9.2.1, Table 1. The library neither reads nor writes it. Offsets are from L - 32. */

enum {
    GROUP_NUMBER = 0, TABLE_COUNT = 2,                  /* the two numbers that a reader is given */
    RECORD_COUNT = 4, SEPARATOR_1_COUNT = 8,            /* of four bytes; all others have two */
    SEPARATOR_2_COUNT = 14,                             /* behind two bytes of zeros */
    RECORDS_HERE = 16, PREVIOUS_RECORD = 18, SEPARATORS_1_HERE = 20, PREVIOUS_SEPARATOR_1 = 22, SEPARATORS_2_HERE = 24,
    PREVIOUS_SEPARATOR_2 = 26                           /* four bytes of zeros follow */
};

static uint8_t *information(uint8_t *group) { return group + SIZE - DDS_INFORMATION_LEN; }
static uint32_t two(const uint8_t *slice, uint32_t field) { return (uint32_t)slice[field] << 8 | slice[field + 1]; }

static void put_two(uint8_t *slice, uint32_t field, uint32_t number)
{
    slice[field] = (uint8_t)(number >> 8);
    slice[field + 1] = (uint8_t)number;
}

static void put_four(uint8_t *slice, uint32_t field, uint32_t number)
{
    put_two(slice, field, number >> 16);
    put_two(slice, field + 2, number & 0xFFFF);
}

/* fills the table of a closed group from its rows, and counts on */
static void fill_information(writer *w, uint32_t number, uint32_t entries)
{
    uint8_t *table = information(w->group);
    uint32_t k, here = 0, begins = 0, separators[2] = { 0, 0 };
    for (k = 0; k < entries; k++) {
        const uint8_t *row = rows + k * DDS_ROW_LEN;
        switch (dds_number(row, DDS_ROW_KIND)) {
        case DDS_KIND_SEPARATOR: here++; begins = 1; separators[dds_number(row, DDS_ROW_COUNT)]++; break;
        case DDS_KIND_ENTIRE: here++; begins = 1; break;
        case DDS_KIND_START: begins = 1; break;
        case DDS_KIND_TOTAL: here++; break;
        }
    }
    w->records += here;
    w->separators[DDS_SEPARATOR_1] += separators[DDS_SEPARATOR_1];
    w->separators[DDS_SEPARATOR_2] += separators[DDS_SEPARATOR_2];
    memset(table, 0, DDS_INFORMATION_LEN);
    put_two(table, GROUP_NUMBER, number);
    put_two(table, TABLE_COUNT, entries);
    put_four(table, RECORD_COUNT, w->records);
    put_four(table, SEPARATOR_1_COUNT, w->separators[DDS_SEPARATOR_1]);
    put_two(table, SEPARATOR_2_COUNT, w->separators[DDS_SEPARATOR_2]);
    put_two(table, RECORDS_HERE, here);
    put_two(table, PREVIOUS_RECORD, w->beginning);
    put_two(table, SEPARATORS_1_HERE, separators[DDS_SEPARATOR_1]);
    put_two(table, PREVIOUS_SEPARATOR_1, w->separator_in[DDS_SEPARATOR_1]);
    put_two(table, SEPARATORS_2_HERE, separators[DDS_SEPARATOR_2]);
    put_two(table, PREVIOUS_SEPARATOR_2, w->separator_in[DDS_SEPARATOR_2]);
    if (begins) w->beginning = number;
    if (separators[DDS_SEPARATOR_1]) w->separator_in[DDS_SEPARATOR_1] = number;
    if (separators[DDS_SEPARATOR_2]) w->separator_in[DDS_SEPARATOR_2] = number;
}

/* ---- Writing */

static void start_writer(writer *w, uint32_t first)
{
    memset(w, 0, sizeof *w);
    must(dds_writer_start(SIZE, first, w->state, DDS_WRITER_LEN, answer, DDS_ANSWER_LEN) == DDS_ACCEPTED, "a writer starts");
    must(dds_reader_start(SIZE, first, w->beside, DDS_READER_LEN, answer, DDS_ANSWER_LEN) == DDS_ACCEPTED, "a reader beside it");
}

/* Where the last call closed the group: reads it, fills its table and puts it on the card. Returns whether it did. */
static int put_away(writer *w)
{
    uint32_t number = dds_number(answer, DDS_ANSWER_NUMBER), entries = dds_number(answer, DDS_ANSWER_ENTRIES);
    uint8_t told[DDS_ANSWER_LEN];
    if (dds_number(answer, DDS_ANSWER_OUTCOME) != DDS_OUTCOME_CLOSED) return 0;
    must(dds_read(w->beside, DDS_READER_LEN, w->group, SIZE, number, entries, rows, sizeof rows, told, DDS_ANSWER_LEN)
         == DDS_ACCEPTED && dds_number(told, DDS_ANSWER_OUTCOME) == DDS_OUTCOME_FINISHED, "what was written is read");
    fill_information(w, number, entries);
    must(w->used < GROUPS, "the card has place");
    memcpy(card[w->used++], w->group, SIZE);
    return 1;
}

static uint32_t write_record(writer *w, const uint8_t *data, size_t length, uint32_t warn)
{
    while (length > 0) {
        uint32_t refusal = dds_record(w->state, DDS_WRITER_LEN, w->group, SIZE, data, length, warn, answer, DDS_ANSWER_LEN);
        if (refusal != DDS_ACCEPTED) return refusal;
        if (!put_away(w)) break;
        data += dds_number(answer, DDS_ANSWER_TAKEN);
        length -= dds_number(answer, DDS_ANSWER_TAKEN);
    }
    return DDS_ACCEPTED;
}

/* a separator that closed the group was not laid: it is offered again */
static uint32_t write_separator(writer *w, uint32_t value, uint32_t warn)
{
    do {
        uint32_t refusal = dds_separator(w->state, DDS_WRITER_LEN, w->group, SIZE, value, warn, answer, DDS_ANSWER_LEN);
        if (refusal != DDS_ACCEPTED) return refusal;
    } while (put_away(w));
    return DDS_ACCEPTED;
}

static uint32_t flush(writer *w, uint32_t warn)
{
    uint32_t refusal = dds_end(w->state, DDS_WRITER_LEN, w->group, SIZE, warn, answer, DDS_ANSWER_LEN);
    if (refusal == DDS_ACCEPTED) put_away(w);
    return refusal;
}

/* ---- What is written: records of these bytes, each beginning at another one */

static uint8_t bytes[1024];

static const struct { uint32_t from, length, separator; } items[] = {   /* a separator where the length is 0 */
    { 10, 100, 0 }, { 0, 0, DDS_SEPARATOR_1 }, { 20, 300, 0 }, { 0, 0, DDS_SEPARATOR_1 },
    { 40, 12, 0 }, { 0, 0, DDS_SEPARATOR_2 }, { 50, 20, 0 }, { 60, 430, 0 },
};
#define ITEMS (sizeof items / sizeof *items)

static writer w, mark;

/* writes one of the items */
static void write_item(uint32_t i, uint32_t warn)
{
    uint32_t refusal = items[i].length > 0 ? write_record(&w, bytes + items[i].from, items[i].length, warn)
                                           : write_separator(&w, items[i].separator, warn);
    must(refusal == DDS_ACCEPTED, "an item is written");
}

static void write_tape(void)
{
    uint32_t i;
    start_writer(&w, 1);
    for (i = 0; i < 4; i++) write_item(i, 0);

    mark = w;                     /* state, open group, counts, and how much of the card is used */
    must(dds_record(w.state, DDS_WRITER_LEN, w.group, SIZE, bytes + 30, 50, 0, answer, DDS_ANSWER_LEN) == DDS_ACCEPTED
         && put_away(&w) && dds_number(answer, DDS_ANSWER_TAKEN) == 12 && w.used == 2, "a record of 50 bytes is begun");
    printf("A record of 50 bytes is begun. Group 2 is closed with 12 of them.\n");
    w = mark;                     /* group 2 is off the card again: the next close has its number and its place */
    write_item(4, 0);
    must(w.used == 1, "group 2 is open again");
    printf("It is given up: back at the mark, another record goes into group 2.\n");

    write_item(5, 1);             /* the early warning point has been passed: said once, b4 stays set */
    must(w.used == 2 && dds_number(w.state, DDS_STATE_ENTRIES) == 1, "the separator closed group 2 and was laid in group 3");
    printf("Behind the early warning point a separator has no room in group 2, and is laid in group 3.\n");

    write_item(6, 0);
    must(flush(&w, 0) == DDS_ACCEPTED && w.used == 3, "an end closes group 3");
    must(flush(&w, 0) == DDS_ACCEPTED && w.used == 3, "an end at once closes nothing");
    printf("An end closes group 3, a second one closes nothing, and writing goes on.\n");
    write_item(7, 0);
    must(w.used == 5 && dds_number(w.state, DDS_STATE_PHASE) == DDS_PHASE_OWED, "the last record's total is owed");
    must(flush(&w, 0) == DDS_ACCEPTED && w.used == 6, "the end lays it in group 6");
    printf("The last record's total is owed, and the end lays it in group 6.\n");
}

/* the tables of groups 3 and 6, worked out from Table 1 */
static void information_is_right(void)
{
    static const uint8_t three[DDS_INFORMATION_LEN] = { 0, 3, 0, 3, 0, 0, 0, 7, 0, 0, 0, 2, 0, 0, 0, 1,
                                                        0, 2, 0, 2, 0, 0, 0, 2, 0, 1, 0, 0, 0, 0, 0, 0 };
    static const uint8_t six[DDS_INFORMATION_LEN] = { 0, 6, 0, 2, 0, 0, 0, 8, 0, 0, 0, 2, 0, 0, 0, 1,
                                                      0, 1, 0, 4, 0, 0, 0, 2, 0, 0, 0, 3, 0, 0, 0, 0 };
    must(memcmp(information(card[2]), three, sizeof three) == 0, "the information table of group 3 is right");
    must(memcmp(information(card[5]), six, sizeof six) == 0, "the information table of group 6 is right");
}

/* b4 begins in the skip of group 2, which the first call behind the early warning point laid, and no later entry is without it,
   although no later call says it */
static void warning_is_right(void)
{
    uint32_t g, k, b4 = 0;
    for (g = 0; g < w.used; g++)
        for (k = 1; k <= two(information(card[g]), TABLE_COUNT); k++) {
            if (g == 1 && entry(card[g], k)[0] == DDS_FLAG_SKIP_B4) b4 = DDS_FLAG_B4;
            must((entry(card[g], k)[0] & DDS_FLAG_B4) == b4, "b4 is as it should be");
        }
    must(b4 == DDS_FLAG_B4, "b4 begins in group 2");
}

/* ---- Reading */

/* reads a group of the card, by the number and the entry count in its information table */
static uint32_t read_group(uint8_t *state, uint8_t *group)
{
    uint32_t number = two(information(group), GROUP_NUMBER), entries = two(information(group), TABLE_COUNT);
    return dds_read(state, DDS_READER_LEN, group, SIZE, number, entries, rows, sizeof rows, answer, DDS_ANSWER_LEN);
}

/* lists the group that was just read */
static void list(const uint8_t *group, uint32_t number, uint32_t entries)
{
    static const char *const names[] = { "", "total", "separator", "middle", "start", "last", "entire", "skip" };
    uint32_t k;
    printf("group %u entries %u\n", (unsigned)number, (unsigned)entries);
    for (k = 0; k < entries; k++) {
        const uint8_t *row = rows + k * DDS_ROW_LEN;
        printf("  %s %u %u%s\n", names[dds_number(row, DDS_ROW_KIND)], (unsigned)dds_number(row, DDS_ROW_OFFSET),
               (unsigned)dds_number(row, DDS_ROW_COUNT), entry(group, k + 1)[0] & DDS_FLAG_B4 ? " b4" : "");
    }
}

/* reads the card, and holds each item against what was written */
static void read_tape(void)
{
    static uint8_t found[1024];
    uint8_t state[DDS_READER_LEN];
    uint32_t g, k, length = 0, item = 0;
    must(dds_reader_start(SIZE, 1, state, DDS_READER_LEN, answer, DDS_ANSWER_LEN) == DDS_ACCEPTED, "a reader starts");
    for (g = 0; g < w.used; g++) {
        uint32_t entries = two(information(card[g]), TABLE_COUNT);
        must(read_group(state, card[g]) == DDS_ACCEPTED, "each group is accepted");
        if (dds_number(answer, DDS_ANSWER_OUTCOME) == DDS_OUTCOME_REPEAT) continue;   /* the rows are not this group's */
        list(card[g], two(information(card[g]), GROUP_NUMBER), entries);
        for (k = 0; k < entries; k++) {
            const uint8_t *row = rows + k * DDS_ROW_LEN;
            uint32_t kind = dds_number(row, DDS_ROW_KIND), count = dds_number(row, DDS_ROW_COUNT);
            if (kind == DDS_KIND_START || kind == DDS_KIND_MIDDLE || kind == DDS_KIND_LAST || kind == DDS_KIND_ENTIRE) {
                must(count <= sizeof found - length, "there is place for the record");
                memcpy(found + length, card[g] + dds_number(row, DDS_ROW_OFFSET), count);
                length += count;
            }
            if (kind == DDS_KIND_ENTIRE || kind == DDS_KIND_TOTAL) {   /* the record is finished */
                must(item < ITEMS && items[item].length == length && memcmp(found, bytes + items[item].from, length) == 0,
                     "each record is the one that was written");
                length = 0;
                item++;
            }
            if (kind == DDS_KIND_SEPARATOR) {
                must(item < ITEMS && items[item].length == 0 && items[item].separator == count, "each separator too");
                item++;
            }
        }
    }
    must(item == ITEMS && dds_number(state, DDS_STATE_PHASE) == DDS_PHASE_FREE, "all items are there, and the run ends free");
    printf("Every record and separator is as it was written, and the run ends free.\n");
}

/* ---- b4 that goes out at a group's edge: a mill computer stopped rewinding because of it */

static void goes_out(void)
{
    static uint8_t other[SIZE];
    uint8_t state[DDS_READER_LEN];
    uint32_t k;
    memcpy(other, card[2], SIZE);
    for (k = 1; k <= two(information(other), TABLE_COUNT); k++) other[entry(other, k) - other] ^= DDS_FLAG_B4;
    must(dds_reader_start(SIZE, 1, state, DDS_READER_LEN, answer, DDS_ANSWER_LEN) == DDS_ACCEPTED
         && read_group(state, card[0]) == DDS_ACCEPTED && read_group(state, card[1]) == DDS_ACCEPTED, "groups 1 and 2 are read");
    must(dds_number(state, DDS_READER_B4) == 1, "the reader has b4 set behind group 2");
    must(read_group(state, other) == DDS_REFUSED_B4 && dds_number(answer, DDS_ANSWER_PLACE) == 1, "a group 3 without b4 is refused");
    must(read_group(state, card[2]) == DDS_ACCEPTED, "the right group 3 is accepted");
    printf("A group 3 without b4 is refused with %u at entry 1, and the right one accepted.\n", (unsigned)DDS_REFUSED_B4);
}

/* ---- A record that is given up too late: its first group is put away for good */

static void broken_off(void)
{
    uint8_t state[DDS_READER_LEN];
    start_writer(&w, 1);
    must(dds_record(w.state, DDS_WRITER_LEN, w.group, SIZE, bytes, 300, 0, answer, DDS_ANSWER_LEN) == DDS_ACCEPTED
         && put_away(&w), "a record of 300 bytes is begun");
    must(flush(&w, 0) == DDS_REFUSED_OPEN, "an end is refused");
    printf("Another run: of a record of 300 bytes group 1 holds %u. An end is refused with %u.\n",
           (unsigned)dds_number(w.state, DDS_STATE_SUM), (unsigned)DDS_REFUSED_OPEN);
    must(dds_reader_start(SIZE, 1, state, DDS_READER_LEN, answer, DDS_ANSWER_LEN) == DDS_ACCEPTED, "a reader starts");
    must(read_group(state, card[0]) == DDS_ACCEPTED, "group 1 is accepted");
    must(dds_number(state, DDS_STATE_PHASE) == DDS_PHASE_INSIDE, "the reader is inside");
    must(dds_number(state, DDS_STATE_SUM) == DDS_PART_MOST(SIZE), "it has read what one group takes");
    printf("A reader accepts group 1 and ends inside, with %u bytes: the record is broken off.\n",
           (unsigned)dds_number(state, DDS_STATE_SUM));
    start_writer(&w, 2);
    w.used = 1;                   /* behind group 1 */
    must(write_record(&w, bytes, 20, 0) == DDS_ACCEPTED && flush(&w, 0) == DDS_ACCEPTED && w.used == 2, "a new run has group 2");
    must(read_group(state, card[1]) == DDS_REFUSED_FOLLOW && dds_number(answer, DDS_ANSWER_PLACE) == 1, "that reader refuses it");
    printf("A new run from group 2 on: that reader refuses it with %u at entry 1.\n", (unsigned)DDS_REFUSED_FOLLOW);
    must(dds_reader_start(SIZE, 2, state, DDS_READER_LEN, answer, DDS_ANSWER_LEN) == DDS_ACCEPTED
         && read_group(state, card[1]) == DDS_ACCEPTED, "a new reader accepts it");
    must(dds_number(state, DDS_STATE_PHASE) == DDS_PHASE_FREE, "and ends free");
    printf("A reader that starts at group 2 accepts it.\n");
}

int main(void)
{
    uint32_t i;
    for (i = 0; i < sizeof bytes; i++) bytes[i] = (uint8_t)(i * 7 + i / 256);
    write_tape();
    information_is_right();
    warning_is_right();
    read_tape();
    goes_out();
    broken_off();
    return 0;
}
