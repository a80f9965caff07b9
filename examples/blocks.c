/* An older batch computer writes blocks of one size and seeks by block number. Eight blocks are written across seven groups, read
   back, one group coming twice, and sought; then two runs hold a record of another length. begun, seek and fetch are what a
   firmware needs beside the loops of writing and reading. Exits with 1 if anything is not as it says. */

#include <stdio.h>
#include <stdlib.h>
#include <string.h>

#include "dds.h"

#define SIZE 100u                 /* a rig's, so that blocks span groups; a tape has DDS_SIZE_STANDARD */
#define BLOCK 40u                 /* the block size */
#define BLOCKS 8u                 /* as many are written, 0 to 7 */
#define SLOTS 8u                  /* the card has place for so many groups */

/* A slot of the card: a closed group with its two numbers, and what is known of it once it has been read. */
typedef struct {
    uint32_t number, entries;
    uint8_t image[SIZE];
    uint8_t rows[DDS_ROWS_LEN(SIZE)];
    uint32_t before;              /* how many blocks begin in the groups before it */
} slot;

static slot card[SLOTS];
static uint32_t used;             /* groups on the card */
static uint8_t blocks[BLOCKS][BLOCK];
static uint8_t writer[DDS_WRITER_LEN], group[SIZE], state[DDS_BLOCKS_STATE_LEN], plain[DDS_READER_LEN], answer[DDS_ANSWER_LEN];

/* ends the program unless what was just said is so */
static void must(int so, const char *otherwise)
{
    if (so) return;
    printf("NOT SO: %s\n", otherwise);
    exit(1);
}

static uint32_t outcome(void) { return dds_number(answer, DDS_ANSWER_OUTCOME); }

/* ---- Writing */

static void start_writer(void)
{
    used = 0;
    must(dds_writer_start(SIZE, 1, writer, sizeof writer, answer, sizeof answer) == DDS_ACCEPTED, "a writer starts");
}

/* Puts the group away if the call closed it. Returns whether it did. */
static int put_away(void)
{
    slot *s;
    if (outcome() != DDS_OUTCOME_CLOSED) return 0;
    must(used < SLOTS, "the card has place");
    s = &card[used++];
    s->number = dds_number(answer, DDS_ANSWER_NUMBER);
    s->entries = dds_number(answer, DDS_ANSWER_ENTRIES);
    memcpy(s->image, group, SIZE);
    return 1;
}

static void write_record(const uint8_t *data, size_t length)
{
    while (length > 0) {
        must(dds_record(writer, sizeof writer, group, SIZE, data, length, 0, answer, sizeof answer) == DDS_ACCEPTED,
             "a record is written");
        if (!put_away()) return;
        data += dds_number(answer, DDS_ANSWER_TAKEN);
        length -= dds_number(answer, DDS_ANSWER_TAKEN);
    }
}

static void write_separator(uint32_t value)
{
    do must(dds_separator(writer, sizeof writer, group, SIZE, value, 0, answer, sizeof answer) == DDS_ACCEPTED,
            "a separator is written");
    while (put_away());
}

static void end_run(void)
{
    must(dds_end(writer, sizeof writer, group, SIZE, 0, answer, sizeof answer) == DDS_ACCEPTED, "the run ends");
    put_away();
}

/* ---- Reading */

static void start_reader(void)
{
    must(dds_blocks_start(SIZE, 1, BLOCK, state, sizeof state, answer, sizeof answer) == DDS_ACCEPTED,
         "a reader of blocks starts");
}

static uint32_t read_group(slot *s)
{
    return dds_blocks_read(state, sizeof state, s->image, SIZE, s->number, s->entries, s->rows, sizeof s->rows, answer,
                           sizeof answer);
}

/* How many blocks begin in the group: its rows of these two kinds. */
static uint32_t begun(const slot *s)
{
    uint32_t k, count = 0;
    for (k = 0; k < s->entries; k++) {
        uint32_t kind = dds_number(s->rows, k * DDS_ROW_LEN + DDS_ROW_KIND);
        count += kind == DDS_KIND_START || kind == DDS_KIND_ENTIRE;
    }
    return count;
}

/* ---- Seeking */

/* The group in which the block begins, and the offset there; no group where it begins in none. Each group is asked with its own
   rows and no more. */
static const slot *seek(uint32_t block, uint32_t *offset)
{
    const slot *s;
    for (s = card; s < card + used; s++) {
        must(dds_blocks_find(s->rows, DDS_ROW_LEN * s->entries, s->before, block, answer, sizeof answer) == DDS_ACCEPTED,
             "rows are never refused");
        *offset = dds_number(answer, DDS_ANSWER_OFFSET);
        if (outcome() == DDS_OUTCOME_BEGINS) return s;
    }
    return NULL;
}

/* Where the data of a group end: the last row is the skip's, and its offset has been reached before it. */
static uint32_t data_end(const slot *s) { return dds_number(s->rows, (s->entries - 1) * DDS_ROW_LEN + DDS_ROW_OFFSET); }

/* Copies the whole block. Data have no holes, so it goes on from its offset, and from byte 0 of the next group where this one's
   data end. Returns how many of its bytes stand in the first. */
static uint32_t fetch(const slot *s, uint32_t offset, uint8_t *bytes)
{
    uint32_t part, got = 0, first = 0;
    for (; got < BLOCK; s++, offset = 0) {
        must(s < card + used && offset < data_end(s), "no block is broken off");
        part = data_end(s) - offset;
        if (part > BLOCK - got) part = BLOCK - got;
        memcpy(bytes + got, s->image + offset, part);
        if (got == 0) first = part;
        got += part;
    }
    return first;
}

/* ---- The mill's blocks: one recipe of forty bytes in each, with the block's number */

static void write_down_blocks(void)
{
    uint32_t i;
    char line[80];
    for (i = 0; i < BLOCKS; i++) {
        snprintf(line, sizeof line, "mix %05u wheat %03u barley %03u soya %03u\n", (unsigned)i, (unsigned)(i * 7 + 100),
                 (unsigned)(i * 11 + 50), (unsigned)(i * 3 + 10));
        must(strlen(line) == BLOCK, "a recipe is as long as a block");
        memcpy(blocks[i], line, BLOCK);
    }
}

static void write_blocks(void)
{
    uint32_t i;
    printf("A batch computer writes %u blocks of %u bytes, with two separators between them, in groups of %u bytes.\n",
           (unsigned)BLOCKS, (unsigned)BLOCK, (unsigned)SIZE);
    start_writer();
    for (i = 0; i < BLOCKS; i++) {
        if (i == 4) write_separator(DDS_SEPARATOR_1);
        if (i == 7) write_separator(DDS_SEPARATOR_2);
        write_record(blocks[i], BLOCK);
    }
    end_run();
    must(used == 7, "they take seven groups");
}

static void read_blocks(void)
{
    static const uint32_t order[] = { 0, 1, 2, 2, 3, 4, 5, 6 };
    uint32_t i, before = 0, repeats = 0;
    printf("The groups come back, the third of them twice:\n");
    printf("  group  entries  begun before  begin here\n");
    start_reader();
    for (i = 0; i < sizeof order / sizeof *order; i++) {
        slot *s = &card[order[i]];
        must(read_group(s) == DDS_ACCEPTED, "each group is accepted");
        if (outcome() == DDS_OUTCOME_REPEAT) { /* counted again, it would make each later block's number too high */
            printf("  %5u  a repeat: no rows, and nothing is counted\n", (unsigned)s->number);
            repeats++;
            continue;
        }
        s->before = before;
        before += begun(s);
        printf("  %5u  %7u  %12u  %10u\n", (unsigned)s->number, (unsigned)s->entries, (unsigned)s->before,
               (unsigned)(before - s->before));
    }
    must(repeats == 1 && before == BLOCKS, "every block is counted once");
    must(dds_number(state, DDS_STATE_PHASE) == DDS_PHASE_FREE, "the last block is finished");
    printf("Every record is a block of %u bytes, and the run ends free.\n\n", (unsigned)BLOCK);
}

static void seek_blocks(void)
{
    static const uint32_t sought[] = { 5, 0, 7, 3 };
    uint32_t i, b, offset, there;
    uint8_t bytes[BLOCK];
    const slot *s;
    printf("The computer seeks by number:\n");
    printf("  block  group  offset  bytes there  beginning with\n");
    for (i = 0; i < sizeof sought / sizeof *sought; i++) {
        b = sought[i];
        s = seek(b, &offset);
        must(s != NULL, "a block that was written begins in some group");
        there = fetch(s, offset, bytes);
        must(memcmp(bytes, blocks[b], BLOCK) == 0, "the block is the one that was written");
        printf("  %5u  %5u  %6u  %11u  %.9s\n", (unsigned)b, (unsigned)s->number, (unsigned)offset, (unsigned)there,
               (const char *)s->image + offset);
    }
    printf("Each was fetched whole from there on, and is as it was written.\n");
    must(seek(BLOCKS, &offset) == NULL, "the next number begins in no group");
    printf("Block %u was never written: it begins in no group.\n\n", (unsigned)BLOCKS);
}

/* ---- A record of another length */

/* Writes a block and then a record of `length` bytes. Reads the run until a group is refused, and returns that group; then the
   plain reader must accept every one. */
static const slot *another(uint32_t length)
{
    uint32_t g, refused = 0;
    start_writer();
    write_record(blocks[0], BLOCK);
    write_record(blocks[1], length);
    end_run();
    must(dds_reader_start(SIZE, 1, plain, sizeof plain, answer, sizeof answer) == DDS_ACCEPTED, "a plain reader starts");
    for (g = 0; g < used; g++)
        must(dds_read(plain, sizeof plain, card[g].image, SIZE, card[g].number, card[g].entries, card[g].rows,
                      sizeof card[g].rows, answer, sizeof answer) == DDS_ACCEPTED, "the plain reader accepts each group");
    start_reader();
    while (refused < used && read_group(&card[refused]) == DDS_ACCEPTED) refused++;
    must(refused < used && dds_number(answer, DDS_ANSWER_REFUSAL) == DDS_REFUSED_BLOCK_LENGTH, "a group is refused with 51");
    return &card[refused];
}

static uint32_t place(void) { return dds_number(answer, DDS_ANSWER_PLACE); }

/* the kind of the entry that was refused, from the rows that the plain reader has filled */
static uint32_t kind(const slot *s) { return dds_number(s->rows, (place() - 1) * DDS_ROW_LEN + DDS_ROW_KIND); }

static void another_length(void)
{
    const slot *s = another(12);
    must(kind(s) == DDS_KIND_ENTIRE, "it is refused at the record");
    printf("Another run has a record of 12 bytes behind its first block: group %u is refused with %u at entry %u, the record.\n",
           (unsigned)s->number, (unsigned)DDS_REFUSED_BLOCK_LENGTH, (unsigned)place());
    s = another(39);
    must(kind(s) == DDS_KIND_TOTAL && s->number == 2, "it is refused at the total, in the second group");
    printf("In a third it has 39 bytes and is spanned: group 1 is accepted, and group %u refused with %u at entry %u, "
           "the total.\n", (unsigned)s->number, (unsigned)DDS_REFUSED_BLOCK_LENGTH, (unsigned)place());
    printf("dds_read knows no block size: it accepts every group of both.\n");
}

int main(void)
{
    write_down_blocks();
    write_blocks();
    read_blocks();
    seek_blocks();
    another_length();
    return 0;
}
