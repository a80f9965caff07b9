/* The library beside plain C built with -O2 and with -O3, writing beside memcpy of the same bytes, and reading blocks of one size
   beside dds_read of the same groups, in one run, at the standard size; the third code over 46 rows of 2,878 bytes; the search in
   65,536 received bytes. Best of many interleaved repetitions, as ratios. Four uses:
     bench time COUNTS ROUNDS  the tables, best of so many; COUNTS is a file of lines "work who instructions"
     bench counts COUNTS       the instructions alone, where a time would say nothing
     bench count WORK WHO N    reads N groups, 2 at most, or writes N records, or does the third code's work or a search N
                               times, and measures nothing: for counting them
     bench works               the names of the works, each with the call it measures */

#define _POSIX_C_SOURCE 199309L
#include <stdio.h>
#include <stdlib.h>
#include <string.h>
#include <time.h>

#include "dds.h"

#define L DDS_SIZE_STANDARD
#define IMAGES 16              /* groups of one kind, read in turn */
#define ROW 2878               /* bytes of a row of the third code */
#define RECEIVED 65536         /* bytes that are searched */
#define ROWS (DDS_ROW_LEN * ((L - DDS_INFORMATION_LEN) / DDS_ENTRY_LEN)) /* bytes of the rows of the fullest table */
#define WHO 3                  /* the library, plain C -O2, plain C -O3 */
#define BYTES (4u << 20)       /* bytes written in one repetition, or one record if it is longer */
#define BEFORE 1000u           /* blocks that begin before the rows in which one is found */
#define BLOCKS_MOST 2.0        /* wanted: reading blocks takes at most so many times dds_read of the same groups */
#define MOST_PIECES (BYTES / 100 + 4096)

typedef uint32_t read_call(uint8_t *, size_t, const uint8_t *, size_t, uint32_t, uint32_t, uint8_t *, size_t, uint8_t *, size_t);
typedef uint32_t record_call(uint8_t *, size_t, uint8_t *, size_t, const uint8_t *, size_t, uint32_t, uint8_t *, size_t);
typedef uint32_t rows_call(uint32_t, uint8_t *, size_t, uint8_t *, size_t);
typedef uint32_t two_call(uint32_t, uint32_t, uint32_t, uint8_t *, size_t, uint8_t *, size_t);
typedef uint32_t find_call(const uint8_t *, size_t, uint8_t *, size_t);
typedef uint32_t blocks_find_call(const uint8_t *, size_t, uint32_t, uint32_t, uint8_t *, size_t);
extern read_call plain2_read, plain3_read, plain2_blocks_read, plain3_blocks_read;
extern rows_call plain2_third_make, plain3_third_make, plain2_third_mend, plain3_third_mend;
extern two_call plain2_third_restore_two, plain3_third_restore_two;
extern record_call plain2_record, plain3_record;
extern find_call plain2_radio_find, plain3_radio_find;
extern blocks_find_call plain2_blocks_find, plain3_blocks_find;

static const char *const who_name[WHO] = { "dds", "plain2", "plain3" };
static read_call *const reads[WHO] = { dds_read, plain2_read, plain3_read };
static record_call *const records[WHO] = { dds_record, plain2_record, plain3_record };
static rows_call *const makes[WHO] = { dds_third_make, plain2_third_make, plain3_third_make };
static rows_call *const mends[WHO] = { dds_third_mend, plain2_third_mend, plain3_third_mend };
static two_call *const restores[WHO] = { dds_third_restore_two, plain2_third_restore_two, plain3_third_restore_two };
static find_call *const finds[WHO] = { dds_radio_find, plain2_radio_find, plain3_radio_find };
static read_call *const blocks_reads[WHO] = { dds_blocks_read, plain2_blocks_read, plain3_blocks_read };
static blocks_find_call *const blocks_finds[WHO] = { dds_blocks_find, plain2_blocks_find, plain3_blocks_find };

/* a reading work has entries, a writing work a record length, a work of the third code the name of its call, a search what it
   goes through; a work on blocks has entries too, of the groups that are read or of the one whose rows are gone through; `most`
   is the ratio to plain C that is wanted, 0 where none is set */
enum { REGULAR, MIXED, RECORDS_ALONE };
enum { SEARCHES_NOT, RANDOM, ZEROS, NEAR };
enum { BLOCKS_NOT, BLOCKS_READ, BLOCKS_FIND };
typedef struct {
    const char *name;
    uint32_t entries;
    int table;
    uint32_t length;
    double most;
    const char *third;
    int search;
    int blocks;
} work;
static const work works[] = {
    { .name = "read-2", .entries = 2, .most = 1.0 },
    { .name = "read-100-regular", .entries = 100, .most = 1.0 },
    { .name = "read-100-mixed", .entries = 100, .table = MIXED, .most = 1.0 },
    { .name = "read-30000-regular", .entries = 30000, .most = 1.0 },
    { .name = "read-30000-mixed", .entries = 30000, .table = MIXED, .most = 1.0 },
    { .name = "read-31650", .entries = 31650, .most = 1.0 },
    { .name = "write-100", .length = 100, .most = 2.0 },
    { .name = "write-1024", .length = 1024 },
    { .name = "write-65536", .length = 65536, .most = 1.15 },
    { .name = "write-126592", .length = 126592, .most = 1.15 },
    { .name = "write-16777215", .length = 16777215, .most = 1.15 },
    { .name = "third-make", .most = 1.0, .third = "third_make" },
    { .name = "third-restore-two", .most = 1.0, .third = "third_restore_two" },
    { .name = "third-mend", .most = 1.0, .third = "third_mend" },
    { .name = "find-random", .search = RANDOM },
    { .name = "find-zeros", .search = ZEROS },
    { .name = "find-near", .search = NEAR },
    { .name = "blocks-2", .entries = 2, .blocks = BLOCKS_READ },
    { .name = "blocks-25320", .entries = 25320, .table = RECORDS_ALONE, .blocks = BLOCKS_READ },
    { .name = "blocks-30000-regular", .entries = 30000, .blocks = BLOCKS_READ },
    { .name = "blocks-30000-mixed", .entries = 30000, .table = MIXED, .blocks = BLOCKS_READ },
    { .name = "blocks-31650", .entries = 31650, .blocks = BLOCKS_READ },
    { .name = "blocks-find-25320", .entries = 25320, .table = RECORDS_ALONE, .blocks = BLOCKS_FIND },
    { .name = "blocks-find-30000", .entries = 30000, .blocks = BLOCKS_FIND },
};
#define WORKS ((int)(sizeof works / sizeof *works))

static uint8_t images[IMAGES][L], rows[ROWS], other_rows[ROWS], group[L], other_group[L], *source;
static uint8_t third_rows[DDS_THIRD_ROWS * ROW], other_third[DDS_THIRD_ROWS * ROW], received[RECEIVED];
static uint8_t reader_fresh[DDS_READER_LEN], writer_fresh[DDS_WRITER_LEN], blocks_fresh[DDS_BLOCKS_STATE_LEN];
static uint8_t state[DDS_WRITER_LEN]; /* the longest of the three */
static uint8_t answer[DDS_ANSWER_LEN], other_answer[DDS_ANSWER_LEN];

static uint64_t seed = 0x9E3779B97F4A7C15u;
static uint32_t below(uint32_t n)
{
    seed ^= seed << 13;
    seed ^= seed >> 7;
    seed ^= seed << 17;
    return (uint32_t)((seed >> 32) * n >> 32);
}

static uint32_t number(const uint8_t *p)
{
    return (uint32_t)p[0] << 24 | (uint32_t)p[1] << 16 | (uint32_t)p[2] << 8 | (uint32_t)p[3];
}

static double now(void)
{
    struct timespec t;
    clock_gettime(CLOCK_MONOTONIC, &t);
    return (double)t.tv_sec * 1e9 + (double)t.tv_nsec;
}

static void wrong(const char *name, const char *what)
{
    printf("%s: %s\n", name, what);
    exit(1);
}

/* ---- Reading */

/* the length of every record in a work's groups: so it is their block size too */
static uint32_t part_of(const work *w) { return w->entries == 2 ? L - 40 : w->entries == 100 ? 3000 : 1; }

/* Lawful tables. Regular: four separators and a record, over and over. Mixed: one in five a record, at random. Records alone: no
   separator. Where there is no room for a record a separator stands, so that of 31,650 entries none is a record. */
static void make_images(const work *w, uint32_t images_made)
{
    uint32_t i, k, n = w->entries, part = part_of(w), room = L - 32 - 4 * n;
    int mixed = w->table == MIXED, alone = w->table == RECORDS_ALONE || n == 2;
    for (i = 0; i < images_made; i++) {
        uint32_t data = 0;
        memset(images[i], 0x41, L);
        for (k = 1; k <= n; k++) {
            uint8_t *e = images[i] + L - 32 - 4 * k;
            int record = mixed ? below(5) == 0 : alone || k % 5 == 0;
            uint32_t count = k == n ? L - data : record && data + part <= room ? part : mixed ? below(2) : 0;
            e[0] = k == n ? 0x80 : record && data + part <= room ? 0x63 : 0x07;
            if (e[0] == 0x63) data += count;
            e[1] = (uint8_t)(count >> 16);
            e[2] = (uint8_t)(count >> 8);
            e[3] = (uint8_t)count;
        }
    }
}

static long read_once(const work *w, int who, long times)
{
    long t, bad = 0;
    for (t = 0; t < times; t++) {
        const uint8_t *image = images[t % IMAGES];
        memcpy(state, reader_fresh, sizeof reader_fresh);
        bad += reads[who](state, DDS_READER_LEN, image, L, 1, w->entries, rows, sizeof rows, answer, sizeof answer) != 0;
    }
    if (bad) wrong(w->name, "a group was refused");
    return times;
}

/* ---- Writing, from fresh, in one group buffer, and putting each closed group nowhere */

typedef struct { uint32_t to, from, length; } piece;
static piece pieces[MOST_PIECES];
static long piece_count;

/* `log`: also note where each piece of data goes */
static long write_once(const work *w, int who, long times, int log)
{
    long i;
    record_call *record = records[who];
    memcpy(state, writer_fresh, sizeof state);
    if (log) piece_count = 0;
    for (i = 0; i < times; i++) {
        uint32_t from = 0, left = w->length;
        while (left) {
            uint32_t at = number(state + DDS_STATE_DATA), taken;
            if (record(state, sizeof state, group, L, source + from, left, 0, answer, sizeof answer))
                wrong(w->name, "a record was refused");
            taken = number(answer + DDS_ANSWER_OUTCOME) ? number(answer + DDS_ANSWER_TAKEN) : left;
            if (log && taken) {
                piece p = { at, from, taken };
                pieces[piece_count++] = p;
            }
            from += taken;
            left -= taken;
        }
    }
    return times;
}

static void copy_pieces(void)
{
    long i;
    for (i = 0; i < piece_count; i++) {
        memcpy(group + pieces[i].to, source + pieces[i].from, pieces[i].length);
        __asm__ volatile("" : : "r"(group) : "memory");
    }
}

/* ---- The third code: rows 7 and 30 lost, or one wrong byte in each column. What is changed is put right each time. */

static void make_rows(void)
{
    uint32_t i;
    for (i = 0; i < sizeof third_rows; i++) third_rows[i] = (uint8_t)below(256);
    if (dds_third_make(ROW, third_rows, sizeof third_rows, answer, sizeof answer)) wrong("third code", "rows were refused");
}

static long third_once(const work *w, int who, long times)
{
    long t, bad = 0;
    uint32_t c;
    for (t = 0; t < times; t++)
        if (!strcmp(w->third, "third_make")) bad += makes[who](ROW, third_rows, sizeof third_rows, answer, sizeof answer) != 0;
        else if (!strcmp(w->third, "third_mend")) {
            for (c = 0; c < ROW; c++) third_rows[c % DDS_THIRD_ROWS * ROW + c] ^= (uint8_t)(c % 255 + 1);
            bad += mends[who](ROW, third_rows, sizeof third_rows, answer, sizeof answer) != 0;
        } else {
            memset(third_rows + 7 * ROW, 0x77, ROW);
            memset(third_rows + 30 * ROW, 0x33, ROW);
            bad += restores[who](ROW, 7, 30, third_rows, sizeof third_rows, answer, sizeof answer) != 0;
        }
    if (bad) wrong(w->name, "rows were refused");
    return times;
}

/* ---- The search: a message begins at the very end, so that all bytes are gone through and the place is known */

static const uint8_t message[6] = { 0x00, 0x00, 0x00, 0xB2, 0x4D, 0x01 };

/* almost the pattern: pieces of it at random, each time it would come about its last byte another */
static void make_near(void)
{
    static const uint8_t almost[5][5] = { { 0, 0, 0, 0xB2, 0x4C }, { 1, 0, 0, 0xB2, 0x4D }, { 0, 0, 0, 0xB1, 0x4D },
                                          { 0, 0, 0, 0, 0xB2 }, { 0, 0, 0xB2, 0, 0 } };
    uint32_t i, at;
    for (at = 0; at < RECEIVED; at += 5) memcpy(received + at, almost[below(5)], RECEIVED - at < 5 ? RECEIVED - at : 5);
    for (i = 0; i + 5 <= RECEIVED; i++)
        if (!memcmp(received + i, message, 5)) received[i + 4] = 0x4C;
}

static void make_received(const work *w)
{
    uint32_t i;
    if (w->search == NEAR) make_near();
    else for (i = 0; i < RECEIVED; i++) received[i] = w->search == RANDOM ? (uint8_t)below(256) : 0;
    memcpy(received + RECEIVED - sizeof message, message, sizeof message);
}

static long find_once(const work *w, int who, long times)
{
    long t, bad = 0;
    for (t = 0; t < times; t++) {
        bad += finds[who](received, RECEIVED, answer, sizeof answer) != 0;
        bad += number(answer + DDS_ANSWER_PATTERN) != RECEIVED - 4;
    }
    if (bad) wrong(w->name, "the message at the end was not found");
    return times;
}

/* ---- Blocks of one size: read in groups whose every record is a block, and found among the rows of one group. The block that is
   found is the last that begins there, so that all rows before it are gone through. */

static uint32_t last_block, last_offset;

static void make_blocks(const work *w)
{
    uint32_t k;
    if (dds_blocks_start(L, 1, part_of(w), blocks_fresh, sizeof blocks_fresh, answer, sizeof answer))
        wrong(w->name, "a start was refused");
    if (w->blocks == BLOCKS_READ) return;
    read_once(w, 0, 1);
    last_block = BEFORE - 1;
    for (k = 0; k < w->entries; k++) {
        const uint8_t *row = rows + DDS_ROW_LEN * k;
        if (number(row + DDS_ROW_KIND) != DDS_KIND_ENTIRE) continue; /* none is spanned */
        last_block++;
        last_offset = number(row + DDS_ROW_OFFSET);
    }
}

static long blocks_read_once(const work *w, int who, long times)
{
    long t, bad = 0;
    for (t = 0; t < times; t++) {
        const uint8_t *image = images[t % IMAGES];
        memcpy(state, blocks_fresh, sizeof blocks_fresh);
        bad += blocks_reads[who](state, DDS_BLOCKS_STATE_LEN, image, L, 1, w->entries, rows, sizeof rows, answer, sizeof answer)
               != 0;
    }
    if (bad) wrong(w->name, "a group was refused");
    return times;
}

static long blocks_find_once(const work *w, int who, long times)
{
    long t, bad = 0;
    for (t = 0; t < times; t++) {
        bad += blocks_finds[who](rows, DDS_ROW_LEN * w->entries, BEFORE, last_block, answer, sizeof answer) != 0;
        bad += number(answer + DDS_ANSWER_OUTCOME) != DDS_OUTCOME_BEGINS || number(answer + DDS_ANSWER_OFFSET) != last_offset;
    }
    if (bad) wrong(w->name, "the last block was not found");
    return times;
}

/* ---- Measuring */

static const char *call_of(const work *w)
{
    if (w->third) return w->third;
    if (w->search) return "radio_find";
    if (w->blocks) return w->blocks == BLOCKS_READ ? "blocks_read" : "blocks_find";
    return w->entries ? "read" : "record";
}

/* what the work goes through, with so many groups where it reads */
static void prepare(const work *w, uint32_t images_made)
{
    if (w->entries) make_images(w, images_made);
    if (w->third) make_rows();
    if (w->search) make_received(w);
    if (w->blocks) make_blocks(w);
}

static void once(const work *w, int who, long times)
{
    if (w->third) third_once(w, who, times);
    else if (w->search) find_once(w, who, times);
    else if (w->blocks == BLOCKS_READ) blocks_read_once(w, who, times);
    else if (w->blocks == BLOCKS_FIND) blocks_find_once(w, who, times);
    else if (w->entries) read_once(w, who, times);
    else write_once(w, who, times, 0);
}

/* what stands beside the work and is no plain C of it: memcpy of what is written, dds_read of the groups whose blocks are read */
static int has_beside(const work *w) { return w->length || w->blocks == BLOCKS_READ; }

static void beside(const work *w, long times)
{
    if (w->length) copy_pieces();
    else read_once(w, 0, times);
}

static long repetitions(const work *w)
{
    if (w->third || w->search) return 16;
    if (w->length) return w->length >= BYTES ? 1 : BYTES / w->length;
    return w->entries > 100 ? IMAGES : w->entries == 100 ? 64 * IMAGES : 1024 * IMAGES;
}

/* each does the same before anything is measured */
static void agree(const work *w)
{
    int who;
    prepare(w, IMAGES);
    if (w->third) memcpy(other_third, third_rows, sizeof third_rows);
    for (who = 0; who < WHO; who++) {
        if (w->search || w->blocks == BLOCKS_FIND) {
            once(w, who, 1);
            if (who == 0) memcpy(other_answer, answer, sizeof answer);
            else if (memcmp(other_answer, answer, sizeof answer)) wrong(w->name, "answers differ");
        } else if (w->third) {
            third_once(w, who, 1);
            if (memcmp(other_third, third_rows, sizeof third_rows)) wrong(w->name, "rows differ");
        } else if (w->entries) {
            memset(rows, 0xEE, sizeof rows);
            once(w, who, IMAGES);
            if (who == 0) memcpy(other_rows, rows, sizeof rows);
            else if (memcmp(other_rows, rows, sizeof rows)) wrong(w->name, "rows differ");
        } else {
            memset(group, 0xEE, L);
            write_once(w, who, repetitions(w), who == 0);
            if (who == 0) memcpy(other_group, group, L);
            else if (memcmp(other_group, group, L)) wrong(w->name, "groups differ");
        }
    }
    if (w->blocks == BLOCKS_READ) {
        memset(rows, 0xEE, sizeof rows);
        beside(w, IMAGES);
        if (memcmp(other_rows, rows, sizeof rows)) wrong(w->name, "rows differ from those of dds_read");
    }
}

static double best[WORKS][WHO + 1], counts[WORKS][WHO];

static void measure(int i, int rounds)
{
    const work *w = &works[i];
    long times = repetitions(w);
    int who, r;
    agree(w);
    for (who = 0; who <= WHO; who++) best[i][who] = 1e30;
    for (r = 0; r < rounds; r++)
        for (who = 0; who <= WHO; who++) {
            double begun, took;
            if (who == WHO && !has_beside(w)) continue;
            begun = now();
            if (who == WHO) beside(w, times);
            else once(w, who, times);
            took = (now() - begun) / (double)times;
            if (took < best[i][who]) best[i][who] = took;
        }
}

static void load_counts(const char *path)
{
    FILE *f = fopen(path, "r");
    char name[64], who[16];
    double n;
    int i, j;
    if (!f) return;
    while (fscanf(f, "%63s %15s %lf", name, who, &n) == 3)
        for (i = 0; i < WORKS; i++)
            for (j = 0; j < WHO; j++)
                if (!strcmp(name, works[i].name) && !strcmp(who, who_name[j])) counts[i][j] = n;
    fclose(f);
}

static void table(void)
{
    int i, who;
    printf("%-20s %10s %10s %10s %10s | %6s %6s %6s %-9s | %10s %10s %10s\n", "a group or record", "dds ns", "-O2 ns", "-O3 ns",
           "memcpy ns", "to -O2", "to -O3", "to cpy", "wanted", "dds instr", "-O2 instr", "-O3 instr");
    for (i = 0; i < WORKS; i++) {
        double *b = best[i], plain = b[1] < b[2] ? b[1] : b[2];
        printf("%-20s %10.1f %10.1f %10.1f ", works[i].name, b[0], b[1], b[2]);
        if (works[i].length) printf("%10.1f", b[3]); else printf("%10s", "-");
        printf(" | %6.2f %6.2f ", b[0] / b[1], b[0] / b[2]);
        if (works[i].length) printf("%6.2f", b[0] / b[3]); else printf("%6s", "-");
        if (works[i].most == 0) printf(" %-9s |", "-");
        else printf(" %4.2f %-4s |", works[i].most, b[0] <= works[i].most * plain ? "met" : "not");
        for (who = 0; who < WHO; who++) if (counts[i][who] > 0) printf(" %10.0f", counts[i][who]); else printf(" %10s", "-");
        printf("\n");
    }
}

/* the works that read blocks once more, beside dds_read of the same groups, which was timed in turn with them */
static void blocks_table(void)
{
    int i;
    printf("\n%-20s %10s %10s | %7s %s\n", "a group of blocks", "blocks ns", "read ns", "to read", "wanted");
    for (i = 0; i < WORKS; i++) {
        double *b = best[i];
        if (works[i].blocks != BLOCKS_READ) continue;
        printf("%-20s %10.1f %10.1f | %7.2f %4.2f %s\n", works[i].name, b[0], b[WHO], b[0] / b[WHO], BLOCKS_MOST,
               b[0] <= BLOCKS_MOST * b[WHO] ? "met" : "not");
    }
}

static void counts_table(void)
{
    int i;
    printf("%-20s %10s %10s %10s | %6s %6s\n", "a group or record", "dds instr", "-O2 instr", "-O3 instr", "to -O2", "to -O3");
    for (i = 0; i < WORKS; i++) {
        double *c = counts[i];
        printf("%-20s %10.0f %10.0f %10.0f | %6.2f %6.2f\n", works[i].name, c[0], c[1], c[2], c[0] / c[1], c[0] / c[2]);
    }
}

int main(int argc, char **argv)
{
    int i, who;
    uint32_t k;
    source = calloc(DDS_RECORD_MOST, 1);
    if (!source) return 2;
    if (dds_reader_start(L, 1, reader_fresh, sizeof reader_fresh, answer, sizeof answer)) return 2;
    if (dds_writer_start(L, 1, writer_fresh, sizeof writer_fresh, answer, sizeof answer)) return 2;
    if (argc == 2 && !strcmp(argv[1], "works")) {
        for (i = 0; i < WORKS; i++) printf("%s %s\n", works[i].name, call_of(&works[i]));
        return 0;
    }
    if (argc == 3 && !strcmp(argv[1], "counts")) {
        load_counts(argv[2]);
        for (i = 0; i < WORKS; i++) agree(&works[i]);
        counts_table();
        return 0;
    }
    if (argc == 5 && !strcmp(argv[1], "count")) {
        for (i = 0; i < WORKS; i++)
            for (who = 0; who < WHO; who++)
                if (!strcmp(argv[2], works[i].name) && !strcmp(argv[3], who_name[who])) {
                    prepare(&works[i], 2);
                    once(&works[i], who, atol(argv[4]));
                    return 0;
                }
        return 2;
    }
    if (argc != 4 || strcmp(argv[1], "time")) {
        fprintf(stderr, "bench time COUNTS ROUNDS | bench counts COUNTS | bench count WORK WHO N | bench works\n");
        return 2;
    }
    for (k = 0; k < DDS_RECORD_MOST; k++) source[k] = (uint8_t)(k * 7);
    load_counts(argv[2]);
    for (i = 0; i < WORKS; i++) measure(i, works[i].length > BYTES ? atoi(argv[3]) / 3 + 1 : atoi(argv[3]));
    table();
    blocks_table();
    free(source);
    return 0;
}
