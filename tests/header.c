/* The header alone, included first and twice, as C99 and as C++: its constants are the numbers of documents 01 and 02 and the
   fields and lengths of docs/C-INTERFACE.md, its prototypes link, and the library goes by its flags, limits, Pack IDs and by what
   it says of a repeat, of an explanation and of blocks of one size. Also what it says of an offer: only the bytes taken are
   read. */

#define _DEFAULT_SOURCE /* mmap */

#include "dds.h"
#include "dds.h"

#include <stdio.h>
#include <string.h>
#include <sys/mman.h>

static const struct { const char *name; uint32_t found, wanted; } constants[] = {
#define IS(name, wanted) { #name, name, wanted },
    IS(DDS_SIZE_LEAST, 64) IS(DDS_SIZE_STANDARD, 126632) IS(DDS_NUMBER_LEAST, 1) IS(DDS_NUMBER_MOST, 65535)
    IS(DDS_RECORD_MOST, 16777215) IS(DDS_INFORMATION_LEN, 32) IS(DDS_ENTRY_LEN, 4)
    IS(DDS_VERSION, 10202609) IS(DDS_PART_INDEX_LEN, 40)
    IS(DDS_PART_MOST(64), 24) IS(DDS_PART_MOST(126632), 126592)
    IS(DDS_ENTRIES_MOST(64), 8) IS(DDS_ENTRIES_MOST(67), 8) IS(DDS_ENTRIES_MOST(68), 9) IS(DDS_ENTRIES_MOST(126632), 31650)
    IS(DDS_ROWS_LEN(64), 96) IS(DDS_ROWS_LEN(128 >> 1), 96) IS(DDS_PART_MOST(128 >> 1) / 2, 12) IS(DDS_ROWS_LEN(126632), 379800)
    IS(DDS_READER_LEN, 24) IS(DDS_WRITER_LEN, 32) IS(DDS_BLOCKS_STATE_LEN, 28) IS(DDS_ANSWER_LEN, 24) IS(DDS_ROW_LEN, 12)
    IS(DDS_STATE_SIZE, 0) IS(DDS_STATE_NEXT, 4) IS(DDS_STATE_PHASE, 8) IS(DDS_STATE_SUM, 12)
    IS(DDS_READER_B4, 16) IS(DDS_READER_ACCEPTED, 20) IS(DDS_READER_BLOCK, 24)
    IS(DDS_STATE_DATA, 16) IS(DDS_STATE_ENTRIES, 20) IS(DDS_STATE_B4, 24) IS(DDS_STATE_REST, 28)
    IS(DDS_PHASE_FREE, 0) IS(DDS_PHASE_INSIDE, 1) IS(DDS_PHASE_OWED, 2)
    IS(DDS_ANSWER_REFUSAL, 0) IS(DDS_ANSWER_PLACE, 4) IS(DDS_ANSWER_OUTCOME, 8) IS(DDS_ANSWER_NUMBER, 12)
    IS(DDS_ANSWER_ENTRIES, 16) IS(DDS_ANSWER_TAKEN, 20) IS(DDS_OUTCOME_FINISHED, 0) IS(DDS_OUTCOME_CLOSED, 1)
    IS(DDS_OUTCOME_REPEAT, 2) IS(DDS_ANSWER_OFFSET, 12) IS(DDS_OUTCOME_ELSEWHERE, 0) IS(DDS_OUTCOME_BEGINS, 1)
    IS(DDS_EXPLANATION_LEN, 56) IS(DDS_EXPLANATION_REFUSAL, 0) IS(DDS_EXPLANATION_PLACE, 8) IS(DDS_EXPLANATION_OFFSET, 16)
    IS(DDS_EXPLANATION_FOUND, 24) IS(DDS_EXPLANATION_LEAST, 32) IS(DDS_EXPLANATION_GREATEST, 40) IS(DDS_EXPLANATION_KINDS, 48)
    IS(DDS_KIND_VALUE(1), 1) IS(DDS_KIND_VALUE(DDS_KIND_SEPARATOR), 2) IS(DDS_KIND_VALUE(DDS_KIND_MIDDLE), 4)
    IS(DDS_KIND_VALUE(DDS_KIND_START), 8) IS(DDS_KIND_VALUE(DDS_KIND_LAST), 16) IS(DDS_KIND_VALUE(DDS_KIND_ENTIRE), 32)
    IS(DDS_KIND_VALUE(DDS_KIND_SKIP), 64) IS(2 * DDS_KIND_VALUE(4 | 1), 32)
    IS(DDS_ROW_KIND, 0) IS(DDS_ROW_OFFSET, 4) IS(DDS_ROW_COUNT, 8)
    IS(DDS_KIND_TOTAL, 1) IS(DDS_KIND_SEPARATOR, 2) IS(DDS_KIND_MIDDLE, 3) IS(DDS_KIND_START, 4) IS(DDS_KIND_LAST, 5)
    IS(DDS_KIND_ENTIRE, 6) IS(DDS_KIND_SKIP, 7)
    IS(DDS_FLAG_TOTAL, 0x01) IS(DDS_FLAG_SEPARATOR, 0x07) IS(DDS_FLAG_MIDDLE, 0x40) IS(DDS_FLAG_START, 0x42)
    IS(DDS_FLAG_LAST, 0x60) IS(DDS_FLAG_ENTIRE, 0x63) IS(DDS_FLAG_SKIP, 0x80) IS(DDS_FLAG_B4, 0x08)
    IS(DDS_FLAG_TOTAL_B4, 0x09) IS(DDS_FLAG_SEPARATOR_B4, 0x0F) IS(DDS_FLAG_MIDDLE_B4, 0x48) IS(DDS_FLAG_START_B4, 0x4A)
    IS(DDS_FLAG_LAST_B4, 0x68) IS(DDS_FLAG_ENTIRE_B4, 0x6B) IS(DDS_FLAG_SKIP_B4, 0x88)
    IS(DDS_SEPARATOR_1, 0) IS(DDS_SEPARATOR_2, 1)
    IS(DDS_ACCEPTED, 0) IS(DDS_REFUSED_STATE, 1) IS(DDS_REFUSED_SIZE, 2) IS(DDS_REFUSED_FIRST, 3) IS(DDS_REFUSED_GROUP, 4)
    IS(DDS_REFUSED_NUMBER, 5) IS(DDS_REFUSED_ENTRIES, 6) IS(DDS_REFUSED_ROWS, 7) IS(DDS_REFUSED_FLAG, 8) IS(DDS_REFUSED_B4, 9)
    IS(DDS_REFUSED_FOLLOW, 10) IS(DDS_REFUSED_ROOM, 12) IS(DDS_REFUSED_SKIP, 13)
    IS(DDS_REFUSED_NO_NUMBER, 14) IS(DDS_REFUSED_RECORD_LENGTH, 15) IS(DDS_REFUSED_REST, 16) IS(DDS_REFUSED_OPEN, 17)
    IS(DDS_REFUSED_SEPARATOR, 18)
    IS(DDS_TRACK_LEN, 560) IS(DDS_PACKS_LEN, 8) IS(DDS_ITEMS_LEN, 512) IS(DDS_NUMBERS_LEN, 256)
    IS(DDS_BLOCKS, 16) IS(DDS_BLOCK_LEN, 35) IS(DDS_BLOCK_SW1, 0) IS(DDS_BLOCK_SW2, 1) IS(DDS_BLOCK_PARITY, 2)
    IS(DDS_BLOCK_ITEMS, 3) IS(DDS_BLOCK_CLOSE, 27) IS(DDS_PLACES, 64) IS(DDS_ITEM_LEN, 8)
    IS(DDS_AREA_REFERENCE, 1) IS(DDS_AREA_SYSTEM, 2) IS(DDS_AREA_DATA, 4) IS(DDS_AREA_EOD, 5) IS(DDS_AREA_X, 8)
    IS(DDS_LOG_FIRST, 71) IS(DDS_LOG_LAST, 95) IS(DDS_PACK_ID_6, 6) IS(DDS_PACK_ID_7, 7)
    IS(DDS_THIRD_ROWS, 46) IS(DDS_THIRD_DATA_ROWS, 44) IS(DDS_OUTCOME_BROKEN, 1)
    IS(DDS_REFUSED_ROW_LENGTH, 40) IS(DDS_REFUSED_ROW, 41) IS(DDS_REFUSED_SAME_ROW, 42) IS(DDS_REFUSED_HOPELESS, 43)
    IS(DDS_REFUSED_ZERO_PART, 19) IS(DDS_REFUSED_ABOVE_ONE, 20) IS(DDS_REFUSED_TOO_LONG, 21) IS(DDS_REFUSED_TOTAL_DIFFERS, 22)
    IS(DDS_REFUSED_OWED_EARLY, 23) IS(DDS_REFUSED_EXPLANATION, 24)
    IS(DDS_REFUSED_LENGTH, 30) IS(DDS_REFUSED_PARITY, 31) IS(DDS_REFUSED_SW1, 32) IS(DDS_REFUSED_SW2, 33)
    IS(DDS_REFUSED_CLOSE, 34)
    IS(DDS_REFUSED_BLOCK_SIZE, 50) IS(DDS_REFUSED_BLOCK_LENGTH, 51)
    IS(DDS_VOLUME_LEN, 72) IS(DDS_FIELDS_LEN, 37) IS(DDS_ALERT_LEN, 8) IS(DDS_VOLUME_FIELDS, 3)
    IS(DDS_ANSWER_RAISED, 8) IS(DDS_ANSWER_LOWEST, 12) IS(DDS_ANSWER_HIGH, 16) IS(DDS_ANSWER_LOW, 20)
    IS(DDS_ANSWER_PATTERN, 12) IS(DDS_ANSWER_LENGTH_AT, 16)
    IS(DDS_OUTCOME_TYPE_A, 0) IS(DDS_OUTCOME_TYPE_B, 1) IS(DDS_OUTCOME_NONE, 0) IS(DDS_OUTCOME_FOUND, 1)
    IS(DDS_FIELD_LAST_READ, 0) IS(DDS_FIELD_LAST_UPDATED, 1) IS(DDS_FIELD_THICKNESS, 2) IS(DDS_FIELD_FLAGS, 3)
    IS(DDS_FIELD_LAST_PARTITION, 4) IS(DDS_FIELD_DEVICE_MAP, 5)
    IS(DDS_REFUSED_AIT_LENGTH, 60) IS(DDS_REFUSED_RESERVED, 61) IS(DDS_REFUSED_THICKNESS, 62) IS(DDS_REFUSED_FLAGS, 63)
};

static unsigned checks, failures;

static void check(int kept, const char *what)
{
    checks++;
    if (kept) return;
    fprintf(stderr, "  failed: %s\n", what);
    failures++;
}

static void put(uint8_t *slice, uint32_t field, uint32_t number)
{
    slice[field] = (uint8_t)(number >> 24);
    slice[field + 1] = (uint8_t)(number >> 16);
    slice[field + 2] = (uint8_t)(number >> 8);
    slice[field + 3] = (uint8_t)number;
}

static void reads_numbers(void)
{
    static const uint8_t bytes[9] = { 0, 0x12, 0x34, 0x56, 0x78, 0xFF, 0xFE, 0xFD, 0xFC };
    static const uint8_t eights[8] = { 0xFF, 0xFF, 0xFF, 0xFF, 0xFF, 0xFF, 0xFF, 0xFF };
    check(dds_number(bytes, 0) == 0x00123456, "dds_number at 0");
    check(dds_number(bytes, 1) == 0x12345678, "dds_number at 1");
    check(dds_number(bytes, 5) == 0xFFFEFDFC, "dds_number of a number above 2^31");
    check(dds_long_number(bytes, 0) == ((uint64_t)0x00123456 << 32 | 0x78FFFEFD), "dds_long_number at 0");
    check(dds_long_number(bytes, 1) == ((uint64_t)0x12345678 << 32 | 0xFFFEFDFC), "dds_long_number at 1");
    check(dds_long_number(eights, 0) == ~(uint64_t)0, "dds_long_number of 2^64 - 1");
}

/* ---- What the library makes of the constants, in groups of 64 bytes */

static uint8_t group[64], rows[DDS_ROWS_LEN(64) + DDS_ROW_LEN], answer[DDS_ANSWER_LEN], explanation[DDS_EXPLANATION_LEN];

/* entry k, from 1 */
static void entry(uint32_t k, uint32_t flag, uint32_t count) { put(group, 64 - 32 - 4 * k, flag << 24 | count); }

/* a reader's state in this phase, its group numbered 1 */
static void reader_at(uint8_t *state, uint32_t phase, uint32_t sum)
{
    memset(state, 0, DDS_READER_LEN);
    put(state, DDS_STATE_SIZE, 64);
    put(state, DDS_STATE_NEXT, 1);
    put(state, DDS_STATE_PHASE, phase);
    put(state, DDS_STATE_SUM, sum);
}

/* what reading group 1 of n entries returns */
static uint32_t reads(uint8_t *state, uint32_t n, size_t rows_len)
{
    return dds_read(state, DDS_READER_LEN, group, 64, 1, n, rows, rows_len, answer, DDS_ANSWER_LEN);
}

/* a writer's state, fresh */
static int starts(uint8_t *state, uint32_t size)
{
    return dds_writer_start(size, 1, state, DDS_WRITER_LEN, answer, DDS_ANSWER_LEN) == DDS_ACCEPTED;
}

/* what an offer returns */
static uint32_t offers(uint8_t *state, uint8_t *to, uint32_t size, const uint8_t *data, size_t len)
{
    return dds_record(state, DDS_WRITER_LEN, to, size, data, len, 0, answer, DDS_ANSWER_LEN);
}

static uint32_t outcome(void) { return dds_number(answer, DDS_ANSWER_OUTCOME); }
static uint32_t taken(void) { return dds_number(answer, DDS_ANSWER_TAKEN); }

/* Each flag, where its kind may stand, reads as that kind. A part has one byte; behind a last stands its total. */
static void flags_are_kinds(void)
{
    static const struct { uint32_t kind, clear, b4, phase, sum, count; } flags[] = {
        { DDS_KIND_TOTAL, DDS_FLAG_TOTAL, DDS_FLAG_TOTAL_B4, DDS_PHASE_OWED, 2, 2 },
        { DDS_KIND_SEPARATOR, DDS_FLAG_SEPARATOR, DDS_FLAG_SEPARATOR_B4, DDS_PHASE_FREE, 0, DDS_SEPARATOR_2 },
        { DDS_KIND_MIDDLE, DDS_FLAG_MIDDLE, DDS_FLAG_MIDDLE_B4, DDS_PHASE_INSIDE, 1, 1 },
        { DDS_KIND_START, DDS_FLAG_START, DDS_FLAG_START_B4, DDS_PHASE_FREE, 0, 1 },
        { DDS_KIND_LAST, DDS_FLAG_LAST, DDS_FLAG_LAST_B4, DDS_PHASE_INSIDE, 1, 1 },
        { DDS_KIND_ENTIRE, DDS_FLAG_ENTIRE, DDS_FLAG_ENTIRE_B4, DDS_PHASE_FREE, 0, 1 },
        { DDS_KIND_SKIP, DDS_FLAG_SKIP, DDS_FLAG_SKIP_B4, DDS_PHASE_FREE, 0, 64 },
    };
    uint8_t state[DDS_READER_LEN];
    size_t i;
    uint32_t b4;
    for (i = 0; i < sizeof flags / sizeof *flags; i++)
        for (b4 = 0; b4 < 2; b4++) {
            uint32_t kind = flags[i].kind, data = kind == DDS_KIND_TOTAL || kind == DDS_KIND_SEPARATOR ? 0 : 1, n = 1;
            check(flags[i].b4 == (flags[i].clear | DDS_FLAG_B4), "a flag with b4 is the flag and bit b4");
            reader_at(state, flags[i].phase, flags[i].sum);
            entry(n++, b4 ? flags[i].b4 : flags[i].clear, flags[i].count);
            if (kind == DDS_KIND_LAST) entry(n++, b4 ? DDS_FLAG_TOTAL_B4 : DDS_FLAG_TOTAL, 2);
            if (kind != DDS_KIND_SKIP) entry(n++, b4 ? DDS_FLAG_SKIP_B4 : DDS_FLAG_SKIP, 64 - data);
            check(reads(state, n - 1, sizeof rows) == DDS_ACCEPTED && dds_number(rows, DDS_ROW_KIND) == kind
                  && dds_number(rows, DDS_ROW_COUNT) == flags[i].count, "a flag is read as its kind");
        }
}

/* seven separators and the skip are the most entries of 64 bytes, and their rows the longest */
static void limits_of_reading(void)
{
    uint8_t state[DDS_READER_LEN];
    uint32_t k, n = DDS_ENTRIES_MOST(64);
    for (k = 1; k < n; k++) entry(k, DDS_FLAG_SEPARATOR, DDS_SEPARATOR_1);
    entry(n, DDS_FLAG_SKIP, 64);
    reader_at(state, DDS_PHASE_FREE, 0);
    check(reads(state, n + 1, sizeof rows) == DDS_REFUSED_ENTRIES, "one entry more than the most is 6");
    check(reads(state, n, DDS_ROWS_LEN(64) - 1) == DDS_REFUSED_ROWS, "one byte less than the rows of the most entries is 7");
    check(reads(state, n, DDS_ROWS_LEN(64)) == DDS_ACCEPTED, "the most entries are read, with just their rows");
}

/* a group handed in twice: the state says that one was accepted, and the answer that this is a repeat */
static void repeats_are_told(void)
{
    uint8_t state[DDS_READER_LEN];
    check(dds_reader_start(64, 1, state, DDS_READER_LEN, answer, DDS_ANSWER_LEN) == DDS_ACCEPTED
          && dds_number(state, DDS_READER_ACCEPTED) == 0, "at a start no group was accepted");
    entry(1, DDS_FLAG_SKIP, 64);
    check(reads(state, 1, sizeof rows) == DDS_ACCEPTED && outcome() == DDS_OUTCOME_FINISHED
          && dds_number(state, DDS_READER_ACCEPTED) == 1 && dds_number(state, DDS_STATE_NEXT) == 2, "one was");
    check(reads(state, 1, sizeof rows) == DDS_ACCEPTED && outcome() == DDS_OUTCOME_REPEAT
          && dds_number(state, DDS_READER_ACCEPTED) == 1 && dds_number(state, DDS_STATE_NEXT) == 2, "it is a repeat");
}

/* a field of the explanation of reading group 1 of n entries, by the names of the header */
static uint64_t field(uint32_t name) { return dds_long_number(explanation, name); }

static uint32_t explains(const uint8_t *state, uint32_t n, size_t rows_len)
{
    return dds_explain(state, DDS_READER_LEN, group, 64, 1, n, rows, rows_len, explanation, DDS_EXPLANATION_LEN);
}

/* a last where no record is open, of seven bytes, and a separator at its place: each field is where its name says */
static void reads_are_explained(void)
{
    uint8_t state[DDS_READER_LEN];
    reader_at(state, DDS_PHASE_FREE, 0);
    entry(1, DDS_FLAG_LAST, 7);
    entry(2, DDS_FLAG_SKIP, 57);
    check(explains(state, 2, sizeof rows) == DDS_REFUSED_FOLLOW && field(DDS_EXPLANATION_REFUSAL) == DDS_REFUSED_FOLLOW
          && field(DDS_EXPLANATION_PLACE) == 1 && field(DDS_EXPLANATION_OFFSET) == 64 - DDS_INFORMATION_LEN - DDS_ENTRY_LEN
          && field(DDS_EXPLANATION_FOUND) == DDS_KIND_LAST && field(DDS_EXPLANATION_LEAST) == 0
          && field(DDS_EXPLANATION_GREATEST) == 0
          && field(DDS_EXPLANATION_KINDS) == (DDS_KIND_VALUE(DDS_KIND_SEPARATOR) | DDS_KIND_VALUE(DDS_KIND_START)
                                              | DDS_KIND_VALUE(DDS_KIND_ENTIRE)), "a kind that may not stand there");
    entry(1, DDS_FLAG_SEPARATOR, 7);
    check(explains(state, 2, sizeof rows) == DDS_REFUSED_ABOVE_ONE && field(DDS_EXPLANATION_FOUND) == 7
          && field(DDS_EXPLANATION_LEAST) == DDS_SEPARATOR_1 && field(DDS_EXPLANATION_GREATEST) == DDS_SEPARATOR_2
          && field(DDS_EXPLANATION_KINDS) == 0, "a separator above 1");
    check(explains(state, 2, 2 * DDS_ROW_LEN - 1) == DDS_REFUSED_ROWS && field(DDS_EXPLANATION_PLACE) == 0
          && field(DDS_EXPLANATION_FOUND) == 2 * DDS_ROW_LEN - 1 && field(DDS_EXPLANATION_LEAST) == 2 * DDS_ROW_LEN
          && field(DDS_EXPLANATION_GREATEST) == ~(uint64_t)0, "too few rows");
    check(reads(state, 2, sizeof rows) == DDS_REFUSED_ABOVE_ONE, "the read says the same");
    entry(1, DDS_FLAG_SKIP, 64);
    check(explains(state, 1, sizeof rows) == DDS_ACCEPTED && field(DDS_EXPLANATION_FOUND) == 0
          && dds_number(state, DDS_STATE_NEXT) == 1, "accepted, and the state stays");
}

/* blocks of nine bytes: an entire record and a start behind a separator; then one of another length. Where each begins. */
static void blocks_are_found(void)
{
    uint8_t state[DDS_BLOCKS_STATE_LEN];
    check(dds_blocks_start(64, 1, DDS_RECORD_MOST + 1, state, sizeof state, answer, DDS_ANSWER_LEN) == DDS_REFUSED_BLOCK_SIZE,
          "a block size above the longest record");
    check(dds_blocks_start(64, 1, 9, state, sizeof state, answer, DDS_ANSWER_LEN) == DDS_ACCEPTED
          && dds_number(state, DDS_STATE_SIZE) == 64 && dds_number(state, DDS_STATE_NEXT) == 1
          && dds_number(state, DDS_READER_BLOCK) == 9, "a block size of nine");
    entry(1, DDS_FLAG_ENTIRE, 9);
    entry(2, DDS_FLAG_SEPARATOR, DDS_SEPARATOR_1);
    entry(3, DDS_FLAG_START, 5);
    entry(4, DDS_FLAG_SKIP, 50);
    check(dds_blocks_read(state, sizeof state, group, 64, 1, 4, rows, sizeof rows, answer, DDS_ANSWER_LEN) == DDS_ACCEPTED
          && outcome() == DDS_OUTCOME_FINISHED && dds_number(state, DDS_STATE_PHASE) == DDS_PHASE_INSIDE
          && dds_number(state, DDS_READER_BLOCK) == 9, "a block, and a start of one");
    check(dds_blocks_find(rows, 4 * DDS_ROW_LEN, 7, 8, answer, DDS_ANSWER_LEN) == DDS_ACCEPTED && outcome() == DDS_OUTCOME_BEGINS
          && dds_number(answer, DDS_ANSWER_OFFSET) == 9, "the second of them begins there");
    check(dds_blocks_find(rows, 4 * DDS_ROW_LEN, 7, 9, answer, DDS_ANSWER_LEN) == DDS_ACCEPTED
          && outcome() == DDS_OUTCOME_ELSEWHERE && dds_number(answer, DDS_ANSWER_OFFSET) == 0, "the third does not");
    check(dds_blocks_read(state, sizeof state, group, 64, 1, 4, rows, sizeof rows, answer, DDS_ANSWER_LEN) == DDS_ACCEPTED
          && outcome() == DDS_OUTCOME_REPEAT, "it is a repeat");
    entry(1, DDS_FLAG_LAST, 5);
    entry(2, DDS_FLAG_TOTAL, 10);
    entry(3, DDS_FLAG_SKIP, 59);
    check(dds_blocks_read(state, sizeof state, group, 64, 2, 3, rows, sizeof rows, answer, DDS_ANSWER_LEN)
          == DDS_REFUSED_BLOCK_LENGTH && dds_number(answer, DDS_ANSWER_PLACE) == 2, "a record of ten bytes");
}

/* a part that fills its group, and both separators as they are laid */
static void limits_of_writing(void)
{
    static const uint8_t data[25] = { 0 }, laid[8] = { 0x07, 0, 0, 1, 0x07, 0, 0, 0 };
    uint8_t state[DDS_WRITER_LEN];
    check(starts(state, 64) && offers(state, group, 64, data, DDS_PART_MOST(64)) == DDS_ACCEPTED
          && outcome() == DDS_OUTCOME_FINISHED, "a record of the most bytes goes in whole");
    check(starts(state, 64) && offers(state, group, 64, data, DDS_PART_MOST(64) + 1) == DDS_ACCEPTED
          && outcome() == DDS_OUTCOME_CLOSED && taken() == DDS_PART_MOST(64), "one of a byte more is broken there");
    check(starts(state, 64)
          && dds_separator(state, DDS_WRITER_LEN, group, 64, DDS_SEPARATOR_1, 0, answer, DDS_ANSWER_LEN) == DDS_ACCEPTED
          && dds_separator(state, DDS_WRITER_LEN, group, 64, DDS_SEPARATOR_2, 0, answer, DDS_ANSWER_LEN) == DDS_ACCEPTED
          && memcmp(group + 24, laid, sizeof laid) == 0, "Separator 1 has count 0, Separator 2 count 1");
}

static void packs_are_allowed(void)
{
    static const uint8_t items[DDS_ITEMS_LEN] = { 0 };
    static uint8_t track[DDS_TRACK_LEN], numbers[DDS_NUMBERS_LEN];
    uint8_t packs[DDS_PACKS_LEN];
    uint32_t id;
    for (id = 0; id < 256; id++) {
        uint32_t refusal;
        memset(packs, (int)id, sizeof packs);
        refusal = dds_subdata_make(DDS_AREA_DATA, 0, packs, sizeof packs, items, sizeof items, track, sizeof track, numbers,
                                   sizeof numbers, answer, DDS_ANSWER_LEN);
        check(refusal == (id == DDS_PACK_ID_6 || id == DDS_PACK_ID_7 ? DDS_ACCEPTED : DDS_REFUSED_SW2), "a Pack ID is 6 or 7");
    }
}

/* ---- "Of the offer only the bytes that the call takes are read": behind them lie pages that cannot be read */

#define READABLE 4096u

static void reads_what_it_takes(void)
{
    static uint8_t wide[4096];
    static const uint32_t sizes[] = { 64, 100, 4096 };
    uint8_t state[DDS_WRITER_LEN], *at, *edge;
    size_t i;
    at = (uint8_t *)mmap(0, READABLE + DDS_RECORD_MOST + 1, PROT_NONE, MAP_PRIVATE | MAP_ANONYMOUS | MAP_NORESERVE, -1, 0);
    if (at == (uint8_t *)MAP_FAILED || mprotect(at, READABLE, PROT_READ | PROT_WRITE) != 0) {
        check(0, "pages for the offer");
        return;
    }
    edge = at + READABLE;
    for (i = 0; i < sizeof sizes / sizeof *sizes; i++) {
        uint32_t size = sizes[i], most = DDS_PART_MOST(size), before, room;
        for (before = 0; before <= most; before++) {
            room = before == 0 ? most : before + 4 < most ? most - before - 4 : 0; /* a record that stands takes its entry too */
            check(starts(state, size) && (before == 0 || offers(state, wide, size, edge - before, before) == DDS_ACCEPTED),
                  "a record stands");
            check(offers(state, wide, size, edge - room, DDS_RECORD_MOST) == DDS_ACCEPTED && taken() == room,
                  "a start, or nothing");
            if (room == 0) continue;
            check(offers(state, wide, size, edge, DDS_RECORD_MOST) == DDS_REFUSED_REST, "refused, and not read");
            check(offers(state, wide, size, edge - most, DDS_RECORD_MOST - room) == DDS_ACCEPTED && taken() == most, "a middle");
        }
    }
    munmap(at, READABLE + DDS_RECORD_MOST + 1);
}

/* ---- Every call is there: refused by the answer's length, or the explanation's, which is 0 */

static void prototypes_link(void)
{
    uint8_t none[1] = { 0 };
    check(dds_reader_start(64, 1, none, 0, none, 0) == 1, "dds_reader_start");
    check(dds_writer_start(64, 1, none, 0, none, 0) == 1, "dds_writer_start");
    check(dds_read(none, 0, none, 0, 1, 1, none, 0, none, 0) == 1, "dds_read");
    check(dds_explain(none, 0, none, 0, 1, 1, none, 0, none, 0) == 24, "dds_explain");
    check(dds_blocks_start(64, 1, 1, none, 0, none, 0) == 1, "dds_blocks_start");
    check(dds_blocks_read(none, 0, none, 0, 1, 1, none, 0, none, 0) == 1, "dds_blocks_read");
    check(dds_blocks_find(none, 0, 0, 0, none, 0) == 1, "dds_blocks_find");
    check(dds_record(none, 0, none, 0, none, 0, 0, none, 0) == 1, "dds_record");
    check(dds_separator(none, 0, none, 0, 0, 0, none, 0) == 1, "dds_separator");
    check(dds_end(none, 0, none, 0, 0, none, 0) == 1, "dds_end");
    check(dds_subdata_make(12, 0, none, 0, none, 0, none, 0, none, 0, none, 0) == 1, "dds_subdata_make");
    check(dds_subdata_read(12, 0, none, 0, none, 0, none, 0, none, 0, none, 0) == 1, "dds_subdata_read");
    check(dds_third_make(1, none, 0, none, 0) == 1, "dds_third_make");
    check(dds_third_check(1, none, 0, none, 0) == 1, "dds_third_check");
    check(dds_third_restore_one(1, 0, none, 0, none, 0) == 1, "dds_third_restore_one");
    check(dds_third_restore_two(1, 0, 1, none, 0, none, 0) == 1, "dds_third_restore_two");
    check(dds_third_mend(1, none, 0, none, 0) == 1, "dds_third_mend");
    check(dds_volume_make(none, 0, none, 0, none, 0) == 1, "dds_volume_make");
    check(dds_volume_read(none, 0, none, 0, none, 0) == 1, "dds_volume_read");
    check(dds_alert_make(0, 0, none, 0, none, 0) == 1, "dds_alert_make");
    check(dds_alert_read(none, 0, none, 0) == 1, "dds_alert_read");
    check(dds_radio_find(none, 0, none, 0) == 1, "dds_radio_find");
}

int main(void)
{
    size_t i;
    for (i = 0; i < sizeof constants / sizeof *constants; i++)
        check(constants[i].found == constants[i].wanted, constants[i].name);
    reads_numbers();
    flags_are_kinds();
    limits_of_reading();
    repeats_are_told();
    reads_are_explained();
    blocks_are_found();
    limits_of_writing();
    packs_are_allowed();
    reads_what_it_takes();
    prototypes_link();
    printf("header: %u checks, %u failed\n", checks, failures);
    return failures != 0;
}
