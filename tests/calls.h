/* The calls of include/dds.h as one table. A row has a call's name, the names of its plain numbers, its arguments as the
   prototype has them, and its slices in their order: which, unread, const or written, the right length, and the refusal of
   another. The last slice is the one that the refusal is told in: the answer, and the explanation of dds_explain. Of another
   length it is refused before everything else, with nothing written at all: it is `told_in` of guard.h. A state of another length
   writes nothing either where there is an answer; dds_explain puts it into the explanation. Library and model are called alike,
   by `made_call`.
   A new call adds its row here; the harness does the rest: guard.h, pair.h, fence.h and slices.c. */

#ifndef CALLS_H
#define CALLS_H

#include "dds.h"
#include "model.h"

/* what is lent to the calls */
enum { NO_SLICE, STATE, GROUP, ROWS, DATA, PACKS, ITEMS, TRACK, NUMBERS, FIELDS, VOLUME, ALERT, RECEIVED, ANSWER, EXPLANATION,
    SLICES };

static const char *const slice_names[SLICES] = { "", "state", "group", "rows", "data", "packs", "items", "track", "numbers",
    "fields", "volume", "alert", "received", "answer", "explanation" };

enum { UNREAD, CONST, WRITTEN }; /* unread: lent for its length alone, and const too */
enum { BY_RULE, AT_LEAST, ANY_LENGTH }; /* the right length follows from other arguments; so does the least; none is wrong */

/* ---- The rows */

#define ANSWERED { ANSWER, WRITTEN, DDS_ANSWER_LEN, 1 } /* the last slice of every call but dds_explain */

#define EACH_CALL(CALL) \
    CALL(READER_START, reader_start, "size, first", (N(0), N(1), S(STATE), S(ANSWER)), \
         { STATE, WRITTEN, DDS_READER_LEN, 1 }, ANSWERED) \
    CALL(WRITER_START, writer_start, "size, first", (N(0), N(1), S(STATE), S(ANSWER)), \
         { STATE, WRITTEN, DDS_WRITER_LEN, 1 }, ANSWERED) \
    CALL(READ, read, "number, entries", (S(STATE), S(GROUP), N(0), N(1), S(ROWS), S(ANSWER)), \
         { STATE, WRITTEN, DDS_READER_LEN, 1 }, { GROUP, CONST, BY_RULE, 4 }, { ROWS, WRITTEN, AT_LEAST, 7 }, ANSWERED) \
    CALL(EXPLAIN, explain, "number, entries", (S(STATE), S(GROUP), N(0), N(1), S(ROWS), S(EXPLANATION)), \
         { STATE, CONST, DDS_READER_LEN, 1 }, { GROUP, CONST, BY_RULE, 4 }, { ROWS, UNREAD, AT_LEAST, 7 }, \
         { EXPLANATION, WRITTEN, DDS_EXPLANATION_LEN, 24 }) \
    CALL(BLOCKS_START, blocks_start, "size, first, block", (N(0), N(1), N(2), S(STATE), S(ANSWER)), \
         { STATE, WRITTEN, DDS_BLOCKS_STATE_LEN, 1 }, ANSWERED) \
    CALL(BLOCKS_READ, blocks_read, "number, entries", (S(STATE), S(GROUP), N(0), N(1), S(ROWS), S(ANSWER)), \
         { STATE, WRITTEN, DDS_BLOCKS_STATE_LEN, 1 }, { GROUP, CONST, BY_RULE, 4 }, { ROWS, WRITTEN, AT_LEAST, 7 }, ANSWERED) \
    CALL(BLOCKS_FIND, blocks_find, "before, block", (S(ROWS), N(0), N(1), S(ANSWER)), { ROWS, CONST, ANY_LENGTH, 0 }, ANSWERED) \
    CALL(RECORD, record, "warn", (S(STATE), S(GROUP), S(DATA), N(0), S(ANSWER)), \
         { STATE, WRITTEN, DDS_WRITER_LEN, 1 }, { GROUP, WRITTEN, BY_RULE, 4 }, { DATA, CONST, ANY_LENGTH, 0 }, ANSWERED) \
    CALL(SEPARATOR, separator, "value, warn", (S(STATE), S(GROUP), N(0), N(1), S(ANSWER)), \
         { STATE, WRITTEN, DDS_WRITER_LEN, 1 }, { GROUP, WRITTEN, BY_RULE, 4 }, ANSWERED) \
    CALL(END, end, "warn", (S(STATE), S(GROUP), N(0), S(ANSWER)), \
         { STATE, WRITTEN, DDS_WRITER_LEN, 1 }, { GROUP, WRITTEN, BY_RULE, 4 }, ANSWERED) \
    CALL(SUBDATA_MAKE, subdata_make, "area, frame", (N(0), N(1), S(PACKS), S(ITEMS), S(TRACK), S(NUMBERS), S(ANSWER)), \
         { PACKS, CONST, DDS_PACKS_LEN, 30 }, { ITEMS, CONST, DDS_ITEMS_LEN, 30 }, \
         { TRACK, WRITTEN, DDS_TRACK_LEN, 30 }, { NUMBERS, WRITTEN, DDS_NUMBERS_LEN, 30 }, ANSWERED) \
    CALL(SUBDATA_READ, subdata_read, "area, frame", (N(0), N(1), S(TRACK), S(PACKS), S(ITEMS), S(NUMBERS), S(ANSWER)), \
         { TRACK, CONST, DDS_TRACK_LEN, 30 }, { PACKS, WRITTEN, DDS_PACKS_LEN, 30 }, \
         { ITEMS, WRITTEN, DDS_ITEMS_LEN, 30 }, { NUMBERS, WRITTEN, DDS_NUMBERS_LEN, 30 }, ANSWERED) \
    CALL(THIRD_MAKE, third_make, "row_len", (N(0), S(ROWS), S(ANSWER)), { ROWS, WRITTEN, BY_RULE, 40 }, ANSWERED) \
    CALL(THIRD_CHECK, third_check, "row_len", (N(0), S(ROWS), S(ANSWER)), { ROWS, CONST, BY_RULE, 40 }, ANSWERED) \
    CALL(RESTORE_ONE, third_restore_one, "row_len, row", (N(0), N(1), S(ROWS), S(ANSWER)), \
         { ROWS, WRITTEN, BY_RULE, 40 }, ANSWERED) \
    CALL(RESTORE_TWO, third_restore_two, "row_len, first, second", (N(0), N(1), N(2), S(ROWS), S(ANSWER)), \
         { ROWS, WRITTEN, BY_RULE, 40 }, ANSWERED) \
    CALL(THIRD_MEND, third_mend, "row_len", (N(0), S(ROWS), S(ANSWER)), { ROWS, WRITTEN, BY_RULE, 40 }, ANSWERED) \
    CALL(VOLUME_MAKE, volume_make, "", (S(FIELDS), S(VOLUME), S(ANSWER)), \
         { FIELDS, CONST, DDS_FIELDS_LEN, 60 }, { VOLUME, WRITTEN, DDS_VOLUME_LEN, 60 }, ANSWERED) \
    CALL(VOLUME_READ, volume_read, "", (S(VOLUME), S(FIELDS), S(ANSWER)), \
         { VOLUME, CONST, DDS_VOLUME_LEN, 60 }, { FIELDS, WRITTEN, DDS_FIELDS_LEN, 60 }, ANSWERED) \
    CALL(ALERT_MAKE, alert_make, "high, low", (N(0), N(1), S(ALERT), S(ANSWER)), \
         { ALERT, WRITTEN, DDS_ALERT_LEN, 60 }, ANSWERED) \
    CALL(ALERT_READ, alert_read, "", (S(ALERT), S(ANSWER)), { ALERT, CONST, DDS_ALERT_LEN, 60 }, ANSWERED) \
    CALL(RADIO_FIND, radio_find, "", (S(RECEIVED), S(ANSWER)), { RECEIVED, CONST, ANY_LENGTH, 0 }, ANSWERED)

/* ---- The table made of them */

enum { MOST_NUMBERS = 3, MOST_SLICES = 5 };

typedef struct { uint8_t *at; size_t len; } span;

/* a call on its plain numbers, in their order, and on the spans of its slices, by their names */
typedef uint32_t made_call(const uint32_t *n, const span *s);

typedef struct { int which, written; size_t length; uint32_t refusal; } lent_slice; /* a length above ANY_LENGTH is its own */

typedef struct {
    const char *name, *numbers;
    made_call *library, *model;
    lent_slice slices[MOST_SLICES + 1]; /* up to NO_SLICE */
} dds_call;

#define NAMED(which, ...) which,
enum { EACH_CALL(NAMED) CALLS };

#define N(i) n[i]
#define S(which) s[which].at, s[which].len
#define THUNKS(which, name, numbers, arguments, ...) \
    static uint32_t library_##name(const uint32_t *n, const span *s) { (void)n; return dds_##name arguments; } \
    static uint32_t modelled_##name(const uint32_t *n, const span *s) { (void)n; return model_##name arguments; }
EACH_CALL(THUNKS)

#define IN_TABLE(which, name, numbers, arguments, ...) \
    { "dds_" #name, numbers, library_##name, modelled_##name, { __VA_ARGS__ } },
static const dds_call calls[CALLS] = { EACH_CALL(IN_TABLE) };

#endif
