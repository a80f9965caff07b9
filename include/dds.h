/* dds.h: writing and reading the Basic Groups and the Sub Data Blocks of DDS tapes, their third code, and an AIT loader's
   memory, called from C. This is the reference of every call; docs/C-INTERFACE.md says what is about more than one.

   Twenty-two calls on plain numbers and lent byte slices. A slice is a pointer and a length in bytes. Every number inside a
   slice is four bytes, most significant first; dds_number below reads one. The explanation of dds_explain alone has numbers of
   eight bytes, most significant first too; dds_long_number reads one. Each call returns the refusal number, DDS_ACCEPTED if it
   was accepted. The library keeps nothing between calls, allocates nothing and calls nothing but memset and memcpy.

   Slices
   - A slice of length 0 may come with a null pointer or with any other.
   - A null pointer with a length above 0 has no meaning. Slices of one call that overlap have no meaning. Neither is
     looked for; what happens then is not said here.
   - A state or answer slice of another length than its own is DDS_REFUSED_STATE, before everything else, at a start too,
     and nothing at all is written. Every other refusal writes the answer slice and nothing else.
   - dds_explain is the exception. It has no answer slice but an explanation. An explanation of another length is
     DDS_REFUSED_EXPLANATION, before everything else, and nothing at all is written. A state slice of another length is
     DDS_REFUSED_STATE too, but that is put into the explanation, as every refusal of a read is.
   - Slices marked const are never written and may stand in read-only memory.
   - No slice need be aligned, and no length or number is cut: a group of 2^32 + 64 bytes is not a group of 64.

   The library holds no buffer: the caller keeps the state bytes and the group buffer from call to call, and may keep as
   many states as it likes, one for each run. */

#ifndef DDS_H
#define DDS_H

#include <stddef.h>
#include <stdint.h>

#ifdef __cplusplus
extern "C" {
#endif

/* ---- Version

   How many change requests have landed, then the last of them, as one decimal number: 10, and 2026-09. Each landing makes it
   greater, so it compares, also where a request of a lower number lands later. Header and archive of one build belong together.

   States are not kept across versions: in another a state may have other fields or another length. A run is ended before the
   change, or started anew after it. */

#define DDS_VERSION 10202609u

/* ---- Sizes */

#define DDS_SIZE_LEAST      64u        /* least group size L */
#define DDS_SIZE_STANDARD   126632u    /* the standard's group size, and the greatest */
#define DDS_NUMBER_LEAST    1u         /* first group number; 0 is the vendor's group */
#define DDS_NUMBER_MOST     65535u     /* last group number */
#define DDS_RECORD_MOST     16777215u  /* longest record in bytes; the shortest is 1 */
#define DDS_INFORMATION_LEN 32u        /* last bytes of a group, the firmware's own: neither read nor written here */
#define DDS_ENTRY_LEN       4u         /* an entry: a flag byte, then a count of three bytes */

/* The index is what a group holds beside data: its entries and the last 32 bytes. A part that fills a group costs an index of 40
   bytes: the part's entry, the skip and the 32. */
#define DDS_PART_INDEX_LEN  40u

/* of a group of L bytes, L at least 64; where L is a constant these are too, and can size an array */
#define DDS_PART_MOST(L)    ((L) - DDS_PART_INDEX_LEN)                     /* most bytes of one part, or of an entire record */
#define DDS_ENTRIES_MOST(L) (((L) - DDS_INFORMATION_LEN) / DDS_ENTRY_LEN)  /* most entries n: 32 + 4n is at most L */
#define DDS_ROWS_LEN(L)     (DDS_ROW_LEN * DDS_ENTRIES_MOST(L))            /* rows that are enough for every group */

/* ---- Lengths of the lent slices */

#define DDS_READER_LEN 24u             /* a reader's state */
#define DDS_WRITER_LEN 32u             /* a writer's state */
#define DDS_BLOCKS_STATE_LEN 28u       /* the state of a reader of blocks of one size */
#define DDS_ANSWER_LEN 24u             /* the answer, the same for every call but dds_explain, which has none */
#define DDS_ROW_LEN    12u             /* one row; a read of n entries needs n rows at least */
#define DDS_EXPLANATION_LEN 56u        /* the explanation of dds_explain */

#define DDS_TRACK_LEN   560u           /* a track: 16 Sub Data Blocks */
#define DDS_PACKS_LEN   8u             /* Pack IDs: one byte for each even block, 0, 2 .. 14 */
#define DDS_ITEMS_LEN   512u           /* what stands at the 64 places of a track, place by place */
#define DDS_NUMBERS_LEN 256u           /* the Item numbers of the 64 places */

#define DDS_THIRD_ROWS       46u       /* rows of the third code; the buffer is 46 * row_len bytes, row i from i * row_len on */
#define DDS_THIRD_DATA_ROWS  44u       /* rows 0 to 43 are data, rows 44 and 45 check bytes */

#define DDS_VOLUME_LEN 72u             /* Volume Information of an AIT cartridge */
#define DDS_FIELDS_LEN 37u             /* its fields, all of it that is not reserved */
#define DDS_ALERT_LEN  8u              /* Tape Alert flags 1 to 64 */

/* ---- Fields of a state. All begin with the same four. A reader has two numbers behind them, a writer four. A reader of blocks
   has a reader's state, and the block size behind it. */

#define DDS_STATE_SIZE    0u           /* group size L */
#define DDS_STATE_NEXT    4u           /* next number, 1 to 65,536; at 65,536 no number remains */
#define DDS_STATE_PHASE   8u           /* DDS_PHASE_.. */
#define DDS_STATE_SUM     12u          /* sum of the parts so far of an open record, or of one whose total is owed */

#define DDS_READER_B4       16u        /* of a reader: b4, 0 clear, 1 set */
#define DDS_READER_ACCEPTED 20u        /* 0: no group was accepted in this run; 1: one was, and the last has number next - 1 */
#define DDS_READER_BLOCK    24u        /* of a reader of blocks: the block size, 1 to 16,777,215 */

#define DDS_STATE_DATA    16u          /* of a writer: data bytes in the open group */
#define DDS_STATE_ENTRIES 20u          /* entries in the open group */
#define DDS_STATE_B4      24u          /* b4: 0 clear, 1 set */
#define DDS_STATE_REST    28u          /* rest of an open record, in bytes */

#define DDS_PHASE_FREE   0u            /* no record is open */
#define DDS_PHASE_INSIDE 1u            /* inside a record: its rest is in the next group */
#define DDS_PHASE_OWED   2u            /* a record's last part stands, its total comes first in the next group */

/* ---- Fields of the answer */

#define DDS_ANSWER_REFUSAL 0u          /* the number the call returns too */
#define DDS_ANSWER_PLACE   4u          /* refusals 8 to 13, 19 to 23, 51: the entry, from 1; 31 to 34: block; 43: column */
#define DDS_ANSWER_OUTCOME 8u          /* DDS_OUTCOME_.. */
#define DDS_ANSWER_NUMBER  12u         /* at a close: the closed group's number */
#define DDS_ANSWER_ENTRIES 16u         /* at a close: its entry count, an owed total and the skip counted */
#define DDS_ANSWER_TAKEN   20u         /* at a close: how many of the offered data bytes were taken */

/* what dds_blocks_find answers at byte 12 */
#define DDS_ANSWER_OFFSET    12u       /* the offset in the row with which the block begins */

/* what an accepted call on the flags, and an accepted search, answer from byte 8 on */
#define DDS_ANSWER_RAISED    8u        /* flags: how many are raised */
#define DDS_ANSWER_LOWEST    12u       /* flags: the lowest raised, 0 for none */
#define DDS_ANSWER_HIGH      16u       /* flags: 1 to 32, flag 1 in the top bit */
#define DDS_ANSWER_LOW       20u       /* flags: 33 to 64, flag 33 in the top bit */
#define DDS_ANSWER_PATTERN   12u       /* search: the place of the pattern's first byte, from 0 */
#define DDS_ANSWER_LENGTH_AT 16u       /* search: the place of the length byte */

#define DDS_OUTCOME_FINISHED 0u        /* the work is done and no group was closed; number, entries and taken are 0 */
#define DDS_OUTCOME_CLOSED   1u        /* a group was closed */
#define DDS_OUTCOME_REPEAT   2u        /* both reads: the last accepted group once more; nothing was read, and the rows stay */
#define DDS_OUTCOME_ELSEWHERE 0u       /* dds_blocks_find: the block does not begin in these rows; the offset is 0 */
#define DDS_OUTCOME_BEGINS   1u        /* dds_blocks_find: it begins there */
#define DDS_OUTCOME_BROKEN   1u        /* dds_third_check: some column breaks a rule; 0 where every one keeps both */
#define DDS_OUTCOME_TYPE_A   0u        /* Volume Information: thickness 00 */
#define DDS_OUTCOME_TYPE_B   1u        /* Volume Information: thickness 01 */
#define DDS_OUTCOME_NONE     0u        /* search: no message begins in the bytes; both places are 0 */
#define DDS_OUTCOME_FOUND    1u        /* search: found */

/* ---- Fields of the explanation: seven numbers of eight bytes each. dds_long_number(explanation, DDS_EXPLANATION_FOUND) */

#define DDS_EXPLANATION_REFUSAL  0u    /* the number the call returns too */
#define DDS_EXPLANATION_PLACE    8u    /* the entry, from 1; 0 where no entry is at fault */
#define DDS_EXPLANATION_OFFSET   16u   /* where that entry stands in the group, L - 32 - 4 * place; 0 without a place */
#define DDS_EXPLANATION_FOUND    24u   /* the number found */
#define DDS_EXPLANATION_LEAST    32u   /* the least number allowed .. */
#define DDS_EXPLANATION_GREATEST 40u   /* .. and the greatest; where that is below the least, none is allowed */
#define DDS_EXPLANATION_KINDS    48u   /* refusal 10: the permitted kinds, their DDS_KIND_VALUE(kind) added up; otherwise 0 */

/* ---- Fields of a row */

#define DDS_ROW_KIND   0u              /* DDS_KIND_.. */
#define DDS_ROW_OFFSET 4u              /* data offset reached before this entry */
#define DDS_ROW_COUNT  8u              /* the entry's count */

#define DDS_KIND_TOTAL     1u          /* count: bytes of the whole spanned record */
#define DDS_KIND_SEPARATOR 2u          /* count: 0 for Separator 1, 1 for Separator 2 */
#define DDS_KIND_MIDDLE    3u          /* count: bytes of this part */
#define DDS_KIND_START     4u          /* count: bytes of this part */
#define DDS_KIND_LAST      5u          /* count: bytes of this part */
#define DDS_KIND_ENTIRE    6u          /* count: bytes of the record */
#define DDS_KIND_SKIP      7u          /* count: L less all data bytes before it */

/* a kind's value among permitted kinds, 1 for a total up to 64 for a skip: kinds & DDS_KIND_VALUE(DDS_KIND_LAST) */
#define DDS_KIND_VALUE(kind) (1u << ((kind) - 1u))

#define DDS_SEPARATOR_1 0u             /* a separator's count, and the `value` of dds_separator */
#define DDS_SEPARATOR_2 1u

/* ---- A group, L bytes: user data from byte 0 on, in entry order and without holes; entry k, from 1, in the four bytes from
   L - 32 - 4k on, a flag byte and then the count; the last 32 bytes, the firmware's. Between data and entries is the gap. */

#define DDS_FLAG_TOTAL     0x01u       /* flag bytes with b4 clear .. */
#define DDS_FLAG_SEPARATOR 0x07u
#define DDS_FLAG_MIDDLE    0x40u
#define DDS_FLAG_START     0x42u
#define DDS_FLAG_LAST      0x60u
#define DDS_FLAG_ENTIRE    0x63u
#define DDS_FLAG_SKIP      0x80u

#define DDS_FLAG_B4        0x08u       /* .. bit b4, which marks entries after the early warning point .. */

#define DDS_FLAG_TOTAL_B4     0x09u    /* .. and the flag bytes with b4 set; no other flag is valid */
#define DDS_FLAG_SEPARATOR_B4 0x0Fu
#define DDS_FLAG_MIDDLE_B4    0x48u
#define DDS_FLAG_START_B4     0x4Au
#define DDS_FLAG_LAST_B4      0x68u
#define DDS_FLAG_ENTIRE_B4    0x6Bu
#define DDS_FLAG_SKIP_B4      0x88u

/* ---- A track: block b at byte 35b; place 4b + p at byte 8(4b + p) of the items, and its number at byte 4(4b + p) of the
   numbers. p is 0, 1, 2 for a block's three items and 3 for its close. */

#define DDS_BLOCKS       16u           /* Sub Data Blocks of a track, 0 to 15 */
#define DDS_BLOCK_LEN    35u           /* one Sub Data Block */
#define DDS_BLOCK_SW1    0u            /* even block: Area ID over 1000; odd block: 0 */
#define DDS_BLOCK_SW2    1u            /* b8 set; b7 to b5: Pack ID, 000 in an odd block; b4 to b1: block number */
#define DDS_BLOCK_PARITY 2u            /* SW1 exclusive or SW2 */
#define DDS_BLOCK_ITEMS  3u            /* three items of 8 bytes */
#define DDS_BLOCK_CLOSE  27u           /* the close of 8 bytes */
#define DDS_PLACES       64u           /* places of a track */
#define DDS_ITEM_LEN     8u            /* what stands at one place */

#define DDS_PACK_ID_6 6u               /* six Pack Items in an even block and the odd one after it: the even closes in zeros */
#define DDS_PACK_ID_7 7u               /* seven: the even closes in Pack Item 3 or 4 */

#define DDS_AREA_REFERENCE 1u          /* Area IDs with bit X clear, Partition 1 of a tape with two partitions .. */
#define DDS_AREA_SYSTEM    2u
#define DDS_AREA_DATA      4u
#define DDS_AREA_EOD       5u
#define DDS_AREA_X         8u          /* .. and what bit X adds: a Single Data Space, and Partition 0 */

#define DDS_LOG_FIRST 71u              /* frames of the System Area's log */
#define DDS_LOG_LAST  95u

/* ---- Volume Information: the fields, in their order. In the 72 bytes they stand from byte 3 on, between reserved zeros.
   Bit 8 is the top bit of a byte. */

#define DDS_FIELD_LAST_READ      0u    /* last read partition */
#define DDS_FIELD_LAST_UPDATED   1u    /* last updated partition */
#define DDS_FIELD_THICKNESS      2u    /* bits 8 and 7: 00 Type A, 01 Type B; bits 6 to 1: length number */
#define DDS_FIELD_FLAGS          3u    /* bits 8 to 6 zero, bit 5 one, bits 4 to 1 as found */
#define DDS_FIELD_LAST_PARTITION 4u    /* last partition */
#define DDS_FIELD_DEVICE_MAP     5u    /* device area map, 32 bytes */
#define DDS_VOLUME_FIELDS        3u    /* where the fields begin in the volume */

/* ---- Refusals, with the calls that give them */

#define DDS_ACCEPTED               0u
#define DDS_REFUSED_STATE          1u  /* state not sound, a slice of the wrong length, or warn above 1: every call */
#define DDS_REFUSED_SIZE           2u  /* L outside 64 to 126,632: start */
#define DDS_REFUSED_FIRST          3u  /* first number outside 1 to 65,535: start */
#define DDS_REFUSED_GROUP          4u  /* group buffer length not L: read, record, separator, end */
#define DDS_REFUSED_NUMBER         5u  /* number is not the next, and the group no repeat: read */
#define DDS_REFUSED_ENTRIES        6u  /* entry count 0, or 32 + 4n above L: read */
#define DDS_REFUSED_ROWS           7u  /* row slice under 12n bytes: read */
#define DDS_REFUSED_FLAG           8u  /* unknown flag: read, at an entry */
#define DDS_REFUSED_B4             9u  /* b4 dropped: read, at an entry */
#define DDS_REFUSED_FOLLOW        10u  /* entry not allowed here: read, at an entry */
#define DDS_REFUSED_ROOM          12u  /* data would pass L - 32 - 4n: read, at an entry */
#define DDS_REFUSED_SKIP          13u  /* skip count wrong: read, at an entry */
#define DDS_REFUSED_NO_NUMBER     14u  /* no group number remains: record, separator, end */
#define DDS_REFUSED_RECORD_LENGTH 15u  /* record length 0 or over 16,777,215: record */
#define DDS_REFUSED_REST          16u  /* offer isn't the rest: record */
#define DDS_REFUSED_OPEN          17u  /* a record is open: separator, end */
#define DDS_REFUSED_SEPARATOR     18u  /* separator value over 1: separator */
#define DDS_REFUSED_ZERO_PART     19u  /* a part or a record of 0 bytes: read, at an entry */
#define DDS_REFUSED_ABOVE_ONE     20u  /* a separator above 1: read, at an entry */
#define DDS_REFUSED_TOO_LONG      21u  /* parts that add up to too long a record: read, at an entry */
#define DDS_REFUSED_TOTAL_DIFFERS 22u  /* a total that is not the sum of its parts: read, at an entry */
#define DDS_REFUSED_OWED_EARLY    23u  /* a total owed too early, a skip of 44 or more behind a last: read, at entry 2 */
#define DDS_REFUSED_EXPLANATION   24u  /* explanation slice not 56 bytes: explain */
#define DDS_REFUSED_LENGTH        30u  /* a buffer's length is not its own: make, read of a track */
#define DDS_REFUSED_PARITY        31u  /* parity is not SW1 exclusive or SW2: read of a track, at a block */
#define DDS_REFUSED_SW1           32u  /* Area ID not allowed: make; SW1 not this track's: read, at a block */
#define DDS_REFUSED_SW2           33u  /* Pack ID neither 6 nor 7: make, at a block; SW2 wrong: read, at a block */
#define DDS_REFUSED_CLOSE         34u  /* a close with Pack ID 6 is not zero: read of a track, at a block */
#define DDS_REFUSED_ROW_LENGTH    40u  /* row length 0, or rows not 46 * row_len bytes: the calls of the third code */
#define DDS_REFUSED_ROW           41u  /* a row above 45: restore */
#define DDS_REFUSED_SAME_ROW      42u  /* the same row twice: restore of two rows */
#define DDS_REFUSED_HOPELESS      43u  /* a column that no single change mends: mend, at the first such column */
#define DDS_REFUSED_BLOCK_SIZE    50u  /* block size outside 1 to 16,777,215: start of a reader of blocks */
#define DDS_REFUSED_BLOCK_LENGTH  51u  /* an entire record or a total that is not the block size: read of blocks, at an entry */
#define DDS_REFUSED_AIT_LENGTH    60u  /* a slice's length is not its own, or received bytes above 2^32 - 1: the AIT calls */
#define DDS_REFUSED_RESERVED      61u  /* a reserved byte is not zero: read of a volume */
#define DDS_REFUSED_THICKNESS     62u  /* thickness 10 or 11: make, read of a volume */
#define DDS_REFUSED_FLAGS         63u  /* bit 5 clear, or one of bits 6 to 8 set: make, read of a volume */

/* ---- A number in a slice: the four bytes from `field` on, most significant first. dds_number(answer, DDS_ANSWER_TAKEN) */

static inline uint32_t dds_number(const uint8_t *slice, size_t field)
{
    uint32_t number = slice[field];
    number = number << 8 | slice[field + 1];
    number = number << 8 | slice[field + 2];
    return number << 8 | slice[field + 3];
}

/* A number of the explanation: the eight bytes from `field` on, most significant first. */

static inline uint64_t dds_long_number(const uint8_t *slice, size_t field)
{
    return (uint64_t)dds_number(slice, field) << 32 | dds_number(slice, field + 4);
}

/* ---- Starting

   size    group size L, DDS_SIZE_LEAST to DDS_SIZE_STANDARD
   first   the number of the run's first group, DDS_NUMBER_LEAST to DDS_NUMBER_MOST
   state   DDS_READER_LEN or DDS_WRITER_LEN bytes; what they hold does not matter
   answer  DDS_ANSWER_LEN bytes, as in every call but dds_explain

   Accepted: the state is filled; it is free, with nothing read or laid, no group accepted and b4 clear. The answer is zeros.
   Refused: the state slice stays as it was.
   Refusals in order: 1 by length, 2, 3. */

uint32_t dds_reader_start(uint32_t size, uint32_t first, uint8_t *state, size_t state_len, uint8_t *answer,
                          size_t answer_len);

uint32_t dds_writer_start(uint32_t size, uint32_t first, uint8_t *state, size_t state_len, uint8_t *answer,
                          size_t answer_len);

/* ---- Reading

   Reads one group. A drive may have recorded it several times: the first instance is read, and the others are repeats.
   state    DDS_READER_LEN bytes, as the start or the last read left them
   group    L bytes; of them only the table of entries is looked at, not the data, the gap or the last 32 bytes
   number   the group's number and
   entries  its entry count, as the firmware found them in the last 32 bytes
   rows     DDS_ROW_LEN bytes for each entry at least; DDS_ROWS_LEN(L) are enough for every group

   Where it returns DDS_ACCEPTED there are two outcomes. Look at the outcome before the rows are used.
   DDS_OUTCOME_FINISHED: the group is accepted. The first DDS_ROW_LEN * entries bytes of rows are filled, the bytes after them
   stay, and the state moves on to the next group, with b4 as the group's last entry has it. The answer is zeros. Rows of kinds 3
   to 6 say where bytes of a record stand: `count` bytes of the group from `offset` on.
   DDS_OUTCOME_REPEAT: the group has the number of the last one that was accepted in this run. State and rows stay as they were.
   So the rows are not this group's: do not use them, and go on to the next group. Only the group's length and number are looked
   at, and not its bytes, the entry count or the rows. There may be any number of repeats, one behind the other, behind a refused
   group and behind group 65,535. Before any group has been accepted in the run there is none.
   Refused: state and rows stay as they were; the answer says the number and, for 8 to 13 and 19 to 23, the entry. The same
   state may then be tried on another group. Lent the same, dds_explain says what was found and what is allowed.
   Refusals in order: 1, 4; here a repeat is told; 5, 6, 7; then entry by entry from 1, and at one entry 8, 9, 10, one of 19 to
   22, 12, 13, 23. The first entry that breaks a rule is the one told. b4 goes on from group to group: where the state has it set,
   entry 1 is 9 without it. A total is owed only where it had no room: behind a last a skip counts 40 to 43, or is 23.

   So a run is read by

       while (fetch(group, &number, &entries)) {
           if (dds_read(state, DDS_READER_LEN, group, L, number, entries, rows, rows_len, answer, DDS_ANSWER_LEN)
               != DDS_ACCEPTED) return;
           if (dds_number(answer, DDS_ANSWER_OUTCOME) == DDS_OUTCOME_REPEAT) continue;
           use(group, rows, entries);
       }

   The trap is a loop that does not look at the outcome. At a repeat the rows are those of the group before it, and its data would
   be used a second time.

   At the run's end look at the phase. DDS_PHASE_FREE: every record is finished. DDS_PHASE_INSIDE or DDS_PHASE_OWED: the run ends
   in a record that is broken off, of which DDS_STATE_SUM bytes were read. No call says so by itself. */

uint32_t dds_read(uint8_t *state, size_t state_len, const uint8_t *group, size_t group_len, uint32_t number,
                  uint32_t entries, uint8_t *rows, size_t rows_len, uint8_t *answer, size_t answer_len);

/* Explains a read: what dds_read, lent the same, would refuse, where, what was found there and what is allowed. Nothing is read
   into place: state, group and rows are never written, and a read made after it is as if it had not been made.
   state        DDS_READER_LEN bytes, as they were lent to the read; a refused read leaves them so
   group        L bytes; of them only the table of entries is looked at, and of that no entry behind the one that is told
   number       the group's number and
   entries      its entry count, as the read is given them
   rows         lent for its length alone: not one of its bytes is looked at
   explanation  DDS_EXPLANATION_LEN bytes; what they hold does not matter, and all of them are written

   The explanation is seven numbers of eight bytes: refusal, place, offset, found, least, greatest, permitted kinds. Refusal and
   place are what dds_read answers for the same state, group, number, entries and rows. Where it accepts the group or tells a
   repeat, all seven are 0 and the call returns DDS_ACCEPTED; which of the two it is, only the read tells. Found is the number
   that breaks the rule, and least to greatest are those that keep it. Where a rule has no such number, zeros stand:

       refusal      found                                 least         greatest
       1            0                                     0             0
       4            length of the group slice             L             L
       5            number                                next          next; where next is 65,536: 1 and 0, none is allowed
       6            entries                               1             (L - 32) / 4, rounded down
       7            length of the row slice in bytes      12n           2^64 - 1
       8            the flag byte                         0             0: there are no limits, see DDS_FLAG_..
       9            b4 of the entry, 0                    1             1
       10           the kind, DDS_KIND_..                 0             0: the permitted kinds say it
       19           the count, 0                          1             16,777,215
       20           the count                             0             1
       21, start    the count                             1             16,777,214
       21, middle   the count                             1             16,777,214 - sum; with a sum of 16,777,214: 0, none
       21, last     the count                             1             16,777,215 - sum
       22           the count                             sum           sum
       12           data before the entry, and its count  0             L - 32 - 4n
       13           the count                             L less data   the same
       23           the skip's count                      0             43

   n is `entries`, next and sum are the reader's, before this entry. Each of these is broken by the number found, and every rule
   before it in the order of dds_read is kept, at all entries before this one too. To put another number there that is allowed
   keeps this rule; one behind it in the order may then be broken.

   The permitted kinds heed the last place: at entry n only a skip can stand, before it no skip. So before entry n, and at it:
   free 42 (separator, start, entire) and 64 (skip); inside 20 (middle, last) and 0; total owed 1 (total) and 0; after a start or
   a middle 0 and 64; after a last 1 and 64. With 0 no kind may stand there: the entry count is wrong, or an entry before it.

   So a refusal is explained, with the state that the read was lent, by

       if (dds_read(state, DDS_READER_LEN, group, L, number, entries, rows, rows_len, answer, DDS_ANSWER_LEN) != DDS_ACCEPTED) {
           dds_explain(state, DDS_READER_LEN, group, L, number, entries, rows, rows_len, explanation, DDS_EXPLANATION_LEN);
           show(dds_long_number(explanation, DDS_EXPLANATION_FOUND), ..);
       }

   Refusals in order: 24, which writes nothing at all; then those of dds_read in its order, put into the explanation, a state
   slice of another length as 1 with zeros in the other six numbers. */

uint32_t dds_explain(const uint8_t *state, size_t state_len, const uint8_t *group, size_t group_len, uint32_t number,
                     uint32_t entries, const uint8_t *rows, size_t rows_len, uint8_t *explanation, size_t explanation_len);

/* ---- Blocks of one size

   For computers that write records of one length alone, the block size, and seek by block number. A run is read by
   dds_blocks_read in place of dds_read, from a state of its own kind; to find a block only the rows are needed. */

/* Starts a reader of blocks: as dds_reader_start, with a block size.
   block   the length of every record, DDS_RECORD_MOST at most and 1 at least
   state   DDS_BLOCKS_STATE_LEN bytes; what they hold does not matter

   Accepted: the first DDS_READER_LEN bytes of the state are filled as dds_reader_start fills them, and the block size behind
   them. The answer is zeros. Refused: the state slice stays as it was.
   Refusals in order: 1 by length, 2, 3, 50. */
uint32_t dds_blocks_start(uint32_t size, uint32_t first, uint32_t block, uint8_t *state, size_t state_len, uint8_t *answer,
                          size_t answer_len);

/* Reads one group as dds_read does: the same rows, the same repeats, the same refusals in the same order, and the block size
   stays as it is in the state. One rule comes last at each entry: the count of an entire record, and of a total, is the block
   size, or is 51. Separators are free. A start, a middle or a last is not compared: a record that is spanned is judged when
   its total comes, so its parts may be longer than the block until then, and a run may end in a record that is broken off and
   longer than the block.
   state    DDS_BLOCKS_STATE_LEN bytes, as the start or the last read left them; where its block size is 0 or above
            DDS_RECORD_MOST it is not sound

   Refusals in order: 1, 4; here a repeat is told; 5, 6, 7; then entry by entry from 1, and at one entry 8, 9, 10, one of 19
   to 22, 12, 13, 23, 51. So 51 at an entry comes before every refusal at a later one, and a total that is neither its sum nor
   the block size is 22. Lent the first DDS_READER_LEN bytes of the state, dds_explain says why, but where the refusal is 51,
   or 1 for the block size: then it tells what dds_read does, which knows no block size. */
uint32_t dds_blocks_read(uint8_t *state, size_t state_len, const uint8_t *group, size_t group_len, uint32_t number,
                         uint32_t entries, uint8_t *rows, size_t rows_len, uint8_t *answer, size_t answer_len);

/* Finds where a block begins. Blocks are numbered from 0 as they begin, through the whole run.
   rows    the rows of one group, DDS_ROW_LEN bytes an entry and no more: rows that an earlier group left behind them would be
           counted too. Any bytes of any length are taken. Up to 11 bytes at the end are no row and count nothing
   before  how many blocks begin in the groups before this one
   block   the number of the block

   Rows of kinds DDS_KIND_START and DDS_KIND_ENTIRE begin a block, one each; rows of any other number begin none.
   DDS_OUTCOME_BEGINS: the block begins in these rows, and the answer has the offset of its row. In the rows of an accepted read
   that is where its first bytes stand in the group: the whole block, or, where it is spanned, all data from there on.
   DDS_OUTCOME_ELSEWHERE: it does not. A block below `before` begins in an earlier group. Nothing wraps where `before` and the
   rows come to more than 2^32 - 1 blocks.
   To go through a run, add to `before` the rows of these two kinds of each group that was accepted; a repeat has no rows and
   adds none. A block that is spanned is found where it begins; its other parts are the rows of kinds 3 and 5 behind.
   Refusals: 1 by the answer's length. */
uint32_t dds_blocks_find(const uint8_t *rows, size_t rows_len, uint32_t before, uint32_t block, uint8_t *answer,
                         size_t answer_len);

/* ---- Writing

   state   DDS_WRITER_LEN bytes, as the start or the last call left them
   group   the open group, L bytes. Until its first entry is laid any buffer will do, and what it holds does not matter
   warn    1 where the early warning point has been passed: b4 is then set in every entry laid by this call and by all later
           ones, in this and in all following groups. It need not be said again. 0 otherwise; any other value is refusal 1

   DDS_OUTCOME_FINISHED: the work is done and the group stays open, or an end had nothing to close. Hand the same buffer to the
   next call. Number, entries and taken are 0 in the answer, taken too where the whole offer was laid.
   DDS_OUTCOME_CLOSED: the group is complete but for its last 32 bytes, with a skip last and zeros in the gap. Put it away with
   the answer's number and entry count, and hand a buffer of L bytes to the next call. What is left to do then stands at each
   call. Offering again always gets on: no call closes an empty group.
   A refused call leaves state and group as they were, b4 included.

   A total that is owed is laid first by the next accepted call, whichever it is. */

/* Lays the record, or the rest of the open one.
   data    the record, 1 to DDS_RECORD_MOST bytes; inside a record exactly the rest, DDS_STATE_REST bytes

   Finished: all of the offer is laid. The record is finished.
   Closed: `taken` bytes of the offer were laid. Offer again what is left, data + taken of length data_len - taken.
   - Taken is 0: nothing of it was laid, and what is left is the whole record.
   - Taken is data_len: nothing is left and nothing is offered again. The record's total is owed.

   So a record is written by

       while (len > 0) {
           if (dds_record(state, DDS_WRITER_LEN, group, L, data, len, warn, answer, DDS_ANSWER_LEN) != DDS_ACCEPTED) return;
           if (dds_number(answer, DDS_ANSWER_OUTCOME) == DDS_OUTCOME_FINISHED) break;
           put_away(group, dds_number(answer, DDS_ANSWER_NUMBER), dds_number(answer, DDS_ANSWER_ENTRIES));
           data += dds_number(answer, DDS_ANSWER_TAKEN);
           len -= dds_number(answer, DDS_ANSWER_TAKEN);
       }

   The trap is a loop without the break, `while (len) { .. len -= taken; }`. After "finished" taken is 0 and len stays as it was,
   so that the record is laid again and again. Each call is accepted, and it may go on until no group number remains.

   Of the offer only the bytes that the call takes are read: none where it is refused or closes with taken 0, all where it is
   finished, and never more than DDS_PART_MOST(L). The rest of a long record need not be in memory yet.

   Giving up a record of which something is laid: return to a mark from before it, the state and the open group as they were
   then, as long as every group closed since can be taken back; their numbers are given again. Otherwise write nothing more to
   this run. Separator and end are refused with 17 now, and a reader accepts the groups that were put away and ends inside: the
   record is broken off. What a writer started anew puts behind them is another run. The reader that is inside refuses its first
   group with 5, or with 10 at entry 1 where the number is the next; where it has the number of the last accepted group, it is
   taken for a repeat. A reader started at that number reads it.

   Refusals in order: 1, 4, 14, 15, 16. */
uint32_t dds_record(uint8_t *state, size_t state_len, uint8_t *group, size_t group_len, const uint8_t *data,
                    size_t data_len, uint32_t warn, uint8_t *answer, size_t answer_len);

/* Lays a separator.
   value   DDS_SEPARATOR_1 or DDS_SEPARATOR_2, which are 0 and 1

   Finished: it is laid.
   Closed: there was no room for it. It was not laid. Offer it again. Taken is 0.
   Refusals in order: 1, 4, 14, 17, 18. */
uint32_t dds_separator(uint8_t *state, size_t state_len, uint8_t *group, size_t group_len, uint32_t value,
                       uint32_t warn, uint8_t *answer, size_t answer_len);

/* Closes the open group. It is a flush: one may write on, into the next group, and a run may have many ends. A run's last call is
   an end. Without it the last group stays open, and a total that is owed stays out: its record then counts as broken off.

   Finished: there was no entry in the group and no total owed. Nothing is closed, and everything stays as it was.
   Closed: all that was written stands in closed groups. Taken is 0.
   Refusals in order: 1, 4, 17, 14 (only if a total is owed). */
uint32_t dds_end(uint8_t *state, size_t state_len, uint8_t *group, size_t group_len, uint32_t warn, uint8_t *answer,
                 size_t answer_len);

/* ---- Sub Data Blocks of a track

   area     the Area ID's four bits as a number: DDS_AREA_REFERENCE, _SYSTEM, _DATA or _EOD, and DDS_AREA_X more where bit X is
            set. No other is allowed, the Device Area's 0 neither
   frame    the track's frame number: any number, never refused. Area and frame are those of the whole track
   packs    DDS_PACKS_LEN bytes: the Pack IDs of blocks 0, 2 .. 14
   items    DDS_ITEMS_LEN bytes: what stands at each place
   track    DDS_TRACK_LEN bytes
   numbers  DDS_NUMBERS_LEN bytes: the Item number of each place, 0 for every close

   The four slices have these lengths and no other. Items, closes with Pack ID 7 and the C1 bytes that close odd blocks are
   carried and not looked at. The Item numbers are those of ISO/IEC 10777, Table 3:

       area            frame                even block  odd block
       Data            any                  1 2 3       1 2 4
       System          71 to 95, the log    5 7 3       6 8 4
       System          any other            3 3 3       4 4 4
       Reference, EOD  any                  3 3 3       4 4 4

   Accepted, both answer zeros. */

/* Make: the whole track is filled from the Pack IDs and the items, and the numbers. With Pack ID 6 an even block closes in zeros,
   whatever is lent at that place. Area 1100, Pack ID 6, block 0: the header is C8 E0 28.
   Refusals in order: 1 by the answer's length, 30, 32 (place 0), 33 at the first even block whose Pack ID is neither 6 nor 7. */
uint32_t dds_subdata_make(uint32_t area, uint32_t frame, const uint8_t *packs, size_t packs_len, const uint8_t *items,
                          size_t items_len, uint8_t *track, size_t track_len, uint8_t *numbers, size_t numbers_len,
                          uint8_t *answer, size_t answer_len);

/* Read: the Pack IDs, the items and the numbers are filled from a track whose every block is as it should be, in this area. What
   was made is given back; the closes with Pack ID 6 are zeros.
   Refusals in order: 1 by the answer's length, 30, then block by block from 0: 31, 32, 33, 34. An area that is not allowed is
   32 at block 0, or 31 where the parity there is wrong too. */
uint32_t dds_subdata_read(uint32_t area, uint32_t frame, const uint8_t *track, size_t track_len, uint8_t *packs,
                          size_t packs_len, uint8_t *items, size_t items_len, uint8_t *numbers, size_t numbers_len,
                          uint8_t *answer, size_t answer_len);

/* ---- The third code

   row_len  bytes of a row, 1 or more
   rows     DDS_THIRD_ROWS rows in one buffer, row i from i * row_len on: any 46 tracks that stand together. Rows 0 to 43 are
            data, 44 and 45 check bytes. Rows 2f and 2f + 1 are the two tracks of frame f, 44 and 45 those of the check frame

   Column c is the bytes c of all rows, from 0. It keeps both rules where its 46 bytes add to zero, and its bytes of rows i
   times alpha^(45 - i) too, in the field of bytes modulo x^8 + x^4 + x^3 + x^2 + 1 with alpha = 2. To add is to take the
   exclusive or. A single byte 01 in row 43 has the check bytes 03 and 02. Accepted, all but the check answer zeros. */

/* Make: rows 44 and 45 are written, whatever they held, so that every column keeps both rules.
   Refusals in order: 1 by the answer's length, 40. */
uint32_t dds_third_make(uint32_t row_len, uint8_t *rows, size_t rows_len, uint8_t *answer, size_t answer_len);

/* Check: accepted, with DDS_OUTCOME_BROKEN where some column breaks a rule and outcome 0 where none does. Nothing but the answer
   is written.
   Refusals in order: 1 by the answer's length, 40. */
uint32_t dds_third_check(uint32_t row_len, const uint8_t *rows, size_t rows_len, uint8_t *answer, size_t answer_len);

/* Restore: the named row or rows, 0 to 45, are written, whatever they held. They are those that were written where the others
   are. One row is restored by the first rule alone: where another byte is wrong the second need not hold after, and a check
   tells it.
   Refusals in order: 1 by the answer's length, 40, 41, 42 (two rows alone). */
uint32_t dds_third_restore_one(uint32_t row_len, uint32_t row, uint8_t *rows, size_t rows_len, uint8_t *answer,
                               size_t answer_len);

uint32_t dds_third_restore_two(uint32_t row_len, uint32_t first, uint32_t second, uint8_t *rows, size_t rows_len,
                               uint8_t *answer, size_t answer_len);

/* Mend: at most one byte of each column is written, so that it keeps both rules. That is right where at most one byte of the
   column was changed; where more were, a column may be mended to what was not written, or be 43. Every column is judged before a
   byte is written.
   Refusals in order: 1 by the answer's length, 40, 43 with the first column that no single change mends. */
uint32_t dds_third_mend(uint32_t row_len, uint8_t *rows, size_t rows_len, uint8_t *answer, size_t answer_len);

/* ---- An AIT loader's memory

   Volume Information: DDS_VOLUME_LEN bytes are made from their fields, DDS_FIELDS_LEN bytes, with zeros in every reserved byte,
   and read to them. What was made is given back, and nothing is accepted that could not have been made. The answer's outcome is
   the tape's type, DDS_OUTCOME_TYPE_A or DDS_OUTCOME_TYPE_B. Length number, partitions, map and flags 1 to 4 are carried and not
   looked at.
   Refusals in order: 1 by the answer's length, 60, 61 (read alone), 62, 63. */
uint32_t dds_volume_make(const uint8_t *fields, size_t fields_len, uint8_t *volume, size_t volume_len, uint8_t *answer,
                         size_t answer_len);

uint32_t dds_volume_read(const uint8_t *volume, size_t volume_len, uint8_t *fields, size_t fields_len, uint8_t *answer,
                         size_t answer_len);

/* Tape Alert flags: `high` holds flags 1 to 32 and `low` flags 33 to 64, flags 1 and 33 in the top bit. In the DDS_ALERT_LEN
   bytes flag 1 is the top bit of byte 0, flag 64 the lowest of byte 7. Both calls answer how many are raised, the lowest raised,
   and the two numbers. Making writes the eight bytes; reading writes nothing but the answer.
   Refusals in order: 1 by the answer's length, 60. */
uint32_t dds_alert_make(uint32_t high, uint32_t low, uint8_t *alert, size_t alert_len, uint8_t *answer, size_t answer_len);

uint32_t dds_alert_read(const uint8_t *alert, size_t alert_len, uint8_t *answer, size_t answer_len);

/* The first place where the pattern 00 B2 4D follows at least two zero bytes and a length byte follows it. Bytes of any length up
   to 2^32 - 1 are taken.
   DDS_OUTCOME_FOUND: the answer has the place of the pattern's 00, from 0, and that of the length byte, three behind it. To
   search on, hand over the bytes from the length byte on.
   DDS_OUTCOME_NONE: there is none. A pattern that ends the bytes does not count.
   Refusals in order: 1 by the answer's length, 60. */
uint32_t dds_radio_find(const uint8_t *received, size_t received_len, uint8_t *answer, size_t answer_len);

#ifdef __cplusplus
}
#endif

#endif
