/* Why a group is refused, in words: what a box shows on the bench after dds_read has refused a group. A record of 44 bytes in two
   groups of 64 is read, and before its second group is accepted it comes in six times with something wrong. say_why is what a
   firmware needs. Exits with 1 if anything is not as it should be. */

#include <stdio.h>
#include <stdlib.h>

#include "dds.h"

#define SIZE 64u

static uint8_t state[DDS_READER_LEN], group[SIZE], rows[DDS_ROWS_LEN(SIZE)], answer[DDS_ANSWER_LEN];

static void must(int so) { if (!so) exit(1); }

/* ---- In words */

static const char *rule(uint64_t refusal)
{
    switch (refusal) {
    case DDS_REFUSED_STATE: return "the state is not sound";
    case DDS_REFUSED_GROUP: return "the group buffer is not as long as a group";
    case DDS_REFUSED_NUMBER: return "the number is not the next";
    case DDS_REFUSED_ENTRIES: return "the entry count is out of range";
    case DDS_REFUSED_ROWS: return "there are too few rows";
    case DDS_REFUSED_FLAG: return "no entry has this flag";
    case DDS_REFUSED_B4: return "bit b4 went out";
    case DDS_REFUSED_FOLLOW: return "this kind may not stand here";
    case DDS_REFUSED_ZERO_PART: return "a part of no bytes";
    case DDS_REFUSED_ABOVE_ONE: return "a separator above 1";
    case DDS_REFUSED_TOO_LONG: return "the record is too long";
    case DDS_REFUSED_TOTAL_DIFFERS: return "the total is not the sum of its parts";
    case DDS_REFUSED_ROOM: return "the data would pass into the table";
    case DDS_REFUSED_SKIP: return "the skip count is wrong";
    case DDS_REFUSED_OWED_EARLY: return "the total had room here";
    }
    return "accepted";
}

static const char *const names[] = { "", "total", "separator", "middle", "start", "last", "entire", "skip" };

/* Explains the read that was refused, with all that it was lent; the state is still as it was. */
static void say_why(uint32_t number, uint32_t entries)
{
    uint8_t why[DDS_EXPLANATION_LEN];
    uint64_t refusal, place, found, least, greatest, kinds;
    uint32_t kind;
    must(dds_explain(state, sizeof state, group, SIZE, number, entries, rows, sizeof rows, why, sizeof why)
         != DDS_REFUSED_EXPLANATION);
    refusal = dds_long_number(why, DDS_EXPLANATION_REFUSAL);
    place = dds_long_number(why, DDS_EXPLANATION_PLACE);
    found = dds_long_number(why, DDS_EXPLANATION_FOUND);
    least = dds_long_number(why, DDS_EXPLANATION_LEAST);
    greatest = dds_long_number(why, DDS_EXPLANATION_GREATEST);
    kinds = dds_long_number(why, DDS_EXPLANATION_KINDS);
    must(refusal == dds_number(answer, DDS_ANSWER_REFUSAL) && place == dds_number(answer, DDS_ANSWER_PLACE));

    printf("  refused %u at %u", (unsigned)refusal, (unsigned)place);
    if (place) printf(", byte %u", (unsigned)dds_long_number(why, DDS_EXPLANATION_OFFSET));
    printf(": %s\n", rule(refusal));
    if (refusal == DDS_REFUSED_FLAG) {
        printf("  found %02X\n", (unsigned)found);
    } else if (refusal == DDS_REFUSED_FOLLOW) {
        printf("  found %s, permitted", names[found]);
        for (kind = DDS_KIND_TOTAL; kind <= DDS_KIND_SKIP; kind++)
            if (kinds & DDS_KIND_VALUE(kind)) printf(" %s", names[kind]);
        printf("%s\n", kinds ? "" : " none");
    } else if (least > greatest) {
        printf("  found %llu, none allowed\n", (unsigned long long)found);
    } else {
        printf("  found %llu, allowed %llu to %llu\n", (unsigned long long)found, (unsigned long long)least,
               (unsigned long long)greatest);
    }
}

/* ---- The two groups */

static void lay(uint32_t k, uint32_t flag, uint32_t count)
{
    uint8_t *entry = group + SIZE - DDS_INFORMATION_LEN - DDS_ENTRY_LEN * k;
    entry[0] = (uint8_t)flag;
    entry[1] = (uint8_t)(count >> 16);
    entry[2] = (uint8_t)(count >> 8);
    entry[3] = (uint8_t)count;
}

static uint32_t read_group(uint32_t number, uint32_t entries)
{
    return dds_read(state, sizeof state, group, SIZE, number, entries, rows, sizeof rows, answer, sizeof answer);
}

/* the second group: the last 20 of 44 bytes, the total, the skip */
static void second(void)
{
    lay(1, DDS_FLAG_LAST, 20);
    lay(2, DDS_FLAG_TOTAL, 44);
    lay(3, DDS_FLAG_SKIP, 44);
}

static void refused(const char *what, uint32_t number, uint32_t entries)
{
    printf("%s\n", what);
    must(read_group(number, entries) != DDS_ACCEPTED);
    say_why(number, entries);
    second();
}

int main(void)
{
    must(dds_reader_start(SIZE, 1, state, sizeof state, answer, sizeof answer) == DDS_ACCEPTED);
    second();
    refused("Group 2 comes in first.", 2, 3);
    lay(1, DDS_FLAG_START, 24);
    lay(2, DDS_FLAG_SKIP, 40);
    must(read_group(1, 2) == DDS_ACCEPTED);
    printf("Group 1 is accepted: the first 24 of 44 bytes.\n");

    second();
    refused("Group 2 comes in with an entry count of 9.", 2, 9);
    lay(1, 0x43, 20);
    refused("Its first flag is 43.", 2, 3);
    lay(1, DDS_FLAG_ENTIRE, 20);
    refused("Its first flag is that of an entire record.", 2, 3);
    lay(2, DDS_FLAG_TOTAL, 43);
    refused("Its total is one too small.", 2, 3);
    lay(1, DDS_FLAG_LAST, 21);
    refused("Its last part is one byte longer than there is room for.", 2, 3);

    must(read_group(2, 3) == DDS_ACCEPTED);
    must(dds_number(state, DDS_STATE_PHASE) == DDS_PHASE_FREE);
    printf("As it was written group 2 is accepted, and the record is finished.\n");
    return 0;
}
