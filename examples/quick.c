/* The least that writes one record and reads it back: cc -Iinclude examples/quick.c target/staticlib/libdds.a
   The record is short, so one call lays it and one end closes its group; for any other copy the loop at dds_record in dds.h.
   Exits with 1 if anything is not as it should be. */

#include <stdio.h>
#include <string.h>

#include "dds.h"

static const char recipe[] = "wheat 600 barley 300 soya 100";
static uint8_t group[DDS_SIZE_STANDARD], rows[DDS_ROWS_LEN(DDS_SIZE_STANDARD)];
static uint8_t writer[DDS_WRITER_LEN], reader[DDS_READER_LEN], answer[DDS_ANSWER_LEN];

int main(void)
{
    const uint8_t *data = (const uint8_t *)recipe;
    uint32_t length = (uint32_t)strlen(recipe), number, entries;

    if (dds_writer_start(sizeof group, 1, writer, sizeof writer, answer, sizeof answer) != DDS_ACCEPTED) return 1;
    if (dds_record(writer, sizeof writer, group, sizeof group, data, length, 0, answer, sizeof answer) != DDS_ACCEPTED) return 1;
    if (dds_end(writer, sizeof writer, group, sizeof group, 0, answer, sizeof answer) != DDS_ACCEPTED) return 1;
    if (dds_number(answer, DDS_ANSWER_OUTCOME) != DDS_OUTCOME_CLOSED) return 1;

    /* the group is closed; these two numbers belong to it */
    number = dds_number(answer, DDS_ANSWER_NUMBER);
    entries = dds_number(answer, DDS_ANSWER_ENTRIES);
    printf("group %u, entries %u\n", (unsigned)number, (unsigned)entries);

    if (dds_reader_start(sizeof group, number, reader, sizeof reader, answer, sizeof answer) != DDS_ACCEPTED) return 1;
    if (dds_read(reader, sizeof reader, group, sizeof group, number, entries, rows, sizeof rows, answer, sizeof answer)
        != DDS_ACCEPTED) return 1;
    if (dds_number(reader, DDS_STATE_PHASE) != DDS_PHASE_FREE) return 1;

    /* the first row is the record's */
    if (dds_number(rows, DDS_ROW_KIND) != DDS_KIND_ENTIRE || dds_number(rows, DDS_ROW_COUNT) != length) return 1;
    data = group + dds_number(rows, DDS_ROW_OFFSET);
    if (memcmp(data, recipe, length) != 0) return 1;
    printf("%.*s\n", (int)length, (const char *)data);
    return 0;
}
