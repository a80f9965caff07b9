/* Change request 2026-11 and source document 001 in plain C, in the documents' order. It is written to be read beside them, not
   to be fast: figure 46 is a table of fields, flags are looked at one by one, and the search counts zero bytes as they
   come in. */

#include "model.h"

typedef uint64_t num;

/* ---- The answer */

static void put(uint8_t *at, num n)
{
    at[0] = (uint8_t)(n / 16777216 % 256);
    at[1] = (uint8_t)(n / 65536 % 256);
    at[2] = (uint8_t)(n / 256 % 256);
    at[3] = (uint8_t)(n % 256);
}

static num get(const uint8_t *at) { return ((at[0] * (num)256 + at[1]) * 256 + at[2]) * 256 + at[3]; }

static uint32_t told(uint8_t *answer, num refusal, num outcome, num third, num fourth, num fifth)
{
    put(answer, refusal);
    put(answer + 4, 0);
    put(answer + 8, outcome);
    put(answer + 12, third);
    put(answer + 16, fourth);
    put(answer + 20, fifth);
    return (uint32_t)refusal;
}

/* ---- 16.4.2.2, figure 46: each field, its bytes in the volume and its place among the fields */

static const struct { const char *name; int bytes, reserved; } figure_46[] = {
    { "Reserved", 3, 1 },
    { "Last read Partition Number", 1, 0 },
    { "Last updated Partition Number", 1, 0 },
    { "Length and Thickness Numbers", 1, 0 },
    { "Flags", 1, 0 },
    { "Last Partition Number", 1, 0 },
    { "Device Area Map", 32, 0 },
    { "Reserved", 32, 1 },
};
enum { ROWS = sizeof figure_46 / sizeof *figure_46, THICKNESS = 2, FLAGS = 3 };

/* 16.4.2.2.3: 0 Type A, 1 Type B, others prohibited */
static int thickness(uint8_t byte) { return (byte >= 128) * 2 + (byte % 128 >= 64); }

/* 16.4.2.2.4: bit 5 ONE, bits 6, 7 and 8 ZERO */
static int flags_right(uint8_t byte)
{
    int bit5 = byte / 16 % 2, bit6 = byte / 32 % 2, bit7 = byte / 64 % 2, bit8 = byte / 128;
    return bit5 == 1 && bit6 == 0 && bit7 == 0 && bit8 == 0;
}

static num bytes_refused(const uint8_t *fields)
{
    if (thickness(fields[THICKNESS]) > 1) return 62;
    if (!flags_right(fields[FLAGS])) return 63;
    return 0;
}

uint32_t MODEL(volume_make)(const uint8_t *fields, size_t fields_len, uint8_t *volume, size_t volume_len, uint8_t *answer,
                            size_t answer_len)
{
    int row, i;
    num refusal;
    if (answer_len != 24) return 1;
    if (fields_len != 37 || volume_len != 72) return told(answer, 60, 0, 0, 0, 0);
    refusal = bytes_refused(fields);
    if (refusal) return told(answer, refusal, 0, 0, 0, 0);
    told(answer, 0, (num)thickness(fields[THICKNESS]), 0, 0, 0);
    for (row = 0; row < ROWS; row++)
        for (i = 0; i < figure_46[row].bytes; i++) *volume++ = figure_46[row].reserved ? 0 : *fields++;
    return 0;
}

uint32_t MODEL(volume_read)(const uint8_t *volume, size_t volume_len, uint8_t *fields, size_t fields_len, uint8_t *answer,
                            size_t answer_len)
{
    uint8_t found[37];
    int row, i, n = 0, reserved = 0;
    num refusal;
    if (answer_len != 24) return 1;
    if (fields_len != 37 || volume_len != 72) return told(answer, 60, 0, 0, 0, 0);
    for (row = 0; row < ROWS; row++)
        for (i = 0; i < figure_46[row].bytes; i++, volume++) {
            if (!figure_46[row].reserved) found[n++] = *volume;
            else if (*volume != 0) reserved = 1;
        }
    if (reserved) return told(answer, 61, 0, 0, 0, 0);
    refusal = bytes_refused(found);
    if (refusal) return told(answer, refusal, 0, 0, 0, 0);
    for (i = 0; i < 37; i++) fields[i] = found[i];
    return told(answer, 0, (num)thickness(found[THICKNESS]), 0, 0, 0);
}

/* ---- 18.3.10: flags 1 to 64, "flag 1 .. bit 7 of Byte 0 .. flag 64 .. bit 0 of Byte 7" */

/* walks the flags in their order, from the top bit of a byte to its lowest and on to the next byte */
static int is_raised(const uint8_t *alert, int flag)
{
    int weight = 128;
    while (--flag > 0) {
        weight /= 2;
        if (weight == 0) { weight = 128; alert++; }
    }
    return *alert / weight % 2;
}

static uint32_t flags_told(const uint8_t *alert, uint8_t *answer)
{
    num raised = 0, lowest = 0;
    int flag;
    for (flag = 64; flag >= 1; flag--)
        if (is_raised(alert, flag)) { raised++; lowest = (num)flag; }
    return told(answer, 0, raised, lowest, get(alert), get(alert + 4));
}

uint32_t MODEL(alert_make)(uint32_t high, uint32_t low, uint8_t *alert, size_t alert_len, uint8_t *answer, size_t answer_len)
{
    if (answer_len != 24) return 1;
    if (alert_len != 8) return told(answer, 60, 0, 0, 0, 0);
    put(alert, high);
    put(alert + 4, low);
    return flags_told(alert, answer);
}

uint32_t MODEL(alert_read)(const uint8_t *alert, size_t alert_len, uint8_t *answer, size_t answer_len)
{
    if (answer_len != 24) return 1;
    if (alert_len != 8) return told(answer, 60, 0, 0, 0, 0);
    return flags_told(alert, answer);
}

/* ---- 18.7, 18.8: at least two zero bytes and 00 are a run of three or more; B2, 4D and the length byte come behind it */

uint32_t MODEL(radio_find)(const uint8_t *received, size_t received_len, uint8_t *answer, size_t answer_len)
{
    num zeros = 0, i, len = received_len;
    if (answer_len != 24) return 1;
    if (len >= 4294967296u) return told(answer, 60, 0, 0, 0, 0);
    for (i = 0; i < len; i++) {
        if (zeros >= 3 && received[i] == 0xB2 && len - i > 2 && received[i + 1] == 0x4D)
            return told(answer, 0, 1, i - 1, i + 2, 0);
        zeros = received[i] == 0 ? zeros + 1 : 0;
    }
    return told(answer, 0, 0, 0, 0, 0);
}
