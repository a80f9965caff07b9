/* The AIT loader's memory by hand: volumes of figure 46, every byte of the two that have a rule, every reserved byte, each flag,
   messages of figures 51 and 52, every refusal and its order. Every slice is compared before and after; expected bytes are worked
   out from change request 2026-11 and source document 001. */

#define _DEFAULT_SOURCE
#include "fence.h"

/* ---- Volume Information */

#define FIELD_BYTES "01 02 2E 10 03 A0-BF"
#define VOLUME_BYTES "00*3 01 02 2E 10 03 A0-BF 00*32"

/* a desk to make a volume of these fields at, or to read this one at */
static desk fields_lent(void)
{
    desk d = desk_for(VOLUME_MAKE);
    set(&d.of[FIELDS], FIELD_BYTES);
    return d;
}

static desk volume_lent(void)
{
    desk d = desk_for(VOLUME_READ);
    set(&d.of[VOLUME], VOLUME_BYTES);
    return d;
}

static void makes_volume(desk *d) { make(d, VOLUME_MAKE, 0, 0, 0); }
static void reads_volume(desk *d) { make(d, VOLUME_READ, 0, 0, 0); }
static void type_is(const desk *d, const char *name, uint32_t type) { answer_is(d, name, 0, 0, type, 0, 0, 0); }

static uint32_t of_bytes(uint32_t thickness, uint32_t flags)
{
    if (thickness >= 0x80) return 62;
    return flags >= 0x10 && flags <= 0x1F ? 0 : 63;
}

/* every pair of the two bytes that have a rule, made and read */
static void two_bytes(void)
{
    desk m = fields_lent(), r = volume_lent();
    uint32_t thickness, flags;
    for (thickness = 0; thickness < 256; thickness++)
        for (flags = 0; flags < 256; flags++) {
            uint32_t wanted = of_bytes(thickness, flags), type = thickness >= 0x40;
            m.of[FIELDS].at[2] = r.of[VOLUME].at[5] = (uint8_t)thickness;
            m.of[FIELDS].at[3] = r.of[VOLUME].at[6] = (uint8_t)flags;
            memset(m.of[VOLUME].at, LENT, DDS_VOLUME_LEN);
            memset(r.of[FIELDS].at, LENT, DDS_FIELDS_LEN);
            makes_volume(&m);
            reads_volume(&r);
            if (wanted) {
                refused(&m, "two bytes, made", wanted, 0);
                refused(&r, "two bytes, read", wanted, 0);
            } else {
                type_is(&m, "two bytes, made", type);
                type_is(&r, "two bytes, read", type);
                check(memcmp(m.of[VOLUME].at, r.of[VOLUME].at, DDS_VOLUME_LEN) == 0, "two bytes", "what is read is what is made");
                check(memcmp(r.of[FIELDS].at, m.of[FIELDS].at, DDS_FIELDS_LEN) == 0, "two bytes", "what is made is given back");
            }
        }
    leave(&m);
    leave(&r);
}

/* every bit of every reserved byte; the others are carried */
static void reserved(void)
{
    size_t at;
    uint32_t bit;
    for (at = 0; at < DDS_VOLUME_LEN; at++)
        for (bit = 0; bit < 8; bit++) {
            desk d = volume_lent();
            uint8_t flipped = d.of[VOLUME].at[at] ^= (uint8_t)(1u << bit);
            reads_volume(&d);
            if (at < 3 || at >= 40) refused(&d, "reserved", 61, 0);
            else if (at == 5 && flipped >= 0x80) refused(&d, "thickness", 62, 0);
            else if (at == 6 && bit >= 4) refused(&d, "flags", 63, 0);
            else {
                type_is(&d, "carried", at == 5 && flipped >= 0x40);
                check(memcmp(d.of[FIELDS].at, d.of[VOLUME].at + 3, DDS_FIELDS_LEN) == 0, "carried", "fields");
            }
            leave(&d);
        }
}

/* 60, 61, 62, 63 in this order */
static void volume_order(void)
{
    unsigned faults;
    for (faults = 0; faults < 16; faults++) {
        desk d = volume_lent();
        if (faults & 1) set(&d.of[VOLUME], VOLUME_BYTES " 00");
        if (faults & 2) d.of[VOLUME].at[71] = 1;
        if (faults & 4) d.of[VOLUME].at[5] = 0xAE;
        if (faults & 8) d.of[VOLUME].at[6] = 0x00;
        reads_volume(&d);
        if (faults) refused(&d, "order", faults & 1 ? 60 : faults & 2 ? 61 : faults & 4 ? 62 : 63, 0);
        else type_is(&d, "no fault", DDS_OUTCOME_TYPE_A);
        leave(&d);
    }
}

/* ---- Tape Alert flags */

/* these bytes read, then made of their two numbers: both tell how many flags are raised, the lowest and the numbers */
static void flags_are(const char *name, const uint8_t *alert, uint32_t raised, uint32_t lowest, uint32_t high, uint32_t low)
{
    desk d = desk_for(ALERT_READ);
    memcpy(d.of[ALERT].at, alert, DDS_ALERT_LEN);
    make(&d, ALERT_READ, 0, 0, 0);
    answer_is(&d, name, 0, 0, raised, lowest, high, low);
    memset(d.of[ALERT].at, LENT, DDS_ALERT_LEN);
    make(&d, ALERT_MAKE, high, low, 0);
    answer_is(&d, name, 0, 0, raised, lowest, high, low);
    check(memcmp(d.of[ALERT].at, alert, DDS_ALERT_LEN) == 0, name, "bytes made");
    leave(&d);
}

static void alerts(void)
{
    static const struct { const char *bytes; uint32_t raised, lowest, high, low; } rows[] = {
        { "00*8", 0, 0, 0, 0 }, { "80 00*7", 1, 1, 0x80000000, 0 }, { "00*7 01", 1, 64, 0, 1 },
        { "00*3 01 00*4", 1, 32, 1, 0 }, { "00*4 80 00*3", 1, 33, 0, 0x80000000 },
        { "00 10 00*4 01 00", 2, 12, 0x00100000, 0x00000100 }, { "FF*8", 64, 1, 0xFFFFFFFF, 0xFFFFFFFF },
        { "7F FF*7", 63, 2, 0x7FFFFFFF, 0xFFFFFFFF }, { "00*4 FF*4", 32, 33, 0, 0xFFFFFFFF },
        { "AA*8", 32, 1, 0xAAAAAAAA, 0xAAAAAAAA },
        { "55*8", 32, 2, 0x55555555, 0x55555555 }, { "00*7 FF", 8, 57, 0, 0xFF },
    };
    size_t i, len;
    for (i = 0; i < sizeof rows / sizeof *rows; i++) {
        uint8_t *alert = bytes(rows[i].bytes, &len);
        if (check(len == DDS_ALERT_LEN, "flags", "a text of eight bytes"))
            flags_are("flags", alert, rows[i].raised, rows[i].lowest, rows[i].high, rows[i].low);
        free(alert);
    }
}

/* each flag alone, and each two */
static void two_flags(void)
{
    uint32_t a, b;
    for (a = 1; a <= 64; a++)
        for (b = a; b <= 64; b++) {
            uint8_t alert[DDS_ALERT_LEN] = { 0 };
            uint32_t high = (a <= 32 ? 1u << (32 - a) : 0) | (b <= 32 ? 1u << (32 - b) : 0);
            uint32_t low = (a > 32 ? 1u << (64 - a) : 0) | (b > 32 ? 1u << (64 - b) : 0);
            alert[(a - 1) / 8] |= (uint8_t)(0x80 >> (a - 1) % 8);
            alert[(b - 1) / 8] |= (uint8_t)(0x80 >> (b - 1) % 8);
            flags_are("two flags", alert, a == b ? 1 : 2, a, high, low);
        }
}

/* ---- Received bytes */

static void messages(void)
{
    static const struct { const char *bytes; uint32_t found, place; } rows[] = {
        { "00 00 00 B2 4D 04", 1, 2 }, { "00 00 00 B2 4D 14 00*22", 1, 2 }, { "FF 00*5 B2 4D 14 00", 1, 5 },
        { "00 00 00 B2 4D", 0, 0 }, { "00 00 00 B2", 0, 0 }, { "00 00 B2 4D 04", 0, 0 }, { "01 00 00 B2 4D 04", 0, 0 },
        { "00 01 00 B2 4D 04", 0, 0 }, { "00 00 01 B2 4D 04", 0, 0 }, { "00 00 00 B3 4D 04", 0, 0 },
        { "00 00 00 B2 4C 04", 0, 0 },
        { "00 00 00 B2 00 00 00 B2 4D 04", 1, 6 }, { "00 00 00 B2 4D 00 00 00 B2 4D 04", 1, 2 },
        { "00 00 B2 4D 00 00 00 B2 4D FF", 1, 6 }, { "00*300 B2 4D 00", 1, 299 }, { "00*300 B2 4D", 0, 0 }, { "00*64", 0, 0 },
        { "B2 4D 04", 0, 0 }, { "00 00 00 00 00", 0, 0 }, { "00", 0, 0 }, { "", 0, 0 },
    };
    size_t i;
    for (i = 0; i < sizeof rows / sizeof *rows; i++) {
        desk d = desk_for(RADIO_FIND);
        set(&d.of[RECEIVED], rows[i].bytes);
        make(&d, RADIO_FIND, 0, 0, 0);
        answer_is(&d, rows[i].bytes, 0, 0, rows[i].found, rows[i].place, rows[i].found ? rows[i].place + 3 : 0, 0);
        leave(&d);
    }
}

/* bytes of any length below 2^32 are taken, a null pointer with none */
static void received_lengths(void)
{
    static const size_t lengths[] = { 0, 1, 7, 9, 16, 264, 65544 };
    uint8_t *promised = promise("loader", PROT_NONE);
    size_t i;
    desk d = desk_for(RADIO_FIND);
    lend_none(&d.of[RECEIVED], 1);
    make(&d, RADIO_FIND, 0, 0, 0);
    accepted(&d, "no received bytes");
    for (i = 0; i < sizeof lengths / sizeof *lengths; i++) {
        relend(&d.of[RECEIVED], lengths[i]);
        make(&d, RADIO_FIND, 0, 0, 0);
        accepted(&d, "bytes of any length");
    }
    give_back(&d.of[RECEIVED]);
    d.of[RECEIVED] = lend_promised(promised, wide);
    if (promised) make(&d, RADIO_FIND, 0, 0, 0);
    if (promised) refused(&d, "2^32 received bytes", 60, 0);
    leave(&d);
}

int main(void)
{
    watch_fences();
    two_bytes();
    reserved();
    volume_order();
    alerts();
    two_flags();
    messages();
    received_lengths();
    return finish("loader");
}
