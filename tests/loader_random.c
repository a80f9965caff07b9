/* The AIT loader's memory at random, compared with the model: volumes made of right and wrong fields, read whole and with a few
   bytes changed; flags; received bytes that hold whole, cut and nearly right starts. COUNT is how many of each:
   loader_random [COUNT]. */

#include "pair.h"

static void some_fields(slice *fields)
{
    fill(fields);
    if (fields->len < 4) return;
    if (!one_in(6)) fields->at[2] &= 0x7F;
    if (!one_in(6)) fields->at[3] = (uint8_t)(0x10 + below(16));
}

static void some_volume(desk *d)
{
    some_lengths(d, VOLUME_MAKE, 60);
    fill_all(d, VOLUME_MAKE);
    some_fields(&d->of[FIELDS]);
    if (both(d, VOLUME_MAKE, 0, 0, 0) == 0) {
        uint32_t times = below(3);
        while (times--) d->of[VOLUME].at[below(DDS_VOLUME_LEN)] = (uint8_t)(one_in(2) ? rnd() : 1u << below(8));
        fill(&d->of[FIELDS]); fill(&d->of[ANSWER]);
    }
    some_lengths(d, VOLUME_READ, 60);
    both(d, VOLUME_READ, 0, 0, 0);
}

static uint32_t some_flags(void) { return one_in(3) ? 0 : rnd() & rnd() & rnd(); }

static void some_alert(desk *d)
{
    slice *alert = &d->of[ALERT];
    some_lengths(d, ALERT_MAKE, 60);
    fill_all(d, ALERT_MAKE);
    both(d, ALERT_MAKE, some_flags(), some_flags(), 0);
    if (one_in(2) && alert->len) alert->at[below((uint32_t)alert->len)] = (uint8_t)rnd();
    fill(&d->of[ANSWER]);
    both(d, ALERT_READ, 0, 0, 0);
}

/* bytes of few values, so that starts come about, whole and nearly so; some are put in */
static void some_bytes(slice *received)
{
    static const uint8_t values[] = { 0x00, 0x00, 0x00, 0xB2, 0x4D, 0x04 }, start[] = { 0x00, 0x00, 0x00, 0xB2, 0x4D };
    size_t i;
    resize(received, one_in(4) ? below(8) : below(60));
    for (i = 0; i < received->len; i++) received->at[i] = one_in(20) ? (uint8_t)rnd() : values[below(6)];
    if (one_in(3) && received->len >= 5) memcpy(received->at + below((uint32_t)received->len - 4), start, 5);
}

static int found(desk *d)
{
    some_bytes(&d->of[RECEIVED]);
    some_length(&d->of[ANSWER], DDS_ANSWER_LEN, 60);
    fill(&d->of[ANSWER]);
    return both(d, RADIO_FIND, 0, 0, 0) == 0 && get(d->of[ANSWER].at + DDS_ANSWER_OUTCOME) == DDS_OUTCOME_FOUND;
}

int main(int argc, char **argv)
{
    static const uint32_t refusals[] = { 0, 1, 60, 61, 62, 63 };
    long count = count_of(argc, argv, 400000), i, finds = 0;
    desk volume = desk_of_pairs(VOLUME_MAKE, 0), alert = desk_of_pairs(ALERT_MAKE, 0), radio = desk_of_pairs(RADIO_FIND, 64);
    for (i = 0; i < count; i++) {
        some_volume(&volume);
        some_alert(&alert);
        finds += found(&radio);
    }
    leave(&volume);
    leave(&alert);
    leave(&radio);
    came_up(count, 2000, sizeof refusals / sizeof *refusals, refusals);
    if (count >= 2000 && (finds < count / 20 || finds > count - count / 20)) {
        fprintf(stderr, "  found %ld of %ld\n", finds, count);
        failures++;
    }
    return finish_pairs("loader_random");
}
