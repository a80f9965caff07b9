/* Tracks at random, compared with the model: makings with right and wrong Area IDs, Pack IDs and lengths; readings of tracks
   that were made, of such tracks with a few bytes changed, and of random bytes. COUNT is how many of each:
   track_random [COUNT]. */

#include "pair.h"

static uint32_t some_area(void)
{
    static const uint32_t areas[] = { 1, 2, 4, 5, 9, 10, 12, 13 };
    return one_in(12) ? below(20) : one_in(60) ? rnd() : areas[below(8)];
}

static uint32_t some_frame(void) { return one_in(4) ? rnd() : 68 + below(32); }

static void some_packs(slice *packs)
{
    size_t i;
    for (i = 0; i < packs->len; i++) packs->at[i] = (uint8_t)(6 + below(2));
    if (one_in(3) && packs->len) packs->at[below((uint32_t)packs->len)] = (uint8_t)(one_in(2) ? below(256) : 4 + below(5));
}

/* a few bytes of a track changed, mostly in headers and closes; parity often put right again */
static void change(uint8_t *track)
{
    uint32_t times = 1 + below(3);
    while (times--) {
        uint8_t *block = track + DDS_BLOCK_LEN * below(DDS_BLOCKS);
        switch (below(6)) {
        case 0: block[0] ^= (uint8_t)(1u << below(8)); break;
        case 1: block[1] ^= (uint8_t)(1u << below(8)); break;
        case 2: block[2] ^= (uint8_t)(1u << below(8)); break;
        case 3: block[27 + below(8)] = (uint8_t)below(3); break;
        case 4: block[1] ^= 0x10; break;
        case 5: block[below(35)] = (uint8_t)rnd(); break;
        }
        if (!one_in(4)) block[2] = block[0] ^ block[1];
    }
}

static void some_track(desk *d)
{
    uint32_t area = some_area(), frame = some_frame();
    some_lengths(d, SUBDATA_MAKE, 300);
    fill_all(d, SUBDATA_MAKE);
    some_packs(&d->of[PACKS]);
    if (both(d, SUBDATA_MAKE, area, frame, 0) == 0) {
        if (one_in(2)) change(d->of[TRACK].at);
        fill(&d->of[PACKS]); fill(&d->of[ITEMS]); fill(&d->of[NUMBERS]); fill(&d->of[ANSWER]);
        both(d, SUBDATA_READ, one_in(30) ? some_area() : area, one_in(4) ? some_frame() : frame, 0);
    }
    some_lengths(d, SUBDATA_MAKE, 300);
    if (one_in(4)) both(d, SUBDATA_READ, area, frame, 0);
}

int main(int argc, char **argv)
{
    static const uint32_t refusals[] = { 0, 1, 30, 31, 32, 33, 34 };
    long count = count_of(argc, argv, 400000), i;
    desk d = desk_of_pairs(SUBDATA_MAKE, 0);
    for (i = 0; i < count; i++) some_track(&d);
    leave(&d);
    came_up(count, 2000, sizeof refusals / sizeof *refusals, refusals);
    return finish_pairs("track_random");
}
