/* A panel of CH452 chips that goes on block by block, beside the twin's: random calls of all five functions, on panels of any kind that
 * there can be and on damaged ones; chips from N on hold anything, which no call may look at or change. */
#include "blocks.h"
#include "libc.h"

/* ---- panels ---- */

static unsigned long wrong_count(void)
{
    static const unsigned long wrong[] = { 0, 9, 10, 16, 255, 256 + 1, 65536 + 2, (1ul << 32) + 1, (1ul << 32) + 8, 1ul << 63, ~0ul };

    return once_in(6) ? 9 + any() % (~0ul - 9) : one_of(11, wrong);
}

void litter(void)
{
    unsigned long k, i;

    for (k = held[CHIPS]; k < MOST; k++) {
        for (i = 0; i < OF_CHIP; i++)
            OF(held, k, i) = once_in(2) ? any() : near_a_limit();
    }
}

void any_panel_held(void)
{
    unsigned long k, i;

    held[CHIPS] = 1 + below(8);
    held[LEVELS] = below(8);
    for (k = 0; k < MOST; k++) {
        for (i = 0; i < OF_CHIP; i++)
            OF(held, k, i) = once_in(8) ? most_of_chip[i] : below(most_of_chip[i] + 1);
        if (OF(held, k, ZHAQSUMIR_CHIP_READOUT_LEFT) > 0)
            OF(held, k, ZHAQSUMIR_CHIP_READOUT) &= 127;
    }
    litter();
}

/* Some numbers that may not be there, or that may just be. */
static void damage(void)
{
    static const unsigned long levels[] = { 8, 9, 15, 255, 256, 256 + 7, 1ul << 32, ~0ul };

    do {
        unsigned long k = held[CHIPS] >= 1 && held[CHIPS] <= MOST ? below(held[CHIPS]) : below(MOST), i = below(OF_CHIP);

        if (once_in(8))
            held[LEVELS] = one_of(8, levels);
        else if (once_in(6))
            held[CHIPS] = wrong_count();
        else
            OF(held, k, i) = once_in(3) ? near_a_limit() : below(most_of_chip[i] + 2);
    } while (once_in(2));
}

static void random_panel(int *sound)
{
    unsigned long kept[NUMBERS], i;

    memcpy(kept, held, SIZE);
    if (once_in(8)) {
        for (i = 0; i < NUMBERS; i++)
            held[i] = any();
    }
    start_panel(once_in(12) ? wrong_count() : 1 + below(MOST)); /* over whatever there is */
    switch (*sound ? below(16) : below(4)) {
    case 0:
    case 1:
        start_panel(1 + below(8));
        break;
    case 2:
        any_panel_held();
        break;
    case 3:
        any_panel_held();
        damage();
        break;
    case 4:
        memcpy(held, kept, SIZE);
        litter();
        break;
    case 5:
        memcpy(held, kept, SIZE);
        if (once_in(2))
            damage();
        break;
    default:                                            /* what the library left */
        memcpy(held, kept, SIZE);
    }
    *sound = ask_sees()[0] == 0;
}

/* ---- random calls ---- */

static unsigned long any_chip(void)
{
    static const unsigned long wrong[] = { 8, 9, 255, 256, 65536, 1ul << 32, (1ul << 32) + 1, 1ul << 63, ~0ul };

    switch (below(16)) {
    case 0:
        return one_of(9, wrong);
    case 1:
        return held[CHIPS];
    case 2:
        return below(MOST);
    default:
        return held[CHIPS] >= 1 && held[CHIPS] <= MOST ? (once_in(2) ? held[CHIPS] - 1 : below(held[CHIPS])) : below(MOST);
    }
}

/* The next samples of the recording, cut anywhere, at times with some above 7. */
static void play_random(void)
{
    static unsigned char samples[MOST_RECORDING];
    static const unsigned long wrong[] = { 8, 8, 9, 15, 16, 128, 255 };
    static unsigned long at;
    unsigned long left, count;

    if (at >= recorded) {
        new_recording(held[CHIPS] >= 1 && held[CHIPS] <= MOST ? held[CHIPS] : 1 + below(MOST), 1 + below(8));
        at = 0;
    }
    left = recorded - at;
    count = once_in(3) ? left : below((left < 90 ? left : 90) + 1);
    memcpy(samples, recording + at, count);
    at += count;
    while (count > 0 && once_in(10))
        samples[place_in(count)] = (unsigned char)one_of(7, wrong);
    play_block(samples, count, room_for(rises_of(held[LEVELS], samples, count), MOST_ROOM / 8));
}

static void random_calls(int *sound)
{
    unsigned char contacts[8];

    random_panel(sound);
    play_random();
    random_contacts(contacts);
    scan_chip(any_chip(), contacts);
    ask_lit(any_chip());
    ask_sees();
}

void compare_blocks(unsigned long count)
{
    unsigned long i;
    int sound = 0;

    prepare_calls();
    block_cases();
    recorded = 0;
    for (i = 0; i < count; i++)
        random_calls(&sound);
    cut_recordings(count / 100);
    report_calls();
    report_cuts();
}
