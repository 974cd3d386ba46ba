/* What can be said by hand of a panel of CH452 chips: its numbers at the start, which of them are refused and in which order, lists of
 * every length, and cases of document 01. */
#include "blocks.h"
#include "libc.h"

static const unsigned char none[8], confirm[8] = { 0, 0, 0, 0x10 }, two[8] = { 0, 0, 0, 0x10, 0x02 }; /* 23H; 23H and 0CH */

/* ---- the answers that there must be ---- */

static void block_must(const unsigned char *samples, unsigned long count, unsigned long room, unsigned long number, unsigned long place,
                       unsigned long rises)
{
    const unsigned long *want = play_block(samples, count, room);

    if (want[0] != number || want[1] != place || want[2] != rises)
        fault(blocks.name, blocks.compared - 1, "a block isn't answered as it must be");
}

static void scan_must(unsigned long chip, const unsigned char contacts[8], unsigned long number, unsigned long told, unsigned long code)
{
    const unsigned long *want = scan_chip(chip, contacts);

    if (want[0] != number || want[2] != told || want[3] != code)
        fault(scans.name, scans.compared - 1, "a scan isn't answered as it must be");
}

static void sees_must(unsigned long level)
{
    if (ask_sees()[ZHAQSUMIR_DOUT_SEEN] != level)
        fault(sees.name, sees.compared - 1, "the level isn't as it must be");
}

/* Whether the panel `held` is taken, by all four functions; a bad sample, a short list and a chip too high come after that. */
static void panel_must(unsigned long number)
{
    static const unsigned char samples[4] = { 3, 7, 8, 7 };
    unsigned long kept[NUMBERS];

    memcpy(kept, held, SIZE);
    if (ask_sees()[0] != number || ask_lit(0)[0] != number || ask_lit(MOST)[0] != (number == 0 ? 2 : number))
        fault(lights.name, lights.compared - 1, "a panel isn't refused as it must be");
    scan_chip(0, none);
    memcpy(held, kept, SIZE);
    if (scan_chip(MOST, none)[0] != (number == 0 ? 2 : number))
        fault(scans.name, scans.compared - 1, "a panel isn't refused as it must be");
    block_must(samples, 0, 0, number, 0, 0);
    block_must(samples, 4, 0, number == 0 ? 1 : number, number == 0 ? 2 : 0, 0);
    block_must(samples + 3, 1, 1, number, 0, number == 0 && kept[LEVELS] < 4);
    memcpy(held, kept, SIZE);
}

/* ---- the numbers ---- */

static void started_numbers(void)
{
    static const unsigned long wrong[] = { 0, 9, 255, 256, 257, 65537, (1ul << 32) + 1, 1ul << 63, ~0ul };
    unsigned long n, k, i, want[NUMBERS] = { 0 };

    want[LEVELS] = ZHAQSUMIR_IDLE;
    for (k = 0; k < MOST; k++) {
        OF(want, k, ZHAQSUMIR_CHIP_LATCH) = 1;
        OF(want, k, ZHAQSUMIR_CHIP_LAST_SCAN) = ZHAQSUMIR_NO_KEY;
    }
    for (n = 1; n <= MOST; n++) {
        for (i = 0; i < NUMBERS; i++)
            held[i] = any();
        want[CHIPS] = n;
        if (start_panel(n)[0] != 0 || memcmp(held, want, SIZE) != 0)
            fault(started.name, n, "the panel at the start isn't as it must be (the input is N)");
        panel_must(0);
    }
    for (i = 0; i < sizeof wrong / sizeof wrong[0]; i++) {
        if (start_panel(wrong[i])[0] != 3)
            fault(started.name, i, "N isn't refused as it must be (the input is the case)");
        start_panel(1 + below(MOST));
        held[CHIPS] = wrong[i];
        panel_must(3);
        held[LEVELS] = 8;                               /* 3 comes before 12 */
        OF(held, 0, 0) = 4096;
        panel_must(3);
    }
}

/* One number, of the panel `held`, at its most, and above it in every way; of a chip from N on nothing is looked at. */
static void number_at_most(unsigned long *number, unsigned long most, int looked_at)
{
    static const unsigned long above[] = { 1, 256, 1ul << 16, 1ul << 31, 1ul << 32, 1ul << 63 };
    unsigned long good = *number, i;

    *number = most;
    panel_must(0);
    for (i = 0; i < 6; i++) {
        *number = most + above[i];
        panel_must(looked_at ? 12 : 0);
        *number = good + (above[i] > most ? above[i] : most + 1); /* its low bits alone could be */
        panel_must(looked_at ? 12 : 0);
    }
    *number = 255;
    panel_must(looked_at && most < 255 ? 12 : 0);
    *number = ~0ul;
    panel_must(looked_at ? 12 : 0);
    *number = good;
}

static void numbers_at_most(void)
{
    static const unsigned long counts[] = { 1, 3, 8 };
    unsigned long c, full, k, i;

    for (c = 0; c < 3; c++) {
        for (full = 0; full < 2; full++) {              /* at the start, and all of them at their most */
            start_panel(counts[c]);
            for (k = 0; full && k < MOST; k++) {
                memcpy(&OF(held, k, 0), most_of_chip, sizeof most_of_chip);
                OF(held, k, ZHAQSUMIR_CHIP_READOUT) = 127;
            }
            number_at_most(&held[LEVELS], 7, 1);
            for (k = 0; k < MOST; k++) {
                unsigned long *readout = &OF(held, k, ZHAQSUMIR_CHIP_READOUT), *left = &OF(held, k, ZHAQSUMIR_CHIP_READOUT_LEFT);

                for (i = 0; i < OF_CHIP; i++)
                    number_at_most(&OF(held, k, i), full && i == ZHAQSUMIR_CHIP_READOUT ? 127 : most_of_chip[i], k < counts[c]);
                for (*left = 0; *left <= 8; ++*left) {  /* a code is looked at while bits are left */
                    *readout = 127;
                    panel_must(k < counts[c] && *left > 7 ? 12 : 0);
                    *readout = 128;
                    panel_must(k < counts[c] && *left > 0 ? 12 : 0);
                    *readout = 255;
                    panel_must(k < counts[c] && *left > 0 ? 12 : 0);
                }
                *readout = *left = 0;
            }
        }
    }
}

/* ---- the order, where several hold ---- */

static void order_of_refusals(void)
{
    unsigned char samples[6] = { 3, 7, 3, 7, 3, 7 };
    unsigned long wrong, kept[NUMBERS];

    for (wrong = 0; wrong < 16; wrong++) {
        unsigned long number = wrong & 1 ? 3 : wrong & 2 ? 12 : 0;

        start_panel(1 + below(MOST));
        if (wrong & 1)
            held[CHIPS] = once_in(2) ? 0 : 9;
        if (wrong & 2)
            held[LEVELS] = 8 + below(3) * 124;
        memcpy(kept, held, SIZE);
        scan_must(wrong & 4 ? MOST : 0, none, number != 0 ? number : wrong & 4 ? 2 : 0, 0, 0);
        memcpy(held, kept, SIZE);
        samples[4] = wrong & 4 ? 8 : 3;
        if (number == 0)
            number = wrong & 4 ? 1 : wrong & 8 ? 8 : 0;
        block_must(samples, 6, wrong & 8 ? 2 : 3, number, number == 1 ? 4 : 0, number == 0 ? 3 : 0);
    }
}

/* ---- lists, and the levels before a block ---- */

static void lists_of_every_length(void)
{
    static unsigned char samples[MOST_SAMPLES];
    unsigned long i, room;

    for (i = 0; i < MOST_SAMPLES; i++)
        samples[i] = (unsigned char)(i % 2 == 0 ? 3 : 7);
    for (room = 0; room < 12; room++) {
        start_panel(2);
        block_must(samples, 16, room, room < 8 ? 8 : 0, 0, room < 8 ? 0 : 8);
        block_must(samples, 0, room, 0, 0, 0);
        block_must(samples, 1, room, 0, 0, 0);          /* LOAD falls, and the next block begins with its rise */
        block_must(samples, 0, room, 0, 0, 0);
        block_must(samples + 1, 15, room, room < 8 ? 8 : 0, 0, room < 8 ? 0 : 8);
        block_must(samples + 1, 1, room, room == 0 && held[LEVELS] < 4 ? 8 : 0, 0, room > 0 && held[LEVELS] < 4);
    }
    start_panel(1);                                     /* more than 16 bits count */
    block_must(samples, MOST_SAMPLES, MOST_SAMPLES / 2 - 1, 8, 0, 0);
    block_must(samples, MOST_SAMPLES, MOST_SAMPLES / 2, 0, 0, MOST_SAMPLES / 2);
    if (listed[MOST_SAMPLES / 2 - 1] != MOST_SAMPLES - 1)
        fault(blocks.name, blocks.compared - 1, "the last place of a long block isn't as it must be");
    samples[MOST_SAMPLES - 1] = 8;
    block_must(samples, MOST_SAMPLES, 0, 1, MOST_SAMPLES - 1, 0);
}

/* ---- document 01's cases P10 to P12, over blocks and scans ---- */

static void send_word(unsigned short word)
{
    recorded = 0;
    add_row(1, &word);
    block_must(recording, recorded, 1, 0, 0, 1);
}

static void cases_of_keys(void)
{
    static const unsigned char bits[7] = { 1, 1, 0, 0, 0, 1, 1 }, read_key[8] = { 5, 7, 5, 7, 5, 7, 4, 6 }, load[2] = { 2, 6 },
                               clock[2] = { 4, 6 };
    int i;

    start_panel(1);
    scan_must(0, confirm, 0, 0, 0);                     /* KEYB is off */
    send_word(0x403);
    sees_must(1);
    scan_must(0, confirm, 0, 0, 0);
    scan_must(0, confirm, 0, 1, 0x63);
    sees_must(0);                                       /* an interrupt stands */
    scan_must(0, confirm, 0, 0, 0);
    block_must(read_key, 8, 0, 0, 0, 0);
    block_must(load, 1, 0, 0, 0, 0);
    block_must(load + 1, 1, 1, 0, 0, 1);
    for (i = 0; i < 7; i++) {                           /* K6 first, the next bit at each fall, in blocks of one sample */
        sees_must(bits[i]);
        block_must(clock, 1, 0, 0, 0, 0);
        if (i < 6)
            sees_must(bits[i + 1]);
        block_must(clock + 1, 1, 0, 0, 0, 0);
    }
    sees_must(1);
    scan_must(0, none, 0, 0, 0);
    scan_must(0, none, 0, 3, 0);
    if (OF(held, 0, ZHAQSUMIR_CHIP_CODE) != 0x23)
        fault(scans.name, scans.compared - 1, "two empty scans don't leave 23H");
    scan_must(0, none, 0, 0, 0);
    scan_must(0, two, 0, 0, 0);
    scan_must(0, two, 0, 1, 0x4C);
    scan_must(0, confirm, 0, 0, 0);
    scan_must(0, confirm, 0, 2, 0x63);                  /* 4CH is unread */
    send_word(0xA79);
    if (ask_lit(0)[ZHAQSUMIR_SEGMENTS + 2] != 0x79)
        fault(lights.name, lights.compared - 1, "DIG2 isn't lit as it must be");
    send_word(0x202);
    if (ask_lit(0)[ZHAQSUMIR_SEGMENTS + 2] != 0)
        fault(lights.name, lights.compared - 1, "a sleeping chip is lit");
    scan_must(0, confirm, 0, 0, 0);                     /* SEG4 doesn't wake */
    if (OF(held, 0, ZHAQSUMIR_CHIP_SLEEPING) != 1)
        fault(scans.name, scans.compared - 1, "a key on SEG4 wakes a chip");
    scan_must(0, two, 0, 0, 0);                         /* SEG1 does */
    if (OF(held, 0, ZHAQSUMIR_CHIP_SLEEPING) != 0)
        fault(scans.name, scans.compared - 1, "a key on SEG1 doesn't wake a chip");
}

void block_cases(void)
{
    started_numbers();
    numbers_at_most();
    order_of_refusals();
    lists_of_every_length();
    cases_of_keys();
}
