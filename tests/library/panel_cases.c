/* Request C-15's own cases of a CH450's panel, also one that no text can show: what an unknown command leaves of SLEEP. */
#include "libc.h"
#include "panels.h"

static void play_must(unsigned char key, unsigned long number, unsigned long place, unsigned long reads)
{
    const unsigned long *want = play_one(key, stream, length);

    if (want[0] != number || want[1] != place || want[2] != reads)
        fault(played.name, played.compared, "a block isn't answered as it must be");
}

/* Whether the panel `given` is taken, by both functions. */
static void panel_must(int taken)
{
    unsigned long number = taken ? 0 : 12, kept[NUMBERS];

    memcpy(kept, given, SIZE);
    if (lit_one()[0] != number || play_one(127, stream, length)[0] != number)
        fault(played.name, played.compared, "a panel isn't refused as it must be");
    memcpy(given, kept, SIZE);
}

/* Each number above its most, in a panel at power-on and in one with all of them at their most. */
static void numbers_out_of_range(void)
{
    static const unsigned long idle[NUMBERS] = ZHAQSUMIR_CH450_POWER_ON(1, 2, 3, 4, 5, 6);
    static const unsigned long above[] = { 1, 256, 1ul << 16, 1ul << 31, 1ul << 32, 1ul << 63 };
    int from, i, k;

    for (from = 0; from < 2; from++) {
        const unsigned long *base = from == 0 ? idle : most;

        memcpy(given, base, SIZE);
        panel_must(1);
        for (i = 0; i < NUMBERS; i++) {
            for (k = 0; k < 6; k++) {
                given[i] = most[i] + above[k];
                panel_must(0);
                given[i] = base[i] + (above[k] > most[i] ? above[k] : most[i] + 1); /* its low bits alone could be */
                panel_must(0);
            }
            given[i] = ~0ul;
            panel_must(0);
            given[i] = base[i];
        }
    }
}

/* Numbers in their ranges that no samples lead to. */
static void unreachable(void)
{
    unsigned long levels, rises, bits;

    power_on();
    for (given[LEVELS] = 0; given[LEVELS] <= 3; given[LEVELS]++) {
        panel_must(1);
        for (given[RISES] = 1; given[RISES] <= 20; given[RISES]++)
            panel_must(0);
        given[RISES] = 0;
        for (given[BITS] = 1; given[BITS] <= 0x7FFFF; given[BITS] *= 2)
            panel_must(0);
        given[BITS] = 0;
    }
    given[RUNNING] = 1;
    for (rises = 0; rises <= 20; rises++) {
        unsigned long bound = 1ul << (rises < 19 ? rises : 19);

        for (bits = bound > 4 ? bound - 4 : 0; bits < bound + 4; bits++) {
            for (levels = 0; levels <= 3; levels++) {
                given[RISES] = rises;
                given[BITS] = bits;
                given[LEVELS] = levels;
                panel_must(bits < bound && (levels == 0 || levels == 2 || bits % 2 == levels / 2));
            }
        }
    }
}

/* Every byte 1 while asleep: parameters, digits and a read wake, and any other leaves all 14 numbers as they were. */
static void asleep(void)
{
    unsigned long byte1, kept[NUMBERS];

    for (byte1 = 0; byte1 < 256; byte1++) {
        int digit = byte1 >= 0x64 && byte1 <= 0x6E && byte1 % 2 == 0;

        power_on();
        length = 0;
        add_command(0x48, 0x81);
        play_must(0, 0, 0, 0);
        memcpy(kept, given, SIZE);
        length = 0;
        add_command(byte1, 0x2B);
        play_must(0, 0, 0, byte1 == 0x4F);
        if (byte1 == 0x48) {
            kept[INTENS] = kept[KEYB] = kept[DISP] = 1;
        } else if (digit) {
            kept[DIGITS + (byte1 - 0x64) / 2] = 0x2B;
        }
        kept[SLEEP] = byte1 != 0x48 && byte1 != 0x4F && !digit;
        if (memcmp(kept, given, SIZE) != 0)
            fault(played.name, byte1, "SLEEP, or what else a command leaves, isn't as it must be (the input is byte 1)");
    }
}

static void lit_must(unsigned long byte2, int shines)
{
    static const unsigned long bytes[SIX] = { 0x3F, 0x6D, 0xEF, 0x66, 0x3F, 0x06 }, dark[SIX];

    length = 0;
    add_command(0x48, byte2);
    play_must(0, 0, 0, 0);
    if (memcmp(lit_one() + ZHAQSUMIR_CH450_SEGMENTS, shines ? bytes : dark, sizeof bytes) != 0)
        fault(lit.name, byte2, "the segments aren't as they must be (the input is the byte of parameters)");
}

void panel_cases(void)
{
    static const unsigned long amount[NUMBERS] = ZHAQSUMIR_CH450_POWER_ON(0x3F, 0x6D, 0xEF, 0x66, 0x3F, 0x06);
    static const unsigned char digits[SIX] = { 0x3F, 0x6D, 0xEF, 0x66, 0x3F, 0x06 };
    unsigned long byte2, place, rises, kept[NUMBERS] = { 0 };
    struct ch450 chip;
    int k;

    ch450_start(&chip, digits);                         /* the header's panel at power-on */
    take_numbers(&chip, kept);
    must(memcmp(kept, amount, SIZE) == 0, "the panel at power-on");

    length = 0;                                         /* an empty block, and one that obeys a read */
    numbers_out_of_range();
    unreachable();
    add_command(0x4F, 0xFF);
    numbers_out_of_range();
    unreachable();
    asleep();

    memcpy(given, amount, SIZE);                        /* what parameters light */
    for (byte2 = 0; byte2 < 256; byte2++)
        lit_must(byte2, byte2 < 128 && byte2 % 2 == 1);

    for (rises = 0; rises <= 300; rises++) {            /* a stop after other than 19 rises does nothing; the last is the stop's own */
        memcpy(given, amount, SIZE);
        length = 0;
        add_transfer(0x4F, 0, 3, rises);
        play_must(127, 0, 0, rises + 1 == 19);
    }

    length = 0;                                         /* three reads; a code or a sample out of range, and which comes first */
    for (k = 0; k < 3; k++)
        add_command(0x4F, 0xFF);
    memcpy(given, amount, SIZE);
    play_must(0, 0, 0, 3);
    play_must(127, 0, 0, 3);
    play_must(128, 9, 0, 0);
    play_must(255, 9, 0, 0);
    for (place = 0; place < length; place++) {
        unsigned char good = stream[place];

        stream[place] = 4;
        play_must(127, 1, place, 0);
        play_must(128, 9, 0, 0);
        stream[place] = 255;
        play_must(127, 1, place, 0);
        stream[place] = good;
    }
    given[DISP] = 2;
    stream[0] = 4;
    play_must(128, 12, 0, 0);
}
