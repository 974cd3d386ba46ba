/* Times a recording that arrives in blocks of 1, 64 and 4,096 samples, and in one call, by the library that C links and by the plain
 * twin, in one process and in turn (turns.h). Both must list the same rises and come to the same registers and digits.
 *
 *     blocks
 *
 * It prints a line for each length of block, with tabs between: its name, the microseconds of the library and of the twin for the whole
 * recording, the ratio of the two, and the ratio of each to its own time in one call. */
#include "libc.h"
#include "twin.h"
#include "zhaqsumir.h"

enum { CHIPS = 8, ROWS = 64, ROUNDS = 9 };
#define WRITTEN (ROWS * ZHAQSUMIR_ROW_SAMPLES(CHIPS))
#define RECORDED (ROUNDS * WRITTEN)                     /* 111,744 samples, a LOAD rise in 194 */

static unsigned char recording[RECORDED];
static unsigned long rises[ROUNDS * ROWS];

/* The recording in blocks of so many samples; the answer tells the rises' places from its start, and what the chips then hold. */
static unsigned long play_numbers(unsigned long size)
{
    static zhaqsumir_panel panel;
    unsigned long answer[ZHAQSUMIR_BLOCK_ANSWER], at, sum = 0, i, k;

    zhaqsumir_start(CHIPS, &panel, answer);
    for (at = 0; at < RECORDED; at += size) {
        zhaqsumir_block(&panel, recording + at, RECORDED - at < size ? RECORDED - at : size, rises, ROUNDS * ROWS, answer);
        for (i = 0; i < answer[ZHAQSUMIR_RISES_LISTED]; i++)
            sum = 3 * sum + at + rises[i];
    }
    for (k = 0; k < CHIPS; k++) {
        const unsigned long *chip = panel.numbers + ZHAQSUMIR_PANEL_CHIP(k);

        sum = 3 * sum + chip[ZHAQSUMIR_CHIP_REGISTER];
        for (i = 0; i < 8; i++)
            sum = 3 * sum + chip[ZHAQSUMIR_CHIP_DIGITS + i];
    }
    return sum;
}

static unsigned long play_record(unsigned long size)
{
    static struct chain chain;
    unsigned long answer[ZHAQSUMIR_BLOCK_ANSWER], at, sum = 0, i, k;

    start(&chain, CHIPS);
    for (at = 0; at < RECORDED; at += size) {
        twin_block(&chain, recording + at, RECORDED - at < size ? RECORDED - at : size, rises, ROUNDS * ROWS, answer);
        for (i = 0; i < answer[ZHAQSUMIR_RISES_LISTED]; i++)
            sum = 3 * sum + at + rises[i];
    }
    for (k = 0; k < CHIPS; k++) {
        sum = 3 * sum + chain.chips[k].shift;
        for (i = 0; i < 8; i++)
            sum = 3 * sum + chain.chips[k].digits[i];
    }
    return sum;
}

struct side {
    unsigned long (*play)(unsigned long);
};
static const struct side sides[2] = { { play_numbers }, { play_record } };

#include "turns.h"

/* ---- the jobs ---- */

static unsigned long one_call(const struct side *side)
{
    return side->play(RECORDED);
}

static unsigned long large(const struct side *side)
{
    return side->play(4096);
}

static unsigned long middling(const struct side *side)
{
    return side->play(64);
}

static unsigned long one_by_one(const struct side *side)
{
    return side->play(1);
}

static const struct job jobs[] = {
    { "one call", one_call },
    { "blocks of 4,096 samples", large },
    { "blocks of 64 samples", middling },
    { "blocks of 1 sample", one_by_one },
};
enum { JOBS = sizeof jobs / sizeof jobs[0] };

/* 64 rows of listed words of every kind but sleep, with KEYB on the last chip at most, again and again. */
static void prepare(void)
{
    static unsigned short words[ROWS * CHIPS];
    unsigned long seed = 1, answer[ZHAQSUMIR_DECODE_ANSWER], i;

    for (i = 0; i < ROWS * CHIPS; i++) {
        do {
            seed = seed * 6364136223846793005 + 1442695040888963407;
            words[i] = (unsigned short)(seed >> 40 & 4095);
            twin_decode(words[i], answer);
        } while (answer[0] != 0 || words[i] == 0x202 || ((words[i] & 0xFC2) == 0x402 && i % CHIPS != CHIPS - 1));
    }
    twin_write(CHIPS, words, ROWS * CHIPS, recording, WRITTEN, answer);
    if (answer[0] != 0)
        exit(1);
    for (i = 1; i < ROUNDS; i++)
        memcpy(recording + i * WRITTEN, recording, WRITTEN);
}

int main(void)
{
    double whole[2], us[2];
    int same = 1, i;

    prepare();
    for (i = 0; i < JOBS; i++) {
        same &= compare(&jobs[i], us);
        if (i == 0)
            memcpy(whole, us, sizeof us);
        printf("%s\t%.2f\t%.2f\t%.3f\t%.3f\t%.3f\n", jobs[i].name, us[0], us[1], us[0] / us[1], us[0] / whole[0], us[1] / whole[1]);
    }
    return !same;
}
