/* The twin's panel of a CH450 as the library's 14 numbers, played, and what it lights. */
#include "libc.h"
#include "panels.h"

/* Whether there are samples from power-on that lead to these numbers. */
int can_be(const unsigned long panel[NUMBERS])
{
    int i;

    for (i = 0; i < NUMBERS; i++) {
        if (panel[i] > most[i])
            return 0;
    }
    if (!panel[RUNNING])
        return panel[RISES] == 0 && panel[BITS] == 0;
    return panel[BITS] >> (panel[RISES] < 19 ? panel[RISES] : 19) == 0
        && (!(panel[LEVELS] & SCL) || panel[BITS] % 2 == panel[LEVELS] / SDA);
}

/* The byte that was taken at eight rises, from this one on, or so much of it as was. */
static unsigned char byte_from(const unsigned long panel[NUMBERS], unsigned long from)
{
    unsigned long byte = 0, rise;

    for (rise = from; rise < from + 8 && rise < panel[RISES]; rise++)
        byte = byte << 1 | (panel[BITS] >> (panel[RISES] - 1 - rise) & 1);
    return (unsigned char)byte;
}

static struct ch450 chip_of(const unsigned long panel[NUMBERS])
{
    struct ch450 chip;
    int d;

    chip.levels = (unsigned char)panel[LEVELS];
    chip.running = (unsigned char)panel[RUNNING];
    chip.rises = (unsigned char)panel[RISES];
    chip.byte1 = byte_from(panel, 0);
    chip.byte2 = byte_from(panel, 9);
    chip.sleep = (unsigned char)panel[SLEEP];
    chip.intens = (unsigned char)panel[INTENS];
    chip.keyb = (unsigned char)panel[KEYB];
    chip.disp = (unsigned char)panel[DISP];
    for (d = 0; d < SIX; d++)
        chip.digits[d] = (unsigned char)panel[DIGITS + d];
    return chip;
}

/* All but the bits, of which the twin keeps two bytes alone. */
void take_numbers(const struct ch450 *chip, unsigned long panel[NUMBERS])
{
    int d;

    panel[LEVELS] = chip->levels;
    panel[RUNNING] = chip->running;
    panel[RISES] = chip->running ? chip->rises : 0;
    panel[SLEEP] = chip->sleep;
    panel[INTENS] = chip->intens;
    panel[KEYB] = chip->keyb;
    panel[DISP] = chip->disp;
    for (d = 0; d < SIX; d++)
        panel[DIGITS + d] = chip->digits[d];
}

/* The bits after samples: SDA at each rise since the last start or stop, while a transfer runs. */
static unsigned long bits_after(const unsigned long panel[NUMBERS], const unsigned char *samples, unsigned long count)
{
    unsigned long bits = panel[BITS], running = panel[RUNNING], before = panel[LEVELS], i;

    for (i = 0; i < count; i++) {
        if ((before & samples[i] & SCL) && ((before ^ samples[i]) & SDA)) {
            running = before & SDA;
            bits = 0;
        } else if (running && (~before & samples[i] & SCL)) {
            bits = (bits << 1 | samples[i] / SDA) & 0x7FFFF;
        }
        before = samples[i];
    }
    return bits;
}

static void refused_panel(unsigned long count, unsigned long answer[])
{
    memset(answer, 0, count * sizeof answer[0]);
    answer[0] = 12;
}

void plain_play(unsigned long panel[NUMBERS], unsigned long key, const unsigned char *samples, unsigned long count,
                       unsigned long answer[ZHAQSUMIR_CH450_PLAY_ANSWER])
{
    struct ch450 chip;

    if (!can_be(panel)) {
        refused_panel(ZHAQSUMIR_CH450_PLAY_ANSWER, answer);
        return;
    }
    chip = chip_of(panel);
    twin_ch450_play(&chip, key, samples, count, answer);
    if (answer[0] == 0) {
        panel[BITS] = bits_after(panel, samples, count);
        take_numbers(&chip, panel);
    }
}

void plain_lit(const unsigned long panel[NUMBERS], unsigned long answer[ZHAQSUMIR_CH450_LIT_ANSWER])
{
    unsigned char segments[SIX];
    struct ch450 chip;
    int d;

    refused_panel(ZHAQSUMIR_CH450_LIT_ANSWER, answer);
    if (!can_be(panel))
        return;
    answer[0] = 0;
    chip = chip_of(panel);
    ch450_lit(&chip, segments);
    for (d = 0; d < SIX; d++)
        answer[ZHAQSUMIR_CH450_SEGMENTS + d] = segments[d];
}
