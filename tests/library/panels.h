/* The parts of the test of a CH450's panel: panels.c, and the twin's panel as numbers (plain_panel.c), streams of samples (streams.c),
 * request C-15's own cases (panel_cases.c). */
#ifndef PANELS_H
#define PANELS_H

#include "check.h"
#include "twin.h"
#include "zhaqsumir.h"

enum {
    NUMBERS = ZHAQSUMIR_CH450_PANEL, SIZE = NUMBERS * sizeof(unsigned long), MOST_BLOCK = 4096,
    LEVELS = ZHAQSUMIR_CH450_LEVELS, RUNNING = ZHAQSUMIR_CH450_RUNNING, RISES = ZHAQSUMIR_CH450_RISES, BITS = ZHAQSUMIR_CH450_BITS,
    SLEEP = ZHAQSUMIR_CH450_SLEEP, INTENS = ZHAQSUMIR_CH450_INTENS, KEYB = ZHAQSUMIR_CH450_KEYB, DISP = ZHAQSUMIR_CH450_DISP,
    DIGITS = ZHAQSUMIR_CH450_DIGITS, SCL = ZHAQSUMIR_CH450_SCL, SDA = ZHAQSUMIR_CH450_SDA
};
static const unsigned long most[NUMBERS] = { 3, 1, 20, 0x7FFFF, 1, 3, 1, 1, 255, 255, 255, 255, 255, 255 };

/* ---- the twin's panel as numbers ---- */

int can_be(const unsigned long panel[NUMBERS]);         /* whether there are samples from power-on that lead to these numbers */
void take_numbers(const struct ch450 *chip, unsigned long panel[NUMBERS]); /* all but the bits, of which the twin keeps two bytes alone */
void plain_play(unsigned long panel[NUMBERS], unsigned long key, const unsigned char *samples, unsigned long count,
                unsigned long answer[ZHAQSUMIR_CH450_PLAY_ANSWER]);
void plain_lit(const unsigned long panel[NUMBERS], unsigned long answer[ZHAQSUMIR_CH450_LIT_ANSWER]);

/* ---- a stream of samples ---- */

extern unsigned char stream[MOST_BLOCK];
extern unsigned long length, at;                        /* of the stream, and how much of it was played */
void add_transfer(unsigned long byte1, unsigned long byte2, unsigned long acknowledges, unsigned long bits);
void add_command(unsigned long byte1, unsigned long byte2);
unsigned long block(unsigned char samples[MOST_BLOCK]); /* the next samples of the stream, cut anywhere, at times with some above 3 */

/* ---- one comparison ---- */

extern unsigned long given[NUMBERS];                    /* a panel, the one before and the one after a call */
extern struct seen played, lit;
void power_on(void);                                    /* the panel `given` at power-on, with any digits */
const unsigned long *lit_one(void);                     /* what the panel `given` lights; gives the twin's answer */
/* Plays a block into the panel `given`, which is then what the library left; gives the twin's answer. */
const unsigned long *play_one(unsigned char key, const unsigned char *samples, unsigned long count);

void panel_cases(void);

#endif
