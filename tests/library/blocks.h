/* The parts of the test of a panel of CH452 chips that goes on block by block: blocks.c, and the twin's panel as numbers
 * (plain_blocks.c), recordings of samples (recordings.c), one call beside the twin's (block_calls.c), what can be said by hand
 * (block_cases.c), and recordings that are cut (cuts.c). */
#ifndef BLOCKS_H
#define BLOCKS_H

#include "check.h"
#include "twin.h"
#include "zhaqsumir.h"

enum {
    NUMBERS = ZHAQSUMIR_PANEL, SIZE = NUMBERS * sizeof(unsigned long), OF_CHIP = ZHAQSUMIR_CHIP_NUMBERS,
    CHIPS = ZHAQSUMIR_PANEL_CHIPS, LEVELS = ZHAQSUMIR_PANEL_LEVELS, FIRST_CHIP = 2,
    MOST_SAMPLES = 140000, MOST_ROOM = 72000            /* of one call */
};

/* What each number of a chip is at most; the code of a readout of which bits are left is at most 127. */
static const unsigned long most_of_chip[OF_CHIP] = { 4095, 1, 255, 7, 1, 1, 1, 1, 1, 1, 7, 255, 127, 1,
                                                     255, 255, 255, 255, 255, 255, 255, 255, 127, 1, 64 };

/* Number i of chip k of a panel. */
#define OF(panel, k, i) ((panel)[ZHAQSUMIR_PANEL_CHIP(k) + (i)])

/* ---- the twin's panel as numbers ---- */

void plain_start(unsigned long n, unsigned long panel[NUMBERS], unsigned long answer[ZHAQSUMIR_START_ANSWER]);
void plain_block(unsigned long panel[NUMBERS], const unsigned char *samples, unsigned long count, unsigned long *rises,
                 unsigned long room, unsigned long answer[ZHAQSUMIR_BLOCK_ANSWER]);
void plain_scan(unsigned long panel[NUMBERS], unsigned long chip, const unsigned char contacts[8],
                unsigned long answer[ZHAQSUMIR_SCAN_ANSWER]);
void plain_chip_lit(const unsigned long panel[NUMBERS], unsigned long chip, unsigned long answer[ZHAQSUMIR_LIT_ANSWER]);
void plain_sees(const unsigned long panel[NUMBERS], unsigned long answer[ZHAQSUMIR_SEES_ANSWER]);

/* ---- recordings ---- */

enum { MOST_RECORDING = 4096 };
extern unsigned char recording[MOST_RECORDING];
extern unsigned long recorded;                          /* its samples */
void add_row(unsigned long n, const unsigned short *words); /* as the writer has it, of any words */
void new_recording(unsigned long n, unsigned long pieces); /* for n chips, more or less */
void random_contacts(unsigned char contacts[8]);        /* often those of the scan before */
unsigned long rises_of(unsigned long levels, const unsigned char *samples, unsigned long count);

/* ---- one call beside the twin's; each gives the twin's answer ---- */

extern unsigned long held[NUMBERS];                     /* a panel, the one before and the one after a call */
extern unsigned long listed[MOST_ROOM];                 /* the places that the library listed */
extern struct seen started, blocks, scans, lights, sees;
const unsigned long *start_panel(unsigned long n);
const unsigned long *play_block(const unsigned char *samples, unsigned long count, unsigned long room);
const unsigned long *scan_chip(unsigned long chip, const unsigned char contacts[8]);
const unsigned long *ask_lit(unsigned long chip);
const unsigned long *ask_sees(void);

void prepare_calls(void);
void report_calls(void);                                /* what was compared; a refusal or a kind that was never seen is a fault */

void any_panel_held(void);                              /* `held` is any panel of those that there can be */
void litter(void);                                      /* anything in the numbers of chips from N on */
void block_cases(void);
void cut_recordings(unsigned long count);
void report_cuts(void);

#endif
