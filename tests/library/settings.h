/* The parts of the test of kiosk settings: settings.c, and panels that are set to them (settings_set.c). */
#ifndef SETTINGS_H
#define SETTINGS_H

#include "check.h"
#include "twin.h"
#include "zhaqsumir.h"

enum {
    NUMBERS = ZHAQSUMIR_SETTINGS, OF_CHIP = ZHAQSUMIR_KEPT_NUMBERS, CHIPS = ZHAQSUMIR_SETTINGS_CHIPS, KEYB = ZHAQSUMIR_KEPT_KEYB
};

/* Number i of chip k of settings. */
#define OF(settings, k, i) ((settings)[ZHAQSUMIR_SETTINGS_CHIP(k) + (i)])

extern unsigned long asked[NUMBERS];                    /* settings */

/* `asked` are settings of n chips that can be written; KEYB is 1 on the last chip at most, unless it may be early. */
void good_settings(unsigned long n, int early);

/* Turns the settings `asked` into words, beside the twin; gives the twin's answer. */
const unsigned long *rows_one(unsigned short words[ZHAQSUMIR_SETTINGS_WORDS]);

void set_a_panel(void);                                 /* that has other settings before, and sleeps at times */
void report_panels(void);

#endif
