/* The rows of kiosk settings, written and played: they must leave each chip of a panel with the settings, and awake. */
#include "settings.h"
#include "libc.h"

static zhaqsumir_panel panel;
static unsigned long played, early_seen;

/* Plays words into the panel; says which refusal the writer gave. */
static unsigned long play_rows(unsigned long n, const unsigned short *words, unsigned long count, unsigned long *place)
{
    unsigned char samples[4 * ZHAQSUMIR_ROW_SAMPLES(ZHAQSUMIR_MOST_CHIPS)];
    unsigned long rises[ZHAQSUMIR_MOST_RISES(sizeof samples)], answer[ZHAQSUMIR_BLOCK_ANSWER];

    zhaqsumir_write(n, words, count, samples, sizeof samples, answer);
    *place = answer[ZHAQSUMIR_PLACE];
    if (answer[ZHAQSUMIR_NUMBER] != 0)
        return answer[ZHAQSUMIR_NUMBER];
    zhaqsumir_block(&panel, samples, answer[ZHAQSUMIR_SAMPLES_WRITTEN], rises, ZHAQSUMIR_MOST_RISES(sizeof samples), answer);
    must(answer[ZHAQSUMIR_NUMBER] == 0, "a block of the writer's was refused");
    return 0;
}

/* The rows of the settings `asked`, which the library takes. */
static unsigned long set_panel(unsigned long *place)
{
    unsigned short words[ZHAQSUMIR_SETTINGS_WORDS];
    const unsigned long *want = rows_one(words);

    must(want[0] == 0 && want[2] == 4 * asked[CHIPS], "the rows of good settings were refused");
    return play_rows(asked[CHIPS], words, want[2], place);
}

void set_a_panel(void)
{
    unsigned short off[2 * ZHAQSUMIR_MOST_CHIPS];
    unsigned long n = 1 + below(ZHAQSUMIR_MOST_CHIPS), answer[ZHAQSUMIR_START_ANSWER], place, k, lowest, number;
    zhaqsumir_panel before;

    zhaqsumir_start(n, &panel, answer);
    good_settings(n, 0);
    if (once_in(2))
        must(set_panel(&place) == 0, "rows with KEYB 1 at most on the last chip were refused");
    for (k = 0; k < n; k++) {
        off[k] = 0x400;
        off[n + k] = 0x202;
    }
    if (once_in(2)) {
        must(play_rows(n, off, 2 * n, &place) == 0, "no sleep");
        must(panel.numbers[ZHAQSUMIR_PANEL_CHIP(0) + ZHAQSUMIR_CHIP_SLEEPING] == 1, "no chip sleeps");
    }

    good_settings(n, once_in(4));
    for (lowest = 0; lowest + 1 < n && OF(asked, lowest, KEYB) == 0; lowest++)
        ;
    before = panel;
    number = set_panel(&place);
    if (lowest + 1 < n) {
        early_seen++;
        if (number != 7 || place != lowest || memcmp(&before, &panel, sizeof panel) != 0)
            fault("settings played", played, "KEYB 1 before the last chip isn't refused with 7 at that chip");
        return;
    }
    if (number != 0)
        fault("settings played", played, "rows that the writer must take were refused");
    for (k = 0; k < n; k++) {
        const unsigned long *chip = panel.numbers + ZHAQSUMIR_PANEL_CHIP(k);

        if (memcmp(chip + ZHAQSUMIR_CHIP_INTM, &OF(asked, k, 0), OF_CHIP * sizeof *chip) != 0)
            fault("settings played", played, "a chip has other settings");
        if (chip[ZHAQSUMIR_CHIP_SLEEPING] != 0)
            fault("settings played", played, "a chip sleeps");
    }
    played++;
}

void report_panels(void)
{
    printf("settings: %lu played into a panel, %lu refused for an early keypad\n", played, early_seen);
    if (played == 0 || early_seen == 0)
        fault("settings played", 0, "none was played, or none was refused");
}
