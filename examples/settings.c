/* Reads a kiosk's settings from the file that its word names, or from standard input, and prints what each chip has. Then it turns them
 * into rows, and says how many samples set a panel to them. */
#include <stdio.h>
#include "zhaqsumir.h"

static unsigned char text[ZHAQSUMIR_SETTINGS_TEXT + 1]; /* one byte more: so many decide, however long the text is */

/* Says what a chip's nine numbers are. */
static void print_chip(unsigned long k, const unsigned long *chip)
{
    printf("chip %lu: INTM %lu, SSPD %lu, DPLR %lu, KEYB %lu, DISP %lu; MODE %lu, LIMIT %lu; blink %02lXH, custom %02lXH\n", k,
           chip[ZHAQSUMIR_KEPT_INTM], chip[ZHAQSUMIR_KEPT_SSPD], chip[ZHAQSUMIR_KEPT_DPLR], chip[ZHAQSUMIR_KEPT_KEYB],
           chip[ZHAQSUMIR_KEPT_DISP], chip[ZHAQSUMIR_KEPT_MODE], chip[ZHAQSUMIR_KEPT_LIMIT], chip[ZHAQSUMIR_KEPT_BLINK],
           chip[ZHAQSUMIR_KEPT_CUSTOM]);
}

/* The samples that set a panel to settings that were read: their rows are refused only for a keypad before the last chip. */
static int print_samples(const unsigned long settings[ZHAQSUMIR_SETTINGS])
{
    unsigned short words[ZHAQSUMIR_SETTINGS_WORDS];
    unsigned char samples[4 * ZHAQSUMIR_ROW_SAMPLES(ZHAQSUMIR_MOST_CHIPS)];
    unsigned long answer[ZHAQSUMIR_WRITE_ANSWER];

    zhaqsumir_settings_rows(settings, words, answer); /* settings that were read are never refused here */
    zhaqsumir_write(settings[ZHAQSUMIR_SETTINGS_CHIPS], words, answer[ZHAQSUMIR_SETTINGS_WRITTEN], samples, sizeof samples, answer);
    if (answer[ZHAQSUMIR_NUMBER] != 0)
        printf("refused %lu: KEYB is 1 on chip %lu, which isn't the last\n", answer[ZHAQSUMIR_NUMBER], answer[ZHAQSUMIR_PLACE]);
    else
        printf("%lu samples set a panel to these\n", answer[ZHAQSUMIR_SAMPLES_WRITTEN]);
    return answer[ZHAQSUMIR_NUMBER] != 0;
}

int main(int count, char **words)
{
    unsigned long answer[ZHAQSUMIR_SETTINGS_READ_ANSWER], length, k;
    const unsigned long *settings = answer + ZHAQSUMIR_SETTINGS_READ;
    FILE *file = count > 1 ? fopen(words[1], "rb") : stdin;

    if (file == NULL)
        return 2;
    length = fread(text, 1, sizeof text, file);
    zhaqsumir_settings_read(text, length, answer);
    if (answer[ZHAQSUMIR_NUMBER] == ZHAQSUMIR_NEWER_VERSION)
        printf("version %02lX is newer than this program\n", answer[ZHAQSUMIR_PLACE]);
    else if (answer[ZHAQSUMIR_NUMBER] != 0)
        printf("refused %lu, line %lu\n", answer[ZHAQSUMIR_NUMBER], answer[ZHAQSUMIR_PLACE]);
    if (answer[ZHAQSUMIR_NUMBER] != 0)
        return 1;
    for (k = 0; k < settings[ZHAQSUMIR_SETTINGS_CHIPS]; k++)
        print_chip(k, settings + ZHAQSUMIR_SETTINGS_CHIP(k));
    return print_samples(settings);
}
