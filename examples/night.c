/* Puts a panel of three chips to sleep for the night: a row that switches display and keypad off, then a row of sleep words, in one list.
 * It prints the samples as a capture text, for `./zhaqsumir replay -`. With the word `now` it sends the sleep words alone, which the
 * writer refuses: a panel that sleeps with its display on would show its last amount when it is woken. */
#include <stdio.h>
#include <string.h>
#include "zhaqsumir.h"

#define CHIPS 3

/* Writes rows and prints them as a capture text; says whether they were accepted. */
static int send_rows(const unsigned short *words, unsigned long rows)
{
    unsigned char samples[2 * ZHAQSUMIR_ROW_SAMPLES(CHIPS)];
    unsigned long answer[ZHAQSUMIR_WRITE_ANSWER], i;

    zhaqsumir_write(CHIPS, words, rows * CHIPS, samples, sizeof samples, answer);
    if (answer[ZHAQSUMIR_NUMBER] == ZHAQSUMIR_LIT_SLEEP)
        printf("word %lu puts chip %lu to sleep, and this list doesn't switch it off before\n", answer[ZHAQSUMIR_PLACE],
               answer[ZHAQSUMIR_PLACE] % CHIPS);
    else if (answer[ZHAQSUMIR_NUMBER] != 0)
        printf("refused %lu, word %lu\n", answer[ZHAQSUMIR_NUMBER], answer[ZHAQSUMIR_PLACE]);
    if (answer[ZHAQSUMIR_NUMBER] != 0)
        return 0;

    printf("0001%02X", CHIPS);
    for (i = 0; i < answer[ZHAQSUMIR_SAMPLES_WRITTEN]; i++)
        printf("%s%02X", i % 32 == 0 ? "\n01" : "", samples[i]); /* 32 samples in a line */
    printf("\n");
    return 1;
}

int main(int count, char **given)
{
    static const unsigned short words[2 * CHIPS] = {
        0x400, 0x400, 0x400, /* system parameters: KEYB 0 and DISP 0, and INTM, SSPD and DPLR as this panel has them, 0 */
        0x202, 0x202, 0x202, /* sleep */
    };

    if (count == 1)
        return !send_rows(words, 2);
    if (count == 2 && strcmp(given[1], "now") == 0)
        return !send_rows(words + CHIPS, 1);
    printf("night [now]\n");
    return 2;
}
