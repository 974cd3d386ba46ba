/* Counts the captures that its words name, one after another, and prints what became of the codes on each chip. */
#include <stdio.h>
#include "zhaqsumir.h"

static unsigned char text[ZHAQSUMIR_MOST_TEXT + 1]; /* one byte more, so that a text that is too long is seen to be */
static unsigned long chips[ZHAQSUMIR_TALLY_CHIPS], codes[ZHAQSUMIR_TALLY_CODES], largest; /* all zero: a fresh tally */

/* Counts one more capture; says whether it was counted to its end. */
static int counted(const char *name)
{
    unsigned long answer[ZHAQSUMIR_TALLY_ANSWER], length;
    FILE *file = fopen(name, "rb");

    if (file == NULL)
        return 0;
    length = fread(text, 1, sizeof text, file);
    fclose(file);
    zhaqsumir_tally(text, length, chips, codes, &largest, answer);
    if (answer[ZHAQSUMIR_NUMBER] != 0)
        printf("%s: refused %lu, line %lu\n", name, answer[ZHAQSUMIR_NUMBER], answer[ZHAQSUMIR_PLACE]);
    return answer[ZHAQSUMIR_NUMBER] == 0;
}

int main(int count, char **words)
{
    unsigned long k;
    int i;

    for (i = 1; i < count; i++) {
        if (!counted(words[i]))
            return 1;
    }
    for (k = 0; k < largest; k++)
        printf("chip %lu: recorded %lu, read %lu, overwritten %lu, cleared %lu\n", k, chips[4 * k + ZHAQSUMIR_RECORDED],
               chips[4 * k + ZHAQSUMIR_READ], chips[4 * k + ZHAQSUMIR_OVERWRITTEN], chips[4 * k + ZHAQSUMIR_CLEARED]);
    return 0;
}
