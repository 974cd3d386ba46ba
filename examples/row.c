/* Encodes two commands, writes a row for three chips and prints its samples as a capture text, for `./zhaqsumir replay -`. */
#include <stdio.h>
#include "zhaqsumir.h"

#define CHIPS 3

/* The word of a command. Where it is refused: a word that no table has, so that the writer refuses the row. */
static unsigned short word_of(const unsigned long command[ZHAQSUMIR_COMMAND])
{
    unsigned long answer[ZHAQSUMIR_ENCODE_ANSWER];

    zhaqsumir_encode(command, answer);
    return answer[ZHAQSUMIR_NUMBER] == 0 ? (unsigned short)answer[ZHAQSUMIR_ENCODED_WORD] : 0xFFFF;
}

int main(void)
{
    const unsigned long load[ZHAQSUMIR_COMMAND] = { ZHAQSUMIR_LOAD_DIGIT, 2, 0x79 }; /* 79H in DIG2 */
    const unsigned long level[ZHAQSUMIR_COMMAND] = { ZHAQSUMIR_BAR_LEVEL, 9 };
    unsigned short words[CHIPS];
    unsigned char samples[ZHAQSUMIR_ROW_SAMPLES(CHIPS)];
    unsigned long answer[ZHAQSUMIR_WRITE_ANSWER], i;

    words[0] = word_of(load);
    words[1] = word_of(level);
    words[2] = 0; /* no operation */
    zhaqsumir_write(CHIPS, words, CHIPS, samples, sizeof samples, answer);
    if (answer[ZHAQSUMIR_NUMBER] != 0) {
        printf("refused %lu, word %lu\n", answer[ZHAQSUMIR_NUMBER], answer[ZHAQSUMIR_PLACE]);
        return 1;
    }

    printf("0001%02X", CHIPS);
    for (i = 0; i < answer[ZHAQSUMIR_SAMPLES_WRITTEN]; i++)
        printf("%s%02X", i % 32 == 0 ? "\n01" : "", samples[i]); /* 32 samples in a line */
    printf("\n");
    return 0;
}
