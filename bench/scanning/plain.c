/* Takes the key scans of standard input by the plain twin, and prints the sum of what the chip held: what main.rt.in does with the
 * proved chip. A scan is no function that the twin offers, so the twin is taken in whole. */
#include "twin.c"

enum { SCANS = 128, ROUNDS = 100000 };

int main(void)
{
    static unsigned char list[SCANS * 8];
    struct chain chain;
    unsigned long sum = 0, k;

    if (fread(list, 1, sizeof list, stdin) != sizeof list)
        return 1;
    start(&chain, 1);
    chain.chips[0].keyb = 1;
    for (k = 0; k < SCANS * ROUNDS; k++) {
        scan(&chain.chips[0], list + k % SCANS * 8);
        sum = sum % 4294967296 + chain.chips[0].code + 128ul * chain.chips[0].interrupt;
    }
    printf("%lu", sum);
    return 0;
}
