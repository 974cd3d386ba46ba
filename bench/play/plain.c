/* Plays 2,000,140 samples of the writer's form for 8 chips by the plain twin, and prints what the chips then hold: what
 * main.rt.in does with the proved chain. */
#include "libc.h"
#include "twin.h"

enum { BLOCK = 1940, ROUNDS = 1031 };                   /* ten rows for 8 chips, so many times */

/* The sample at a place of the block: bits by a fixed rule, a row's end after each 192. */
static unsigned char sample(unsigned i)
{
    unsigned place = i % 194, j = i / 2 % 1024;
    unsigned bit = (j * 37 / 11 + j / 5 + j / 7 * 3) % 2;

    if (place >= 192)
        return place == 192 ? 3 : 7;
    return (unsigned char)((place % 2 == 0 ? 4 : 6) + bit);
}

int main(void)
{
    static unsigned char block[BLOCK];
    struct chain chain;
    unsigned i, k;

    for (i = 0; i < BLOCK; i++)
        block[i] = sample(i);
    start(&chain, block[BLOCK - 1] == 7 ? 8 : 1);
    for (i = 0; i < ROUNDS; i++) {
        if (!play(&chain, block, BLOCK))
            return 1;
    }
    for (k = 0; k < chain.n; k++)
        printf("%d %d %d\n", chain.chips[k].shift, chain.chips[k].digits[0], chain.chips[k].digits[7]);
    return 0;
}
