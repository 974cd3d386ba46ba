/* Makes a raw stream of the writer's form for 8 chips, the same for the same number of samples, to standard output: rows of listed words
 * of every kind but sleep, with KEYB on the last chip at most; the last row may be cut. The rows never come again in the same order.
 *
 *     recording SAMPLES           without DOUT
 *     recording SAMPLES dout      each sample with the last chip's DOUT after it, by the plain twin */
#include "libc.h"
#include "twin.h"

enum { CHIPS = 8, ROWS = MOST_ROWS };
#define WRITTEN (ROWS * (24ul * CHIPS + 2))

static unsigned short words[ROWS * CHIPS];
static unsigned char samples[WRITTEN];

/* The next rows of words. */
static void fill(void)
{
    static unsigned long seed = 1;
    unsigned long answer[8], i;

    for (i = 0; i < ROWS * CHIPS; i++) {
        do {
            seed = seed * 6364136223846793005 + 1442695040888963407;
            words[i] = (unsigned short)(seed >> 40 & 4095);
            twin_decode(words[i], answer);
        } while (answer[0] != 0 || words[i] == 0x202 || ((words[i] & 0xFC2) == 0x402 && i % CHIPS != CHIPS - 1));
    }
}

/* Puts DOUT into samples that come next. Before them a key is closed on the last chip, each time another one. */
static void put_dout(struct chain *chain, unsigned long size)
{
    static unsigned key;
    unsigned char contacts[8] = { 0 };
    unsigned long answer[4], i;

    contacts[key % 8] = (unsigned char)(1 << key / 8 % 8);
    key++;
    twin_scan(chain, CHIPS - 1, contacts, answer);
    twin_scan(chain, CHIPS - 1, contacts, answer);
    for (i = 0; i < size; i++) {
        play(chain, samples + i, 1);
        twin_sees(chain, answer);
        samples[i] = (unsigned char)(0x10 + 8 * answer[2] + samples[i]);
    }
}

int main(int count, char **given)
{
    static const unsigned char head[] = { 0, 1, CHIPS };
    static struct chain chain;
    int dout = count == 3 && strcmp(given[2], "dout") == 0;
    unsigned long left, size, answer[3];

    if (count < 2 || count > 3 || (count == 3 && !dout)) {
        fprintf(stderr, "recording SAMPLES [dout]\n");
        return 2;
    }
    start(&chain, CHIPS);
    if (fwrite(head, 1, sizeof head, stdout) != sizeof head)
        return 1;
    for (left = strtoul(given[1], NULL, 10); left > 0; left -= size) {
        fill();
        twin_write(CHIPS, words, ROWS * CHIPS, samples, WRITTEN, answer);
        size = left < WRITTEN ? left : WRITTEN;
        if (dout)
            put_dout(&chain, size);
        if (answer[0] != 0 || fwrite(samples, 1, size, stdout) != size)
            return 1;
    }
    return fclose(stdout) != 0;
}
