/* Compares the library that C links, libzhaqsumir.a, with the plain twin, which was written from document 01: the boundary between
 * the two languages, which no proof covers.
 *
 *     library COUNT SEED [TEXT GOT]...
 *
 * Decode, encode, the writer and the finder get COUNT random inputs each, so do the four functions for a CH450, the five on a panel of
 * CH452 chips and the three for a kiosk's settings, and the replay and the tally a hundredth as many; as many recordings are cut into
 * blocks. Each TEXT is replayed, and what the library makes of it is written to the file GOT. What is lent to be written lies between
 * guards and is compared whole; what is lent to be read ends where no byte can be read. The exit status is 0 where all is the same and
 * every refusal that a function can give was given. */
#include "check.h"
#include "libc.h"

int main(int count, char **words)
{
    unsigned long inputs = count > 2 ? strtoul(words[1], NULL, 10) : 100000;
    unsigned long seed = count > 2 ? strtoul(words[2], NULL, 10) : 1;
    int i;

    printf("library: %lu random inputs, seed %lu\n", inputs, seed);
    start_from(seed);
    compare_words(inputs);
    compare_samples(inputs);
    for (i = 3; i + 1 < count; i += 2)
        compare_capture(words[i], words[i + 1]);
    compare_texts(inputs / 100);
    compare_tallies(inputs / 100);
    compare_ch450(inputs);
    compare_panels(inputs);
    compare_blocks(inputs);
    compare_settings(inputs);
    if (faults > 0)
        printf("library: %lu WRONG\n", faults);
    return faults > 0;
}
