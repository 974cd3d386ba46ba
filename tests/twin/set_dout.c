/* Puts the levels of DOUT into raw streams, by the plain twin. In a given stream bit 3 of a sample 10H to 1FH says that its DOUT is wrong.
 *
 *     set_dout STREAM...      each STREAM in place, up to the first byte that can't stand */
#include "libc.h"
#include "twin.h"

#define LONGEST (1ul << 20)

static unsigned char stream[LONGEST];

static void set(unsigned long count)
{
    struct chain chain;
    unsigned long answer[4], i = 3;

    if (count < 3 || stream[0] != 0 || stream[1] != 1 || stream[2] < 1 || stream[2] > MOST)
        return;
    start(&chain, stream[2]);
    while (i < count) {
        unsigned char sample = stream[i] & 7;

        if (stream[i] >= 0x80) {
            if (stream[i] >= 0x80 + chain.n || count - i < 9)
                return;
            twin_scan(&chain, stream[i] - 0x80u, stream + i + 1, answer);
            i += 9;
            continue;
        }
        if (stream[i] > 7 && stream[i] >> 4 != 1)
            return;
        play(&chain, &sample, 1);
        twin_sees(&chain, answer);
        if (stream[i] >> 4 == 1)
            stream[i] ^= (unsigned char)(8 * answer[2]);
        i++;
    }
}

/* Says whether it could be read and written. */
static int set_file(const char *name)
{
    FILE *file = fopen(name, "rb");
    unsigned long count;
    int done;

    if (file == NULL)
        return 0;
    count = fread(stream, 1, LONGEST, file);
    fclose(file);
    if (count == LONGEST)
        return 0;
    set(count);
    file = fopen(name, "wb");
    if (file == NULL)
        return 0;
    done = fwrite(stream, 1, count, file) == count;
    return fclose(file) == 0 && done;
}

int main(int count, char **given)
{
    int i, done = 1;

    for (i = 1; i < count; i++)
        done &= set_file(given[i]);
    return !done;
}
