/* Watches a stream by the plain twin: standard input to standard output, as it comes.
 *
 *     watch             words and keys
 *     watch screen      the segments lit */
#include "libc.h"
#include "twin.h"

static unsigned char bytes[WATCH_LEFT + WATCH_READ];    /* what the reads before left, and a read */
static unsigned char out[WATCH_ROOM];
static struct watch watched;

/* Says whether all of it could be written. */
static int written(unsigned long size)
{
    unsigned long done = 0;

    while (done < size) {
        long some = write(1, out + done, size - done);

        if (some <= 0)
            return 0;
        done += (unsigned long)some;
    }
    return 1;
}

int main(int count, char **given)
{
    int screen = count == 2 && strcmp(given[1], "screen") == 0;
    unsigned long left = 0, taken, size;
    long some;

    if (count > 2 || (count == 2 && !screen)) {
        fprintf(stderr, "watch [screen]\n");
        return 0;
    }
    watch_start(&watched, screen);
    while (!watched.refused && (some = read(0, bytes + left, WATCH_READ)) > 0) {
        left += (unsigned long)some;
        taken = watch_block(&watched, bytes, left, out, &size);
        if (!written(size))
            return 0;
        left -= taken;
        memmove(bytes, bytes + taken, left);
    }
    written(watch_end(&watched, left, out));
    return 0;
}
