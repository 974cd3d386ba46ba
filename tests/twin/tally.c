/* The tally of captures by the plain twin.
 *
 *     tally TEXT...      the lines of all TEXTs to standard output; where one is refused, its place among them to standard error */
#include "libc.h"
#include "twin.h"

static unsigned char text[LONGEST_TEXT + 1];            /* one byte more is enough to see that a text is too long */
static unsigned char out[TALLY_ROOM];
static unsigned long chips[4 * MOST], codes[CODES], largest, answer[2];

int main(int count, char **given)
{
    unsigned long length;
    int i;

    for (i = 1; i < count && answer[0] == 0; i++) {
        FILE *from = fopen(given[i], "rb");

        if (from == NULL)
            return 2;
        length = fread(text, 1, sizeof text, from);
        fclose(from);
        twin_tally(text, length, chips, codes, &largest, answer);
    }
    if (answer[0] != 0)
        fprintf(stderr, "%d\n", i - 1);
    length = twin_tally_lines(chips, codes, largest, answer, out);
    return fwrite(out, 1, length, stdout) != length;
}
