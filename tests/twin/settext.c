/* Settings texts by the plain twin: again, the text read and written again, or rows, the capture text that sets a panel to it.
 *
 *     settext FORM              the text of standard input, to standard output
 *     settext FORM TEXT...      each TEXT, to the file TEXT.FORM */
#include "libc.h"
#include "twin.h"

static unsigned char block[4096], out[SETUP_ROOM];
static struct settings_reading reading;

/* Says whether it could be read and written. */
static int told(int rows, FILE *from, FILE *to)
{
    unsigned long answer[3], size;

    if (from == NULL || to == NULL)
        return 0;
    settings_start(&reading);
    while ((size = fread(block, 1, sizeof block, from)) > 0)
        settings_bytes(&reading, block, size);
    settings_end(&reading);
    settings_told(&reading, rows, out, answer);
    return fwrite(out, 1, answer[2], to) == answer[2];
}

static int told_file(int rows, const char *form, const char *name)
{
    char got[4096];
    FILE *from, *to;
    int done;

    if (snprintf(got, sizeof got, "%s.%s", name, form) >= (int)sizeof got)
        return 0;
    from = fopen(name, "rb");
    to = fopen(got, "wb");
    done = told(rows, from, to);
    if (from != NULL)
        fclose(from);
    return to != NULL && fclose(to) == 0 && done;
}

int main(int count, char **given)
{
    int rows = count >= 2 && strcmp(given[1], "rows") == 0;
    int i, done = 1;

    if (!rows && (count < 2 || strcmp(given[1], "again") != 0)) {
        fprintf(stderr, "settext again|rows [TEXT...]\n");
        return 2;
    }
    if (count == 2)
        done = told(rows, stdin, stdout);
    for (i = 2; i < count; i++)
        done &= told_file(rows, given[1], given[i]);
    return !done;
}
