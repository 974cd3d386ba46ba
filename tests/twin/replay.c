/* Replays captures by the plain twin: words or screen, or of a text of two wires commands or panel.
 *
 *     replay FORM              the text of standard input, to standard output
 *     replay FORM TEXT...      each TEXT, to the file TEXT.FORM */
#include "libc.h"
#include "twin.h"

static unsigned char text[LONGEST_TEXT + 1];            /* one byte more is enough to see that a text is too long */
static unsigned char out[ROOM(SCREEN_LINE)];            /* no form writes more */

static const struct form {
    const char *name;
    void (*replay)(const unsigned char *text, unsigned long length, unsigned char *out, unsigned long *answer);
} forms[] = {
    { "words", twin_replay }, { "screen", twin_screen }, { "commands", twin_ch450_replay }, { "panel", twin_ch450_screen }
};

static const struct form *form_named(const char *name)
{
    unsigned long i;

    for (i = 0; i < sizeof forms / sizeof *forms; i++) {
        if (strcmp(forms[i].name, name) == 0)
            return &forms[i];
    }
    return NULL;
}

/* Says whether it could be read and written. */
static int replayed(const struct form *form, FILE *from, FILE *to)
{
    unsigned long answer[3], length;

    if (from == NULL || to == NULL)
        return 0;
    length = fread(text, 1, sizeof text, from);
    form->replay(text, length, out, answer);
    return fwrite(out, 1, answer[2], to) == answer[2];
}

static int replayed_file(const struct form *form, const char *name)
{
    char got[4096];
    FILE *from, *to;
    int done;

    if (snprintf(got, sizeof got, "%s.%s", name, form->name) >= (int)sizeof got)
        return 0;
    from = fopen(name, "rb");
    to = fopen(got, "wb");
    done = replayed(form, from, to);
    if (from != NULL)
        fclose(from);
    return to != NULL && fclose(to) == 0 && done;
}

int main(int count, char **given)
{
    const struct form *form = count < 2 ? NULL : form_named(given[1]);
    int i, done = 1;

    if (form == NULL) {
        fprintf(stderr, "replay words|screen|commands|panel [TEXT...]\n");
        return 2;
    }
    if (count == 2)
        done = replayed(form, stdin, stdout);
    for (i = 2; i < count; i++)
        done &= replayed_file(form, given[i]);
    return !done;
}
