/* The text of two wires (request C-15; its form is the project's own): lines are read, played, and answered by lines. */

static unsigned char *command_line(unsigned char *to, const struct ch450 *c)
{
    return ended(hex(hex(hex(to, 0x42), c->byte1), c->byte2));
}

static unsigned char *answer_line(unsigned char *to, unsigned key)
{
    return ended(hex(hex(to, 0x43), key));
}

static unsigned char *panel_line(unsigned char *to, const struct ch450 *c)
{
    unsigned char segments[SIX];
    int d;

    ch450_lit(c, segments);
    to = hex(to, 0x44);
    for (d = 0; d < SIX; d++)
        to = hex(to, segments[d]);
    return ended(to);
}

/* What a frame is; the first line has a key code and six digits. */
static int wires_form(const unsigned char *frame, unsigned long size, int first)
{
    if (first)
        return size == 3 + SIX && frame[0] == 0x40 && frame[1] == 1 && frame[2] <= 127 ? FIRST : BAD;
    return size >= 2 && frame[0] == 0x41 && bad_level(frame + 1, size - 1) == size - 1 ? SAMPLES : BAD;
}

static unsigned char *wires_played(struct ch450 *c, unsigned key, const unsigned char *samples, int count, int screen, unsigned char *to)
{
    int i;

    for (i = 0; i < count; i++) {
        enum obeyed what = ch450_sample(c, samples[i]);

        if (what == NO_COMMAND)
            continue;
        if (screen) {
            to = panel_line(to, c);
        } else {
            to = command_line(to, c);
            if (what == READ_COMMAND)
                to = answer_line(to, key);
        }
    }
    return to;
}

static void wires(const unsigned char *text, unsigned long length, int screen, unsigned char *out, unsigned long answer[3])
{
    const unsigned char *at = text, *end = text + length;
    unsigned char frame[LONGEST_FRAME], key = 0, *to = out;
    unsigned long number = length > LONGEST_TEXT ? 11 : 0, line = 0;
    struct ch450 c;

    while (number == 0 && (line == 0 || at < end)) {
        int size = frame_at(&at, end, frame);

        line++;
        switch (wires_form(frame, (unsigned long)size, line == 1)) {
        case FIRST:
            key = frame[2];
            ch450_start(&c, frame + 3);
            break;
        case SAMPLES: to = wires_played(&c, key, frame + 1, size - 1, screen, to); break;
        default: number = 10;
        }
    }
    if (number != 0)
        to = refusal_line(to, number, line);
    answer[0] = number;
    answer[1] = number != 0 ? line : 0;
    answer[2] = (unsigned long)(to - out);
}

void twin_ch450_replay(const unsigned char *text, unsigned long length, unsigned char out[WIRES_ROOM(READ_LINES)], unsigned long answer[3])
{
    wires(text, length, 0, out, answer);
}

void twin_ch450_screen(const unsigned char *text, unsigned long length, unsigned char out[WIRES_ROOM(PANEL_LINE)], unsigned long answer[3])
{
    wires(text, length, 1, out, answer);
}
