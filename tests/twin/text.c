/* "Capture text": lines are read, played, and answered by lines. */

/* ---- lines written; each function gives where the next byte goes ---- */

static unsigned char *hex(unsigned char *to, unsigned byte)
{
    static const char digits[] = "0123456789ABCDEF";

    *to++ = (unsigned char)digits[byte >> 4];
    *to++ = (unsigned char)digits[byte & 15];
    return to;
}

/* Eight bytes, high first. */
static unsigned char *hex_8(unsigned char *to, unsigned long number)
{
    int place;

    for (place = 56; place >= 0; place -= 8)
        to = hex(to, number >> place & 0xFF);
    return to;
}

static unsigned char *ended(unsigned char *to)
{
    *to++ = '\n';
    return to;
}

static unsigned char *word_line(unsigned char *to, unsigned k, unsigned word)
{
    return ended(hex(hex(hex(hex(to, 0x10), k), word >> 8), word & 0xFF));
}

/* A scan that recorded a code: 11, or 12 where it did so over an unread one. */
static unsigned char *key_line(unsigned char *to, enum recorded what, unsigned k, unsigned code)
{
    if (what != CODE && what != OVER_UNREAD)
        return to;
    return ended(hex(hex(hex(to, what == CODE ? 0x11 : 0x12), k), code));
}

static unsigned char *screen_line(unsigned char *to, unsigned k, const unsigned char segments[8])
{
    int d;

    to = hex(hex(to, 0x30), k);
    for (d = 0; d < 8; d++)
        to = hex(to, segments[d]);
    return ended(to);
}

static unsigned char *refusal_line(unsigned char *to, unsigned long number, unsigned long line)
{
    int place;

    to = hex(hex(to, 0x1F), (unsigned)number);
    for (place = 24; place >= 0; place -= 8)
        to = hex(to, line >> place & 0xFF);
    return ended(to);
}

/* ---- lines read ---- */

enum { LONGEST_FRAME = 33 };                            /* 01 and 32 samples */

static int digit(unsigned char c)
{
    if (c >= '0' && c <= '9')
        return c - '0';
    if (c >= 'A' && c <= 'F')
        return c - 'A' + 10;
    return -1;
}

/* Reads the line at *at into a frame and moves on past it; gives the frame's size, or 0 where the line is of no form. */
static int frame_at(const unsigned char **at, const unsigned char *end, unsigned char frame[LONGEST_FRAME])
{
    const unsigned char *c = *at;
    int size = 0;

    while (c < end && *c != '\n') {
        int high, low;

        if (size == LONGEST_FRAME || end - c < 2)
            return 0;
        high = digit(c[0]);
        low = digit(c[1]);
        if (high < 0 || low < 0)
            return 0;
        frame[size++] = (unsigned char)(16 * high + low);
        c += 2;
    }
    if (c == end)                                       /* no 0AH */
        return 0;
    *at = c + 1;
    return size;
}

enum { BAD, FIRST, SAMPLES, SCAN };

/* What a frame is; n is the number of chips, or 0 before the first line. */
static int form_of(const unsigned char *frame, unsigned long size, unsigned n)
{
    if (n == 0)
        return size == 3 && frame[0] == 0 && frame[1] == 1 && frame[2] >= 1 && frame[2] <= MOST ? FIRST : BAD;
    if (size >= 2 && frame[0] == 1)
        return bad_sample(frame + 1, size - 1) == size - 1 ? SAMPLES : BAD;
    return size == 10 && frame[0] == 2 && frame[1] < n ? SCAN : BAD;
}

/* ---- the replay ---- */

/* LOAD rises: each chip obeys, and its line is written. (This and the next are always inlined, as `obey` is, for the same reason.) */
static inline __attribute__((always_inline)) unsigned char *loaded(struct chain *chain, int screen, unsigned char *to)
{
    unsigned char segments[8];
    unsigned n = chain->n, k;

    for (k = 0; k < n; k++) {
        obey(&chain->chips[k]);
        if (screen) {
            lit(&chain->chips[k], segments);
            to = screen_line(to, k, segments);
        } else {
            to = word_line(to, k, chain->chips[k].shift);
        }
    }
    return to;
}

static inline __attribute__((always_inline)) unsigned char *played(struct chain *chain, const unsigned char *samples, int count,
                                                                   int screen, unsigned char *to)
{
    unsigned char levels = chain->levels;
    int i;

    for (i = 0; i < count; i++) {
        if (clocked(chain->chips, chain->n, levels, samples[i]))
            to = loaded(chain, screen, to);
        levels = samples[i];
    }
    chain->levels = levels;
    return to;
}

static unsigned char *scanned(struct chip *c, unsigned k, const unsigned char contacts[8], int screen, unsigned char *to)
{
    unsigned char before[8], after[8];
    enum recorded what;

    if (screen)
        lit(c, before);
    what = scan(c, contacts);
    if (!screen)
        return key_line(to, what, k, c->code);
    lit(c, after);
    return memcmp(before, after, 8) != 0 ? screen_line(to, k, after) : to;
}

static void replay(const unsigned char *text, unsigned long length, int screen, unsigned char *out, unsigned long answer[3])
{
    const unsigned char *at = text, *end = text + length;
    unsigned char frame[LONGEST_FRAME], *to = out;
    unsigned long number = length > LONGEST_TEXT ? 11 : 0, line = 0;
    struct chain chain;

    chain.n = 0;
    while (number == 0 && (line == 0 || at < end)) {
        int size = frame_at(&at, end, frame);

        line++;
        switch (form_of(frame, (unsigned long)size, chain.n)) {
        case FIRST: start(&chain, frame[2]); break;
        case SAMPLES: to = played(&chain, frame + 1, size - 1, screen, to); break;
        case SCAN: to = scanned(&chain.chips[frame[1]], frame[1], frame + 2, screen, to); break;
        default: number = 10;
        }
    }
    if (number != 0)
        to = refusal_line(to, number, line);
    answer[0] = number;
    answer[1] = number != 0 ? line : 0;
    answer[2] = (unsigned long)(to - out);
}

void twin_replay(const unsigned char *text, unsigned long length, unsigned char out[ROOM(WORD_LINE)], unsigned long answer[3])
{
    replay(text, length, 0, out, answer);
}

void twin_screen(const unsigned char *text, unsigned long length, unsigned char out[ROOM(SCREEN_LINE)], unsigned long answer[3])
{
    replay(text, length, 1, out, answer);
}
