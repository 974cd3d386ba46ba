/* "The insurer's tally" (request C-21): what captures add to the counts, and the lines that tell them. */

enum { RECORDED, READ, OVERWRITTEN, CLEARED, COUNTS };  /* of a chip, in the order of a line 13 */

/* A word that a chip is about to obey at a LOAD rise: a read word counts where it finds an interrupt, with KEYB on; a reset and a
 * system word with KEYB 0 count where there is one to clear. */
static void count_word(const struct chip *c, unsigned long counts[COUNTS])
{
    if (!c->interrupt)
        return;
    switch (kind_of(c->shift)) {
    case READ_KEY: counts[READ] += c->keyb; break;
    case RESET: counts[CLEARED]++; break;
    case SYSTEM: counts[CLEARED] += !field(c->shift, SYSTEM, KEYB); break;
    default: break;
    }
}

static void count_samples(struct chain *chain, const unsigned char *samples, int count, unsigned long chips[COUNTS * MOST])
{
    unsigned k;
    int i;

    for (i = 0; i < count; i++) {
        if (clocked(chain->chips, chain->n, chain->levels, samples[i])) {
            for (k = 0; k < chain->n; k++) {
                count_word(&chain->chips[k], chips + COUNTS * k);
                obey(&chain->chips[k]);
            }
        }
        chain->levels = samples[i];
    }
}

static void count_scan(struct chip *c, const unsigned char contacts[8], unsigned long counts[COUNTS], unsigned long codes[CODES])
{
    enum recorded what = scan(c, contacts);

    if (what == CODE || what == OVER_UNREAD) {
        counts[RECORDED]++;
        counts[OVERWRITTEN] += what == OVER_UNREAD;
        codes[c->code]++;
    }
}

/* Whether some count, of whatever chip or code, plus so much is above 2^64 - 1. */
static int too_large(const unsigned long chips[COUNTS * MOST], const unsigned long codes[CODES], unsigned long more)
{
    int i;

    for (i = 0; i < COUNTS * MOST; i++) {
        if (chips[i] > ~0ul - more)
            return 1;
    }
    for (i = 0; i < CODES; i++) {
        if (codes[i] > ~0ul - more)
            return 1;
    }
    return 0;
}

void twin_tally(const unsigned char *text, unsigned long length, unsigned long chips[4 * MOST], unsigned long codes[CODES],
                unsigned long *largest, unsigned long answer[2])
{
    const unsigned char *at = text, *end = text + length;
    unsigned char frame[LONGEST_FRAME];
    unsigned long number = length > LONGEST_TEXT ? 11 : *largest > MOST ? 12 : 0, line = 0;
    struct chain chain;

    chain.n = 0;
    while (number == 0 && (line == 0 || at < end)) {
        int size = frame_at(&at, end, frame), form = form_of(frame, (unsigned long)size, chain.n);

        line++;
        if (form == BAD) {
            number = 10;
        } else if (form == FIRST) {
            start(&chain, frame[2]);
            if (*largest < chain.n)
                *largest = chain.n;
        } else if (too_large(chips, codes, form == SAMPLES ? (unsigned long)size - 1 : 1)) {
            number = 16;
        } else if (form == SAMPLES) {
            count_samples(&chain, frame + 1, size - 1, chips);
        } else {
            count_scan(&chain.chips[frame[1]], frame + 2, chips + COUNTS * frame[1], codes);
        }
    }
    answer[0] = number;
    answer[1] = number != 0 ? line : 0;
}

/* ---- the lines ---- */

unsigned long twin_tally_lines(const unsigned long chips[4 * MOST], const unsigned long codes[CODES], unsigned long largest,
                               const unsigned long answer[2], unsigned char out[TALLY_ROOM])
{
    unsigned char *to = out;
    unsigned k, code, i;

    for (k = 0; k < largest; k++) {
        to = hex(hex(to, 0x13), k);
        for (i = 0; i < COUNTS; i++)
            to = hex_8(to, chips[COUNTS * k + i]);
        to = ended(to);
    }
    for (code = 0; code < CODES; code++) {
        if (codes[code] > 0)
            to = ended(hex_8(hex(hex(to, 0x14), code), codes[code]));
    }
    if (answer[0] != 0)
        to = refusal_line(to, answer[0], answer[1]);
    return (unsigned long)(to - out);
}
