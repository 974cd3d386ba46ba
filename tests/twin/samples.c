/* "Samples and edges" of a chain. */

enum { DIN = 1, DCLK = 2, LOAD = 4, IDLE = 7 };

/* The lowest place of a sample above 7, or count where there is none. */
static unsigned long bad_sample(const unsigned char *samples, unsigned long count)
{
    unsigned long i = 0;

    while (i < count && samples[i] <= 7)
        i++;
    return i;
}

/* What DOUT shows. */
static unsigned dout(const struct chip *c)
{
    if (!c->keyb)
        return c->latch;
    if (c->left > 0)
        return c->readout >> (c->left - 1) & 1;         /* K6 first */
    return !c->interrupt;
}

/* Every register moves down one place; a chip takes what the DOUT before it showed, the first what the host sends. */
static void clock_rise(struct chip *chips, unsigned n, unsigned in)
{
    unsigned k;

    for (k = 0; k < n; k++) {
        unsigned shown = dout(&chips[k]);

        chips[k].shift = (unsigned short)(chips[k].shift >> 1 | in << 11);
        in = shown;
    }
}

/* The latch takes register bit 0; a running readout moves on. */
static void clock_fall(struct chip *chips, unsigned n)
{
    unsigned k;

    for (k = 0; k < n; k++) {
        chips[k].latch = chips[k].shift & 1;
        if (chips[k].left > 0)
            chips[k].left--;
    }
}

/* Plays the DCLK edge of a sample after another; says whether LOAD rises, at which each chip is then to obey. */
static int clocked(struct chip *chips, unsigned n, unsigned before, unsigned sample)
{
    unsigned rises = ~before & sample, falls = before & ~sample;

    if (rises & DCLK)
        clock_rise(chips, n, sample & DIN);
    if (falls & DCLK)
        clock_fall(chips, n);
    return (rises & LOAD) != 0;
}

void start(struct chain *chain, unsigned n)
{
    unsigned k;

    chain->n = n;
    chain->levels = IDLE;
    for (k = 0; k < n; k++) {
        chain->chips[k].shift = 0;
        chain->chips[k].latch = 1;
        chain->chips[k].readout = 0;
        reset(&chain->chips[k]);
    }
}

/* LOAD rises: every chip obeys. (Never inlined: the loop over samples, most of which have no such rise, is faster without it.) */
static __attribute__((noinline)) void load(struct chip *chips, unsigned n)
{
    unsigned k;

    for (k = 0; k < n; k++)
        obey(&chips[k]);
}

int play(struct chain *chain, const unsigned char *samples, unsigned long count)
{
    unsigned n = chain->n;
    unsigned char levels = chain->levels;
    unsigned long i;

    if (bad_sample(samples, count) < count)
        return 0;
    for (i = 0; i < count; i++) {
        if (clocked(chain->chips, n, levels, samples[i]))
            load(chain->chips, n);
        levels = samples[i];
    }
    chain->levels = levels;
    return 1;
}
