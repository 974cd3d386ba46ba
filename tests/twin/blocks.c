/* Request C-11, "Probe blocks as they arrive": a chain that goes on from block to block, and what is done and asked between them. */

/* Whether a chip can have this record: "Refusal numbers", no. 12. With no bits left there is no readout. */
static int is_record(const struct chip *c)
{
    return c->shift <= 4095 && c->custom <= 127 && c->code <= 127 && c->limit <= 7
        && c->left <= 7 && (c->left == 0 || c->readout <= 127)
        && (c->last == NONE || c->last <= 63);
}

/* The refusal of a chain itself, 3 or 12, or 0; records from N on are not looked at. */
static unsigned long bad_chain(const struct chain *chain)
{
    unsigned k;

    if (chain->n < 1 || chain->n > MOST)
        return 3;
    for (k = 0; k < chain->n; k++) {
        if (!is_record(&chain->chips[k]))
            return 12;
    }
    return chain->levels > 7 ? 12 : 0;
}

/* The refusal of a chain, or of a chip that isn't one of its. */
static unsigned long bad_chip(const struct chain *chain, unsigned long chip)
{
    unsigned long number = bad_chain(chain);

    return number == 0 && chip >= chain->n ? 2 : number;
}

/* How many times LOAD rises in samples that come after these levels. */
static unsigned long rises_in(unsigned before, const unsigned char *samples, unsigned long count)
{
    unsigned long rises = 0, i;

    for (i = 0; i < count; i++) {
        rises += (~before & samples[i] & LOAD) != 0;
        before = samples[i];
    }
    return rises;
}

void twin_block(struct chain *chain, const unsigned char *samples, unsigned long count, unsigned long *rises, unsigned long room,
                unsigned long answer[3])
{
    unsigned long number = bad_chain(chain), bad = bad_sample(samples, count), i;
    unsigned n = chain->n;
    unsigned char levels = chain->levels;

    refuse(answer, 3, number, 0);
    if (number != 0)
        return;
    if (bad < count) {
        refuse(answer, 3, 1, bad);
        return;
    }
    if (rises_in(levels, samples, count) > room) {
        refuse(answer, 3, 8, 0);
        return;
    }
    for (i = 0; i < count; i++) {
        if (clocked(chain->chips, n, levels, samples[i])) {
            load(chain->chips, n);
            rises[answer[2]++] = i;
        }
        levels = samples[i];
    }
    chain->levels = levels;
}

void twin_scan(struct chain *chain, unsigned long chip, const unsigned char contacts[8], unsigned long answer[4])
{
    unsigned long number = bad_chip(chain, chip);

    refuse(answer, 4, number, 0);
    if (number != 0)
        return;
    answer[2] = scan(&chain->chips[chip], contacts);
    if (answer[2] == CODE || answer[2] == OVER_UNREAD)
        answer[3] = chain->chips[chip].code;
}

void twin_lit(const struct chain *chain, unsigned long chip, unsigned long answer[10])
{
    unsigned long number = bad_chip(chain, chip);
    unsigned char segments[8];
    int d;

    refuse(answer, 10, number, 0);
    if (number != 0)
        return;
    lit(&chain->chips[chip], segments);
    for (d = 0; d < 8; d++)
        answer[2 + d] = segments[d];
}

void twin_sees(const struct chain *chain, unsigned long answer[3])
{
    unsigned long number = bad_chain(chain);

    refuse(answer, 3, number, 0);
    if (number == 0)
        answer[2] = dout(&chain->chips[chain->n - 1]);
}
