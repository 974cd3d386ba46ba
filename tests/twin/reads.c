/* The request "What the till read": of a raw stream with DOUT, the codes that the last chip's readouts carried, the readouts that were cut,
 * the interrupts that could be seen, and where DOUT isn't the latch. A level of DOUT is looked at at the next edge of DCLK or LOAD, by the
 * last chip's state before that edge. */

enum { MISSING = 2 };                                   /* a level that wasn't recorded */

static void reads_start(struct reads *r)
{
    memset(r, 0, sizeof *r);
    r->level = MISSING;
    r->high = 1;
}

static unsigned char *read_line(unsigned char *to, unsigned k, unsigned code)
{
    return ended(hex(hex(hex(to, 0x16), k), code));
}

static unsigned char *interrupt_line(unsigned char *to, unsigned k)
{
    return ended(hex(hex(to, 0x18), k));
}

static unsigned char *contrary_line(unsigned char *to, unsigned long offset)
{
    return ended(hex_8(hex(to, 0x15), offset));
}

/* A readout is cut; that is told once. */
static unsigned char *cut(struct reads *r, unsigned k, unsigned char *to)
{
    if (r->told)
        return to;
    r->told = 1;
    return ended(hex(hex(to, 0x17), k));
}

/* A readout runs. DCLK's edge comes before LOAD's. */
static unsigned char *look_at_readout(struct reads *r, const struct chip *c, unsigned k, unsigned rises, unsigned falls, unsigned char *to)
{
    if (falls & DCLK) {
        if (r->level == MISSING) {
            to = cut(r, k, to);
        } else {
            r->code = (unsigned char)(r->code << 1 | r->level);
            r->bits++;
        }
        if (c->left == 1) {                             /* its last bit */
            if (r->bits == 7)
                return read_line(to, k, r->code);
            return cut(r, k, to);
        }
    }
    return rises & LOAD ? cut(r, k, to) : to;
}

/* The last chip, k, before an edge of DCLK or LOAD. */
static unsigned char *looked(struct reads *r, const struct chip *c, unsigned k, unsigned before, unsigned sample, unsigned char *to)
{
    if (c->keyb && c->left > 0)
        return look_at_readout(r, c, k, ~before & sample, before & ~sample, to);
    if (r->level == MISSING)
        return to;
    if (c->keyb) {
        if (r->high && !r->level)
            to = interrupt_line(to, k);
        r->high = r->level;
    } else {
        if (!r->contrary && r->level != c->latch)
            to = contrary_line(to, r->at);
        r->contrary = r->level != c->latch;
    }
    return to;
}

/* LOAD rose, and after it the last chip is this. A read word is one after which a readout runs: none of its bits is read yet. */
static void after_load(struct reads *r, const struct chip *c)
{
    if (c->left == 0)
        return;
    r->code = 0;
    r->bits = 0;
    r->told = 0;
    r->high = 1;
}

/* A sample, as its byte is, has been played; it stands at an offset. */
static void after_sample(struct reads *r, unsigned byte, unsigned long offset)
{
    if (byte >= 0x10) {
        r->begun = 1;
        r->level = byte >> 3 & 1;
        r->at = offset;
    } else {
        r->level = MISSING;
    }
}
