/* "What commands do" to a chip. */

/* All but the register, the latch and the code of the readout, which ends: as at every other end of it, no bits are left. */
static void reset(struct chip *c)
{
    unsigned short shift = c->shift;
    unsigned char latch = c->latch, readout = c->readout;

    memset(c, 0, sizeof *c);
    c->last = NONE;
    c->shift = shift;
    c->latch = latch;
    c->readout = readout;
}

/* An address is 8 SEG + DIG. */
static void set_segment(struct chip *c, unsigned address)
{
    c->digits[address % 8] |= (unsigned char)(1 << address / 8);
}

static void clear_segment(struct chip *c, unsigned address)
{
    c->digits[address % 8] &= (unsigned char)~(1 << address / 8);
}

static void set_bar(struct chip *c, unsigned level)
{
    unsigned address;

    memset(c->digits, 0, 8);
    for (address = 0; address < level && address < 64; address++)
        set_segment(c, address);
}

/* DIG d to DIG d + 1. */
static void move_left(struct chip *c, unsigned char enters)
{
    memmove(c->digits + 1, c->digits, 7);
    c->digits[0] = enters;
}

/* DIG d + 1 to DIG d. */
static void move_right(struct chip *c, unsigned char enters)
{
    memmove(c->digits, c->digits + 1, 7);
    c->digits[7] = enters;
}

static void set_system(struct chip *c, unsigned word)
{
    c->intm = (unsigned char)field(word, SYSTEM, INTM);
    c->sspd = (unsigned char)field(word, SYSTEM, SSPD);
    c->dplr = (unsigned char)field(word, SYSTEM, DPLR);
    c->keyb = (unsigned char)field(word, SYSTEM, KEYB);
    c->disp = (unsigned char)field(word, SYSTEM, DISP);
    if (!c->keyb) {
        c->interrupt = 0;
        c->last = NONE;
        c->left = 0;
    }
}

static void set_display(struct chip *c, unsigned word)
{
    c->mode = (unsigned char)field(word, DISPLAY, MODE);
    c->limit = (unsigned char)field(word, DISPLAY, LIMIT);
}

static void read_key(struct chip *c)
{
    if (c->keyb) {
        c->interrupt = 0;
        c->readout = c->code;
        c->left = 7;
    }
}

/* The register is obeyed, whatever it holds; it stays as it is. Any word first wakes the chip and ends a readout. (Always inlined:
 * in a capture with a LOAD rise in two samples the calls would show in the time.) */
static inline __attribute__((always_inline)) void obey(struct chip *c)
{
    unsigned word = c->shift;

    c->asleep = 0;
    c->left = 0;
    switch (kind_of(word)) {
    case BAR_LEVEL: set_bar(c, field(word, BAR_LEVEL, 0)); break;
    case SEGMENT_CLEAR: clear_segment(c, field(word, SEGMENT_CLEAR, 0)); break;
    case SEGMENT_SET: set_segment(c, field(word, SEGMENT_SET, 0)); break;
    case RESET: reset(c); break;
    case SLEEP: c->asleep = 1; break;
    case SHIFT_LEFT: move_left(c, 0); break;
    case SHIFT_RIGHT: move_right(c, 0); break;
    case ROTATE_LEFT: move_left(c, c->digits[7]); break;
    case ROTATE_RIGHT: move_right(c, c->digits[0]); break;
    case CUSTOM: c->custom = (unsigned char)field(word, CUSTOM, 0); break;
    case SYSTEM: set_system(c, word); break;
    case DISPLAY: set_display(c, word); break;
    case BLINK: c->blink = (unsigned char)field(word, BLINK, 0); break;
    case READ_KEY: read_key(c); break;
    case LOAD_DIGIT: c->digits[field(word, LOAD_DIGIT, DIG)] = (unsigned char)field(word, LOAD_DIGIT, DATA); break;
    default: break;                                     /* no operation, and unlisted words */
    }
}
