/* The request "Recordings of any length": streams, of a text or raw, played as they come. */

void watch_start(struct watch *w, int screen)
{
    memset(w, 0, sizeof *w);
    w->screen = screen;
    reads_start(&w->reads);
}

/* ---- refusals: nothing is taken after one ---- */

/* The line's number goes with 10 alone. */
static unsigned char *refused_line(struct watch *w, unsigned long number, unsigned char *to)
{
    w->refused = 1;
    return refusal_line(to, number, number == 10 ? w->passed + 1 : 0);
}

/* A raw stream, at a byte's offset. */
static unsigned char *refused_byte(struct watch *w, unsigned long offset, unsigned char *to)
{
    w->refused = 1;
    return ended(hex_8(hex(hex(to, 0x1F), 10), offset));
}

/* ---- text ---- */

/* The lines whose ends have come; w->passed counts those that were played. */
static unsigned long watched_text(struct watch *w, const unsigned char *bytes, unsigned long count, unsigned char **to)
{
    const unsigned char *at = bytes, *end = bytes + count;
    unsigned char frame[LONGEST_FRAME];

    while (at < end) {
        int size;

        if (w->passed == MOST_LINES) {
            *to = refused_line(w, 11, *to);
            break;
        }
        if (memchr(at, '\n', (unsigned long)(end - at)) == NULL) {
            if (end - at >= LONGEST_LINE)
                *to = refused_line(w, 10, *to);
            break;
        }
        size = frame_at(&at, end, frame);
        switch (form_of(frame, (unsigned long)size, w->chain.n)) {
        case FIRST: start(&w->chain, frame[2]); break;
        case SAMPLES: *to = played(&w->chain, frame + 1, size - 1, w->screen, *to); break;
        case SCAN: *to = scanned(&w->chain.chips[frame[1]], frame[1], frame + 2, w->screen, *to); break;
        default:
            *to = refused_line(w, 10, *to);
            return (unsigned long)(at - bytes);
        }
        w->passed++;
    }
    return (unsigned long)(at - bytes);
}

/* ---- raw ---- */

enum { HEAD = 3 };                                      /* bytes 00 01 N */

/* The head, once it is whole; a byte of it that can't stand is refused before that. */
static unsigned long watched_head(struct watch *w, const unsigned char *bytes, unsigned long count, unsigned char **to)
{
    if (count > 1 && bytes[1] != 1) {
        *to = refused_byte(w, 1, *to);
        return 0;
    }
    if (count < HEAD)
        return 0;
    if (bytes[2] < 1 || bytes[2] > MOST) {
        *to = refused_byte(w, 2, *to);
        return 0;
    }
    start(&w->chain, bytes[2]);
    return HEAD;
}

/* LOAD rises in a raw stream. (Never inlined, as in `load`: the loop over samples is faster without it.) */
static __attribute__((noinline)) unsigned char *raw_loaded(struct chain *chain, int screen, unsigned char *to)
{
    return loaded(chain, screen, to);
}

/* A sample with DOUT, or one without it after such a one: what DOUT told comes before what the sample does. */
static inline __attribute__((always_inline)) unsigned char *played_with_dout(struct watch *w, unsigned n, unsigned byte,
                                                                             unsigned long offset, unsigned char levels,
                                                                             unsigned char *to)
{
    struct chain *chain = &w->chain;
    const struct chip *last = &chain->chips[n - 1];
    unsigned char sample = byte & 7;

    if (w->reads.begun && (levels ^ sample) & (DCLK | LOAD))
        to = looked(&w->reads, last, n - 1, levels, sample, to);
    if (clocked(chain->chips, n, levels, sample)) {
        to = raw_loaded(chain, w->screen, to);
        after_load(&w->reads, last);
    }
    after_sample(&w->reads, byte, offset);
    return to;
}

/* Samples, and scans that have come whole; w->passed counts the bytes. */
static unsigned long watched_raw(struct watch *w, const unsigned char *bytes, unsigned long count, unsigned char **to)
{
    struct chain *chain = &w->chain;
    unsigned n;
    unsigned char levels;
    unsigned long i = 0;

    if (chain->n == 0)
        i = watched_head(w, bytes, count, to);
    n = chain->n;
    if (n == 0)
        return 0;
    levels = chain->levels;
    while (i < count) {
        unsigned byte = bytes[i];

        if (byte <= 7 && !w->reads.begun) {             /* a run before any DOUT: in a loop of its own, which is faster */
            do {
                if (clocked(chain->chips, n, levels, byte))
                    *to = raw_loaded(chain, w->screen, *to);
                levels = (unsigned char)byte;
                i++;
            } while (i < count && (byte = bytes[i]) <= 7);
        } else if (byte <= 7 || byte >> 4 == 1) {       /* bit 3 of 10H to 1FH is the recorded DOUT */
            *to = played_with_dout(w, n, byte, w->passed + i, levels, *to);
            levels = byte & 7;
            i++;
        } else if (byte >= 0x80 && byte < 0x80 + n) {
            if (count - i < 9)
                break;
            *to = scanned(&chain->chips[byte - 0x80], byte - 0x80, bytes + i + 1, w->screen, *to);
            i += 9;
        } else {
            *to = refused_byte(w, w->passed + i, *to);
            break;
        }
    }
    chain->levels = levels;
    w->passed += i;
    return i;
}

/* ---- both ---- */

unsigned long watch_block(struct watch *w, const unsigned char *bytes, unsigned long count, unsigned char out[WATCH_ROOM],
                          unsigned long *size)
{
    unsigned char *to = out;
    unsigned long taken = 0;

    if (!w->begun && count > 0) {
        w->begun = 1;
        w->raw = bytes[0] == 0;
    }
    if (!w->refused && count > 0)
        taken = w->raw ? watched_raw(w, bytes, count, &to) : watched_text(w, bytes, count, &to);
    *size = (unsigned long)(to - out);
    return taken;
}

unsigned long watch_end(struct watch *w, unsigned long left, unsigned char out[WATCH_ROOM])
{
    unsigned char *to = out;

    if (w->refused)
        return 0;
    if (w->raw) {
        if (left > 0)                                   /* inside the head or a scan */
            to = refused_byte(w, w->passed + left, to);
    } else if (left > 0 || w->passed == 0) {
        to = refused_line(w, 10, to);
    }
    return (unsigned long)(to - out);
}
