/* Recordings of a chain's three wires: rows as the writer has them, of any words, and everything else that a probe may see; and the
 * contacts of a keypad. */
#include "blocks.h"
#include "libc.h"

unsigned char recording[MOST_RECORDING];
unsigned long recorded;

static void add_sample(unsigned long sample)
{
    if (recorded < MOST_RECORDING)
        recording[recorded++] = (unsigned char)sample;
}

static void add_bits(unsigned long bits, unsigned long count)
{
    for (; count > 0; count--, bits >>= 1) {
        add_sample(4 + (bits & 1));
        add_sample(6 + (bits & 1));
    }
}

static void add_load(void)
{
    add_sample(3);
    add_sample(7);
}

void add_row(unsigned long n, const unsigned short *words)
{
    while (n-- > 0)
        add_bits(words[n], 12);
    add_load();
}

/* Words that set a chip up, show, read and reset, more often than others. */
static unsigned short any_word(void)
{
    switch (below(10)) {
    case 0:
        return (unsigned short)below(4096);
    case 1:
        return (unsigned short)(0x400 + below(64));     /* system, and unlisted ones beside */
    case 2:
    case 3:
        return (unsigned short)(0x403 + (below(64) & 0x38)); /* KEYB and DISP on */
    case 4:
        return (unsigned short)(0x500 + 16 * below(16));
    case 5:
        return (unsigned short)(once_in(3) ? 0x201 + below(2) : 0x300 + below(256));
    case 6:
        return (unsigned short)(0x700 + below(256));    /* read key */
    case 7:
        return (unsigned short)(0x100 + below(256));
    default:
        return (unsigned short)(0x800 + below(2048));
    }
}

/* A row, at times with bits more or fewer; clocks after it, which a readout takes; LOAD rises close to each other; or anything. In some a
 * few samples are others, or stand twice. */
static void add_piece(unsigned long n)
{
    unsigned short words[MOST];
    unsigned long from = recorded, i;

    switch (below(8)) {
    case 0:
        for (i = below(40); i > 0; i--)
            add_sample(below(8));
        break;
    case 1:
        for (i = 1 + below(12); i > 0; i--) {
            add_sample(below(4));
            add_sample(4 + below(4));
        }
        break;
    case 2:
        add_bits(any(), below(30));
        if (once_in(2))
            add_load();
        break;
    default:
        for (i = 0; i < n; i++)
            words[i] = any_word();
        add_row(n, words);
        if (once_in(3))
            add_bits(any(), below(10));
    }
    while (once_in(6) && recorded > from)
        recording[from + below(recorded - from)] = (unsigned char)below(8);
    if (once_in(8) && recorded > from && recorded < MOST_RECORDING) {
        i = from + below(recorded - from);
        memmove(recording + i + 1, recording + i, recorded - i);
        recorded++;
    }
}

void new_recording(unsigned long n, unsigned long pieces)
{
    recorded = 0;
    while (pieces-- > 0)
        add_piece(n);
}

void random_contacts(unsigned char contacts[8])
{
    static unsigned char before[8];
    unsigned long keys;

    if (!once_in(2)) {
        memset(before, 0, sizeof before);
        if (once_in(20)) {
            memset(before, 255, sizeof before);
        } else {
            for (keys = below(3); keys > 0; keys--)
                before[below(8)] |= (unsigned char)(1 << below(8));
        }
    }
    memcpy(contacts, before, sizeof before);
}

unsigned long rises_of(unsigned long levels, const unsigned char *samples, unsigned long count)
{
    unsigned long rises = 0, high = levels & ZHAQSUMIR_LOAD, i;

    for (i = 0; i < count; i++) {
        if (high == 0 && (samples[i] & ZHAQSUMIR_LOAD) != 0)
            rises++;
        high = samples[i] & ZHAQSUMIR_LOAD;
    }
    return rises;
}
