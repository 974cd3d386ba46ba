/* Streams of a CH450's samples: transfers as they must be, and in every way that they mustn't. */
#include "libc.h"
#include "panels.h"

unsigned char stream[MOST_BLOCK];
unsigned long length, at;

static void add(unsigned long sample)
{
    if (length < MOST_BLOCK)
        stream[length++] = (unsigned char)sample;
}

static void add_bit(unsigned long bit)
{
    add(2 * bit);
    add(2 * bit + 1);
}

/* Start, so many of the 18 bits and others after them, stop. */
void add_transfer(unsigned long byte1, unsigned long byte2, unsigned long acknowledges, unsigned long bits)
{
    unsigned long all = byte1 << 10 | (acknowledges & 2) << 8 | byte2 << 1 | (acknowledges & 1), i;

    add(1);
    for (i = 0; i < bits; i++)
        add_bit(i < 18 ? all >> (17 - i) & 1 : below(2));
    add(0);
    add(1);
    add(3);
}

void add_command(unsigned long byte1, unsigned long byte2)
{
    add_transfer(byte1, byte2, 3, 18);
}

static unsigned long any_byte1(void)
{
    static const unsigned long others[] = { 0x00, 0x47, 0x49, 0x4E, 0x50, 0x62, 0x63, 0x65, 0x6F, 0x70, 0xC8, 0xCF };

    switch (below(8)) {
    case 0:
        return one_of(12, others);
    case 1:
        return below(256);
    case 2:
    case 3:
        return 0x48;
    case 4:
        return 0x4F;
    default:
        return 0x64 + 2 * below(6);
    }
}

/* A transfer as it must be or with another number of rises, one that a start or a stop breaks, or no transfer at all; in some a few
 * samples are others, or stand twice. */
static void add_piece(void)
{
    unsigned long from = length, i;

    switch (below(8)) {
    case 0:                                             /* up to so many rises that a counter may be back at 19 */
        add_transfer(any_byte1(), below(256), below(4), once_in(4) ? below(300) : 16 + below(5));
        break;
    case 1:                                             /* without its stop, so that a start comes while it runs */
        add_transfer(any_byte1(), below(256), 3, once_in(2) ? 18 : below(20));
        length -= length < MOST_BLOCK ? 1 + below(3) : 0;
        break;
    case 2:
        for (i = below(60); i > 0; i--)
            add(below(4));
        break;
    default:
        add_transfer(any_byte1(), below(256), once_in(3) ? below(4) : 3, 18);
    }
    while (once_in(5) && length > from)
        stream[from + below(length - from)] = (unsigned char)below(4);
    if (once_in(10)) {
        i = from + below(length - from + 1);
        if (i < length && length < MOST_BLOCK) {
            memmove(stream + i + 1, stream + i, length - i);
            length++;
        }
    }
}

static void new_stream(void)
{
    unsigned long pieces = 1 + below(8);

    at = length = 0;
    while (pieces-- > 0)
        add_piece();
}

/* The next samples of the stream, cut anywhere, at times with some above 3. */
unsigned long block(unsigned char samples[MOST_BLOCK])
{
    static const unsigned long wrong[] = { 4, 4, 5, 7, 8, 128, 255 };
    unsigned long left, count;

    if (at == length)
        new_stream();
    left = length - at;
    count = once_in(3) ? left : below((left < 90 ? left : 90) + 1);
    memcpy(samples, stream + at, count);
    at += count;
    while (count > 0 && once_in(8))
        samples[place_in(count)] = (unsigned char)one_of(7, wrong);
    return count;
}
