/* "Segments lit" of a chip. */

/* The characters 00H to 1FH; 1EH is the custom one. */
static const unsigned char characters[32] = {
    0x3F, 0x06, 0x5B, 0x4F, 0x66, 0x6D, 0x7D, 0x07, 0x7F, 0x6F, 0x77, 0x7C, 0x58, 0x5E, 0x79, 0x71,
    0x00, 0x46, 0x40, 0x41, 0x39, 0x0F, 0x08, 0x76, 0x38, 0x73, 0x00, 0x00, 0x00, 0x00, 0x00, 0x00
};

/* In MODE 1 bits 4 to 0 give segments G to A, and bit 7 alone gives the point. */
static unsigned character(const struct chip *c, unsigned data)
{
    unsigned number = data & 0x1F;

    return (data & 0x80) | (number == 0x1E ? c->custom : characters[number]);
}

static void lit(const struct chip *c, unsigned char segments[8])
{
    int limit = c->limit == 0 ? 8 : c->limit, d;

    for (d = 0; d < 8; d++) {
        if (!c->disp || c->asleep || d >= limit)
            segments[d] = 0;
        else
            segments[d] = (unsigned char)(c->mode ? character(c, c->digits[d]) : c->digits[d]);
    }
}
