/* "Key scans" of a chip. */

/* The smallest closed address, or NONE; byte d, bit s is the contact of DIG d and SEG s. */
static unsigned char result_of(const unsigned char contacts[8])
{
    int address;

    for (address = 0; address < 64; address++) {
        if (contacts[address % 8] >> address / 8 & 1)
            return (unsigned char)address;
    }
    return NONE;
}

/* Whether a contact on SEG0 to SEG3 is closed. */
static int wakes(const unsigned char contacts[8])
{
    int d;

    for (d = 0; d < 8; d++) {
        if (contacts[d] & 0x0F)
            return 1;
    }
    return 0;
}

/* What a scan did: it recorded nothing, a code, or a code over an unread one, or it noted a release. */
enum recorded { NOTHING, CODE, OVER_UNREAD, RELEASED };

/* Takes a scan; says what it did. */
static enum recorded scan(struct chip *c, const unsigned char contacts[8])
{
    unsigned char result = result_of(contacts);
    enum recorded what = NOTHING;

    if (c->asleep) {
        if (wakes(contacts)) {
            c->asleep = 0;
            c->last = NONE;
        }
        return NOTHING;
    }
    if (!c->keyb)
        return NOTHING;
    if (result == c->last) {
        if (result == NONE) {
            if (c->code & 0x40)
                what = RELEASED;
            c->code &= 0x3F;
        } else if (c->code != 0x40 + result) {
            what = c->interrupt ? OVER_UNREAD : CODE;
            c->code = 0x40 + result;
            c->interrupt = 1;
        }
    }
    c->last = result;
    return what;
}
