/* "CH450 panels in the old kiosks" (request C-15, source document 003): one CH450 on two wires, and its writer. */

enum { SCL = 1, SDA = 2, BOTH_HIGH = 3 };               /* of a sample; both are high while the lines are idle */
enum { SET_PARAMETERS = 0x48, READ_CODE = 0x4F, FIRST_DIGIT = 0x64, LAST_DIGIT = 0x6E };    /* byte 1 */
enum { TRANSFER = 19 };                                 /* two bytes with an acknowledge each, and the rise for the stop */

/* The lowest place of a sample above 3, or count where there is none. */
static unsigned long bad_level(const unsigned char *samples, unsigned long count)
{
    unsigned long i = 0;

    while (i < count && samples[i] <= BOTH_HIGH)
        i++;
    return i;
}

static int is_digit(unsigned byte1)
{
    return byte1 >= FIRST_DIGIT && byte1 <= LAST_DIGIT && byte1 % 2 == 0;
}

/* SLEEP, INTENS (two bits), three bits that are ignored, KEYB, DISP. */
static void set_parameters(struct ch450 *c, unsigned byte2)
{
    c->sleep = byte2 >> 7 & 1;
    c->intens = byte2 >> 5 & 3;
    c->keyb = byte2 >> 1 & 1;
    c->disp = byte2 & 1;
}

/* An unknown byte 1 has no effect; any other first clears SLEEP. */
static enum obeyed obey_bytes(struct ch450 *c, unsigned byte1, unsigned byte2)
{
    if (byte1 != SET_PARAMETERS && byte1 != READ_CODE && !is_digit(byte1))
        return NO_COMMAND;
    c->sleep = 0;
    if (byte1 == SET_PARAMETERS)
        set_parameters(c, byte2);
    if (is_digit(byte1))
        c->digits[(byte1 - FIRST_DIGIT) / 2] = (unsigned char)byte2;
    return byte1 == READ_CODE ? READ_COMMAND : COMMAND;
}

/* SDA falls while SCL stays high: what came before is dropped. */
static void transfer_starts(struct ch450 *c)
{
    c->running = 1;
    c->rises = 0;
    c->byte1 = 0;
    c->byte2 = 0;
}

/* SDA rises while SCL stays high. */
static enum obeyed transfer_stops(struct ch450 *c)
{
    int whole = c->running && c->rises == TRANSFER;

    c->running = 0;
    return whole ? obey_bytes(c, c->byte1, c->byte2) : NO_COMMAND;
}

/* SCL rises: the first eight bits are byte 1, and those after an acknowledge byte 2. */
static void take_bit(struct ch450 *c, unsigned bit)
{
    if (!c->running)
        return;
    if (c->rises < 8)
        c->byte1 = (unsigned char)(c->byte1 << 1 | bit);
    else if (c->rises > 8 && c->rises < 17)
        c->byte2 = (unsigned char)(c->byte2 << 1 | bit);
    if (c->rises <= TRANSFER)
        c->rises++;
}

/* One sample, 0 to 3; where a command is obeyed, byte1 and byte2 hold it. */
static enum obeyed ch450_sample(struct ch450 *c, unsigned sample)
{
    unsigned before = c->levels;

    c->levels = (unsigned char)sample;
    if (before & sample & SCL) {
        if (before & ~sample & SDA)
            transfer_starts(c);
        if (~before & sample & SDA)
            return transfer_stops(c);
    } else if (sample & SCL) {
        take_bit(c, sample >> 1);
    }
    return NO_COMMAND;
}

void ch450_start(struct ch450 *c, const unsigned char digits[SIX])
{
    memset(c, 0, sizeof *c);
    c->levels = BOTH_HIGH;
    memcpy(c->digits, digits, SIX);
}

void ch450_lit(const struct ch450 *c, unsigned char segments[SIX])
{
    int d;

    for (d = 0; d < SIX; d++)
        segments[d] = c->sleep || !c->disp ? 0 : c->digits[d];
}

void twin_ch450_play(struct ch450 *c, unsigned long key, const unsigned char *samples, unsigned long count, unsigned long answer[3])
{
    unsigned long bad = bad_level(samples, count), i;

    if (c->levels > BOTH_HIGH) {
        refuse(answer, 3, 12, 0);
        return;
    }
    if (key > 127) {
        refuse(answer, 3, 9, 0);
        return;
    }
    if (bad < count) {
        refuse(answer, 3, 1, bad);
        return;
    }
    refuse(answer, 3, 0, 0);
    for (i = 0; i < count; i++)
        answer[2] += ch450_sample(c, samples[i]) == READ_COMMAND;
}

/* ---- the writer ---- */

enum { PARAMETERS, DIGIT, READING };                    /* the kinds of command in the sheet's order; it takes the first two */

void twin_ch450_encode(const unsigned long command[5], unsigned long answer[3])
{
    static const unsigned char most[4] = { 1, 3, 1, 1 }, place[4] = { 7, 5, 1, 0 };
    unsigned long word;
    int i;

    refuse(answer, 3, 9, 0);
    if (command[0] == PARAMETERS) {
        word = SET_PARAMETERS << 8;
        for (i = 0; i < 4; i++) {
            if (command[1 + i] > most[i])
                return;
            word |= command[1 + i] << place[i];
        }
    } else if (command[0] == DIGIT && command[1] >= 2 && command[1] <= 7 && command[2] <= 255) {
        word = (FIRST_DIGIT + 2 * (command[1] - 2)) << 8 | command[2];
    } else if (command[0] == READING) {
        word = READ_CODE << 8;
    } else {
        return;
    }
    answer[0] = 0;
    answer[2] = word;
}

/* The clocks of a byte, high bit first, and of its acknowledge. */
static unsigned char *write_byte(unsigned char *out, unsigned byte)
{
    int place;

    for (place = 7; place >= 0; place--) {
        unsigned bit = byte >> place & 1;

        *out++ = (unsigned char)(2 * bit);
        *out++ = (unsigned char)(2 * bit + 1);
    }
    *out++ = 2;
    *out++ = 3;
    return out;
}

void twin_ch450_write(const unsigned short *words, unsigned long count, unsigned char *out, unsigned long room,
                      unsigned long answer[3])
{
    unsigned long i;

    if (count > MOST_COMMANDS) {
        refuse(answer, 3, 5, 0);
        return;
    }
    for (i = 0; i < count; i++) {
        if (words[i] >> 8 != SET_PARAMETERS && !is_digit(words[i] >> 8)) {
            refuse(answer, 3, 9, i);
            return;
        }
    }
    if (room < COMMAND_SAMPLES * count) {
        refuse(answer, 3, 8, 0);
        return;
    }
    for (i = 0; i < count; i++) {
        *out++ = 1;
        out = write_byte(write_byte(out, words[i] >> 8), words[i] & 0xFF);
        *out++ = 0;
        *out++ = 1;
        *out++ = 3;
    }
    refuse(answer, 3, 0, 0);
    answer[2] = COMMAND_SAMPLES * count;
}
