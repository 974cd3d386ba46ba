/* "The words": the table, and the ways from words to commands and back by it. */

/* The kinds in document 01's order, and the fields of those that have several. */
enum {
    NO_OPERATION, BAR_LEVEL, SEGMENT_CLEAR, SEGMENT_SET, RESET, SLEEP, SHIFT_LEFT, SHIFT_RIGHT, ROTATE_LEFT, ROTATE_RIGHT,
    CUSTOM, SYSTEM, DISPLAY, BLINK, READ_KEY, LOAD_DIGIT,
    KINDS, UNLISTED = KINDS
};
enum { INTM, SSPD, DPLR, KEYB, DISP };                  /* of SYSTEM */
enum { MODE, LIMIT };                                   /* of DISPLAY */
enum { DIG, DATA };                                     /* of LOAD_DIGIT */

/* For each kind the word with 0 for its fields and for x, and for each field the place of its lowest bit, its bits and its most. */
static const struct {
    unsigned short word;
    unsigned short fields;
    struct {
        unsigned char place, bits;
        unsigned short most;
    } field[5];
} table[KINDS] = {
    [NO_OPERATION] = { .word = 0x000 },                                                     /* 0000 xxxxxxxx */
    [BAR_LEVEL] = { .word = 0x100, .fields = 1, .field = { { 0, 7, 127 } } },               /* 00010 LEVEL(7) */
    [SEGMENT_CLEAR] = { .word = 0x180, .fields = 1, .field = { { 0, 6, 63 } } },            /* 000110 ADDR(6) */
    [SEGMENT_SET] = { .word = 0x1C0, .fields = 1, .field = { { 0, 6, 63 } } },              /* 000111 ADDR(6) */
    [RESET] = { .word = 0x201 },                                                            /* 001000000001 */
    [SLEEP] = { .word = 0x202 },                                                            /* 001000000010 */
    [SHIFT_LEFT] = { .word = 0x300 },                                                       /* 001100000000 */
    [SHIFT_RIGHT] = { .word = 0x302 },                                                      /* 001100000010 */
    [ROTATE_LEFT] = { .word = 0x301 },                                                      /* 001100000001 */
    [ROTATE_RIGHT] = { .word = 0x303 },                                                     /* 001100000011 */
    [CUSTOM] = { .word = 0x380, .fields = 1, .field = { { 0, 7, 127 } } },                  /* 00111 CUSTOM(7) */
    [SYSTEM] = { .word = 0x400, .fields = 5,                                                /* 010000 INTM SSPD DPLR 0 KEYB DISP */
                 .field = { { 5, 1, 1 }, { 4, 1, 1 }, { 3, 1, 1 }, { 1, 1, 1 }, { 0, 1, 1 } } },
    [DISPLAY] = { .word = 0x500, .fields = 2, .field = { { 7, 1, 1 }, { 4, 3, 7 } } },      /* 0101 MODE LIMIT(3) 0000 */
    [BLINK] = { .word = 0x600, .fields = 1, .field = { { 0, 8, 255 } } },                   /* 0110 D7..D0 */
    [READ_KEY] = { .word = 0x700 },                                                         /* 0111 xxxxxxxx */
    [LOAD_DIGIT] = { .word = 0x800, .fields = 2, .field = { { 8, 3, 7 }, { 0, 8, 255 } } }, /* 1 DIG(3) DATA(8) */
};

/* A field of a word of that kind. */
static unsigned field(unsigned word, int kind, int i)
{
    return word >> table[kind].field[i].place & ((1u << table[kind].field[i].bits) - 1);
}

/* The kind of a word, or UNLISTED. */
static int kind_of(unsigned word)
{
    if (word > 0xFFF)
        return UNLISTED;
    if (word & 0x800)
        return LOAD_DIGIT;
    switch (word >> 8) {
    case 0:
        return NO_OPERATION;
    case 1:
        if (word & 0x80)
            return word & 0x40 ? SEGMENT_SET : SEGMENT_CLEAR;
        return BAR_LEVEL;
    case 2:
        return word == 0x201 ? RESET : word == 0x202 ? SLEEP : UNLISTED;
    case 3:
        if (word & 0x80)
            return CUSTOM;
        switch (word & 0x7F) {
        case 0: return SHIFT_LEFT;
        case 1: return ROTATE_LEFT;
        case 2: return SHIFT_RIGHT;
        case 3: return ROTATE_RIGHT;
        default: return UNLISTED;
        }
    case 4:
        return (word & 0xC4) == 0 ? SYSTEM : UNLISTED;
    case 5:
        return (word & 0x0F) == 0 ? DISPLAY : UNLISTED;
    case 6:
        return BLINK;
    default:
        return READ_KEY;
    }
}

void twin_decode(unsigned short word, unsigned long answer[8])
{
    int kind, i;

    for (i = 0; i < 8; i++)
        answer[i] = 0;
    kind = kind_of(word);
    if (kind == UNLISTED) {
        answer[0] = 6;
        return;
    }
    answer[2] = (unsigned long)kind;
    switch (kind) {
    case BAR_LEVEL: answer[3] = field(word, BAR_LEVEL, 0); break;
    case SEGMENT_CLEAR: answer[3] = field(word, SEGMENT_CLEAR, 0); break;
    case SEGMENT_SET: answer[3] = field(word, SEGMENT_SET, 0); break;
    case CUSTOM: answer[3] = field(word, CUSTOM, 0); break;
    case SYSTEM:
        answer[3] = field(word, SYSTEM, INTM);
        answer[4] = field(word, SYSTEM, SSPD);
        answer[5] = field(word, SYSTEM, DPLR);
        answer[6] = field(word, SYSTEM, KEYB);
        answer[7] = field(word, SYSTEM, DISP);
        break;
    case DISPLAY:
        answer[3] = field(word, DISPLAY, MODE);
        answer[4] = field(word, DISPLAY, LIMIT);
        break;
    case BLINK: answer[3] = field(word, BLINK, 0); break;
    case LOAD_DIGIT:
        answer[3] = field(word, LOAD_DIGIT, DIG);
        answer[4] = field(word, LOAD_DIGIT, DATA);
        break;
    default: break;                                     /* the others have none */
    }
}

void twin_encode(const unsigned long command[6], unsigned long answer[3])
{
    unsigned long kind = command[0], word;
    int i;

    answer[0] = 9;
    answer[1] = 0;
    answer[2] = 0;
    if (kind >= KINDS)
        return;
    word = table[kind].word;
    for (i = 0; i < table[kind].fields; i++) {
        if (command[1 + i] > table[kind].field[i].most)
            return;
        word |= command[1 + i] << table[kind].field[i].place;
    }
    answer[0] = 0;
    answer[2] = word;
}
