/* Kiosk settings (request C-16): they are read from lines of text, written as lines, and made into rows that set a panel to them. */

/* ---- a chip's settings and its four words ---- */

enum { SYSTEM_ROW, DISPLAY_ROW, BLINK_ROW, CUSTOM_ROW };

/* Says whether every field is in its range. */
static int words_of(const struct kept *c, unsigned short words[SETTING_ROWS])
{
    const unsigned long commands[SETTING_ROWS][6] = {
        [SYSTEM_ROW] = { SYSTEM, c->intm, c->sspd, c->dplr, c->keyb, c->disp },
        [DISPLAY_ROW] = { DISPLAY, c->mode, c->limit },
        [BLINK_ROW] = { BLINK, c->blink },
        [CUSTOM_ROW] = { CUSTOM, c->custom },
    };
    int row;

    for (row = 0; row < SETTING_ROWS; row++) {
        unsigned long answer[3];

        twin_encode(commands[row], answer);
        if (answer[0] != 0)
            return 0;
        words[row] = (unsigned short)answer[2];
    }
    return 1;
}

/* Refusal 3, then 9, or 0; the words are those of the chips below n, row by row. */
static unsigned long rows_of(const struct settings *s, unsigned short words[SETTING_ROWS * MOST])
{
    unsigned short own[SETTING_ROWS];
    unsigned long k;
    int row;

    if (s->n < 1 || s->n > MOST)
        return 3;
    for (k = 0; k < s->n; k++) {
        if (!words_of(&s->chips[k], own))
            return 9;
        for (row = 0; row < SETTING_ROWS; row++)
            words[(unsigned long)row * s->n + k] = own[row];
    }
    return 0;
}

/* ---- reading: a byte at a time, so that a text may have any length ---- */

enum { NEWEST_VERSION = 1 };

/* The version of a text for n chips: there is one so far. */
static unsigned version_for(unsigned long n)
{
    (void)n;
    return NEWEST_VERSION;
}

enum { FIRST_FRAME = 3, CHIP_FRAME = 6 };               /* bytes */

void settings_start(struct settings_reading *r)
{
    memset(r, 0, sizeof *r);
}

static void settings_refuse(struct settings_reading *r, unsigned long number, unsigned long place)
{
    memset(&r->settings, 0, sizeof r->settings);
    r->number = number;
    r->place = place;
}

static int first_taken(struct settings *s, const unsigned char *frame, unsigned size)
{
    if (size != FIRST_FRAME || frame[0] != 0x20 || frame[2] < 1 || frame[2] > MOST || frame[1] != version_for(frame[2]))
        return 0;
    s->n = frame[2];
    return 1;
}

static int chip_taken(struct settings *s, unsigned long k, const unsigned char *frame, unsigned size)
{
    struct kept *c = &s->chips[k];
    unsigned system, display;

    if (k >= s->n || size != CHIP_FRAME || frame[0] != 0x21 || frame[1] != k)
        return 0;
    system = frame[2];
    display = frame[3];
    if (system & (1 << 7 | 1 << 6 | 1 << 2) || display > 0x0F || frame[5] > 0x7F)
        return 0;
    c->intm = system >> 5 & 1;
    c->sspd = system >> 4 & 1;
    c->dplr = system >> 3 & 1;
    c->keyb = system >> 1 & 1;
    c->disp = system & 1;
    c->mode = display / 8;
    c->limit = display % 8;
    c->blink = frame[4];
    c->custom = frame[5];
    return 1;
}

/* A line has ended: its digits are a frame, and the one that comes now. */
static int line_taken(struct settings_reading *r)
{
    unsigned char frame[CHIP_FRAME];
    unsigned i;

    if (r->size % 2 != 0 || r->size > 2 * CHIP_FRAME)
        return 0;
    for (i = 0; i < r->size; i += 2) {
        int high = digit(r->line[i]), low = digit(r->line[i + 1]);

        if (high < 0 || low < 0)
            return 0;
        frame[i / 2] = (unsigned char)(16 * high + low);
    }
    if (r->lines == 0)
        return first_taken(&r->settings, frame, r->size / 2);
    return chip_taken(&r->settings, r->lines - 1, frame, r->size / 2);
}

/* The first four characters: 20, and two digits above the newest version. */
static void look_at_version(struct settings_reading *r)
{
    int high = digit(r->line[2]), low = digit(r->line[3]);

    if (r->line[0] == '2' && r->line[1] == '0' && high >= 0 && low >= 0 && 16 * high + low > NEWEST_VERSION)
        settings_refuse(r, 14, (unsigned long)(16 * high + low));
}

static void settings_byte(struct settings_reading *r, unsigned char byte)
{
    if (byte == '\n') {
        if (line_taken(r)) {
            r->lines++;
            r->size = 0;
        } else {
            settings_refuse(r, 15, r->lines + 1);
        }
        return;
    }
    if (r->size < sizeof r->line)
        r->line[r->size++] = byte;
    if (r->lines == 0 && r->size == 4)
        look_at_version(r);
}

void settings_bytes(struct settings_reading *r, const unsigned char *bytes, unsigned long count)
{
    unsigned long i;

    for (i = 0; i < count && r->number == 0; i++)
        settings_byte(r, bytes[i]);
}

void settings_end(struct settings_reading *r)
{
    if (r->number == 0 && (r->size > 0 || r->lines != 1 + r->settings.n))
        settings_refuse(r, 15, r->lines + 1);
}

void twin_settings_read(const unsigned char *text, unsigned long length, struct settings *s, unsigned long answer[2])
{
    struct settings_reading r;

    settings_start(&r);
    settings_bytes(&r, text, length);
    settings_end(&r);
    *s = r.settings;
    answer[0] = r.number;
    answer[1] = r.place;
}

/* ---- writing ---- */

void twin_settings_write(const struct settings *s, unsigned char *out, unsigned long room, unsigned long answer[3])
{
    unsigned short words[SETTING_ROWS * MOST];
    unsigned long number = rows_of(s, words), k;
    unsigned char *to = out;

    if (number == 0 && room < SETTINGS_LENGTH(s->n))
        number = 8;
    if (number != 0) {
        refuse(answer, 3, number, 0);
        return;
    }
    to = ended(hex(hex(hex(to, 0x20), version_for(s->n)), (unsigned)s->n));
    for (k = 0; k < s->n; k++) {
        const struct kept *c = &s->chips[k];

        to = hex(hex(hex(to, 0x21), (unsigned)k), words[SYSTEM_ROW * s->n + k] & 0xFF);
        to = hex(hex(hex(to, (unsigned)(8 * c->mode + c->limit)), (unsigned)c->blink), (unsigned)c->custom);
        to = ended(to);
    }
    answer[0] = 0;
    answer[1] = 0;
    answer[2] = (unsigned long)(to - out);
}

void twin_settings_rows(const struct settings *s, unsigned short words[SETTING_ROWS * MOST], unsigned long answer[3])
{
    unsigned short rows[SETTING_ROWS * MOST];
    unsigned long number = rows_of(s, rows);

    if (number != 0) {
        refuse(answer, 3, number, 0);
        return;
    }
    answer[0] = 0;
    answer[1] = 0;
    answer[2] = SETTING_ROWS * s->n;
    memcpy(words, rows, answer[2] * sizeof *words);
}

/* The capture text of the rows; a refusal of the writer's, 7, writes nothing. */
static void setup_lines(const struct settings *s, unsigned char *out, unsigned long answer[3])
{
    unsigned short words[SETTING_ROWS * MOST];
    unsigned char samples[SETUP_SAMPLES(MOST)], *to = out;
    unsigned long i;

    twin_settings_rows(s, words, answer);
    if (answer[0] == 0)
        twin_write(s->n, words, answer[2], samples, sizeof samples, answer);
    if (answer[0] != 0)
        return;
    to = ended(hex(hex(hex(to, 0x00), 0x01), (unsigned)s->n));
    for (i = 0; i < answer[2]; i++) {
        if (i % 32 == 0)
            to = hex(to, 0x01);
        to = hex(to, samples[i]);
        if (i % 32 == 31 || i + 1 == answer[2])
            to = ended(to);
    }
    answer[2] = (unsigned long)(to - out);
}

void settings_told(const struct settings_reading *r, int rows, unsigned char out[SETUP_ROOM], unsigned long answer[3])
{
    answer[0] = r->number;
    answer[1] = r->place;
    if (r->number == 0 && rows)
        setup_lines(&r->settings, out, answer);
    else if (r->number == 0)
        twin_settings_write(&r->settings, out, SETUP_ROOM, answer);
    if (answer[0] != 0)
        answer[2] = (unsigned long)(refusal_line(out, answer[0], answer[1]) - out);
}
