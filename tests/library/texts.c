/* The replay beside the twin's: stored captures, and random texts of rows, odd samples and key scans, a third of them damaged. */
#include "check.h"
#include "libc.h"
#include "twin.h"
#include "zhaqsumir.h"

static struct stretch answers, outs;
static struct fence fence;
static struct seen replayed = { .name = "replay" };
static unsigned long words_seen, keys_seen, lost_seen;

static void replay_one(const unsigned char *text, unsigned long length)
{
    const unsigned char *lent = put_up(&fence, text, length), *out;
    const unsigned long *want = to_twin(&answers);
    unsigned long before = faults, i;

    lend(&answers, 3 * sizeof(unsigned long));
    lend_anywhere(&outs, ZHAQSUMIR_REPLAY_ROOM);
    zhaqsumir_replay(lent, length, to_library(&outs), to_library(&answers));
    twin_replay(text, length, to_twin(&outs), to_twin(&answers));
    if (!same(&answers, 3 * sizeof(unsigned long)))
        fault("replay", replayed.compared, "another answer");
    if (!same(&outs, want[2]))
        fault("replay", replayed.compared, "another output");
    if (memcmp(lent, text, length) != 0)
        fault("replay", replayed.compared, "the text was written");
    if (faults > before && faults <= SHOWN) {
        printf("    a text of %lu bytes\n", length);
        show(&answers);
    }
    count_answer(&replayed, want[0], want[1]);
    out = to_twin(&outs);
    for (i = 0; i + 1 < want[2]; i++) {
        if (i == 0 || out[i - 1] == '\n') {
            words_seen += out[i + 1] == '0';
            keys_seen += out[i + 1] == '1';
            lost_seen += out[i + 1] == '2';
        }
    }
}

static void at_first_use(void)
{
    if (outs.most == 0) {
        answers = stretched(3 * sizeof(unsigned long));
        outs = stretched(ZHAQSUMIR_REPLAY_ROOM);
        fence = fenced(MOST_TEXT);
    }
}

/* Replays a stored text, compares, and writes what the library made of it to a file. */
void compare_capture(const char *text, const char *got)
{
    static unsigned char bytes[MOST_TEXT];
    const unsigned long *answer;
    unsigned long length;
    FILE *file = fopen(text, "rb");

    at_first_use();
    must(file != NULL, text);
    length = fread(bytes, 1, sizeof bytes, file);
    fclose(file);
    must(length < sizeof bytes, "a text too long for the test");
    replay_one(bytes, length);
    answer = to_library(&answers);
    file = fopen(got, "wb");
    must(file != NULL && answer[2] <= ZHAQSUMIR_REPLAY_ROOM, got);
    must(fwrite(to_library(&outs), 1, answer[2], file) == answer[2] && fclose(file) == 0, got);
}

/* ---- a random text ---- */

static unsigned char text[MOST_TEXT];
static unsigned long length, in_line, n, keypads, key;

static void add_byte(unsigned long byte)
{
    static const char digits[] = "0123456789ABCDEF";

    text[length++] = (unsigned char)digits[byte >> 4 & 15];
    text[length++] = (unsigned char)digits[byte & 15];
}

static void end_line(void)
{
    if (in_line > 0)
        text[length++] = '\n';
    in_line = 0;
}

/* Samples stand in lines of up to 32. */
static void add_sample(unsigned long sample)
{
    if (in_line == 32 || (in_line > 0 && once_in(100)))
        end_line();
    if (in_line++ == 0)
        add_byte(0x01);
    add_byte(sample);
}

static void add_scan(unsigned long chip, unsigned long address, int closed)
{
    unsigned long d, other = once_in(10) ? below(64) : address;

    end_line();
    add_byte(0x02);
    add_byte(chip);
    for (d = 0; d < 8; d++)
        add_byte(!closed ? 0 : (address % 8 == d ? 1ul << address / 8 : 0) | (other % 8 == d ? 1ul << other / 8 : 0));
    text[length++] = '\n';
}

static unsigned long a_word(unsigned long chip)
{
    switch (below(10)) {
    case 0:
    case 1:
        return 0x401 + 2 * (keypads >> chip & 1) + (below(64) & 0x38); /* system, KEYB mostly as the capture has it */
    case 2:
        return 0x700 + below(256);
    case 3:
        return once_in(3) ? 0x201 : 0x202;
    case 4:
        return 0x400 + below(256);
    case 5:
        return below(0x400);
    default:
        return below(4096);
    }
}

static void add_clocks(unsigned long count, unsigned long bits)
{
    for (; count > 0; count--, bits >>= 1) {
        add_sample(4 + (bits & 1));
        add_sample(6 + (bits & 1));
    }
}

static void add_row(int set_up)
{
    unsigned long chip = n;

    while (chip-- > 0)
        add_clocks(12, set_up ? 0x401 + 2 * (keypads >> chip & 1) : a_word(chip));
    add_sample(3);
    add_sample(7);
}

static void add_step(void)
{
    unsigned long i, chip = below(n), times = 1 + below(4);

    switch (below(8)) {
    case 0:                                             /* any samples, or one wire at a time */
        for (i = 0; i < 10 * times; i++)
            add_sample(below(8));
        break;
    case 1:                                             /* DCLK and LOAD together */
        for (i = 0; i < 5 * times; i++) {
            add_sample(below(2));
            add_sample(6 + below(2));
        }
        break;
    case 2:                                             /* clocks, then LOAD: what the registers took is seen */
        add_clocks(one_of(5, (const unsigned long[]){ 4, 7, 8, 12, 24 }), any());
        add_sample(3);
        add_sample(7);
        break;
    case 3:
    case 4:
        add_row(0);
        break;
    default:                                            /* a press, a bounce, a release */
        if (once_in(8))
            key = below(64);
        for (i = 0; i < times; i++)
            add_scan(chip, key, 1);
        for (i = below(3); i > 0; i--)
            add_scan(chip, key, 0);
    }
}

/* One wrong place: a byte altered, left out or added, a cut, a line that isn't of the form. */
static void damage(void)
{
    static const char *const lines[] = { "\n", "01\n", "0108\n", "010307FF\n", "0107\r\n", "02080000000000000000\n", "02000000\n",
                                         "000101\n", "0a\n", "01071\n", "03\n", "01", "0", "010g\n" };
    unsigned long at = below(length + 1), i;

    switch (below(6)) {
    case 0:
        text[below(length)] = (unsigned char)any();
        break;
    case 1:
        text[below(length)] = (unsigned char)one_of(6, (const unsigned long[]){ '\n', '8', 'a', 'G', '0', 'F' });
        break;
    case 2:
        length = at;
        break;
    case 3:
        text[below(once_in(2) ? 6 : length)] = (unsigned char)(once_in(2) ? '0' : '9');
        break;
    case 4:                                             /* 33 samples */
        for (i = 0; i < 34; i++)
            add_byte(i == 0 ? 1 : 7);
        text[length++] = '\n';
        break;
    default:
        for (at = below(14), i = 0; lines[at][i] != 0; i++)
            text[length++] = (unsigned char)lines[at][i];
    }
}

const unsigned char *random_text(unsigned long *size)
{
    unsigned long most = once_in(50) ? 60000 : 200 + below(3000);

    length = 0;
    in_line = 0;
    n = 1 + below(8);
    keypads = once_in(3) ? any() : 1ul << (n - 1);
    key = below(64);
    add_byte(0);
    add_byte(1);
    add_byte(n);
    text[length++] = '\n';
    if (!once_in(4))
        add_row(1);
    while (length < most)
        add_step();
    end_line();
    if (once_in(3))
        damage();
    if (once_in(20)) {                                  /* about the longest text, or longer */
        unsigned long longer = once_in(4) ? 65537 + below(10000) : 65536 - 2 + below(5);

        while (length + 5 < longer) {
            add_byte(1);
            add_byte(7);
            text[length++] = '\n';
        }
        while (length < longer)
            text[length++] = '\n';
    }
    *size = length;
    return text;
}

void compare_texts(unsigned long count)
{
    static const unsigned char refusals[] = { 10, 11, 0 };
    unsigned long i, size;

    at_first_use();
    for (i = 0; i < count; i++) {
        const unsigned char *a_text = random_text(&size);

        replay_one(a_text, size);
    }
    report(&replayed, refusals, 0);
    printf("    words written: %lu, keys: %lu, over unread ones: %lu\n", words_seen, keys_seen, lost_seen);
    must(words_seen > 0 && keys_seen > 0 && lost_seen > 0, "no words, no keys or no keys over unread ones were ever written");
}
