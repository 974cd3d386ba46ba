/* Kiosk settings beside the twin's: every damage of one byte of a stored text, random texts, random settings with buffers of each length
 * around the exact one. */
#include "settings.h"
#include "libc.h"

enum { SIZE = NUMBERS * sizeof(unsigned long), MOST_BYTES = 4 * ZHAQSUMIR_SETTINGS_TEXT, MOST_ROOM = 2048 };
_Static_assert(sizeof(struct settings) == SIZE, "the twin's settings are these numbers");

/* What each number of a chip is at most. */
static const unsigned long most[OF_CHIP] = { 1, 1, 1, 1, 1, 1, 7, 255, 127 };

static struct stretch answers, buffers;
static struct fence texts, lists;
static struct seen reads = { .name = "settings_read" }, writes = { .name = "settings_write" }, rows = { .name = "settings_rows" };
unsigned long asked[NUMBERS];

static void shown(unsigned long before, const unsigned char *text, unsigned long length)
{
    unsigned long i;

    if (faults == before || faults > SHOWN)
        return;
    printf("    N %lu, chip 0:", asked[CHIPS]);
    for (i = 0; i < OF_CHIP; i++)
        printf(" %lu", OF(asked, 0, i));
    printf("; a text of %lu bytes:", length);
    for (i = 0; i < length; i++)
        printf(" %02X", text[i]);
    printf("\n");
    show(&answers);
}

/* ---- one call beside the twin's; each gives the twin's answer ---- */

/* Writes the settings `asked`. */
static const unsigned long *write_one(unsigned long room)
{
    const unsigned long *lent = put_up(&lists, asked, SIZE), *want = to_twin(&answers);
    struct settings plain;
    unsigned long before = faults;

    memcpy(&plain, asked, SIZE);
    lend(&answers, ZHAQSUMIR_SETTINGS_WRITE_ANSWER * sizeof(unsigned long));
    lend_anywhere(&buffers, room);
    zhaqsumir_settings_write(lent, to_library(&buffers), room, to_library(&answers));
    twin_settings_write(&plain, to_twin(&buffers), room, to_twin(&answers));
    if (!same(&answers, answers.size))
        fault(writes.name, writes.compared, "another answer");
    if (!same(&buffers, want[2]))
        fault(writes.name, writes.compared, "another text, or a byte past it");
    if (memcmp(lent, asked, SIZE) != 0)
        fault(writes.name, writes.compared, "the settings were written");
    shown(before, to_twin(&buffers), want[2]);
    count_answer(&writes, want[0], want[1]);
    return want;
}

const unsigned long *rows_one(unsigned short words[ZHAQSUMIR_SETTINGS_WORDS])
{
    const unsigned long *lent = put_up(&lists, asked, SIZE), *want = to_twin(&answers);
    struct settings plain;
    unsigned long before = faults;

    memcpy(&plain, asked, SIZE);
    lend(&answers, ZHAQSUMIR_SETTINGS_WRITE_ANSWER * sizeof(unsigned long));
    lend(&buffers, ZHAQSUMIR_SETTINGS_WORDS * sizeof(unsigned short));
    zhaqsumir_settings_rows(lent, to_library(&buffers), to_library(&answers));
    twin_settings_rows(&plain, to_twin(&buffers), to_twin(&answers));
    if (!same(&answers, answers.size))
        fault(rows.name, rows.compared, "another answer");
    if (!same(&buffers, want[2] * sizeof(unsigned short)))
        fault(rows.name, rows.compared, "other words, or a word past them");
    if (memcmp(lent, asked, SIZE) != 0)
        fault(rows.name, rows.compared, "the settings were written");
    shown(before, NULL, 0);
    count_answer(&rows, want[0], want[1]);
    memcpy(words, to_library(&buffers), buffers.size);
    return want;
}

/* Reads a text; where it is taken, `asked` is what was read, and it is written again to the same bytes. */
static const unsigned long *read_one(const unsigned char *text, unsigned long length)
{
    static unsigned long want[ZHAQSUMIR_SETTINGS_READ_ANSWER];
    const unsigned char *lent = put_up(&texts, text, length);
    struct settings plain;
    unsigned long before = faults;

    lend(&answers, sizeof want);
    zhaqsumir_settings_read(lent, length, to_library(&answers));
    twin_settings_read(text, length, &plain, want);
    memcpy(want + ZHAQSUMIR_SETTINGS_READ, &plain, SIZE);
    memcpy(to_twin(&answers), want, sizeof want);
    memcpy(asked, (unsigned long *)to_library(&answers) + ZHAQSUMIR_SETTINGS_READ, SIZE);
    if (!same(&answers, answers.size))
        fault(reads.name, reads.compared, "another answer");
    if (memcmp(lent, text, length) != 0)
        fault(reads.name, reads.compared, "the text was written");
    shown(before, text, length);
    count_answer(&reads, want[0], want[1]);
    if (want[0] == 0 && (write_one(length)[2] != length || memcmp(to_library(&buffers), text, length) != 0))
        fault(reads.name, reads.compared - 1, "a text that was read isn't the one that is written");
    return want;
}

/* ---- every damage of one byte of a stored text ---- */

static void read_damages(void)
{
    unsigned char good[ZHAQSUMIR_SETTINGS_TEXT + 1], text[sizeof good + 1];
    FILE *file = fopen("captures/settings/three_chips.txt", "rb");
    unsigned long length, at, byte, damages = 0, taken = 0;

    must(file != NULL, "no captures/settings/three_chips.txt");
    length = fread(good, 1, sizeof good, file);
    fclose(file);
    must(length == 7 + 13 * 3 && read_one(good, length)[0] == 0, "captures/settings/three_chips.txt is no text of three chips");
    for (at = 0; at < length; at++) {
        memcpy(text, good, length);
        for (byte = 0; byte < 256; byte++) {            /* another byte in its place */
            if (byte == good[at])
                continue;
            text[at] = (unsigned char)byte;
            taken += read_one(text, length)[0] == 0;
            damages++;
        }
        memcpy(text, good, at);                         /* left out */
        memcpy(text + at, good + at + 1, length - at - 1);
        taken += read_one(text, length - 1)[0] == 0;
        memcpy(text, good, at + 1);                     /* doubled */
        memcpy(text + at + 1, good + at, length - at);
        taken += read_one(text, length + 1)[0] == 0;
        damages += 2;
    }
    printf("settings: %lu damages of a stored text, %lu of them another setting's text\n", damages, taken);
    must(damages == 46 * 257, "not every damage");
    if (taken == 0 || taken == damages)
        fault(reads.name, 0, "all damages or none were refused");
}

/* ---- random settings ---- */

void good_settings(unsigned long n, int early)
{
    unsigned long k, i;

    for (i = 0; i < NUMBERS; i++)
        asked[i] = once_in(2) ? any() : near_a_limit(); /* those of chips from n on are not looked at */
    asked[CHIPS] = n;
    for (k = 0; k < n; k++) {
        for (i = 0; i < OF_CHIP; i++)
            OF(asked, k, i) = once_in(4) ? most[i] : below(most[i] + 1);
        if (!early && k + 1 < n)
            OF(asked, k, KEYB) = 0;
    }
}

static void random_settings(void)
{
    unsigned long n = 1 + below(ZHAQSUMIR_MOST_CHIPS), i;

    good_settings(n, 1);
    if (once_in(3)) {
        i = below(OF_CHIP);
        OF(asked, place_in(n), i) = once_in(2) ? most[i] + 1 : near_a_limit();
    }
    if (once_in(8))
        asked[CHIPS] = once_in(4) ? near_a_limit() : below(21);
}

/* Each number of each chip at its limit, one past it, and far past it. */
static void settings_in_order(void)
{
    static const unsigned long past[] = { 1, 1ul << 8, 1ul << 32, 1ul << 63 };
    unsigned short words[ZHAQSUMIR_SETTINGS_WORDS];
    unsigned long n, k, i, p;

    for (n = 1; n <= ZHAQSUMIR_MOST_CHIPS; n++) {
        for (k = 0; k < ZHAQSUMIR_MOST_CHIPS; k++) {
            for (i = 0; i < OF_CHIP; i++) {
                for (p = 0; p < 4; p++) {
                    good_settings(n, 1);
                    OF(asked, k, i) = most[i] + past[p];
                    if ((write_one(ZHAQSUMIR_SETTINGS_TEXT)[0] == 9) != (k < n) || (rows_one(words)[0] == 9) != (k < n))
                        fault(writes.name, k, "9 isn't for a number of a chip below N that is out of range");
                }
            }
        }
    }
}

/* N from 0 to 20, and buffers of each length around the exact one. */
static void rooms_in_order(void)
{
    unsigned long n, room;

    for (n = 0; n <= 20; n++) {
        for (room = 0; room <= 7 + 13 * n + 20; room++) {
            good_settings(n <= ZHAQSUMIR_MOST_CHIPS ? n : 0, 1);
            asked[CHIPS] = n;
            write_one(room);
        }
    }
}

/* A text of settings that can be written, two in three times damaged in a place or two. */
static void random_settings_text(void)
{
    unsigned char text[MOST_BYTES];
    unsigned long n = 1 + below(ZHAQSUMIR_MOST_CHIPS), length, at, i;

    good_settings(n, 1);
    length = write_one(ZHAQSUMIR_SETTINGS_TEXT)[2];
    memcpy(text, to_twin(&buffers), length);
    for (i = below(3); i > 0; i--) {
        at = place_in(length);
        switch (below(6)) {
        case 0:
            text[at] = (unsigned char)any();
            break;
        case 1:
            text[at] = "0123456789ABCDEFabcdef\n"[below(23)];
            break;
        case 2:                                         /* another version */
            text[2] = "0123456789ABCDEFa"[below(17)];
            text[3] = "0123456789ABCDEFa"[below(17)];
            break;
        case 3:                                         /* cut */
            length = at + 1;
            break;
        case 4:                                         /* a line twice */
            if (length + 13 <= sizeof text && length >= 13) {
                memcpy(text + length, text + length - 13, 13);
                length += 13;
            }
            break;
        default:                                        /* more at its end */
            text[length] = (unsigned char)(once_in(2) ? '\n' : any());
            length++;
        }
    }
    read_one(text, length);
}

/* ---- all ---- */

void compare_settings(unsigned long count)
{
    static const unsigned char of_reads[] = { 14, 15, 0 }, of_writes[] = { 3, 9, 8, 0 }, of_rows[] = { 3, 9, 0 };
    unsigned short words[ZHAQSUMIR_SETTINGS_WORDS];
    unsigned long i, n;

    answers = stretched(ZHAQSUMIR_SETTINGS_READ_ANSWER * sizeof(unsigned long));
    buffers = stretched(MOST_ROOM);
    texts = fenced(MOST_BYTES);
    lists = fenced(SIZE);
    read_damages();
    settings_in_order();
    rooms_in_order();
    for (i = 0; i < count; i++) {
        random_settings();
        n = asked[CHIPS] > 20 ? 20 : asked[CHIPS];
        write_one(room_for(7 + 13 * n, MOST_ROOM));
        rows_one(words);
        random_settings_text();
        if (i % 10 == 0)
            set_a_panel();
    }
    report(&reads, of_reads, 0);
    report(&writes, of_writes, 0);
    report(&rows, of_rows, 0);
    report_panels();
}
