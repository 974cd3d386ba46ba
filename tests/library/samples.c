/* The writer and the finder beside the twin's, on random lists and blocks. */
#include "check.h"
#include "libc.h"
#include "twin.h"
#include "zhaqsumir.h"

enum { MOST_WORDS = 4096, MOST_SAMPLES = 16384, MOST_ROOM = 32768 };

static struct stretch answers, buffers;

/* ---- random words ---- */

/* Any but sleep, which may not stand everywhere. */
static unsigned short listed_word(void)
{
    static const unsigned long plain[] = { 0x000, 0x100, 0x140, 0x141, 0x17F, 0x180, 0x1BF, 0x1C0, 0x1FF, 0x201, 0x300, 0x301, 0x302,
                                           0x303, 0x380, 0x3FF, 0x400, 0x401, 0x500, 0x5F0, 0x600, 0x700, 0x800, 0xA79, 0xFFF };
    switch (below(8)) {
    case 0:
        return (unsigned short)one_of(25, plain);
    case 1:
        return (unsigned short)(0x100 + below(128));
    case 2:
        return (unsigned short)(0x180 + below(128));
    case 3:
        return (unsigned short)(below(2) ? below(256) : 0x600 + below(512));
    case 4:
        return (unsigned short)(0x400 + (below(64) & 0x39)); /* system, KEYB 0 */
    case 5:
        return (unsigned short)(0x500 + 16 * below(16));
    case 6:
        return (unsigned short)(0x380 + below(128));
    default:
        return (unsigned short)(0x800 + below(2048));
    }
}

static unsigned short keypad_word(void)
{
    return (unsigned short)(0x402 + (below(64) & 0x39));
}

static unsigned short unlisted_word(void)
{
    static const unsigned long unlisted[] = { 0x200, 0x203, 0x2FF, 0x304, 0x37F, 0x404, 0x406, 0x440, 0x442, 0x480, 0x4FF,
                                              0x501, 0x508, 0x58F, 0x5FF, 0x1000, 0x1402, 0xF000, 0xFFFF };
    switch (below(4)) {
    case 0:
        return (unsigned short)(4096 * (1 + below(15)) + listed_word()); /* listed but for its high bits */
    case 1:
        return (unsigned short)(0x440 + below(192));
    default:
        return (unsigned short)one_of(19, unlisted);
    }
}

enum { SLEEP_WORD = 0x202 };

/* One that a chip may be sent before sleep, or, once in so many times, one that leaves its display or its keypad on. */
static unsigned short before_sleep(unsigned long lit)
{
    static const unsigned long on[] = { 0x401, 0x402, 0x403 };

    if (once_in(lit))
        return (unsigned short)(one_of(3, on) + (below(64) & 0x38));
    return (unsigned short)(once_in(2) ? 0x201 : 0x400 + (below(64) & 0x38));
}

/* ---- the writer ---- */

static struct seen written = { .name = "write" };
static struct fence lists;
static unsigned long slept, mostly_sleep;               /* lists with sleep words that were accepted, and those of little else */

static unsigned long chips(void)
{
    static const unsigned long wrong[] = { 0, 9, 10, 16, 255, 256 + 1, 65536 + 2, (1ul << 32) + 1, (1ul << 32) + 8, 1ul << 63, ~0ul };

    if (!once_in(10))
        return 1 + below(8);
    return once_in(6) ? 9 + any() % (~0ul - 9) : one_of(11, wrong);
}

static unsigned long rows(void)
{
    switch (below(16)) {
    case 0:
        return 0;
    case 1:
    case 2:
        return 60 + below(7);                           /* about the most, 64 */
    case 3:
        return below(67);
    default:
        return 1 + below(6);
    }
}

/* Puts one chip to sleep, some rows after a word that may stand before it: sleep words, and words that say nothing of the lights. */
static void put_to_sleep(unsigned long width, unsigned long count, unsigned short *words)
{
    unsigned long at = place_in(count), left = 1 + below(once_in(4) ? 64 : 5);

    words[at] = before_sleep(16);
    for (at += width; at < count && left > 0; at += width, left--)
        words[at] = (unsigned short)(once_in(2) ? SLEEP_WORD : once_in(2) ? 0x800 + below(2048) : below(256));
}

/* For every chip a word that may stand before sleep, then sleep words and few others. */
static void sleep_all(unsigned long width, unsigned long count, unsigned short *words)
{
    unsigned long i;

    for (i = 0; i < count; i++)
        words[i] = i < width ? before_sleep(64) : once_in(200) ? before_sleep(8) : once_in(20) ? listed_word() : SLEEP_WORD;
}

static unsigned long list(unsigned long n, unsigned short words[MOST_WORDS])
{
    unsigned long width = n >= 1 && n <= MOST ? n : 1 + below(MOST);
    unsigned long count = rows() * width, wrong = once_in(2) ? 0 : 1 + below(3), i;

    if (once_in(10))
        count += below(width);                          /* a part of a row too many */
    if (once_in(200))
        count = below(MOST_WORDS + 1);
    for (i = 0; i < count; i++)
        words[i] = i % width == width - 1 && once_in(4) ? keypad_word() : listed_word();
    if (once_in(16))
        sleep_all(width, count, words);
    while (count > 0 && once_in(2))
        put_to_sleep(width, count, words);
    if (count > 0 && !once_in(3)) {                     /* at times none wrong, or one, or several of all sorts */
        for (i = 0; i < wrong; i++)
            words[place_in(count)] = once_in(3) ? SLEEP_WORD : once_in(2) ? keypad_word() : unlisted_word();
    }
    return count;
}

static void write_one(void)
{
    static unsigned short words[MOST_WORDS];
    unsigned long n = chips(), count = list(n, words);
    unsigned long samples = count * 24 + (n >= 1 && n <= MOST ? count / n * 2 : 0), room, before = faults;
    const unsigned short *lent = put_up(&lists, words, count * sizeof words[0]);
    const unsigned long *want = to_twin(&answers);

    room = room_for(samples < MOST_SAMPLES ? samples : 64 * 194, MOST_ROOM);
    lend(&answers, 3 * sizeof(unsigned long));
    lend_anywhere(&buffers, room);
    zhaqsumir_write(n, lent, count, to_library(&buffers), room, to_library(&answers));
    twin_write(n, words, count, to_twin(&buffers), room, to_twin(&answers));
    if (!same(&answers, 3 * sizeof(unsigned long)))
        fault("write", written.compared, "another answer");
    if (!same(&buffers, want[2]))
        fault("write", written.compared, "another buffer");
    if (memcmp(lent, words, count * sizeof words[0]) != 0)
        fault("write", written.compared, "the words were written");
    if (faults > before && faults <= SHOWN) {
        printf("    N %lu, words %lu, room %lu\n", n, count, room);
        show(&answers);
    }
    count_answer(&written, want[0], want[1]);
    if (want[0] == 0) {
        unsigned long sleeps = 0, i;

        for (i = 0; i < count; i++)
            sleeps += words[i] == SLEEP_WORD;
        slept += sleeps > 0;
        mostly_sleep += sleeps > 200;
    }
}

/* C-17's own cases, by hand. */
static void sleep_cases(void)
{
    static const struct {
        unsigned long n, count, number, place;
        unsigned short words[4];
    } cases[] = {
        { 1, 1, 13, 0, { 0x202 } },
        { 1, 3, 0, 0, { 0x400, 0x202, 0x202 } },
        { 1, 2, 13, 1, { 0x401, 0x202 } },
        { 1, 2, 13, 1, { 0x402, 0x202 } },
        { 1, 2, 0, 0, { 0x438, 0x202 } },
        { 1, 3, 13, 2, { 0x201, 0x403, 0x202 } },
        { 1, 3, 0, 0, { 0x403, 0x201, 0x202 } },
        { 2, 4, 13, 2, { 0x000, 0x201, 0x202, 0x000 } },
        { 2, 4, 0, 0, { 0x201, 0x403, 0x202, 0x000 } },
        { 1, 1, 6, 0, { 0x1202 } },
    };
    unsigned long i, answer[3];
    unsigned char out[128];

    for (i = 0; i < sizeof cases / sizeof cases[0]; i++) {
        zhaqsumir_write(cases[i].n, cases[i].words, cases[i].count, out, sizeof out, answer);
        if (answer[0] != cases[i].number || answer[1] != cases[i].place
            || answer[2] != (cases[i].number == 0 ? cases[i].count / cases[i].n * ZHAQSUMIR_ROW_SAMPLES(cases[i].n) : 0))
            fault("write", i, "another answer than the request has (the input is the case of sleep)");
    }
}

/* ---- the finder ---- */

static struct seen found = { .name = "find" };
static struct fence blocks;
static unsigned long rises, nones, farthest;

static unsigned long block(unsigned char samples[MOST_SAMPLES])
{
    static const unsigned long sizes[] = { 0, 1, 2, 3, 15, 16, 17, 31, 32, 33, 63, 64, 65, 255, 256, 257 };
    unsigned long count = once_in(4) ? one_of(16, sizes) : below(300), i, rise, high;

    if (once_in(40))
        count = below(MOST_SAMPLES + 1);
    rise = count > 0 && once_in(3) ? place_in(count) : below(count + 1);
    high = below(2);
    switch (below(4)) {
    case 0:                                             /* anything */
        for (i = 0; i < count; i++)
            samples[i] = (unsigned char)below(8);
        break;
    case 1:                                             /* LOAD low or high throughout, or falling once: no rise after the first */
        for (i = 0; i < count; i++)
            samples[i] = (unsigned char)(below(4) + (high || i < rise / 2 ? 4 : 0));
        break;
    default:                                            /* high, low, then a late rise */
        for (i = 0; i < count; i++)
            samples[i] = (unsigned char)(below(4) + (i >= rise || (high && i < rise / 2) ? 4 : 0));
    }
    if (count > 0 && once_in(3)) {                      /* samples above 7, at times right after the rise */
        unsigned long wrong = 1 + below(3);

        for (i = 0; i < wrong; i++) {
            unsigned long at = once_in(4) && rise + 1 < count ? rise + 1 : place_in(count);

            samples[at] = (unsigned char)(once_in(2) ? 8 + below(8) : 8 + below(248));
        }
    }
    return count;
}

static void find_one(void)
{
    static unsigned char samples[MOST_SAMPLES];
    unsigned long count = block(samples), before = faults;
    unsigned char levels = (unsigned char)(!once_in(8) ? below(8) : once_in(4) ? 8 : 8 + below(248));
    const unsigned char *lent = put_up(&blocks, samples, count);
    const unsigned long *want = to_twin(&answers);

    lend(&answers, 5 * sizeof(unsigned long));
    zhaqsumir_find(levels, lent, count, to_library(&answers));
    twin_find(levels, samples, count, to_twin(&answers));
    if (!same(&answers, 5 * sizeof(unsigned long)))
        fault("find", found.compared, "another answer");
    if (memcmp(lent, samples, count) != 0)
        fault("find", found.compared, "the samples were written");
    if (faults > before && faults <= SHOWN) {
        printf("    levels %u, samples %lu\n", levels, count);
        show(&answers);
    }
    count_answer(&found, want[0], want[1]);
    if (want[0] == 0) {
        rises += want[2];
        nones += !want[2];
        if (farthest < want[3])
            farthest = want[3];
    }
}

void compare_samples(unsigned long count)
{
    static const unsigned char of_write[] = { 3, 4, 5, 6, 7, 8, 13, 0 }, of_find[] = { 1, 12, 0 };
    unsigned long i;

    answers = stretched(5 * sizeof(unsigned long));
    buffers = stretched(MOST_ROOM);
    lists = fenced(MOST_WORDS * sizeof(unsigned short));
    blocks = fenced(MOST_SAMPLES);
    sleep_cases();
    for (i = 0; i < count; i++)
        write_one();
    report(&written, of_write, 400);
    printf("    accepted with sleep words: %lu, of little else: %lu\n", slept, mostly_sleep);
    must(slept > 0 && mostly_sleep > 0, "no list with sleep words was accepted, or none of little else");
    for (i = 0; i < count; i++)
        find_one();
    report(&found, of_find, 4000);
    printf("    a rise: %lu (places up to %lu), none: %lu\n", rises, farthest, nones);
    must(rises > 0 && nones > 0 && farthest > 4000, "rises, late ones or blocks without one were never reached");
}
