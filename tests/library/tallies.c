/* The tally beside the twin's: random texts that go on from random tallies, many of them with counts near 2^64 - 1; and, for every
 * count, a line that it has just room for and one that it hasn't. */
#include "check.h"
#include "libc.h"
#include "twin.h"
#include "zhaqsumir.h"

enum { COUNTS = ZHAQSUMIR_TALLY_CHIPS + ZHAQSUMIR_TALLY_CODES, LARGEST = COUNTS, NUMBERS };

static struct stretch chips, codes, largest, answers;
static struct fence fence;
static struct seen tallied = { .name = "tally" };
static unsigned long given[NUMBERS];                    /* a tally: the chips' counts, the codes', the largest N */
static unsigned long read_seen, over_seen, cleared_seen, filled_seen, later_seen;

/* The library's tally, or the twin's, in one list; and back. */
static void get(void *(*of)(const struct stretch *), unsigned long tally[NUMBERS])
{
    memcpy(tally, of(&chips), chips.size);
    memcpy(tally + ZHAQSUMIR_TALLY_CHIPS, of(&codes), codes.size);
    memcpy(tally + LARGEST, of(&largest), largest.size);
}

static void set(void *(*of)(const struct stretch *), const unsigned long tally[NUMBERS])
{
    memcpy(of(&chips), tally, chips.size);
    memcpy(of(&codes), tally + ZHAQSUMIR_TALLY_CHIPS, codes.size);
    memcpy(of(&largest), tally + LARGEST, largest.size);
}

/* Counts a text from the tally `given`, compares, and gives the twin's answer. */
static const unsigned long *tally_one(const unsigned char *text, unsigned long length)
{
    const unsigned char *lent = put_up(&fence, text, length);
    const unsigned long *want = to_twin(&answers);
    unsigned long before = faults, after[NUMBERS], k;

    lend(&chips, ZHAQSUMIR_TALLY_CHIPS * sizeof(unsigned long));
    lend(&codes, ZHAQSUMIR_TALLY_CODES * sizeof(unsigned long));
    lend(&largest, sizeof(unsigned long));
    lend(&answers, ZHAQSUMIR_TALLY_ANSWER * sizeof(unsigned long));
    set(to_library, given);
    set(to_twin, given);
    zhaqsumir_tally(lent, length, to_library(&chips), to_library(&codes), to_library(&largest), to_library(&answers));
    twin_tally(text, length, to_twin(&chips), to_twin(&codes), to_twin(&largest), to_twin(&answers));
    if (!same(&answers, answers.size))
        fault("tally", tallied.compared, "another answer");
    if (!same(&chips, chips.size) || !same(&codes, codes.size) || !same(&largest, largest.size))
        fault("tally", tallied.compared, "another tally");
    if (memcmp(lent, text, length) != 0)
        fault("tally", tallied.compared, "the text was written");
    get(to_library, after);
    if ((want[0] == 11 || want[0] == 12 || want[1] == 1) && memcmp(after, given, sizeof given) != 0)
        fault("tally", tallied.compared, "a refusal before the second line altered the tally");
    if (faults > before && faults <= SHOWN) {
        printf("    a text of %lu bytes\n", length);
        show(&answers);
    }
    count_answer(&tallied, want[0], want[1]);
    for (k = 0; k < ZHAQSUMIR_MOST_CHIPS; k++) {
        read_seen += after[4 * k + ZHAQSUMIR_READ] - given[4 * k + ZHAQSUMIR_READ];
        over_seen += after[4 * k + ZHAQSUMIR_OVERWRITTEN] - given[4 * k + ZHAQSUMIR_OVERWRITTEN];
        cleared_seen += after[4 * k + ZHAQSUMIR_CLEARED] - given[4 * k + ZHAQSUMIR_CLEARED];
        filled_seen += want[0] == 16 && after[4 * k] != given[4 * k];
    }
    return want;
}

/* ---- every count at its limit ---- */

/* A text of two lines, the second of so many samples, or a scan where there are none. */
static unsigned long two_lines(char *text, unsigned long n, unsigned long samples)
{
    unsigned long length = (unsigned long)snprintf(text, 16, "0001%02lX\n%s", n, samples > 0 ? "01" : "02"), i;

    for (i = 0; i < (samples > 0 ? samples : 9); i++)
        length += (unsigned long)snprintf(text + length, 4, "%s", samples > 0 ? "07" : "00");
    text[length] = '\n';
    return length + 1;
}

/* Document 02's rule itself: refused with 16 exactly where the count plus the line's number is above 2^64 - 1. */
static void at_the_limit(unsigned long count, unsigned long n, unsigned long samples)
{
    char text[96];
    unsigned long length = two_lines(text, n, samples), more = samples > 0 ? samples : 1, left;

    for (left = more - 1; left <= more + 1; left++) {
        const unsigned long *want;

        memset(given, 0, sizeof given);
        given[count] = ~0ul - left;
        want = tally_one((const unsigned char *)text, length);
        if (want[0] != (left < more ? 16 : 0) || want[1] != (left < more ? 2 : 0))
            fault("tally", count, "a count at its limit isn't refused as it must be");
    }
}

/* ---- random tallies ---- */

static void random_tally(void)
{
    unsigned long i;

    switch (below(6)) {
    case 0:
        memset(given, 0, sizeof given);
        break;
    case 1:                                             /* what the library left of the text before */
    case 2:
        if (tallied.compared > 0)
            get(to_library, given);
        break;
    case 3:                                             /* any numbers */
        for (i = 0; i < COUNTS; i++)
            given[i] = once_in(2) ? any() >> 1 : below(100);
        break;
    case 4:                                             /* one count near the largest number */
        for (i = 0; i < COUNTS; i++)
            given[i] = below(100);
        given[below(COUNTS)] = ~0ul - below(80);
        break;
    default:                                            /* all of them, with room for a line and a few more */
        for (i = 0; i < COUNTS; i++)
            given[i] = ~0ul - 32 - below(12);
    }
    given[LARGEST] = once_in(100) ? any() : below(10);
}

void compare_tallies(unsigned long count)
{
    static const unsigned char refusals[] = { 10, 11, 12, 16, 0 };
    unsigned long i, size;

    chips = stretched(ZHAQSUMIR_TALLY_CHIPS * sizeof(unsigned long));
    codes = stretched(ZHAQSUMIR_TALLY_CODES * sizeof(unsigned long));
    largest = stretched(sizeof(unsigned long));
    answers = stretched(ZHAQSUMIR_TALLY_ANSWER * sizeof(unsigned long));
    fence = fenced(MOST_TEXT);
    for (i = 0; i < count; i++) {
        const unsigned char *text = random_text(&size);
        const unsigned long *want;

        random_tally();
        want = tally_one(text, size);
        later_seen += want[0] == 16 && want[1] > 2;
    }
    for (i = 0; i < COUNTS; i++) {                      /* a chip's, also from N on, and a code's */
        at_the_limit(i, 1 + i % ZHAQSUMIR_MOST_CHIPS, 1 + i % 32);
        at_the_limit(i, 1 + below(ZHAQSUMIR_MOST_CHIPS), 32);
        at_the_limit(i, 1 + below(ZHAQSUMIR_MOST_CHIPS), 0);
    }
    report(&tallied, refusals, 0);
    printf("    read: %lu, overwritten: %lu, cleared: %lu; refused 16 past the second line: %lu, where a count had grown: %lu\n",
           read_seen, over_seen, cleared_seen, later_seen, filled_seen);
    must(read_seen > 0 && over_seen > 0 && cleared_seen > 0, "nothing was ever read, overwritten or cleared");
    must(later_seen > 0 && filled_seen > 0, "no count ever grew to its limit");
}
