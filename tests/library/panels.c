/* The panel of a CH450 beside the twin's: played by blocks that are cut anywhere, and what it lights; from panels of any kind that there can
 * be, and from damaged ones. */
#include "libc.h"
#include "panels.h"

static struct stretch panels, answers, lights;
static struct fence blocks, lents;
struct seen played = { .name = "ch450_play" }, lit = { .name = "ch450_lit" };
unsigned long given[NUMBERS];
static unsigned long reads_seen, loads_seen, settings_seen, within_seen, asleep_seen, off_seen, on_seen;

/* What the panel `given` lights; gives the twin's answer. */
const unsigned long *lit_one(void)
{
    const unsigned long *lent = put_up(&lents, given, SIZE), *want = to_twin(&lights);
    unsigned long before = faults;

    lend(&lights, ZHAQSUMIR_CH450_LIT_ANSWER * sizeof(unsigned long));
    zhaqsumir_ch450_lit(lent, to_library(&lights));
    plain_lit(given, to_twin(&lights));
    if (!same(&lights, lights.size))
        fault(lit.name, lit.compared, "another answer");
    if (memcmp(lent, given, SIZE) != 0)
        fault(lit.name, lit.compared, "the panel was written");
    if (faults > before && faults <= SHOWN)
        show(&lights);
    count_answer(&lit, want[0], want[1]);
    asleep_seen += want[0] == 0 && given[SLEEP];
    off_seen += want[0] == 0 && !given[SLEEP] && !given[DISP];
    on_seen += want[0] == 0 && !given[SLEEP] && given[DISP];
    return want;
}

/* Plays a block into the panel `given`, which is then what the library left; gives the twin's answer. */
const unsigned long *play_one(unsigned char key, const unsigned char *samples, unsigned long count)
{
    const unsigned char *lent = put_up(&blocks, samples, count);
    const unsigned long *want = to_twin(&answers), *after = to_library(&panels);
    unsigned long before = faults;

    lend(&panels, SIZE);
    lend(&answers, ZHAQSUMIR_CH450_PLAY_ANSWER * sizeof(unsigned long));
    memcpy(to_library(&panels), given, SIZE);
    memcpy(to_twin(&panels), given, SIZE);
    zhaqsumir_ch450_play(to_library(&panels), key, lent, count, to_library(&answers));
    plain_play(to_twin(&panels), key, samples, count, to_twin(&answers));
    if (!same(&answers, answers.size))
        fault(played.name, played.compared, "another answer");
    if (!same(&panels, panels.size))
        fault(played.name, played.compared, "another panel");
    if (memcmp(lent, samples, count) != 0)
        fault(played.name, played.compared, "the samples were written");
    if (want[0] != 0 && memcmp(after, given, SIZE) != 0)
        fault(played.name, played.compared, "a refusal altered the panel");
    if (faults > before && faults <= SHOWN) {
        printf("    key %u, samples %lu\n", key, count);
        show(&answers);
        show(&panels);
    }
    count_answer(&played, want[0], want[1]);
    reads_seen += want[ZHAQSUMIR_CH450_READS];
    loads_seen += memcmp(after + DIGITS, given + DIGITS, SIX * sizeof after[0]) != 0;
    settings_seen += memcmp(after + SLEEP, given + SLEEP, (DIGITS - SLEEP) * sizeof after[0]) != 0;
    within_seen += want[0] == 0 && given[RUNNING] && given[RISES] > 0;
    memcpy(given, after, SIZE);
    return want;
}

/* ---- panels ---- */

void power_on(void)
{
    int d;

    memset(given, 0, SIZE);
    given[LEVELS] = ZHAQSUMIR_CH450_IDLE;
    for (d = 0; d < SIX; d++)
        given[DIGITS + d] = below(256);
}

/* Any of those that there can be, many of them near the nineteenth rise. */
static void any_panel(void)
{
    int i;

    for (i = 0; i < NUMBERS; i++)
        given[i] = below(most[i] + 1);
    if (!given[RUNNING]) {
        given[RISES] = given[BITS] = 0;
        return;
    }
    if (once_in(2))
        given[RISES] = 17 + below(4);
    given[BITS] &= (1ul << (given[RISES] < 19 ? given[RISES] : 19)) - 1;
    if (given[LEVELS] & SCL)
        given[LEVELS] = SCL + SDA * (given[BITS] % 2);
}

static void random_panel(void)
{
    switch (below(12)) {
    case 0:
        power_on();
        break;
    case 1:
    case 2:
        any_panel();
        break;
    case 3:                                             /* any with a number or two that may not be */
        any_panel();
        do {
            unsigned long i = below(NUMBERS);

            given[i] = once_in(3) ? near_a_limit() : below(most[i] + 2);
        } while (once_in(2));
        break;
    default:                                            /* what the library left */
        if (!can_be(given))
            power_on();
    }
}

static void play_random(void)
{
    static unsigned char samples[MOST_BLOCK];
    static const unsigned long codes[] = { 0, 1, 0x23, 0x63, 126, 127 }, wrong[] = { 128, 129, 192, 255 };
    unsigned long count = block(samples);

    random_panel();
    lit_one();
    play_one((unsigned char)(once_in(16) ? one_of(4, wrong) : one_of(6, codes)), samples, count);
    lit_one();
}

void compare_panels(unsigned long count)
{
    static const unsigned char of_play[] = { 1, 9, 12, 0 }, of_lit[] = { 12, 0 };
    unsigned long i;

    panels = stretched(SIZE);
    answers = stretched(ZHAQSUMIR_CH450_PLAY_ANSWER * sizeof(unsigned long));
    lights = stretched(ZHAQSUMIR_CH450_LIT_ANSWER * sizeof(unsigned long));
    blocks = fenced(MOST_BLOCK);
    lents = fenced(SIZE);
    panel_cases();
    at = length = 0;
    for (i = 0; i < count; i++)
        play_random();
    report(&played, of_play, 100);
    printf("    reads: %lu; blocks that changed digits: %lu, parameters: %lu, that began within a transfer: %lu\n", reads_seen, loads_seen,
           settings_seen, within_seen);
    report(&lit, of_lit, 0);
    printf("    asleep: %lu, DISP 0: %lu, shining: %lu\n", asleep_seen, off_seen, on_seen);
    must(reads_seen > 0 && loads_seen > 0 && settings_seen > 0 && within_seen > 0, "nothing was read, loaded, set or gone on with");
    must(asleep_seen > 0 && off_seen > 0 && on_seen > 0, "no panel was ever asleep, off or shining");
}
