/* One call of each function on a panel of CH452 chips beside the twin's: with what is lent between guards, and all of it compared. */
#include "blocks.h"
#include "libc.h"

static struct stretch panels, lists, answers;
static struct fence lent_samples, lent_contacts, lent_panels;
struct seen started = { .name = "start" }, blocks = { .name = "block" }, scans = { .name = "scan" }, lights = { .name = "lit" },
            sees = { .name = "sees" };
unsigned long held[NUMBERS], listed[MOST_ROOM];
static unsigned long empty_seen, rising_seen, no_rise_seen, at_first_seen, exact_seen, longer_seen; /* of blocks not refused */
static unsigned long kinds_seen[4], woken_seen, asleep_seen, off_seen, characters_seen, on_seen, low_seen, high_seen, beyond_seen;

/* ---- one comparison ---- */

static void lend_panel(void)
{
    lend(&panels, SIZE);
    memcpy(to_library(&panels), held, SIZE);
    memcpy(to_twin(&panels), held, SIZE);
}

static void lend_answer(unsigned long count)
{
    lend(&answers, count * sizeof(unsigned long));
}

/* Compares the answers, and where it is given a panel, the panels too, which the library may change unless the twin refuses; `held` is then
 * what it left. */
static const unsigned long *compared(struct seen *seen, int with_panel)
{
    const unsigned long *want = to_twin(&answers), *after = to_library(&panels);

    if (!same(&answers, answers.size))
        fault(seen->name, seen->compared, "another answer");
    if (with_panel) {
        if (!same(&panels, SIZE))
            fault(seen->name, seen->compared, "another panel");
        if (want[0] != 0 && memcmp(after, held, SIZE) != 0)
            fault(seen->name, seen->compared, "a refusal altered the panel");
        memcpy(held, after, SIZE);
    }
    count_answer(seen, want[0], want[1]);
    return want;
}

static void show_call(unsigned long before, unsigned long count, unsigned long room)
{
    if (faults > before && faults <= SHOWN) {
        printf("    N %lu, levels %lu, samples or chip %lu, room %lu\n", held[CHIPS], held[LEVELS], count, room);
        show(&answers);
    }
}

const unsigned long *start_panel(unsigned long n)
{
    unsigned long before = faults;
    const unsigned long *want;

    lend_panel();
    lend_answer(ZHAQSUMIR_START_ANSWER);
    zhaqsumir_start(n, to_library(&panels), to_library(&answers));
    plain_start(n, to_twin(&panels), to_twin(&answers));
    want = compared(&started, 1);
    show_call(before, n, 0);
    return want;
}

const unsigned long *play_block(const unsigned char *samples, unsigned long count, unsigned long room)
{
    const unsigned char *lent = put_up(&lent_samples, samples, count);
    unsigned long before = faults, levels = held[LEVELS];
    const unsigned long *want, *list = to_library(&lists);

    lend_panel();
    lend(&lists, room * sizeof(unsigned long));
    lend_answer(ZHAQSUMIR_BLOCK_ANSWER);
    zhaqsumir_block(to_library(&panels), lent, count, to_library(&lists), room, to_library(&answers));
    plain_block(to_twin(&panels), samples, count, to_twin(&lists), room, to_twin(&answers));
    want = compared(&blocks, 1);
    if (!same(&lists, want[2] * sizeof(unsigned long)))
        fault(blocks.name, blocks.compared - 1, "another list of rises");
    if (memcmp(lent, samples, count) != 0)
        fault(blocks.name, blocks.compared - 1, "the samples were written");
    memcpy(listed, list, want[2] * sizeof listed[0]);
    show_call(before, count, room);
    if (want[0] == 0) {
        empty_seen += count == 0;
        rising_seen += want[2] > 0;
        no_rise_seen += count > 0 && want[2] == 0;
        at_first_seen += count > 0 && levels < 4 && samples[0] >= 4;
        exact_seen += want[2] > 0 && room == want[2];
        longer_seen += want[2] > 0 && room > want[2];
    }
    return want;
}

const unsigned long *scan_chip(unsigned long chip, const unsigned char contacts[8])
{
    const unsigned char *lent = put_up(&lent_contacts, contacts, 8);
    unsigned long before = faults, slept = chip < MOST && OF(held, chip, ZHAQSUMIR_CHIP_SLEEPING) == 1;
    const unsigned long *want;

    lend_panel();
    lend_answer(ZHAQSUMIR_SCAN_ANSWER);
    zhaqsumir_scan(to_library(&panels), chip, lent, to_library(&answers));
    plain_scan(to_twin(&panels), chip, contacts, to_twin(&answers));
    want = compared(&scans, 1);
    if (memcmp(lent, contacts, 8) != 0)
        fault(scans.name, scans.compared - 1, "the contacts were written");
    show_call(before, chip, 0);
    if (want[0] == 0) {
        kinds_seen[want[ZHAQSUMIR_SCAN_TOLD] % 4]++;
        woken_seen += slept && !OF(held, chip, ZHAQSUMIR_CHIP_SLEEPING);
    }
    return want;
}

const unsigned long *ask_lit(unsigned long chip)
{
    const unsigned long *lent = put_up(&lent_panels, held, SIZE), *want;
    unsigned long before = faults;

    lend_answer(ZHAQSUMIR_LIT_ANSWER);
    zhaqsumir_lit((const zhaqsumir_panel *)lent, chip, to_library(&answers));
    plain_chip_lit(held, chip, to_twin(&answers));
    want = compared(&lights, 0);
    if (memcmp(lent, held, SIZE) != 0)
        fault(lights.name, lights.compared - 1, "the panel was written");
    show_call(before, chip, 0);
    if (want[0] == 0) {
        int slept = OF(held, chip, ZHAQSUMIR_CHIP_SLEEPING) == 1, on = OF(held, chip, ZHAQSUMIR_CHIP_DISP) == 1;
        unsigned long limit = OF(held, chip, ZHAQSUMIR_CHIP_LIMIT);

        asleep_seen += slept;
        off_seen += !slept && !on;
        on_seen += !slept && on && OF(held, chip, ZHAQSUMIR_CHIP_MODE) == 0;
        characters_seen += !slept && on && OF(held, chip, ZHAQSUMIR_CHIP_MODE) == 1;
        beyond_seen += !slept && on && limit > 0 && OF(held, chip, ZHAQSUMIR_CHIP_DIGITS + limit) > 0;
    }
    return want;
}

const unsigned long *ask_sees(void)
{
    const unsigned long *lent = put_up(&lent_panels, held, SIZE), *want;
    unsigned long before = faults;

    lend_answer(ZHAQSUMIR_SEES_ANSWER);
    zhaqsumir_sees((const zhaqsumir_panel *)lent, to_library(&answers));
    plain_sees(held, to_twin(&answers));
    want = compared(&sees, 0);
    if (memcmp(lent, held, SIZE) != 0)
        fault(sees.name, sees.compared - 1, "the panel was written");
    show_call(before, 0, 0);
    low_seen += want[0] == 0 && want[ZHAQSUMIR_DOUT_SEEN] == 0;
    high_seen += want[0] == 0 && want[ZHAQSUMIR_DOUT_SEEN] == 1;
    return want;
}

/* ---- before all of them, and after ---- */

void prepare_calls(void)
{
    panels = stretched(SIZE);
    lists = stretched(MOST_ROOM * sizeof(unsigned long));
    answers = stretched(ZHAQSUMIR_LIT_ANSWER * sizeof(unsigned long));
    lent_samples = fenced(MOST_SAMPLES);
    lent_contacts = fenced(8);
    lent_panels = fenced(SIZE);
}

void report_calls(void)
{
    static const unsigned char of_start[] = { 3, 0 }, of_block[] = { 1, 3, 8, 12, 0 }, of_chip[] = { 2, 3, 12, 0 },
                               of_sees[] = { 3, 12, 0 };

    report(&started, of_start, 0);
    report(&blocks, of_block, 300);
    printf("    with rises: %lu (the first sample one: %lu; lists exact: %lu, longer: %lu), without: %lu, empty: %lu\n", rising_seen,
           at_first_seen, exact_seen, longer_seen, no_rise_seen, empty_seen);
    report(&scans, of_chip, 0);
    printf("    nothing: %lu, recorded: %lu, over an unread code: %lu, release: %lu; woken: %lu\n", kinds_seen[0], kinds_seen[1],
           kinds_seen[2], kinds_seen[3], woken_seen);
    report(&lights, of_chip, 0);
    printf("    asleep: %lu, DISP 0: %lu, bytes: %lu, characters: %lu, digits beyond the limit: %lu\n", asleep_seen, off_seen, on_seen,
           characters_seen, beyond_seen);
    report(&sees, of_sees, 0);
    printf("    low: %lu, high: %lu\n", low_seen, high_seen);
    must(rising_seen > 0 && at_first_seen > 0 && exact_seen > 0 && longer_seen > 0 && no_rise_seen > 0 && empty_seen > 0,
         "a kind of block was never played");
    must(kinds_seen[0] > 0 && kinds_seen[1] > 0 && kinds_seen[2] > 0 && kinds_seen[3] > 0 && woken_seen > 0,
         "a kind of scan was never taken");
    must(asleep_seen > 0 && off_seen > 0 && on_seen > 0 && characters_seen > 0 && beyond_seen > 0 && low_seen > 0 && high_seen > 0,
         "a kind of light or level was never seen");
}
