/* Request C-11's law of cuts: a recording that is cut anywhere, into empty blocks too, ends in the same panel and has the same rises,
 * earlier blocks' lengths added, as one call over the whole; and its exception: refused calls between change nothing, and the rest is the
 * play of the accepted blocks joined. Here the library is compared with itself, and at every call with the twin. Scans stand at their
 * places of the recording, and must tell the same wherever it is cut. */
#include "blocks.h"
#include "libc.h"

enum { MOST_SCANS = 6 };
enum way { WHOLE, ONE_BY_ONE, WITH_EMPTY, SMALL, ANYWHERE, WAYS };

/* What a recording comes to. */
struct outcome {
    unsigned long panel[NUMBERS], rises, places[MOST_RECORDING], told[MOST_SCANS][ZHAQSUMIR_SCAN_ANSWER];
};

static unsigned long first[NUMBERS];                    /* the panel before the recording */
static struct {
    unsigned long place, chip;
    unsigned char contacts[8];
} scanned[MOST_SCANS];
static unsigned long scans_between;
static unsigned long recordings_cut, blocks_cut, empty_cut, refused_1, refused_8, rises_joined, scans_told;

/* How many of the samples up to an end the next block has. */
static unsigned long cut(enum way way, unsigned long at, unsigned long end)
{
    switch (way) {
    case ONE_BY_ONE:
        return at < end;
    case WITH_EMPTY:
        return at < end && once_in(3);
    case SMALL:
        return below((end - at < 9 ? end - at : 9) + 1);
    case ANYWHERE:
        return below(end - at + 1);
    default:
        return end - at;
    }
}

/* Calls that are refused before a block is taken: with a sample above 7 in it, or with too short a list. */
static void refuse_some(unsigned long at, unsigned long count)
{
    static unsigned char samples[MOST_RECORDING];
    unsigned long rises = rises_of(held[LEVELS], recording + at, count), room = rises + below(3), kept[NUMBERS];

    memcpy(kept, held, SIZE);
    while (once_in(2)) {
        unsigned long number = 0, size = count;

        memcpy(samples, recording + at, size);
        if (size == 0)
            samples[size++] = 3;
        if (once_in(2) || rises == 0) {
            samples[place_in(size)] = (unsigned char)(8 + below(248));
            number = play_block(samples, size, once_in(2) ? room : below(room + 1))[0];
            refused_1++;
        } else {
            number = play_block(samples, size, once_in(2) ? rises - 1 : below(rises))[0];
            refused_8++;
        }
        if (number == 0 || memcmp(held, kept, SIZE) != 0)
            fault(blocks.name, blocks.compared - 1, "a block isn't refused, or altered the panel");
        memcpy(held, kept, SIZE);
    }
}

/* One block, accepted; its rises are joined to the outcome's. */
static void take_block(unsigned long at, unsigned long count, struct outcome *outcome)
{
    unsigned long rises = rises_of(held[LEVELS], recording + at, count), i;
    const unsigned long *want = play_block(recording + at, count, once_in(2) ? rises : rises + below(20));

    if (want[0] != 0 || want[2] != rises)
        fault(blocks.name, blocks.compared - 1, "a block of a recording is refused, or hasn't its rises");
    for (i = 0; i < want[2] && outcome->rises < MOST_RECORDING; i++)
        outcome->places[outcome->rises++] = at + listed[i];
    blocks_cut++;
    empty_cut += count == 0;
}

/* From the panel before the recording on. */
static void begin(struct outcome *outcome)
{
    memset(outcome, 0, sizeof *outcome);
    memcpy(held, first, SIZE);
}

static void play_cut(enum way way, int refusing, struct outcome *outcome)
{
    unsigned long at = 0, scan = 0;

    begin(outcome);
    while (scan <= scans_between) {
        unsigned long end = scan < scans_between ? scanned[scan].place : recorded;

        do {
            unsigned long count = cut(way, at, end);

            if (refusing)
                refuse_some(at, count);
            take_block(at, count, outcome);
            at += count;
        } while (at < end || (way == WITH_EMPTY && !once_in(4)));
        if (scan < scans_between)
            memcpy(outcome->told[scan], scan_chip(scanned[scan].chip, scanned[scan].contacts), sizeof outcome->told[scan]);
        scan++;
        if (way == WHOLE || once_in(4)) {
            ask_sees();
            ask_lit(below(held[CHIPS]));
        }
    }
    memcpy(outcome->panel, held, SIZE);
}

static void must_be_alike(const struct outcome *other, const struct outcome *whole)
{
    if (memcmp(other->panel, whole->panel, SIZE) != 0)
        fault("block", recordings_cut, "cut otherwise, another panel (the input is the recording)");
    if (other->rises != whole->rises || memcmp(other->places, whole->places, whole->rises * sizeof whole->places[0]) != 0)
        fault("block", recordings_cut, "cut otherwise, other rises (the input is the recording)");
    if (memcmp(other->told, whole->told, sizeof whole->told) != 0)
        fault("scan", recordings_cut, "cut otherwise, a scan tells something else (the input is the recording)");
}

/* The recording in every way, beside one call from scan to scan. */
static void cut_in_every_way(void)
{
    static struct outcome whole, other;
    unsigned long scan;
    int way;

    play_cut(WHOLE, 0, &whole);
    rises_joined += whole.rises;
    for (scan = 0; scan < scans_between; scan++)
        scans_told += whole.told[scan][ZHAQSUMIR_SCAN_TOLD] > 0;
    for (way = ONE_BY_ONE; way < WAYS; way++) {
        play_cut(way, 0, &other);
        must_be_alike(&other, &whole);
    }
    play_cut(once_in(2) ? SMALL : ANYWHERE, 1, &other);
    must_be_alike(&other, &whole);
    play_cut(WHOLE, 1, &other);
    must_be_alike(&other, &whole);
}

/* In two at every place of it, the first and the last too, and with an empty block between. */
static void cut_at_every_place(void)
{
    static struct outcome whole, other;
    unsigned long place, empty;

    play_cut(WHOLE, 0, &whole);
    for (place = 0; place <= recorded; place++) {
        for (empty = 0; empty < 2; empty++) {
            begin(&other);
            take_block(0, place, &other);
            if (empty)
                take_block(place, 0, &other);
            take_block(place, recorded - place, &other);
            memcpy(other.panel, held, SIZE);
            must_be_alike(&other, &whole);
        }
    }
}

/* A panel, a recording for it, and scans at places of it; often KEYB is on and two scans are alike, so that keys are recorded. */
static void prepare_recording(unsigned long pieces, unsigned long scans_wanted)
{
    unsigned long i, place = 0;
    int keypad = once_in(2);

    if (once_in(3))
        start_panel(1 + below(MOST));
    else
        any_panel_held();
    for (i = 0; keypad && i < held[CHIPS]; i++)
        OF(held, i, ZHAQSUMIR_CHIP_KEYB) = 1;
    litter();
    memcpy(first, held, SIZE);
    new_recording(held[CHIPS], pieces);
    for (i = 0; i < scans_wanted; i++) {
        if (!once_in(3))
            place += below(recorded - place + 1);
        if (i > 0 && !once_in(3)) {
            scanned[i] = scanned[i - 1];
        } else {
            scanned[i].chip = below(held[CHIPS]);
            random_contacts(scanned[i].contacts);
        }
        scanned[i].place = place;
    }
    scans_between = scans_wanted;
}

void cut_recordings(unsigned long count)
{
    unsigned long short_ones = 10 + count / 50, i;

    for (i = 0; i < count; i++, recordings_cut++) {
        prepare_recording(1 + below(5), once_in(3) ? 0 : below(MOST_SCANS + 1));
        cut_in_every_way();
    }
    for (i = 0; i < short_ones; i++, recordings_cut++) {
        do
            prepare_recording(1, 0);
        while (recorded == 0 || recorded > 100);
        cut_at_every_place();
    }
}

void report_cuts(void)
{
    printf("cuts: %lu recordings with %lu rises, cut into %lu blocks, %lu of them empty\n", recordings_cut, rises_joined, blocks_cut,
           empty_cut);
    printf("    scans between that told something: %lu; calls that were refused between: %lu with 1, %lu with 8\n", scans_told, refused_1,
           refused_8);
    must(rises_joined > 0 && empty_cut > 0 && scans_told > 0 && refused_1 > 0 && refused_8 > 0, "nothing rose, was cut, told or refused");
}
