/* The words and the writer of a CH450 beside the twin's: every word, every list length and many commands in order, and random ones. */
#include "check.h"
#include "libc.h"
#include "twin.h"
#include "zhaqsumir.h"

enum { MOST_WORDS = 4096, MOST_ROOM = 4096 };

static struct stretch answers, buffers;

/* ---- encode ---- */

static struct seen encoded = { .name = "ch450_encode" };
static struct fence commands;
static unsigned long legal_of[3], refused_of[3];

static void encode_one(const unsigned long command[ZHAQSUMIR_CH450_COMMAND])
{
    const unsigned long size = ZHAQSUMIR_CH450_COMMAND * sizeof command[0];
    const unsigned long *lent = put_up(&commands, command, size), *want = to_twin(&answers);
    unsigned long before = faults;
    int i;

    lend(&answers, ZHAQSUMIR_ENCODE_ANSWER * sizeof(unsigned long));
    zhaqsumir_ch450_encode(lent, to_library(&answers));
    twin_ch450_encode(command, to_twin(&answers));
    if (!same(&answers, answers.size))
        fault(encoded.name, encoded.compared, "another answer");
    if (memcmp(lent, command, size) != 0)
        fault(encoded.name, encoded.compared, "the command was written");
    if (faults > before && faults <= SHOWN) {
        printf("    the command:");
        for (i = 0; i < ZHAQSUMIR_CH450_COMMAND; i++)
            printf(" %lu", command[i]);
        printf("\n");
        show(&answers);
    }
    count_answer(&encoded, want[0], want[1]);
    if (command[0] < 3)
        (want[0] == 0 ? legal_of : refused_of)[command[0]]++;
}

/* Two fields up to 256, where one of them is up to 9, and then each of four up to 4; the last kind is none. */
static void encode_in_order(void)
{
    unsigned long command[ZHAQSUMIR_CH450_COMMAND];

    for (command[0] = 0; command[0] <= 3; command[0]++) {
        for (command[1] = 0; command[1] <= 256; command[1]++) {
            for (command[2] = 0; command[2] <= (command[1] <= 9 ? 256 : 9); command[2]++) {
                command[3] = below(3);
                command[4] = below(3);
                encode_one(command);
            }
        }
        for (command[1] = 0; command[1] <= 4; command[1]++)
            for (command[2] = 0; command[2] <= 4; command[2]++)
                for (command[3] = 0; command[3] <= 4; command[3]++)
                    for (command[4] = 0; command[4] <= 4; command[4]++)
                        encode_one(command);
    }
}

static void encode_random(void)
{
    static const unsigned long most[] = { 1, 1, 3, 7, 255 };
    unsigned long command[ZHAQSUMIR_CH450_COMMAND], all = one_of(5, most);
    int i;

    command[0] = once_in(12) ? near_a_limit() : below(3);
    for (i = 1; i < ZHAQSUMIR_CH450_COMMAND; i++)
        command[i] = below((once_in(10) ? one_of(5, most) : all) + 1);
    if (once_in(3))
        command[1 + below(4)] = near_a_limit();
    encode_one(command);
}

static void encode_all(unsigned long count)
{
    static const unsigned char refusals[] = { 9, 0 };
    unsigned long i;

    encode_in_order();
    for (i = 0; i < count; i++)
        encode_random();
    report(&encoded, refusals, 0);
    printf("    not refused and refused, by kind:");
    for (i = 0; i < 3; i++)
        printf(" %lu+%lu", legal_of[i], refused_of[i]);
    printf("\n");
    must(legal_of[0] > 0 && legal_of[1] > 0 && legal_of[2] > 0 && refused_of[2] == 0, "a kind was never encoded, or a read refused");
}

/* ---- the writer ---- */

static struct seen written = { .name = "ch450_write" };
static struct fence lists;
static unsigned short words[MOST_WORDS];

static unsigned short writable_word(void)
{
    return (unsigned short)((once_in(4) ? 0x48 : 0x64 + 2 * below(6)) << 8 | below(256));
}

/* A read, or a byte 1 beside those of parameters and digits, or any other; at times one whose bytes are exchanged. */
static unsigned short unwritable_word(void)
{
    static const unsigned long bytes[] = { 0x4F, 0x4F, 0x00, 0x47, 0x49, 0x50, 0x62, 0x63, 0x65, 0x67, 0x6D, 0x6F, 0x70, 0xC8, 0xE4 };
    unsigned long byte1 = one_of(15, bytes);

    while (once_in(4))
        byte1 = 0x71 + below(143);
    return (unsigned short)(byte1 << 8 | (once_in(2) ? 0x48 + 0x1C * below(2) : below(256)));
}

/* Writes the first `count` of `words`, and gives the twin's answer. */
static const unsigned long *write_one(unsigned long count, unsigned long room)
{
    const unsigned short *lent = put_up(&lists, words, count * sizeof words[0]);
    const unsigned long *want = to_twin(&answers);
    unsigned long before = faults;

    lend(&answers, ZHAQSUMIR_WRITE_ANSWER * sizeof(unsigned long));
    lend_anywhere(&buffers, room);
    zhaqsumir_ch450_write(lent, count, to_library(&buffers), room, to_library(&answers));
    twin_ch450_write(words, count, to_twin(&buffers), room, to_twin(&answers));
    if (!same(&answers, answers.size))
        fault(written.name, written.compared, "another answer");
    if (!same(&buffers, want[2]))
        fault(written.name, written.compared, "another buffer");
    if (memcmp(lent, words, count * sizeof words[0]) != 0)
        fault(written.name, written.compared, "the words were written");
    if (faults > before && faults <= SHOWN) {
        printf("    words %lu, room %lu\n", count, room);
        show(&answers);
    }
    count_answer(&written, want[0], want[1]);
    return want;
}

/* Request C-15's rule itself: refused with this number and place, or written whole. */
static void write_must(unsigned long count, unsigned long room, unsigned long number, unsigned long place)
{
    const unsigned long *want = write_one(count, room);

    if (want[0] != number || want[1] != place || want[2] != (number == 0 ? 40 * count : 0))
        fault(written.name, count, "a list isn't refused as it must be (the input is its length)");
}

/* Each length up to 65, with buffers exact, one longer, one short and none; each place of some lists wrong; each word alone. */
static void write_in_order(void)
{
    unsigned long count, place, i, before;

    for (count = 0; count <= 65; count++) {
        unsigned long samples = ZHAQSUMIR_CH450_COMMAND_SAMPLES * count, many = count > ZHAQSUMIR_CH450_MOST_COMMANDS ? 5 : 0;

        for (i = 0; i < count; i++)
            words[i] = writable_word();
        write_must(count, samples, many, 0);
        write_must(count, samples + 1, many, 0);
        if (count > 0) {
            write_must(count, samples - 1, many ? many : 8, 0);
            write_must(count, 0, many ? many : 8, 0);
        }
        for (place = 0; place < count; place++) {
            unsigned short good = words[place];

            words[place] = unwritable_word();
            write_must(count, samples, many ? many : 9, many ? 0 : place);
            write_must(count, samples - 1, many ? many : 9, many ? 0 : place);
            words[place] = good;
        }
    }
    before = written.times[0];
    for (i = 0; i < 65536; i++) {
        words[0] = (unsigned short)i;
        write_one(1, ZHAQSUMIR_CH450_COMMAND_SAMPLES);
    }
    must(written.times[0] - before == 7 * 256, "not 1,792 words are of parameters or of a digit");
}

static void write_random(void)
{
    unsigned long count = once_in(6) ? 60 + below(7) : below(9), wrong = once_in(2) ? 0 : 1 + below(3), i;

    if (once_in(100))
        count = below(MOST_WORDS + 1);
    for (i = 0; i < count; i++)
        words[i] = writable_word();
    for (i = 0; count > 0 && i < wrong; i++)
        words[place_in(count)] = unwritable_word();
    write_one(count, room_for(count <= 65 ? ZHAQSUMIR_CH450_COMMAND_SAMPLES * count : 64 * ZHAQSUMIR_CH450_COMMAND_SAMPLES, MOST_ROOM));
}

static void write_all(unsigned long count)
{
    static const unsigned char refusals[] = { 5, 8, 9, 0 };
    unsigned long i;

    write_in_order();
    for (i = 0; i < count; i++)
        write_random();
    report(&written, refusals, 0);
    must(written.farthest[9] == 63, "the last command of the longest list was never refused");
}

void compare_ch450(unsigned long count)
{
    answers = stretched(3 * sizeof(unsigned long));
    buffers = stretched(MOST_ROOM);
    commands = fenced(ZHAQSUMIR_CH450_COMMAND * sizeof(unsigned long));
    lists = fenced(MOST_WORDS * sizeof words[0]);
    encode_all(count);
    write_all(count);
}
