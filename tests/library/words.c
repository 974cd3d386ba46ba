/* Decode and encode beside the twin's: every word and many commands in order, and random ones. */
#include "check.h"
#include "libc.h"
#include "twin.h"
#include "zhaqsumir.h"

static struct stretch answers;

/* ---- decode ---- */

static struct seen decoded = { .name = "decode" };
static unsigned long of_kind[16];

static void decode_one(unsigned short word)
{
    const unsigned long *want = to_twin(&answers);
    unsigned long before = faults;

    lend(&answers, 8 * sizeof(unsigned long));
    zhaqsumir_decode(word, to_library(&answers));
    twin_decode(word, to_twin(&answers));
    if (!same(&answers, 8 * sizeof(unsigned long)))
        fault("decode", word, "another answer (the input is the word)");
    if (faults > before && faults <= SHOWN)
        show(&answers);
    count_answer(&decoded, want[0], want[1]);
    if (want[0] == 0)
        of_kind[want[2]]++;
}

static void decode_all(unsigned long count)
{
    static const unsigned char refusals[] = { 6, 0 };
    unsigned long i;

    for (i = 0; i < 65536; i++)
        decode_one((unsigned short)i);
    must(decoded.times[0] == 3254, "the twin doesn't list 3,254 words");
    for (i = 0; i < count; i++)
        decode_one((unsigned short)(once_in(4) ? any() : below(4096)));
    report(&decoded, refusals, 0);
    printf("    not refused, by kind:");
    for (i = 0; i < 16; i++) {
        printf(" %lu", of_kind[i]);
        must(of_kind[i] > 0, "a kind was never decoded");
    }
    printf("\n");
}

/* ---- encode ---- */

static struct seen encoded = { .name = "encode" };
static struct fence commands;
static unsigned long legal_of[16], refused_of[16];

static void encode_one(const unsigned long command[6])
{
    const unsigned long *lent = put_up(&commands, command, 6 * sizeof(unsigned long));
    const unsigned long *want = to_twin(&answers);
    unsigned long before = faults;
    int i;

    lend(&answers, 3 * sizeof(unsigned long));
    zhaqsumir_encode(lent, to_library(&answers));
    twin_encode(command, to_twin(&answers));
    if (!same(&answers, 3 * sizeof(unsigned long)))
        fault("encode", encoded.compared, "another answer");
    if (memcmp(lent, command, 6 * sizeof(unsigned long)) != 0)
        fault("encode", encoded.compared, "the command was written");
    if (faults > before && faults <= SHOWN) {
        printf("    the command:");
        for (i = 0; i < 6; i++)
            printf(" %lu", command[i]);
        printf("\n");
        show(&answers);
    }
    count_answer(&encoded, want[0], want[1]);
    if (command[0] < 16)
        (want[0] == 0 ? legal_of : refused_of)[command[0]]++;
}

static void encode_random(void)
{
    static const unsigned long most[] = { 1, 1, 1, 7, 63, 64, 127, 255 };
    unsigned long command[6], all = one_of(8, most);
    int i;

    command[0] = once_in(12) ? 16 + near_a_limit() : below(16);
    if (once_in(16))
        command[0] += one_of(3, (const unsigned long[]){ 1ul << 8, 1ul << 32, 1ul << 63 });
    for (i = 1; i < 6; i++) /* in range for many kinds: most up to one limit, some up to another */
        command[i] = below((once_in(10) ? one_of(8, most) : all) + 1);
    if (once_in(2))         /* and at times one or two of them about a limit */
        command[1 + below(5)] = near_a_limit();
    if (once_in(4))
        command[1 + below(3)] = near_a_limit();
    encode_one(command);
}

/* The first two fields up to 256, where one of them is up to 8; every system command; each of its bits as 2. */
static void encode_in_order(void)
{
    unsigned long command[6], kind, bits;
    int i;

    for (kind = 0; kind < 17; kind++) {
        command[0] = kind;
        for (command[1] = 0; command[1] <= 256; command[1]++) {
            for (command[2] = 0; command[2] <= (command[1] <= 8 ? 256 : 8); command[2]++) {
                for (i = 3; i < 6; i++)
                    command[i] = below(2);
                encode_one(command);
            }
        }
    }
    command[0] = ZHAQSUMIR_SYSTEM_PARAMETERS;
    for (bits = 0; bits < 32; bits++) {
        for (i = 0; i < 5; i++)
            command[1 + i] = bits >> i & 1;
        encode_one(command);
        for (i = 0; i < 5; i++) {
            command[1 + i] = 2;
            encode_one(command);
            command[1 + i] = bits >> i & 1;
        }
    }
}

static void encode_all(unsigned long count)
{
    static const unsigned char refusals[] = { 9, 0 };
    unsigned long i;

    encode_in_order();
    for (i = 0; i < count; i++)
        encode_random();
    report(&encoded, refusals, 0);
    printf("    not refused and refused, by kind:");
    for (i = 0; i < 16; i++) {
        printf(" %lu+%lu", legal_of[i], refused_of[i]);
        must(legal_of[i] > 0, "a kind was never encoded");
    }
    printf("\n");
}

void compare_words(unsigned long count)
{
    answers = stretched(8 * sizeof(unsigned long));
    commands = fenced(6 * sizeof(unsigned long));
    decode_all(count);
    encode_all(count);
}
