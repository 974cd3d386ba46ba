/* Plays a probe's recording into a panel of three chips as it arrives, in blocks of uneven length, one of them spoilt. Then it presses
 * CONFIRM, and prints what chip 2 lights and what the host sees. */
#include <stdio.h>
#include "zhaqsumir.h"

#define CHIPS 3
#define ROWS 3
#define SAMPLES (ROWS * ZHAQSUMIR_ROW_SAMPLES(CHIPS))

static zhaqsumir_panel panel;
static unsigned long heard; /* samples of the recording that were played */

/* Plays the next block; says where LOAD rose, counted from the start of the recording. Where it is refused, the panel is as it was, and
 * the recording goes on with a block that is sound. */
static void play(const unsigned char *samples, unsigned long count)
{
    unsigned long rises[ZHAQSUMIR_MOST_RISES(SAMPLES)], answer[ZHAQSUMIR_BLOCK_ANSWER], i;

    zhaqsumir_block(&panel, samples, count, rises, ZHAQSUMIR_MOST_RISES(count), answer);
    if (answer[ZHAQSUMIR_NUMBER] != 0) {
        printf("%lu samples: refused %lu, sample %lu\n", count, answer[ZHAQSUMIR_NUMBER], answer[ZHAQSUMIR_PLACE]);
        return;
    }
    printf("%lu samples:", count);
    for (i = 0; i < answer[ZHAQSUMIR_RISES_LISTED]; i++)
        printf(" LOAD rose at %lu", heard + rises[i]);
    printf("%s\n", i == 0 ? " no rise" : "");
    heard += count;
}

/* One scan of chip 2. */
static void scan(const unsigned char contacts[8])
{
    unsigned long answer[ZHAQSUMIR_SCAN_ANSWER];

    zhaqsumir_scan(&panel, 2, contacts, answer); /* chip 2 of a panel of 3 is never refused */
    switch (answer[ZHAQSUMIR_SCAN_TOLD]) {
    case ZHAQSUMIR_SCAN_KEY: printf("scan: %02lXH recorded\n", answer[ZHAQSUMIR_SCAN_CODE]); break;
    case ZHAQSUMIR_SCAN_OVER_UNREAD: printf("scan: %02lXH recorded over an unread code\n", answer[ZHAQSUMIR_SCAN_CODE]); break;
    case ZHAQSUMIR_SCAN_RELEASE: printf("scan: release noted\n"); break;
    default: printf("scan: nothing recorded\n");
    }
}

int main(void)
{
    static const unsigned short words[ROWS * CHIPS] = {
        0x401, 0x401, 0x403, /* DISP on, and on the last chip KEYB too */
        0x83F, 0x86D, 0x8EF, /* DIG0 shows 0, 5, 9 with its point */
        0x000, 0x000, 0x966, /* DIG1 of chip 2 shows 4 */
    };
    static const unsigned long lengths[] = { 1, 80, 0, 70, SAMPLES - 151 };
    static const unsigned char confirm[8] = { 0, 0, 0, 0x10 }; /* the key at DIG3 and SEG4 */
    unsigned char samples[SAMPLES], good;
    unsigned long answer[ZHAQSUMIR_LIT_ANSWER], i;

    zhaqsumir_write(CHIPS, words, ROWS * CHIPS, samples, sizeof samples, answer);
    if (answer[ZHAQSUMIR_NUMBER] != 0)
        return 1;
    zhaqsumir_start(CHIPS, &panel, answer); /* of 1 to 8 chips it is never refused */
    for (i = 0; i < sizeof lengths / sizeof lengths[0]; i++) {
        if (i == 3) { /* the probe slips, and sends the block again */
            good = samples[heard + 5];
            samples[heard + 5] = 8;
            play(samples + heard, lengths[i]);
            samples[heard + 5] = good;
        }
        play(samples + heard, lengths[i]);
    }
    scan(confirm);
    scan(confirm);

    zhaqsumir_lit(&panel, 2, answer);
    printf("chip 2 lights, from DIG0:");
    for (i = 0; i < 8; i++)
        printf(" %02lX", answer[ZHAQSUMIR_SEGMENTS + i]);
    zhaqsumir_sees(&panel, answer);
    printf("\nthe host sees %lu\n", answer[ZHAQSUMIR_DOUT_SEEN]); /* 0: a code waits to be read */
    return 0;
}
