/* The twin's chain as the library's 202 numbers: started, played, scanned, and asked what it lights and what the host sees. */
#include "blocks.h"
#include "libc.h"

/* What the parts of the twin's record can hold; it tests the record itself. */
static const unsigned long widest[OF_CHIP] = { 65535, 1, 255, 255, 1, 1, 1, 1, 1, 1, 255, 255, 255, 1,
                                               255, 255, 255, 255, 255, 255, 255, 255, 255, 1, 255 };
enum { NO_ADDRESS = 64 };                               /* for the twin neither an address nor NONE */

static struct chip chip_of(const unsigned long numbers[OF_CHIP])
{
    struct chip c;
    int d;

    c.shift = (unsigned short)numbers[ZHAQSUMIR_CHIP_REGISTER];
    c.latch = (unsigned char)numbers[ZHAQSUMIR_CHIP_LATCH];
    c.readout = (unsigned char)numbers[ZHAQSUMIR_CHIP_READOUT];
    c.left = (unsigned char)numbers[ZHAQSUMIR_CHIP_READOUT_LEFT];
    c.intm = (unsigned char)numbers[ZHAQSUMIR_CHIP_INTM];
    c.sspd = (unsigned char)numbers[ZHAQSUMIR_CHIP_SSPD];
    c.dplr = (unsigned char)numbers[ZHAQSUMIR_CHIP_DPLR];
    c.keyb = (unsigned char)numbers[ZHAQSUMIR_CHIP_KEYB];
    c.disp = (unsigned char)numbers[ZHAQSUMIR_CHIP_DISP];
    c.mode = (unsigned char)numbers[ZHAQSUMIR_CHIP_MODE];
    c.limit = (unsigned char)numbers[ZHAQSUMIR_CHIP_LIMIT];
    c.blink = (unsigned char)numbers[ZHAQSUMIR_CHIP_BLINK];
    c.custom = (unsigned char)numbers[ZHAQSUMIR_CHIP_CUSTOM];
    c.asleep = (unsigned char)numbers[ZHAQSUMIR_CHIP_SLEEPING];
    for (d = 0; d < 8; d++)
        c.digits[d] = (unsigned char)numbers[ZHAQSUMIR_CHIP_DIGITS + d];
    c.code = (unsigned char)numbers[ZHAQSUMIR_CHIP_CODE];
    c.interrupt = (unsigned char)numbers[ZHAQSUMIR_CHIP_INTERRUPT];
    c.last = (unsigned char)numbers[ZHAQSUMIR_CHIP_LAST_SCAN];
    if (numbers[ZHAQSUMIR_CHIP_LAST_SCAN] > 63)
        c.last = numbers[ZHAQSUMIR_CHIP_LAST_SCAN] == ZHAQSUMIR_NO_KEY ? NONE : NO_ADDRESS;
    return c;
}

static void chip_numbers(const struct chip *c, unsigned long numbers[OF_CHIP])
{
    int d;

    numbers[ZHAQSUMIR_CHIP_REGISTER] = c->shift;
    numbers[ZHAQSUMIR_CHIP_LATCH] = c->latch;
    numbers[ZHAQSUMIR_CHIP_READOUT] = c->readout;
    numbers[ZHAQSUMIR_CHIP_READOUT_LEFT] = c->left;
    numbers[ZHAQSUMIR_CHIP_INTM] = c->intm;
    numbers[ZHAQSUMIR_CHIP_SSPD] = c->sspd;
    numbers[ZHAQSUMIR_CHIP_DPLR] = c->dplr;
    numbers[ZHAQSUMIR_CHIP_KEYB] = c->keyb;
    numbers[ZHAQSUMIR_CHIP_DISP] = c->disp;
    numbers[ZHAQSUMIR_CHIP_MODE] = c->mode;
    numbers[ZHAQSUMIR_CHIP_LIMIT] = c->limit;
    numbers[ZHAQSUMIR_CHIP_BLINK] = c->blink;
    numbers[ZHAQSUMIR_CHIP_CUSTOM] = c->custom;
    numbers[ZHAQSUMIR_CHIP_SLEEPING] = c->asleep;
    for (d = 0; d < 8; d++)
        numbers[ZHAQSUMIR_CHIP_DIGITS + d] = c->digits[d];
    numbers[ZHAQSUMIR_CHIP_CODE] = c->code;
    numbers[ZHAQSUMIR_CHIP_INTERRUPT] = c->interrupt;
    numbers[ZHAQSUMIR_CHIP_LAST_SCAN] = c->last == NONE ? ZHAQSUMIR_NO_KEY : c->last;
}

/* The chain of a panel; gives refusal 3 or 12 where there is none of such numbers, or 0. Chips from N on are not looked at. */
static unsigned long chain_of(const unsigned long panel[NUMBERS], struct chain *chain)
{
    unsigned long n = panel[CHIPS], k, i;

    if (n < 1 || n > MOST)
        return 3;
    if (panel[LEVELS] > 255)
        return 12;
    for (k = 0; k < n; k++) {
        for (i = 0; i < OF_CHIP; i++) {
            if (OF(panel, k, i) > widest[i])
                return 12;
        }
        chain->chips[k] = chip_of(&OF(panel, k, 0));
    }
    chain->n = (unsigned)n;
    chain->levels = (unsigned char)panel[LEVELS];
    return 0;
}

/* The first n chips of a chain, and its levels, as numbers. */
static void panel_numbers(const struct chain *chain, unsigned long n, unsigned long panel[NUMBERS])
{
    unsigned long k;

    panel[LEVELS] = chain->levels;
    for (k = 0; k < n; k++)
        chip_numbers(&chain->chips[k], &OF(panel, k, 0));
}

static void refused(unsigned long count, unsigned long answer[], unsigned long number)
{
    memset(answer, 0, count * sizeof answer[0]);
    answer[0] = number;
}

void plain_start(unsigned long n, unsigned long panel[NUMBERS], unsigned long answer[ZHAQSUMIR_START_ANSWER])
{
    struct chain chain;

    refused(ZHAQSUMIR_START_ANSWER, answer, n < 1 || n > MOST ? 3 : 0);
    if (answer[0] != 0)
        return;
    start(&chain, MOST);                                /* chips from N on are set too */
    panel[CHIPS] = n;
    panel_numbers(&chain, MOST, panel);
}

void plain_block(unsigned long panel[NUMBERS], const unsigned char *samples, unsigned long count, unsigned long *rises,
                 unsigned long room, unsigned long answer[ZHAQSUMIR_BLOCK_ANSWER])
{
    struct chain chain;

    refused(ZHAQSUMIR_BLOCK_ANSWER, answer, chain_of(panel, &chain));
    if (answer[0] == 0)
        twin_block(&chain, samples, count, rises, room, answer);
    if (answer[0] == 0)
        panel_numbers(&chain, chain.n, panel);
}

void plain_scan(unsigned long panel[NUMBERS], unsigned long chip, const unsigned char contacts[8],
                unsigned long answer[ZHAQSUMIR_SCAN_ANSWER])
{
    struct chain chain;

    refused(ZHAQSUMIR_SCAN_ANSWER, answer, chain_of(panel, &chain));
    if (answer[0] == 0)
        twin_scan(&chain, chip, contacts, answer);
    if (answer[0] == 0)
        panel_numbers(&chain, chain.n, panel);
}

void plain_chip_lit(const unsigned long panel[NUMBERS], unsigned long chip, unsigned long answer[ZHAQSUMIR_LIT_ANSWER])
{
    struct chain chain;

    refused(ZHAQSUMIR_LIT_ANSWER, answer, chain_of(panel, &chain));
    if (answer[0] == 0)
        twin_lit(&chain, chip, answer);
}

void plain_sees(const unsigned long panel[NUMBERS], unsigned long answer[ZHAQSUMIR_SEES_ANSWER])
{
    struct chain chain;

    refused(ZHAQSUMIR_SEES_ANSWER, answer, chain_of(panel, &chain));
    if (answer[0] == 0)
        twin_sees(&chain, answer);
}
