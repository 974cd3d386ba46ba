/* Shows 1049.50 on the CH450 of an old kiosk: encodes the commands, writes their samples, plays these into a panel and prints what
 * it lights. Then it reads the key. */
#include <stdio.h>
#include "zhaqsumir.h"

#define DIGITS 6
#define COMMANDS (DIGITS + 1)
#define CONFIRM 0x63 /* the code of the key at DIG3 and SEG4, pressed */

/* What power-on left in the six digits; nothing says what that is. */
static unsigned long panel[ZHAQSUMIR_CH450_PANEL] = ZHAQSUMIR_CH450_POWER_ON(0xA5, 0x5A, 0xFF, 0x00, 0x12, 0xFF);

/* The word of a command. Where it is refused: one that no table has, so that the writer refuses it too. */
static unsigned short word_of(const unsigned long command[ZHAQSUMIR_CH450_COMMAND])
{
    unsigned long answer[ZHAQSUMIR_ENCODE_ANSWER];

    zhaqsumir_ch450_encode(command, answer);
    return answer[ZHAQSUMIR_NUMBER] == 0 ? (unsigned short)answer[ZHAQSUMIR_ENCODED_WORD] : 0xFFFF;
}

/* The samples of a read, which the till clocks itself: at byte 2 it lets SDA go, high, for the chip drives it. */
static void clock_read(unsigned short word, unsigned char samples[ZHAQSUMIR_CH450_COMMAND_SAMPLES])
{
    unsigned long bits = (word & 0xFF00ul) << 2 | 1 << 9 | 0xFFul << 1 | 1; /* acknowledges are 1 */
    int place;

    *samples++ = ZHAQSUMIR_CH450_SCL;
    for (place = 17; place >= 0; place--) {
        unsigned char sda = (unsigned char)((bits >> place & 1) * ZHAQSUMIR_CH450_SDA);

        *samples++ = sda;
        *samples++ = (unsigned char)(sda + ZHAQSUMIR_CH450_SCL);
    }
    *samples++ = 0;
    *samples++ = ZHAQSUMIR_CH450_SCL;
    *samples = ZHAQSUMIR_CH450_IDLE;
}

/* Plays samples into the panel, with the code that the key has; gives how many times it was read. From power-on on, samples of 0 to 3 and
 * this code are never refused. */
static unsigned long play(unsigned char key, const unsigned char *samples, unsigned long count)
{
    unsigned long answer[ZHAQSUMIR_CH450_PLAY_ANSWER];

    zhaqsumir_ch450_play(panel, key, samples, count, answer);
    return answer[ZHAQSUMIR_CH450_READS];
}

/* What the panel lights; a panel that play left isn't refused. */
static void print_lit(void)
{
    unsigned long answer[ZHAQSUMIR_CH450_LIT_ANSWER];
    int d;

    zhaqsumir_ch450_lit(panel, answer);
    printf("DIG7 to DIG2 light");
    for (d = DIGITS - 1; d >= 0; d--)
        printf(" %02lX", answer[ZHAQSUMIR_CH450_SEGMENTS + d]);
    printf("\n");
}

int main(void)
{
    static const unsigned char shapes[DIGITS] = { 0x3F, 0x6D, 0xEF, 0x66, 0x3F, 0x06 }; /* from the right: 0 5 9. 4 0 1 */
    const unsigned long on[ZHAQSUMIR_CH450_COMMAND] = { ZHAQSUMIR_CH450_PARAMETERS, 0, 0, 1, 1 }; /* awake, KEYB and DISP on */
    const unsigned long read_key[ZHAQSUMIR_CH450_COMMAND] = { ZHAQSUMIR_CH450_READ_KEY };
    unsigned short words[COMMANDS];
    unsigned char samples[COMMANDS * ZHAQSUMIR_CH450_COMMAND_SAMPLES];
    unsigned long answer[ZHAQSUMIR_WRITE_ANSWER], d;

    for (d = 0; d < DIGITS; d++) {
        const unsigned long load[ZHAQSUMIR_CH450_COMMAND] = { ZHAQSUMIR_CH450_LOAD_DIGIT, 2 + d, shapes[d] };

        words[d] = word_of(load);
    }
    words[DIGITS] = word_of(on); /* last, so that nobody sees what power-on left */
    zhaqsumir_ch450_write(words, COMMANDS, samples, sizeof samples, answer);
    if (answer[ZHAQSUMIR_NUMBER] != 0) {
        printf("refused %lu, command %lu\n", answer[ZHAQSUMIR_NUMBER], answer[ZHAQSUMIR_PLACE]);
        return 1;
    }
    play(CONFIRM, samples, answer[ZHAQSUMIR_SAMPLES_WRITTEN]);
    print_lit();

    clock_read(word_of(read_key), samples);
    printf("reads of code %02XH: %lu\n", CONFIRM, play(CONFIRM, samples, ZHAQSUMIR_CH450_COMMAND_SAMPLES));
    return 0;
}
