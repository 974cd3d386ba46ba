/* Times the library that C links beside the plain twin, in one process: each job is done by the one and by the other in turn, nine
 * times, after turns that aren't counted; the medians are divided. Both must answer the same.
 *
 *     library TEXT                    TEXT is what is replayed
 *     library TEXT JOB SIDE TIMES     does one job so many times, by the library (SIDE 0) or by the twin (1), and times nothing
 *
 * The first prints a line for each job, with tabs between: its name, the microseconds of the library and of the twin, the ratio. */
#include "libc.h"
#include "twin.h"
#include "zhaqsumir.h"

enum { CHIPS = 8, ROWS = 64, BLOCK = 65536, PANEL_COMMANDS = ZHAQSUMIR_CH450_MOST_COMMANDS };

/* A CH450's panel at power-on, played and then asked what it lights: as numbers, and by the twin's record. */
static unsigned long play_numbers(const unsigned char *from, unsigned long count)
{
    unsigned long panel[ZHAQSUMIR_CH450_PANEL] = ZHAQSUMIR_CH450_POWER_ON(0, 0, 0, 0, 0, 0);
    unsigned long answer[ZHAQSUMIR_CH450_PLAY_ANSWER], lit[ZHAQSUMIR_CH450_LIT_ANSWER];

    zhaqsumir_ch450_play(panel, 0, from, count, answer);
    zhaqsumir_ch450_lit(panel, lit);
    return answer[0] + answer[2] + lit[ZHAQSUMIR_CH450_SEGMENTS] + 3 * lit[ZHAQSUMIR_CH450_SEGMENTS + SIX - 1];
}

static unsigned long play_record(const unsigned char *from, unsigned long count)
{
    static const unsigned char zeros[SIX];
    unsigned long answer[ZHAQSUMIR_CH450_PLAY_ANSWER];
    unsigned char lit[SIX];
    struct ch450 chip;

    ch450_start(&chip, zeros);
    twin_ch450_play(&chip, 0, from, count, answer);
    ch450_lit(&chip, lit);
    return answer[0] + answer[2] + lit[0] + 3ul * lit[SIX - 1];
}

/* A settings text read, and written again: as numbers, and by the twin's record. */
static unsigned long settings_numbers(const unsigned char *from, unsigned long count, unsigned char *to)
{
    unsigned long answer[ZHAQSUMIR_SETTINGS_READ_ANSWER], written[ZHAQSUMIR_SETTINGS_WRITE_ANSWER];

    zhaqsumir_settings_read(from, count, answer);
    zhaqsumir_settings_write(answer + ZHAQSUMIR_SETTINGS_READ, to, ZHAQSUMIR_SETTINGS_TEXT, written);
    return answer[0] + written[0] + written[2];
}

static unsigned long settings_record(const unsigned char *from, unsigned long count, unsigned char *to)
{
    unsigned long answer[2], written[ZHAQSUMIR_SETTINGS_WRITE_ANSWER];
    struct settings settings;

    twin_settings_read(from, count, &settings, answer);
    twin_settings_write(&settings, to, ZHAQSUMIR_SETTINGS_TEXT, written);
    return answer[0] + written[0] + written[2];
}

/* Both sides are called by pointers, so that no compiler takes the twin apart where it is called. */
struct side {
    void (*decode)(unsigned short, unsigned long *);
    void (*encode)(const unsigned long *, unsigned long *);
    void (*write)(unsigned long, const unsigned short *, unsigned long, unsigned char *, unsigned long, unsigned long *);
    void (*find)(unsigned char, const unsigned char *, unsigned long, unsigned long *);
    void (*replay)(const unsigned char *, unsigned long, unsigned char *, unsigned long *);
    void (*ch450_encode)(const unsigned long *, unsigned long *);
    void (*ch450_write)(const unsigned short *, unsigned long, unsigned char *, unsigned long, unsigned long *);
    unsigned long (*ch450_play)(const unsigned char *, unsigned long);
    unsigned long (*settings)(const unsigned char *, unsigned long, unsigned char *);
};
static const struct side sides[2] = {
    { zhaqsumir_decode, zhaqsumir_encode, zhaqsumir_write, zhaqsumir_find, zhaqsumir_replay, zhaqsumir_ch450_encode,
      zhaqsumir_ch450_write, play_numbers, settings_numbers },
    { twin_decode, twin_encode, twin_write, twin_find, twin_replay, twin_ch450_encode, twin_ch450_write, play_record, settings_record },
};

#include "turns.h"

static unsigned short words[ROWS * CHIPS], sleeping[ROWS * CHIPS];
static unsigned char samples[ROWS * ZHAQSUMIR_ROW_SAMPLES(CHIPS)], slept[sizeof samples], block[BLOCK];
static unsigned long commands[4096][ZHAQSUMIR_COMMAND], legal;
static unsigned char text[ZHAQSUMIR_MOST_TEXT + 1], of_rows[ZHAQSUMIR_MOST_TEXT], out[ZHAQSUMIR_REPLAY_ROOM];
static unsigned long length, length_of_rows;
static unsigned short panel_words[PANEL_COMMANDS];
static unsigned char panel_samples[PANEL_COMMANDS * ZHAQSUMIR_CH450_COMMAND_SAMPLES];
static unsigned char settings_text[ZHAQSUMIR_SETTINGS_TEXT];

/* ---- the jobs; each gives a number that tells its answers ---- */

static unsigned long write_rows(const struct side *side)
{
    unsigned long answer[ZHAQSUMIR_WRITE_ANSWER];

    side->write(CHIPS, words, ROWS * CHIPS, samples, sizeof samples, answer);
    return answer[0] + answer[2] + samples[sizeof samples / 2];
}

/* The most that a list can ask of the writer's test: each sleep word looks back through all the rows to the resets. */
static unsigned long write_sleep(const struct side *side)
{
    unsigned long answer[ZHAQSUMIR_WRITE_ANSWER];

    side->write(CHIPS, sleeping, ROWS * CHIPS, slept, sizeof slept, answer);
    return answer[0] + answer[2] + slept[sizeof slept / 2];
}

static unsigned long find_none(const struct side *side)
{
    unsigned long answer[ZHAQSUMIR_FIND_ANSWER];

    side->find(ZHAQSUMIR_IDLE, block, BLOCK, answer);
    return answer[2] + answer[4];
}

/* From rise to rise through the written list, as a till does that takes one frame at a time. */
static unsigned long find_rises(const struct side *side)
{
    unsigned long answer[ZHAQSUMIR_FIND_ANSWER], at = 0, rises = 0;

    do {
        side->find(at == 0 ? ZHAQSUMIR_IDLE : samples[at - 1], samples + at, sizeof samples - at, answer);
        at += answer[4];
        rises += answer[2];
    } while (answer[2]);
    return rises + at;
}

static unsigned long decode_all(const struct side *side)
{
    unsigned long answer[ZHAQSUMIR_DECODE_ANSWER], sum = 0, word;

    for (word = 0; word < 4096; word++) {
        side->decode((unsigned short)word, answer);
        sum = 3 * sum + answer[0] + answer[2] + answer[3];
    }
    return sum;
}

static unsigned long encode_all(const struct side *side)
{
    unsigned long answer[ZHAQSUMIR_ENCODE_ANSWER], sum = 0, i;

    for (i = 0; i < legal; i++) {
        side->encode(commands[i], answer);
        sum = 3 * sum + answer[0] + answer[2];
    }
    return sum;
}

static unsigned long replay(const struct side *side, const unsigned char *from, unsigned long size)
{
    unsigned long answer[ZHAQSUMIR_REPLAY_ANSWER];

    side->replay(from, size, out, answer);
    return answer[0] + answer[2] + out[answer[2] / 2];
}

static unsigned long replay_text(const struct side *side)
{
    return replay(side, text, length);
}

static unsigned long replay_rows(const struct side *side)
{
    return replay(side, of_rows, length_of_rows);
}

static unsigned long encode_panel(const struct side *side)
{
    unsigned long answer[ZHAQSUMIR_ENCODE_ANSWER], command[ZHAQSUMIR_CH450_COMMAND] = { ZHAQSUMIR_CH450_LOAD_DIGIT }, sum = 0;

    for (command[1] = 2; command[1] <= 7; command[1]++) {
        for (command[2] = 0; command[2] <= 255; command[2]++) {
            side->ch450_encode(command, answer);
            sum = 3 * sum + answer[0] + answer[2];
        }
    }
    return sum;
}

static unsigned long write_panel(const struct side *side)
{
    unsigned long answer[ZHAQSUMIR_WRITE_ANSWER];

    side->ch450_write(panel_words, PANEL_COMMANDS, panel_samples, sizeof panel_samples, answer);
    return answer[0] + answer[2] + panel_samples[sizeof panel_samples / 2];
}

static unsigned long play_panel(const struct side *side)
{
    return side->ch450_play(panel_samples, sizeof panel_samples);
}

static unsigned long read_and_write(const struct side *side)
{
    unsigned char again[ZHAQSUMIR_SETTINGS_TEXT];

    return side->settings(settings_text, sizeof settings_text, again) + again[sizeof again / 2];
}

static const struct job jobs[] = {
    { "write: 64 rows of 8 chips", write_rows },
    { "write: a row of resets, 63 rows of sleep", write_sleep },
    { "find: 65,536 samples without a rise", find_none },
    { "find: rise by rise through 12,416 written samples", find_rises },
    { "decode: all 4,096 words", decode_all },
    { "encode: all 3,254 commands", encode_all },
    { "replay: 64 rows of 8 chips, a rise in 194 samples", replay_rows },
    { "replay: the longest capture, a rise in 2 samples", replay_text },
    { "ch450_encode: all 1,536 commands that load a digit", encode_panel },
    { "ch450_write: 64 commands, 2,560 samples", write_panel },
    { "ch450_play: 2,560 written samples, and ch450_lit", play_panel },
    { "settings_read and settings_write: a text of 8 chips", read_and_write },
};
enum { JOBS = sizeof jobs / sizeof jobs[0] };

/* ---- what they work on ---- */

static int prepare(const char *name)
{
    FILE *file = fopen(name, "rb");
    struct settings settings = { .n = CHIPS };
    unsigned long seed = 1, answer[ZHAQSUMIR_DECODE_ANSWER], word, i;

    if (file == NULL)
        return 0;
    length = fread(text, 1, sizeof text, file);
    fclose(file);
    for (i = 0; i < BLOCK; i++) {
        seed = seed * 6364136223846793005 + 1442695040888963407;
        block[i] = (unsigned char)((seed >> 40 & 3) + (i < BLOCK / 2 ? 4 : 0)); /* LOAD falls once and never rises */
    }
    for (word = 0; word < 4096; word++) {
        twin_decode((unsigned short)word, answer);
        if (answer[0] == 0)
            memcpy(commands[legal++], answer + 2, sizeof commands[0]);
    }
    for (i = 0; i < ROWS * CHIPS; i++) {                                        /* listed words of every kind but sleep, no KEYB */
        unsigned long encoded[ZHAQSUMIR_ENCODE_ANSWER];

        do {
            seed = seed * 6364136223846793005 + 1442695040888963407;
            twin_encode(commands[(seed >> 33) % legal], encoded);
        } while ((encoded[2] & 0xFC2) == 0x402 || encoded[2] == 0x202);
        words[i] = (unsigned short)encoded[2];
        sleeping[i] = i < CHIPS ? 0x201 : 0x202;
    }
    twin_write(CHIPS, words, ROWS * CHIPS, samples, sizeof samples, answer);
    memcpy(of_rows, "000108", 6);
    length_of_rows = 6;
    for (i = 0; i < sizeof samples; i++) {                                      /* the written rows as lines of 32 samples */
        if (i % 32 == 0) {
            memcpy(of_rows + length_of_rows, "\n01", 3);
            length_of_rows += 3;
        }
        of_rows[length_of_rows++] = '0';
        of_rows[length_of_rows++] = (unsigned char)('0' + samples[i]);
    }
    of_rows[length_of_rows++] = '\n';
    for (i = 0; i < PANEL_COMMANDS; i++) {                                      /* DISP on, then digits in turn */
        seed = seed * 6364136223846793005 + 1442695040888963407;
        panel_words[i] = (unsigned short)(i == 0 ? 0x4801 : (0x64 + 2 * (i % SIX)) << 8 | (seed >> 40 & 255));
    }
    twin_ch450_write(panel_words, PANEL_COMMANDS, panel_samples, sizeof panel_samples, answer);
    for (i = 0; i < CHIPS; i++) {                                               /* any settings that can be written */
        seed = seed * 6364136223846793005 + 1442695040888963407;
        settings.chips[i] = (struct kept){ .intm = seed >> 40 & 1, .disp = 1, .mode = seed >> 41 & 1, .limit = seed >> 42 & 7,
                                           .blink = seed >> 45 & 255, .custom = seed >> 53 & 127 };
    }
    twin_settings_write(&settings, settings_text, sizeof settings_text, answer);
    return 1;
}

int main(int count, char **given)
{
    unsigned long told[2];
    int same = 1, i;

    if ((count != 2 && count != 5) || !prepare(given[1])) {
        fprintf(stderr, "library TEXT [JOB SIDE TIMES]\n");
        return 2;
    }
    if (count == 5) {
        timed(&jobs[strtoul(given[2], NULL, 10) % JOBS], strtoul(given[3], NULL, 10) % 2, strtoul(given[4], NULL, 10), told);
        return 0;
    }
    for (i = 0; i < JOBS; i++) {
        double us[2];

        same &= compare(&jobs[i], us);
        printf("%s\t%.2f\t%.2f\t%.3f\n", jobs[i].name, us[0], us[1], us[0] / us[1]);
    }
    return !same;
}
