/* The plain twin: the panel in plain C, written from document 01 and the change requests and not from the proved code, to be compared
 * with it in what it does and in its speed. Here is what a program over it may use. The twin itself is one source, twin.c, in parts that
 * are each headed by the name of a chapter of the document, or of a request.
 *
 * The functions named twin_ take and answer what those of include/zhaqsumir.h do: an answer is an array of numbers, first the number
 * of a refusal or 0, then the place that it names or 0. */
#ifndef TWIN_H
#define TWIN_H

#define MOST 8                                          /* chips in a chain */
#define MOST_ROWS 64
#define LONGEST_TEXT 65536ul

/* ---- words ---- */

void twin_decode(unsigned short word, unsigned long answer[8]);
void twin_encode(const unsigned long command[6], unsigned long answer[3]);

/* ---- chains ---- */

struct chip {
    /* the line parts: the register, the latch, the readout's code and how many bits of it are left */
    unsigned short shift;
    unsigned char latch, readout, left;
    /* the settings: system, display, blink and custom bits, and the sleeping mark */
    unsigned char intm, sspd, dplr, keyb, disp, mode, limit, blink, custom, asleep;
    /* the display */
    unsigned char digits[8];
    /* the key record; the last scan is an address or NONE */
    unsigned char code, interrupt, last;
};
enum { NONE = 255 };

struct chain {
    unsigned n;
    unsigned char levels;                               /* the previous sample */
    struct chip chips[MOST];
};

/* n chips as reset, with a zero register and a latch of 1; idle levels. */
void start(struct chain *chain, unsigned n);

/* Plays a block of samples, all of it tested before; says whether it was played. */
int play(struct chain *chain, const unsigned char *samples, unsigned long count);

/* ---- the writer and the finder ---- */

void twin_write(unsigned long n, const unsigned short *words, unsigned long count,
                unsigned char *out, unsigned long room, unsigned long answer[3]);
void twin_find(unsigned char levels, const unsigned char *samples, unsigned long count, unsigned long answer[5]);

/* ---- blocks as they arrive, C-11 ---- */

/* Each of these is given a chain, tests it first (refusal 3, then 12), and where it refuses leaves it as it was. The bits of a record are
 * 0 or 1. */

/* Plays a block of samples. The places of its LOAD rises go to the list, which has so much room; the third number is how many they are. */
void twin_block(struct chain *chain, const unsigned char *samples, unsigned long count, unsigned long *rises, unsigned long room,
                unsigned long answer[3]);

/* Takes a scan of a chip. The third number is what it did (0 nothing, 1 it recorded a code, 2 it recorded one over an unread one, 3 it
 * noted a release), the fourth the code that it recorded, or 0. */
void twin_scan(struct chain *chain, unsigned long chip, const unsigned char contacts[8], unsigned long answer[4]);

/* The segments that a chip lights, DIG0 first, and the level of the last chip's DOUT, after the first two numbers. */
void twin_lit(const struct chain *chain, unsigned long chip, unsigned long answer[10]);
void twin_sees(const struct chain *chain, unsigned long answer[3]);

/* ---- capture text ---- */

/* The most that a text writes: a LOAD rise takes two samples, so four bytes of text, and writes a line for each chip; at the end comes
 * a refusal, 13 bytes. */
#define ROOM(line) (LONGEST_TEXT / 4 * MOST * (line) + 13)
enum { WORD_LINE = 9, SCREEN_LINE = 21 };               /* bytes of a line 10, of a line 30 */

void twin_replay(const unsigned char *text, unsigned long length, unsigned char out[ROOM(WORD_LINE)], unsigned long answer[3]);

/* The same for the segments lit, in place of words and keys: the line 30, chip, eight bytes, per LOAD rise and chip, and per scan that
 * changes them. These lines are the project's own; what they show is document 01's. */
void twin_screen(const unsigned char *text, unsigned long length, unsigned char out[ROOM(SCREEN_LINE)], unsigned long answer[3]);

/* ---- streams of any length ---- */

#define MOST_LINES 4294967295ul                         /* of a text */
enum { LONGEST_LINE = 67 };                             /* 01, 32 samples, and the end */

/* A stream is text, or raw where its first byte is 00H. A read is handed over with what was left by the reads before: of a text a line
 * that hasn't ended, of a raw stream the beginning of its head or of a scan. */
enum { WATCH_READ = 4096, WATCH_LEFT = LONGEST_LINE - 1 };

/* The most that one block writes: a LOAD rise takes two samples, but for the first, whose fall came before; a sample writes one line of
 * what DOUT told at most; at the end comes a refusal of a raw stream, 21 bytes. */
#define WATCH_ROOM (((WATCH_LEFT + WATCH_READ) / 2 + 1) * MOST * SCREEN_LINE + (WATCH_LEFT + WATCH_READ) * DOUT_LINE + 21)
enum { DOUT_LINE = 19 };                                /* bytes of a line 15, the longest of 15 to 18 */

/* What is kept of the last chip's recorded DOUT, "What the till read". */
struct reads {
    int begun;                                          /* a sample with DOUT has come */
    unsigned char level;                                /* the last sample's DOUT, 0 or 1, or 2 where it has none */
    unsigned long at;                                   /* where the last sample with DOUT stands in the stream */
    unsigned char high;                                 /* DOUT when it was last looked at for an interrupt */
    unsigned char contrary;                             /* it wasn't the latch when it was last looked at for that */
    unsigned char code, bits, told;                     /* of a readout: its bits so far, how many they are, whether a cut was told */
};

struct watch {
    struct chain chain;                                 /* n is 0 before the first line or the head */
    int screen, begun, raw, refused;
    unsigned long passed;                               /* the lines, or the bytes of a raw stream, that were taken */
    struct reads reads;
};

void watch_start(struct watch *w, int screen);

/* Plays what is whole in a block and puts what it writes, and how much that is, at the last two; gives how many bytes it took. The others,
 * at most WATCH_LEFT where it doesn't refuse, are to come first in the next block. */
unsigned long watch_block(struct watch *w, const unsigned char *bytes, unsigned long count, unsigned char out[WATCH_ROOM],
                          unsigned long *size);

/* The stream ends with so many bytes left; gives how much it writes. */
unsigned long watch_end(struct watch *w, unsigned long left, unsigned char out[WATCH_ROOM]);

/* ---- the tally ---- */

#define CODES 128                                       /* of seven bits */

/* Counts a text, and goes on from what was counted: four counts for each chip, a tally for each code, the largest number of chips. */
void twin_tally(const unsigned char *text, unsigned long length, unsigned long chips[4 * MOST], unsigned long codes[CODES],
                unsigned long *largest, unsigned long answer[2]);

/* The lines that tell it, a refusal's last; gives how many bytes they are. */
#define TALLY_ROOM (69 * MOST + 21 * CODES + 13)
unsigned long twin_tally_lines(const unsigned long chips[4 * MOST], const unsigned long codes[CODES], unsigned long largest,
                               const unsigned long answer[2], unsigned char out[TALLY_ROOM]);

/* ---- one CH450 on two wires ---- */

#define SIX 6                                           /* digits, DIG2 to DIG7 */
#define MOST_COMMANDS 64
#define COMMAND_SAMPLES 40ul

struct ch450 {
    /* the lines: the previous sample, whether a transfer runs, its rises (20 is any more than 19), the bytes taken so far */
    unsigned char levels, running, rises, byte1, byte2;
    /* the settings, and the display */
    unsigned char sleep, intens, keyb, disp, digits[SIX];
};
enum obeyed { NO_COMMAND, COMMAND, READ_COMMAND };      /* at a sample */

/* Awake, with parameters 0 and idle lines. */
void ch450_start(struct ch450 *c, const unsigned char digits[SIX]);

/* DIG2 first. */
void ch450_lit(const struct ch450 *c, unsigned char segments[SIX]);

/* Plays a block; the third number is how many reads were answered with the key code. The record is one of this twin's runs. */
void twin_ch450_play(struct ch450 *c, unsigned long key, const unsigned char *samples, unsigned long count, unsigned long answer[3]);

/* A command is 0, SLEEP, INTENS, KEYB, DISP, or 1, DIG (2 to 7), data, or 2 for a read; its word is byte 1 * 256 + byte 2, which is 0 for
 * a read. The writer takes words of parameters and digits. */
void twin_ch450_encode(const unsigned long command[5], unsigned long answer[3]);
void twin_ch450_write(const unsigned short *words, unsigned long count, unsigned char *out, unsigned long room,
                      unsigned long answer[3]);

/* The text of two wires. A command takes 40 samples, so 80 bytes of text; at the end comes a refusal. */
#define WIRES_ROOM(line) (LONGEST_TEXT / (2 * COMMAND_SAMPLES) * (line) + 13)
enum { READ_LINES = 12, PANEL_LINE = 15 };              /* bytes of a line 42 with its 43, of a line 44 */

void twin_ch450_replay(const unsigned char *text, unsigned long length, unsigned char out[WIRES_ROOM(READ_LINES)],
                       unsigned long answer[3]);

/* The same for the segments lit, in place of commands and answers. */
void twin_ch450_screen(const unsigned char *text, unsigned long length, unsigned char out[WIRES_ROOM(PANEL_LINE)],
                       unsigned long answer[3]);

/* ---- kiosk settings, C-16 ---- */

enum { SETTING_ROWS = 4 };                              /* system, display, blink, custom */
#define SETTINGS_LENGTH(n) (7 + 13 * (n))               /* bytes of a text for n chips */

/* The capture text that sets n chips: the first line, and lines of 32 samples, of which the last has 8. */
#define SETUP_SAMPLES(n) (SETTING_ROWS * (24 * (n) + 2))
#define SETUP_ROOM (7 + 2 * SETUP_SAMPLES(MOST) + 3 * (SETUP_SAMPLES(MOST) / 32 + 1))

/* What is kept of a chip; any number may stand there, and one out of its field's range is refusal 9. */
struct kept {
    unsigned long intm, sspd, dplr, keyb, disp, mode, limit, blink, custom;
};

struct settings {
    unsigned long n;
    struct kept chips[MOST];                            /* those from n on aren't looked at */
};

/* Refused, the settings are zeros; so are those of chips from n on. */
void twin_settings_read(const unsigned char *text, unsigned long length, struct settings *s, unsigned long answer[2]);

/* The third number is how many bytes, or how many words row by row, were written. Refused, the buffer is left as it was. */
void twin_settings_write(const struct settings *s, unsigned char *out, unsigned long room, unsigned long answer[3]);
void twin_settings_rows(const struct settings *s, unsigned short words[SETTING_ROWS * MOST], unsigned long answer[3]);

/* A text that comes in pieces: started, handed over, ended. */
struct settings_reading {
    struct settings settings;                           /* n is 0 before the first line */
    unsigned long number, place;                        /* of the refusal */
    unsigned long lines;                                /* that were taken */
    unsigned size;                                      /* of the line that hasn't ended; 13 is any more than 12 */
    unsigned char line[13];
};

void settings_start(struct settings_reading *r);
void settings_bytes(struct settings_reading *r, const unsigned char *bytes, unsigned long count);
void settings_end(struct settings_reading *r);

/* After the end: the text written again, or the capture text of its rows, or the line of a refusal, which is the reading's or, of rows, the
 * writer's; the third number is how many bytes that is. */
void settings_told(const struct settings_reading *r, int rows, unsigned char out[SETUP_ROOM], unsigned long answer[3]);

#endif
